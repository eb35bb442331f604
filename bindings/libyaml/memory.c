/* Versions, memory, texts. */
#include "layer.h"

YAML_DECLARE(const char *) yaml_get_version_string(void)
{
    return "0.2.5";
}

YAML_DECLARE(void) yaml_get_version(int *major, int *minor, int *patch)
{
    *major = 0;
    *minor = 2;
    *patch = 5;
}

YAML_DECLARE(void *) yaml_malloc(size_t size)
{
    return malloc(size ? size : 1);
}

YAML_DECLARE(void *) yaml_realloc(void *block, size_t size)
{
    return realloc(block, size ? size : 1);
}

YAML_DECLARE(void) yaml_free(void *block)
{
    free(block);
}

YAML_DECLARE(yaml_char_t *) yaml_strdup(const yaml_char_t *text)
{
    return text ? layer_copy(text, strlen((const char *)text)) : NULL;
}

int layer_make_room(layer_bytes *bytes, size_t len)
{
    size_t room = bytes->room ? bytes->room : 256;
    while (room - bytes->len < len) {
        if (room > SIZE_MAX / 2)
            return 0;
        room *= 2;
    }
    if (room == bytes->room)
        return 1;
    uint8_t *at = realloc(bytes->at, room);
    if (!at)
        return 0;
    bytes->at = at;
    bytes->room = room;
    return 1;
}

void *layer_grown(void *block, size_t len, size_t item, size_t *room)
{
    size_t more = len < 8 ? 16 : len * 2;
    if (len >= INT_MAX - 1)
        return NULL;
    void *found = realloc(block, more * item);
    if (found)
        *room = more;
    return found;
}

/* How many bytes the character has that begins with this one; 0: none does. */
static size_t width_of(unsigned byte)
{
    if (byte < 0x80)
        return 1;
    if (byte >= 0xC2 && byte < 0xE0)
        return 2;
    if ((byte & 0xF0) == 0xE0)
        return 3;
    return byte >= 0xF0 && byte < 0xF5 ? 4 : 0;
}

/* The character that begins there, of that width, or 0xFFFFFFFF: what is there is none. */
static unsigned character(const yaml_char_t *text, size_t width)
{
    unsigned value = width == 1 ? text[0] : text[0] & (0xFFu >> (width + 1));
    for (size_t k = 1; k < width; k++) {
        if ((text[k] & 0xC0) != 0x80)
            return UINT32_MAX;
        value = value << 6 | (text[k] & 0x3Fu);
    }
    int is_wrong = (width == 3 && (value < 0x800 || (value >= 0xD800 && value < 0xE000)))
                   || (width == 4 && (value < 0x10000 || value > 0x10FFFF));
    return is_wrong ? UINT32_MAX : value;
}

int layer_is_wide(const yaml_char_t *text, size_t len)
{
    for (size_t i = 0; i < len;) {
        size_t width = width_of(text[i]);
        if (!width || width > len - i || character(text + i, width) == UINT32_MAX)
            return 0;
        i += width;
    }
    return 1;
}
