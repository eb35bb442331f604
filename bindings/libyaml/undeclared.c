/* Stacks, queues and strings, as libyaml exports them without a declaration in its header. The layer uses none of them. */
#include "layer.h"

YAML_DECLARE(int) yaml_string_extend(yaml_char_t **start, yaml_char_t **pointer, yaml_char_t **end)
{
    size_t len = (size_t)(*end - *start), at = (size_t)(*pointer - *start);
    yaml_char_t *found = yaml_realloc(*start, len * 2);
    if (!found)
        return 0;
    memset(found + len, 0, len);
    *start = found;
    *pointer = found + at;
    *end = found + len * 2;
    return 1;
}

YAML_DECLARE(int)
yaml_string_join(yaml_char_t **a_start, yaml_char_t **a_pointer, yaml_char_t **a_end, yaml_char_t **b_start,
                 yaml_char_t **b_pointer, yaml_char_t **b_end)
{
    (void)b_end;
    size_t len = (size_t)(*b_pointer - *b_start);
    if (!len)
        return 1;
    while ((size_t)(*a_end - *a_pointer) <= len)
        if (!yaml_string_extend(a_start, a_pointer, a_end))
            return 0;
    memcpy(*a_pointer, *b_start, len);
    *a_pointer += len;
    return 1;
}

YAML_DECLARE(int) yaml_stack_extend(void **start, void **top, void **end)
{
    size_t len = (size_t)((char *)*end - (char *)*start), used = (size_t)((char *)*top - (char *)*start);
    if (len >= INT_MAX / 2)
        return 0;
    char *found = yaml_realloc(*start, len * 2);
    if (!found)
        return 0;
    *start = found;
    *top = found + used;
    *end = found + len * 2;
    return 1;
}

YAML_DECLARE(int) yaml_queue_extend(void **start, void **head, void **tail, void **end)
{
    if (*start == *head && *tail == *end) {
        size_t len = (size_t)((char *)*end - (char *)*start), used = (size_t)((char *)*tail - (char *)*start);
        char *found = yaml_realloc(*start, len * 2);
        if (!found)
            return 0;
        *start = *head = found;
        *tail = found + used;
        *end = found + len * 2;
    }
    if (*tail == *end) {
        size_t used = (size_t)((char *)*tail - (char *)*head);
        if (used)
            memmove(*start, *head, used);
        *head = *start;
        *tail = (char *)*start + used;
    }
    return 1;
}
