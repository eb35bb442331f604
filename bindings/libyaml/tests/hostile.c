/* Hostile use: each file parsed and emitted with flushes, with events left out, from a reader of single bytes and into a writer
 * that fails; loaded and dumped; scanned; read by a reader that fails. What is answered isn't looked at: it is built with
 * AddressSanitizer and UBSan, which stop at a wrong access or a block that is left.
 *
 *     hostile FILE.. */
#include <yaml.h>

static unsigned char *text;
static size_t len;
static unsigned long sum;

static int take(void *data, unsigned char *buffer, size_t size)
{
    (void)data;
    for (size_t i = 0; i < size; i++)
        sum = sum * 31 + buffer[i];
    return 1;
}

/* Takes some bytes, and then no more. */
static int take_few(void *data, unsigned char *buffer, size_t size)
{
    size_t *left = data;
    (void)buffer;
    if (*left < size)
        return 0;
    *left -= size;
    return 1;
}

static int give_byte(void *data, unsigned char *buffer, size_t size, size_t *size_read)
{
    size_t *at = data;
    *size_read = size && *at < len;
    if (*size_read)
        buffer[0] = text[(*at)++];
    return 1;
}

/* Gives some bytes, and then fails. */
static int give_few(void *data, unsigned char *buffer, size_t size, size_t *size_read)
{
    size_t *left = data;
    if (!*left || !give_byte(data, buffer, size, size_read))
        return 0;
    *left += 2;
    return *left < 9;
}

typedef struct {
    int canonical, unicode, flush, by_byte, utf16, leave_out, fails;
} how;

static void emit(const how *h)
{
    yaml_parser_t parser;
    yaml_emitter_t emitter;
    yaml_event_t event;
    size_t at = 0, room = 20;
    int done = 0;
    yaml_parser_initialize(&parser);
    yaml_emitter_initialize(&emitter);
    if (h->by_byte)
        yaml_parser_set_input(&parser, give_byte, &at);
    else
        yaml_parser_set_input_string(&parser, text, len);
    yaml_emitter_set_canonical(&emitter, h->canonical);
    yaml_emitter_set_unicode(&emitter, h->unicode);
    if (h->utf16)
        yaml_emitter_set_encoding(&emitter, YAML_UTF16BE_ENCODING);
    yaml_emitter_set_output(&emitter, h->fails ? take_few : take, &room);
    for (int n = 0; !done && n < 400 && yaml_parser_parse(&parser, &event); n++) {
        done = event.type == YAML_STREAM_END_EVENT || event.type == YAML_NO_EVENT;
        if (h->leave_out && n % h->leave_out == 3)
            yaml_event_delete(&event);
        else if (!yaml_emitter_emit(&emitter, &event))
            break;
        if (h->flush && n % 5 == 0)
            yaml_emitter_flush(&emitter);
    }
    sum = sum * 7 + (unsigned)emitter.error + (unsigned)parser.error;
    if (yaml_parser_parse(&parser, &event))
        yaml_event_delete(&event);
    yaml_parser_delete(&parser);
    yaml_emitter_delete(&emitter);
}

static void dump(void)
{
    yaml_parser_t parser;
    yaml_emitter_t emitter;
    yaml_document_t document;
    yaml_parser_initialize(&parser);
    yaml_emitter_initialize(&emitter);
    yaml_parser_set_input_string(&parser, text, len);
    yaml_emitter_set_output(&emitter, take, NULL);
    for (int n = 0; yaml_parser_load(&parser, &document); n++) {
        if (!yaml_document_get_root_node(&document)) {
            yaml_document_delete(&document);
            break;
        }
        if (n % 3 == 2)
            yaml_document_delete(&document);
        else if (!yaml_emitter_dump(&emitter, &document))
            break;
    }
    if (emitter.opened)
        yaml_emitter_close(&emitter);
    sum = sum * 7 + (unsigned)emitter.error + (unsigned)parser.error;
    yaml_parser_delete(&parser);
    yaml_emitter_delete(&emitter);
}

/* The tokens, and then events of the same parser, of which there are none. */
static void scan(void)
{
    yaml_parser_t parser;
    yaml_token_t token;
    yaml_event_t event;
    int done = 0;
    yaml_parser_initialize(&parser);
    yaml_parser_set_input_string(&parser, text, len);
    while (!done && yaml_parser_scan(&parser, &token)) {
        done = token.type == YAML_STREAM_END_TOKEN || token.type == YAML_NO_TOKEN;
        yaml_token_delete(&token);
        done |= len % 3 == 0; /* in the midst of them, of some files */
    }
    if (yaml_parser_parse(&parser, &event))
        yaml_event_delete(&event);
    yaml_parser_delete(&parser);
}

/* A reader that fails: at its first call, or after some bytes. */
static void fail(size_t given)
{
    yaml_parser_t parser;
    yaml_event_t event;
    int is_parsed;
    yaml_parser_initialize(&parser);
    yaml_parser_set_input(&parser, give_few, &given);
    do {
        is_parsed = yaml_parser_parse(&parser, &event);
        if (is_parsed)
            yaml_event_delete(&event);
    } while (is_parsed && !parser.stream_end_produced);
    sum = sum * 7 + (unsigned)parser.error;
    yaml_parser_delete(&parser);
}

int main(int argc, char **argv)
{
    static const how ways[] = {
        {0, 0, 0, 0, 0, 0, 0}, {1, 1, 1, 0, 0, 0, 0}, {0, 1, 1, 1, 1, 0, 0}, {0, 0, 0, 1, 0, 7, 0}, {0, 1, 0, 1, 0, 9, 0}, {0, 1, 1, 0, 0, 0, 1},
    };
    for (int i = 1; i < argc; i++) {
        FILE *file = fopen(argv[i], "rb");
        if (!file)
            return 2;
        text = malloc(1 << 16);
        len = fread(text, 1, 1 << 16, file);
        fclose(file);
        text = realloc(text, len ? len : 1); /* so that a read past its end is seen */
        for (size_t k = 0; k < sizeof ways / sizeof *ways; k++)
            emit(&ways[k]);
        dump();
        scan();
        fail(0);
        fail(1);
        free(text);
    }
    printf("hostile: %d files, sum %lx\n", argc - 1, sum);
    return 0;
}
