/* The peer of the benchmark, over the C library libyaml: peer canonical|pretty|docs|events FILE.
   canonical and pretty: the file's events are emitted again, into memory, and then written at once.
   docs: the file's documents are loaded, and dumped again in canonical form.
   events: a line for each event is gathered in memory, and then written at once. */

#include <stdio.h>
#include <stdlib.h>
#include <string.h>
#include <yaml.h>

typedef struct {
    unsigned char *bytes;
    size_t length, capacity;
} text_t;

static void fail(const char *what)
{
    fprintf(stderr, "peer: %s\n", what);
    exit(1);
}

static int append(void *data, unsigned char *bytes, size_t length)
{
    text_t *text = data;
    if (text->capacity - text->length < length) {
        size_t wanted = text->capacity * 2 + length;
        unsigned char *grown = realloc(text->bytes, wanted);
        if (!grown)
            return 0;
        text->bytes = grown;
        text->capacity = wanted;
    }
    memcpy(text->bytes + text->length, bytes, length);
    text->length += length;
    return 1;
}

static text_t read_file(const char *name)
{
    text_t text = {0};
    unsigned char buffer[65536];
    size_t got;
    FILE *file = fopen(name, "rb");
    if (!file)
        fail("the file does not open");
    while ((got = fread(buffer, 1, sizeof buffer, file)) > 0)
        if (!append(&text, buffer, got))
            fail("no memory");
    fclose(file);
    return text;
}

static void open_emitter(yaml_emitter_t *emitter, text_t *out, int canonical)
{
    if (!yaml_emitter_initialize(emitter))
        fail("no memory");
    yaml_emitter_set_output(emitter, append, out);
    yaml_emitter_set_canonical(emitter, canonical);
    yaml_emitter_set_unicode(emitter, 1);
}

static void emit_again(yaml_parser_t *parser, text_t *out, int canonical)
{
    yaml_emitter_t emitter;
    yaml_event_t event;
    int done = 0;
    open_emitter(&emitter, out, canonical);
    while (!done) {
        if (!yaml_parser_parse(parser, &event))
            fail(parser->problem);
        done = event.type == YAML_STREAM_END_EVENT;
        if (!yaml_emitter_emit(&emitter, &event))
            fail(emitter.problem);
    }
    yaml_emitter_delete(&emitter);
}

static void put(text_t *out, const char *words)
{
    if (!append(out, (unsigned char *)words, strlen(words)))
        fail("no memory");
}

static void put_property(text_t *out, const char *name, const yaml_char_t *value)
{
    if (value) {
        put(out, name);
        put(out, (const char *)value);
    }
}

/* A byte for a byte, except what a line cannot hold. */
static void put_value(text_t *out, const yaml_char_t *value, size_t length)
{
    for (size_t i = 0; i < length; i++) {
        char escaped[5];
        if (value[i] == '\n')
            put(out, "\\n");
        else if (value[i] == '\\')
            put(out, "\\\\");
        else if (value[i] < 32) {
            snprintf(escaped, sizeof escaped, "\\x%02X", value[i]);
            put(out, escaped);
        } else if (!append(out, (unsigned char *)&value[i], 1))
            fail("no memory");
    }
}

static void put_event(text_t *out, const yaml_event_t *event)
{
    static const char *names[] = {"no", "+STR", "-STR", "+DOC", "-DOC", "=ALI", "=VAL", "+SEQ", "-SEQ", "+MAP", "-MAP"};
    put(out, names[event->type]);
    switch (event->type) {
    case YAML_ALIAS_EVENT:
        put_property(out, " *", event->data.alias.anchor);
        break;
    case YAML_SCALAR_EVENT:
        put_property(out, " &", event->data.scalar.anchor);
        put_property(out, " ", event->data.scalar.tag);
        put(out, " :");
        put_value(out, event->data.scalar.value, event->data.scalar.length);
        break;
    case YAML_SEQUENCE_START_EVENT:
        put_property(out, " &", event->data.sequence_start.anchor);
        put_property(out, " ", event->data.sequence_start.tag);
        break;
    case YAML_MAPPING_START_EVENT:
        put_property(out, " &", event->data.mapping_start.anchor);
        put_property(out, " ", event->data.mapping_start.tag);
        break;
    default:
        break;
    }
    put(out, "\n");
}

static void list_events(yaml_parser_t *parser, text_t *out)
{
    yaml_event_t event;
    int done = 0;
    while (!done) {
        if (!yaml_parser_parse(parser, &event))
            fail(parser->problem);
        done = event.type == YAML_STREAM_END_EVENT;
        put_event(out, &event);
        yaml_event_delete(&event);
    }
}

static void start_over(yaml_parser_t *parser, const text_t *text)
{
    if (!yaml_parser_initialize(parser))
        fail("no memory");
    yaml_parser_set_input_string(parser, text->bytes, text->length);
}

/* Each document is loaded, and dumped before the next one is. */
static void dump_again(yaml_parser_t *parser, text_t *out)
{
    yaml_emitter_t emitter;
    yaml_document_t document;
    int done = 0;
    open_emitter(&emitter, out, 1);
    if (!yaml_emitter_open(&emitter))
        fail(emitter.problem);
    while (!done) {
        if (!yaml_parser_load(parser, &document))
            fail(parser->problem);
        done = !yaml_document_get_root_node(&document);
        if (done)
            yaml_document_delete(&document);
        else if (!yaml_emitter_dump(&emitter, &document))
            fail(emitter.problem);
    }
    if (!yaml_emitter_close(&emitter))
        fail(emitter.problem);
    yaml_emitter_delete(&emitter);
}

int main(int count, char **words)
{
    yaml_parser_t parser;
    text_t input, out = {0};
    if (count != 3)
        fail("usage: peer canonical|pretty|docs|events FILE");
    input = read_file(words[2]);
    start_over(&parser, &input);
    if (strcmp(words[1], "events") == 0)
        list_events(&parser, &out);
    else if (strcmp(words[1], "docs") == 0)
        dump_again(&parser, &out);
    else
        emit_again(&parser, &out, strcmp(words[1], "canonical") == 0);
    if (fwrite(out.bytes, 1, out.length, stdout) != out.length || fflush(stdout))
        fail("the output is not taken");
    yaml_parser_delete(&parser);
    free(input.bytes);
    free(out.bytes);
    return 0;
}
