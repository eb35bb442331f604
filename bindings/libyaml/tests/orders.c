/* Calls in orders that are made by chance, as far as libyaml's asserts allow them, with texts of files and texts that mean little,
 * readers and writers that fail, objects that are deleted early, and allocations that are refused at times. It is built with
 * sanitizers, and judges that each parser, emitter, document and event frees all its blocks.
 *
 *     orders COUNT FILE..     linked with --wrap for malloc, calloc, realloc and free */
#include <stdio.h>
#include <stdlib.h>
#include <string.h>
#include <yaml.h>

static unsigned long long state = 0x9E3779B97F4A7C15;
static unsigned refused; /* how many allocations of a thousand */
static long blocks;
static unsigned char *text; /* of a file, and what of it a reader has left */
static size_t text_len, read_len;
static int may_fail;

/* A number below that one. */
static int any(unsigned below)
{
    state ^= state << 13;
    state ^= state >> 7;
    state ^= state << 17;
    return (int)((state >> 11) % below);
}

static const yaml_char_t *one_of(const char *const *words, unsigned count)
{
    return (const yaml_char_t *)words[any(count)];
}

/* ---- memory */

void *__real_malloc(size_t size);
void *__real_calloc(size_t count, size_t size);
void *__real_realloc(void *block, size_t size);
void __real_free(void *block);

static int is_refused(void)
{
    return refused && (unsigned)any(1000) < refused;
}

static void *counted(void *block)
{
    blocks += block != NULL;
    return block;
}

void *__wrap_malloc(size_t size)
{
    return is_refused() ? NULL : counted(__real_malloc(size));
}

void *__wrap_calloc(size_t count, size_t size)
{
    return is_refused() ? NULL : counted(__real_calloc(count, size));
}

void *__wrap_realloc(void *block, size_t size)
{
    if (is_refused())
        return NULL;
    return block ? __real_realloc(block, size) : counted(__real_malloc(size));
}

void __wrap_free(void *block)
{
    blocks -= block != NULL;
    __real_free(block);
}

/* ---- handlers */

static int read_some(void *data, unsigned char *buffer, size_t size, size_t *size_read)
{
    size_t len = (size_t)any(64) + 1, left = text_len - read_len;
    (void)data;
    if (may_fail && !any(5))
        return 0;
    len = len < left ? len : left;
    len = len < size ? len : size;
    memcpy(buffer, text + read_len, len);
    read_len += len;
    *size_read = len;
    return 1;
}

static int write_some(void *data, unsigned char *buffer, size_t size)
{
    volatile unsigned char all = 0;
    (void)data;
    for (size_t i = 0; i < size; i++)
        all ^= buffer[i];
    (void)all;
    return !(may_fail && !any(6));
}

/* ---- what is given */

static yaml_char_t *a_value(void)
{
    static const char *const words[] = {"a", "x y", "", "\xC3\xA9", "- b", "#c", "true", "&", "\n", "a\nb", "\t", "id001", "!", "\x01",
                                        "\xF0\x9F\x98\x80", "long text with blanks, over and over, long text with blanks, over and over"};
    return (yaml_char_t *)one_of(words, sizeof words / sizeof *words);
}

static yaml_char_t *a_tag(void)
{
    static const char *const tags[] = {NULL, NULL, "!", "!t", "tag:yaml.org,2002:str", "tag:yaml.org,2002:seq", "", "!e!x"};
    return (yaml_char_t *)one_of(tags, sizeof tags / sizeof *tags);
}

static yaml_char_t *an_anchor(void)
{
    static const char *const names[] = {NULL, NULL, NULL, "a", "b1", "", "a b", "\xC3\xA9"};
    return (yaml_char_t *)one_of(names, sizeof names / sizeof *names);
}

static int start_document(yaml_event_t *event)
{
    yaml_version_directive_t version = {1, any(4)};
    yaml_tag_directive_t directives[] = {{(yaml_char_t *)"!e!", (yaml_char_t *)"tag:e,2000:"}, {(yaml_char_t *)"!", (yaml_char_t *)"x"}};
    return yaml_document_start_event_initialize(event, any(2) ? &version : NULL, directives, directives + any(3), any(2));
}

static int make_event(yaml_event_t *event)
{
    switch (any(12)) {
    case 0: return yaml_stream_start_event_initialize(event, (yaml_encoding_t)any(4));
    case 1: return yaml_stream_end_event_initialize(event);
    case 2: return start_document(event);
    case 3: return yaml_document_end_event_initialize(event, any(2));
    case 4: return yaml_alias_event_initialize(event, (yaml_char_t *)"a");
    case 5: return yaml_sequence_start_event_initialize(event, an_anchor(), a_tag(), any(2), (yaml_sequence_style_t)any(3));
    case 6: return yaml_sequence_end_event_initialize(event);
    case 7: return yaml_mapping_start_event_initialize(event, an_anchor(), a_tag(), any(2), (yaml_mapping_style_t)any(3));
    case 8: return yaml_mapping_end_event_initialize(event);
    default:
        return yaml_scalar_event_initialize(event, an_anchor(), a_tag(), a_value(), -1, any(2), any(2), (yaml_scalar_style_t)any(6));
    }
}

static int nodes_of(const yaml_document_t *document)
{
    return (int)(document->nodes.top - document->nodes.start);
}

/* Puts a node into another, where that takes one. */
static void hold(yaml_document_t *document)
{
    unsigned count = (unsigned)nodes_of(document);
    int at = any(count) + 1;
    yaml_node_type_t type = yaml_document_get_node(document, at)->type;
    if (type == YAML_SEQUENCE_NODE)
        yaml_document_append_sequence_item(document, at, any(count) + 1);
    else if (type == YAML_MAPPING_NODE)
        yaml_document_append_mapping_pair(document, at, any(count) + 1, any(count) + 1);
}

static int make_document(yaml_document_t *document)
{
    if (!yaml_document_initialize(document, NULL, NULL, NULL, any(2), any(2)))
        return 0;
    for (int i = any(12); i > 0; i--) {
        switch (any(3)) {
        case 0: yaml_document_add_scalar(document, a_tag(), a_value(), -1, (yaml_scalar_style_t)any(6)); break;
        case 1: yaml_document_add_sequence(document, a_tag(), (yaml_sequence_style_t)any(3)); break;
        default: yaml_document_add_mapping(document, a_tag(), (yaml_mapping_style_t)any(3));
        }
        for (int k = 0; k < 3 && nodes_of(document); k++)
            hold(document);
    }
    return 1;
}

/* ---- a parser */

/* Looks at all that a fault names. */
static void look(const yaml_parser_t *parser)
{
    volatile size_t all = 0;
    for (const unsigned char *it = parser->buffer.start; it < parser->buffer.last; it++)
        all += *it;
    if (parser->error == YAML_MEMORY_ERROR)
        return;
    all += *parser->buffer.pointer + strlen(parser->problem) + (parser->context ? strlen(parser->context) : 0);
    (void)all;
}

static void ask(yaml_parser_t *parser, int kind)
{
    yaml_event_t event;
    yaml_token_t token;
    yaml_document_t document;
    if (kind == 0 && yaml_parser_parse(parser, &event))
        yaml_event_delete(&event);
    if (kind == 1 && yaml_parser_scan(parser, &token))
        yaml_token_delete(&token);
    if (kind == 2 && yaml_parser_load(parser, &document))
        yaml_document_delete(&document);
}

static void try_parser(void)
{
    yaml_parser_t parser;
    int kind = any(4), count = any(3) ? any(60) : 600;
    if (yaml_parser_initialize(&parser) && any(20)) {
        read_len = 0;
        if (any(2))
            yaml_parser_set_input(&parser, read_some, NULL);
        else
            yaml_parser_set_input_string(&parser, text, text_len);
        if (!any(4))
            yaml_parser_set_encoding(&parser, (yaml_encoding_t)any(4));
        while (count-- && !(parser.error && !any(3))) {
            /* documents aren't asked for within one */
            ask(&parser, kind < 3 ? kind : any(parser.stream_start_produced ? 2 : 3));
            if (parser.error)
                look(&parser);
        }
    }
    yaml_parser_delete(&parser);
}

/* ---- an emitter */

static void set(yaml_emitter_t *emitter)
{
    switch (any(5)) {
    case 0: yaml_emitter_set_canonical(emitter, any(2)); break;
    case 1: yaml_emitter_set_indent(emitter, any(14) - 2); break;
    case 2: yaml_emitter_set_width(emitter, any(100) - 3); break;
    case 3: yaml_emitter_set_unicode(emitter, any(2)); break;
    default: yaml_emitter_set_break(emitter, (yaml_break_t)any(4));
    }
}

static void emit(yaml_emitter_t *emitter)
{
    yaml_event_t event;
    if (make_event(&event) && any(20))
        yaml_emitter_emit(emitter, &event);
    else
        yaml_event_delete(&event);
}

static void dump(yaml_emitter_t *emitter)
{
    yaml_document_t document;
    if (!any(8) && !emitter->opened)
        yaml_emitter_open(emitter);
    else if (!any(20) && emitter->opened)
        yaml_emitter_close(emitter);
    else if (make_document(&document) && any(9))
        yaml_emitter_dump(emitter, &document);
    else
        yaml_document_delete(&document);
}

/* Emits the events of the text, with others between them at times. */
static void repeat(yaml_emitter_t *emitter, yaml_parser_t *parser)
{
    yaml_event_t event;
    if (!any(50))
        emit(emitter);
    else if (yaml_parser_parse(parser, &event) && event.type)
        yaml_emitter_emit(emitter, &event);
}

static void try_emitter(void)
{
    static unsigned char room[4096];
    yaml_emitter_t emitter;
    yaml_parser_t parser;
    size_t written;
    int kind = any(3), count = any(kind ? 80 : 2000);
    int is_there = yaml_parser_initialize(&parser);
    if (yaml_emitter_initialize(&emitter) && is_there) {
        yaml_parser_set_input_string(&parser, text, text_len);
        if (any(2))
            yaml_emitter_set_encoding(&emitter, (yaml_encoding_t)any(4));
        if (any(3))
            yaml_emitter_set_output(&emitter, write_some, NULL);
        else
            yaml_emitter_set_output_string(&emitter, room, (size_t)any(sizeof room), &written);
        while (count-- && !(emitter.error && !any(3))) {
            if (!any(10))
                set(&emitter);
            else if (!any(20) && emitter.encoding)
                yaml_emitter_flush(&emitter);
            else if (kind == 0)
                repeat(&emitter, &parser);
            else if (kind == 1)
                emit(&emitter);
            else
                dump(&emitter);
        }
    }
    yaml_emitter_delete(&emitter);
    yaml_parser_delete(&parser);
}

static int read_file(const char *path)
{
    FILE *file = fopen(path, "rb");
    long len = -1;
    if (file && !fseek(file, 0, SEEK_END) && (len = ftell(file)) >= 0) {
        rewind(file);
        __real_free(text);
        text = __real_malloc((size_t)len + 1);
        text_len = fread(text, 1, (size_t)len, file);
    }
    if (file)
        fclose(file);
    return len >= 0;
}

int main(int count, char **words)
{
    long turns = atol(words[1]);
    for (long i = 0; i < turns; i++) {
        if (!read_file(words[2 + any((unsigned)count - 2)]))
            return 2;
        long before = blocks;
        refused = any(3) ? 0 : 20;
        may_fail = !any(4);
        if (any(2))
            try_parser();
        else
            try_emitter();
        refused = 0;
        if (blocks != before) {
            printf("orders: turn %ld leaves %ld blocks\n", i, blocks - before);
            return 1;
        }
    }
    __real_free(text);
    printf("orders: %ld turns, 0 wrong\n", turns);
    return 0;
}
