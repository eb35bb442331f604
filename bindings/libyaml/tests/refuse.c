/* Every allocation of a parse with its emission, and of loads with dumps, refused in turn, and then all from there on: each
 * run reports out of memory or goes well, and leaves no block.
 *
 * It is linked with libyaml.a and -Wl,--wrap=malloc,--wrap=calloc,--wrap=realloc,--wrap=free. */
#include <yaml.h>

void *__real_malloc(size_t size);
void *__real_calloc(size_t number, size_t size);
void *__real_realloc(void *block, size_t size);
void __real_free(void *block);

/* How many allocations go well before one is refused, or -1; whether all after it are. */
static long left = -1;
static int all_refused;
static long blocks, refusals;

static int is_refused(void)
{
    if (left < 0)
        return 0;
    if (left > 0) {
        left--;
        return 0;
    }
    refusals++;
    if (!all_refused)
        left = -1;
    return 1;
}

void *__wrap_malloc(size_t size)
{
    void *block = is_refused() ? NULL : __real_malloc(size);
    blocks += block != NULL;
    return block;
}

void *__wrap_calloc(size_t number, size_t size)
{
    void *block = is_refused() ? NULL : __real_calloc(number, size);
    blocks += block != NULL;
    return block;
}

void *__wrap_realloc(void *block, size_t size)
{
    void *found = is_refused() ? NULL : __real_realloc(block, size);
    blocks += found && !block;
    return found;
}

void __wrap_free(void *block)
{
    blocks -= block != NULL;
    __real_free(block);
}

static const char TEXT[] = "%YAML 1.1\n%TAG !e! tag:x,2000:\n--- !e!a\n- &x {k: v, \"long\": 'text', \xc3\xa9: ! b}\n- *x\n"
                           "- |\n  block\n...\n--- b\n--- {a: [1, 2, &z 3, *z]}\n--- |+\n  kept\n\n";

static int take(void *data, unsigned char *buffer, size_t size)
{
    (void)data;
    (void)buffer;
    (void)size;
    return 1;
}

static int by_bytes(void *data, unsigned char *buffer, size_t size, size_t *size_read)
{
    size_t *at = data;
    *size_read = size && *at < strlen(TEXT);
    if (*size_read)
        buffer[0] = (unsigned char)TEXT[(*at)++];
    return 1;
}

/* Whether all went well. */
static int emit_events(yaml_parser_t *parser, yaml_emitter_t *emitter)
{
    yaml_event_t event;
    for (int done = 0; !done;) {
        if (!yaml_parser_parse(parser, &event))
            return 0;
        done = event.type == YAML_STREAM_END_EVENT;
        if (!yaml_emitter_emit(emitter, &event))
            return 0;
    }
    return 1;
}

static int dump_documents(yaml_parser_t *parser, yaml_emitter_t *emitter)
{
    yaml_document_t document;
    for (int done = 0; !done;) {
        if (!yaml_parser_load(parser, &document))
            return 0;
        done = !yaml_document_get_root_node(&document);
        if (!yaml_emitter_dump(emitter, &document))
            return 0;
    }
    return 1;
}

static int scan(yaml_parser_t *parser)
{
    yaml_token_t token;
    for (int done = 0; !done;) {
        if (!yaml_parser_scan(parser, &token))
            return 0;
        done = token.type == YAML_STREAM_END_TOKEN;
        yaml_token_delete(&token);
    }
    return 1;
}

static int make_by_hand(void)
{
    yaml_document_t document;
    yaml_version_directive_t version = {1, 1};
    yaml_tag_directive_t directives[] = {{(yaml_char_t *)"!a!", (yaml_char_t *)"b"}, {(yaml_char_t *)"!c!", (yaml_char_t *)"d"}};
    if (!yaml_document_initialize(&document, &version, directives, directives + 2, 1, 1))
        return 0;
    int map = yaml_document_add_mapping(&document, NULL, YAML_ANY_MAPPING_STYLE);
    int list = yaml_document_add_sequence(&document, NULL, YAML_ANY_SEQUENCE_STYLE);
    int is_well = map && list;
    for (int i = 0; i < 40 && is_well; i++) {
        int item = yaml_document_add_scalar(&document, NULL, (const yaml_char_t *)"x", -1, YAML_ANY_SCALAR_STYLE);
        is_well = item && yaml_document_append_sequence_item(&document, list, item)
                  && yaml_document_append_mapping_pair(&document, map, item, item);
    }
    yaml_document_delete(&document);
    return is_well;
}

enum { EMIT, DUMP, SCAN, BY_HAND, WAYS };

/* The error, or 0. */
static int run(int way)
{
    yaml_parser_t parser;
    yaml_emitter_t emitter;
    size_t at = 0;
    int is_well = 0, error;
    if (way == BY_HAND)
        return make_by_hand() ? 0 : YAML_MEMORY_ERROR;
    int has_parser = yaml_parser_initialize(&parser), has_emitter = yaml_emitter_initialize(&emitter);
    if (has_parser && has_emitter) {
        yaml_parser_set_input(&parser, by_bytes, &at);
        yaml_emitter_set_output(&emitter, take, NULL);
        is_well = way == EMIT ? emit_events(&parser, &emitter) : way == DUMP ? dump_documents(&parser, &emitter) : scan(&parser);
    }
    error = is_well ? 0 : parser.error ? (int)parser.error : (int)emitter.error;
    yaml_parser_delete(&parser);
    yaml_emitter_delete(&emitter);
    return is_well ? 0 : error ? error : -1;
}

/* Whether a run with allocations refused after the first `number` is as it has to be; whether any was refused. */
static int is_right(int way, long number, int usual, int *was_refused)
{
    blocks = refusals = 0;
    left = number;
    int error = run(way);
    left = -1;
    *was_refused = refusals > 0;
    if (blocks == 0 && (error == usual || (refusals && error == YAML_MEMORY_ERROR)))
        return 1;
    printf("refuse: way %d, allocation %ld: %ld blocks left, error %d\n", way, number, blocks, error);
    return 0;
}

int main(void)
{
    long turns = 0, wrong = 0;
    for (int way = 0; way < WAYS; way++) {
        int usual = run(way);
        for (all_refused = 0; all_refused < 2; all_refused++) {
            int was_refused = 1;
            for (long number = 0; was_refused; number++, turns++)
                wrong += !is_right(way, number, usual, &was_refused);
        }
    }
    printf("refuse: %ld runs, %ld wrong\n", turns, wrong);
    return wrong != 0;
}
