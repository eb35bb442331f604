/* Documents, and the items of a long one, in flow style too, come before the reader is asked for more than what follows them, and within a document
 * output comes before it ends.
 * Linked with Debian's libyaml it reports the same of that.
 *
 *     promptly */
#include <yaml.h>

static int wrong;

#define EXPECT(condition)                                                             \
    do {                                                                              \
        if (!(condition)) {                                                           \
            wrong++;                                                                  \
            printf("promptly.c:%d: %s\n", __LINE__, #condition);                      \
        }                                                                             \
    } while (0)

/* Gives a document at each call; how many it gave. */
static int give(void *data, unsigned char *buffer, size_t size, size_t *size_read)
{
    static const char *const texts[] = {"a: b\n", "---\n- c\n", "--- |\n d\n", "---\ne\n"};
    int *given = data;
    *size_read = 0;
    if (*given < 4) {
        *size_read = strlen(texts[*given]);
        EXPECT(size >= *size_read);
        memcpy(buffer, texts[*given], *size_read);
    }
    ++*given;
    return 1;
}

static void reads(void)
{
    yaml_parser_t parser;
    yaml_event_t event;
    int given = 0, ended = 0;
    yaml_parser_initialize(&parser);
    yaml_parser_set_input(&parser, give, &given);
    while (!parser.stream_end_produced && yaml_parser_parse(&parser, &event)) {
        if (event.type == YAML_DOCUMENT_END_EVENT) {
            ended++;
            EXPECT(given == ended + 1);
            EXPECT(event.end_mark.line == (size_t)(ended == 1 ? 1 : ended * 2 - 1));
        }
        yaml_event_delete(&event);
    }
    EXPECT(!parser.error && ended == 4);
    yaml_parser_delete(&parser);
}

/* Gives an item at each call, 1,000 in all. */
static int give_item(void *data, unsigned char *buffer, size_t size, size_t *size_read)
{
    int *given = data;
    *size_read = *given < 1000 && size >= 4 ? 4 : 0;
    memcpy(buffer, "- a\n", *size_read);
    ++*given;
    return 1;
}

static void reads_items(void)
{
    yaml_parser_t parser;
    yaml_event_t event;
    int given = 0, items = 0;
    yaml_parser_initialize(&parser);
    yaml_parser_set_input(&parser, give_item, &given);
    while (!parser.stream_end_produced && yaml_parser_parse(&parser, &event)) {
        if (event.type == YAML_SCALAR_EVENT) {
            EXPECT(event.start_mark.line == (size_t)items && event.start_mark.index == (size_t)items * 4 + 2);
            items++;
            EXPECT(given <= items + 2);
        }
        yaml_event_delete(&event);
    }
    EXPECT(!parser.error && items == 1000);
    yaml_parser_delete(&parser);
}

/* Gives 4,096 bytes of pairs in lines at each call, 100 times, after a bracket, and what ends them. */
static int give_flow(void *data, unsigned char *buffer, size_t size, size_t *size_read)
{
    int *given = data;
    *size_read = *given < 100 && size >= 4096 ? 4096 : 0;
    for (size_t i = 0; i < *size_read; i += 8)
        memcpy(buffer + i, "\n{a: b},", 8);
    if (*size_read && *given == 0)
        memcpy(buffer, "[{a: b},", 8);
    if (*size_read && *given == 99)
        buffer[4095] = ']';
    ++*given;
    return 1;
}

static void reads_flow(void)
{
    yaml_parser_t parser;
    yaml_event_t event;
    int given = 0, pairs = 0;
    yaml_parser_initialize(&parser);
    yaml_parser_set_input(&parser, give_flow, &given);
    while (!parser.stream_end_produced && yaml_parser_parse(&parser, &event)) {
        if (event.type == YAML_MAPPING_START_EVENT) {
            EXPECT(event.start_mark.line == (size_t)pairs && event.start_mark.index == (size_t)pairs * 8 + 1);
            EXPECT(event.start_mark.column == (pairs ? 0 : 1));
            pairs++;
            EXPECT((size_t)given * 4096 <= event.end_mark.index + (1 << 15));
        }
        yaml_event_delete(&event);
    }
    EXPECT(!parser.error && pairs == 51200);
    yaml_parser_delete(&parser);
}

static int take(void *data, unsigned char *buffer, size_t size)
{
    (void)buffer;
    *(size_t *)data += size;
    return 1;
}

static void item(yaml_emitter_t *emitter, const char *text)
{
    yaml_event_t event;
    yaml_scalar_event_initialize(&event, NULL, NULL, (const yaml_char_t *)text, -1, 1, 1, YAML_PLAIN_SCALAR_STYLE);
    EXPECT(yaml_emitter_emit(emitter, &event));
}

static void writes(yaml_mapping_style_t style)
{
    yaml_emitter_t emitter;
    yaml_event_t event;
    size_t written = 0;
    yaml_emitter_initialize(&emitter);
    yaml_emitter_set_output(&emitter, take, &written);
    yaml_stream_start_event_initialize(&event, YAML_UTF8_ENCODING);
    EXPECT(yaml_emitter_emit(&emitter, &event));
    yaml_document_start_event_initialize(&event, NULL, NULL, NULL, 1);
    EXPECT(yaml_emitter_emit(&emitter, &event));
    yaml_mapping_start_event_initialize(&event, NULL, NULL, 1, style);
    EXPECT(yaml_emitter_emit(&emitter, &event));
    for (size_t i = 1; i <= 20000; i++) {
        item(&emitter, "key");
        item(&emitter, "some value");
        EXPECT(written + (1 << 16) > i * strlen("key: some value\n"));
    }
    EXPECT(written > 200000);
    yaml_emitter_delete(&emitter);
}

/* Has a sequence written with an event after ten items, and more items. How many events are taken after it before its fault is
 * reported, of at most ten. */
static int taken_behind(yaml_event_t *event, const char *problem)
{
    yaml_emitter_t emitter;
    yaml_event_t it;
    size_t written = 0;
    int taken = 0;
    yaml_emitter_initialize(&emitter);
    yaml_emitter_set_output(&emitter, take, &written);
    yaml_stream_start_event_initialize(&it, YAML_UTF8_ENCODING);
    EXPECT(yaml_emitter_emit(&emitter, &it));
    yaml_document_start_event_initialize(&it, NULL, NULL, NULL, 1);
    EXPECT(yaml_emitter_emit(&emitter, &it));
    yaml_sequence_start_event_initialize(&it, (const yaml_char_t *)"a-1", NULL, 1, YAML_BLOCK_SEQUENCE_STYLE);
    EXPECT(yaml_emitter_emit(&emitter, &it));
    for (int i = 0; i < 10; i++)
        item(&emitter, "x");
    for (int is_well = yaml_emitter_emit(&emitter, event); is_well && taken < 10; taken++) {
        yaml_scalar_event_initialize(&it, NULL, NULL, (const yaml_char_t *)"x", 1, 1, 1, YAML_PLAIN_SCALAR_STYLE);
        is_well = yaml_emitter_emit(&emitter, &it);
    }
    EXPECT(emitter.error == YAML_EMITTER_ERROR && !strcmp(emitter.problem, problem));
    yaml_emitter_delete(&emitter);
    return taken;
}

static void refuses(void)
{
    yaml_event_t event;
    const yaml_char_t *wrong_name = (const yaml_char_t *)"a b", *empty = (const yaml_char_t *)"", *text = (const yaml_char_t *)"x";
    yaml_alias_event_initialize(&event, wrong_name);
    EXPECT(taken_behind(&event, "alias value must contain alphanumerical characters only") == 0);
    yaml_alias_event_initialize(&event, empty);
    EXPECT(taken_behind(&event, "alias value must not be empty") == 0);
    yaml_scalar_event_initialize(&event, wrong_name, NULL, text, 1, 1, 1, YAML_PLAIN_SCALAR_STYLE);
    EXPECT(taken_behind(&event, "anchor value must contain alphanumerical characters only") == 0);
    yaml_scalar_event_initialize(&event, NULL, NULL, text, 1, 0, 0, YAML_PLAIN_SCALAR_STYLE);
    EXPECT(taken_behind(&event, "neither tag nor implicit flags are specified") == 0);
    yaml_scalar_event_initialize(&event, NULL, empty, text, 1, 0, 0, YAML_PLAIN_SCALAR_STYLE);
    EXPECT(taken_behind(&event, "tag value must not be empty") == 0);
    yaml_sequence_start_event_initialize(&event, empty, NULL, 1, YAML_BLOCK_SEQUENCE_STYLE);
    EXPECT(taken_behind(&event, "anchor value must not be empty") <= 2);
    yaml_mapping_start_event_initialize(&event, NULL, empty, 0, YAML_BLOCK_MAPPING_STYLE);
    EXPECT(taken_behind(&event, "tag value must not be empty") <= 3);
}

int main(void)
{
    reads();
    reads_items();
    reads_flow();
    writes(YAML_BLOCK_MAPPING_STYLE);
    writes(YAML_FLOW_MAPPING_STYLE);
    refuses();
    printf("promptly: %d wrong\n", wrong);
    return wrong != 0;
}
