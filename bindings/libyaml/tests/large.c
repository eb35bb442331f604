/* Much, and deep: 20 MB in block style, of documents and in flow style, as a handler gives them, take at most 50 MB; as many
 * brackets as libyaml takes minutes for take seconds at most; and collections in one another are loaded, dumped and deleted by a
 * stack that has no room for a call of each (the test's script sees to that).
 *
 *     large */
#define _DEFAULT_SOURCE
#include <yaml.h>

#include <sys/resource.h>
#include <time.h>

enum { MUCH = 20 << 20, MOST_KB = 50 << 10, BRACKETS = 200000, DEEP = 20000, MOST_SECONDS = 5 };

static int wrong;

#define EXPECT(condition)                                                          \
    do {                                                                           \
        if (!(condition)) {                                                        \
            wrong++;                                                               \
            printf("large.c:%d: %s\n", __LINE__, #condition);                      \
        }                                                                          \
    } while (0)

/* What a handler gives: what comes first, and then the piece again and again. */
typedef struct {
    const char *front, *piece;
    size_t given;
} pieces;

static int give(void *data, unsigned char *buffer, size_t size, size_t *size_read)
{
    pieces *it = data;
    const char *text = it->given ? it->piece : it->front;
    size_t len = strlen(text);
    *size_read = 0;
    while (size >= *size_read + len && it->given < MUCH) {
        memcpy(buffer + *size_read, text, len);
        *size_read += len;
        it->given += len;
        text = it->piece;
        len = strlen(text);
    }
    return 1;
}

static long peak_kb(void)
{
    struct rusage used;
    getrusage(RUSAGE_SELF, &used);
    return used.ru_maxrss;
}

/* How many events there are up to the end or the fault. */
static size_t read_all(yaml_parser_t *parser)
{
    yaml_event_t event;
    size_t len = 0;
    int is_going_on = 1;
    while (is_going_on && yaml_parser_parse(parser, &event)) {
        is_going_on = event.type != YAML_STREAM_END_EVENT;
        yaml_event_delete(&event);
        len++;
    }
    return len;
}

/* Reads 20 MB of such pieces, each of that many events. */
static void much(const char *front, const char *piece, size_t events)
{
    yaml_parser_t parser;
    pieces given = {front, piece, 0};
    clock_t from = clock();
    yaml_parser_initialize(&parser);
    yaml_parser_set_input(&parser, give, &given);
    size_t len = read_all(&parser);
    EXPECT(len > MUCH / strlen(piece) * events);
    yaml_parser_delete(&parser);
    EXPECT(peak_kb() < MOST_KB);
    EXPECT(clock() - from < MOST_SECONDS * CLOCKS_PER_SEC);
}

static void brackets(void)
{
    static unsigned char text[BRACKETS];
    yaml_parser_t parser;
    clock_t from = clock();
    memset(text, '[', sizeof text);
    yaml_parser_initialize(&parser);
    yaml_parser_set_input_string(&parser, text, sizeof text);
    EXPECT(read_all(&parser) == BRACKETS + 2);
    EXPECT(parser.error == YAML_PARSER_ERROR && parser.problem_mark.index == BRACKETS);
    yaml_parser_delete(&parser);
    EXPECT(clock() - from < MOST_SECONDS * CLOCKS_PER_SEC);
}

static int count(void *data, unsigned char *buffer, size_t size)
{
    size_t *open = data;
    for (size_t i = 0; i < size; i++)
        *open += buffer[i] == '[';
    return 1;
}

/* Loads a document of collections in one another, and dumps or deletes it. */
static void deep(int is_dumped)
{
    static unsigned char text[2 * DEEP];
    yaml_parser_t parser;
    yaml_emitter_t emitter;
    yaml_document_t document;
    size_t open = 0;
    memset(text, '[', DEEP);
    memset(text + DEEP, ']', DEEP);
    yaml_parser_initialize(&parser);
    yaml_parser_set_input_string(&parser, text, sizeof text);
    yaml_emitter_initialize(&emitter);
    yaml_emitter_set_output(&emitter, count, &open);
    yaml_emitter_set_width(&emitter, -1);
    EXPECT(yaml_parser_load(&parser, &document));
    EXPECT(yaml_document_get_node(&document, DEEP) && !yaml_document_get_node(&document, DEEP + 1));
    if (is_dumped) {
        EXPECT(yaml_emitter_dump(&emitter, &document) && yaml_emitter_close(&emitter));
        EXPECT(open == DEEP);
    } else {
        yaml_document_delete(&document);
    }
    yaml_parser_delete(&parser);
    yaml_emitter_delete(&emitter);
}

int main(void)
{
    much("a: b\n", "key: {x: 1, y: [2, 3]}\nnext:\n  - word 1\n  - 'word 2'\n", 15);
    much("a\n", "---\nkey: value\nnext:\n- item\n", 10);
    much("[", "{\"id\": 17, \"name\": \"some words\"}, ", 6);
    brackets();
    deep(0);
    deep(1);
    printf("large: 60 MB in %ld KB at most, %d brackets, collections %d deep; %d wrong\n", peak_kb(), BRACKETS, DEEP, wrong);
    return wrong != 0;
}
