/* What libyaml exports without a declaration: each is called once, and judged; and what clients read of its private fields. It passes
 * over any libyaml. */
#include <yaml.h>

void *yaml_malloc(size_t size);
void *yaml_realloc(void *block, size_t size);
void yaml_free(void *block);
yaml_char_t *yaml_strdup(const yaml_char_t *text);
int yaml_string_extend(yaml_char_t **start, yaml_char_t **pointer, yaml_char_t **end);
int yaml_string_join(yaml_char_t **a_start, yaml_char_t **a_pointer, yaml_char_t **a_end, yaml_char_t **b_start,
                     yaml_char_t **b_pointer, yaml_char_t **b_end);
int yaml_stack_extend(void **start, void **top, void **end);
int yaml_queue_extend(void **start, void **head, void **tail, void **end);
int yaml_parser_update_buffer(yaml_parser_t *parser, size_t length);
int yaml_parser_fetch_more_tokens(yaml_parser_t *parser);

static int wrong;
#define EXPECT(condition)                                          \
    do {                                                           \
        if (!(condition)) {                                        \
            wrong = 1;                                             \
            printf("undeclared.c:%d: %s\n", __LINE__, #condition); \
        }                                                          \
    } while (0)

static void texts(void)
{
    yaml_char_t *a = yaml_malloc(4), *a_at = a + 3, *a_end = a + 4, *b = yaml_strdup((const yaml_char_t *)"defg");
    yaml_char_t *b_at = b + 4, *b_end = b + 5;
    memcpy(a, "abc", 4);
    EXPECT(yaml_string_extend(&a, &a_at, &a_end) && a_end - a == 8 && a_at - a == 3 && !strcmp((char *)a, "abc") && a[7] == 0);
    EXPECT(yaml_string_join(&a, &a_at, &a_end, &b, &b_at, &b_end) && a_at - a == 7 && a_end > a_at && !memcmp(a, "abcdefg", 7));
    b_at = b;
    EXPECT(yaml_string_join(&a, &a_at, &a_end, &b, &b_at, &b_end) && a_at - a == 7);
    EXPECT(yaml_strdup(NULL) == NULL);
    yaml_free(a);
    yaml_free(b);
    a = yaml_realloc(NULL, 0);
    EXPECT(a);
    yaml_free(yaml_realloc(a, 10));
    yaml_free(NULL);
}

/* A stack and a queue of bytes. */
static void lists(void)
{
    char *start = yaml_malloc(4);
    void *first = start, *head = start, *last = start + 4, *end = start + 4;
    memcpy(start, "wxyz", 4);
    EXPECT(yaml_stack_extend(&first, &last, &end) && (char *)end - (char *)first == 8 && (char *)last - (char *)first == 4);
    EXPECT(!memcmp(first, "wxyz", 4));
    head = (char *)first + 1;
    last = end = (char *)first + 4;
    EXPECT(yaml_queue_extend(&first, &head, &last, &end)); /* moved to the front */
    EXPECT(head == first && (char *)last - (char *)head == 3 && !memcmp(head, "xyz", 3));
    last = end;
    EXPECT(yaml_queue_extend(&first, &head, &last, &end)); /* grown */
    EXPECT((char *)end - (char *)first == 8 && (char *)last - (char *)head == 4 && !memcmp(head, "xyz", 3));
    yaml_free(first);
}

static void buffer(void)
{
    static const char text[] = "\xEF\xBB\xBF" "a\xC3\xA9";
    yaml_parser_t parser;
    yaml_parser_initialize(&parser);
    yaml_parser_set_input_string(&parser, (const unsigned char *)text, sizeof text - 1);
    EXPECT(yaml_parser_update_buffer(&parser, 2) && parser.unread == 2 && !memcmp(parser.buffer.pointer, text + 3, 3));
    EXPECT(parser.encoding == YAML_UTF8_ENCODING);
    EXPECT(yaml_parser_update_buffer(&parser, 3) && parser.unread == 3 && parser.buffer.pointer[3] == 0);
    yaml_parser_delete(&parser);
    yaml_parser_initialize(&parser);
    yaml_parser_set_input_string(&parser, (const unsigned char *)"\xFF", 1);
    EXPECT(!yaml_parser_update_buffer(&parser, 1) && parser.error == YAML_READER_ERROR && parser.problem_value == 0xFF);
    yaml_parser_delete(&parser);
}

/* Parses a text up to its fault. */
static void parse_to_fault(yaml_parser_t *parser, const char *text)
{
    yaml_event_t event;
    yaml_parser_initialize(parser);
    yaml_parser_set_input_string(parser, (const unsigned char *)text, strlen(text));
    while (yaml_parser_parse(parser, &event))
        yaml_event_delete(&event);
}

/* The private fields that netplan looks at when it reports a fault, in the line that it shows. */
static void faults(void)
{
    yaml_parser_t parser;
    parse_to_fault(&parser, "a: \"b\"\n\tc: d\n");
    EXPECT(*parser.buffer.pointer == '\t' && !parser.token_available && parser.state == YAML_PARSE_BLOCK_MAPPING_KEY_STATE);
    EXPECT(parser.buffer.pointer - parser.buffer.start >= 0 && parser.buffer.last - parser.buffer.pointer >= 5);
    yaml_parser_delete(&parser);
    parse_to_fault(&parser, "a: [b\nc: d\n");
    EXPECT(parser.token_available && parser.state != YAML_PARSE_BLOCK_MAPPING_KEY_STATE);
    EXPECT(parser.buffer.pointer >= parser.buffer.start && parser.buffer.pointer <= parser.buffer.last);
    yaml_parser_delete(&parser);
    parse_to_fault(&parser, "a: \x01");
    EXPECT(*parser.buffer.pointer == 'a' && !parser.token_available);
    yaml_parser_delete(&parser);
}

static void tokens(void)
{
    yaml_parser_t parser;
    yaml_token_t token;
    int found = 0;
    yaml_parser_initialize(&parser);
    yaml_parser_set_input_string(&parser, (const unsigned char *)"a", 1);
    EXPECT(yaml_parser_fetch_more_tokens(&parser));
    while (yaml_parser_scan(&parser, &token) && token.type) {
        yaml_token_delete(&token);
        found++;
    }
    EXPECT(found == 3);
    yaml_parser_delete(&parser);
}

int main(void)
{
    int major, minor, patch;
    yaml_get_version(&major, &minor, &patch);
    EXPECT(major == 0 && minor == 2 && patch == 5 && !strcmp(yaml_get_version_string(), "0.2.5"));
    texts();
    lists();
    buffer();
    faults();
    tokens();
    printf("undeclared: %s\n", wrong ? "wrong" : "as libyaml's");
    return wrong;
}
