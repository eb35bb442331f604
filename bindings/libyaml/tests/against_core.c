/* What the shared object answers, beside the proved core's own records and text: each event and each token of a file with its
 * fields and marks, the fault with its place, and the text of the events in several settings. So the C layer is judged with no other
 * libyaml at hand.
 *
 *     against_core FILE..
 *
 * It is linked with libyaml-0.so.2, and with the archive of bindings/c for the core. */
#include <yaml.h>
#include "yaml_c.h"

static uint8_t input[1 << 16];
static size_t input_len;
static const char *file_name;
static yaml_c_parsed parsed;
static yaml_c_answer answer;
static long events_seen, tokens_seen, texts_seen, wrong;

static void expect(int is_right, const char *what, int line)
{
    if (is_right)
        return;
    wrong++;
    printf("against_core.c:%d: %s: %s\n", line, file_name, what);
}
#define EXPECT(condition) expect(condition, #condition, __LINE__)

/* Characters of a text in UTF-8 before a byte of it. */
static size_t characters(uint64_t index)
{
    size_t found = 0, from = input_len >= 3 && !memcmp(input, "\xef\xbb\xbf", 3) ? 3 : 0;
    for (size_t i = from; i < input_len && i < from + index; i++)
        found += (input[i] & 0xC0) != 0x80;
    return found;
}

static int is_utf16(void)
{
    return input_len >= 2 && (!memcmp(input, "\xff\xfe", 2) || !memcmp(input, "\xfe\xff", 2));
}

static int is_mark(yaml_mark_t mark, yaml_c_mark of)
{
    return mark.line == of.line && mark.column == of.column && mark.index == of.character
           && (is_utf16() || mark.index == characters(of.index));
}

static int is_text(const yaml_char_t *text, yaml_c_span span)
{
    return text && !memcmp(text, parsed.bytes.at + span.at, span.len) && text[span.len] == 0;
}

static int is_text_if(const yaml_char_t *text, int is_there, yaml_c_span span)
{
    return is_there ? is_text(text, span) : !text;
}

static void document_start_is(const yaml_event_t *e, const yaml_c_event *c)
{
    const yaml_tag_directive_t *it = e->data.document_start.tag_directives.start;
    const yaml_version_directive_t *version = e->data.document_start.version_directive;
    EXPECT(e->data.document_start.implicit == c->implicit && (version != NULL) == c->has_version);
    EXPECT(!version || (version->major == c->major && version->minor == c->minor));
    EXPECT((uint64_t)(e->data.document_start.tag_directives.end - it) == c->directives.len);
    for (uint64_t i = 0; i < c->directives.len; i++) {
        const yaml_c_directive *directive = &parsed.directives[c->directives.at + i];
        EXPECT(is_text(it[i].handle, directive->handle) && is_text(it[i].prefix, directive->prefix));
    }
}

static void scalar_is(const yaml_event_t *e, const yaml_c_event *c)
{
    const yaml_char_t *tag = e->data.scalar.tag;
    int is_bang = c->has_tag == 2; /* the core leaves it out */
    EXPECT(is_text_if(e->data.scalar.anchor, c->has_anchor, c->anchor));
    EXPECT(is_bang ? tag && !strcmp((const char *)tag, "!") && c->implicit && !c->quoted_implicit
                   : is_text_if(tag, c->has_tag, c->tag));
    EXPECT(e->data.scalar.length == c->value.len && is_text(e->data.scalar.value, c->value));
    EXPECT(e->data.scalar.plain_implicit == c->implicit && e->data.scalar.quoted_implicit == c->quoted_implicit);
    EXPECT((int)e->data.scalar.style == c->style);
}

static void event_is(const yaml_event_t *e, const yaml_c_event *c)
{
    EXPECT((int)e->type == c->kind && is_mark(e->start_mark, c->start) && is_mark(e->end_mark, c->end));
    switch (e->type) {
    case YAML_STREAM_START_EVENT: EXPECT((int)e->data.stream_start.encoding == c->encoding); break;
    case YAML_DOCUMENT_START_EVENT: document_start_is(e, c); break;
    case YAML_DOCUMENT_END_EVENT: EXPECT(e->data.document_end.implicit == c->implicit); break;
    case YAML_ALIAS_EVENT: EXPECT(is_text(e->data.alias.anchor, c->anchor)); break;
    case YAML_SCALAR_EVENT: scalar_is(e, c); break;
    case YAML_SEQUENCE_START_EVENT:
        EXPECT(is_text_if(e->data.sequence_start.anchor, c->has_anchor, c->anchor));
        EXPECT(is_text_if(e->data.sequence_start.tag, c->has_tag, c->tag));
        EXPECT(e->data.sequence_start.implicit == c->implicit && (int)e->data.sequence_start.style == c->style);
        break;
    case YAML_MAPPING_START_EVENT:
        EXPECT(is_text_if(e->data.mapping_start.anchor, c->has_anchor, c->anchor));
        EXPECT(is_text_if(e->data.mapping_start.tag, c->has_tag, c->tag));
        EXPECT(e->data.mapping_start.implicit == c->implicit && (int)e->data.mapping_start.style == c->style);
        break;
    default: break;
    }
}

static void fault_is(const yaml_parser_t *parser)
{
    EXPECT((int)parser->error == answer.kind && strlen(parser->problem) == answer.problem.len);
    EXPECT(!memcmp(parser->problem, answer.problem.at, answer.problem.len));
    EXPECT(answer.context.len ? !memcmp(parser->context, answer.context.at, answer.context.len) : !parser->context);
    EXPECT(parser->problem_offset == answer.offset && parser->problem_value == answer.value);
    if (answer.kind != YAML_C_READER_ERROR)
        EXPECT(is_mark(parser->problem_mark, answer.problem_mark) && is_mark(parser->context_mark, answer.context_mark));
}

/* Whether a name has a byte 0, at which C's texts end: what is emitted of it is another name then. */
static int has_nul(void)
{
    for (size_t i = 0; i < parsed.events_len; i++) {
        const yaml_c_event *it = &parsed.events[i];
        if (memchr(parsed.bytes.at + it->tag.at, 0, it->tag.len))
            return 1;
    }
    for (size_t i = 0; i < parsed.directives_len; i++)
        if (memchr(parsed.bytes.at + parsed.directives[i].prefix.at, 0, parsed.directives[i].prefix.len))
            return 1;
    return 0;
}

/* ---- readers */

static int give_byte(void *data, unsigned char *buffer, size_t size, size_t *size_read)
{
    size_t *at = data;
    *size_read = size && *at < input_len;
    if (*size_read)
        buffer[0] = input[(*at)++];
    return 1;
}

#ifdef LAYER_WINDOW
enum { HAS_WINDOWS = 1 };
#else
enum { HAS_WINDOWS = 0 };
#endif

/* Of a text with a wrong byte the core reports that alone. A parser that reads in windows reports what is in those before it
 * first, and a fault there instead. */
static int is_cut_short(int by_byte)
{
    return answer.kind == YAML_C_READER_ERROR && (by_byte || HAS_WINDOWS);
}

/* A parser that gives nothing more has given all, and has the core's fault. */
static void ends_as_core(const yaml_parser_t *parser, int by_byte, int is_all)
{
    if (is_cut_short(by_byte)) {
        EXPECT(parser->error);
        if (parser->error == YAML_READER_ERROR)
            fault_is(parser);
        else
            EXPECT(parser->problem_mark.index < answer.offset);
        return;
    }
    EXPECT(is_all && (parser->error != 0) == (answer.kind != 0));
    if (answer.kind)
        fault_is(parser);
}

/* Has the parser read the input byte by byte, from `at` on, or at once. */
static void read_by(yaml_parser_t *parser, size_t *at)
{
    if (at)
        yaml_parser_set_input(parser, give_byte, at);
    else
        yaml_parser_set_input_string(parser, input, input_len);
}

/* ---- tokens */

static yaml_c_scanned scanned;

static int is_token_text(const yaml_char_t *text, yaml_c_span span)
{
    return text && !memcmp(text, scanned.bytes.at + span.at, span.len) && text[span.len] == 0;
}

static void token_is(const yaml_token_t *t, const yaml_c_token *c)
{
    EXPECT((int)t->type == c->kind && is_mark(t->start_mark, c->start) && is_mark(t->end_mark, c->end));
    switch (t->type) {
    case YAML_STREAM_START_TOKEN: EXPECT((int)t->data.stream_start.encoding == c->encoding); break;
    case YAML_VERSION_DIRECTIVE_TOKEN:
        EXPECT(t->data.version_directive.major == c->major && t->data.version_directive.minor == c->minor);
        break;
    case YAML_TAG_DIRECTIVE_TOKEN:
        EXPECT(is_token_text(t->data.tag_directive.handle, c->handle) && is_token_text(t->data.tag_directive.prefix, c->value));
        break;
    case YAML_ALIAS_TOKEN: EXPECT(is_token_text(t->data.alias.value, c->value)); break;
    case YAML_ANCHOR_TOKEN: EXPECT(is_token_text(t->data.anchor.value, c->value)); break;
    case YAML_TAG_TOKEN: EXPECT(is_token_text(t->data.tag.handle, c->handle) && is_token_text(t->data.tag.suffix, c->value)); break;
    case YAML_SCALAR_TOKEN:
        EXPECT(t->data.scalar.length == c->value.len && is_token_text(t->data.scalar.value, c->value));
        EXPECT((int)t->data.scalar.style == c->style);
        break;
    default: break;
    }
}

static void tokens_are(int by_byte)
{
    yaml_parser_t parser;
    yaml_token_t token;
    size_t at = 0, i = 0;
    yaml_parser_initialize(&parser);
    read_by(&parser, by_byte ? &at : NULL);
    while (!parser.stream_end_produced && yaml_parser_scan(&parser, &token)) {
        if (!is_cut_short(by_byte))
            i < scanned.tokens_len ? token_is(&token, &scanned.tokens[i++]) : EXPECT(0);
        yaml_token_delete(&token);
        tokens_seen++;
    }
    ends_as_core(&parser, by_byte, i == scanned.tokens_len);
    EXPECT(yaml_parser_scan(&parser, &token) && token.type == YAML_NO_TOKEN);
    yaml_parser_delete(&parser);
}

/* A document that begins with its stream's fault. */
static int is_missed(const yaml_event_t *event, size_t number)
{
    return number == 1 && event->type == YAML_DOCUMENT_START_EVENT && event->data.document_start.implicit && answer.kind == 4
           && is_mark(event->start_mark, answer.problem_mark) && is_mark(event->end_mark, answer.problem_mark);
}

static void events_are(int by_byte)
{
    yaml_parser_t parser;
    yaml_event_t event;
    size_t at = 0, i = 0;
    yaml_parser_initialize(&parser);
    read_by(&parser, by_byte ? &at : NULL);
    while (!parser.stream_end_produced && yaml_parser_parse(&parser, &event)) {
        if (!is_cut_short(by_byte))
            i < parsed.events_len ? event_is(&event, &parsed.events[i++]) : EXPECT(is_missed(&event, i));
        yaml_event_delete(&event);
        events_seen++;
    }
    ends_as_core(&parser, by_byte, i == parsed.events_len);
    EXPECT(yaml_parser_parse(&parser, &event) && event.type == YAML_NO_EVENT);
    yaml_parser_delete(&parser);
}

/* ---- texts */

static unsigned char output[1 << 20];

typedef struct {
    int32_t encoding, canonical, indent, width, unicode, line_break;
} how;

/* The text of the file's events by the shared object; its length. */
static size_t emit(const how *h, int flush)
{
    yaml_parser_t parser;
    yaml_emitter_t emitter;
    yaml_event_t event;
    size_t len = 0;
    yaml_parser_initialize(&parser);
    yaml_parser_set_input_string(&parser, input, input_len);
    yaml_emitter_initialize(&emitter);
    yaml_emitter_set_output_string(&emitter, output, sizeof output, &len);
    yaml_emitter_set_encoding(&emitter, (yaml_encoding_t)h->encoding);
    yaml_emitter_set_canonical(&emitter, h->canonical);
    yaml_emitter_set_indent(&emitter, h->indent);
    yaml_emitter_set_width(&emitter, h->width);
    yaml_emitter_set_unicode(&emitter, h->unicode);
    yaml_emitter_set_break(&emitter, (yaml_break_t)h->line_break);
    for (int n = 0; !parser.stream_end_produced && !emitter.error && yaml_parser_parse(&parser, &event); n++) {
        EXPECT(yaml_emitter_emit(&emitter, &event));
        if (flush && n % flush == 0)
            EXPECT(yaml_emitter_flush(&emitter));
    }
    yaml_parser_delete(&parser);
    yaml_emitter_delete(&emitter);
    return len;
}

/* Whether some scalar has the tag `!` in libyaml's events, which the core leaves out. */
static int has_bang(void)
{
    for (size_t i = 0; i < parsed.events_len; i++) {
        const yaml_c_event *it = &parsed.events[i];
        if (it->kind == YAML_C_SCALAR_EVENT && it->has_tag == 2)
            return 1;
    }
    return 0;
}

/* The same events given to the core in one call. */
static void texts_are(void)
{
    static const how ways[] = {
        {0, 0, 2, 80, 0, 0}, {1, 1, 2, 80, 1, 2}, {1, 0, 4, 20, 1, 3}, {2, 0, 9, -1, 1, 1}, {3, 1, 3, 30, 0, 2},
    };
    for (size_t k = 0; k < sizeof ways / sizeof *ways; k++) {
        const how *h = &ways[k];
        yaml_c_settings settings = {h->encoding, h->canonical, h->indent, h->width, h->unicode, h->line_break, (uint64_t)1 << 40};
        yaml_c_answer text;
        yaml_c_answer_init(&text);
        if (yaml_c_emit(parsed.events, parsed.events_len, parsed.directives, parsed.directives_len, parsed.bytes.at,
                        parsed.bytes.len, &settings, &text) == 0) {
            for (int flush = 0; flush < 8; flush += 7) {
                size_t len = emit(h, flush);
                EXPECT(len == text.text.len && !memcmp(output, text.text.at, len));
                texts_seen++;
            }
        }
        yaml_c_answer_free(&text);
    }
}

int main(int argc, char **argv)
{
    for (int i = 1; i < argc; i++) {
        FILE *file = fopen(argv[i], "rb");
        if (!file)
            return 2;
        file_name = argv[i];
        input_len = fread(input, 1, sizeof input, file);
        fclose(file);
        yaml_c_parsed_init(&parsed);
        yaml_c_answer_init(&answer);
        yaml_c_front(input, input_len, 0, &parsed, &answer);
        events_are(0);
        events_are(1);
        if (!answer.kind && !has_bang() && !has_nul())
            texts_are();
        yaml_c_parsed_free(&parsed);
        yaml_c_answer_free(&answer);
        yaml_c_scanned_init(&scanned);
        yaml_c_scan(input, input_len, 0, &scanned, &answer);
        tokens_are(0);
        tokens_are(1);
        yaml_c_scanned_free(&scanned);
        yaml_c_answer_free(&answer);
    }
    printf("against_core: %d files, %ld events, %ld tokens, %ld texts, %ld wrong\n", argc - 1, events_seen, tokens_seen, texts_seen,
           wrong);
    return wrong != 0;
}
