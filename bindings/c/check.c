/* Hostile use of the C library: numbers that mean nothing, nothing as an input, and every allocation refused in turn.
 *
 *     cc -O1 -o check check.c ../../out/library/libyaml_c.a -Wl,--wrap=malloc,--wrap=realloc,--wrap=free
 *     ./check
 *
 * It has to be linked with the archive, so that the library's own calls of the heap come by here. It says how many calls it
 * made; the first thing that is wrong ends it with a line and status 1. */
#include "yaml_c.h"

#include <limits.h>
#include <stdio.h>

void *__real_malloc(size_t size);
void *__real_realloc(void *block, size_t size);
void __real_free(void *block);

/* How many allocations go well before some are refused, or -1; whether then all are, or the next one alone. */
static long left = -1;
static int all_refused;
static long blocks, refusals, calls, refused_calls;

static int is_refused(void)
{
    if (left > 0)
        left--;
    else if (left == 0) {
        refusals++;
        left = all_refused ? 0 : -1;
        return 1;
    }
    return 0;
}

void *__wrap_malloc(size_t size)
{
    void *block = is_refused() ? NULL : __real_malloc(size);
    blocks += block != NULL;
    return block;
}

void *__wrap_realloc(void *block, size_t size)
{
    void *found = is_refused() ? NULL : __real_realloc(block, size);
    blocks += found && !block;
    return found;
}

void __wrap_free(void *block)
{
    blocks -= block != NULL;
    __real_free(block);
}

static void expect(int is_right, const char *what, int line)
{
    if (!is_right) {
        left = -1;
        printf("check.c:%d: %s\n", line, what);
        exit(1);
    }
}
#define EXPECT(condition) expect(condition, #condition, __LINE__)

static const char *const TEXTS[] = {
    "%YAML 1.1\n%TAG !e! tag:x,2000:\n--- !e!a\n- &x {k: v, \"long\": 'text'}\n- *x\n- |\n  block\n...\n--- b\n",
    "",
    "a",
    "!",
    "[a, [b",
    "*a",
    "\377",
    "\377\376a",
};
enum { TEXT_NUMBER = sizeof TEXTS / sizeof *TEXTS, CANONICAL = 0, PRETTY, NORMALIZE, RELOAD, CHECK, SAME, EVENTS, PARSE, FRONT, SCAN, DECODE, EMIT, EMIT_ON, EMIT_AGAIN, SERIALIZE, COMPOSE, CALL_NUMBER };

static const uint8_t *bytes_of(int text)
{
    return (const uint8_t *)TEXTS[text];
}

/* The events of the texts, where they have any; made once. */
static yaml_c_parsed parsed_texts[TEXT_NUMBER];

/* The events of a stream, and the bytes and directives that they name. */
static const char NAMED[] = "!e!tag:x,2000:axktext";
static const yaml_c_directive DIRECTIVE = {{0, 3}, {3, 11}};
static const yaml_c_event STREAM[] = {
    {.kind = YAML_C_STREAM_START_EVENT},
    {.kind = YAML_C_DOCUMENT_START_EVENT, .has_version = 1, .major = 1, .minor = 1, .directives = {0, 1}},
    {.kind = YAML_C_MAPPING_START_EVENT, .has_anchor = 1, .anchor = {15, 1}, .has_tag = 1, .tag = {3, 12}},
    {.kind = YAML_C_SCALAR_EVENT, .implicit = 1, .quoted_implicit = 1, .value = {16, 1}},
    {.kind = YAML_C_SEQUENCE_START_EVENT, .implicit = 1},
    {.kind = YAML_C_ALIAS_EVENT, .anchor = {15, 1}},
    {.kind = YAML_C_SCALAR_EVENT, .implicit = 1, .quoted_implicit = 1, .style = YAML_C_FOLDED_SCALAR_STYLE, .value = {17, 4}},
    {.kind = YAML_C_SEQUENCE_END_EVENT},
    {.kind = YAML_C_MAPPING_END_EVENT},
    {.kind = YAML_C_DOCUMENT_END_EVENT, .implicit = 1},
    {.kind = YAML_C_STREAM_END_EVENT},
};
static const char STREAM_TEXT[] = "%YAML 1.1\n%TAG !e! tag:x,2000:\n--- &x !e!a\nk: [*x, \"text\"]\n";
enum { STREAM_LENGTH = sizeof STREAM / sizeof *STREAM };

/* A mapping whose second value is itself, and whose first one holds its first key and another scalar. */
static const yaml_c_node NODES[] = {{3, 0, 4}, {1, 0, 0}, {2, 4, 2}, {1, 9, 9}, {1, 0, 0}};
static const int32_t HELD[] = {2, 3, 4, 1, 2, 5};
static const yaml_c_graph GRAPH = {NODES, sizeof NODES / sizeof *NODES, HELD, sizeof HELD / sizeof *HELD};

/* The events of a document, `&a {k: [*a, &a b, *a], c: *a}`, with one more: an alias that no node has the name of. */
static const yaml_c_step STEPS[] = {
    {9, 1, 0, 1}, {6, 0, 0, 0}, {7, 0, 0, 0}, {5, 1, 0, 1}, {6, 1, 0, 1}, {5, 7, 0, 1}, {8, 0, 0, 0}, {6, 0, 9, 9}, {5, 1, 0, 1}, {10, 0, 0, 0}, {5, 1, 1, 1},
};
enum { STEPS_LENGTH = sizeof STEPS / sizeof *STEPS };

/* A list of events for each text's number: the stream, fronts of it, one without its start, and one past the limit. */
static int emit_list(int list, yaml_c_settings *settings, yaml_c_answer *answer)
{
    static const size_t lengths[TEXT_NUMBER] = {STREAM_LENGTH, 0, 1, 5, 8, 10, STREAM_LENGTH - 1, STREAM_LENGTH};
    if (list == 7)
        settings->limit = 9;
    return yaml_c_emit(STREAM + (list == 6), lengths[list], &DIRECTIVE, 1, (const uint8_t *)NAMED, strlen(NAMED), settings,
                       answer);
}

/* The events of the text again, or none. */
static int emit_parsed(int text, yaml_c_settings *settings, yaml_c_answer *answer)
{
    const yaml_c_parsed *events = &parsed_texts[text];
    return yaml_c_emit(events->events, events->events_len, events->directives, events->directives_len, events->bytes.at,
                       events->bytes.len, settings, answer);
}

/* What a call returns in blocks. */
typedef struct {
    yaml_c_parsed parsed;
    yaml_c_scanned scanned;
    yaml_c_answer answer;
    yaml_c_stand stand, behind;
    yaml_c_turns turns;
    yaml_c_spots spots;
} records;

static void init(records *r)
{
    yaml_c_parsed_init(&r->parsed);
    yaml_c_scanned_init(&r->scanned);
    yaml_c_answer_init(&r->answer);
    yaml_c_stand_init(&r->stand);
    yaml_c_stand_init(&r->behind);
    yaml_c_turns_init(&r->turns);
    yaml_c_spots_init(&r->spots);
}

static void give_back(records *r)
{
    yaml_c_parsed_free(&r->parsed);
    yaml_c_scanned_free(&r->scanned);
    yaml_c_answer_free(&r->answer);
    yaml_c_stand_free(&r->stand);
    yaml_c_stand_free(&r->behind);
    yaml_c_turns_free(&r->turns);
    yaml_c_spots_free(&r->spots);
}

/* The text of the events in pieces of that many, each given from where the one before it ended, after the events that wait there. It
 * is in `whole` as far as that goes. The last piece's answer and checkpoint stay in the records. */
static int emit_pieces(const yaml_c_parsed *all, size_t piece, const yaml_c_settings *settings, const yaml_c_bytes *whole, records *r)
{
    size_t given = 0, written = 0;
    int kind = 0;
    while (!kind && given < all->events_len) {
        size_t from = given - r->stand.place.waiting;
        yaml_c_parsed part = *all;
        given = all->events_len - given < piece ? all->events_len : given + piece;
        part.events += from;
        part.events_len = given - from;
        yaml_c_answer_free(&r->answer);
        kind = yaml_c_emit_on(&part, settings, &r->stand, &r->behind, &r->answer);
        if (kind)
            continue;
        EXPECT(!whole || (written + r->answer.text.len <= whole->len && !memcmp(whole->at + written, r->answer.text.at, r->answer.text.len)));
        written += r->answer.text.len;
        yaml_c_stand_free(&r->stand);
        r->stand = r->behind;
        yaml_c_stand_init(&r->behind);
        EXPECT(r->stand.place.waiting <= 3);
    }
    EXPECT(kind || !whole || written == whole->len);
    return kind;
}

/* The list of that number in pieces of two: as emit_list. */
static int emit_list_on(int list, yaml_c_settings *settings, const yaml_c_bytes *whole, records *r)
{
    static const size_t lengths[TEXT_NUMBER] = {STREAM_LENGTH, 0, 1, 5, 8, 10, STREAM_LENGTH - 1, STREAM_LENGTH};
    yaml_c_parsed all;
    yaml_c_parsed_init(&all);
    all.events = STREAM + (list == 6);
    all.events_len = lengths[list];
    all.directives = &DIRECTIVE;
    all.directives_len = 1;
    all.bytes.at = (const uint8_t *)NAMED;
    all.bytes.len = strlen(NAMED);
    if (list == 7)
        settings->limit = 9;
    return emit_pieces(&all, 2, settings, whole, r);
}

/* The call of that number on a text. Its blocks stay in the records. */
static int call_on(int call, int text, yaml_c_settings *settings, records *r)
{
    yaml_c_answer *answer = &r->answer;
    const uint8_t *at = bytes_of(text);
    size_t len = strlen(TEXTS[text]);
    calls++;
    settings->canonical = call != PRETTY;
    switch (call) {
    case CANONICAL:
    case PRETTY: return yaml_c_reformat(at, len, 0, settings, answer);
    case NORMALIZE: return yaml_c_normalize(at, len, 0, settings, answer);
    case RELOAD: return yaml_c_reload(at, len, 0, settings, answer);
    case CHECK: return yaml_c_check(at, len, 0, answer);
    case SAME: return yaml_c_same(bytes_of(0), strlen(TEXTS[0]), 0, at, len, 0, answer);
    case EVENTS: return yaml_c_events(at, len, 0, answer);
    case PARSE: return yaml_c_parse(at, len, 0, &r->parsed, answer);
    case FRONT: return yaml_c_front(at, len, 0, &r->parsed, answer);
    case SCAN: return yaml_c_scan(at, len, 0, &r->scanned, answer);
    case DECODE: return yaml_c_decode(at, len, 0, answer);
    case EMIT: return emit_list(text, settings, answer);
    case EMIT_ON: return emit_list_on(text, settings, NULL, r);
    case SERIALIZE: return yaml_c_serialize(&GRAPH, &r->turns, answer);
    case COMPOSE: return yaml_c_compose(STEPS, STEPS_LENGTH - (text > 1), (const uint8_t *)"ab", 2, &r->spots, answer);
    default: return emit_parsed(text, settings, answer);
    }
}

/* What every answer has to be like. */
static void is_in_order(int call, int kind, const records *r)
{
    const yaml_c_answer *answer = &r->answer;
    const yaml_c_parsed *parsed = &r->parsed;
    EXPECT(answer->kind == kind && kind >= 0 && kind <= 7);
    EXPECT(call == SCAN || (r->scanned.tokens_len == 0 && r->scanned.bytes.len == 0));
    EXPECT((r->turns.turns_len > 0) == (call == SERIALIZE && !kind));
    EXPECT(call == COMPOSE || r->spots.spots_len == 0);
    if (kind) {
        EXPECT(answer->text.len == 0 && answer->is == 0 && answer->problem.len > 0);
        EXPECT(kind == YAML_C_MEMORY_ERROR || answer->line.len > 0);
        EXPECT(call == FRONT || (parsed->events_len == 0 && parsed->directives_len == 0 && parsed->bytes.len == 0));
    } else {
        EXPECT(answer->problem.len == 0 && answer->context.len == 0 && answer->line.len == 0);
    }
}

/* A call with allocations refused after the first `number`: it reports out of memory, or answers as without any refused.
 * Whether any was refused. */
static int is_met(int call, int text, long number, int all, int usual)
{
    yaml_c_settings settings;
    records r;
    long before = blocks, refused = refusals;
    int kind;
    yaml_c_defaults(&settings);
    init(&r);
    left = number;
    all_refused = all;
    kind = call_on(call, text, &settings, &r);
    left = -1;
    is_in_order(call, kind, &r);
    EXPECT(kind == usual || (kind == YAML_C_MEMORY_ERROR && refusals > refused));
    give_back(&r);
    EXPECT(blocks == before);
    refused_calls += refusals > refused;
    return refusals > refused;
}

static void refuse_in_turn(int call, int text)
{
    yaml_c_settings settings;
    records r;
    int usual;
    yaml_c_defaults(&settings);
    init(&r);
    usual = call_on(call, text, &settings, &r);
    is_in_order(call, usual, &r);
    EXPECT(usual != YAML_C_MEMORY_ERROR);
    give_back(&r);
    for (int all = 0; all < 2; all++)
        for (long number = 0; is_met(call, text, number, all, usual); number++)
            ;
}

/* Where the first text and that one part, or their documents. */
static int part(int documents, int text, yaml_c_parting *parting)
{
    size_t len = strlen(TEXTS[text]);
    calls++;
    return documents ? yaml_c_diff_documents(bytes_of(0), strlen(TEXTS[0]), 0, bytes_of(text), len, 0, parting)
                     : yaml_c_diff(bytes_of(0), strlen(TEXTS[0]), 0, bytes_of(text), len, 0, parting);
}

/* A search for a difference with allocations refused after the first `number`. Whether any was refused. */
static int is_parted(int documents, int text, long number, int all, int usual)
{
    yaml_c_parting parting;
    long before = blocks, refused = refusals;
    int kind;
    yaml_c_parting_init(&parting);
    left = number;
    all_refused = all;
    kind = part(documents, text, &parting);
    left = -1;
    EXPECT(kind == parting.answer.kind && (kind == usual || (kind == YAML_C_MEMORY_ERROR && refusals > refused)));
    EXPECT(kind == 0 || (parting.answer.text.len == 0 && parting.first_kind == 0 && parting.document == 0));
    yaml_c_parting_free(&parting);
    EXPECT(blocks == before);
    refused_calls += refusals > refused;
    return refusals > refused;
}

static void partings(void)
{
    static const int kinds[TEXT_NUMBER] = {0, 0, 0, 0, YAML_C_PARSER_ERROR, 0, YAML_C_READER_ERROR, YAML_C_READER_ERROR};
    static const char first[] = "a: {b c: [&x d, *x]}", second[] = "a: {b c: [&y d, *y, e]}", path[] = ".0:1:a.0:3:b c[2]";
    yaml_c_parting parting;
    yaml_c_parting_init(&parting);
    for (int documents = 0; documents < 2; documents++) {
        for (int text = 0; text < TEXT_NUMBER; text++) {
            int usual = documents && text == 5 ? YAML_C_COMPOSER_ERROR : kinds[text];
            EXPECT(part(documents, text, &parting) == usual && parting.answer.is == (text == 0) && parting.answer.second == (usual != 0));
            EXPECT(usual || text == 0 || (parting.first_kind == YAML_C_DOCUMENT_START_EVENT && parting.answer.text.len == 0));
            yaml_c_parting_free(&parting);
            for (int all = 0; all < 2; all++)
                for (long number = 0; is_parted(documents, text, number, all, usual); number++)
                    ;
        }
        calls++;
        EXPECT(yaml_c_diff(bytes_of(2), 1, 0, bytes_of(2), 1, 4, &parting) == YAML_C_REFUSED_ARGUMENT);
        yaml_c_parting_free(&parting);
    }
    calls++;
    EXPECT(yaml_c_diff_documents((const uint8_t *)first, strlen(first), 0, (const uint8_t *)second, strlen(second), 0, &parting) == 0);
    EXPECT(parting.answer.text.len == strlen(path) && memcmp(parting.answer.text.at, path, strlen(path)) == 0);
    EXPECT(parting.first_kind == YAML_C_SEQUENCE_END_EVENT && parting.second_kind == YAML_C_SCALAR_EVENT);
    EXPECT(parting.document == 0 && parting.first_mark.column == 18 && parting.second_mark.index == 20);
    yaml_c_parting_free(&parting);
}

/* The calls that read, with an encoding. */
static void read_as(int from, const yaml_c_settings *settings, int wanted)
{
    records r;
    const uint8_t *text = bytes_of(2);
    init(&r);
    for (int call = 0; call < 11; call++) {
        int kind = call == 0   ? yaml_c_reformat(text, 1, from, settings, &r.answer)
                   : call == 1 ? yaml_c_reload(text, 1, from, settings, &r.answer)
                   : call == 2 ? yaml_c_events(text, 1, from, &r.answer)
                   : call == 3 ? yaml_c_same(text, 1, from, text, 1, 1, &r.answer)
                   : call == 4 ? yaml_c_same(text, 1, 1, text, 1, from, &r.answer)
                   : call == 5 ? yaml_c_parse(text, 1, from, &r.parsed, &r.answer)
                   : call == 6 ? yaml_c_front(text, 1, from, &r.parsed, &r.answer)
                   : call == 7 ? yaml_c_decode(text, 1, from, &r.answer)
                   : call == 8 ? yaml_c_normalize(text, 1, from, settings, &r.answer)
                   : call == 9 ? yaml_c_check(text, 1, from, &r.answer)
                               : yaml_c_scan(text, 1, from, &r.scanned, &r.answer);
        calls++;
        EXPECT(kind == r.answer.kind && (wanted ? kind == wanted : kind >= 0));
        EXPECT(kind == 0 || (r.answer.text.len == 0 && (kind > 0 || (r.parsed.events_len == 0 && r.scanned.tokens_len == 0))));
        give_back(&r);
    }
}

static void numbers(void)
{
    static const int32_t none[] = {-1, 4, 5, 127, 256, INT_MAX, INT_MIN};
    yaml_c_settings usual, settings;
    yaml_c_defaults(&usual);
    for (int from = 0; from < 4; from++)
        read_as(from, &usual, 0);
    for (size_t i = 0; i < sizeof none / sizeof *none; i++) {
        yaml_c_answer answer;
        yaml_c_answer_init(&answer);
        read_as(none[i], &usual, YAML_C_REFUSED_ARGUMENT);
        for (int which = 0; which < 2; which++) {
            settings = usual;
            *(which ? &settings.encoding : &settings.line_break) = none[i];
            calls += 4;
            EXPECT(yaml_c_reformat(bytes_of(2), 1, 0, &settings, &answer) == YAML_C_REFUSED_ARGUMENT);
            EXPECT(answer.kind == YAML_C_REFUSED_ARGUMENT && answer.text.len == 0);
            yaml_c_answer_free(&answer);
            EXPECT(yaml_c_reload(bytes_of(2), 1, 0, &settings, &answer) == YAML_C_REFUSED_ARGUMENT);
            yaml_c_answer_free(&answer);
            EXPECT(yaml_c_normalize(bytes_of(2), 1, 0, &settings, &answer) == YAML_C_REFUSED_ARGUMENT);
            yaml_c_answer_free(&answer);
            EXPECT(emit_list(6, &settings, &answer) == YAML_C_REFUSED_ARGUMENT);
            yaml_c_answer_free(&answer);
        }
        settings = usual;
        settings.indent = settings.width = none[i];
        settings.canonical = settings.unicode = none[i];
        calls++;
        EXPECT(yaml_c_reformat(bytes_of(2), 1, 0, &settings, &answer) == 0);
        EXPECT(answer.text.len == 10 && memcmp(answer.text.at, "---\n! \"a\"\n", 10) == 0);
        yaml_c_answer_free(&answer);
    }
}

static int is_within(yaml_c_span span, uint64_t len)
{
    return span.at <= len && span.len <= len - span.at;
}

static int is_nothing(yaml_c_span span)
{
    return span.at == 0 && span.len == 0;
}

static int is_flag(int32_t number)
{
    return number == 0 || number == 1;
}

/* What the header says of a record that is handed out. */
static void is_told(const yaml_c_parsed *parsed, const yaml_c_event *it)
{
    int is_scalar = it->kind == YAML_C_SCALAR_EVENT, is_document = it->kind == YAML_C_DOCUMENT_START_EVENT;
    int is_node = is_scalar || it->kind == YAML_C_SEQUENCE_START_EVENT || it->kind == YAML_C_MAPPING_START_EVENT;
    uint64_t len = parsed->bytes.len;
    EXPECT(it->kind >= YAML_C_STREAM_START_EVENT && it->kind <= YAML_C_MAPPING_END_EVENT);
    EXPECT(is_flag(it->implicit) && is_flag(it->quoted_implicit) && is_flag(it->has_version));
    EXPECT(is_flag(it->has_anchor) && (is_flag(it->has_tag) || (is_scalar && it->has_tag == 2 && is_nothing(it->tag))));
    EXPECT(is_node || (it->style == 0 && !it->has_anchor && !it->has_tag && is_nothing(it->tag)));
    EXPECT(is_node || it->kind == YAML_C_ALIAS_EVENT || is_nothing(it->anchor));
    EXPECT(is_scalar || (!it->quoted_implicit && is_nothing(it->value)));
    EXPECT(is_document || (!it->has_version && is_nothing(it->directives)));
    EXPECT(it->has_version || (it->major == 0 && it->minor == 0));
    EXPECT(it->kind == YAML_C_STREAM_START_EVENT ? it->encoding == YAML_C_UTF8_ENCODING : it->encoding == 0);
    EXPECT(is_within(it->anchor, len) && is_within(it->tag, len) && is_within(it->value, len));
    EXPECT(is_within(it->directives, parsed->directives_len));
    EXPECT(it->start.index <= it->end.index && it->start.line <= it->end.line);
}

static void events_are_told(void)
{
    for (int text = 0; text < TEXT_NUMBER; text++) {
        const yaml_c_parsed *parsed = &parsed_texts[text];
        for (size_t i = 0; i < parsed->events_len; i++) {
            const yaml_c_event *it = &parsed->events[i];
            is_told(parsed, it);
            EXPECT((it->kind == YAML_C_STREAM_START_EVENT) == (i == 0));
            EXPECT((it->kind == YAML_C_STREAM_END_EVENT) == (i == parsed->events_len - 1));
        }
        for (size_t i = 0; i < parsed->directives_len; i++) {
            EXPECT(is_within(parsed->directives[i].handle, parsed->bytes.len));
            EXPECT(is_within(parsed->directives[i].prefix, parsed->bytes.len));
        }
    }
    EXPECT(parsed_texts[0].events_len == 17 && parsed_texts[0].directives_len == 1);
    EXPECT(parsed_texts[1].events_len == 2 && parsed_texts[1].directives_len == 0 && parsed_texts[1].bytes.len == 0);
    EXPECT(parsed_texts[4].events_len == 0);
}

/* A front has all events where there is no fault, and those before it where there is one. */
static void fronts_are_told(void)
{
    static const size_t lengths[TEXT_NUMBER] = {17, 2, 5, 5, 6, 5, 0, 0}, tokens[TEXT_NUMBER] = {28, 2, 3, 3, 7, 3, 0, 0};
    for (int text = 0; text < TEXT_NUMBER; text++) {
        const yaml_c_parsed *parsed = &parsed_texts[text];
        records r;
        init(&r);
        calls += 2;
        int kind = yaml_c_front(bytes_of(text), strlen(TEXTS[text]), 0, &r.parsed, &r.answer);
        EXPECT((kind == 0) == (parsed->events_len > 0) && r.parsed.events_len == lengths[text]);
        EXPECT(kind || !memcmp(r.parsed.events, parsed->events, parsed->events_len * sizeof *parsed->events));
        EXPECT(kind || (r.parsed.bytes.len == parsed->bytes.len && !memcmp(r.parsed.bytes.at, parsed->bytes.at, parsed->bytes.len)));
        for (size_t i = 0; i < r.parsed.events_len; i++)
            is_told(&r.parsed, &r.parsed.events[i]);
        give_back(&r);
        yaml_c_scan(bytes_of(text), strlen(TEXTS[text]), 0, &r.scanned, &r.answer);
        EXPECT(r.scanned.tokens_len == tokens[text]);
        for (size_t i = 0; i < r.scanned.tokens_len; i++) {
            const yaml_c_token *it = &r.scanned.tokens[i];
            EXPECT(it->kind >= YAML_C_STREAM_START_TOKEN && it->kind <= YAML_C_SCALAR_TOKEN);
            EXPECT(is_within(it->handle, r.scanned.bytes.len) && is_within(it->value, r.scanned.bytes.len));
        }
        give_back(&r);
    }
}

/* Characters are counted before each mark, and a tag `!` that was left out of a scalar is reported. */
static void places_are_told(void)
{
    static const char text[] = "- \xC3\xA9: ! x\n- &a #!\n  !<!> \xC3\xB6\n- &b z\n- !t \xE2\x82\xAC\n- !\n";
    static const int tags[] = {0, 2, 2, 0, 1, 1};
    static const uint64_t starts[] = {2, 5, 11, 28, 35, 42}, ends[] = {3, 8, 25, 32, 39, 43};
    yaml_c_parsed parsed;
    yaml_c_answer answer, same;
    yaml_c_settings settings;
    int scalars = 0;
    yaml_c_parsed_init(&parsed);
    yaml_c_answer_init(&answer);
    yaml_c_answer_init(&same);
    yaml_c_defaults(&settings);
    calls += 3;
    EXPECT(yaml_c_parse((const uint8_t *)text, sizeof text - 1, 0, &parsed, &answer) == 0);
    for (size_t i = 0; i < parsed.events_len; i++) {
        const yaml_c_event *it = &parsed.events[i];
        is_told(&parsed, it);
        if (it->kind == YAML_C_SCALAR_EVENT) {
            EXPECT(it->has_tag == tags[scalars] && it->start.character == starts[scalars] && it->end.character == ends[scalars]);
            scalars++;
        }
    }
    EXPECT(scalars == 6 && parsed.events[parsed.events_len - 1].end.character == 44);
    EXPECT(yaml_c_emit(parsed.events, parsed.events_len, parsed.directives, parsed.directives_len, parsed.bytes.at, parsed.bytes.len,
                       &settings, &answer) == 0);
    EXPECT(yaml_c_same(answer.text.at, answer.text.len, 0, (const uint8_t *)text, sizeof text - 1, 0, &same) == 0 && same.is == 1);
    yaml_c_answer_free(&answer);
    yaml_c_answer_free(&same);
    yaml_c_parsed_free(&parsed);
}

/* So they are for tokens, a fault's places, and a text in UTF-16. */
static void characters_are_counted(void)
{
    static const uint8_t wide[] = {0xFF, 0xFE, 0xE9, 0, ':', 0, ' ', 0, '!', 0, ' ', 0, 0x3D, 0xD8, 0x00, 0xDE, '\n', 0};
    static const char fault[] = "\xEF\xBB\xBF\xC3\xA9: [\xC3\xB6";
    records r;
    init(&r);
    calls += 3;
    EXPECT(yaml_c_front(wide, sizeof wide, 0, &r.parsed, &r.answer) == 0 && r.parsed.events_len == 8);
    EXPECT(r.parsed.events[4].has_tag == 2 && r.parsed.events[4].start.index == 4 && r.parsed.events[4].start.character == 3);
    EXPECT(r.parsed.events[4].end.index == 10 && r.parsed.events[4].end.character == 6);
    give_back(&r);
    EXPECT(yaml_c_front((const uint8_t *)fault, sizeof fault - 1, 0, &r.parsed, &r.answer) == YAML_C_PARSER_ERROR);
    EXPECT(r.answer.problem_mark.index == 7 && r.answer.problem_mark.character == 5);
    EXPECT(r.answer.context_mark.index == 4 && r.answer.context_mark.character == 3);
    give_back(&r);
    EXPECT(yaml_c_scan((const uint8_t *)fault, sizeof fault - 1, 0, &r.scanned, &r.answer) == 0 && r.scanned.tokens_len == 8);
    EXPECT(r.scanned.tokens[6].start.index == 5 && r.scanned.tokens[6].start.character == 4);
    EXPECT(r.scanned.tokens[7].end.index == 7 && r.scanned.tokens[7].end.character == 5);
    give_back(&r);
}

/* A text in UTF-16 with a byte order mark, and the same where the encoding is set and nothing is left out. */
static void decoded(void)
{
    static const uint8_t text[] = {0xFF, 0xFE, 'a', 0, 0x3D, 0xD8, 0x00, 0xDE};
    yaml_c_answer answer;
    yaml_c_answer_init(&answer);
    calls += 3;
    EXPECT(yaml_c_decode(text, sizeof text, 0, &answer) == 0);
    EXPECT(answer.text.len == 5 && !memcmp(answer.text.at, "a\xF0\x9F\x98\x80", 5));
    yaml_c_answer_free(&answer);
    EXPECT(yaml_c_decode(text, sizeof text, YAML_C_UTF16LE_ENCODING, &answer) == 0);
    EXPECT(answer.text.len == 8 && !memcmp(answer.text.at, "\xEF\xBB\xBF" "a", 4));
    yaml_c_answer_free(&answer);
    EXPECT(yaml_c_decode(text, 5, 0, &answer) == YAML_C_READER_ERROR && answer.offset == 4 && answer.text.len == 0);
    yaml_c_answer_free(&answer);
}

/* A text that is nothing but a `!` is quoted, whatever form is asked for; an alias without an anchor doesn't load. */
static void normalized(void)
{
    yaml_c_settings settings;
    yaml_c_answer answer;
    yaml_c_answer_init(&answer);
    yaml_c_defaults(&settings);
    calls += 3;
    EXPECT(yaml_c_normalize(bytes_of(3), 1, 0, &settings, &answer) == 0);
    EXPECT(answer.text.len == 5 && !memcmp(answer.text.at, "! ''\n", 5) && answer.is == 0);
    yaml_c_answer_free(&answer);
    EXPECT(yaml_c_check(bytes_of(3), 1, 0, &answer) == 0 && answer.text.len == 0);
    yaml_c_answer_free(&answer);
    EXPECT(yaml_c_check(bytes_of(5), 2, 0, &answer) == YAML_C_COMPOSER_ERROR && answer.text.len == 0);
    yaml_c_answer_free(&answer);
}

/* What is emitted of each list. */
static void emitted(void)
{
    static const int kinds[TEXT_NUMBER] = {0, 0, 0, 0, 0, 0, YAML_C_EMITTER_ERROR, YAML_C_WRITER_ERROR};
    yaml_c_settings settings;
    yaml_c_answer answer, same;
    records pieces;
    yaml_c_answer_init(&answer);
    yaml_c_answer_init(&same);
    for (int list = 0; list < TEXT_NUMBER; list++) {
        yaml_c_defaults(&settings);
        settings.canonical = list % 2;
        calls++;
        EXPECT(emit_list(list, &settings, &answer) == kinds[list] && answer.kind == kinds[list]);
        if (list == 0) {
            calls++;
            EXPECT(yaml_c_same(answer.text.at, answer.text.len, 0, (const uint8_t *)STREAM_TEXT, strlen(STREAM_TEXT), 0, &same) == 0);
            EXPECT(same.is == 1);
        }
        calls++;
        init(&pieces);
        EXPECT(emit_list_on(list, &settings, &answer.text, &pieces) == kinds[list]);
        give_back(&pieces);
        yaml_c_answer_free(&answer);
        yaml_c_answer_free(&same);
    }
}

/* Likewise of the events of each text, in pieces of each length up to eight. */
static void emitted_in_pieces(void)
{
    yaml_c_settings settings;
    yaml_c_answer answer;
    records r;
    yaml_c_answer_init(&answer);
    for (int text = 0; text < TEXT_NUMBER; text++)
        for (size_t piece = 1; piece <= 8; piece++) {
            yaml_c_defaults(&settings);
            settings.canonical = piece % 2;
            settings.encoding = (int)(piece % 4);
            calls += 2;
            EXPECT(emit_parsed(text, &settings, &answer) == 0);
            init(&r);
            EXPECT(emit_pieces(&parsed_texts[text], piece, &settings, &answer.text, &r) == 0);
            EXPECT(parsed_texts[text].events_len == 0 || r.stand.place.state == 17);
            give_back(&r);
            yaml_c_answer_free(&answer);
        }
}

/* A checkpoint that means nothing, by a field of its place. */
static void wrong_stand(yaml_c_place place)
{
    yaml_c_settings settings;
    yaml_c_parsed none;
    records r;
    yaml_c_defaults(&settings);
    yaml_c_parsed_init(&none);
    init(&r);
    r.stand.place = place;
    calls++;
    EXPECT(yaml_c_emit_on(&none, &settings, &r.stand, &r.behind, &r.answer) == YAML_C_REFUSED_ARGUMENT);
    EXPECT(r.behind.place.state == 0 && r.behind.levels_len == 0);
    yaml_c_stand_init(&r.stand);
    give_back(&r);
}

static void wrong_stands(void)
{
    static const yaml_c_place there = {.state = 3, .encoding = 1};
    static const yaml_c_level level = {4, 0};
    static const yaml_c_directive outside = {{0, 1}, {0, 0}};
    yaml_c_settings settings;
    yaml_c_parsed none;
    records r;
    yaml_c_place place;
    place = there, place.state = 5, wrong_stand(place);
    place = there, place.state = -1, wrong_stand(place);
    place = there, place.encoding = 4, wrong_stand(place);
    place = there, place.innermost.state = 17, wrong_stand(place);
    place = there, place.column = (uint64_t)1 << 62, wrong_stand(place);
    yaml_c_defaults(&settings);
    yaml_c_parsed_init(&none);
    for (int list = 0; list < 2; list++) {
        init(&r);
        r.stand.place = there;
        if (list)
            r.stand.levels = &level, r.stand.levels_len = 1;
        else
            r.stand.directives = &outside, r.stand.directives_len = 1;
        calls++;
        EXPECT(yaml_c_emit_on(&none, &settings, &r.stand, &r.behind, &r.answer) == YAML_C_REFUSED_ARGUMENT);
        yaml_c_stand_init(&r.stand);
        give_back(&r);
    }
}

/* What is emitted of a text's events has the text's content. */
static void emitted_again(void)
{
    yaml_c_settings settings;
    yaml_c_answer answer, same;
    yaml_c_answer_init(&answer);
    yaml_c_answer_init(&same);
    for (int text = 0; text < TEXT_NUMBER; text++) {
        if (parsed_texts[text].events_len == 0)
            continue;
        yaml_c_defaults(&settings);
        calls += 2;
        EXPECT(emit_parsed(text, &settings, &answer) == 0);
        EXPECT(yaml_c_same(answer.text.at, answer.text.len, 0, bytes_of(text), strlen(TEXTS[text]), 0, &same) == 0 && same.is == 1);
        yaml_c_answer_free(&answer);
        yaml_c_answer_free(&same);
    }
}

/* A record that means nothing, after a stream's and a document's start, and after an event that the emitter refuses. */
static void emit_one(yaml_c_event event, size_t len, int wanted)
{
    yaml_c_event events[3];
    yaml_c_settings settings;
    yaml_c_answer answer;
    yaml_c_directive directive = {{0, 2}, {0, 9}};
    yaml_c_answer_init(&answer);
    for (int is_refused = 0; is_refused < 2; is_refused++) {
        memset(events, 0, sizeof events);
        events[0].kind = is_refused ? YAML_C_STREAM_END_EVENT : YAML_C_STREAM_START_EVENT;
        events[1].kind = YAML_C_DOCUMENT_START_EVENT;
        events[1].implicit = 1;
        events[event.kind == YAML_C_DOCUMENT_START_EVENT ? 1 : 2] = event;
        yaml_c_defaults(&settings);
        calls++;
        EXPECT(yaml_c_emit(events, event.kind == YAML_C_DOCUMENT_START_EVENT ? 2 : 3, &directive, 1,
                           (const uint8_t *)"ab\xff", len, &settings, &answer) == wanted);
        EXPECT(answer.kind == wanted && answer.text.len == 0);
        yaml_c_answer_free(&answer);
    }
}

static void wrong_events(void)
{
    yaml_c_event scalar;
    memset(&scalar, 0, sizeof scalar);
    scalar.kind = YAML_C_SCALAR_EVENT;
    scalar.implicit = scalar.quoted_implicit = 1;
    for (int which = 0; which < 7; which++) {
        yaml_c_event event = scalar;
        yaml_c_span span = {which == 1 ? UINT64_MAX : which == 2 ? 3 : 1, which == 3 ? UINT64_MAX : 2};
        if (which == 0)
            event.style = 6;
        else if (which < 4)
            event.value = span;
        else
            event.kind = which == 4 ? 11 : which == 5 ? -1 : 0;
        emit_one(event, 2, YAML_C_REFUSED_ARGUMENT);
    }
    scalar.value.at = 1;
    scalar.value.len = 2;
    emit_one(scalar, 3, YAML_C_REFUSED_ARGUMENT);
    scalar.kind = YAML_C_DOCUMENT_START_EVENT;
    scalar.directives.len = 2;
    emit_one(scalar, 2, YAML_C_REFUSED_ARGUMENT);
    scalar.directives.len = 1;
    emit_one(scalar, 2, YAML_C_REFUSED_ARGUMENT);
}

/* Records of nodes that mean nothing: another kind, and what lies outside. */
static void wrong_graphs(void)
{
    static const yaml_c_node wrong[] = {{4, 0, 0}, {-1, 0, 0}, {2, 6, 1}, {3, 7, 0}, {2, UINT64_MAX, 2}, {3, 2, UINT64_MAX}};
    for (size_t i = 0; i < sizeof wrong / sizeof *wrong; i++) {
        yaml_c_node nodes[2] = {NODES[1], wrong[i]};
        yaml_c_graph graph = {nodes, 2, HELD, sizeof HELD / sizeof *HELD};
        records r;
        init(&r);
        calls++;
        EXPECT(yaml_c_serialize(&graph, &r.turns, &r.answer) == YAML_C_REFUSED_ARGUMENT && r.turns.turns_len == 0);
        give_back(&r);
    }
}

/* The turns of a dump, each by what it is, its node and the number of its anchor. */
static void serialized(void)
{
    static const yaml_c_turn turns[] = {{9, 1, 2}, {6, 2, 1}, {7, 3, 0}, {5, 2, 1}, {6, 5, 0}, {8, 3, 0}, {6, 4, 0}, {5, 1, 2}, {10, 1, 0}};
    records r;
    init(&r);
    calls++;
    EXPECT(yaml_c_serialize(&GRAPH, &r.turns, &r.answer) == 0 && r.turns.turns_len == sizeof turns / sizeof *turns);
    EXPECT(!memcmp(r.turns.turns, turns, sizeof turns));
    give_back(&r);
}

/* Records of events that mean nothing: another kind, a name that lies outside, an alias without one. */
static void wrong_steps(void)
{
    static const yaml_c_step wrong[] = {
        {4, 0, 0, 0}, {11, 0, 0, 0}, {-1, 0, 0, 0}, {6, 1, 2, 1}, {7, 1, UINT64_MAX, 2}, {9, 1, 1, UINT64_MAX}, {5, 1, 3, 0}, {5, 0, 0, 1},
    };
    for (size_t i = 0; i < sizeof wrong / sizeof *wrong; i++) {
        yaml_c_step steps[2] = {STEPS[0], wrong[i]};
        records r;
        init(&r);
        calls++;
        EXPECT(yaml_c_compose(steps, 2, (const uint8_t *)"ab", 2, &r.spots, &r.answer) == YAML_C_REFUSED_ARGUMENT && r.spots.spots_len == 0);
        give_back(&r);
    }
}

/* What events come to, also before an alias that is refused. */
static void composed(void)
{
    static const yaml_c_spot spots[] = {{1, 0}, {2, 1}, {3, 1}, {1, 3}, {4, 3}, {4, 3}, {3, 0}, {5, 1}, {4, 1}, {1, 0}};
    for (int is_whole = 0; is_whole < 2; is_whole++) {
        records r;
        init(&r);
        calls++;
        int kind = yaml_c_compose(STEPS, STEPS_LENGTH - is_whole, (const uint8_t *)"ab", 2, &r.spots, &r.answer);
        EXPECT(kind == (is_whole ? 0 : YAML_C_COMPOSER_ERROR) && r.spots.spots_len == sizeof spots / sizeof *spots);
        EXPECT(!memcmp(r.spots.spots, spots, sizeof spots));
        EXPECT(is_whole || (r.answer.problem.len == 21 && !memcmp(r.answer.problem.at, "found undefined alias", 21)));
        give_back(&r);
    }
}

int main(void)
{
    yaml_c_answer answer;
    long begun = blocks;
    yaml_c_answer_init(&answer);
    for (int text = 0; text < TEXT_NUMBER; text++) {
        yaml_c_parsed_init(&parsed_texts[text]);
        yaml_c_parse(bytes_of(text), strlen(TEXTS[text]), 0, &parsed_texts[text], &answer);
        yaml_c_answer_free(&answer);
    }
    events_are_told();
    fronts_are_told();
    places_are_told();
    characters_are_counted();
    decoded();
    normalized();
    for (int call = 0; call < CALL_NUMBER; call++)
        for (int text = 0; text < TEXT_NUMBER; text++)
            refuse_in_turn(call, text);
    numbers();
    emitted();
    emitted_again();
    emitted_in_pieces();
    wrong_stands();
    partings();
    wrong_events();
    wrong_graphs();
    serialized();
    wrong_steps();
    composed();
    for (int text = 0; text < TEXT_NUMBER; text++)
        yaml_c_parsed_free(&parsed_texts[text]);
    EXPECT(blocks == begun);
    printf("check: %ld calls as promised, %ld of them with allocations refused; no block is left\n", calls, refused_calls);
    return 0;
}
