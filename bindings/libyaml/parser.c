/* The parser: the input is read in windows of whole documents, each made into records by the proved core; each call hands out one
 * event, and after those before a fault the fault. */
#include "layer.h"

int layer_no_memory(yaml_parser_t *parser)
{
    parser->error = YAML_MEMORY_ERROR;
    return 0;
}

YAML_DECLARE(int) yaml_parser_initialize(yaml_parser_t *parser)
{
    assert(parser);
    memset(parser, 0, sizeof *parser);
    layer_reading *reading = calloc(1, sizeof *reading);
    if (!reading)
        return layer_no_memory(parser);
    yaml_c_parsed_init(&reading->parsed);
    yaml_c_scanned_init(&reading->scanned);
    yaml_c_answer_init(&reading->answer);
    parser->buffer.start = parser->buffer.pointer = parser->buffer.last = parser->buffer.end = reading->nothing;
    LAYER_SET_STATE(parser, reading);
    return 1;
}

/* Frees what was read of the last window. */
static void forget(layer_reading *reading)
{
    free(reading->events);
    reading->events = NULL;
    reading->next = reading->end = 0;
    yaml_c_parsed_free(&reading->parsed);
    yaml_c_scanned_free(&reading->scanned);
    yaml_c_answer_free(&reading->answer);
}

YAML_DECLARE(void) yaml_parser_delete(yaml_parser_t *parser)
{
    assert(parser);
    layer_reading *reading = LAYER_STATE(layer_reading, parser);
    if (reading) {
        forget(reading);
        free(reading->input.at);
        free(reading->joined.at);
        free(reading->problem);
        free(reading->context);
        free(reading->shown);
        free(reading);
    }
    memset(parser, 0, sizeof *parser);
}

/* ---- records */

/* The root of the last document; NULL: there is none. */
static const yaml_c_event *last_root(const yaml_c_parsed *parsed)
{
    size_t at = parsed->events_len;
    while (at > 0 && parsed->events[at - 1].kind != YAML_C_DOCUMENT_START_EVENT)
        at--;
    return at > 0 && at < parsed->events_len ? &parsed->events[at] : NULL;
}

/* Whether the events end with those of a root in which the input can be cut, whose beginning is kept: of a block collection at
 * column 0, that and its document have nothing that a stand-in hasn't. */
static int ends_in_root(layer_reading *reading)
{
    const yaml_c_event *root = last_root(&reading->parsed), *end = reading->parsed.events + reading->parsed.events_len;
    int kind = reading->cut_in == LAYER_SEQUENCE ? YAML_C_SEQUENCE_START_EVENT : YAML_C_MAPPING_START_EVENT;
    if (root)
        reading->root = root->start;
    return root && end - root >= 4 && root->kind == kind && root->style == YAML_C_BLOCK_STYLE && root->start.column == 0
           && !root->has_anchor && !root->has_tag && !root[-1].has_version && !root[-1].directives.len && end[-3].kind == kind + 1
           && end[-2].implicit;
}

/* Takes the events out of what was parsed. A stand-in's are left out, and the ends of what goes on in the next window. */
static void take_events(layer_reading *reading)
{
    yaml_c_parsed *parsed = &reading->parsed;
    size_t len = parsed->events_len;
    reading->next = reading->stand_in_events;
    if (!len)
        return;
    if (reading->cut_in != LAYER_FLOW)
        reading->end = len;
    if (!reading->is_last && reading->cut_in != LAYER_FLOW) {
        reading->lines = parsed->events[len - 1].start.line;
        reading->chars = parsed->events[len - 1].start.character;
        reading->end -= reading->cut_in ? 3 : 1;
    }
    reading->events = (yaml_c_event *)parsed->events;
    parsed->events_len = 0;
}

/* So many events are kept together, and some more. */
enum { LAYER_FEW_EVENTS = 1 << 15 };

/* Of a long document gives memory back each time that half of the events are done. A refusal changes nothing. */
LAYER_RARE static void give_back(layer_reading *reading)
{
    size_t left = reading->end - reading->next;
    if (left < LAYER_FEW_EVENTS || reading->next < left)
        return;
    memmove(reading->events, reading->events + reading->next, left * sizeof *reading->events);
    reading->next = 0;
    reading->end = left;
    yaml_c_event *less = realloc(reading->events, left * sizeof *less);
    if (less)
        reading->events = less;
}

static void ask_core(const yaml_parser_t *parser, layer_reading *reading)
{
    if (reading->asked == LAYER_TOKENS)
        yaml_c_scan(reading->read, reading->read_len, parser->encoding, &reading->scanned, &reading->answer);
    else
        yaml_c_front(reading->read, reading->read_len, parser->encoding, &reading->parsed, &reading->answer);
}

/* Whether what was read of the window may not be the input's. Of a document in flow style that before its cut is. */
static int is_doubtful(layer_reading *reading)
{
    if (reading->cut_in == LAYER_FLOW) {
        if (reading->answer.kind == YAML_C_MEMORY_ERROR)
            return 0;
        if (!layer_cut_in_flow(reading))
            return 1;
        yaml_c_answer_free(&reading->answer);
        return 0;
    }
    if (layer_is_doubtful(reading))
        return 1;
    if (reading->answer.kind)
        return 0;
    return reading->asked == LAYER_TOKENS ? layer_is_open(reading) : reading->cut_in && !ends_in_root(reading);
}

/* Reads the next window, and where it may not show what the input does, more. */
static int read_window(yaml_parser_t *parser, layer_reading *reading)
{
    forget(reading);
    if (!layer_next_window(parser, reading))
        return 0;
    ask_core(parser, reading);
    while (is_doubtful(reading)) {
        forget(reading);
        if (!layer_widen(parser, reading))
            return 0;
        ask_core(parser, reading);
    }
    reading->is_last |= reading->answer.kind != YAML_C_ANSWERED;
    if (reading->answer.kind == YAML_C_MEMORY_ERROR)
        return 1;
    if (reading->asked == LAYER_TOKENS)
        layer_take_tokens(reading);
    else
        take_events(reading);
    layer_tell_encoding(parser, reading);
    return 1;
}

int layer_read(yaml_parser_t *parser, layer_reading *reading, enum layer_asked asked)
{
    if (!reading->asked)
        reading->asked = asked;
    if (reading->asked != asked) {
        parser->error = YAML_PARSER_ERROR;
        parser->problem = "a parser gives events or tokens, not both";
        return 0;
    }
    while (reading->next >= reading->end && !reading->is_last)
        if (!read_window(parser, reading))
            return 0;
    return 1;
}

/* Whether after the events a block mapping waits for a key that isn't its first. */
static int waits_for_key(const layer_reading *reading)
{
    size_t depth = 0, nodes = 0;
    for (size_t i = reading->events ? reading->end : 0; i-- > 0;) {
        const yaml_c_event *it = &reading->events[i];
        int is_start = it->kind == YAML_C_SEQUENCE_START_EVENT || it->kind == YAML_C_MAPPING_START_EVENT;
        if (is_start && !depth)
            return it->kind == YAML_C_MAPPING_START_EVENT && it->style == YAML_C_BLOCK_STYLE && nodes && nodes % 2 == 0;
        depth += it->kind == YAML_C_SEQUENCE_END_EVENT || it->kind == YAML_C_MAPPING_END_EVENT;
        depth -= is_start;
        nodes += !depth;
    }
    return 0;
}

/* Settles what libyaml's private fields have at a fault, since some clients (netplan) look at them: the line at which the scanner
 * is, as far as it is near. Before a reader's fault it is at the window's beginning. */
static int settle(yaml_parser_t *parser, layer_reading *reading)
{
    int is_read = parser->error != YAML_READER_ERROR;
    size_t at = is_read ? reading->answer.problem_mark.index + reading->mark_len : 0;
    size_t from = at, to = at, end = is_read ? reading->read_len : reading->answer.offset;
    if (parser->encoding > YAML_UTF8_ENCODING || end > reading->read_len || at > end)
        return 1;
    while (from > 0 && at - from < 4096 && reading->read[from - 1] != '\n')
        from--;
    while (to < end && to - at < 4096 && reading->read[to] != '\n')
        to++;
    parser->token_available = parser->error == YAML_PARSER_ERROR;
    if (waits_for_key(reading))
        parser->state = YAML_PARSE_BLOCK_MAPPING_KEY_STATE;
    return layer_show(parser, reading, reading->read + from, to - from, at - from);
}

int layer_fault(yaml_parser_t *parser, layer_reading *reading)
{
    const yaml_c_answer *answer = &reading->answer;
    if (answer->kind == YAML_C_MEMORY_ERROR)
        return layer_no_memory(parser);
    /* an encoding that is none: */
    parser->error = answer->kind < 0 ? YAML_READER_ERROR : (yaml_error_type_t)answer->kind;
    reading->problem = (char *)layer_copy(answer->problem.at, answer->problem.len);
    if (answer->context.len)
        reading->context = (char *)layer_copy(answer->context.at, answer->context.len);
    if (!reading->problem || (answer->context.len && !reading->context))
        return layer_no_memory(parser);
    parser->problem = reading->problem;
    parser->context = reading->context;
    parser->problem_offset = answer->kind == YAML_C_READER_ERROR ? reading->bytes_before - reading->stand_in + answer->offset : 0;
    parser->problem_value = answer->value;
    if (parser->error != YAML_READER_ERROR) {
        parser->problem_mark = layer_mark(reading, &answer->problem_mark);
        /* a scanner's fault has that mark without a context too */
        if (answer->context.len || answer->kind == YAML_C_SCANNER_ERROR)
            parser->context_mark = layer_mark(reading, &answer->context_mark);
        parser->mark = parser->problem_mark;
    }
    return settle(parser, reading) ? 0 : layer_no_memory(parser);
}

/* ---- events */

static int copied(const layer_reading *reading, yaml_char_t **to, yaml_c_span span)
{
    return (*to = layer_copy(reading->parsed.bytes.at + span.at, span.len)) != NULL;
}

/* The tag of a node that has one. That of a scalar which is `!` is left out of its record. */
static int tag_copied(const layer_reading *reading, const yaml_c_event *it, yaml_char_t **tag)
{
    return it->has_tag == 2 ? (*tag = layer_copy("!", 1)) != NULL : copied(reading, tag, it->tag);
}

/* The anchor and the tag of a node that has one of them. */
LAYER_RARE static int names_copied(const layer_reading *reading, const yaml_c_event *it, yaml_char_t **anchor, yaml_char_t **tag)
{
    return (!it->has_anchor || copied(reading, anchor, it->anchor)) && (!it->has_tag || tag_copied(reading, it, tag));
}

/* The anchor and the tag of a node, which most have none of. */
static inline int properties_copied(const layer_reading *reading, const yaml_c_event *it, yaml_char_t **anchor, yaml_char_t **tag)
{
    return !(it->has_anchor | it->has_tag) || names_copied(reading, it, anchor, tag);
}

static inline int scalar_made(const layer_reading *reading, const yaml_c_event *it, yaml_event_t *event)
{
    event->data.scalar.length = it->value.len;
    event->data.scalar.plain_implicit = it->implicit;
    event->data.scalar.quoted_implicit = it->quoted_implicit;
    event->data.scalar.style = (yaml_scalar_style_t)it->style;
    return properties_copied(reading, it, &event->data.scalar.anchor, &event->data.scalar.tag)
           && copied(reading, &event->data.scalar.value, it->value);
}

LAYER_RARE static int directives_made(const layer_reading *reading, yaml_c_span span, yaml_event_t *event)
{
    if (!span.len)
        return 1;
    yaml_tag_directive_t *directives = calloc(span.len, sizeof *directives);
    if (!directives)
        return 0;
    event->data.document_start.tag_directives.start = directives;
    event->data.document_start.tag_directives.end = directives + span.len;
    for (size_t i = 0; i < span.len; i++) {
        const yaml_c_directive *from = &reading->parsed.directives[span.at + i];
        if (!copied(reading, &directives[i].handle, from->handle) || !copied(reading, &directives[i].prefix, from->prefix))
            return 0;
    }
    return 1;
}

LAYER_RARE static int document_start_made(const layer_reading *reading, const yaml_c_event *it, yaml_event_t *event)
{
    event->data.document_start.implicit = it->implicit;
    if (it->has_version) {
        yaml_version_directive_t *version = malloc(sizeof *version);
        if (!version)
            return 0;
        version->major = it->major;
        version->minor = it->minor;
        event->data.document_start.version_directive = version;
    }
    return directives_made(reading, it->directives, event);
}

/* Fills what the event's kind has. 0: memory was refused. */
static inline int made(const layer_reading *reading, const yaml_c_event *it, int kind, yaml_event_t *event)
{
    if (kind == YAML_C_SCALAR_EVENT)
        return scalar_made(reading, it, event);
    switch (kind) {
    case YAML_C_STREAM_START_EVENT: event->data.stream_start.encoding = (yaml_encoding_t)it->encoding; return 1;
    case YAML_C_DOCUMENT_START_EVENT: return document_start_made(reading, it, event);
    case YAML_C_DOCUMENT_END_EVENT: event->data.document_end.implicit = it->implicit; return 1;
    case YAML_C_ALIAS_EVENT: return copied(reading, &event->data.alias.anchor, it->anchor);
    case YAML_C_SEQUENCE_START_EVENT:
        event->data.sequence_start.implicit = it->implicit;
        event->data.sequence_start.style = (yaml_sequence_style_t)it->style;
        return properties_copied(reading, it, &event->data.sequence_start.anchor, &event->data.sequence_start.tag);
    case YAML_C_MAPPING_START_EVENT:
        event->data.mapping_start.implicit = it->implicit;
        event->data.mapping_start.style = (yaml_mapping_style_t)it->style;
        return properties_copied(reading, it, &event->data.mapping_start.anchor, &event->data.mapping_start.tag);
    default: return 1;
    }
}

/* Whether a document begins before the fault, which the core doesn't report: where the fault is the stream's first token. */
static int misses_start(const layer_reading *reading)
{
    static const char problem[] = "did not find expected node content";
    const yaml_c_bytes *told = &reading->answer.problem;
    return reading->last == YAML_C_STREAM_START_EVENT && told->len == sizeof problem - 1 && !memcmp(told->at, problem, told->len);
}

/* Makes the event of a record. 0: memory was refused. */
static inline int hand_out(yaml_parser_t *parser, layer_reading *reading, const yaml_c_event *it, yaml_event_t *event)
{
    int kind = it->kind;
    event->type = (yaml_event_type_t)kind;
    memset(&event->data, 0, sizeof event->data);
    if (!made(reading, it, kind, event)) {
        yaml_event_delete(event);
        return layer_no_memory(parser);
    }
    event->start_mark = layer_mark(reading, &it->start);
    parser->mark = event->end_mark = layer_mark(reading, &it->end);
    parser->stream_start_produced = 1;
    parser->stream_end_produced = kind == YAML_C_STREAM_END_EVENT;
    reading->last = kind;
    return 1;
}

/* The next event, where none is at hand; before a fault also the document's start that the core doesn't report. NULL: there is
 * none, and the parser says why. */
LAYER_RARE static const yaml_c_event *read_on(yaml_parser_t *parser, layer_reading *reading)
{
    yaml_c_event *missed = &reading->missed;
    if (!layer_read(parser, reading, LAYER_EVENTS))
        return NULL;
    if (reading->next < reading->end)
        return &reading->events[reading->next++];
    if (!misses_start(reading)) {
        layer_fault(parser, reading);
        return NULL;
    }
    memset(missed, 0, sizeof *missed);
    missed->kind = YAML_C_DOCUMENT_START_EVENT;
    missed->implicit = 1;
    missed->start = missed->end = reading->answer.problem_mark;
    return missed;
}

YAML_DECLARE(int) yaml_parser_parse(yaml_parser_t *parser, yaml_event_t *event)
{
    assert(parser && event);
    layer_reading *reading = LAYER_STATE(layer_reading, parser);
    const yaml_c_event *it;
    if (parser->error || parser->stream_end_produced) {
        layer_clear(event);
        return 1;
    }
    if (reading->asked == LAYER_EVENTS && reading->next < reading->end) {
        if (reading->end >= 2 * LAYER_FEW_EVENTS)
            give_back(reading);
        it = &reading->events[reading->next++];
    } else {
        it = read_on(parser, reading);
        if (!it) {
            layer_clear(event);
            return 0;
        }
    }
    return hand_out(parser, reading, it, event);
}
