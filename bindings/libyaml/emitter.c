/* The emitter: events are kept as records, and laid out by the proved core, which continues from its checkpoint (yaml_c_emit_on): each
 * time that enough are kept, at the end of a document, at a flush, and with an event that may be wrong. */
#include "layer.h"

int layer_no_emitter_memory(yaml_emitter_t *emitter)
{
    emitter->error = YAML_MEMORY_ERROR;
    return 0;
}

YAML_DECLARE(int) yaml_emitter_initialize(yaml_emitter_t *emitter)
{
    assert(emitter);
    memset(emitter, 0, sizeof *emitter);
    layer_writing *w = calloc(1, sizeof *w);
    if (!w)
        return layer_no_emitter_memory(emitter);
    yaml_c_stand_init(&w->stand);
    LAYER_SET_STATE(emitter, w);
    return 1;
}

YAML_DECLARE(void) yaml_emitter_delete(yaml_emitter_t *emitter)
{
    assert(emitter);
    layer_writing *w = LAYER_STATE(layer_writing, emitter);
    if (w) {
        yaml_c_stand_free(&w->stand);
        free(w->levels.at);
        free(w->events.at);
        free(w->directives.at);
        free(w->bytes.at);
        free(w->problem);
        free(w);
    }
    memset(emitter, 0, sizeof *emitter);
}

/* ---- layouts */

static yaml_c_settings settings_of(const yaml_emitter_t *emitter)
{
    yaml_c_settings settings;
    yaml_c_defaults(&settings);
    settings.encoding = (int32_t)emitter->encoding;
    settings.canonical = emitter->canonical;
    settings.indent = emitter->best_indent;
    settings.width = emitter->best_width;
    settings.unicode = emitter->unicode;
    settings.line_break = (int32_t)emitter->line_break;
    return settings;
}

/* What is kept. */
static yaml_c_parsed kept(const layer_writing *w)
{
    yaml_c_parsed given;
    yaml_c_parsed_init(&given);
    if (w->events.len) {
        given.events = (const void *)w->events.at;
        given.events_len = layer_events_len(w);
    }
    if (w->directives.len) {
        given.directives = (const void *)w->directives.at;
        given.directives_len = w->directives.len / sizeof *given.directives;
    }
    if (w->bytes.len) {
        given.bytes.at = w->bytes.at;
        given.bytes.len = w->bytes.len;
    }
    return given;
}

/* Tells a layout's fault, and frees the answer. */
static int fault(yaml_emitter_t *emitter, layer_writing *w, yaml_c_answer *answer)
{
    /* -1: an event with a number or a text that means nothing */
    emitter->error = answer->kind < 0 ? YAML_EMITTER_ERROR : (yaml_error_type_t)answer->kind;
    if (emitter->error != YAML_MEMORY_ERROR) {
        free(w->problem);
        w->problem = (char *)layer_copy(answer->problem.at, answer->problem.len);
        if (w->problem)
            emitter->problem = w->problem;
        else
            emitter->error = YAML_MEMORY_ERROR;
    }
    yaml_c_answer_free(answer);
    return 0;
}

/* Moves a text to the front, in which order it may lie on itself. */
static void move_text(layer_writing *w, yaml_c_span *span)
{
    if (span->len)
        memmove(w->bytes.at + w->bytes.len, w->bytes.at + span->at, span->len);
    span->at = w->bytes.len;
    w->bytes.len += span->len;
}

/* Moves a document's directives to the front, with their texts. */
static void move_directives(layer_writing *w, yaml_c_span *span)
{
    yaml_c_directive *directives = (void *)w->directives.at;
    size_t to = w->directives.len / sizeof *directives;
    for (size_t i = 0; i < span->len; i++) {
        yaml_c_directive directive = directives[span->at + i];
        move_text(w, &directive.handle);
        move_text(w, &directive.prefix);
        directives[to + i] = directive;
    }
    span->at = to;
    w->directives.len += span->len * sizeof *directives;
}

/* Of what is kept the last events stay, as many as wait for later ones. */
static void keep_waiting(layer_writing *w)
{
    yaml_c_event *events = (void *)w->events.at;
    size_t waiting = w->stand.place.waiting, from = layer_events_len(w) - waiting;
    w->bytes.len = w->directives.len = 0;
    for (size_t i = 0; i < waiting; i++) {
        yaml_c_event *it = &events[i];
        *it = events[from + i];
        if (it->kind == YAML_C_DOCUMENT_START_EVENT)
            move_directives(w, &it->directives);
        if (it->has_anchor || it->kind == YAML_C_ALIAS_EVENT)
            move_text(w, &it->anchor);
        if (it->has_tag)
            move_text(w, &it->tag);
        if (it->kind == YAML_C_SCALAR_EVENT)
            move_text(w, &it->value);
    }
    w->events.len = waiting * sizeof *events;
}

/* Has the handler take a text, and frees the answer. */
static int write_out(yaml_emitter_t *emitter, yaml_c_answer *answer)
{
    int is_written = 1;
    if (answer->text.len) {
        assert(emitter->write_handler);
        is_written = emitter->write_handler(emitter->write_handler_data, (unsigned char *)answer->text.at, answer->text.len);
    }
    yaml_c_answer_free(answer);
    if (is_written)
        return 1;
    emitter->error = YAML_WRITER_ERROR;
    emitter->problem = "write error";
    return 0;
}

/* Lays out what is kept, and has it written. */
LAYER_RARE static int lay_out(yaml_emitter_t *emitter, layer_writing *w)
{
    yaml_c_answer answer;
    yaml_c_stand behind;
    yaml_c_parsed given = kept(w);
    yaml_c_settings settings = settings_of(emitter);
    if (given.events_len == w->stand.place.waiting)
        return 1;
    yaml_c_answer_init(&answer);
    yaml_c_stand_init(&behind);
    if (yaml_c_emit_on(&given, &settings, &w->stand, &behind, &answer))
        return fault(emitter, w, &answer);
    yaml_c_stand_free(&w->stand);
    w->stand = behind;
    w->is_doubtful &= behind.place.waiting != 0;
    keep_waiting(w);
    return write_out(emitter, &answer);
}

YAML_DECLARE(int) yaml_emitter_flush(yaml_emitter_t *emitter)
{
    assert(emitter && emitter->write_handler && emitter->encoding);
    return !emitter->error && lay_out(emitter, LAYER_STATE(layer_writing, emitter));
}

/* ---- what may be wrong with an event: where that isn't ruled out at a glance it is laid out at once, and the core judges */

/* Whether a name has letters, digits, `_` and `-` alone. */
static int is_simple(const yaml_char_t *name)
{
    static const char kinds[] = "00000000000000000000000000000000"
                                "00000000000001001111111111000000"
                                "01111111111111111111111111100001"
                                "01111111111111111111111111100000";
    size_t at = 0;
    while (name[at] < 0x80 && kinds[name[at]] == '1')
        at++;
    return at && !name[at];
}

/* Looks at a node's properties. */
static inline void look_at(layer_writing *w, const yaml_char_t *anchor, const yaml_char_t *tag, int may_lack_tag)
{
    if ((anchor && !is_simple(anchor)) || (tag ? !*tag : !may_lack_tag))
        w->is_doubtful = 1;
}

/* ---- where the events lead: an event in a wrong place is laid out at once, which reports the fault */

enum { IS_MAPPING = 1, IS_VALUE = 2 };

enum due { KEEP, LAY_OUT, NO_MEMORY };

/* The collection that was opened last; NULL: none is open. */
static inline uint8_t *innermost(const layer_writing *w)
{
    return w->levels.len ? w->levels.at + w->levels.len - 1 : NULL;
}

/* A node has come. */
static inline void go_on(layer_writing *w)
{
    uint8_t *around = innermost(w);
    if (around)
        *around ^= (uint8_t)((*around & IS_MAPPING) * IS_VALUE);
}

static enum due open_level(layer_writing *w, uint8_t kind)
{
    return layer_put(&w->levels, &kind, 1) ? KEEP : NO_MEMORY;
}

static enum due close_level(layer_writing *w, uint8_t kind)
{
    const uint8_t *level = innermost(w);
    if (!level || *level != kind)
        return LAY_OUT;
    w->levels.len--;
    go_on(w);
    return KEEP;
}

/* What is due with an event within a document. */
static inline enum due due_in_document(layer_writing *w, const yaml_event_t *event)
{
    if (event->type == YAML_SCALAR_EVENT) {
        look_at(w, event->data.scalar.anchor, event->data.scalar.tag,
                event->data.scalar.plain_implicit || event->data.scalar.quoted_implicit);
        go_on(w);
        return KEEP;
    }
    switch (event->type) {
    case YAML_ALIAS_EVENT:
        look_at(w, event->data.alias.anchor, NULL, event->data.alias.anchor != NULL);
        go_on(w);
        return KEEP;
    case YAML_SEQUENCE_START_EVENT:
        look_at(w, event->data.sequence_start.anchor, event->data.sequence_start.tag, 1);
        return open_level(w, 0);
    case YAML_MAPPING_START_EVENT:
        look_at(w, event->data.mapping_start.anchor, event->data.mapping_start.tag, 1);
        return open_level(w, IS_MAPPING);
    case YAML_SEQUENCE_END_EVENT: return close_level(w, 0);
    case YAML_MAPPING_END_EVENT: return close_level(w, IS_MAPPING);
    case YAML_DOCUMENT_END_EVENT: w->place = LAYER_BETWEEN_DOCUMENTS; return LAY_OUT;
    default: return LAY_OUT;
    }
}

/* Likewise between documents. */
LAYER_RARE static enum due due_between(layer_writing *w, const yaml_event_t *event)
{
    if (event->type == YAML_STREAM_END_EVENT)
        w->place = LAYER_BEHIND_STREAM;
    if (event->type != YAML_DOCUMENT_START_EVENT)
        return LAY_OUT;
    w->place = LAYER_IN_DOCUMENT;
    w->levels.len = 0;
    if (event->data.document_start.version_directive
        || event->data.document_start.tag_directives.start != event->data.document_start.tag_directives.end)
        w->is_doubtful = 1;
    return KEEP;
}

/* What libyaml settles in its structure as a stream begins, and some clients read. */
LAYER_RARE static void settle(yaml_emitter_t *emitter, yaml_encoding_t encoding)
{
    if (!emitter->encoding)
        emitter->encoding = encoding ? encoding : YAML_UTF8_ENCODING;
    if (emitter->best_indent < 2 || emitter->best_indent > 9)
        emitter->best_indent = 2;
    if (emitter->best_width >= 0 && emitter->best_width <= emitter->best_indent * 2)
        emitter->best_width = 80;
    if (emitter->best_width < 0)
        emitter->best_width = INT_MAX;
    if (!emitter->line_break)
        emitter->line_break = YAML_LN_BREAK;
}

static inline enum due due_with(yaml_emitter_t *emitter, layer_writing *w, const yaml_event_t *event)
{
    if (w->place == LAYER_IN_DOCUMENT)
        return due_in_document(w, event);
    switch (w->place) {
    case LAYER_BEFORE_STREAM:
        if (event->type != YAML_STREAM_START_EVENT)
            return LAY_OUT;
        w->place = LAYER_BETWEEN_DOCUMENTS;
        settle(emitter, event->data.stream_start.encoding);
        return KEEP;
    case LAYER_BETWEEN_DOCUMENTS: return due_between(w, event);
    default: return LAY_OUT;
    }
}

/* ---- events */

/* How many events are kept, or a 64th of the bytes of their texts, before they are laid out; 0: none more than have to be. */
#ifndef LAYER_PIECE
#define LAYER_PIECE 512
#endif

/* Whether enough is kept: more where more collections are open, which are handed over with each layout. */
static inline int is_enough(const layer_writing *w)
{
    size_t most = LAYER_PIECE ? LAYER_PIECE + 8 * w->stand.levels_len : 0;
    return w->events.len >= most * sizeof(yaml_c_event) || w->bytes.len >= 64 * most;
}

static inline int take(yaml_emitter_t *emitter, layer_writing *w, const yaml_event_t *event)
{
    enum due due = due_with(emitter, w, event);
    w->is_canonical = emitter->canonical;
    if (due == NO_MEMORY || !layer_record(w, event))
        return layer_no_emitter_memory(emitter);
    return (due == KEEP && !w->is_doubtful && !is_enough(w)) || lay_out(emitter, w);
}

YAML_DECLARE(int) yaml_emitter_emit(yaml_emitter_t *emitter, yaml_event_t *event)
{
    assert(emitter && event);
    if (emitter->error || !take(emitter, LAYER_STATE(layer_writing, emitter), event)) {
        yaml_event_delete(event);
        return 0;
    }
    /* as with libyaml, nothing is written in the event's place, which may be far from the processor */
    layer_free_texts(event);
    return 1;
}
