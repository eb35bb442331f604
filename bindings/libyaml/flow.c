/* Where an input is cut within a document whose root is in flow style: after an item or a pair of the innermost open collection,
 * where one more begins. Such a cut is found by events: a window that ends anywhere is parsed, its
 * fault counts for nothing, and of its events those before the cut are handed out. The event after
 * the cut, which isn't, shows that a comma is between them, so that every token before it has
 * ended. No bracket that is open is the beginning of a key, since the event after the cut is in
 * another line, or further on than a key goes.
 *
 * What is after the cut is parsed after a stand-in: the brackets that are open, each with a key where it is a value, and an
 * item or a pair in the innermost one; then a line break, after which none of these brackets begins a key. In flow style no column
 * and no indentation counts, so that the parser is after the stand-in as it was before the comma. Of the stand-in, and of the
 * line in which the cut is, the places are put right.
 *
 * It is so where all that is open is plain brackets, without properties, keys, or pairs without brackets, and the document has no
 * directives. */
#include "layer.h"

/* What is open before an event. */
typedef struct {
    layer_open opens[LAYER_OPENS]; /* the outermost ones */
    int is_value[LAYER_OPENS];     /* of a mapping: its key has come */
    int is_plain[LAYER_OPENS];     /* that and all around it may be in a stand-in */
    size_t depth;
    int is_bare; /* the document has no directives */
} walk;

/* Whether the event is a bracket alone. A pair without brackets begins with its key, which has no width or another sign. */
static int is_bracket(const layer_reading *reading, const yaml_c_event *it)
{
    size_t at = it->start.index + reading->mark_len;
    return it->style == YAML_C_FLOW_STYLE && it->end.index == it->start.index + 1 && at < reading->read_len
           && reading->read[at] == (it->kind == YAML_C_MAPPING_START_EVENT ? '{' : '[');
}

static void open_at(walk *w, const layer_reading *reading, const yaml_c_event *it)
{
    size_t at = w->depth++;
    if (at >= LAYER_OPENS)
        return;
    int is_due = at ? w->is_plain[at - 1] && (!w->opens[at - 1].is_mapping || w->is_value[at - 1]) : w->is_bare;
    w->opens[at].start = it->start;
    w->opens[at].is_mapping = it->kind == YAML_C_MAPPING_START_EVENT;
    w->is_value[at] = 0;
    w->is_plain[at] = is_due && is_bracket(reading, it);
}

/* Whether what is open can't begin a key, since that event is too far after it: a key is in one line, and has at most 1,024
 * characters. */
static int is_past_keys(const walk *w, const yaml_c_event *it)
{
    const yaml_c_mark *open = &w->opens[w->depth - 1].start;
    return open->line < it->start.line || open->index + 4 * 1024 < it->start.index;
}

/* A node has come. Whether the input may be cut after it, as far as that shows. */
static inline int node_came(walk *w)
{
    if (!w->depth || w->depth > LAYER_OPENS)
        return 0;
    size_t at = w->depth - 1;
    w->is_value[at] = !w->is_value[at];
    return w->is_plain[at] && !(w->opens[at].is_mapping && w->is_value[at]);
}

/* Whether the input may be cut after this event. */
static inline int goes_on(walk *w, const layer_reading *reading, const yaml_c_event *it)
{
    if (it->kind == YAML_C_SCALAR_EVENT)
        return node_came(w);
    switch (it->kind) {
    case YAML_C_DOCUMENT_START_EVENT:
        w->depth = 0;
        w->is_bare = !it->has_version && !it->directives.len;
        return 0;
    case YAML_C_SEQUENCE_START_EVENT:
    case YAML_C_MAPPING_START_EVENT: open_at(w, reading, it); return 0;
    case YAML_C_SEQUENCE_END_EVENT:
    case YAML_C_MAPPING_END_EVENT: w->depth -= w->depth != 0; return node_came(w);
    case YAML_C_ALIAS_EVENT: return node_came(w);
    default: return 0;
    }
}

static int is_end(const yaml_c_event *it)
{
    return it->kind == YAML_C_SEQUENCE_END_EVENT || it->kind == YAML_C_MAPPING_END_EVENT;
}

/* Keeps what is open at a cut. */
static void keep_opens(layer_reading *reading, const walk *w)
{
    for (size_t i = 0; i < w->depth; i++) {
        reading->opens[i].start = w->opens[i].start;
        reading->opens[i].is_mapping = w->opens[i].is_mapping;
    }
    reading->opens_len = w->depth;
}

/* The last cut except a few: all among the last events are looked at, and some before them. Its number of events before it,
 * and what is open there is kept; 0: there is none. */
static size_t last_cut(layer_reading *reading)
{
    const yaml_c_event *events = reading->parsed.events;
    size_t len = reading->parsed.events_len, last = 0;
    walk w = {.depth = 0};
    for (size_t i = 0; i + 1 < len; i++)
        if (goes_on(&w, reading, &events[i]) && (i + 64 >= len || i >= last + 256 || !last) && !is_end(&events[i + 1])
            && is_past_keys(&w, &events[i + 1]) && events[i].end.index + reading->mark_len > reading->stand_in) {
            keep_opens(reading, &w);
            last = i + 1;
        }
    reading->is_uncut = !last && w.depth > 64 * LAYER_OPENS; /* it is too deep to be looked at again and again */
    return last;
}

int layer_cut_in_flow(layer_reading *reading)
{
    size_t len = last_cut(reading);
    if (!len)
        return 0;
    reading->end = len;
    reading->root = reading->parsed.events[len - 1].end;
    reading->len = reading->root.index + reading->mark_len - reading->stand_in;
    return 1;
}

/* The window's last places, as those of the input, which are known of what the stand-in replaces. */
void layer_leave_flow(layer_reading *reading)
{
    for (size_t i = 0; i < reading->opens_len; i++)
        if (reading->opens[i].start.index >= reading->stand_in)
            reading->opens[i].mark = layer_mark(reading, &reading->opens[i].start);
    yaml_mark_t end = layer_mark(reading, &reading->root);
    reading->chars_before = end.index;
    reading->lines_before = end.line;
    reading->column_before = end.column;
}

static int put(layer_reading *reading, const char *text)
{
    return layer_put(&reading->joined, text, strlen(text));
}

int layer_put_opens(layer_reading *reading)
{
    int is_put = 1;
    reading->stand_in_events = 3; /* of the stream and the document the starts, and the last item */
    for (size_t i = 0; i < reading->opens_len && is_put; i++) {
        layer_open *open = &reading->opens[i];
        open->at = reading->joined.len;
        is_put = put(reading, open->is_mapping ? "{'': " : "[");
        reading->stand_in_events += 1 + (open->is_mapping != 0);
    }
    return is_put && put(reading, "''\n");
}

yaml_mark_t layer_opened_at(const layer_reading *reading, uint64_t index)
{
    size_t i = reading->opens_len - 1;
    while (i > 0 && reading->opens[i].at > index)
        i--;
    return reading->opens[i].mark;
}
