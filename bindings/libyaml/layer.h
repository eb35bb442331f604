/* What the files of this folder share. They give libyaml's interface to the proved calls of bindings/c/yaml_c.h; nothing
 * proves them. No file has a variable that is written, nothing recurses, and each allocation's answer is looked at. */
#ifndef YAML_LAYER_H
#define YAML_LAYER_H

#include "yaml.h"
#include "yaml_c.h"

#include <assert.h>
#include <limits.h>
#include <stdint.h>

/* ---- exported by libyaml's shared object, and declared in no header of its own */

void *yaml_malloc(size_t size);
void *yaml_realloc(void *block, size_t size);
void yaml_free(void *block);
yaml_char_t *yaml_strdup(const yaml_char_t *text);
int yaml_string_extend(yaml_char_t **start, yaml_char_t **pointer, yaml_char_t **end);
int yaml_string_join(yaml_char_t **a_start, yaml_char_t **a_pointer, yaml_char_t **a_end, yaml_char_t **b_start,
                     yaml_char_t **b_pointer, yaml_char_t **b_end);
int yaml_stack_extend(void **start, void **top, void **end);
int yaml_queue_extend(void **start, void **head, void **tail, void **end);
int yaml_parser_update_buffer(yaml_parser_t *parser, size_t length);
int yaml_parser_fetch_more_tokens(yaml_parser_t *parser);

/* What isn't called for most events is by itself, so that what is has fewer registers to keep. */
#if defined(__GNUC__)
#define LAYER_RARE __attribute__((noinline))
#else
#define LAYER_RARE
#endif

/* Of what follows nothing is seen from outside, so that the compiler may do without calls of it. */
#pragma GCC visibility push(hidden)

/* ---- memory */

/* Copies bytes to where others are. Most texts are short: those are copied without a call, by two steps that may meet. */
static inline void layer_move(uint8_t *to, const uint8_t *from, size_t len)
{
    if (len > 32) {
        memcpy(to, from, len);
    } else if (len >= 16) {
        memcpy(to, from, 16);
        memcpy(to + len - 16, from + len - 16, 16);
    } else if (len >= 8) {
        memcpy(to, from, 8);
        memcpy(to + len - 8, from + len - 8, 8);
    } else if (len >= 4) {
        memcpy(to, from, 4);
        memcpy(to + len - 4, from + len - 4, 4);
    } else if (len) {
        to[0] = from[0];
        to[len / 2] = from[len / 2];
        to[len - 1] = from[len - 1];
    }
}

/* A text of that many bytes, with a byte 0 after it; NULL where memory was refused. */
static inline yaml_char_t *layer_copy(const void *text, size_t len)
{
    yaml_char_t *copy = malloc(len + 1);
    if (copy) {
        layer_move(copy, text, len);
        copy[len] = 0;
    }
    return copy;
}

/* Bytes that grow. */
typedef struct {
    uint8_t *at;
    size_t len;
    size_t room;
} layer_bytes;

/* Makes room for that many bytes after the others. 0: memory was refused, and nothing has changed. */
int layer_make_room(layer_bytes *bytes, size_t len);

/* Appends bytes. 0: as above. */
static inline int layer_put(layer_bytes *bytes, const void *text, size_t len)
{
    if (len > bytes->room - bytes->len && !layer_make_room(bytes, len))
        return 0;
    layer_move(bytes->at + bytes->len, text, len);
    bytes->len += len;
    return 1;
}

/* A block with room for at least one item more than `len`, which replaces the old one, and how many it has room for. NULL:
 * memory was refused, or there are INT_MAX items; then the old block is as it was. */
void *layer_grown(void *block, size_t len, size_t item, size_t *room);

/* Makes room for one item more in a stack of libyaml's form. `is_there` says whether there is. */
#define LAYER_MAKE_ROOM(is_there, stack)                                                               \
    do {                                                                                               \
        (is_there) = (stack)->top != (stack)->end;                                                     \
        if (!(is_there)) {                                                                             \
            size_t used_ = (stack)->start ? (size_t)((stack)->top - (stack)->start) : 0, room_ = 0;    \
            void *block_ = layer_grown((stack)->start, used_, sizeof *(stack)->start, &room_);         \
            if (block_) {                                                                              \
                (stack)->start = block_;                                                               \
                (stack)->top = (stack)->start + used_;                                                 \
                (stack)->end = (stack)->start + room_;                                                 \
                (is_there) = 1;                                                                        \
            }                                                                                          \
        }                                                                                              \
    } while (0)

/* All bytes of a text of fewer than eight, one upon another. */
static inline uint64_t layer_few(const uint8_t *text, size_t len)
{
    uint32_t first, last;
    if (len < sizeof first)
        return len ? (uint64_t)(text[0] | text[len / 2] | text[len - 1]) : 0;
    memcpy(&first, text, sizeof first);
    memcpy(&last, text + len - sizeof last, sizeof last);
    return first | last;
}

/* Whether all bytes are ASCII. They are looked at by eight, the last ones with some of those before. */
static inline int layer_is_ascii(const uint8_t *text, size_t len)
{
    uint64_t all, word;
    if (len < sizeof word)
        return !(layer_few(text, len) & UINT64_C(0x80808080));
    memcpy(&all, text + len - sizeof all, sizeof all);
    for (size_t at = 0; at + sizeof word < len; at += sizeof word) {
        memcpy(&word, text + at, sizeof word);
        all |= word;
    }
    return !(all & UINT64_C(0x8080808080808080));
}

/* Whether the bytes are UTF-8, without surrogates: each character is looked at. */
int layer_is_wide(const yaml_char_t *text, size_t len);
/* The same, quicker where they are ASCII. */
static inline int layer_is_utf8(const yaml_char_t *text, size_t len)
{
    return layer_is_ascii(text, len) || layer_is_wide(text, len);
}

/* No event. It is cleared part by part: compilers clear the whole of such a size by an instruction that takes longer. */
static inline void layer_clear(yaml_event_t *event)
{
    event->type = YAML_NO_EVENT;
    memset(&event->data, 0, sizeof event->data);
    memset(&event->start_mark, 0, sizeof event->start_mark);
    memset(&event->end_mark, 0, sizeof event->end_mark);
}

/* Frees directives, and the list of them. */
void layer_free_directives(yaml_tag_directive_t *start, yaml_tag_directive_t *end);
/* Frees a node's anchor and tag, which most have none of. */
static inline void layer_free_names(yaml_char_t *anchor, yaml_char_t *tag)
{
    if (anchor)
        free(anchor);
    if (tag)
        free(tag);
}

/* Frees the texts of an event that isn't a scalar's. */
void layer_free_other_texts(const yaml_event_t *event);
/* Frees an event's texts. */
static inline void layer_free_texts(const yaml_event_t *event)
{
    if (event->type == YAML_SCALAR_EVENT) {
        layer_free_names(event->data.scalar.anchor, event->data.scalar.tag);
        free(event->data.scalar.value);
    } else if (event->type != YAML_SEQUENCE_END_EVENT && event->type != YAML_MAPPING_END_EVENT) {
        layer_free_other_texts(event);
    }
}

/* ---- the layer's own state, which hangs on a pointer that no client has a use for */

#define LAYER_STATE(type, of) ((type *)(void *)(of)->raw_buffer.start)
#define LAYER_SET_STATE(of, state) ((of)->raw_buffer.start = (unsigned char *)(void *)(state))

/* A document's root, where the input may be cut within it: a collection at column 0, or one in flow style; or none. */
enum layer_root { LAYER_NO_ROOT, LAYER_SEQUENCE, LAYER_MAPPING, LAYER_FLOW };

/* A collection in flow style that is open at a cut, and how many of them at most. */
enum { LAYER_OPENS = 16 };
typedef struct {
    yaml_c_mark start; /* its bracket, in its window, in the input, and in the stand-in for it */
    yaml_mark_t mark;
    size_t at;
    int is_mapping;
} layer_open;

/* What was asked of a parser. */
enum layer_asked { LAYER_NOTHING, LAYER_EVENTS, LAYER_TOKENS };

/* What a parser has read. The input is read in windows: whole documents, up to a cut, or items of a root, or all that is left. */
typedef struct {
    layer_bytes input;    /* what a handler gave, from the window on */
    const uint8_t *bytes; /* what there is of the input from the window on, how much, and how much of it is the window */
    size_t given;
    size_t len;
    size_t checked; /* by a handler: how much of it is known to be text */
    enum layer_root within;   /* the root in which the window begins */
    enum layer_root cut_in;   /* and that in which it ends */
    size_t front;             /* of the window, before its first content */
    yaml_c_mark root;         /* where that begins, in its window, and in the input; in flow style, where the window ends */
    yaml_mark_t root_mark;
    layer_open opens[LAYER_OPENS]; /* in flow style, what is open before the window, and once that is cut, where it ends */
    size_t opens_len;
    size_t flow_len;          /* how much of such a document is looked at next */
    int is_uncut;             /* the document isn't cut, since its root is none of these */
    layer_bytes joined;       /* a root's beginning, as a stand-in, and the window after it */
    const uint8_t *read;      /* what is parsed: that or the window, how much, and how much of it is the stand-in */
    size_t read_len;
    size_t mark_len; /* of its byte order mark */
    size_t stand_in;
    size_t stand_in_events;
    int is_whole; /* the window is to be the whole input */
    yaml_encoding_t set; /* the encoding that a caller set */
    int is_last;  /* the window ends with the input */
    int is_wrong; /* the window has a wrong byte, and ends with what was read by then */
    size_t bytes_before; /* of the input before the window, and of its text the characters and the lines */
    size_t chars_before;
    size_t lines_before;
    size_t chars_to_window; /* what is added to places of what is parsed: these, less those of the stand-in */
    size_t lines_to_window;
    size_t column_before; /* in flow style the window begins within a line, which is that line of what is parsed */
    size_t first_line;
    size_t lines; /* of the window, where it isn't the last, and of what is parsed the characters */
    size_t chars;
    enum layer_asked asked;
    yaml_c_parsed parsed; /* without its events */
    yaml_c_answer answer;
    yaml_c_event *events;
    yaml_c_scanned scanned;
    size_t next; /* the event or the token that comes next, and after which none is to come */
    size_t end;
    int last; /* the kind of the event that was handed out last */
    yaml_c_event missed; /* one that the core doesn't report */
    char *problem;
    char *context;
    yaml_char_t *shown; /* what libyaml's buffer shows */
    yaml_char_t nothing[1];
} layer_reading;

/* Has events, or tokens, read until there is one, or none is left. A parser gives one of both. 0: the parser says why. */
int layer_read(yaml_parser_t *parser, layer_reading *reading, enum layer_asked asked);
/* Whether the window's tokens leave brackets open: a cut is none there. */
int layer_is_open(const layer_reading *reading);
/* Takes the tokens out of what was scanned. */
void layer_take_tokens(layer_reading *reading);
/* Has libyaml's buffer show a text, and the scanner be there. 0: memory was refused. */
int layer_show(yaml_parser_t *parser, layer_reading *reading, const uint8_t *text, size_t len, size_t at);
/* Tells the input's fault. Answers 0. */
int layer_fault(yaml_parser_t *parser, layer_reading *reading);
int layer_no_memory(yaml_parser_t *parser);
/* Cuts what was parsed of a document in flow style, whose events end there. 0: it can't be cut. */
int layer_cut_in_flow(layer_reading *reading);
/* Puts the places of that cut right. */
void layer_leave_flow(layer_reading *reading);
/* Puts the stand-in for what is open before what is parsed. 0: memory was refused. */
int layer_put_opens(layer_reading *reading);
/* The place of what begins in the stand-in there. */
yaml_mark_t layer_opened_at(const layer_reading *reading, uint64_t index);
/* A place of what is parsed, as one of the input. Of the stand-in the beginnings of collections are named alone. */
static inline yaml_mark_t layer_mark(const layer_reading *reading, const yaml_c_mark *mark)
{
    if (mark->index < reading->stand_in)
        return reading->within == LAYER_FLOW ? layer_opened_at(reading, mark->index) : reading->root_mark;
    size_t column = mark->column + (mark->line == reading->first_line ? reading->column_before : 0);
    yaml_mark_t found = {reading->chars_to_window + mark->character, reading->lines_to_window + mark->line, column};
    return found;
}
/* Goes on to the next window. 0: the parser says why. */
int layer_next_window(yaml_parser_t *parser, layer_reading *reading);
/* Has the window end further on: with its document, where it ends within one, or with the input. 0: the parser says why. */
int layer_widen(yaml_parser_t *parser, layer_reading *reading);
/* Whether the input may go on in another way than the window shows: it ends at a cut, and its fault may be due to that. */
int layer_is_doubtful(const layer_reading *reading);
/* Tells the encoding that the core found. */
void layer_tell_encoding(yaml_parser_t *parser, const layer_reading *reading);
/* The last place after `from` at which an input of that length can be cut; 0: none is known by now. */
size_t layer_last_cut(const uint8_t *text, size_t len, size_t from);
/* The root with which a document may begin, after `from`, which is moved past comments and `---`. */
enum layer_root layer_root_of(const uint8_t *text, size_t len, size_t *from);
/* The last place after `from` where an item of the root begins; 0: none is known by now. */
size_t layer_last_item(const uint8_t *text, size_t len, size_t from, enum layer_root root);

enum layer_place { LAYER_BEFORE_STREAM, LAYER_BETWEEN_DOCUMENTS, LAYER_IN_DOCUMENT, LAYER_BEHIND_STREAM };

/* What an emitter keeps: its checkpoint, and the records of the events after that. */
typedef struct {
    enum layer_place place;
    int is_doubtful; /* an event that may be wrong is kept */
    int is_canonical; /* as the emitter is set */
    layer_bytes levels; /* a byte for each open collection, the outermost first: whether it is a mapping, and a value is due there */
    yaml_c_stand stand;
    layer_bytes events;
    layer_bytes directives;
    layer_bytes bytes;
    char *problem;
} layer_writing;

int layer_no_emitter_memory(yaml_emitter_t *emitter);
/* Keeps the event as a record. 0: memory was refused, and none is kept. */
int layer_record(layer_writing *w, const yaml_event_t *event);

static inline size_t layer_events_len(const layer_writing *w)
{
    return w->events.len / sizeof(yaml_c_event);
}

#pragma GCC visibility pop

#endif
