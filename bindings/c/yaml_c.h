/* The proved YAML engine, parser and emitter, for C and for what calls C.
 *
 * Link libyaml_c.a or libyaml_c.so; `make library` builds both.
 *
 * A call takes a whole input and writes its answer into the caller's record. Its result is the answer's kind:
 * 0 (YAML_C_ANSWERED), the number of a fault, or -1 where a number among the arguments means nothing. Nothing else comes
 * back: no call prints, aborts, or keeps anything between calls, so that any number of calls may run side by side on
 * records of their own.
 *
 * Units. Lengths, offsets and spans count bytes. A mark's index counts bytes of the decoded text (UTF-8), which are the
 * input's own where that is UTF-8; lines and columns count from 0, columns in characters. Every text that is handed out
 * has a length and may hold a byte 0; none ends with one.
 *
 * Ownership. The caller owns every record and every input, and the call keeps no pointer to them. Blocks that a call
 * returns are malloc's and the caller's: `text` and `line` of an answer, the three parts of a yaml_c_parsed, the two of
 * a yaml_c_scanned, and the lists of a yaml_c_turns and a yaml_c_spots, each where its length is not 0. The functions
 * below free them. `problem` and `context` are constants of the library: never free or write them. A call overwrites the
 * record's pointers without freeing what they named, so free a record before it is used again.
 *
 * Errors. A refused call returns no text and, except yaml_c_front, yaml_c_scan and yaml_c_compose, no records; its one
 * block is `line`, the fault in words. If that line had no memory, YAML_C_MEMORY_ERROR is the result instead, with an
 * empty line, which no other fault has. `problem` names what is reported in any case.
 *
 * What nothing checks, and the caller keeps:
 *  - a pointer with a length names that many readable bytes (or records), fewer than 2^63 bytes in all, which nothing
 *    writes while the call runs. It isn't NULL, even where the length is 0: pass YAML_C_NOTHING or any other pointer;
 *  - the records that a call writes are writable, set up once by yaml_c_answer_init, yaml_c_parting_init,
 *    yaml_c_parsed_init, yaml_c_scanned_init, yaml_c_turns_init and yaml_c_spots_init, and neither read nor written by
 *    others while the call runs; they don't overlap one another or the inputs;
 *  - malloc, realloc and free are one allocator's, of blocks aligned as C's are;
 *  - no call is made from a signal handler, or in the forked child of a process with threads.
 *
 * Trusted beside the proofs: this file (its sizes and offsets are asserted below, and are proved of the records too; a test
 * compares the numbers), those duties, that free takes the blocks that the library left, and the C compiler and linker. */
#ifndef YAML_C_H
#define YAML_C_H

#include <stddef.h>
#include <stdint.h>
#include <stdlib.h>
#include <string.h>

#ifdef __cplusplus
extern "C" {
#endif

/* The version of the library that this header belongs to. Calls and records stay what they are while its first number stays. */
#define YAML_C_VERSION "3.0.0"

/* ---- numbers */

/* What a call's result says. The faults have libyaml's numbers. */
enum {
    YAML_C_REFUSED_ARGUMENT = -1, /* a number means nothing, or (emit) a span names nothing or a text that isn't UTF-8 */
    YAML_C_ANSWERED = 0,
    YAML_C_MEMORY_ERROR = 1,   /* memory was refused */
    YAML_C_READER_ERROR = 2,   /* the input is no text in its encoding */
    YAML_C_SCANNER_ERROR = 3,  /* no token is there */
    YAML_C_PARSER_ERROR = 4,   /* tokens that are no stream, or a wrong directive */
    YAML_C_COMPOSER_ERROR = 5, /* the documents can't be loaded */
    YAML_C_WRITER_ERROR = 6,   /* the answer has more than `limit` bytes */
    YAML_C_EMITTER_ERROR = 7   /* an event that can't be written there, or an indentation that is too deep */
};

/* Encodings. As an input's: any means the one that its byte order mark shows, UTF-8 where it has none. */
enum {
    YAML_C_ANY_ENCODING = 0,
    YAML_C_UTF8_ENCODING = 1,
    YAML_C_UTF16LE_ENCODING = 2,
    YAML_C_UTF16BE_ENCODING = 3
};

/* How lines of an answer end; any means LF. */
enum { YAML_C_ANY_BREAK = 0, YAML_C_CR_BREAK = 1, YAML_C_LN_BREAK = 2, YAML_C_CRLN_BREAK = 3 };

/* What an event is. */
enum {
    YAML_C_STREAM_START_EVENT = 1,
    YAML_C_STREAM_END_EVENT = 2,
    YAML_C_DOCUMENT_START_EVENT = 3,
    YAML_C_DOCUMENT_END_EVENT = 4,
    YAML_C_ALIAS_EVENT = 5,
    YAML_C_SCALAR_EVENT = 6,
    YAML_C_SEQUENCE_START_EVENT = 7,
    YAML_C_SEQUENCE_END_EVENT = 8,
    YAML_C_MAPPING_START_EVENT = 9,
    YAML_C_MAPPING_END_EVENT = 10
};

/* What a token is. */
enum {
    YAML_C_STREAM_START_TOKEN = 1,
    YAML_C_STREAM_END_TOKEN = 2,
    YAML_C_VERSION_DIRECTIVE_TOKEN = 3,
    YAML_C_TAG_DIRECTIVE_TOKEN = 4,
    YAML_C_DOCUMENT_START_TOKEN = 5,
    YAML_C_DOCUMENT_END_TOKEN = 6,
    YAML_C_BLOCK_SEQUENCE_START_TOKEN = 7,
    YAML_C_BLOCK_MAPPING_START_TOKEN = 8,
    YAML_C_BLOCK_END_TOKEN = 9,
    YAML_C_FLOW_SEQUENCE_START_TOKEN = 10,
    YAML_C_FLOW_SEQUENCE_END_TOKEN = 11,
    YAML_C_FLOW_MAPPING_START_TOKEN = 12,
    YAML_C_FLOW_MAPPING_END_TOKEN = 13,
    YAML_C_BLOCK_ENTRY_TOKEN = 14,
    YAML_C_FLOW_ENTRY_TOKEN = 15,
    YAML_C_KEY_TOKEN = 16,
    YAML_C_VALUE_TOKEN = 17,
    YAML_C_ALIAS_TOKEN = 18,
    YAML_C_ANCHOR_TOKEN = 19,
    YAML_C_TAG_TOKEN = 20,
    YAML_C_SCALAR_TOKEN = 21
};

/* How a scalar is written. */
enum {
    YAML_C_ANY_SCALAR_STYLE = 0,
    YAML_C_PLAIN_SCALAR_STYLE = 1,
    YAML_C_SINGLE_QUOTED_SCALAR_STYLE = 2,
    YAML_C_DOUBLE_QUOTED_SCALAR_STYLE = 3,
    YAML_C_LITERAL_SCALAR_STYLE = 4,
    YAML_C_FOLDED_SCALAR_STYLE = 5
};

/* How a sequence or a mapping is written. */
enum { YAML_C_ANY_STYLE = 0, YAML_C_BLOCK_STYLE = 1, YAML_C_FLOW_STYLE = 2 };

/* ---- records */

/* Bytes. Where `len` is 0, `at` names nothing, but isn't NULL. */
typedef struct {
    const uint8_t *at;
    size_t len;
} yaml_c_bytes;

/* A place in a text. */
typedef struct {
    uint64_t index;     /* bytes of the decoded text (UTF-8) before the place */
    uint64_t line;      /* line breaks before it */
    uint64_t column;    /* characters since the last line break */
    uint64_t character; /* characters of the text before it; 0 in what other calls than yaml_c_parse, yaml_c_front and yaml_c_scan
                         * answer */
} yaml_c_mark;

/* How an answer is written. Set by yaml_c_defaults, then changed as one likes. */
typedef struct {
    int32_t encoding;   /* of the answer; any means UTF-8, in yaml_c_emit the encoding that the stream's start names */
    int32_t canonical;  /* 0: pretty form, else canonical form; yaml_c_reload and yaml_c_normalize don't look at it */
    int32_t indent;     /* columns of a level, 2 to 9; any other number means 2 */
    int32_t width;      /* the column after which lines are folded; negative: 2,147,483,647; 0 to twice the indent means 80 */
    int32_t unicode;    /* 0: escape what isn't ASCII, else write what is printable as it is */
    int32_t line_break;
    uint64_t limit;     /* how many bytes the answer may have */
} yaml_c_settings;

/* What a call answers. */
typedef struct {
    int32_t kind;             /* the call's result again */
    int32_t is;               /* yaml_c_reformat: 1 pretty form, 0 canonical; yaml_c_same: 1 equal, 0 different; else 0 */
    int32_t second;           /* yaml_c_same: 1 where the fault is the second input's; else 0 */
    int32_t value;            /* kind 2: the byte, unit or character that is wrong, or -1; else 0 */
    uint64_t offset;          /* kind 2: the byte of the input where it is; else 0 */
    yaml_c_mark problem_mark; /* kinds 3 to 5: where the problem is */
    yaml_c_mark context_mark; /* where what was being read begins, if there is a context */
    yaml_c_bytes problem;     /* what is wrong, a constant; empty for kind 0 */
    yaml_c_bytes context;     /* what was being read, a constant; empty where there is none */
    yaml_c_bytes text;        /* the text that the call answers; empty where it is refused */
    yaml_c_bytes line;        /* the fault in words, in one line without its end, places counted from 1; kind 1 may lack it */
} yaml_c_answer;

/* Where two inputs differ. The fields after `answer` are 0 except where a difference is reported. */
typedef struct {
    yaml_c_answer answer;    /* `is`: 1 where they don't differ, else 0; `second` as of yaml_c_same; `text`: the path */
    uint64_t document;       /* how many documents end before the place */
    int32_t first_kind;      /* what the first input's event there is, as an event's kind */
    int32_t second_kind;     /* the second input's */
    yaml_c_mark first_mark;  /* where it begins */
    yaml_c_mark second_mark;
} yaml_c_parting;

/* A part of a block of bytes, or of a list of directives: `len` items from `at` on. */
typedef struct {
    uint64_t at;
    uint64_t len;
} yaml_c_span;

/* A %TAG directive: the handle stands for the prefix. */
typedef struct {
    yaml_c_span handle, prefix; /* of the bytes */
} yaml_c_directive;

/* An event. What a kind doesn't name below is 0 in what is handed out, and yaml_c_emit doesn't look at it. Flags are 0
 * for no; any other number means yes, except 2 in `has_anchor` and `has_tag`, and what is handed out has 1. */
typedef struct {
    int32_t kind;
    int32_t style;           /* of a scalar, and of the start of a sequence or mapping */
    int32_t encoding;        /* of the stream's start: the one that was found */
    int32_t implicit;        /* document's start and end: no `---` or `...`; scalar: the tag may be left out in plain
                              * style; start of a sequence or mapping: the tag may be left out */
    int32_t quoted_implicit; /* scalar: the tag may be left out in the other styles */
    int32_t has_anchor;      /* scalar, start of a sequence or mapping: `anchor` is there */
    int32_t has_tag;         /* likewise `tag`; 2: none is, since a scalar's tag `!` was left out */
    int32_t has_version;     /* document's start: `major` and `minor` are those of a %YAML directive */
    int32_t major, minor;
    yaml_c_span directives;  /* document's start: its %TAG directives, of the list of directives */
    yaml_c_span anchor;      /* of the bytes, as the two below; an alias has it too, without a flag */
    yaml_c_span tag;
    yaml_c_span value;       /* of a scalar */
    yaml_c_mark start, end;  /* where its tokens are; yaml_c_emit doesn't look at them */
} yaml_c_event;

/* The events of an input, the directives that they name, and the block of bytes that hold their texts, one after
 * another. */
typedef struct {
    const yaml_c_event *events;
    size_t events_len;
    const yaml_c_directive *directives;
    size_t directives_len;
    yaml_c_bytes bytes;
} yaml_c_parsed;

/* An open collection as an emitter knows it. */
typedef struct {
    int32_t state;   /* libyaml's number of the state in which its emitter waits there: 5 to 10 flow style, 11 to 16 block style */
    uint64_t indent; /* its indentation, in columns */
} yaml_c_level;

/* An emitter's checkpoint, except lists. Only `waiting` is of use to a caller. */
typedef struct {
    int32_t state;    /* what is expected next: 0 the stream's start, 1 the first document, 2 another one, 3 a node or the end of
                       * the innermost collection, 4 the document's end, 17 nothing */
    int32_t encoding; /* of the text; 0 where no event was given yet: then nothing else is looked at */
    int32_t implicit; /* the last document ended implicitly */
    int32_t white, bare, kept; /* what was written last: white space; nothing but indentation and block indicators in the line; a
                                * block scalar that keeps its breaks */
    uint64_t column;  /* characters since the last line break, fewer than 2^62 */
    uint64_t waiting; /* how many of the given events, the last ones and at most three, wait for later ones: give them again
                       * before these. Not looked at in a checkpoint that is given */
    yaml_c_level innermost; /* the innermost open collection; its state is 0 where none is open */
} yaml_c_place;

/* An emitter's checkpoint: with the open collections round the innermost one, the outermost first, the %TAG directives of the
 * document, and the block of bytes that hold their texts. */
typedef struct {
    yaml_c_place place;
    const yaml_c_level *levels;
    size_t levels_len;
    const yaml_c_directive *directives;
    size_t directives_len;
    yaml_c_bytes bytes;
} yaml_c_stand;

/* A token. What a kind doesn't name below is 0. */
typedef struct {
    int32_t kind;
    int32_t style;        /* of a scalar */
    int32_t encoding;     /* of the stream's start: the one that was found */
    int32_t major, minor; /* of a version directive */
    yaml_c_span handle;   /* of a tag (empty for a verbatim one) and of a tag directive, of the bytes */
    yaml_c_span value;    /* of a scalar; the name of an alias or an anchor; a tag's suffix; a tag directive's prefix. A suffix
                           * or a prefix may be any bytes, the other texts are UTF-8 */
    yaml_c_mark start, end;
} yaml_c_token;

/* The tokens of an input, and the block of bytes that holds their texts, one after another. */
typedef struct {
    const yaml_c_token *tokens;
    size_t tokens_len;
    yaml_c_bytes bytes;
} yaml_c_scanned;

/* A node of a document. */
typedef struct {
    int32_t kind;   /* 0 none, 1 a scalar, 2 a sequence, 3 a mapping */
    uint64_t first; /* of a sequence or a mapping, as the one below: what it holds is the `count` numbers of `held` from here on, */
    uint64_t count; /* of a mapping each pair's key and its value after it */
} yaml_c_node;

/* The nodes of a document, and the numbers of the nodes that they hold. Nodes count from 1; the first one is the root. */
typedef struct {
    const yaml_c_node *nodes;
    size_t nodes_len;
    const int32_t *held;
    size_t held_len;
} yaml_c_graph;

/* What a dump comes to next: an event. */
typedef struct {
    int32_t kind;    /* YAML_C_ALIAS_EVENT to YAML_C_MAPPING_END_EVENT */
    int32_t node;    /* the node that it begins, stands for or ends */
    uint64_t number; /* of the node's anchor, from 1; 0 where it has none, and at an end. In names it has three digits or more: id001 */
} yaml_c_turn;

/* The events of a dump between the start and the end of its document. */
typedef struct {
    const yaml_c_turn *turns;
    size_t turns_len;
} yaml_c_turns;

/* An event within a document, as a loader looks at it. */
typedef struct {
    int32_t kind;     /* YAML_C_ALIAS_EVENT to YAML_C_MAPPING_END_EVENT */
    int32_t has_name; /* 0: none; else its anchor, or the name of an alias, is there */
    uint64_t first;   /* the name: `count` bytes from here on */
    uint64_t count;
} yaml_c_step;

/* What an event comes to in its document. */
typedef struct {
    int32_t node; /* the node that it begins, stands for or ends; nodes count from 1 in the order in which they begin */
    int32_t into; /* the collection that is open then and takes it, as an item, a key or a value; 0: none, and at an end */
} yaml_c_spot;

/* What the events of a document come to. */
typedef struct {
    const yaml_c_spot *spots;
    size_t spots_len;
} yaml_c_spots;

/* ---- calls. `from` is the input's encoding. */

/* Sets UTF-8, canonical form, indent 2, width 80, unicode on, LF, and a limit of 2^40 bytes. */
void yaml_c_defaults(yaml_c_settings *settings);

/* The text again, in canonical or pretty form. With `canonical` off it is the pretty text, which read back has the input's
 * content; only where the first document has no `---` and is a `!` alone it is the canonical one: `is` says which. Refused
 * by a fault of the input (2 to 4), which comes before a limit; by 6 past the limit; by 7 where an indentation is too deep. */
int32_t yaml_c_reformat(const uint8_t *input, size_t len, int32_t from, const yaml_c_settings *settings,
                        yaml_c_answer *answer);

/* The input in the normal form that people read: its pretty text with styles that the content alone decides. Read back it has
 * the input's content; two inputs have the same one under the same settings exactly where they have the same content; and it is
 * its own normal form. `canonical` isn't looked at. Refused as above. */
int32_t yaml_c_normalize(const uint8_t *input, size_t len, int32_t from, const yaml_c_settings *settings,
                         yaml_c_answer *answer);

/* The documents of the input, loaded and written again in canonical form. Refused as above, and by 5 where a document
 * can't be loaded. */
int32_t yaml_c_reload(const uint8_t *input, size_t len, int32_t from, const yaml_c_settings *settings,
                      yaml_c_answer *answer);

/* Whether the documents of the input load, as yaml_c_reload loads them: 0 where they do. No text is made. Refused by 2 to 5. */
int32_t yaml_c_check(const uint8_t *input, size_t len, int32_t from, yaml_c_answer *answer);

/* Whether two inputs have the same content. The first input's fault comes before the second one's. */
int32_t yaml_c_same(const uint8_t *first, size_t first_len, int32_t first_from, const uint8_t *second,
                    size_t second_len, int32_t second_from, yaml_c_answer *answer);

/* The first place at which the contents of two inputs differ; none exactly where yaml_c_same answers equal. Before it both
 * have the same content, event by event, and their next events differ. `answer.text` is the path to
 * it from the document's root inwards, a step for each open collection, one after another: `[N]` an
 * item, `<N>` the key itself of a pair, `.N` a pair's value, or `.N:LENGTH:TEXT` where its key is a
 * scalar of that text, of LENGTH bytes; numbers are decimal and count from 0. It is empty at a
 * root, and where a document or its directives differ. Refused as yaml_c_same. */
int32_t yaml_c_diff(const uint8_t *first, size_t first_len, int32_t first_from, const uint8_t *second, size_t second_len,
                    int32_t second_from, yaml_c_parting *parting);

/* The first place at which the documents that both inputs load differ, as yaml_c_reload writes them: names of anchors don't count, what
 * they share does. Refused also by 5. */
int32_t yaml_c_diff_documents(const uint8_t *first, size_t first_len, int32_t first_from, const uint8_t *second,
                              size_t second_len, int32_t second_from, yaml_c_parting *parting);

/* A line for each event of the input. */
int32_t yaml_c_events(const uint8_t *input, size_t len, int32_t from, yaml_c_answer *answer);

/* All events of the input as records, one for each in their order, with their marks. Refused by a fault of the input (2 to 4)
 * or when out of memory; there are none then, and none where -1 is answered. */
int32_t yaml_c_parse(const uint8_t *input, size_t len, int32_t from, yaml_c_parsed *parsed, yaml_c_answer *answer);

/* As yaml_c_parse, but a fault of the input (2 to 4) comes with the records of the events before it. Where out of memory
 * is answered there is nothing, or all of these, where the fault's line alone met none; there is nothing where -1 is answered. */
int32_t yaml_c_front(const uint8_t *input, size_t len, int32_t from, yaml_c_parsed *parsed, yaml_c_answer *answer);

/* The text that the input's bytes spell, in UTF-8. With YAML_C_ANY_ENCODING a byte order mark shows the encoding and is left
 * out. Refused where the bytes spell no text (2), or when out of memory. */
int32_t yaml_c_decode(const uint8_t *input, size_t len, int32_t from, yaml_c_answer *answer);

/* All tokens of the input before its end, or of its fault (2, 3), which comes with them. Where out of memory is answered
 * there is nothing, or all of these, where the fault's line alone met none; there is nothing where -1 is answered. */
int32_t yaml_c_scan(const uint8_t *input, size_t len, int32_t from, yaml_c_scanned *scanned, yaml_c_answer *answer);

/* The text of events that are given as records, one after another: what an emitter writes for them. Spans of `anchor`, `tag`,
 * `value`, `handle` and `prefix`, empty ones too, lie within `bytes`, those of `directives` within the list of directives.
 * All records are looked at first, so that -1 comes exactly where, in any of them or in the settings, a number means nothing,
 * a span that is looked at doesn't lie there, or its text isn't UTF-8, whatever else is wrong. Else refused as the emitter
 * refuses: by 7 for the first event that is in the wrong place or has a name, a tag or a directive that can't be written, or
 * where an indentation is too deep; by 6 past the limit. A refused call returns no text, and events after a refused one
 * count for nothing. A list that is no whole stream answers the text of the events that could be written by then: the start
 * of a document is written once an event follows, that of a sequence once two do, that of a mapping once three do, or once it
 * is ended. */
int32_t yaml_c_emit(const yaml_c_event *events, size_t events_len, const yaml_c_directive *directives,
                    size_t directives_len, const uint8_t *bytes, size_t len, const yaml_c_settings *settings,
                    yaml_c_answer *answer);

/* The text that more events add, so that a stream may be given in pieces: `stand` is the checkpoint of the emitter that was given those
 * before (yaml_c_stand_init: none yet), and `behind` becomes its next checkpoint, for the next call. Of the events that were
 * given, the last `stand->place.waiting` ones wait: they are to be the first of `given`, with their texts. The texts of the calls,
 * one after another, are then what yaml_c_emit answers for all events under the same settings. Refused as yaml_c_emit, -1 also
 * where the checkpoint means nothing; `behind` is left as it is then, and there is nothing to
 * continue from. The limit is the call's text's, at most 2^62. `stand` and `behind` are two
 * records: free the old one after the call. */
int32_t yaml_c_emit_on(const yaml_c_parsed *given, const yaml_c_settings *settings, const yaml_c_stand *stand,
                       yaml_c_stand *behind, yaml_c_answer *answer);

/* Which node each event between a document's start and its end is of, and which collection takes it: what the loader of
 * yaml_c_reload does with events of these kinds and names. An alias stands for the last node before it that has its name as
 * anchor; one that none has is refused (5, without a place), with the records of the events before it. -1 exactly
 * where a kind isn't one of the six, an alias has no name, or a name doesn't lie within `bytes`; there is nothing then, nor
 * where memory was refused while the events were composed. */
int32_t yaml_c_compose(const yaml_c_step *steps, size_t steps_len, const uint8_t *bytes, size_t len, yaml_c_spots *spots,
                       yaml_c_answer *answer);

/* What a dump of the document has of its nodes, in order: a node that is met first is begun, and a collection ended after what it
 * holds, a pair's key before its value; one that is met again is an alias. A node that is met again has a number, from 1 in the
 * order in which they are met again. Tags and values aren't asked for: each turn names the node whose they are. -1 exactly where the
 * kind of a node is none of the four, or what a collection holds doesn't lie within `held`; else refused only when out of memory,
 * and there are no turns then. A number that names no node is taken for one that was met. */
int32_t yaml_c_serialize(const yaml_c_graph *graph, yaml_c_turns *turns, yaml_c_answer *answer);

/* ---- setting up and freeing records */

/* What to pass for an input without a byte. */
#define YAML_C_NOTHING ((const uint8_t *)"")

/* An answer that names nothing. Before the first call with the record. */
static inline void yaml_c_answer_init(yaml_c_answer *answer) {
    memset(answer, 0, sizeof *answer);
    answer->problem.at = YAML_C_NOTHING;
    answer->context.at = YAML_C_NOTHING;
    answer->text.at = YAML_C_NOTHING;
    answer->line.at = YAML_C_NOTHING;
}

/* Frees the blocks of an answer, which names nothing then. After each call; a second time does nothing. */
static inline void yaml_c_answer_free(yaml_c_answer *answer) {
    if (answer->text.len) free((void *)answer->text.at);
    if (answer->line.len) free((void *)answer->line.at);
    yaml_c_answer_init(answer);
}

/* No difference. Before the first call with the record. */
static inline void yaml_c_parting_init(yaml_c_parting *parting) {
    memset(parting, 0, sizeof *parting);
    yaml_c_answer_init(&parting->answer);
}

/* Frees the blocks of its answer. After each call; a second time does nothing. */
static inline void yaml_c_parting_free(yaml_c_parting *parting) {
    yaml_c_answer_free(&parting->answer);
    yaml_c_parting_init(parting);
}

/* No events. Before the first call with the record. */
static inline void yaml_c_parsed_init(yaml_c_parsed *parsed) {
    static const yaml_c_event no_event = {0, 0, 0, 0, 0, 0, 0, 0, 0, 0, {0, 0}, {0, 0}, {0, 0}, {0, 0}, {0, 0, 0, 0}, {0, 0, 0, 0}};
    static const yaml_c_directive no_directive = {{0, 0}, {0, 0}};
    parsed->events = &no_event;
    parsed->events_len = 0;
    parsed->directives = &no_directive;
    parsed->directives_len = 0;
    parsed->bytes.at = YAML_C_NOTHING;
    parsed->bytes.len = 0;
}

/* Frees the events, directives and bytes; there are none then. After each call; a second time does nothing. */
static inline void yaml_c_parsed_free(yaml_c_parsed *parsed) {
    if (parsed->events_len) free((void *)parsed->events);
    if (parsed->directives_len) free((void *)parsed->directives);
    if (parsed->bytes.len) free((void *)parsed->bytes.at);
    yaml_c_parsed_init(parsed);
}

/* The checkpoint of an emitter that was given no event. Before the first call with the record. */
static inline void yaml_c_stand_init(yaml_c_stand *stand) {
    static const yaml_c_level no_level = {0, 0};
    static const yaml_c_directive no_directive = {{0, 0}, {0, 0}};
    memset(stand, 0, sizeof *stand);
    stand->levels = &no_level;
    stand->directives = &no_directive;
    stand->bytes.at = YAML_C_NOTHING;
}

/* Frees the levels, directives and bytes. After the call that went on from there; a second time does nothing. */
static inline void yaml_c_stand_free(yaml_c_stand *stand) {
    if (stand->levels_len) free((void *)stand->levels);
    if (stand->directives_len) free((void *)stand->directives);
    if (stand->bytes.len) free((void *)stand->bytes.at);
    yaml_c_stand_init(stand);
}

/* No tokens. Before the first call with the record. */
static inline void yaml_c_scanned_init(yaml_c_scanned *scanned) {
    static const yaml_c_token no_token = {0, 0, 0, 0, 0, {0, 0}, {0, 0}, {0, 0, 0, 0}, {0, 0, 0, 0}};
    scanned->tokens = &no_token;
    scanned->tokens_len = 0;
    scanned->bytes.at = YAML_C_NOTHING;
    scanned->bytes.len = 0;
}

/* Frees the tokens and the bytes; there are none then. After each call; a second time does nothing. */
static inline void yaml_c_scanned_free(yaml_c_scanned *scanned) {
    if (scanned->tokens_len) free((void *)scanned->tokens);
    if (scanned->bytes.len) free((void *)scanned->bytes.at);
    yaml_c_scanned_init(scanned);
}

/* No turns. Before the first call with the record. */
static inline void yaml_c_turns_init(yaml_c_turns *turns) {
    static const yaml_c_turn no_turn = {0, 0, 0};
    turns->turns = &no_turn;
    turns->turns_len = 0;
}

/* Frees the turns; there are none then. After each call; a second time does nothing. */
static inline void yaml_c_turns_free(yaml_c_turns *turns) {
    if (turns->turns_len) free((void *)turns->turns);
    yaml_c_turns_init(turns);
}

/* No spots. Before the first call with the record. */
static inline void yaml_c_spots_init(yaml_c_spots *spots) {
    static const yaml_c_spot no_spot = {0, 0};
    spots->spots = &no_spot;
    spots->spots_len = 0;
}

/* Frees the spots; there are none then. After each call; a second time does nothing. */
static inline void yaml_c_spots_free(yaml_c_spots *spots) {
    if (spots->spots_len) free((void *)spots->spots);
    yaml_c_spots_init(spots);
}

/* ---- the layout that the proved code has, on a machine of 64 bits */

#if defined(__cplusplus)
#define YAML_C_ASSERT(condition) static_assert(condition, "yaml_c.h: another layout than the library's")
#else
#define YAML_C_ASSERT(condition) _Static_assert(condition, "yaml_c.h: another layout than the library's")
#endif
YAML_C_ASSERT(sizeof(size_t) == 8 && sizeof(void *) == 8);
YAML_C_ASSERT(sizeof(yaml_c_bytes) == 16 && offsetof(yaml_c_bytes, len) == 8);
YAML_C_ASSERT(sizeof(yaml_c_mark) == 32 && offsetof(yaml_c_mark, line) == 8 && offsetof(yaml_c_mark, column) == 16);
YAML_C_ASSERT(offsetof(yaml_c_mark, character) == 24);
YAML_C_ASSERT(sizeof(yaml_c_settings) == 32 && offsetof(yaml_c_settings, canonical) == 4);
YAML_C_ASSERT(offsetof(yaml_c_settings, indent) == 8 && offsetof(yaml_c_settings, width) == 12);
YAML_C_ASSERT(offsetof(yaml_c_settings, unicode) == 16 && offsetof(yaml_c_settings, line_break) == 20);
YAML_C_ASSERT(offsetof(yaml_c_settings, limit) == 24);
YAML_C_ASSERT(sizeof(yaml_c_answer) == 152 && offsetof(yaml_c_answer, is) == 4);
YAML_C_ASSERT(offsetof(yaml_c_answer, second) == 8 && offsetof(yaml_c_answer, value) == 12);
YAML_C_ASSERT(offsetof(yaml_c_answer, offset) == 16 && offsetof(yaml_c_answer, problem_mark) == 24);
YAML_C_ASSERT(offsetof(yaml_c_answer, context_mark) == 56 && offsetof(yaml_c_answer, problem) == 88);
YAML_C_ASSERT(offsetof(yaml_c_answer, context) == 104 && offsetof(yaml_c_answer, text) == 120);
YAML_C_ASSERT(offsetof(yaml_c_answer, line) == 136);
YAML_C_ASSERT(sizeof(yaml_c_level) == 16 && offsetof(yaml_c_level, indent) == 8);
YAML_C_ASSERT(sizeof(yaml_c_place) == 56 && offsetof(yaml_c_place, encoding) == 4);
YAML_C_ASSERT(offsetof(yaml_c_place, implicit) == 8 && offsetof(yaml_c_place, white) == 12);
YAML_C_ASSERT(offsetof(yaml_c_place, bare) == 16 && offsetof(yaml_c_place, kept) == 20);
YAML_C_ASSERT(offsetof(yaml_c_place, column) == 24 && offsetof(yaml_c_place, waiting) == 32);
YAML_C_ASSERT(offsetof(yaml_c_place, innermost) == 40);
YAML_C_ASSERT(sizeof(yaml_c_stand) == 104 && offsetof(yaml_c_stand, levels) == 56);
YAML_C_ASSERT(offsetof(yaml_c_stand, levels_len) == 64 && offsetof(yaml_c_stand, directives) == 72);
YAML_C_ASSERT(offsetof(yaml_c_stand, directives_len) == 80 && offsetof(yaml_c_stand, bytes) == 88);
YAML_C_ASSERT(sizeof(yaml_c_parting) == 232 && offsetof(yaml_c_parting, document) == 152);
YAML_C_ASSERT(offsetof(yaml_c_parting, first_kind) == 160 && offsetof(yaml_c_parting, second_kind) == 164);
YAML_C_ASSERT(offsetof(yaml_c_parting, first_mark) == 168 && offsetof(yaml_c_parting, second_mark) == 200);
YAML_C_ASSERT(sizeof(yaml_c_span) == 16 && offsetof(yaml_c_span, len) == 8);
YAML_C_ASSERT(sizeof(yaml_c_directive) == 32 && offsetof(yaml_c_directive, prefix) == 16);
YAML_C_ASSERT(sizeof(yaml_c_event) == 168 && offsetof(yaml_c_event, style) == 4);
YAML_C_ASSERT(offsetof(yaml_c_event, encoding) == 8 && offsetof(yaml_c_event, implicit) == 12);
YAML_C_ASSERT(offsetof(yaml_c_event, quoted_implicit) == 16 && offsetof(yaml_c_event, has_anchor) == 20);
YAML_C_ASSERT(offsetof(yaml_c_event, has_tag) == 24 && offsetof(yaml_c_event, has_version) == 28);
YAML_C_ASSERT(offsetof(yaml_c_event, major) == 32 && offsetof(yaml_c_event, minor) == 36);
YAML_C_ASSERT(offsetof(yaml_c_event, directives) == 40 && offsetof(yaml_c_event, anchor) == 56);
YAML_C_ASSERT(offsetof(yaml_c_event, tag) == 72 && offsetof(yaml_c_event, value) == 88);
YAML_C_ASSERT(offsetof(yaml_c_event, start) == 104 && offsetof(yaml_c_event, end) == 136);
YAML_C_ASSERT(sizeof(yaml_c_parsed) == 48 && offsetof(yaml_c_parsed, events_len) == 8);
YAML_C_ASSERT(offsetof(yaml_c_parsed, directives) == 16 && offsetof(yaml_c_parsed, directives_len) == 24);
YAML_C_ASSERT(offsetof(yaml_c_parsed, bytes) == 32);
YAML_C_ASSERT(sizeof(yaml_c_token) == 120 && offsetof(yaml_c_token, style) == 4);
YAML_C_ASSERT(offsetof(yaml_c_token, encoding) == 8 && offsetof(yaml_c_token, major) == 12);
YAML_C_ASSERT(offsetof(yaml_c_token, minor) == 16 && offsetof(yaml_c_token, handle) == 24);
YAML_C_ASSERT(offsetof(yaml_c_token, value) == 40 && offsetof(yaml_c_token, start) == 56);
YAML_C_ASSERT(offsetof(yaml_c_token, end) == 88);
YAML_C_ASSERT(sizeof(yaml_c_scanned) == 32 && offsetof(yaml_c_scanned, tokens_len) == 8);
YAML_C_ASSERT(offsetof(yaml_c_scanned, bytes) == 16);
YAML_C_ASSERT(sizeof(yaml_c_node) == 24 && offsetof(yaml_c_node, first) == 8 && offsetof(yaml_c_node, count) == 16);
YAML_C_ASSERT(sizeof(yaml_c_graph) == 32 && offsetof(yaml_c_graph, nodes_len) == 8);
YAML_C_ASSERT(offsetof(yaml_c_graph, held) == 16 && offsetof(yaml_c_graph, held_len) == 24);
YAML_C_ASSERT(sizeof(yaml_c_turn) == 16 && offsetof(yaml_c_turn, node) == 4 && offsetof(yaml_c_turn, number) == 8);
YAML_C_ASSERT(sizeof(yaml_c_turns) == 16 && offsetof(yaml_c_turns, turns_len) == 8);
YAML_C_ASSERT(sizeof(yaml_c_step) == 24 && offsetof(yaml_c_step, has_name) == 4);
YAML_C_ASSERT(offsetof(yaml_c_step, first) == 8 && offsetof(yaml_c_step, count) == 16);
YAML_C_ASSERT(sizeof(yaml_c_spot) == 8 && offsetof(yaml_c_spot, into) == 4);
YAML_C_ASSERT(sizeof(yaml_c_spots) == 16 && offsetof(yaml_c_spots, spots_len) == 8);
#undef YAML_C_ASSERT

#ifdef __cplusplus
}
#endif

#endif
