/* What a parser reads, in windows, and where these are in the input. */
#include "layer.h"

static int read_string(void *data, unsigned char *buffer, size_t size, size_t *size_read)
{
    yaml_parser_t *parser = data;
    size_t left = (size_t)(parser->input.string.end - parser->input.string.current);
    *size_read = left < size ? left : size;
    memcpy(buffer, parser->input.string.current, *size_read);
    parser->input.string.current += *size_read;
    return 1;
}

static int read_file(void *data, unsigned char *buffer, size_t size, size_t *size_read)
{
    FILE *file = ((yaml_parser_t *)data)->input.file;
    *size_read = fread(buffer, 1, size, file);
    return !ferror(file);
}

YAML_DECLARE(void) yaml_parser_set_input_string(yaml_parser_t *parser, const unsigned char *input, size_t size)
{
    assert(parser && !parser->read_handler && input);
    parser->read_handler = read_string;
    parser->read_handler_data = parser;
    parser->input.string.start = parser->input.string.current = input;
    parser->input.string.end = input + size;
}

YAML_DECLARE(void) yaml_parser_set_input_file(yaml_parser_t *parser, FILE *file)
{
    assert(parser && !parser->read_handler && file);
    parser->read_handler = read_file;
    parser->read_handler_data = parser;
    parser->input.file = file;
}

YAML_DECLARE(void) yaml_parser_set_input(yaml_parser_t *parser, yaml_read_handler_t *handler, void *data)
{
    assert(parser && !parser->read_handler && handler);
    parser->read_handler = handler;
    parser->read_handler_data = data;
}

YAML_DECLARE(void) yaml_parser_set_encoding(yaml_parser_t *parser, yaml_encoding_t encoding)
{
    assert(parser && !parser->encoding);
    parser->encoding = encoding;
}

/* ---- windows */

/* How much of what is there is looked at first: the records of that many bytes, some thirty times as many, are still near the
 * processor when they are handed out, and no block of them is given back to the system between two windows. */
#ifndef LAYER_WINDOW
#define LAYER_WINDOW ((size_t)1 << 13)
#endif

/* Reads on by the handler. 0: the parser says why. */
static int read_piece(yaml_parser_t *parser, layer_reading *reading)
{
    unsigned char piece[16384];
    size_t len = 0;
    if (!parser->read_handler(parser->read_handler_data, piece, sizeof piece, &len)) {
        parser->error = YAML_READER_ERROR;
        parser->problem = "input error";
        parser->problem_offset = reading->bytes_before + reading->given;
        parser->problem_value = -1;
        return 0;
    }
    parser->eof = !len;
    if (!layer_put(&reading->input, piece, len))
        return layer_no_memory(parser);
    if (len)
        reading->bytes = reading->input.at;
    reading->given = reading->input.len;
    return 1;
}

/* Whether the input can be cut: it is known to be UTF-8. */
static int may_be_cut(const yaml_parser_t *parser, const layer_reading *reading)
{
    if (reading->is_whole || parser->encoding > YAML_UTF8_ENCODING)
        return 0;
    return parser->encoding
           || (reading->given >= 2 && memcmp(reading->bytes, "\xFF\xFE", 2) && memcmp(reading->bytes, "\xFE\xFF", 2));
}

static int has_utf8_mark(const layer_reading *reading)
{
    return reading->given >= 3 && !memcmp(reading->bytes, "\xEF\xBB\xBF", 3);
}

/* The last place in that many bytes after which a character begins, as far as a document in flow style may be looked at: more is
 * known to come. 0: there is none. */
static size_t end_in_flow(layer_reading *reading, size_t len)
{
    if (!reading->flow_len)
        reading->flow_len = LAYER_WINDOW;
    if (len < reading->flow_len || len >= reading->given)
        return 0;
    while (len > 0 && (reading->bytes[len] & 0xC0) == 0x80)
        len--;
    return len;
}

/* The window ends at a cut after `from`, where one is found in that many bytes. */
static int ends_at_cut(const yaml_parser_t *parser, layer_reading *reading, size_t from, size_t len)
{
    if (!may_be_cut(parser, reading))
        return 0;
    /* what goes on in flow style is looked at first as it goes on */
    int is_going_on = reading->within == LAYER_FLOW && reading->flow_len <= LAYER_WINDOW;
    size_t cut = is_going_on ? 0 : layer_last_cut(reading->bytes, len, from);
    if (!cut && !reading->is_uncut && reading->asked == LAYER_EVENTS) {
        if (!reading->front && !reading->bytes_before && has_utf8_mark(reading))
            reading->front = 3;
        reading->cut_in = reading->within ? reading->within : layer_root_of(reading->bytes, len, &reading->front);
        cut = reading->cut_in == LAYER_FLOW ? end_in_flow(reading, len)
                                            : layer_last_item(reading->bytes, len, from, reading->cut_in);
    }
    if (cut)
        reading->len = cut;
    else
        reading->cut_in = LAYER_NO_ROOT;
    return cut != 0;
}

/* The window ends with the input. */
static int take_all(yaml_parser_t *parser, layer_reading *reading)
{
    while (!parser->eof)
        if (!read_piece(parser, reading))
            return 0;
    reading->len = reading->given;
    reading->is_last = 1;
    return 1;
}

/* Whether the window ends at a cut in what there is from `*from` on, which is looked at by more and more, up to `*to`; all that has
 * been looked at then has no cut, but in the line that ends or begins there. */
static int finds_cut(const yaml_parser_t *parser, layer_reading *reading, size_t *from, size_t *to)
{
    for (;;) {
        size_t len = *to < reading->given ? *to : reading->given;
        if (ends_at_cut(parser, reading, *from, len))
            return 1;
        *from = len > 4 ? len - 4 : 0;
        if (len == reading->given)
            return 0;
        *to *= 2;
    }
}

/* Has the core decode what a handler gave since. Whether a byte is wrong there; what is at the end may be the beginning of a
 * character. 0 also where memory was refused, which is met again. */
static int has_wrong_byte(layer_reading *reading)
{
    yaml_c_answer decoded;
    size_t len = reading->given - reading->checked;
    yaml_c_answer_init(&decoded);
    int kind = yaml_c_decode(reading->bytes + reading->checked, len, YAML_C_UTF8_ENCODING, &decoded);
    size_t right = kind == YAML_C_ANSWERED ? len : kind == YAML_C_READER_ERROR ? decoded.offset : 0;
    yaml_c_answer_free(&decoded);
    reading->checked += right;
    return kind == YAML_C_READER_ERROR && len - right >= 4;
}

/* Finds the window. Of what a handler gives a wrong byte comes first, as with libyaml, which decodes what it has read before it goes
 * on; and as it gives some, what is there is looked at. What is there as a whole is cut where it is long. */
static int end_window(yaml_parser_t *parser, layer_reading *reading)
{
    for (size_t from = 0, to = LAYER_WINDOW;;) {
        reading->is_wrong = !parser->eof && may_be_cut(parser, reading) && has_wrong_byte(reading);
        if (reading->is_wrong) {
            reading->len = reading->given;
            return 1;
        }
        int may_end = parser->eof ? to < reading->given : reading->checked == reading->given;
        if (may_end && finds_cut(parser, reading, &from, &to))
            return 1;
        if (parser->eof)
            return take_all(parser, reading);
        if (!read_piece(parser, reading))
            return 0;
    }
}

/* Puts the stand-in before what is parsed. 0: memory was refused. */
static int put_stand_in(layer_reading *reading)
{
    switch (reading->within) {
    case LAYER_SEQUENCE: reading->stand_in_events = 4; return layer_put(&reading->joined, "- x\n", 4);
    case LAYER_MAPPING: reading->stand_in_events = 5; return layer_put(&reading->joined, "x: x\n", 5);
    case LAYER_FLOW: return layer_put_opens(reading);
    default: reading->stand_in_events = reading->bytes_before != 0; return 1;
    }
}

/* What is to be parsed: the window, within a root after its stand-in, which is a line. */
static int join(yaml_parser_t *parser, layer_reading *reading)
{
    reading->joined.len = 0;
    if (!put_stand_in(reading) || (reading->within && !layer_put(&reading->joined, reading->bytes, reading->len)))
        return layer_no_memory(parser);
    reading->read = reading->within ? reading->joined.at : reading->bytes;
    reading->stand_in = reading->within ? reading->joined.len - reading->len : 0;
    reading->read_len = reading->stand_in + reading->len;
    reading->mark_len = !reading->bytes_before && !parser->encoding && has_utf8_mark(reading) ? 3 : 0;
    reading->chars_to_window = reading->chars_before - reading->stand_in;
    reading->lines_to_window = reading->lines_before - (reading->within != LAYER_NO_ROOT);
    reading->first_line = reading->within == LAYER_FLOW ? 1 : SIZE_MAX;
    return 1;
}

static int find_window(yaml_parser_t *parser, layer_reading *reading)
{
    return end_window(parser, reading) && join(parser, reading);
}

int layer_widen(yaml_parser_t *parser, layer_reading *reading)
{
    if (!reading->cut_in)
        return take_all(parser, reading) && join(parser, reading);
    if (reading->cut_in == LAYER_FLOW)
        reading->flow_len *= 8;
    else
        reading->is_uncut = 1;
    reading->cut_in = LAYER_NO_ROOT;
    return find_window(parser, reading);
}

/* Appends the window's places. */
static void leave_places(layer_reading *reading)
{
    if (reading->cut_in == LAYER_FLOW) {
        layer_leave_flow(reading);
        return;
    }
    if (reading->cut_in && !reading->within)
        reading->root_mark = layer_mark(reading, &reading->root);
    reading->chars_before = reading->chars_to_window + reading->chars;
    reading->lines_before = reading->lines_to_window + reading->lines;
}

/* Appends the window's bytes. */
static void leave_window(layer_reading *reading)
{
    leave_places(reading);
    reading->bytes_before += reading->len;
    reading->given -= reading->len;
    reading->checked -= reading->checked < reading->len ? reading->checked : reading->len;
    if (!reading->input.len) {
        reading->bytes += reading->len;
    } else {
        reading->input.len = reading->given;
        memmove(reading->input.at, reading->input.at + reading->len, reading->given);
    }
    reading->len = reading->front = reading->flow_len = 0;
    reading->within = reading->cut_in;
    reading->cut_in = LAYER_NO_ROOT;
    reading->is_uncut &= reading->within != LAYER_NO_ROOT;
}

static void begin(yaml_parser_t *parser, layer_reading *reading)
{
    assert(parser->read_handler);
    reading->bytes = YAML_C_NOTHING;
    reading->set = parser->encoding;
    if (parser->read_handler != read_string)
        return;
    parser->eof = 1;
    reading->bytes = parser->input.string.current;
    reading->given = (size_t)(parser->input.string.end - parser->input.string.current);
    parser->input.string.current = parser->input.string.end;
}

int layer_next_window(yaml_parser_t *parser, layer_reading *reading)
{
    if (!reading->bytes)
        begin(parser, reading);
    else
        leave_window(reading);
    return find_window(parser, reading);
}

int layer_is_doubtful(const layer_reading *reading)
{
    const yaml_c_answer *answer = &reading->answer;
    int is_placed = answer->kind == YAML_C_SCANNER_ERROR || answer->kind == YAML_C_PARSER_ERROR;
    if (reading->is_last)
        return 0;
    if (reading->is_wrong)
        return answer->kind != YAML_C_READER_ERROR;
    /* a fault's place is where it was found, and what comes further on was looked at by then in no more than 8
     * bytes; between documents laws ask for less, except the line `...` and a byte order mark (window.c) */
    return is_placed && answer->problem_mark.index + 16 > reading->read_len;
}

void layer_tell_encoding(yaml_parser_t *parser, const layer_reading *reading)
{
    if (reading->end && !reading->bytes_before)
        parser->encoding = (yaml_encoding_t)(reading->asked == LAYER_EVENTS ? reading->events[0].encoding
                                                                            : reading->scanned.tokens[0].encoding);
}

/* ---- the reader's buffer, at which libyaml's own test of its reader looks, and some clients at a fault */

int layer_show(yaml_parser_t *parser, layer_reading *reading, const uint8_t *text, size_t len, size_t at)
{
    yaml_char_t *copy = layer_copy(text, len);
    if (!copy)
        return 0;
    free(reading->shown);
    reading->shown = parser->buffer.start = copy;
    parser->buffer.pointer = copy + at;
    parser->buffer.last = parser->buffer.end = copy + len;
    return 1;
}

static int serve(yaml_parser_t *parser, layer_reading *reading)
{
    yaml_c_answer decoded;
    yaml_c_answer_init(&decoded);
    int kind = yaml_c_decode(reading->bytes, reading->len, (int32_t)reading->set, &decoded);
    int is_shown = kind != YAML_C_MEMORY_ERROR && layer_show(parser, reading, decoded.text.at, decoded.text.len, 0);
    for (size_t i = 0; is_shown && i < decoded.text.len; i++)
        parser->unread += (decoded.text.at[i] & 0xC0) != 0x80;
    yaml_c_answer_free(&decoded);
    return is_shown || layer_no_memory(parser);
}

YAML_DECLARE(int) yaml_parser_update_buffer(yaml_parser_t *parser, size_t length)
{
    assert(parser);
    layer_reading *reading = LAYER_STATE(layer_reading, parser);
    if (parser->unread >= length)
        return 1;
    reading->is_whole = 1;
    if (!layer_read(parser, reading, LAYER_EVENTS))
        return 0;
    if (reading->answer.kind == YAML_C_READER_ERROR)
        return layer_fault(parser, reading);
    if (!reading->shown && !serve(parser, reading))
        return 0;
    if (parser->unread < length)
        parser->unread++;
    return 1;
}
