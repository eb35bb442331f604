/* Where an input is cut: between two documents, or within a long one.
 *
 * Between documents: before a line `---` at column 0, or, where that document has directives, after the line `...` before
 * them. What is before a cut is parsed, or scanned, alone, and so is what is after it. Laws say of the proved core that
 * the whole is the same:
 *
 * - Where the front is accepted, the events of the whole are the front's without STREAM-END and then the rest's without STREAM-START,
 *   moved by the front's bytes and lines, and the whole is accepted or has the rest's fault, moved (windows_are_read of
 *   yaml_round_laws); so are tokens, where the front has no fault and no open bracket (windows_are_scanned and
 *   ended_windows_are_scanned of yaml_scan_laws). What they ask of a cut: it is after LF, before a line that begins
 *   with `---`; or after a line of `...`, blanks and breaks, which ends in LF, where of what follows `%` at column 0 comes first,
 *   after spaces, breaks and comments. cut_before and is_document_start see to it.
 * - Where the front is refused, by the scanner or the parser, with a fault before its end, or of the line `...` that ends it, the
 *   whole has its events and its fault (early_faults_are_read, ended_faults_are_read); where the fault is the scanner's, and the cut
 *   is before `---`, it has its tokens too (refused_fronts_are_scanned). layer_is_doubtful sees to that place: where a fault
 *   is nearer to the end than 16 bytes, 3 of which may be a byte order mark and 8 that line, the cut counts for nothing. It does
 *   so too where tokens leave a bracket open (tokens.c). No law speaks of the tokens of a front with a fault that ends in `...`.
 *
 * Within a document, where its root is a block collection at column 0, without anchor, tag and directives: before an item at
 * column 0. What is after it is parsed after a stand-in, a root of that kind with one item; of both the events of what
 * isn't there are left out. The line has `- ` or a simple plain key, so that its first token has no fault. */
#include "layer.h"

static int is_blank_or_break(uint8_t byte)
{
    return byte == ' ' || byte == '\t' || byte == '\r' || byte == '\n';
}

/* Whether `---` is there, with a blank or a break after it, which is looked at too and has to be there. */
static int is_document_start(const uint8_t *text, size_t len, size_t at)
{
    return at + 3 < len && !memcmp(text + at, "---", 3) && is_blank_or_break(text[at + 3]);
}

/* Whether a line is `...` and nothing else, and so short that a fault in it is one at the window's end (layer_is_doubtful). */
static int is_document_end(const uint8_t *text, size_t at, size_t end)
{
    if (end - at < 4 || end - at > 8 || memcmp(text + at, "...", 3))
        return 0;
    for (at += 3; at < end; at++)
        if (!is_blank_or_break(text[at]))
            return 0;
    return 1;
}

/* Whether a line has no break but at its end, as far as ASCII shows: after CR, NEL, LS or PS no comment goes on. */
static int is_one_line(const uint8_t *text, size_t at, size_t end)
{
    for (; at + 1 < end; at++)
        if (text[at] >= 0x80 || (text[at] == '\r' && at + 2 < end))
            return 0;
    return 1;
}

/* What a line begins with, after spaces where that is a comment or its break. A tab begins no lexeme there. */
static uint8_t first_of(const uint8_t *text, size_t at, size_t end)
{
    uint8_t first = text[at];
    while (at + 1 < end && (text[at] == ' ' || (text[at] == '\r' && at + 2 == end)))
        at++;
    return text[at] == '#' || text[at] == '\n' ? text[at] : first;
}

/* The cut for a document that begins at `---`: there, or where its directives are, after `...`. 0: there is none. */
static size_t cut_before(const uint8_t *text, size_t mark)
{
    size_t end = mark;
    int has_directives = 0, has_lines = 1;
    while (end > 0) {
        size_t at = end - 1; /* the line's LF */
        while (at > 0 && text[at - 1] != '\n')
            at--;
        uint8_t first = first_of(text, at, end);
        if (first != '#' && first != '\n' && first != '%')
            return !has_directives ? mark : has_lines && is_document_end(text, at, end) ? end : 0;
        has_directives |= first == '%';
        has_lines &= is_one_line(text, at, end);
        end = at;
    }
    return 0;
}

/* A place no further on, which is that less a multiple of three: what isn't looked at again has no dash at every third byte. */
static size_t back_to_dash(const uint8_t *text, size_t at, size_t from)
{
    while (at >= from + 12 && text[at - 3] != '-' && text[at - 6] != '-' && text[at - 9] != '-' && text[at - 12] != '-')
        at -= 12;
    return at;
}

/* Of three dashes every third byte is one: where there is none, no document begins within two bytes of it. */
size_t layer_last_cut(const uint8_t *text, size_t len, size_t from)
{
    for (size_t at = back_to_dash(text, len, from); at >= from + 3; at = back_to_dash(text, at - 3, from))
        for (size_t k = 0; k < 3 && text[at - 3] == '-'; k++) {
            size_t mark = at - 3 > k ? at - 3 - k : 0;
            if (mark > from && text[mark - 1] == '\n' && is_document_start(text, len, mark)) {
                size_t cut = cut_before(text, mark);
                if (cut)
                    return cut;
            }
        }
    return 0;
}

static int is_of_key(uint8_t byte)
{
    return (byte >= 'a' && byte <= 'z') || (byte >= 'A' && byte <= 'Z') || (byte >= '0' && byte <= '9') || byte == '_';
}

/* The root that may have an item in that line. */
static enum layer_root root_with(const uint8_t *text, size_t len, size_t at)
{
    size_t end = at;
    if (text[at] == '-')
        return at + 1 < len && is_blank_or_break(text[at + 1]) ? LAYER_SEQUENCE : LAYER_NO_ROOT;
    while (end < len && end < at + 128 && is_of_key(text[end]))
        end++;
    return end > at && end + 1 < len && text[end] == ':' && is_blank_or_break(text[end + 1]) ? LAYER_MAPPING : LAYER_NO_ROOT;
}

enum layer_root layer_root_of(const uint8_t *text, size_t len, size_t *from)
{
    while (*from < len && (text[*from] == '#' || text[*from] == '\n' || (len - *from >= 4 && !memcmp(text + *from, "---\n", 4)))) {
        const uint8_t *end = memchr(text + *from, '\n', len - *from);
        if (!end)
            return LAYER_NO_ROOT;
        *from = (size_t)(end - text) + 1;
    }
    if (*from < len && (text[*from] == '[' || text[*from] == '{'))
        return LAYER_FLOW;
    return *from < len ? root_with(text, len, *from) : LAYER_NO_ROOT;
}

size_t layer_last_item(const uint8_t *text, size_t len, size_t from, enum layer_root root)
{
    for (size_t at = len; at > from && root; at--)
        if (text[at - 1] == '\n' && at < len && root_with(text, len, at) == root)
            return at;
    return 0;
}
