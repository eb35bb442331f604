/* Lays a YAML text out in pretty form, and shows its events as the C library returns them.
 *
 *     cc -O2 -Wall -o example example.c ../../out/library/libyaml_c.a
 *     ./example [FILE]
 *
 * The text comes from FILE or from standard input. Status 1: the text is rejected, and the line on
 * standard error says why and where; status 2: it can't be read, or something is wrong with the
 * library. */
#include "yaml_c.h"

#include <stdio.h>

/* All bytes of a stream, in a block of malloc's; NULL where they can't be read. */
static uint8_t *read_all(FILE *from, size_t *len) {
    size_t room = 1 << 16;
    uint8_t *text = malloc(room);
    *len = 0;
    while (text) {
        *len += fread(text + *len, 1, room - *len, from);
        if (*len < room) break;
        uint8_t *more = realloc(text, room *= 2);
        if (!more) free(text);
        text = more;
    }
    if (text && ferror(from)) {
        free(text);
        return NULL;
    }
    return text;
}

/* Says why a call was refused. Its result is the program's status. */
static int refused(const yaml_c_answer *answer) {
    const yaml_c_bytes *words = answer->line.len ? &answer->line : &answer->problem;
    fprintf(stderr, "%.*s\n", (int)words->len, (const char *)words->at);
    return answer->kind == YAML_C_REFUSED_ARGUMENT ? 2 : 1;
}

/* The text in pretty form. */
static int show_pretty(const uint8_t *text, size_t len) {
    yaml_c_settings settings;
    yaml_c_answer answer;
    int status = 0;
    yaml_c_answer_init(&answer);
    yaml_c_defaults(&settings);
    settings.canonical = 0;
    if (yaml_c_reformat(text, len, YAML_C_ANY_ENCODING, &settings, &answer))
        status = refused(&answer);
    else
        fwrite(answer.text.at, 1, answer.text.len, stdout);
    yaml_c_answer_free(&answer);
    return status;
}

/* A span's bytes, after a word. */
static void show_span(const char *word, const yaml_c_parsed *parsed, yaml_c_span span) {
    printf(" %s=\"%.*s\"", word, (int)span.len, (const char *)parsed->bytes.at + span.at);
}

static void show_event(const yaml_c_parsed *parsed, const yaml_c_event *event) {
    static const char *const names[] = {"none",     "stream start", "stream end",     "document start", "document end", "alias",
                                        "scalar",   "sequence start", "sequence end", "mapping start",  "mapping end"};
    printf("# %llu:%llu %s", (unsigned long long)event->start.line + 1, (unsigned long long)event->start.column + 1,
           names[event->kind]);
    for (uint64_t i = 0; i < event->directives.len; i++) {
        const yaml_c_directive *directive = &parsed->directives[event->directives.at + i];
        show_span("handle", parsed, directive->handle);
        show_span("prefix", parsed, directive->prefix);
    }
    if (event->has_anchor || event->kind == YAML_C_ALIAS_EVENT) show_span("anchor", parsed, event->anchor);
    if (event->has_tag == 1) show_span("tag", parsed, event->tag);
    if (event->kind == YAML_C_SCALAR_EVENT) show_span("value", parsed, event->value);
    putchar('\n');
}

/* The events, a line for each; then their text, which has the content of the input. */
static int show_events(const uint8_t *text, size_t len) {
    yaml_c_settings settings;
    yaml_c_answer answer, same;
    yaml_c_parsed parsed;
    int status = 0;
    yaml_c_answer_init(&answer);
    yaml_c_answer_init(&same);
    yaml_c_parsed_init(&parsed);
    yaml_c_defaults(&settings);
    if (yaml_c_parse(text, len, YAML_C_ANY_ENCODING, &parsed, &answer)) {
        status = refused(&answer);
    } else {
        for (size_t i = 0; i < parsed.events_len; i++) show_event(&parsed, &parsed.events[i]);
        if (yaml_c_emit(parsed.events, parsed.events_len, parsed.directives, parsed.directives_len, parsed.bytes.at,
                        parsed.bytes.len, &settings, &answer)) {
            status = refused(&answer);
        } else if (yaml_c_same(text, len, YAML_C_ANY_ENCODING, answer.text.at, answer.text.len, YAML_C_ANY_ENCODING,
                               &same)) {
            status = refused(&same);
        } else {
            printf("# emitted again: %zu bytes, %s\n", answer.text.len, same.is ? "the same content" : "other content");
        }
    }
    yaml_c_parsed_free(&parsed);
    yaml_c_answer_free(&same);
    yaml_c_answer_free(&answer);
    return status;
}

int main(int words, char **word) {
    FILE *from = words > 1 ? fopen(word[1], "rb") : stdin;
    size_t len = 0;
    uint8_t *text = from ? read_all(from, &len) : NULL;
    int status;
    if (!text) {
        perror(words > 1 ? word[1] : "standard input");
        return 2;
    }
    status = show_pretty(text, len);
    if (!status) status = show_events(text, len);
    free(text);
    if (from != stdin) fclose(from);
    return status;
}
