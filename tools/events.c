/* libyaml's events of a file, one a line, in the form of `yaml_cli events`; with -d its documents are loaded instead and
 * nothing is written. A fault is one line on standard error, in the form of the program's lines, with status 1.
 *
 *     cc -O2 -o events events.c -lyaml        (Debian: libyaml-dev)
 *     events [-d] FILE
 */
#include <stdio.h>
#include <string.h>
#include <yaml.h>

static const char *const KINDS[] = {"no",     "memory",   "reader", "scanner",
                                    "parser", "composer", "writer", "emitter"};

/* A tag or a value: six bytes are escaped. */
static void escaped(const unsigned char *text, size_t length)
{
    size_t i;
    for (i = 0; i < length; i++) {
        switch (text[i]) {
        case '\\': fputs("\\\\", stdout); break;
        case 0: fputs("\\0", stdout); break;
        case 8: fputs("\\b", stdout); break;
        case '\t': fputs("\\t", stdout); break;
        case '\n': fputs("\\n", stdout); break;
        case '\r': fputs("\\r", stdout); break;
        default: putchar(text[i]);
        }
    }
}

static void node(const char *word, const yaml_char_t *anchor, const yaml_char_t *tag)
{
    fputs(word, stdout);
    if (anchor)
        printf(" &%s", (const char *)anchor);
    if (tag) {
        fputs(" <", stdout);
        escaped(tag, strlen((const char *)tag));
        fputs(">", stdout);
    }
}

static char sign(yaml_scalar_style_t style)
{
    switch (style) {
    case YAML_SINGLE_QUOTED_SCALAR_STYLE: return '\'';
    case YAML_DOUBLE_QUOTED_SCALAR_STYLE: return '"';
    case YAML_LITERAL_SCALAR_STYLE: return '|';
    case YAML_FOLDED_SCALAR_STYLE: return '>';
    default: return ':';
    }
}

static void line(const yaml_event_t *event)
{
    switch (event->type) {
    case YAML_STREAM_START_EVENT: fputs("+STR", stdout); break;
    case YAML_STREAM_END_EVENT: fputs("-STR", stdout); break;
    case YAML_DOCUMENT_START_EVENT:
        fputs(event->data.document_start.implicit ? "+DOC" : "+DOC ---", stdout);
        break;
    case YAML_DOCUMENT_END_EVENT:
        fputs(event->data.document_end.implicit ? "-DOC" : "-DOC ...", stdout);
        break;
    case YAML_ALIAS_EVENT: printf("=ALI *%s", (const char *)event->data.alias.anchor); break;
    case YAML_SCALAR_EVENT:
        node("=VAL", event->data.scalar.anchor, event->data.scalar.tag);
        printf(" %c", sign(event->data.scalar.style));
        escaped(event->data.scalar.value, event->data.scalar.length);
        break;
    case YAML_SEQUENCE_START_EVENT:
        node("+SEQ", event->data.sequence_start.anchor, event->data.sequence_start.tag);
        break;
    case YAML_SEQUENCE_END_EVENT: fputs("-SEQ", stdout); break;
    case YAML_MAPPING_START_EVENT:
        node("+MAP", event->data.mapping_start.anchor, event->data.mapping_start.tag);
        break;
    case YAML_MAPPING_END_EVENT: fputs("-MAP", stdout); break;
    default: break;
    }
    putchar('\n');
}

static void place(yaml_mark_t mark)
{
    fprintf(stderr, " (line %zu, column %zu)", mark.line + 1, mark.column + 1);
}

static void fault(const yaml_parser_t *parser)
{
    fprintf(stderr, "%s error", KINDS[parser->error]);
    if (parser->error == YAML_READER_ERROR) {
        fprintf(stderr, ": %s (byte %zu", parser->problem, parser->problem_offset);
        if (parser->problem_value != -1)
            fprintf(stderr, ", value %d", parser->problem_value);
        fputs(")", stderr);
    } else if (parser->error != YAML_MEMORY_ERROR) {
        if (parser->context) {
            fprintf(stderr, ": %s", parser->context);
            place(parser->context_mark);
        }
        fprintf(stderr, ": %s", parser->problem);
        place(parser->problem_mark);
    }
    fputs("\n", stderr);
}

static int events(yaml_parser_t *parser)
{
    yaml_event_t event;
    int is_end = 0;
    while (!is_end) {
        if (!yaml_parser_parse(parser, &event))
            return 0;
        line(&event);
        is_end = event.type == YAML_STREAM_END_EVENT;
        yaml_event_delete(&event);
    }
    return 1;
}

static int documents(yaml_parser_t *parser)
{
    yaml_document_t document;
    int is_end = 0;
    while (!is_end) {
        if (!yaml_parser_load(parser, &document))
            return 0;
        is_end = !yaml_document_get_root_node(&document);
        yaml_document_delete(&document);
    }
    return 1;
}

int main(int argc, char **argv)
{
    yaml_parser_t parser;
    FILE *file;
    int loads = argc == 3 && !strcmp(argv[1], "-d");
    int is_right;
    if (argc != 2 + loads || !(file = fopen(argv[1 + loads], "rb")) || !yaml_parser_initialize(&parser)) {
        fputs("usage: events [-d] FILE\n", stderr);
        return 2;
    }
    yaml_parser_set_input_file(&parser, file);
    is_right = loads ? documents(&parser) : events(&parser);
    if (!is_right)
        fault(&parser);
    yaml_parser_delete(&parser);
    fclose(file);
    return is_right ? 0 : 1;
}
