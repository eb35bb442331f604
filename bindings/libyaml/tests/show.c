/* All that a libyaml answers for a file: tokens, events, documents, what is emitted of the events and dumped of the documents,
 * each with every field. It is run over this library and over another libyaml, and the two outputs are compared.
 *
 *     show SECTION FILE..     a line `@@ FILE` goes before each
 *
 * SECTION: events, tokens, documents, or an emission: plain, canonical, unicode, wide, utf16, or dumped. */
#include <yaml.h>

static yaml_parser_t parser;
static yaml_emitter_t emitter;

static void show_mark(yaml_mark_t mark)
{
    printf(" %zu:%zu:%zu", mark.index, mark.line, mark.column);
}

static void show_text(const char *name, const yaml_char_t *text, size_t len)
{
    printf(" %s=", name);
    if (!text)
        printf("none");
    for (size_t i = 0; text && i < len; i++)
        printf(text[i] > ' ' && text[i] < 0x7F ? "%c" : "\\%02x", text[i]);
}

static void show_string(const char *name, const yaml_char_t *text)
{
    show_text(name, text, text ? strlen((const char *)text) : 0);
}

static void show_fault(void)
{
    printf("fault %d problem=%s offset=%zu value=%d", parser.error, parser.problem ? parser.problem : "none",
           parser.problem_offset, parser.problem_value);
    show_mark(parser.problem_mark);
    printf(" context=%s", parser.context ? parser.context : "none");
    show_mark(parser.context_mark);
    printf("\n");
}

static void show_directives(const yaml_version_directive_t *version, const yaml_tag_directive_t *start, const yaml_tag_directive_t *end)
{
    if (version)
        printf(" version=%d.%d", version->major, version->minor);
    for (; start != end; start++) {
        show_string("handle", start->handle);
        show_string("prefix", start->prefix);
    }
}

static void show_event(const yaml_event_t *e)
{
    printf("%d", e->type);
    switch (e->type) {
    case YAML_STREAM_START_EVENT: printf(" encoding=%d", e->data.stream_start.encoding); break;
    case YAML_DOCUMENT_START_EVENT:
        printf(" implicit=%d", e->data.document_start.implicit);
        show_directives(e->data.document_start.version_directive, e->data.document_start.tag_directives.start,
                        e->data.document_start.tag_directives.end);
        break;
    case YAML_DOCUMENT_END_EVENT: printf(" implicit=%d", e->data.document_end.implicit); break;
    case YAML_ALIAS_EVENT: show_string("anchor", e->data.alias.anchor); break;
    case YAML_SCALAR_EVENT:
        show_string("anchor", e->data.scalar.anchor);
        show_string("tag", e->data.scalar.tag);
        show_text("value", e->data.scalar.value, e->data.scalar.length);
        printf(" end=%d implicit=%d,%d style=%d", e->data.scalar.value[e->data.scalar.length], e->data.scalar.plain_implicit,
               e->data.scalar.quoted_implicit, e->data.scalar.style);
        break;
    case YAML_SEQUENCE_START_EVENT:
    case YAML_MAPPING_START_EVENT: /* of one layout */
        show_string("anchor", e->data.sequence_start.anchor);
        show_string("tag", e->data.sequence_start.tag);
        printf(" implicit=%d style=%d", e->data.sequence_start.implicit, e->data.sequence_start.style);
        break;
    default: break;
    }
    show_mark(e->start_mark);
    show_mark(e->end_mark);
    printf("\n");
}

static void show_events(void)
{
    yaml_event_t event;
    for (int done = 0; !done; yaml_event_delete(&event)) {
        if (!yaml_parser_parse(&parser, &event)) {
            show_fault();
            return;
        }
        show_event(&event);
        done = event.type == YAML_STREAM_END_EVENT;
    }
}

static void show_token(const yaml_token_t *t)
{
    printf("%d", t->type);
    switch (t->type) {
    case YAML_STREAM_START_TOKEN: printf(" encoding=%d", t->data.stream_start.encoding); break;
    case YAML_VERSION_DIRECTIVE_TOKEN: printf(" %d.%d", t->data.version_directive.major, t->data.version_directive.minor); break;
    case YAML_TAG_DIRECTIVE_TOKEN:
        show_string("handle", t->data.tag_directive.handle);
        show_string("prefix", t->data.tag_directive.prefix);
        break;
    case YAML_ALIAS_TOKEN: show_string("value", t->data.alias.value); break;
    case YAML_ANCHOR_TOKEN: show_string("value", t->data.anchor.value); break;
    case YAML_TAG_TOKEN:
        show_string("handle", t->data.tag.handle);
        show_string("suffix", t->data.tag.suffix);
        break;
    case YAML_SCALAR_TOKEN:
        show_text("value", t->data.scalar.value, t->data.scalar.length);
        printf(" style=%d", t->data.scalar.style);
        break;
    default: break;
    }
    show_mark(t->start_mark);
    show_mark(t->end_mark);
    printf("\n");
}

static void show_tokens(void)
{
    yaml_token_t token;
    for (int done = 0; !done; yaml_token_delete(&token)) {
        if (!yaml_parser_scan(&parser, &token)) {
            show_fault();
            return;
        }
        show_token(&token);
        done = token.type == YAML_STREAM_END_TOKEN;
    }
}

static void show_node(const yaml_node_t *node)
{
    printf("node %d", node->type);
    show_string("tag", node->tag);
    if (node->type == YAML_SCALAR_NODE) {
        show_text("value", node->data.scalar.value, node->data.scalar.length);
        printf(" style=%d", node->data.scalar.style);
    } else if (node->type == YAML_SEQUENCE_NODE) {
        printf(" style=%d", node->data.sequence.style);
        for (const yaml_node_item_t *it = node->data.sequence.items.start; it != node->data.sequence.items.top; it++)
            printf(" %d", *it);
    } else {
        printf(" style=%d", node->data.mapping.style);
        for (const yaml_node_pair_t *it = node->data.mapping.pairs.start; it != node->data.mapping.pairs.top; it++)
            printf(" %d:%d", it->key, it->value);
    }
    show_mark(node->start_mark);
    show_mark(node->end_mark);
    printf("\n");
}

static void show_documents(void)
{
    yaml_document_t d;
    for (int done = 0; !done; yaml_document_delete(&d)) {
        if (!yaml_parser_load(&parser, &d)) {
            show_fault();
            return;
        }
        done = !yaml_document_get_root_node(&d);
        if (done)
            continue;
        printf("document implicit=%d,%d", d.start_implicit, d.end_implicit);
        show_directives(d.version_directive, d.tag_directives.start, d.tag_directives.end);
        show_mark(d.start_mark);
        show_mark(d.end_mark);
        printf("\n");
        for (int i = 1; yaml_document_get_node(&d, i); i++)
            show_node(yaml_document_get_node(&d, i));
    }
}

static int print(void *data, unsigned char *buffer, size_t size)
{
    (void)data;
    return fwrite(buffer, 1, size, stdout) == size;
}

static void set_up_emitter(const char *how)
{
    yaml_emitter_initialize(&emitter);
    yaml_emitter_set_output(&emitter, print, NULL);
    yaml_emitter_set_canonical(&emitter, !strcmp(how, "canonical"));
    yaml_emitter_set_unicode(&emitter, !strcmp(how, "unicode"));
    if (!strcmp(how, "wide")) {
        yaml_emitter_set_indent(&emitter, 5);
        yaml_emitter_set_width(&emitter, -1);
        yaml_emitter_set_break(&emitter, YAML_CRLN_BREAK);
    }
    if (!strcmp(how, "utf16"))
        yaml_emitter_set_encoding(&emitter, YAML_UTF16LE_ENCODING);
}

static void show_emission(void)
{
    yaml_event_t event;
    for (int done = 0; !done;) {
        if (!yaml_parser_parse(&parser, &event)) {
            if (emitter.encoding)
                yaml_emitter_flush(&emitter);
            printf("\n");
            show_fault();
            return;
        }
        done = event.type == YAML_STREAM_END_EVENT;
        if (!yaml_emitter_emit(&emitter, &event)) {
            printf("\nrefused %d: %s\n", emitter.error, emitter.problem ? emitter.problem : "none");
            return;
        }
    }
}

static void show_dump(void)
{
    yaml_document_t document;
    for (int done = 0; !done;) {
        if (!yaml_parser_load(&parser, &document)) {
            printf("\n");
            show_fault();
            return;
        }
        done = !yaml_document_get_root_node(&document);
        if (!yaml_emitter_dump(&emitter, &document)) {
            printf("\nrefused %d: %s\n", emitter.error, emitter.problem ? emitter.problem : "none");
            return;
        }
    }
}

static void show(const char *section, FILE *file)
{
    yaml_parser_initialize(&parser);
    yaml_parser_set_input_file(&parser, file);
    if (!strcmp(section, "events")) {
        show_events();
    } else if (!strcmp(section, "tokens")) {
        show_tokens();
    } else if (!strcmp(section, "documents")) {
        show_documents();
    } else {
        set_up_emitter(section);
        if (!strcmp(section, "dumped"))
            show_dump();
        else
            show_emission();
        yaml_emitter_delete(&emitter);
    }
    yaml_parser_delete(&parser);
}

int main(int argc, char **argv)
{
    for (int i = 2; i < argc; i++) {
        FILE *file = fopen(argv[i], "rb");
        if (!file)
            return 2;
        printf("\n@@ %s\n", argv[i]);
        show(argv[1], file);
        fclose(file);
    }
    return 0;
}
