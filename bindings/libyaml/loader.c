/* Documents loaded from a parser's events. Which node each event is of and which collection takes it, aliases among them, is the
 * core's (yaml_c_compose): what it looks at is kept of each event to the document's end. */
#include "layer.h"

/* What is kept of a document's events: records, the bytes of their names, and where aliases start and collections end. */
typedef struct {
    layer_bytes steps;
    layer_bytes names;
    layer_bytes marks;
} gathering;

static inline int keep_step(gathering *g, int32_t kind, const yaml_char_t *name)
{
    yaml_c_step step = {kind, name != NULL, g->names.len, name ? strlen((const char *)name) : 0};
    if (name && !layer_put(&g->names, name, step.count))
        return 0;
    if (g->steps.room - g->steps.len < sizeof step)
        return layer_put(&g->steps, &step, sizeof step);
    memcpy(g->steps.at + g->steps.len, &step, sizeof step);
    g->steps.len += sizeof step;
    return 1;
}

static int keep_mark(gathering *g, const yaml_mark_t *mark)
{
    return layer_put(&g->marks, mark, sizeof *mark);
}

/* Makes room for as many nodes as a collection takes. */
static int make_room(yaml_node_t *node, size_t len)
{
    if (node->type == YAML_SEQUENCE_NODE) {
        yaml_node_item_t *items = malloc(len * sizeof *items);
        node->data.sequence.items.start = node->data.sequence.items.top = items;
        node->data.sequence.items.end = items ? items + len : NULL;
        return items != NULL;
    }
    size_t pairs_len = len / 2 + len % 2;
    yaml_node_pair_t *pairs = malloc(pairs_len * sizeof *pairs);
    node->data.mapping.pairs.start = node->data.mapping.pairs.top = pairs;
    node->data.mapping.pairs.end = pairs ? pairs + pairs_len : NULL;
    return pairs != NULL;
}

/* Puts a node into a collection that has room for it: as an item, a key, or the value of the last key. */
static void place_node(yaml_node_t *node, int id)
{
    if (node->type == YAML_SEQUENCE_NODE) {
        *node->data.sequence.items.top++ = id;
        return;
    }
    yaml_node_pair_t *top = node->data.mapping.pairs.top;
    if (top != node->data.mapping.pairs.start && !top[-1].value)
        top[-1].value = id;
    else
        *node->data.mapping.pairs.top++ = (yaml_node_pair_t){id, 0};
}

/* Takes the tag of the event; where it is missing or `!`, that of the kind. */
static int take_tag(yaml_node_t *node, yaml_char_t **tag, const char *own)
{
    if (*tag && strcmp((char *)*tag, "!")) {
        node->tag = *tag;
        *tag = NULL;
        return 1;
    }
    return (node->tag = layer_copy(own, strlen(own))) != NULL;
}

/* What a node has of the event that starts it, whose anchor is known. */
static int begin_node(yaml_node_t *node, yaml_event_t *event, const yaml_char_t **anchor)
{
    memset(node, 0, sizeof *node);
    node->start_mark = event->start_mark;
    node->end_mark = event->end_mark;
    switch (event->type) {
    case YAML_SCALAR_EVENT:
        *anchor = event->data.scalar.anchor;
        if (!take_tag(node, &event->data.scalar.tag, YAML_DEFAULT_SCALAR_TAG))
            return 0;
        node->type = YAML_SCALAR_NODE;
        node->data.scalar.value = event->data.scalar.value;
        node->data.scalar.length = event->data.scalar.length;
        node->data.scalar.style = event->data.scalar.style;
        event->data.scalar.value = NULL;
        return 1;
    case YAML_SEQUENCE_START_EVENT:
        *anchor = event->data.sequence_start.anchor;
        node->type = YAML_SEQUENCE_NODE;
        node->data.sequence.style = event->data.sequence_start.style;
        return take_tag(node, &event->data.sequence_start.tag, YAML_DEFAULT_SEQUENCE_TAG);
    default:
        *anchor = event->data.mapping_start.anchor;
        node->type = YAML_MAPPING_NODE;
        node->data.mapping.style = event->data.mapping_start.style;
        return take_tag(node, &event->data.mapping_start.tag, YAML_DEFAULT_MAPPING_TAG);
    }
}

/* Adds the node that an event begins, and keeps what the core looks at. */
static int keep_node(yaml_document_t *document, gathering *g, yaml_event_t *event)
{
    int has_room;
    const yaml_char_t *anchor;
    LAYER_MAKE_ROOM(has_room, &document->nodes);
    if (!has_room || !begin_node(document->nodes.top, event, &anchor))
        return 0;
    document->nodes.top++;
    return keep_step(g, (int32_t)event->type, anchor);
}

/* Keeps an event of a document. 0: memory was refused. */
static int keep_event(yaml_document_t *document, gathering *g, yaml_event_t *event)
{
    switch (event->type) {
    case YAML_ALIAS_EVENT:
        return keep_mark(g, &event->start_mark) && keep_step(g, YAML_C_ALIAS_EVENT, event->data.alias.anchor);
    case YAML_SCALAR_EVENT:
    case YAML_SEQUENCE_START_EVENT:
    case YAML_MAPPING_START_EVENT: return keep_node(document, g, event);
    case YAML_SEQUENCE_END_EVENT:
    case YAML_MAPPING_END_EVENT: return keep_mark(g, &event->end_mark) && keep_step(g, (int32_t)event->type, NULL);
    default: /* the document's end */
        document->end_implicit = event->data.document_end.implicit;
        document->end_mark = event->end_mark;
        return 1;
    }
}

/* Keeps the events after a document's start up to its end. */
static int keep_events(yaml_parser_t *parser, yaml_document_t *document, gathering *g)
{
    for (;;) {
        yaml_event_t event;
        if (!yaml_parser_parse(parser, &event))
            return 0;
        int is_end = event.type == YAML_DOCUMENT_END_EVENT, is_kept = keep_event(document, g, &event);
        yaml_event_delete(&event);
        if (!is_kept)
            return layer_no_memory(parser);
        if (is_end)
            return 1;
    }
}

/* Whether a mark was kept of an event: of an alias, and of a collection's end. */
static int has_mark(const yaml_c_step *step)
{
    return step->kind == YAML_C_ALIAS_EVENT || step->kind == YAML_C_SEQUENCE_END_EVENT || step->kind == YAML_C_MAPPING_END_EVENT;
}

/* Reports the alias after the spots. */
static int undefined_alias(yaml_parser_t *parser, const gathering *g, const yaml_c_spots *spots)
{
    const yaml_c_step *steps = (const void *)g->steps.at;
    const yaml_mark_t *mark = (const void *)g->marks.at;
    for (size_t i = 0; i < spots->spots_len; i++)
        mark += has_mark(&steps[i]);
    /* in place of a fault after it, which may have been met */
    parser->error = YAML_COMPOSER_ERROR;
    parser->context = NULL;
    memset(&parser->context_mark, 0, sizeof parser->context_mark);
    parser->problem_offset = 0;
    parser->problem_value = 0;
    parser->token_available = 0;
    parser->state = YAML_PARSE_STREAM_START_STATE;
    parser->buffer.pointer = parser->buffer.last;
    parser->problem = "found undefined alias";
    parser->problem_mark = *mark;
    return 0;
}

/* Puts each node into its collection, and ends the collections. `lens` has how many nodes each takes. A node begins where its
 * number is greater than all before it; an alias is in a collection, which an end isn't. */
static int place_all(yaml_document_t *document, const yaml_mark_t *mark, const yaml_c_spots *spots, const uint32_t *lens)
{
    int32_t begun = 0;
    for (const yaml_c_spot *it = spots->spots; it != spots->spots + spots->spots_len; it++) {
        if (it->into) {
            yaml_node_t *node = document->nodes.start + it->into - 1;
            if (!node->data.sequence.items.start && !make_room(node, lens[it->into - 1]))
                return 0;
            place_node(node, it->node);
        }
        if (it->node > begun) {
            begun = it->node;
            continue;
        }
        if (!it->into)
            document->nodes.start[it->node - 1].end_mark = *mark;
        mark++;
    }
    return 1;
}

/* How many nodes each collection takes. 0: too many for one. */
static int count_nodes(const yaml_c_spots *spots, uint32_t *lens)
{
    for (const yaml_c_spot *it = spots->spots; it != spots->spots + spots->spots_len; it++)
        if (it->into && ++lens[it->into - 1] == INT_MAX)
            return 0;
    return 1;
}

static int place_nodes(yaml_document_t *document, const gathering *g, const yaml_c_spots *spots)
{
    uint32_t *lens = calloc((size_t)(document->nodes.top - document->nodes.start), sizeof *lens);
    int is_placed = lens && count_nodes(spots, lens) && place_all(document, (const void *)g->marks.at, spots, lens);
    free(lens);
    return is_placed;
}

/* Frees what the core has looked at. */
static void forget_steps(gathering *g)
{
    free(g->steps.at);
    free(g->names.at);
    memset(&g->steps, 0, sizeof g->steps);
    memset(&g->names, 0, sizeof g->names);
}

/* Composes the events that are kept: of a document that is whole, or of the front of one, which may have an undefined alias. */
static int compose(yaml_parser_t *parser, yaml_document_t *document, gathering *g, int is_whole)
{
    yaml_c_spots spots;
    yaml_c_answer answer;
    size_t len = g->steps.len / sizeof(yaml_c_step);
    if (!len)
        return is_whole;
    yaml_c_spots_init(&spots);
    yaml_c_answer_init(&answer);
    const uint8_t *names = g->names.len ? g->names.at : YAML_C_NOTHING;
    int kind = yaml_c_compose((const void *)g->steps.at, len, names, g->names.len, &spots, &answer);
    int is_composed = is_whole;
    assert(kind >= 0);
    if (kind == YAML_C_COMPOSER_ERROR)
        is_composed = undefined_alias(parser, g, &spots);
    else if (kind)
        is_composed = layer_no_memory(parser);
    forget_steps(g);
    if (is_composed && !place_nodes(document, g, &spots))
        is_composed = layer_no_memory(parser);
    yaml_c_spots_free(&spots);
    yaml_c_answer_free(&answer);
    return is_composed;
}

static int load_document(yaml_parser_t *parser, yaml_document_t *document, const yaml_event_t *start)
{
    gathering g = {{0}, {0}, {0}};
    document->version_directive = start->data.document_start.version_directive;
    document->tag_directives.start = start->data.document_start.tag_directives.start;
    document->tag_directives.end = start->data.document_start.tag_directives.end;
    document->start_implicit = start->data.document_start.implicit;
    document->start_mark = start->start_mark;
    int is_whole = keep_events(parser, document, &g), is_loaded = compose(parser, document, &g, is_whole);
    forget_steps(&g);
    free(g.marks.at);
    return is_loaded;
}

/* Loads what comes next: a document, or the stream's end. */
static int load_next(yaml_parser_t *parser, yaml_document_t *document)
{
    yaml_event_t event;
    if (!parser->stream_start_produced && !yaml_parser_parse(parser, &event))
        return 0;
    if (parser->stream_end_produced)
        return 1;
    if (!yaml_parser_parse(parser, &event))
        return 0;
    return event.type != YAML_DOCUMENT_START_EVENT || load_document(parser, document, &event);
}

YAML_DECLARE(int) yaml_parser_load(yaml_parser_t *parser, yaml_document_t *document)
{
    assert(parser && document);
    int is_loaded;
    memset(document, 0, sizeof *document);
    LAYER_MAKE_ROOM(is_loaded, &document->nodes);
    if (!is_loaded)
        return layer_no_memory(parser);
    is_loaded = load_next(parser, document);
    if (!is_loaded)
        yaml_document_delete(document);
    return is_loaded;
}
