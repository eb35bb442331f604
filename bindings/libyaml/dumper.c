/* Documents dumped as events: their order, which nodes are met again and the numbers of their anchors are the core's. */
#include "layer.h"

YAML_DECLARE(int) yaml_emitter_open(yaml_emitter_t *emitter)
{
    assert(emitter && !emitter->opened);
    yaml_event_t event;
    yaml_stream_start_event_initialize(&event, YAML_ANY_ENCODING);
    emitter->opened = yaml_emitter_emit(emitter, &event);
    return emitter->opened;
}

YAML_DECLARE(int) yaml_emitter_close(yaml_emitter_t *emitter)
{
    assert(emitter && emitter->opened);
    yaml_event_t event;
    if (emitter->closed)
        return 1;
    yaml_stream_end_event_initialize(&event);
    emitter->closed = yaml_emitter_emit(emitter, &event);
    return emitter->closed;
}

/* What a node holds, as numbers of nodes: of a mapping each pair's key, and its value after it. */
static const int *held_by(const yaml_node_t *node, size_t *len)
{
    *len = 0;
    if (node->type == YAML_SEQUENCE_NODE && node->data.sequence.items.start) {
        *len = (size_t)(node->data.sequence.items.top - node->data.sequence.items.start);
        return node->data.sequence.items.start;
    }
    if (node->type == YAML_MAPPING_NODE && node->data.mapping.pairs.start) {
        *len = 2 * (size_t)(node->data.mapping.pairs.top - node->data.mapping.pairs.start);
        return (const int *)node->data.mapping.pairs.start;
    }
    return NULL;
}

/* The document's nodes as records. 0: memory was refused. */
static int show_nodes(const yaml_document_t *document, yaml_c_node **nodes, int32_t **held, yaml_c_graph *graph)
{
    size_t len, total = 0;
    graph->nodes_len = (size_t)(document->nodes.top - document->nodes.start);
    for (size_t i = 0; i < graph->nodes_len; i++) {
        held_by(&document->nodes.start[i], &len);
        total += len;
    }
    *nodes = malloc(graph->nodes_len * sizeof **nodes);
    *held = malloc((total + 1) * sizeof **held);
    if (!*nodes || !*held)
        return 0;
    for (size_t i = 0; i < graph->nodes_len; i++) {
        const int *from = held_by(&document->nodes.start[i], &len);
        (*nodes)[i] = (yaml_c_node){(int32_t)document->nodes.start[i].type, graph->held_len, len};
        if (len)
            memcpy(*held + graph->held_len, from, len * sizeof *from);
        graph->held_len += len;
    }
    graph->nodes = *nodes;
    graph->held = *held;
    return 1;
}

/* The turns of the dump: what it has of which node, and the numbers of the anchors. 0: memory was refused. */
static int find_turns(const yaml_document_t *document, yaml_c_turns *turns)
{
    yaml_c_node *nodes = NULL;
    int32_t *held = NULL;
    yaml_c_graph graph = {NULL, 0, NULL, 0};
    yaml_c_answer answer;
    int is_found = show_nodes(document, &nodes, &held, &graph);
    if (is_found) {
        yaml_c_answer_init(&answer);
        int kind = yaml_c_serialize(&graph, turns, &answer);
        yaml_c_answer_free(&answer);
        assert(kind >= 0); /* each node has a kind */
        is_found = !kind;
    }
    free(nodes);
    free(held);
    return is_found;
}

/* The event that starts a node. */
static int node_event(yaml_event_t *event, const yaml_node_t *node, const yaml_char_t *anchor)
{
    const char *tag = (const char *)node->tag;
    int is_own;
    switch (node->type) {
    case YAML_SCALAR_NODE:
        is_own = !strcmp(tag, YAML_DEFAULT_SCALAR_TAG);
        return yaml_scalar_event_initialize(event, anchor, node->tag, node->data.scalar.value, (int)node->data.scalar.length,
                                            is_own, is_own, node->data.scalar.style);
    case YAML_SEQUENCE_NODE:
        is_own = !strcmp(tag, YAML_DEFAULT_SEQUENCE_TAG);
        return yaml_sequence_start_event_initialize(event, anchor, node->tag, is_own, node->data.sequence.style);
    default:
        is_own = !strcmp(tag, YAML_DEFAULT_MAPPING_TAG);
        return yaml_mapping_start_event_initialize(event, anchor, node->tag, is_own, node->data.mapping.style);
    }
}

/* The event of a turn. */
static int turn_event(yaml_event_t *event, const yaml_document_t *document, const yaml_c_turn *turn)
{
    char name[24];
    const yaml_char_t *anchor = NULL;
    if (turn->number) {
        snprintf(name, sizeof name, "id%03llu", (unsigned long long)turn->number);
        anchor = (const yaml_char_t *)name;
    }
    switch (turn->kind) {
    case YAML_C_ALIAS_EVENT:
        assert(anchor); /* the number of a node */
        return yaml_alias_event_initialize(event, anchor);
    case YAML_C_SEQUENCE_END_EVENT: return yaml_sequence_end_event_initialize(event);
    case YAML_C_MAPPING_END_EVENT: return yaml_mapping_end_event_initialize(event);
    default: return node_event(event, document->nodes.start + turn->node - 1, anchor);
    }
}

static int dump_turns(yaml_emitter_t *emitter, const yaml_document_t *document, const yaml_c_turns *turns)
{
    for (size_t i = 0; i < turns->turns_len; i++) {
        yaml_event_t event;
        if (!turn_event(&event, document, &turns->turns[i]))
            return layer_no_emitter_memory(emitter);
        if (!yaml_emitter_emit(emitter, &event))
            return 0;
    }
    return 1;
}

static int dump_document(yaml_emitter_t *emitter, const yaml_document_t *document, yaml_c_turns *turns)
{
    yaml_event_t event;
    if (!find_turns(document, turns))
        return layer_no_emitter_memory(emitter);
    if (!yaml_document_start_event_initialize(&event, document->version_directive, document->tag_directives.start,
                                              document->tag_directives.end, document->start_implicit))
        return layer_no_emitter_memory(emitter);
    if (!yaml_emitter_emit(emitter, &event) || !dump_turns(emitter, document, turns))
        return 0;
    yaml_document_end_event_initialize(&event, document->end_implicit);
    return yaml_emitter_emit(emitter, &event);
}

YAML_DECLARE(int) yaml_emitter_dump(yaml_emitter_t *emitter, yaml_document_t *document)
{
    assert(emitter && document);
    yaml_c_turns turns;
    yaml_c_turns_init(&turns);
    int is_dumped = emitter->opened || yaml_emitter_open(emitter);
    if (is_dumped && document->nodes.start == document->nodes.top)
        is_dumped = yaml_emitter_close(emitter);
    else if (is_dumped)
        is_dumped = dump_document(emitter, document, &turns);
    yaml_c_turns_free(&turns);
    yaml_document_delete(document);
    return is_dumped;
}
