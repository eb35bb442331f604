/* Documents made by hand. */
#include "layer.h"

YAML_DECLARE(int)
yaml_document_initialize(yaml_document_t *document, yaml_version_directive_t *version_directive,
                         yaml_tag_directive_t *tag_directives_start, yaml_tag_directive_t *tag_directives_end,
                         int start_implicit, int end_implicit)
{
    assert(document);
    yaml_event_t event;
    int has_room;
    memset(document, 0, sizeof *document);
    /* The event copies directives as a document does. */
    if (!yaml_document_start_event_initialize(&event, version_directive, tag_directives_start, tag_directives_end, start_implicit))
        return 0;
    document->version_directive = event.data.document_start.version_directive;
    document->tag_directives.start = event.data.document_start.tag_directives.start;
    document->tag_directives.end = event.data.document_start.tag_directives.end;
    document->start_implicit = start_implicit;
    document->end_implicit = end_implicit;
    LAYER_MAKE_ROOM(has_room, &document->nodes);
    if (!has_room)
        yaml_document_delete(document);
    return has_room;
}

static void free_node(const yaml_node_t *node)
{
    free(node->tag);
    switch (node->type) {
    case YAML_SCALAR_NODE: free(node->data.scalar.value); break;
    case YAML_SEQUENCE_NODE: free(node->data.sequence.items.start); break;
    case YAML_MAPPING_NODE: free(node->data.mapping.pairs.start); break;
    default: break;
    }
}

YAML_DECLARE(void) yaml_document_delete(yaml_document_t *document)
{
    assert(document);
    for (const yaml_node_t *it = document->nodes.start; it != document->nodes.top; it++)
        free_node(it);
    free(document->nodes.start);
    free(document->version_directive);
    layer_free_directives(document->tag_directives.start, document->tag_directives.end);
    memset(document, 0, sizeof *document);
}

static int nodes_len(const yaml_document_t *document)
{
    return (int)(document->nodes.top - document->nodes.start);
}

YAML_DECLARE(yaml_node_t *) yaml_document_get_node(yaml_document_t *document, int index)
{
    assert(document);
    return index > 0 && index <= nodes_len(document) ? document->nodes.start + index - 1 : NULL;
}

YAML_DECLARE(yaml_node_t *) yaml_document_get_root_node(yaml_document_t *document)
{
    assert(document);
    return nodes_len(document) ? document->nodes.start : NULL;
}

/* Adds a node, whose tag and value are the document's then. Its number; 0: memory was refused, and both are freed. */
static int add_node(yaml_document_t *document, const yaml_node_t *node)
{
    int has_room;
    LAYER_MAKE_ROOM(has_room, &document->nodes);
    if (!has_room) {
        free_node(node);
        return 0;
    }
    *document->nodes.top++ = *node;
    return nodes_len(document);
}

/* A node of that kind with a copy of the tag, or of the kind's own. 0: the tag isn't UTF-8, or memory was refused. */
static int begin(yaml_node_t *node, yaml_node_type_t type, const yaml_char_t *tag, const char *own)
{
    const yaml_char_t *text = tag ? tag : (const yaml_char_t *)own;
    size_t len = strlen((const char *)text);
    memset(node, 0, sizeof *node);
    node->type = type;
    return layer_is_utf8(text, len) && (node->tag = layer_copy(text, len)) != NULL;
}

YAML_DECLARE(int)
yaml_document_add_scalar(yaml_document_t *document, const yaml_char_t *tag, const yaml_char_t *value, int length,
                         yaml_scalar_style_t style)
{
    assert(document && value);
    yaml_node_t node;
    size_t len = length < 0 ? strlen((const char *)value) : (size_t)length;
    if (!layer_is_utf8(value, len) || !begin(&node, YAML_SCALAR_NODE, tag, YAML_DEFAULT_SCALAR_TAG))
        return 0;
    node.data.scalar.value = layer_copy(value, len);
    node.data.scalar.length = len;
    node.data.scalar.style = style;
    if (!node.data.scalar.value) {
        free(node.tag);
        return 0;
    }
    return add_node(document, &node);
}

YAML_DECLARE(int)
yaml_document_add_sequence(yaml_document_t *document, const yaml_char_t *tag, yaml_sequence_style_t style)
{
    assert(document);
    yaml_node_t node;
    if (!begin(&node, YAML_SEQUENCE_NODE, tag, YAML_DEFAULT_SEQUENCE_TAG))
        return 0;
    node.data.sequence.style = style;
    return add_node(document, &node);
}

YAML_DECLARE(int)
yaml_document_add_mapping(yaml_document_t *document, const yaml_char_t *tag, yaml_mapping_style_t style)
{
    assert(document);
    yaml_node_t node;
    if (!begin(&node, YAML_MAPPING_NODE, tag, YAML_DEFAULT_MAPPING_TAG))
        return 0;
    node.data.mapping.style = style;
    return add_node(document, &node);
}

YAML_DECLARE(int) yaml_document_append_sequence_item(yaml_document_t *document, int sequence, int item)
{
    yaml_node_t *node = yaml_document_get_node(document, sequence);
    int has_room;
    assert(node && node->type == YAML_SEQUENCE_NODE);
    assert(yaml_document_get_node(document, item));
    LAYER_MAKE_ROOM(has_room, &node->data.sequence.items);
    if (has_room)
        *node->data.sequence.items.top++ = item;
    return has_room;
}

YAML_DECLARE(int) yaml_document_append_mapping_pair(yaml_document_t *document, int mapping, int key, int value)
{
    yaml_node_t *node = yaml_document_get_node(document, mapping);
    int has_room;
    assert(node && node->type == YAML_MAPPING_NODE);
    assert(yaml_document_get_node(document, key) && yaml_document_get_node(document, value));
    LAYER_MAKE_ROOM(has_room, &node->data.mapping.pairs);
    if (has_room)
        *node->data.mapping.pairs.top++ = (yaml_node_pair_t){key, value};
    return has_room;
}
