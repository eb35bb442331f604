/* Events are made and deleted, tokens deleted. */
#include "layer.h"

void layer_free_directives(yaml_tag_directive_t *start, yaml_tag_directive_t *end)
{
    for (yaml_tag_directive_t *it = start; it != end; it++) {
        free(it->handle);
        free(it->prefix);
    }
    free(start);
}

void layer_free_other_texts(const yaml_event_t *event)
{
    switch (event->type) {
    case YAML_DOCUMENT_START_EVENT:
        free(event->data.document_start.version_directive);
        layer_free_directives(event->data.document_start.tag_directives.start, event->data.document_start.tag_directives.end);
        break;
    case YAML_ALIAS_EVENT: free(event->data.alias.anchor); break;
    case YAML_SEQUENCE_START_EVENT:
        layer_free_names(event->data.sequence_start.anchor, event->data.sequence_start.tag);
        break;
    case YAML_MAPPING_START_EVENT: layer_free_names(event->data.mapping_start.anchor, event->data.mapping_start.tag); break;
    default: break;
    }
}

YAML_DECLARE(void) yaml_event_delete(yaml_event_t *event)
{
    assert(event);
    layer_free_texts(event);
    layer_clear(event);
}

YAML_DECLARE(void) yaml_token_delete(yaml_token_t *token)
{
    assert(token);
    switch (token->type) {
    case YAML_TAG_DIRECTIVE_TOKEN:
        free(token->data.tag_directive.handle);
        free(token->data.tag_directive.prefix);
        break;
    case YAML_ALIAS_TOKEN: free(token->data.alias.value); break;
    case YAML_ANCHOR_TOKEN: free(token->data.anchor.value); break;
    case YAML_TAG_TOKEN:
        free(token->data.tag.handle);
        free(token->data.tag.suffix);
        break;
    case YAML_SCALAR_TOKEN: free(token->data.scalar.value); break;
    default: break;
    }
    memset(token, 0, sizeof *token);
}

/* An event of that kind, all else 0. */
static inline void begin(yaml_event_t *event, yaml_event_type_t type)
{
    assert(event);
    layer_clear(event);
    event->type = type;
}

/* Whether all went well; where it didn't, the event is deleted. */
static inline int made(yaml_event_t *event, int is_well)
{
    if (!is_well)
        yaml_event_delete(event);
    return is_well;
}

static int copied(yaml_char_t **to, const yaml_char_t *text)
{
    size_t len = strlen((const char *)text);
    return layer_is_utf8(text, len) && (*to = layer_copy(text, len)) != NULL;
}

/* A copy of a text that may be missing. */
static inline int copied_if(yaml_char_t **to, const yaml_char_t *text)
{
    return !text || copied(to, text);
}

YAML_DECLARE(int) yaml_stream_start_event_initialize(yaml_event_t *event, yaml_encoding_t encoding)
{
    begin(event, YAML_STREAM_START_EVENT);
    event->data.stream_start.encoding = encoding;
    return 1;
}

YAML_DECLARE(int) yaml_stream_end_event_initialize(yaml_event_t *event)
{
    begin(event, YAML_STREAM_END_EVENT);
    return 1;
}

/* A directive whose texts are missing still has its place, so that deleting the event frees those before it. */
static int directives_copied(yaml_event_t *event, const yaml_tag_directive_t *start, size_t len)
{
    if (!len)
        return 1;
    yaml_tag_directive_t *copies = calloc(len, sizeof *copies);
    if (!copies)
        return 0;
    event->data.document_start.tag_directives.start = copies;
    event->data.document_start.tag_directives.end = copies + len;
    for (size_t i = 0; i < len; i++) {
        assert(start[i].handle && start[i].prefix);
        if (!copied(&copies[i].handle, start[i].handle) || !copied(&copies[i].prefix, start[i].prefix))
            return 0;
    }
    return 1;
}

YAML_DECLARE(int)
yaml_document_start_event_initialize(yaml_event_t *event, yaml_version_directive_t *version_directive,
                                     yaml_tag_directive_t *tag_directives_start, yaml_tag_directive_t *tag_directives_end,
                                     int implicit)
{
    assert((tag_directives_start && tag_directives_end) || tag_directives_start == tag_directives_end);
    begin(event, YAML_DOCUMENT_START_EVENT);
    event->data.document_start.implicit = implicit;
    if (version_directive) {
        yaml_version_directive_t *version = malloc(sizeof *version);
        if (!version)
            return made(event, 0);
        *version = *version_directive;
        event->data.document_start.version_directive = version;
    }
    size_t len = tag_directives_start ? (size_t)(tag_directives_end - tag_directives_start) : 0;
    return made(event, directives_copied(event, tag_directives_start, len));
}

YAML_DECLARE(int) yaml_document_end_event_initialize(yaml_event_t *event, int implicit)
{
    begin(event, YAML_DOCUMENT_END_EVENT);
    event->data.document_end.implicit = implicit;
    return 1;
}

YAML_DECLARE(int) yaml_alias_event_initialize(yaml_event_t *event, const yaml_char_t *anchor)
{
    assert(anchor);
    begin(event, YAML_ALIAS_EVENT);
    return made(event, copied(&event->data.alias.anchor, anchor));
}

YAML_DECLARE(int)
yaml_scalar_event_initialize(yaml_event_t *event, const yaml_char_t *anchor, const yaml_char_t *tag, const yaml_char_t *value,
                             int length, int plain_implicit, int quoted_implicit, yaml_scalar_style_t style)
{
    assert(value);
    size_t len = length < 0 ? strlen((const char *)value) : (size_t)length;
    begin(event, YAML_SCALAR_EVENT);
    event->data.scalar.length = len;
    event->data.scalar.plain_implicit = plain_implicit;
    event->data.scalar.quoted_implicit = quoted_implicit;
    event->data.scalar.style = style;
    return made(event, copied_if(&event->data.scalar.anchor, anchor) && copied_if(&event->data.scalar.tag, tag)
                           && layer_is_utf8(value, len) && (event->data.scalar.value = layer_copy(value, len)) != NULL);
}

YAML_DECLARE(int)
yaml_sequence_start_event_initialize(yaml_event_t *event, const yaml_char_t *anchor, const yaml_char_t *tag, int implicit,
                                     yaml_sequence_style_t style)
{
    begin(event, YAML_SEQUENCE_START_EVENT);
    event->data.sequence_start.implicit = implicit;
    event->data.sequence_start.style = style;
    return made(event, copied_if(&event->data.sequence_start.anchor, anchor) && copied_if(&event->data.sequence_start.tag, tag));
}

YAML_DECLARE(int) yaml_sequence_end_event_initialize(yaml_event_t *event)
{
    begin(event, YAML_SEQUENCE_END_EVENT);
    return 1;
}

YAML_DECLARE(int)
yaml_mapping_start_event_initialize(yaml_event_t *event, const yaml_char_t *anchor, const yaml_char_t *tag, int implicit,
                                    yaml_mapping_style_t style)
{
    begin(event, YAML_MAPPING_START_EVENT);
    event->data.mapping_start.implicit = implicit;
    event->data.mapping_start.style = style;
    return made(event, copied_if(&event->data.mapping_start.anchor, anchor) && copied_if(&event->data.mapping_start.tag, tag));
}

YAML_DECLARE(int) yaml_mapping_end_event_initialize(yaml_event_t *event)
{
    begin(event, YAML_MAPPING_END_EVENT);
    return 1;
}
