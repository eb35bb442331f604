/* Events as records, whose texts are one after another in a block of bytes. */
#include "layer.h"

static inline int put(layer_writing *w, yaml_c_span *span, const yaml_char_t *text, size_t len)
{
    span->at = w->bytes.len;
    span->len = len;
    return layer_put(&w->bytes, text, len);
}

/* A text that may be missing. */
static inline int put_if(layer_writing *w, yaml_c_span *span, const yaml_char_t *text)
{
    return !text || put(w, span, text, strlen((const char *)text));
}

LAYER_RARE static int put_names(layer_writing *w, yaml_c_event *record, const yaml_char_t *anchor, const yaml_char_t *tag)
{
    record->has_anchor = anchor != NULL;
    record->has_tag = tag != NULL;
    return put_if(w, &record->anchor, anchor) && put_if(w, &record->tag, tag);
}

/* A node's properties. A tag that isn't written isn't kept: the core's definitions don't look at it either (kept_tag). */
static inline int put_properties(layer_writing *w, yaml_c_event *record, const yaml_char_t *anchor, const yaml_char_t *tag)
{
    const yaml_char_t *written = (w->is_canonical | !(record->implicit | record->quoted_implicit)) ? tag : NULL;
    return (!anchor && !written) || put_names(w, record, anchor, written);
}

LAYER_RARE static int put_document_start(layer_writing *w, yaml_c_event *record, const yaml_event_t *event)
{
    const yaml_version_directive_t *version = event->data.document_start.version_directive;
    const yaml_tag_directive_t *it = event->data.document_start.tag_directives.start;
    record->implicit = event->data.document_start.implicit;
    if (version) {
        record->has_version = 1;
        record->major = version->major;
        record->minor = version->minor;
    }
    record->directives.at = w->directives.len / sizeof(yaml_c_directive);
    record->directives.len = 0;
    for (; it != event->data.document_start.tag_directives.end; it++) {
        yaml_c_directive directive = {{0, 0}, {0, 0}};
        if (!put_if(w, &directive.handle, it->handle) || !put_if(w, &directive.prefix, it->prefix)
            || !layer_put(&w->directives, &directive, sizeof directive))
            return 0;
        record->directives.len++;
    }
    return 1;
}

static inline int put_scalar(layer_writing *w, yaml_c_event *record, const yaml_event_t *event)
{
    record->implicit = event->data.scalar.plain_implicit;
    record->quoted_implicit = event->data.scalar.quoted_implicit;
    record->style = (int32_t)event->data.scalar.style;
    return put_properties(w, record, event->data.scalar.anchor, event->data.scalar.tag)
           && put(w, &record->value, event->data.scalar.value, event->data.scalar.length);
}

LAYER_RARE static int put_alias(layer_writing *w, yaml_c_event *record, const yaml_char_t *anchor)
{
    record->anchor.at = record->anchor.len = 0;
    return put_if(w, &record->anchor, anchor);
}

/* Fills what the event's kind has. 0: memory was refused. */
static inline int filled(layer_writing *w, yaml_c_event *record, const yaml_event_t *event)
{
    if (event->type == YAML_SCALAR_EVENT)
        return put_scalar(w, record, event);
    switch (event->type) {
    case YAML_STREAM_START_EVENT: record->encoding = (int32_t)event->data.stream_start.encoding; return 1;
    case YAML_DOCUMENT_START_EVENT: return put_document_start(w, record, event);
    case YAML_DOCUMENT_END_EVENT: record->implicit = event->data.document_end.implicit; return 1;
    case YAML_ALIAS_EVENT: return put_alias(w, record, event->data.alias.anchor);
    case YAML_SEQUENCE_START_EVENT:
        record->implicit = event->data.sequence_start.implicit;
        record->style = (int32_t)event->data.sequence_start.style;
        return put_properties(w, record, event->data.sequence_start.anchor, event->data.sequence_start.tag);
    case YAML_MAPPING_START_EVENT:
        record->implicit = event->data.mapping_start.implicit;
        record->style = (int32_t)event->data.mapping_start.style;
        return put_properties(w, record, event->data.mapping_start.anchor, event->data.mapping_start.tag);
    default: return 1;
    }
}

int layer_record(layer_writing *w, const yaml_event_t *event)
{
    yaml_c_event *record;
    if (sizeof *record > w->events.room - w->events.len && !layer_make_room(&w->events, sizeof *record))
        return 0;
    record = (void *)(w->events.at + w->events.len);
    /* nothing looks at its places, nor at texts that its kind and its flags don't name */
    memset(record, 0, offsetof(yaml_c_event, directives));
    record->kind = (int32_t)event->type;
    if (!filled(w, record, event))
        return 0;
    w->events.len += sizeof *record;
    return 1;
}
