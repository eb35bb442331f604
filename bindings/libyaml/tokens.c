/* Tokens: the input is scanned in windows, as it is parsed for events; each call hands out one token, and after those before
 * a fault the fault. */
#include "layer.h"

int layer_is_open(const layer_reading *reading)
{
    size_t open = 0;
    for (size_t i = 0; i < reading->scanned.tokens_len && !reading->is_last; i++) {
        int kind = reading->scanned.tokens[i].kind;
        open += kind == YAML_C_FLOW_SEQUENCE_START_TOKEN || kind == YAML_C_FLOW_MAPPING_START_TOKEN;
        open -= open && (kind == YAML_C_FLOW_SEQUENCE_END_TOKEN || kind == YAML_C_FLOW_MAPPING_END_TOKEN);
    }
    return open != 0;
}

/* The stream has one start and one end: those of other windows aren't the stream's. */
void layer_take_tokens(layer_reading *reading)
{
    size_t len = reading->scanned.tokens_len;
    reading->next = reading->bytes_before != 0;
    reading->end = len;
    if (!reading->is_last && len) {
        const yaml_c_mark *end = &reading->scanned.tokens[--reading->end].start;
        reading->lines = end->line;
        reading->chars = end->character;
    }
}

static int copied(const layer_reading *reading, yaml_char_t **to, yaml_c_span span)
{
    return (*to = layer_copy(reading->scanned.bytes.at + span.at, span.len)) != NULL;
}

/* Fills what the token's kind has. 0: memory was refused. */
static int made(const layer_reading *reading, const yaml_c_token *it, yaml_token_t *token)
{
    switch (it->kind) {
    case YAML_C_STREAM_START_TOKEN: token->data.stream_start.encoding = (yaml_encoding_t)it->encoding; return 1;
    case YAML_C_VERSION_DIRECTIVE_TOKEN:
        token->data.version_directive.major = it->major;
        token->data.version_directive.minor = it->minor;
        return 1;
    case YAML_C_TAG_DIRECTIVE_TOKEN:
        return copied(reading, &token->data.tag_directive.handle, it->handle)
               && copied(reading, &token->data.tag_directive.prefix, it->value);
    case YAML_C_ALIAS_TOKEN: return copied(reading, &token->data.alias.value, it->value);
    case YAML_C_ANCHOR_TOKEN: return copied(reading, &token->data.anchor.value, it->value);
    case YAML_C_TAG_TOKEN:
        return copied(reading, &token->data.tag.handle, it->handle) && copied(reading, &token->data.tag.suffix, it->value);
    case YAML_C_SCALAR_TOKEN:
        token->data.scalar.length = it->value.len;
        token->data.scalar.style = (yaml_scalar_style_t)it->style;
        return copied(reading, &token->data.scalar.value, it->value);
    default: return 1;
    }
}

/* libyaml puts tokens into its queue; here there is none, and the tokens are read by then or the fault is reported. */
YAML_DECLARE(int) yaml_parser_fetch_more_tokens(yaml_parser_t *parser)
{
    assert(parser);
    layer_reading *reading = LAYER_STATE(layer_reading, parser);
    if (parser->stream_end_produced)
        return 1;
    if (!layer_read(parser, reading, LAYER_TOKENS))
        return 0;
    return reading->next < reading->end || layer_fault(parser, reading);
}

YAML_DECLARE(int) yaml_parser_scan(yaml_parser_t *parser, yaml_token_t *token)
{
    assert(parser && token);
    layer_reading *reading = LAYER_STATE(layer_reading, parser);
    memset(token, 0, sizeof *token);
    if (parser->stream_end_produced || parser->error)
        return 1;
    if (!yaml_parser_fetch_more_tokens(parser))
        return 0;
    const yaml_c_token *it = &reading->scanned.tokens[reading->next++];
    token->type = (yaml_token_type_t)it->kind;
    if (!made(reading, it, token)) {
        yaml_token_delete(token);
        return layer_no_memory(parser);
    }
    token->start_mark = layer_mark(reading, &it->start);
    token->end_mark = layer_mark(reading, &it->end);
    parser->mark = token->end_mark;
    parser->stream_start_produced = 1;
    parser->stream_end_produced = it->kind == YAML_C_STREAM_END_TOKEN;
    parser->tokens_parsed++;
    return 1;
}
