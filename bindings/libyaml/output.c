/* Where an emitter writes, and how it is set. */
#include "layer.h"

static int write_string(void *data, unsigned char *buffer, size_t size)
{
    yaml_emitter_t *emitter = data;
    size_t *written = emitter->output.string.size_written, room = emitter->output.string.size - *written;
    size_t len = size < room ? size : room;
    memcpy(emitter->output.string.buffer + *written, buffer, len);
    *written += len;
    return len == size;
}

static int write_file(void *data, unsigned char *buffer, size_t size)
{
    return fwrite(buffer, 1, size, ((yaml_emitter_t *)data)->output.file) == size;
}

YAML_DECLARE(void)
yaml_emitter_set_output_string(yaml_emitter_t *emitter, unsigned char *output, size_t size, size_t *size_written)
{
    assert(emitter && !emitter->write_handler && output);
    emitter->write_handler = write_string;
    emitter->write_handler_data = emitter;
    emitter->output.string.buffer = output;
    emitter->output.string.size = size;
    emitter->output.string.size_written = size_written;
    *size_written = 0;
}

YAML_DECLARE(void) yaml_emitter_set_output_file(yaml_emitter_t *emitter, FILE *file)
{
    assert(emitter && !emitter->write_handler && file);
    emitter->write_handler = write_file;
    emitter->write_handler_data = emitter;
    emitter->output.file = file;
}

YAML_DECLARE(void) yaml_emitter_set_output(yaml_emitter_t *emitter, yaml_write_handler_t *handler, void *data)
{
    assert(emitter && !emitter->write_handler && handler);
    emitter->write_handler = handler;
    emitter->write_handler_data = data;
}

YAML_DECLARE(void) yaml_emitter_set_encoding(yaml_emitter_t *emitter, yaml_encoding_t encoding)
{
    assert(emitter && !emitter->encoding);
    emitter->encoding = encoding;
}

YAML_DECLARE(void) yaml_emitter_set_canonical(yaml_emitter_t *emitter, int canonical)
{
    assert(emitter);
    emitter->canonical = canonical != 0;
}

YAML_DECLARE(void) yaml_emitter_set_indent(yaml_emitter_t *emitter, int indent)
{
    assert(emitter);
    emitter->best_indent = 1 < indent && indent < 10 ? indent : 2;
}

YAML_DECLARE(void) yaml_emitter_set_width(yaml_emitter_t *emitter, int width)
{
    assert(emitter);
    emitter->best_width = width >= 0 ? width : -1;
}

YAML_DECLARE(void) yaml_emitter_set_unicode(yaml_emitter_t *emitter, int unicode)
{
    assert(emitter);
    emitter->unicode = unicode != 0;
}

YAML_DECLARE(void) yaml_emitter_set_break(yaml_emitter_t *emitter, yaml_break_t line_break)
{
    assert(emitter);
    emitter->line_break = line_break;
}
