/* Emits streams of events made by chance, with wrong names, tags, flags and directives and events in wrong places among them, and
 * reports of each stream how many events are taken, and the fault. It judges nothing: linked with
 * either library it reports the same.
 *
 *     refused COUNT */
#include <yaml.h>

#include <stdint.h>

#define LEN(list) (sizeof(list) / sizeof *(list))

typedef struct {
    uint64_t chance;
    enum { BEFORE, BETWEEN, INSIDE, BEHIND_ROOT, DONE } place;
    char open[16]; /* the open collections: a sequence, or a mapping where a key or a value is due */
    size_t depth;
} stream;

/* One of that many numbers. */
static unsigned one_of(stream *s, unsigned count)
{
    s->chance = s->chance * 6364136223846793005u + 1442695040888963407u;
    return (unsigned)((s->chance >> 33) % count);
}

/* A text of the list, mostly its first. */
static yaml_char_t *pick(stream *s, const char *const *texts, size_t len)
{
    return (yaml_char_t *)texts[one_of(s, 8) ? 0 : one_of(s, (unsigned)len)];
}

static yaml_char_t *name(stream *s)
{
    static const char *const names[] = {"id001", "a", "b-1", "_x", "", "a b", "\xC3\xA4", "z.9", "-", "n{"};
    return pick(s, names, LEN(names));
}

static yaml_char_t *tag(stream *s)
{
    static const char *const tags[] = {"tag:yaml.org,2002:str", "!", "!x", "", "!e!y", "x", "tag:e,2000:y", "!!"};
    return pick(s, tags, LEN(tags));
}

static void between(stream *s, yaml_event_t *event)
{
    static const char *const handles[] = {"!e!", "!", "!!", "e!", "!e", "", "!a b!"}, *const prefixes[] = {"tag:e,2000:", "!", ""};
    yaml_version_directive_t version = {one_of(s, 9) ? 1 : 2, one_of(s, 4) ? 1 : 3};
    yaml_tag_directive_t tags[2];
    size_t len = one_of(s, 4) ? 0 : 1 + one_of(s, 2);
    s->place = one_of(s, 6) ? INSIDE : DONE;
    if (s->place == DONE) {
        yaml_stream_end_event_initialize(event);
        return;
    }
    for (size_t i = 0; i < len; i++) {
        tags[i].handle = pick(s, handles, LEN(handles));
        tags[i].prefix = pick(s, prefixes, LEN(prefixes));
    }
    yaml_document_start_event_initialize(event, one_of(s, 4) ? NULL : &version, tags, tags + len, one_of(s, 2) != 0);
}

/* Ends the innermost collection. */
static void end_collection(stream *s, yaml_event_t *event)
{
    if (s->open[--s->depth] == 's')
        yaml_sequence_end_event_initialize(event);
    else
        yaml_mapping_end_event_initialize(event);
}

static void leaf(stream *s, yaml_event_t *event, const yaml_char_t *anchor, const yaml_char_t *its_tag)
{
    static const char *const texts[] = {"x", "", "hello world", " a", "a\nb", "- q", "\xC3\xA4"};
    int plain = one_of(s, 20) != 0, quoted = one_of(s, 20) != 0;
    if (one_of(s, 7))
        yaml_scalar_event_initialize(event, anchor, its_tag, pick(s, texts, LEN(texts)), -1, plain, quoted,
                                     (yaml_scalar_style_t)one_of(s, 6));
    else
        yaml_alias_event_initialize(event, name(s));
}

static void node(stream *s, yaml_event_t *event)
{
    yaml_char_t *anchor = one_of(s, 4) ? NULL : name(s), *its_tag = one_of(s, 3) ? NULL : tag(s);
    unsigned kind = s->depth + 1 < sizeof s->open ? one_of(s, 10) : 9;
    if (s->depth && s->open[s->depth - 1] != 's')
        s->open[s->depth - 1] ^= 'k' ^ 'v';
    if (kind > 2)
        leaf(s, event, anchor, its_tag);
    else if (kind)
        yaml_sequence_start_event_initialize(event, anchor, its_tag, one_of(s, 3) != 0, (yaml_sequence_style_t)one_of(s, 3));
    else
        yaml_mapping_start_event_initialize(event, anchor, its_tag, one_of(s, 3) != 0, (yaml_mapping_style_t)one_of(s, 3));
    if (kind <= 2)
        s->open[s->depth++] = kind ? 's' : 'k';
}

static void inside(stream *s, yaml_event_t *event)
{
    if (!one_of(s, 300))
        yaml_document_end_event_initialize(event, 1);
    else if (s->depth && s->open[s->depth - 1] != 'v' && !one_of(s, 4))
        end_collection(s, event);
    else
        node(s, event);
    if (!s->depth)
        s->place = BEHIND_ROOT;
}

static void next(stream *s, yaml_event_t *event)
{
    switch (s->place) {
    case BEFORE:
        yaml_stream_start_event_initialize(event, YAML_UTF8_ENCODING);
        s->place = BETWEEN;
        return;
    case BETWEEN: between(s, event); return;
    case INSIDE: inside(s, event); return;
    default:
        yaml_document_end_event_initialize(event, one_of(s, 2) != 0);
        s->place = BETWEEN;
    }
}

static int take(void *data, unsigned char *buffer, size_t size)
{
    (void)buffer;
    *(size_t *)data += size;
    return 1;
}

static void emits(unsigned number)
{
    stream s = {.chance = number};
    yaml_emitter_t emitter;
    yaml_event_t event;
    size_t written = 0;
    int taken = 0, is_taken = 1;
    yaml_emitter_initialize(&emitter);
    yaml_emitter_set_output(&emitter, take, &written);
    yaml_emitter_set_canonical(&emitter, !one_of(&s, 4));
    while (s.place != DONE && taken < 400 && is_taken) {
        next(&s, &event);
        is_taken = yaml_emitter_emit(&emitter, &event);
        taken += is_taken;
    }
    is_taken = is_taken && yaml_emitter_flush(&emitter);
    printf("%u: %d %d %d %s\n", number, taken, is_taken, emitter.error, emitter.error ? emitter.problem : "");
    yaml_emitter_delete(&emitter);
}

int main(int count, char **words)
{
    unsigned streams = count > 1 ? (unsigned)atoi(words[1]) : 0;
    for (unsigned i = 0; i < streams; i++)
        emits(i);
    return streams == 0;
}
