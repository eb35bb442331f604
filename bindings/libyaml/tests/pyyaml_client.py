"""PyYAML's binding over a file: its tokens, its events, what it emits of them, and the loaded and dumped values.

    pyyaml_client.py SECTION FILE..     SECTION: tokens, events, emitted, loaded
"""
import sys

import yaml


def marked(it):
    return f"{it!r} {it.start_mark.index}:{it.start_mark.line}:{it.start_mark.column} {it.end_mark.index}:{it.end_mark.line}"


def tokens(text):
    for token in yaml.scan(text, Loader=yaml.CLoader):
        print(marked(token))


def events(text):
    for event in yaml.parse(text, Loader=yaml.CLoader):
        print(marked(event))


def emitted(text):
    found = list(yaml.parse(text, Loader=yaml.CLoader))
    print(yaml.emit(found, Dumper=yaml.CDumper))
    print(yaml.emit(found, Dumper=yaml.CDumper, canonical=True))
    print(yaml.emit(found, Dumper=yaml.CDumper, allow_unicode=True, width=20, indent=4))


def loaded(text):
    values = list(yaml.load_all(text, Loader=yaml.CSafeLoader))
    print(values)
    print(yaml.dump_all(values, Dumper=yaml.CSafeDumper))


SHOW = {"tokens": tokens, "events": events, "emitted": emitted, "loaded": loaded}[sys.argv[1]]
for path in sys.argv[2:]:
    print(f"\n@@ {path}")
    with open(path, "rb") as file:
        text = file.read()
    try:
        SHOW(text)
    except (yaml.YAMLError, ValueError, TypeError, RecursionError, AttributeError) as error:
        print(type(error).__name__, error)
