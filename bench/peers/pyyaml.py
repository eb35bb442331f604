"""PyYAML with libyaml beside the others: pyyaml.py COMMAND FILE, where COMMAND is events, format or load."""

import sys

import yaml

command, path = sys.argv[1:]
with open(path, "rb") as file:
    text = file.read()
if command == "events":
    print(sum(1 for _ in yaml.parse(text, Loader=yaml.CLoader)))
elif command == "format":
    yaml.serialize_all(yaml.compose_all(text, Loader=yaml.CSafeLoader), sys.stdout, Dumper=yaml.CSafeDumper)
else:
    print(sum(1 for _ in yaml.load_all(text, Loader=yaml.CSafeLoader)))
