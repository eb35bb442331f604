#!/usr/bin/env python3
"""Writes the man page and the completions from the program's own help: docs/man/yaml_cli.1 and completions/.

    tools/help.py [--if-built | --check]

It reads what `yaml_cli --help` and each command's `--help` say. PROGRAM names the program; else it is
crates/yaml_cli/out/yaml_cli, which has to be newer than the sources. With --if-built a program that isn't there is no fault,
and the files stay as they are; with --check nothing is written, and the script fails where a file isn't what it would write.
"""
import collections
import os
import re
import subprocess
import sys

TOOLS = os.path.dirname(os.path.abspath(__file__))
TOP = os.path.dirname(TOOLS)
NAME = "yaml_cli"

# A command's name, what it does, its usage line, its arguments, its options, its examples, and its statuses with their texts.
Command = collections.namedtuple("Command", "name about usage arguments options examples statuses")
# An argument's name as it is shown, and its text.
Argument = collections.namedtuple("Argument", "name text")
# An option's short and long name, its value's name where it has one, its text, and its default.
Option = collections.namedtuple("Option", "short long value text default")

# What no help says: of the words of docs/PROFILE.md, 'The program'.
NOTES = [
    "The text is read from FILE, or from standard input if none is named or if it is -; ./- is the file of that name. The "
    "answer is written once the whole input was read and checked; nothing is written if it is rejected.",
    "A fault's line has its kind, what was being read and what is wrong, with lines and columns from 1. check, norm, diff, and "
    "fmt with --check, show the source line too, with a caret under the place.",
    "A path that diff shows has the document's number first, then the keys and items: [0].service.ports[1]. Numbers count from 0; a "
    "key that is a plain word is written after a dot, any other scalar between [\" and \"], and a key that is no scalar as its "
    "pair's number: <key 2>, <value 2>.",
    "Where files are checked, a folder means all *.yaml and *.yml below it, in the order of the bytes of their paths: .git is "
    "skipped, and links to folders aren't followed. A GLOB with a / is matched with paths below the named folder, any other with "
    "names. ? is any character except /, * any number of these, ** any number of any characters, **/ any folders or none, [a-z] one "
    "of these characters, [!a-z] any other one, and \\ makes the next character literal.",
    "With check --unique-keys a mapping that has the same key twice is rejected. Keys are the same if they agree in kind, tag, text and "
    "content; a scalar without a tag is a string, an alias counts as its node, whose place is shown, and a plain << may be repeated.",
    "Comments are dropped: no output has any. norm --write leaves a file with comments alone, unless --drop-comments is given.",
    "If pretty form was asked for and wouldn't read back with the same content, canonical form is written, and a line on "
    "standard error says so.",
]


def program():
    if "PROGRAM" in os.environ:
        return os.environ["PROGRAM"]
    is_built = subprocess.run([f"{TOOLS}/is_built.sh"]).returncode == 0
    return f"{TOP}/crates/{NAME}/out/{NAME}" if is_built else None


def help_of(path, *words):
    return subprocess.run([path, *words, "--help"], check=True, capture_output=True, text=True).stdout


def sections(text):
    """The parts of a help text by their titles; the first is the one without."""
    found, title = collections.defaultdict(list), ""
    for line in text.split("\n"):
        if re.fullmatch(r"[A-Z][a-z]+:", line):
            title = line[:-1]
        elif line.startswith("Usage: "):
            found["Usage"].append(line[len("Usage: ") :])
        elif line.strip():
            found[title].append(line.strip())
    return found


def option_of(line):
    words, text = re.split(r"  +", line, maxsplit=1)
    default = re.fullmatch(r"(.*) \[default: (.*)\]", text)
    short, long = re.search(r"(?:^|\s)(-\w)\b", words), re.search(r"--([\w-]+)", words)
    value = re.search(r"<(\w+)>", words)
    told = default[1] if default else text
    return Option(short and short[1], f"--{long[1]}", value and value[1], told, default and default[2])


def command_of(name, text):
    parts = sections(text)
    arguments = [Argument(*re.split(r"  +", line, maxsplit=1)) for line in parts["Arguments"]]
    options, statuses = [option_of(it) for it in parts["Options"]], [re.split(r"  +", it, maxsplit=1) for it in parts["Status"]]
    return Command(name, parts[""][0], parts["Usage"][0], arguments, options, parts["Example"] + parts["Examples"], statuses)


def commands_of(path):
    """What the program does, and its commands."""
    parts = sections(help_of(path))
    names = [re.split(r"  +", line, maxsplit=1) for line in parts["Commands"]]
    return parts[""][0], [command_of(name, help_of(path, name)) for name, _ in names if name != "help"]


def values_of(option):
    """The words that an option takes, where its text lists them: `..: a, b or c`."""
    listed = re.search(r": (\w+(?:, \w+)* or \w+)$", option.text) if option.value else None
    return re.split(r", | or ", listed[1]) if listed else []


def is_file(option):
    """Whether its value is a file's name."""
    return option.value == "LIST"


def roff(text):
    escaped = text.replace("\\", "\\e").replace("-", "\\-").replace("'", "\\(aq")
    return f"\\&{escaped}" if escaped.startswith(".") else escaped


def man_option(option):
    names = ", ".join(f"\\fB{roff(it)}\\fR" for it in (option.short, option.long) if it)
    value = f" \\fI{option.value}\\fR" if option.value else ""
    default = f" [default: {roff(option.default)}]" if option.default else ""
    return [".TP", names + value, f"{roff(option.text)}.{default}"]


def man_usage(usage):
    """A usage line, with its placeholders in italics."""
    return re.sub(r"[A-Z]{1,}\b", lambda it: f"\\fI{it[0]}\\fR", roff(usage))


def version_of(path):
    """The program's name and version, without what it follows."""
    return subprocess.run([path, "--version"], check=True, capture_output=True, text=True).stdout.split(" (")[0]


def newest_change():
    """The version of the first heading of CHANGELOG.md, as the program prints it."""
    with open(f"{TOP}/CHANGELOG.md", encoding="utf-8") as file:
        version = re.search(r"^## (\S+)", file.read(), re.MULTILINE)[1]
        return f"{NAME} {version}"


def version_of_python():
    """The version that the package for Python states, with the program's name."""
    with open(f"{TOP}/bindings/python/yaml_c/_version.py", encoding="utf-8") as file:
        stated = re.search(r'^VERSION = "(.+)"$', file.read(), re.MULTILINE)
    return f"{NAME} {stated[1]}"


def man_page(about, commands):
    lines = [f'.TH {NAME.upper()} 1 "" "{newest_change()}" "User Commands"', ".SH NAME", f"{NAME} \\- {roff(about[0].lower() + about[1:])}"]
    lines.append(".SH SYNOPSIS")
    for it in commands:
        lines += [man_usage(it.usage), ".br"]
    lines[-1:] = [".SH DESCRIPTION"]
    for it in NOTES:
        lines += [".PP", roff(it)]
    lines.append(".SH COMMANDS")
    for it in commands:
        lines += [f".SS {man_usage(it.usage)}", f"{roff(it.about)}."]
        for argument in it.arguments:
            lines += [".TP", f"\\fI{roff(argument.name.strip('[]<>.'))}\\fR", f"{roff(argument.text)}."]
        for option in it.options:
            lines += man_option(option)
        for number, text in it.statuses:
            lines += [".TP", f"Status \\fB{number}\\fR", f"{roff(text)}."]
        if it.examples:
            lines += [".PP", ".nf", *[f"    {roff(example)}" for example in it.examples], ".fi"]
    return "\n".join([f'.\\" Written by tools/help.py from the program\'s own help.', *lines]) + "\n"


def words_of(command):
    return [name for it in command.options for name in (it.short, it.long) if name]


def bash(_, commands):
    names = " ".join([*[it.name for it in commands], "help"])
    options = "".join(f"        {it.name}) options='{' '.join(words_of(it))}' ;;\n" for it in commands)
    valued = {o.long: values_of(o) for it in commands for o in it.options if values_of(o)}
    values = "".join(f"        {long}) words='{' '.join(found)}' ;;\n" for long, found in valued.items())
    free = {o.long for it in commands for o in it.options if o.value and not values_of(o) and not is_file(o)}
    numbers = "|".join(sorted(free))
    return f"""# bash completion for {NAME}: source this file. Written by tools/help.py from the program's own help.
_{NAME}() {{
    local now=${{COMP_WORDS[COMP_CWORD]}} before=${{COMP_WORDS[COMP_CWORD - 1]}} options='' words=''
    COMPREPLY=()
    if [ "$COMP_CWORD" -eq 1 ]; then
        COMPREPLY=($(compgen -W '{names} -h --help -V --version' -- "$now"))
        return
    fi
    # a value after a = is a word of its own
    if [ "$before" = = ]; then before=${{COMP_WORDS[COMP_CWORD - 2]}}; fi
    if [ "$now" = = ]; then before=${{COMP_WORDS[COMP_CWORD - 1]}} now=''; fi
    case $before in
{values}        {numbers}) return ;;
    esac
    if [ -n "$words" ]; then
        COMPREPLY=($(compgen -W "$words" -- "$now"))
        return
    fi
    case ${{COMP_WORDS[1]}} in
{options}        help) COMPREPLY=($(compgen -W '{names}' -- "$now")); return ;;
        *) return ;;
    esac
    case $now in
        -*) COMPREPLY=($(compgen -W "$options" -- "$now")) ;;
        *) compopt -o filenames 2>/dev/null; mapfile -t COMPREPLY < <(compgen -f -- "$now") ;;
    esac
}}
complete -F _{NAME} {NAME}
"""


def quoted(text):
    """A text between single quotes, in a shell's words."""
    return text.replace("'", "'\\''")


def zsh_option(option):
    names = [it for it in (option.short, option.long) if it]
    text = quoted(option.text.replace("[", "\\[").replace("]", "\\]").replace(":", "\\:"))
    values = f"({' '.join(values_of(option))})" if values_of(option) else "_files" if is_file(option) else " "
    value = f":{option.value}:{values}" if option.value else ""
    equals = "=" if option.value else ""
    if len(names) == 1:
        return [f"'{names[0]}{equals}[{text}]{value}'"]
    both = " ".join(names)
    return [f"'({both}){it}{'=' if option.value and it.startswith('--') else ''}[{text}]{value}'" for it in names]


def zsh_command(command):
    rows = [row for it in command.options for row in zsh_option(it)]
    for at, argument in enumerate(command.arguments, 1):
        colons = "::" if argument.name.startswith("[") else ":"
        place = "*:" if argument.name.endswith("...") else f"{at}{colons}"
        rows.append(f"'{place}{quoted(argument.text)}:_files'")
    listed = " \\\n                ".join(rows)
    return f"            {command.name})\n            _arguments -s -S \\\n                {listed} ;;\n"


def zsh(_, commands):
    listed = "".join(f"        '{it.name}:{quoted(it.about)}'\n" for it in commands)
    names = " ".join(it.name for it in commands)
    return f"""#compdef {NAME}
# zsh completion for {NAME}: put this file into a folder of $fpath. Written by tools/help.py from the program's own help.
_{NAME}() {{
    local line state
    local -a commands=(
{listed}        'help:Prints the help of a command'
    )
    _arguments -C '(-h --help)'{{-h,--help}}'[Print help]' '(-V --version)'{{-V,--version}}'[Print version]' \\
        '1: :->command' '*:: :->words'
    case $state in
    command) _describe command commands ;;
    words)
        case $line[1] in
{"".join(map(zsh_command, commands))}            help) _values command {names} ;;
        esac ;;
    esac
}}
if [ "$funcstack[1]" = "_{NAME}" ]; then
    _{NAME} "$@"
else
    compdef _{NAME} {NAME}
fi
"""


def fish_text(text):
    """A text between the quotes of fish."""
    return text.replace("\\", "\\\\").replace("'", "\\'")


def fish_option(name, option):
    names = f" -s {option.short[1:]}" if option.short else ""
    value = (" -r -F" if is_file(option) else " -x") if option.value else ""
    values = f" -a '{' '.join(values_of(option))}'" if values_of(option) else ""
    text = fish_text(option.text)
    return f"complete -c {NAME} -n '__fish_seen_subcommand_from {name}'{names} -l {option.long[2:]}{value}{values} -d '{text}'\n"


def fish(_, commands):
    names = " ".join([*[it.name for it in commands], "help"])
    lines = [f"# fish completion for {NAME}. Written by tools/help.py from the program's own help.\n"]
    first = f"complete -c {NAME} -f -n 'not __fish_seen_subcommand_from {names}'"
    for it in commands:
        lines.append(f"{first} -a {it.name} -d '{fish_text(it.about)}'\n")
    lines.append(f"{first} -a help -d 'Prints the help of a command'\n")
    lines.append(f"{first} -s h -l help -d 'Print help'\n")
    lines.append(f"{first} -s V -l version -d 'Print version'\n")
    for it in commands:
        lines += [fish_option(it.name, option) for option in it.options]
        lines.append(f"complete -c {NAME} -n '__fish_seen_subcommand_from {it.name}' -F\n")
    return "".join(lines)


FILES = {
    f"docs/man/{NAME}.1": man_page,
    f"completions/{NAME}.bash": bash,
    f"completions/_{NAME}": zsh,
    f"completions/{NAME}.fish": fish,
}


def main():
    words, path = sys.argv[1:], program()
    if words not in ([], ["--if-built"], ["--check"]):
        print(__doc__.split("\n\n")[1].strip(), file=sys.stderr)
        return 2
    if not path:
        print("help: the program isn't built, so the man page and the completions stay as they are; make program builds it")
        return words != ["--if-built"]
    if version_of(path) != newest_change():
        print(f"help: the program is {version_of(path)}, and CHANGELOG.md begins with {newest_change()}")
        return 1
    if version_of_python() != newest_change():
        print(f"help: bindings/python is {version_of_python()}, and CHANGELOG.md begins with {newest_change()}")
        return 1
    about, commands = commands_of(path)
    differing = []
    for name, made in FILES.items():
        target, text = f"{TOP}/{name}", made(about, commands)
        os.makedirs(os.path.dirname(target), exist_ok=True)
        is_same = os.path.exists(target) and open(target, encoding="utf-8").read() == text
        if not is_same:
            differing.append(name)
            if words != ["--check"]:
                with open(target, "w", encoding="utf-8") as file:
                    file.write(text)
    if words == ["--check"] and differing:
        print(f"help: not what the program's help says: {', '.join(differing)}")
        return 1
    print(f"help: {len(FILES)} files, {len(differing)} changed")
    return 0


if __name__ == "__main__":
    sys.exit(main())
