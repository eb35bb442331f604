"""What the scripts of this folder read of the repository: crates, functions with their contracts, definitions of specs/,
and which definition a name means. Plain text is all that is looked at; nothing is proved here."""
import functools
import glob
import os
import re

TOP = os.path.dirname(os.path.dirname(os.path.abspath(__file__)))
MEMBERS = ("yaml_scan", "yaml_parse", "yaml_emit", "yaml_round")
NAME = r"[A-Za-z_][A-Za-z0-9_']*"
PATH = re.compile(rf"{NAME}(?:\.{NAME})*")


def read(path):
    with open(f"{TOP}/{path}", encoding="utf-8") as file:
        return file.read()


@functools.lru_cache(maxsize=None)
def crates():
    """By crates.txt, in its order: what is under each crate."""
    found = {}
    for line in read("crates.txt").split("\n"):
        name, colon, below = line.partition("#")[0].partition(":")
        if colon:
            found[name.split()[0]] = below.split()
    return found


def below(crate):
    """The repository's crates that a crate uses, the nearest first."""
    found, todo = [], [crate]
    while todo:
        new = [it for it in crates()[todo.pop(0)] if it in crates() and it not in found]
        found += new
        todo += new
    return found


# ---- definitions


class Definition:
    """One definition of specs/, or a type of the code that the specs name."""

    def __init__(self, crate, path, line, name, text, constructors=()):
        self.crate, self.path, self.line, self.name = crate, path, line, name
        self.text, self.constructors = text, constructors
        self.uses = []

    def __str__(self):
        return f"{self.path}:{self.line}"


class Module:
    """One file of specs/: its definitions, and what its `use` lines bring in."""

    def __init__(self, crate, path):
        self.crate, self.path = crate, path
        self.definitions, self.constructors = {}, {}
        self.imports, self.below = {}, {}


MODS = r"(?:(?:pub|abbrev|unfoldable|opaque)\s+)*"
HEADER = re.compile(rf"^ *{MODS}(?:record|data)\s+(\S+)")
SIGNATURE = re.compile(rf"^ *{MODS}(\S+) :(?:\s|$)")
MUTUAL = re.compile(rf"^{MODS}mutual\s*$")
USE = re.compile(r"^\s*(?:unfoldable |pub |ghost )*use\s+(.*)$", re.S)


def bare(line):
    """A line without its comment."""
    return re.sub(r"(?:^|(?<=\s))--.*", "", line)


def items(text):
    """Yields the items of a file of specs/: number of its first line, its lines, and whether it is in a group."""
    lines, number, base = text.split("\n"), 0, 0
    found, comment = [], []
    for number, line in enumerate(lines, 1):
        plain = bare(line)
        depth = len(line) - len(line.lstrip())
        if MUTUAL.match(plain):
            base, comment = 2, []
            continue
        if not plain.strip():
            comment = comment + [line] if line.strip() else []
            continue
        if depth == 0:
            base = 0
        if depth == base and begins(plain):
            found.append((number, comment + [line]))
        elif found:
            found[-1][1].extend(comment + [line])
        comment = []
    return found


def begins(line):
    return bool(HEADER.match(line) or SIGNATURE.match(line) or re.match(r"(?:(?:unfoldable )?pub )?(?:use|mod|infix[lr]?)\b", line))


def imports_of(text):
    """What a `use` item brings in: (name, path) pairs, and the path that is taken whole under its own last name."""
    path = " ".join(USE.match(text)[1].rstrip(";").split())
    if "{" in path:
        head, _, names = path.partition("{")
        pairs = [it.split(" as ") for it in names.rstrip("}; ").split(",") if it.strip()]
        return [(it[-1].strip(), f"{head.rstrip('.')}.{it[0].strip()}") for it in pairs]
    whole, _, name = path.partition(" as ")
    return [(name.strip() or whole.rpartition(".")[2], whole.strip())]


@functools.lru_cache(maxsize=None)
def module(path):
    """The module of a file of specs/."""
    crate = path.split("/")[1]
    made = Module(crate, path)
    for number, lines in items(read(path)):
        at = next(i for i, it in enumerate(lines) if bare(it).strip())
        text, code = "\n".join(lines), "\n".join(bare(it) for it in lines)
        head = bare(lines[at])
        if re.match(r"(?:pub )?mod\s", head):
            made.below[head.split()[-1]] = f"crates/{crate}/specs/{head.split()[-1]}.antt"
        elif USE.match(head):
            made.imports.update(imports_of(code.strip()))
        elif not head.startswith("infix"):
            keep(made, number, text, code, head)
    return made


def keep(made, number, text, code, head):
    """Notes a definition, and of a `data` its constructors."""
    is_type = HEADER.match(head)
    name = (is_type or SIGNATURE.match(head))[1]
    names = []
    if is_type and re.search(r"\bdata\s", head):
        names = re.findall(rf"^\s+(?:pub )?({NAME}) :", code.partition("\n")[2], re.M)
    made.definitions[name] = Definition(made.crate, made.path, number, name, text, names)
    for it in names:
        made.constructors[it] = made.definitions[name]


# ---- what a name means


def resolve(path):
    """What a whole path means: a Module, a Definition, or None where it leads out of the repository."""
    parts = path.split(".")
    if len(parts) < 3 or parts[0] != "Rattle" or parts[1] not in crates() or parts[2] != "specs":
        return None
    if parts[3:4] == ["declared"]:
        return declared(parts[1], parts[4:])
    return walk(module(f"crates/{parts[1]}/specs/Lib.antt"), parts[3:])


def walk(at, parts):
    """What the rest of a path means below a module."""
    if not parts:
        return at
    first, rest = parts[0], parts[1:]
    if first == "declared":
        return declared(at.crate, rest)
    if first in at.below:
        return walk(module(at.below[first]), rest)
    if first in at.definitions:
        return at.definitions[first]
    if first in at.constructors:
        return at.constructors[first]
    if first in at.imports:
        return resolve(".".join([at.imports[first], *rest]))
    return None


@functools.lru_cache(maxsize=None)
def declared_in(crate):
    """The types that a crate's code declares."""
    found = {}
    for path in sources(crate):
        for number, line in enumerate(read(path).split("\n"), 1):
            item = re.match(rf"\s*(?:pub(?:\([a-z]+\))? )?(?:struct|enum|type) ({NAME})", line)
            if item:
                found.setdefault(item[1], Definition(crate, path, number, item[1], line.strip()))
    return found


def declared(crate, parts):
    """The type of the code that a path below `declared` names."""
    inside = [at for at, it in enumerate(parts) if it in ("TheVariants", "TheInside", "TheConstants")]
    name = ([*parts, ""][: inside[0]] if inside else parts)[-1:]
    for it in [crate, *below(crate)]:
        if name and name[0] in declared_in(it):
            return declared_in(it)[name[0]]
    return None


class Scope:
    """The names that a text may use: a module's own, and those that `use` lines bring in."""

    def __init__(self, imports, own=None):
        self.imports, self.own = imports, own

    def means(self, path):
        """The definition that a dotted name means, if it is one of the repository's."""
        parts = path.split(".")
        if parts[0] == "Rattle":
            return longest(parts)
        if self.own and (parts[0] in self.own.definitions or parts[0] in self.own.constructors):
            return walk(self.own, parts[:1])
        if parts[0] in self.imports:
            return longest([*self.imports[parts[0]].split("."), *parts[1:]])
        return None

    def is_constructor(self, path):
        name, met = path.rpartition(".")[2], self.means(path)
        if not isinstance(met, Definition):
            return path in ("Some", "None", "Ok", "Err", "true", "false", "zero", "suc") or bool(self.imports.get(path))
        return name in met.constructors or ".declared." in self.imports.get(path.partition(".")[0], "")


def longest(parts):
    """What the longest front of a path means that means a definition: what follows is a field."""
    for end in range(len(parts), 2, -1):
        met = resolve(".".join(parts[:end]))
        if isinstance(met, Definition):
            return met
    return None


def symbols(scope):
    """The operators in scope, by what they look like where they are used."""
    own = scope.own.definitions if scope.own else {}
    return {it.strip("◌"): it for it in [*own, *scope.imports] if "◌" in it}


def bound_in(text, scope):
    """The names that a clause binds: by λ, by a type's arguments, and by the patterns on its left side."""
    found = set()
    for words in re.findall(rf"λ\s*\(?({NAME}(?:\s+{NAME})*)\s*[:.]", text):
        found.update(words.split())
    for words in re.findall(rf"[({{]({NAME}(?:\s+{NAME})*)\s*:\s", text):
        found.update(words.split())
    left = re.match(r"^([^=]*?)\s=\s", text, re.S)
    if left and " : " not in left[1]:
        for word in PATH.findall(left[1]):
            if "." not in word and not scope.is_constructor(word):
                found.add(word)
    return found


def clauses(text):
    """The clauses of a definition's text: each line of least indentation begins one."""
    lines = [bare(it) for it in text.split("\n") if bare(it).strip()]
    if not lines:
        return []
    least, found = min(len(it) - len(it.lstrip()) for it in lines), []
    for line in lines:
        if len(line) - len(line.lstrip()) == least or not found:
            found.append(line)
        else:
            found[-1] += "\n" + line
    return found


def is_field(text, match):
    """Whether the word is a field: after a point, set in a record, or declared in one."""
    before, behind = text[: match.start()], text[match.end() :]
    is_set = re.search(r"[{;]\s*$", before) and re.match(r"\s*=\s", behind)
    is_declared = re.search(r"(?:^|\n)\s+(?:pub )?$", before) and re.match(r" :\s", behind)
    return before.endswith(".") or bool(is_set) or bool(is_declared)


def met_in(text, scope, own_name=None):
    """The definitions that a text names."""
    found = {}
    for clause in clauses(text):
        bound = bound_in(clause, scope)
        without = re.sub(r'"[^"]*"', '""', clause)
        for match in PATH.finditer(without):
            word = match[0]
            if is_field(without, match) or word.partition(".")[0] in bound:
                continue
            met = scope.means(word)
            if isinstance(met, Definition) and met.name != own_name:
                found[str(met)] = met
        for sign, name in symbols(scope).items():
            met = scope.means(name)
            if sign in without and isinstance(met, Definition) and met.name != own_name:
                found[str(met)] = met
    return list(found.values())


@functools.lru_cache(maxsize=None)
def used_by(key, path):
    """The definitions that the definition at a line of a file names."""
    made = module(path)
    it = next(it for it in made.definitions.values() if str(it) == key)
    return met_in(it.text, Scope(made.imports, made), it.name)


# ---- code


def sources(crate):
    folder = f"crates/{crate}/src"
    found = glob.glob(f"{TOP}/{folder}/**/*.rt", recursive=True)
    return sorted(os.path.relpath(it, TOP) for it in found)


def blanked(text):
    """The text with comments and strings as spaces, each character at its place."""
    pattern = re.compile(r"//[^\n]*|\"(?:\\.|[^\"\\])*\"|b?'(?:\\.[^']*|[^'\\])'", re.S)
    return pattern.sub(lambda it: re.sub(r"[^\n]", " ", it[0]), text)


def closed(text, at):
    """The place after the bracket that closes the one at `at`."""
    depth = 0
    for place in range(at, len(text)):
        depth += (text[place] == "{") - (text[place] == "}")
        if depth == 0:
            return place + 1
    return len(text)


class Function:
    """A function of the code: where it is, whose it is, its head, its clauses and its body."""

    def __init__(self, crate, path, text, start, name, is_pub, owner, end, body):
        self.crate, self.path, self.name, self.owner = crate, path, name, owner
        self.start, self.end, self.body, self.is_pub = start, end, body, is_pub
        self.line = text.count("\n", 0, start) + 1
        self.head = text[start : body if body is not None else end]

    @property
    def label(self):
        return f"{self.owner.type}::{self.name}" if self.owner and self.owner.type else self.name

    def contract(self):
        """The text of its requires and ensures."""
        found, head = [], self.head
        for match in re.finditer(r"\b(requires|ensures)\b[^{\n]*\{", head):
            found.append(head[match.start() : closed(head, match.end() - 1)])
        return found


class Owner:
    """An impl block or a trait."""

    def __init__(self, head, start, end):
        self.head, self.start, self.end = head, start, end
        self.trait = re.search(rf"\btrait ({NAME})", head)
        words = re.sub(r"<[^<>]*>", "", re.sub(r"<[^<>]*>", "", head))
        match = re.search(rf"\bfor\s+(?:{NAME}::)*({NAME})", words) or re.search(rf"\bimpl\s+(?:{NAME}::)*({NAME})", words)
        self.type = self.trait[1] if self.trait else match[1] if match else None
        self.is_of_trait = bool(re.search(r"\bfor\s", words)) or bool(self.trait)


@functools.lru_cache(maxsize=None)
def functions(path):
    """The functions of a file, in order."""
    crate, text = path.split("/")[1], read(path)
    plain, owners, found = blanked(text), [], []
    for match in re.finditer(r"^ *(?:pub(?:\([a-z]+\))? )?((?:impl|trait)\b[^{;]*)\{", plain, re.M):
        owners.append(Owner(match[1].strip(), match.start(), closed(plain, match.end() - 1)))
    pattern = rf"^( *)((?:pub(?:\([^)]*\))? )?)((?:const |unsafe |extern +)*)fn ({NAME})"
    for match in re.finditer(pattern, plain, re.M):
        own = [it for it in owners if it.start < match.start() < it.end]
        body, end = body_of(plain, match.end(), match[1])
        at = match.start() + len(match[1])
        found.append(Function(crate, path, text, at, match[4], match[2].strip() == "pub", own[-1] if own else None, end, body))
    return found


def body_of(plain, at, indent):
    """Where a function's body begins and ends; without one, its end alone."""
    place, depth = plain.find("(", at), 0
    for place in range(place, len(plain)):
        depth += (plain[place] == "(") - (plain[place] == ")")
        if depth == 0:
            break
    while place < len(plain):
        clause = re.compile(r"\b(?:requires|ensures)\b[^{;\n]*\{").search(plain, place)
        brace, stop = plain.find("{", place), plain.find(";", place)
        if clause and clause.end() - 1 == brace:
            place = closed(plain, brace)
        elif stop >= 0 and (brace < 0 or stop < brace):
            return None, stop
        else:
            return brace, closed(plain, brace)
    return None, len(plain)


@functools.lru_cache(maxsize=None)
def handed_out(crate):
    """The names that a crate's root file hands out."""
    path = f"crates/{crate}/src/lib.rt"
    if not os.path.isfile(f"{TOP}/{path}"):
        return frozenset()
    plain, names = blanked(read(path)), set()
    for words in re.findall(r"\bpub use ([^;]*);", plain):
        inner = words.partition("{")[2].rstrip("} \n") or words.rpartition("::")[2]
        names.update(it.split(" as ")[-1].strip() for it in inner.split(",") if it.strip())
    return frozenset(names)


@functools.lru_cache(maxsize=None)
def public_names():
    """What the members hand out."""
    return frozenset().union(*(handed_out(it) for it in MEMBERS if it in crates()))


def is_public(it):
    """Whether the function is a call that a member hands out, by its name or as a method of a type that it hands out; or an
    export of the library for C."""
    if it.path.endswith(("tests.rt", "main.rt")) or "/tests/" in it.path:
        return False
    if it.owner:
        return it.owner.type in public_names() and (it.is_pub or it.owner.is_of_trait)
    return it.is_pub and (it.name in public_names() or it.head.startswith("pub extern"))


def is_law(it):
    """Whether the function is a law: it takes nothing, does nothing, and its contract is a statement."""
    return it.is_pub and not it.owner and bool(re.search(r"fn \w+\(\)\s+(?://[^\n]*\s+)*ensures", it.head))


class Law:
    """A law that is a named clause of a function of laws, `laws_of_` something, which has one for each."""

    def __init__(self, it, name, clause):
        self.name = self.label = name
        self.crate, self.path, self.start, self.owner, self.is_pub = it.crate, it.path, it.start, None, True
        self.line, self.head, self.clause = it.line + it.head[: clause.start()].count("\n"), "", clause[0]

    def contract(self):
        return [self.clause]


def laws_of(it):
    """The laws of a function: the named clauses of one that is called `laws_of_` something, or itself."""
    is_many = is_law(it) and it.name.startswith("laws_of_")
    named = [(match[1], match) for match in re.finditer(r"\bensures (\w+) (\{[^{}]*\})", it.head)] if is_many else []
    return [Law(it, *found) for found in named] if named else [it]


def all_functions():
    return [it for crate in crates() for path in sources(crate) for it in functions(path)]


def scope_at(it):
    """The names that a function's clauses may use: the ghost imports of its file and of the block round it."""
    text, found = read(it.path), {}
    inside = [other for other in blocks(it.path) if not other[0] < it.start < other[1]]
    for match in re.finditer(r"\bghost use [^;]*;", text):
        if not any(start < match.start() < end for start, end in inside):
            found.update(imports_of(match[0].strip()))
    return Scope(found)


@functools.lru_cache(maxsize=None)
def blocks(path):
    plain = blanked(read(path))
    pattern = re.compile(r"^ *(?:pub )?(?:impl|trait)\b[^{;]*\{", re.M)
    return [(it.start(), closed(plain, it.end() - 1)) for it in pattern.finditer(plain)]


@functools.lru_cache(maxsize=None)
def models():
    """The `impl Model` block of each type that has one, with its file: what clauses see of the type."""
    found = {}
    for crate in crates():
        for path in sources(crate):
            plain = blanked(read(path))
            for match in re.finditer(rf"^impl\b[^{{;]*\bModel for ({NAME})[^{{;]*\{{", plain, re.M):
                block = read(path)[match.start() : closed(plain, match.end() - 1)]
                found.setdefault(match[1], []).append((crate, path, block))
    return found


def model_of(crate, name):
    """The model of a type as a crate sees it: its own, or that of the nearest crate below."""
    known = models().get(name, [])
    order = [crate, *below(crate)]
    known = [it for it in known if it[0] in order]
    return min(known, key=lambda it: order.index(it[0]), default=None)


def met_in_model(crate, name):
    """The definitions that a type's model names."""
    known = model_of(crate, name)
    if not known:
        return []
    imports = {}
    for match in re.finditer(r"\bghost use [^;]*;", known[2]):
        imports.update(imports_of(match[0].strip()))
    text = re.sub(r"\bghost use [^;]*;", "", known[2]).partition("{")[2]
    return met_in(text, Scope(imports))
