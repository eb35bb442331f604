#!/usr/bin/env python3
"""Replays vectors with each request for memory refused in turn, call by call: the second half of `make faults`.

    tools/faults_calls.py [--near] [WORD..]     the chosen lines whose call or name has one of the words; none: all

It takes the program that replays the vectors where `tools/program.py yaml_cli_vectors` has built it and no source is newer, or
the one that VECTORS names. Else it says so and runs nothing, unless --near is given: then it builds one without proofs
(tools/near.py). JOBS: runs at a time (1). SECONDS: how long new lines are begun (600); every call has its first line before
one has its second. It needs what tools/faults.py needs.

Of crates/yaml_cli_vectors/stdin it chooses, for each call, few lines of at most MOST bytes (without their answers) that
together reach what all such lines do (an answer's form, a fault's kind and layer, UTF-16, anchors, tags, styles, kinds of
events and nodes); and all that make calls one after another, with some calls more behind, which show what state a fault leaves.
Each line is replayed by itself: first as it is, which has to pass and tells how many requests it makes, then with the Nth
refused, for each N.

What is promised, and judged for each run:

    an answer       the line passes: a text isn't kept to be used again, or what was refused is read behind the line's fault
    a layer's       out of memory with nothing else in it, of a layer that the call's contract lists; before it stands a
                    front of what the line has, and behind it a session and a source answer the empty token, a parser the
                    empty event, the end or the document without a root, and both the fault that they keep; an emitter the
                    fault again at each call, and its text stays
    a call's        out of memory of a call that makes an event or adds to a document: the others answer what they answer in a
                    line without that call, among it the whole document, shown
    the line's      `out of memory`: of the line's JSON, of what it writes, of the document or event that it makes for a call
    the program's   status 1 and the error, before there is a line
    not told apart  the answers that a call of the line's own makes of any refusal: see UNTOLD

`main` isn't among the calls: tools/faults.py runs the program itself, and bindings/c/check.c makes each call for C. Whatever
else happens is printed, and the script fails; so it does where a call that has layers was never seen to tell one, where a member
hands out a call that may lack memory and that no row of TELLS has, and, where all lines were run, where none told of a row.
"""
import collections
import glob
import json
import os
import re
import subprocess
import sys
import tempfile
import threading
import time
from concurrent.futures import ThreadPoolExecutor

import faults
import repository as repo

TOOLS = faults.TOOLS
TOP = os.path.dirname(TOOLS)
CRATE = "yaml_cli_vectors"
MOST = 900
# `memory error`, as the line of a fault.
LINE = b"memory error".hex()

SCAN = {"Scanner", "Reader"}
PARSE = SCAN | {"Parser"}
LOAD = PARSE | {"Loader"}
EMIT = {"Emitter", "Writer"}
# The layers that may report out of memory, by the calls' contracts (`Faults.antt` of yaml_scan_types, `Layers.antt` of
# yaml_round_engine); what a line makes of several calls, by all of them.
LAYERS = {
    "decode": SCAN,
    "scan": SCAN,
    "scan_calls": SCAN,
    "next_tokens": SCAN,
    "parse": PARSE,
    "parse_tokens": PARSE,
    "load": LOAD,
    "load_tokens": LOAD,
    "parse_calls": LOAD,
    "loads": LOAD,
    "keys": LOAD,
    "same": PARSE,
    "diff": PARSE,
    "diff_documents": LOAD,
    "differences": LOAD,
    "events": PARSE | {"Emitter"},
    "reformat": PARSE | EMIT,
    "normalize": PARSE | EMIT,
    "reload": LOAD | EMIT,
    "run": LOAD | EMIT,
    "least_limit": LOAD | EMIT,
    "emit": PARSE | EMIT,
    "emit_events": EMIT,
    "emit_calls": EMIT,
    "emit_limits": EMIT,
    "emit_pieces": EMIT,
    "dump": EMIT,
    "read_all": {"Reader"},
    "told": {"Writer"},
    "line": {"Writer"},
}
# What these answer where some call was refused, because memory ran out or for another reason: things that aren't right, the line of
# a fault, which names no layer, a device over memory that failed.
UNTOLD = {
    "check": lambda line, got: set(got["answer"]) == set(line["answer"]) and False in got["answer"].values(),
    "line": lambda line, got: got == {"answer": LINE},
    "run": lambda line, got: got == {"refused": "Write"},
    "read_all": lambda line, got: {**got, "sizes": 0} == {"refused": "Read", "sizes": 0},
}
# These name no layer: `lookup` answers the fault of the load as out of memory of the line.
OTHERS = {"tokens", "lookup", "make_document", "make_events", *UNTOLD} - {*LAYERS}
# These make a call again for each limit, or for each size of pieces, so that the shortest line is enough.
AGAIN = {"least_limit", "emit_limits", "emit_pieces"}
# The members' calls that may lack memory: which call of a line reports it, and of a line of calls
# one after another which word.
TELLS = {
    "yaml_decode": "decode",
    "yaml_parser_scan": "scan_calls scan",
    "yaml_parser_peek": "scan_calls peek",
    "yaml_token_source_t::next_token": "next_tokens scan",
    "yaml_adapter_t::next_token": "next_tokens scan",
    "yaml_alias_event_initialize": "make_events ALIAS",
    "yaml_scalar_event_initialize": "make_events SCALAR",
    "yaml_sequence_start_event_initialize": "make_events SEQUENCE-START",
    "yaml_mapping_start_event_initialize": "make_events MAPPING-START",
    "yaml_document_start_event_initialize": "make_events DOCUMENT-START",
    "yaml_document_initialize": "make_document",
    "yaml_document_add_scalar": "make_document scalar",
    "yaml_node_text_t::copied": "make_document scalar",
    "yaml_document_add_sequence": "make_document sequence",
    "yaml_document_add_mapping": "make_document mapping",
    "yaml_document_append_sequence_item": "make_document item",
    "yaml_document_append_mapping_pair": "make_document pair",
    "yaml_parser_parse": "parse_calls parse",
    "yaml_parser_parse_into": "parse_calls into",
    "yaml_parser_load": "parse_calls load",
    "TokenParser::parse_into": "events",
    "TokenParser::load": "loads",
    "yaml_emitter_open": "emit_calls open",
    "yaml_emitter_close": "emit_calls close",
    "yaml_emitter_emit": "emit_calls emit",
    "yaml_emitter_emit_ref": "emit",
    "EventRef::copied": "parse_calls parse",
    "yaml_emitter_flush": "emit",
    "yaml_emitter_dump": "emit_calls dump",
    "yaml_emitter_resume": "emit_pieces",
    "yaml_fault_line": "told",
    "yaml_read_all": "read_all",
    "yaml_run": "run",
    "yaml_events": "events",
    "yaml_check": "loads",
    "yaml_check_keys": "keys",
    "yaml_same": "same",
    "yaml_diff": "diff",
    "yaml_diff_documents": "diff_documents",
    "yaml_differences": "differences",
    "yaml_reformat": "reformat",
    "yaml_normalize": "normalize",
    "yaml_reload": "reload",
}
# These answer a Result and ask for no memory: what begins with nothing held, and devices with what writes to one.
ASKS_NONE = {
    "yaml_parser_initialize",
    "yaml_emitter_initialize",
    "yaml_write_all",
    "yaml_input_t::get",
    "yaml_output_t::put",
    "yaml_output_t::finish",
    "yaml_std_input_t::get",
    "yaml_std_output_t::put",
    "yaml_std_output_t::finish",
}
# What an input has where one of these is in it.
MARKS = "&*!%|>\"'[{#"

# The calls that are put after those of a line.
BEHIND = {
    "scan_calls": ["fault", "scan", "peek", "has", "skip", "fault"],
    "parse_calls": ["prefix", "parse", "into", "between", "load", "prefix"],
    "emit_calls": [["flush"], ["opened"], ["turn"], ["output"], ["flush"], ["output"]],
}
# What a line makes whose calls or events are each refused by that word, and the field that lists them.
MADE, MEMORY = {"make_document": "calls", "make_events": "events"}, "memory"
ZERO = [0, 0, 0]
NO_TOKEN, NO_EVENT = ["NO", ZERO, ZERO], ["", ZERO, ZERO]
NO_DOCUMENT = {"version": None, "directives": [], "start_implicit": False, "end_implicit": False, "start_mark": ZERO}
NO_DOCUMENT |= {"end_mark": ZERO, "nodes": []}
# What a call answers after a fault, where that isn't the fault.
LEFT = {
    "scan_calls": {"scan": NO_TOKEN, "peek": NO_TOKEN, "has": False, "skip": False},
    "parse_calls": {"parse": NO_EVENT, "into": "end", "load": NO_DOCUMENT, "between": True},
}
Vector = collections.namedtuple("Vector", "number call name line")


def bytes_of(given):
    """An input: digits, or pieces of them, each with how often it is repeated."""
    if isinstance(given, list):
        return b"".join(bytes.fromhex(text) * times for text, times in given)
    return bytes.fromhex(given)


def reaches(line):
    """What a line reaches, beside its call."""
    fault, text = line.get("fault"), bytes_of(line.get("input", ""))
    found = {(name, str(line[name])) for name in ("form", "side", "refused", "of", "command") if name in line}
    found |= {name for name in ("answer", "fault_line", "call_number", "tokens") if name in line}
    found |= {mark for mark in MARKS if mark.encode() in text}
    found |= {(name, line["settings"][name]) for name in ("encoding", "canonical") if "settings" in line}
    found |= {(event[0], str(event[-1])) for event in line.get("events", [])}
    found |= {(node[0], str(node[-1])) for node in line.get("document", {}).get("nodes", [])}
    if fault:
        found.add((fault["kind"], fault["origin"]))
    if line.get("from", "").startswith("utf16") or text[:2] in (b"\xff\xfe", b"\xfe\xff"):
        found.add("UTF-16")
    return found


def covering(vectors):
    """Few of these lines that reach what all do: each time the one that adds most, of these the longest."""
    rest, reached = {it.number: (reaches(it.line), size_of(it), it) for it in vectors}, set()
    while rest:
        reach, _, best = max(rest.values(), key=lambda it: (len(it[0] - reached), it[1], it[2].number))
        if reach <= reached:
            return
        reached |= reach
        yield best
        del rest[best.number]


def size_of(vector):
    """A line's bytes without its answer, and those of an input that it writes in pieces."""
    given, asked = vector.line.get("input", ""), {**vector.line, "answer": None}
    return len(json.dumps(asked)) + (2 * len(bytes_of(given)) if isinstance(given, list) else 0)


def chosen(lines):
    """The lines that are run: of each call the first comes before another's second."""
    by_call = collections.defaultdict(list)
    for number, text in enumerate(lines, 1):
        line = json.loads(text)
        if line["call"] != "main":
            by_call[line["call"]].append(Vector(number, line["call"], line.get("name", f"line {number}"), line))
    rows = []
    for call, vectors in by_call.items():
        short = [it for it in vectors if size_of(it) <= MOST] or [min(vectors, key=size_of)]
        rows.append(short if call in {*BEHIND, *MADE} else [min(short, key=size_of)] if call in AGAIN else list(covering(short)))
    return [row[at] for at in range(max(map(len, rows))) for row in rows if at < len(row)]


def said(run):
    """What a run says of its line: '' where it passes, else what is reported; None where it isn't of that form."""
    first, _, rest = run.output.decode("utf-8", "replace").partition("\n")
    if run.status == 0 and (first, rest) == ("1 passed, 0 failed", ""):
        return ""
    if run.status == 0 and first.startswith("line 1: ") and rest == "0 passed, 1 failed\n":
        return first[len("line 1: ") :]
    return None


def answered(text, call):
    """The object that was answered, where another was wanted, or nothing."""
    name, middle, got = (text or "").partition(" is another in ")
    return json.loads(got) if middle and name.strip("`").isidentifier() else None


def is_memory(fault, call):
    whole = {"problem": "out of memory", "context": None, "kind": 1, "offset": 0, "value": 0}
    whole |= {"problem_mark": ZERO, "context_mark": ZERO}
    return isinstance(fault, dict) and fault == {**whole, "origin": fault.get("origin")} and fault["origin"] in LAYERS[call]


def is_front(got, whole):
    """Of two lists, or two texts."""
    return type(got) is type(whole) and got == whole[: len(got)]


def words_of(line):
    """What each of a line's calls is."""
    if line["call"] == "next_tokens":
        return ["scan"] * line["calls"]
    return [it[0] if isinstance(it, list) else it for it in line["calls"]]


def is_emitter_left(words, fault, got, whole):
    """Whether calls of an emitter after a fault answer it, and show a text that stays and is a front of the line's."""
    shown = {}
    for word, it, usual in zip(words, got, whole):
        if word in ("opened", "output"):
            is_right = it == shown.setdefault(word, it) and (word == "opened" or is_front(it, usual))
        else:
            is_right = it == (True if word == "front" else fault)
        if not is_right:
            return False
    return True


def is_left(call, words, fault, got, whole):
    """Whether calls after a fault show the state that it leaves."""
    if call == "emit_calls":
        return is_emitter_left(words, fault, got, whole)
    left = LEFT["scan_calls" if call == "next_tokens" else call]
    return all(it == left.get(word, fault) for word, it in zip(words, got))


def judge_calls(vector, got):
    """Of a line of calls one after another: a front of its answers, a fault, and what that leaves."""
    whole, words, got = vector.line["answer"], words_of(vector.line), got["answer"]
    at = next((at for at, it in enumerate(got) if is_memory(it, vector.call)), len(got))
    if len(got) != len(whole) or at == len(got) or got[:at] != whole[:at]:
        return None, ""
    behind = slice(at + 1, None)
    is_right = is_left(vector.call, words[behind], got[at], got[behind], whole[behind])
    return got[at] if is_right else None, f"{vector.call} {word_at(words, at)}"


def word_at(words, at):
    """The word of a call; a turn opens the stream, and the next one closes it."""
    return ["open", "close"][words[:at].count("turn") % 2] if words[at] == "turn" else words[at]


def judge_made(vector, got, without):
    """Of a line that makes a document or events: which call is refused, where all others answer what they do without it."""
    got = got["answer"]
    at = got.index(MEMORY) if MEMORY in got else len(got)
    if vector.call == "make_document" and got == [MEMORY]:
        return vector.call
    if at == len(got) or got[:at] != vector.line["answer"][:at] or got[at + 1 :] != without(vector, at)[at:]:
        return ""
    return f"{vector.call} {vector.line[MADE[vector.call]][at][0]}"


def judge_events(vector, got):
    """Of events that are given to an emitter: a front of its text, and of what flushes showed."""
    line, fault = vector.line, got.get("fault")
    text, flushed = line.get("answer", line.get("output")), got["flushed"]
    # the flush that met it shows what there was
    is_last = not flushed or flushed[-1] in line["flushed"] or len(flushed[-1]) == 2
    is_shown = is_last and is_front(flushed[:-1], line["flushed"])
    is_told = set(got) == {"flushed", "fault", "output"} and (text is None or is_front(got["output"], text))
    return fault if is_shown and is_told else None, vector.call


def judge_fault(vector, got):
    """Of a fault alone, with the side that it was met on, the line that reports it, and a front of a list."""
    line, rest = vector.line, dict(got)
    fault, front, told, side = (rest.pop(it, None) for it in ("fault", "answer", "fault_line", "side"))
    # the second input's comes only where the first is accepted
    sides = [None]
    if vector.call in ("same", "diff", "diff_documents", "differences"):
        # of contents both are read before the first one's documents are loaded
        first_alone = line.get("side") == "First" and line.get("documents", True)
        sides = ["First"] if first_alone else ["First", "Second"]
    is_listed = front is None or vector.call in ("scan", "load", "load_tokens") and is_front(front, line["answer"])
    return fault if not rest and is_listed and told in (None, LINE) and side in sides else None, vector.call


def judge_answer(vector, got, without):
    """What was answered in a line's place, and the call that reported it; None where it isn't as promised."""
    call = vector.call
    if call in UNTOLD and UNTOLD[call](vector.line, got):
        return "not told apart", call
    if call in MADE:
        word = judge_made(vector, got, without)
        return "a call's" if word else None, word
    judges = {"emit_events": judge_events, "next_tokens": judge_calls, **dict.fromkeys(BEHIND, judge_calls)}
    fault, word = judges.get(call, judge_fault)(vector, got) if call in LAYERS else (None, "")
    return f"a layer's, {fault['origin']}" if fault and is_memory(fault, call) else None, word


def judge(vector, run, without):
    """What a run with a request refused came to, None where it isn't as promised; and the call that reported it, where one did."""
    text, call = said(run), vector.call
    if run.status == 1 and not run.output and run.errors == b"Error: Kind(OutOfMemory)\n":
        return "the program's", ""
    if run.hits != 1 or text is None or run.errors:
        return None, ""
    if text == "":
        return "an answer", ""
    if text == "out of memory":
        return "the line's", ""
    # the line of a fault that was answered
    if text == "refused: out of memory" and "fault_line" in vector.line:
        return "a layer's, Writer", "told"
    got = answered(text, call)
    return (None, "") if got is None else judge_answer(vector, got, without)


class Replay:
    """The program, each line in a folder of its own."""

    def __init__(self, folder, program):
        self.bench = faults.Bench(folder, program)
        self.shorter = {}
        # a folder is there whole before another run looks for it
        self.placing = threading.Lock()

    def run(self, vector, at=0):
        """A run of a line with the request of that number refused; of 0, with none."""
        case = faults.Case(vector.name, [], json.dumps(vector.line).encode() + b"\n")
        place = f"{self.bench.folder}/{vector.number}"
        with self.placing:
            if not os.path.isdir(place):
                self.bench.place(vector.number, case)
        return self.bench.run(place, case, faults.Wrong("memory", "fail", at, 1) if at else None)

    def extended(self, vector):
        """The line with more calls after its own, and what these answer with nothing refused."""
        line, call = dict(vector.line), vector.call
        if call not in BEHIND and call != "next_tokens":
            return vector
        own = line["answer"]
        line["calls"] += 3 if call == "next_tokens" else BEHIND[call]
        line["answer"] = []
        got = answered(said(self.run(vector._replace(number=f"{vector.number}-more", line=line))), call)
        if not got or not is_front(own, got["answer"]) or len(got["answer"]) != len(words_of(line)):
            raise SystemExit(f"faults: {call}, {vector.name}: with more calls behind its own: {got}")
        return vector._replace(line={**line, **got})

    def without(self, vector, at):
        """What the line answers without the call of that number, with nothing refused."""
        number, name = f"{vector.number}-{at}", MADE[vector.call]
        if number not in self.shorter:
            calls = vector.line[name]
            line = {**vector.line, name: calls[:at] + calls[at + 1 :], "answer": None}
            self.shorter[number] = answered(said(self.run(vector._replace(number=number, line=line))), vector.call)["answer"]
        return self.shorter[number]

    def usual(self, vector):
        """How many requests a line makes, which passes with none refused."""
        run, again = self.run(vector), self.run(vector)
        if run != again or said(run) != "":
            raise SystemExit(f"faults: {vector.call}, {vector.name}: with nothing refused: {run} and then {again}")
        return run.counts[0]

    def judged(self, vector, at):
        """What a refusal came to, and what is to be said of it where that isn't as promised."""
        try:
            run = self.run(vector, at)
        except subprocess.TimeoutExpired:
            return None, "", f"{vector.call}, {vector.name}, request {at}: no end within {faults.SECONDS} seconds"
        found, word = judge(vector, run, self.without)
        told = f"status {run.status}, output {faults.shown(run.output)}, errors {faults.shown(run.errors)}"
        return found, word, "" if found else f"{vector.call}, {vector.name}, request {at}: {told}"


def without_row():
    """The calls of members that may be refused, by what they answer, pass by reference or note, and that no row has; and the rows
    whose call is gone."""
    public = [it for it in repo.all_functions() if repo.is_public(it)]
    refusing = {it.label for it in public if re.search(r"-> Result<|fault: &mut|NotesMemory", it.head)}
    return sorted(refusing - {*TELLS, *ASKS_NONE}) + sorted({*TELLS, *ASKS_NONE} - {it.label for it in public})


def program(is_near):
    """The program that replays the vectors, or nothing."""
    built = lambda path: subprocess.run([f"{TOOLS}/is_built.sh", path]).returncode == 0
    proved, near = f"{TOP}/crates/{CRATE}/out/{CRATE}", f"{TOP}/out/near/{CRATE}"
    if "VECTORS" in os.environ:
        return os.environ["VECTORS"]
    if built(proved):
        return proved
    if not is_near:
        print(f"faults: call by call: not run, since {CRATE} isn't built or a source is newer: tools/program.py {CRATE} builds it")
        return None
    if not built(near) and subprocess.run([f"{TOOLS}/near.py", "--crate", CRATE]).returncode:
        raise SystemExit(2)
    print(f"faults: call by call, by a program that isn't proved: {os.path.relpath(near)}")
    return near


def replayed(replay, pool, vectors, total, told):
    """Runs the lines until time is up: how many were run, and what isn't as promised."""
    until, wrong = time.monotonic() + float(os.environ.get("SECONDS", "600")), []
    for number, vector in enumerate(vectors, 1):
        if time.monotonic() > until:
            return number - 1, wrong
        vector = replay.extended(vector)
        found = collections.Counter()
        for end, word, text in pool.map(lambda at: replay.judged(vector, at), range(1, replay.usual(vector) + 1)):
            found[end or "NOT AS PROMISED"] += 1
            told.add(word)
            if text:
                wrong.append(text)
                print(text, flush=True)
        total[vector.call].update(found)
        ends = ", ".join(f"{count} {end}" for end, count in sorted(found.items()))
        print(f"{number}/{len(vectors)} {vector.call}, {vector.name}: {sum(found.values())} requests: {ends}", flush=True)
    return len(vectors), wrong


def main():
    words = [it for it in sys.argv[1:] if it != "--near"]
    path = program("--near" in sys.argv[1:])
    if path is None:
        return False
    with open(f"{TOP}/crates/{CRATE}/stdin", encoding="utf-8") as file:
        vectors = chosen(file)
    unknown = {it.call for it in vectors} - {*LAYERS, *OTHERS}
    if unknown:
        raise SystemExit(f"faults: which layers may report out of memory isn't said in LAYERS: {', '.join(sorted(unknown))}")
    if without_row():
        raise SystemExit(f"faults: of TELLS, which says which line tells of a call, these lack, or are gone: {', '.join(without_row())}")
    vectors = [it for it in vectors if not words or any(word in f"{it.call}, {it.name}" for word in words)]
    total, told = collections.defaultdict(collections.Counter), set()
    calls = {it.call for it in vectors}
    with tempfile.TemporaryDirectory(prefix="faults-") as folder, ThreadPoolExecutor(int(os.environ.get("JOBS", "1"))) as pool:
        count, wrong = replayed(Replay(folder, path), pool, vectors, total, told)
    for end, number in sorted(sum(total.values(), collections.Counter()).items()):
        print(f"{number:8} {end}")
    silent = sorted(it for it in calls & {*LAYERS} if not any("layer" in end for end in total.get(it, ())))
    if silent:
        print(f"faults: no layer was seen to report out of memory: {', '.join(silent)}")
    unseen = [] if words or count < len(vectors) else sorted(it for it, line in TELLS.items() if line not in told)
    if unseen:
        print(f"faults: no run saw these report out of memory: {', '.join(unseen)}")
    if count < len(vectors):
        print(f"faults: {len(vectors) - count} lines weren't run, since SECONDS were over")
    runs = sum(map(sum, (it.values() for it in total.values())))
    print(f"faults: call by call: {len(total)} calls, {count} lines, {runs} runs, {len(wrong)} not as promised")
    return bool(wrong or silent or unseen)


if __name__ == "__main__":
    sys.exit(main())
