#!/usr/bin/env python3
"""Writes docs/EDITS.md: each must-fail edit, the function whose body it changes, and the meaning that it turns; the lines that
refuse what no edit turns; the wrong bodies that come to mind first, and what is implied, by the names of these; and the public
calls that have no edit.

    tools/edits.py             writes the page
    tools/edits.py --check     writes nothing, and fails where the page differs

Both fail where an `old:` text isn't exactly once in its file, where FIRST or IMPLIED names what isn't there, or where the
edits of one function aren't together in the order of their files' names.

An edit's file is EDIT.edit, or FUNCTION.EDIT.edit where its function has several: each is tried over what the check of the one
before it proved, so that a function that was edited is proved again as it is before another one is; edits of one function that
are together spare that. An edit says what it turns in a line `turns: TEXT`; where it has none, its name does. A line of the vectors that is named
in an edit's place says it in a field `turns`.
"""
import collections
import functools
import glob
import json
import os
import re
import sys

import repository as repo

PAGE = "docs/EDITS.md"
LINES = "crates/yaml_cli_vectors/stdin"
HEAD = """# Must-fail edits

Written by `tools/edits.py`; not by hand.

Each line is a change of the code that the prover must refuse (`crates/CRATE/must-fail/EDIT.edit`, or `FUNCTION.EDIT.edit` where a function has several), and the meaning that it turns: were it still proved, the contract would not say that meaning. A call is public where a member exports it, or it is an export for C. 'Helper' marks functions that only a helper crate exports, and 'private' the rest: their edits stand where no public call turns the same meaning.

"""
LINES_HEAD = f"""
## By a line

No clause says these, or no edit turns them: the crate whose clauses do has none, or one, since for a first one it would be proved once more and for a second one twice, or the body is too far below its public call. A line of `{LINES}` refuses each. That out of memory is reported where memory was there is refused by every line that expects an answer: no clause can say that memory is there.

| call | line | the meaning that it turns |
|---|---|---|
"""
FIRST_HEAD = """
## The wrong bodies that come to mind first

What a reader may try to get past the contracts, and what refuses it: an edit, as `CRATE/EDIT`, or a line, as `CALL: LINE`. Where a body would fail several, the nearest to it are named. One that reports out of memory where memory was there passes every clause, and is left to lines.

| the wrong body | refused by |
|---|---|
"""
# Each with the edits, `CRATE/EDIT`, and the lines, `CALL: NAME`, that refuse it; or why none does.
FIRST = [
    ("`,`, `[` and `]` written raw in the suffix of a shorthand", "yaml_emit_core/raw_flow_indicators_in_suffix", "emit_events: spelled tag 6"),
    ("the tag `!` of an empty scalar passed on, by the parser or into the text", "yaml_parse/lone_mark_passed_on", "yaml_round_reading/lone_mark_kept"),
    ("bytes of a tag that aren't UTF-8 left out or replaced", "yaml_round_reading/tag_bytes_replaced"),
    ("tokens of a step that fails handed out", "yaml_scan/failed_steps_token_handed_out", "yaml_scan/tokens_behind_a_fault", "scan: scans: a key without its colon"),
    ("overlong UTF-8 accepted", "yaml_scan_decode/overlong_accepted"),
    ("surrogates accepted", "yaml_scan_decode/surrogate_accepted", "yaml_round_c/offence_hidden", "decode: decoding: faults of UTF-8 10", "yaml_scan_types/printable_surrogate"),
    ("lexemes read ahead of need", "yaml_scan/reads_ahead_of_need"),
    ("a token known where a later text may change it", "yaml_scan/has_token_where_none_is"),
    ("a token that is settled refused, or reported as not known", "yaml_scan/settled_token_refused", "yaml_scan/last_one_unknown"),
    ("a source or a session that refuses again", "yaml_scan/memory_fault_behind_streams_end", "yaml_round_reading/refuses_again"),
    ("a scanner's out of memory reported of the reader, a tag's fault reported as out of memory", "yaml_scan/scanners_memory_told_of_the_reader", "yaml_round_reading/tags_fault_told_as_memory"),
    ("every deep input refused", "yaml_parse/deep_input_refused"),
    ("an undefined handle reported before the fault of the next token", "yaml_parse_states/undefined_handle_before_the_next_fault"),
    ("tokens asked for past STREAM-END, after a fault, or to the end where memory ran out", "yaml_parse_states/asked_past_the_end", "parse_tokens: events of tokens: an empty key in a flow sequence", "yaml_parse_states/token_asked_for_behind_a_fault", "yaml_parse_states/reads_on_where_memory_ran_out"),
    ("out of memory answered after the end, over the first fault", "yaml_parse/memory_fault_behind_the_end"),
    ("directives carried to the next document, by reader and emitter alike", "yaml_parse_states/tags_carried_to_the_next_document", "yaml_emit_core/tags_carried_to_the_next_document", "yaml_parse/version_carried_to_the_next_document", "reformat: fault of the input 6"),
    ("aliases looked up once the document has ended", "yaml_parse/alias_looked_up_late", "load: loads: an alias before its anchor"),
    ("the document without root, which ends the loads, never comes", "yaml_parse/ending_document_never_comes"),
    ("names of anchors kept in a dump", "yaml_round_c/reloaded_as_a_rewriting", "reload: documents 1"),
    ("a shared node written twice", "yaml_emit_graph/shared_node_written_twice"),
    ("the text thrown away after a wrong event that is given in its place", "yaml_emit/refusal_left_out"),
    ("the text lost where an indentation is too deep or memory ran out", "yaml_emit/goes_on_after_a_fault"),
    ("out of memory reported of another layer, or of the other input", "yaml_round/memory_fault_of_the_writer_for_lines", "yaml_round/second_blamed_for_the_firsts_memory"),
    ("pretty text that has the values alone", "yaml_emit/properties_left_out", "reformat: not shaped as JSON 6, an anchor and an alias"),
    ("pretty form asked for, and canonical text always answered", "yaml_round/canonical_unasked"),
    ("another injective printer", "yaml_round/another_injective_printer"),
    ("the input repeated as the answer, or as its normal form", "yaml_round/input_repeated", "yaml_round/own_styles_kept"),
    ("the input's `...` kept in canonical form", "yaml_round_reading/explicit_end_kept"),
    ("a size refused one byte early, or one late", "yaml_round_device/size_refused_one_byte_early", "yaml_round/normal_form_refused_one_byte_early", "yaml_round/size_refused_one_byte_late"),
    ("a flush left out, an empty `put` that fails, reading on past the limit", "yaml_round_device/finish_not_called", "yaml_round_device/empty_put_told_as_failed", "yaml_round_device/byte_past_the_limit"),
    ("for C: a place given to what isn't there, a fault without its line, two fields exchanged", "yaml_round_c/absent_anchor_has_a_place", "yaml_round_c/line_never_told", "yaml_round_c/indent_and_width_exchanged"),
    ("every fault reported as out of memory by a caller", "yaml_cli_lookup/every_fault_told_as_want_of_memory"),
]
IMPLIED_HEAD = """
## What another edit implies

No edit turns these meanings at their own call. As the clauses stand, no body that turns one is proved: the edit that is named is refused only where such a body is too, or the call has the same definition in its clause as the one that is named. The second says nothing of a clause that names another definition some day: whoever separates two such clauses gives the call an edit of its own.

| call | the meaning | implied by | since |
|---|---|---|---|
"""
# The call, the meaning, the edits that imply it, and why they do.
IMPLIED = [
    ("yaml_decode", "in UTF-16LE the low byte of a unit comes first; no byte order mark is removed where an encoding is set", ["yaml_round_c/decoded_as_utf8", "yaml_round_c/mark_removed_with_set_encoding"], "the call for C names the definition that this call's clause names, `decoded_text`, and has the text from it alone: where this call let another text through, so would that one"),
    ("yaml_decode", "an offence's byte is counted with the removed mark", ["yaml_round_c/offence_hidden"], "likewise for the first offence, `decoding_fault`, whose fault is given in each field"),
    ("yaml_parser_scan", "an alias is reported as one", ["yaml_scan/value_ended_by_two_quotes"], "`Takes` says by one equation which token is given: its kind and its texts"),
    ("yaml_adapter_t::next_token", "out of memory is reported of a layer that scans", ["yaml_round_reading/tags_fault_told_as_memory"], "the clause of all sources lets an out-of-memory error of such a layer through, so what refuses it is `Stops`: the fault is as a whole the session's own, or its tag's"),
    ("yaml_diff", "a fault of two inputs that are compared names the input that has it", ["yaml_round/sides_turned"], "`IsDiff` says of a fault what `IsSame` says"),
    ("yaml_diff", "nothing is answered only where the contents are the same", ["yaml_round_c/first_input_compared_with_itself"], "`IsDiff` says of nothing what `IsSame` says of true: `SameContent`"),
    ("yaml_same", "inputs of another content aren't the same", ["yaml_round_c/first_input_compared_with_itself"], "the call for C knows of its answer what `IsSame`, the clause of this call, says of both inputs, and nothing else"),
    ("yaml_check", "an input is read in the encoding that is given", ["yaml_round_c/checked_as_utf8"], "the call for C knows of its answer what `IsChecked`, the clause of this call, says of the encoding, and nothing else"),
    ("yaml_check", "an input that is refused does not load", ["yaml_round/events_alone_checked"], "it accepts some of these"),
    ("yaml_normalize", "the input is not repeated", ["yaml_round/own_styles_kept"], "the pretty text of an input, given in, has the same content and so the same normal form"),
    ("yaml_reformat", "what is answered unasked as canonical form is canonical", ["yaml_round/canonical_unasked"], "no text is, where the input doesn't begin with nothing"),
    ("yaml_reformat", "a tag that isn't UTF-8 is the input's fault", ["yaml_round_reading/tag_bytes_replaced"], "the plain reading is of the adapter's tokens"),
    ("yaml_reformat", "out of memory is reported with nothing else", ["yaml_parse/memory_fault_with_an_offset"], "`memory_fault` is one definition for all calls"),
    ("yaml_read_all", "the same", ["yaml_parse/memory_fault_with_an_offset"], "the same"),
    ("yaml_reload", "the same", ["yaml_parse/memory_fault_with_an_offset"], "the same"),
    ("yaml_parser_load", "the same", ["yaml_parse/memory_fault_with_an_offset"], "the same"),
    ("yaml_parser_parse", "a node's event has its tag, resolved by the document's directives; a scalar with a tag is said to need it", ["yaml_parse/lone_mark_passed_on"], "`EventOf` says the whole event by one equation, so another part that is lost turns the same clause"),
    ("yaml_parser_parse_into", "an event is where its tokens are, whichever way it was made", ["yaml_parse/lone_mark_passed_on"], "`yaml_parser_parse` passes on what it gives and knows nothing else of it, so an event that `Finds` left open would be open in `EventOf` too"),
    ("yaml_parser_parse_into", "what an event leaves of the machine is what the grammar leaves: the events after it come", ["yaml_parse/version_carried_to_the_next_document"], "likewise for what is left: one equation on all later events"),
    ("yaml_parser_parse_into", "a parse gives the next event, at every depth", ["yaml_parse/deep_input_refused"], "`yaml_parser_parse` has the fault that it reports from this call alone: where `Finds` let one through while none is to come, so would `FaultOf`"),
    ("yaml_parser_parse", "a wrong token in a block sequence is reported as such", ["yaml_parse/tokens_fault_told_elsewhere"], "both calls promise `FaultOf`, which says the whole fault by one equation"),
    ("yaml_read_all", "an input is reported as failed only where it has", ["yaml_round/refusal_told_as_a_failed_input"], "`yaml_run` passes its refusal on, and `FailsBy` says of `Read` what `IsReadFault` says"),
    ("yaml_write_all", "a failed finish is a failed write", ["yaml_round_device/finish_not_called"], "an output whose finish failed isn't finished either, which `finished` asks of each answer that is Ok"),
    ("yaml_fault_line", "out of memory names its layer", ["yaml_scan/scanners_memory_told_of_the_reader"], "`memory_fault` is one definition for all calls"),
    ("yaml_run", "the output is finished after a whole answer", ["yaml_round_device/finish_not_called"], "`finished` is the clause of `yaml_write_all`, word for word"),
    ("yaml_emitter_emit", "a fault is reported at the call that lets its event out, and not later", ["yaml_emit/flush_always_right"], "`Answers` is the clause of both calls: after either the answer is Ok only where the emitter has no fault"),
    ("yaml_diff_documents", "each mark of a place of loaded documents is of its own input's event", ["yaml_round/second_mark_for_the_first"], "`TellsOf` is one record for both calls"),
    ("yaml_reformat", "a root with an anchor or a tag isn't nothing, nor one after a `---`, nor that of a later document", ["yaml_round/canonical_unasked"], "canonical form comes unasked only where `begins_with_nothing`, one definition, which names all of these, says so of the input's events"),
    ("yaml_normalize", "a root that would be nothing where the text begins is quoted", ["yaml_round/own_styles_kept"], "the text is `readable_text` of the content, which decides the style of each root"),
    ("yaml_parser_initialize", "a fault's text is the definition's, also where code and machine agree on another", ["yaml_parse/tokens_fault_told_elsewhere"], "the fault to come is said by `FaultOfTokens`, whose texts a law, `rows_of_faults_hold`, has in its own words; a parse that answers another fault than the one to come is refused"),
    ("yaml_parser_initialize", "what is whole when a token comes that is wrong is given before the fault", ["yaml_parse/deep_input_refused"], "the events to come are said by `EventsOfTokens`, whose worked lists a law, `rows_of_events_hold`, has in its own words; a parse that answers a fault where one of them is to come is refused"),
    ("yaml_c_events", "every fault except out of memory comes with its line", ["yaml_round_c/line_never_told"], "`TellsFault`, which says each field of the record, is one definition for all calls"),
    ("yaml_c_emit", "the fault of a rejected event is reported", ["yaml_round_c/undefined_alias_hidden"], "the same: it says the kind, of the fault that the definition names"),
    ("yaml_c_parse", "every event of the input has its record, the first one too", ["yaml_round/events_left_out", "yaml_round_c/last_event_of_a_starved_front_left_out"], "`HasEvents` says of both calls which events an input has, and `SayEvents` of a parse and of a front that each of its events has its record"),
    ("yaml_c_front", "the events before a fault are handed out with it, the last one too", ["yaml_round_c/last_event_of_a_starved_front_left_out"], "`SayFront` lets through with an out-of-memory error all that it lets through with another fault, and beside it only that nothing is handed out"),
    ("yaml_c_scan", "each token before the end or the fault has its record, the last one too", ["yaml_round_c/last_token_of_a_starved_scan_left_out"], "the same of `Scans`"),
    ("yaml_c_front", "the characters before a mark are counted, and not bytes, without the one that begins there; a tag after a node's end is none of it", ["yaml_round_c/absent_anchor_has_a_place"], "`SayEvents` says each record whole, as what `event_counted` makes of one, and the records have these numbers from `characters_before` and `has_tag` of `yaml_round_answers` alone: where one of these let another number through, so would that one"),
    ("yaml_c_parse", "the characters before a fault's marks are counted so", ["yaml_round_c/line_never_told"], "`TellsFaultBy`, which says each field of a fault's record, is one record for all calls; here it has the marks by `mark_counted`, and the code has the numbers from `characters_before` of `yaml_round_answers` alone"),
    ("yaml_emitter_outer", "the collections round the innermost one are returned", ["yaml_round_c/stand_without_its_collections"], "`yaml_c_emit_on` has the collections round the innermost one from this call alone, and `TellsStand` says the checkpoint whole"),
    ("yaml_emitter_directives", "the directives of the document are returned", ["yaml_round_c/stand_without_its_collections"], "`yaml_c_emit_on` has the directives in force from this call alone, and `TellsStand` says the checkpoint whole"),
    ("yaml_event_t::unplaced", "an event that a caller makes has zero marks", ["yaml_parse_model/delete_leaves_an_event"], "`yaml_event_delete` leaves what this call answers, and its clause says by one equation which event that is, marks and all"),
    ("yaml_node_text_t::as_slice", "a short text has all its bytes", ["yaml_round/first_document_left_out"], "`yaml_reload` writes each document by a dump, which has it from this call alone, and `IsReloaded` says which text that is"),
]


class Edit:
    """An edit: its name, the function whose text it changes first, and what it turns."""

    def __init__(self, crate, path):
        self.crate, self.path, self.name = crate, path, os.path.basename(path)[: -len(".edit")].rpartition(".")[2]
        self.turns, file, self.at = "", "", None
        for line in repo.read(path).split("\n"):
            word, _, text = line.partition(": ")
            if word == "turns":
                self.turns = text.strip()
            elif word == "file":
                file = f"crates/{crate}/{text.strip()}"
            elif word == "old" and self.at is None:
                self.at = function_with(file, text)

    @property
    def meaning(self):
        return self.turns or self.name.replace("_", " ")


def unfit(crate, path):
    """What hinders an edit from being put into its crate's text, pair by pair as rt does it, or nothing."""
    texts, file, old = {}, "", ""
    for line in repo.read(path).split("\n"):
        word, _, text = line.partition(": ")
        if word == "file":
            file = f"crates/{crate}/{text.strip()}"
        elif word == "old":
            old = text
        elif word == "new":
            now = texts.get(file) or repo.read(file)
            if now.count(old) != 1:
                return f"{path}: its text is {now.count(old)} times in {file}: {old}"
            texts[file] = now.replace(old, text)
    return "" if texts else f"{path}: it changes nothing"


def scattered(edits):
    """The functions whose edits aren't together, as the gate tries them: by the names of their files."""
    for crate in sorted({it.crate for it in edits}):
        own = sorted((it for it in edits if it.crate == crate and it.at), key=lambda it: os.path.basename(it.path))
        labels = [it.at.label for it in own]
        met = [label for k, label in enumerate(labels) if not k or labels[k - 1] != label]
        for label in sorted({it for it in met if met.count(it) > 1}):
            yield f"{crate}: the edits of {label} aren't together: name each file {label.split('::')[-1]}.EDIT.edit"


def function_with(path, text):
    """The function round a text of a file; the innermost one."""
    place = repo.read(path).find(text)
    round_it = [it for it in repo.functions(path) if it.start <= place < it.end] if place >= 0 else []
    return round_it[-1] if round_it else None


def rank(it):
    """How far a function is seen."""
    if it is None:
        return "private"
    if repo.is_public(it) or it.head.startswith("pub extern"):
        return "public"
    handed = repo.handed_out(it.crate)
    seen = it.owner.type in handed and (it.is_pub or it.owner.is_of_trait) if it.owner else it.is_pub and it.name in handed
    return "helper" if seen else "private"


def all_edits():
    found = []
    for crate in repo.crates():
        for path in sorted(glob.glob(f"{repo.TOP}/crates/{crate}/must-fail/*.edit")):
            found.append(Edit(crate, os.path.relpath(path, repo.TOP)))
    return found


def why_none(it):
    """Why a public call needs no edit of its own, as far as its text shows."""
    if it.owner and it.owner.trait:
        return "a method of a trait: those who implement it have the edits"
    if repo.is_law(it):
        return "a law: its body is empty, and its clause speaks of definitions alone"
    if it.name == "into_inner":
        return "its type leaves no other value to hand back"
    if it.name == "yaml_parser_prefix":
        return "it returns the one place that it has by reference; what is there is turned at the calls that answer faults"
    if it.name == "undefined_alias_fault":
        return "what it answers is turned at `yaml_parser_load`"
    if it.label == "RequestedSettings::new":
        return "what an emitter begins with; `yaml_emitter_initialize` promises it"
    if it.name == "document_is_sound":
        return "a law: its body reads a field for the clause and does nothing"
    if it.name.endswith("_delete") and not it.contract():
        return "it takes what it frees and answers nothing, so that no clause can speak of it"
    if it.contract() and it.label in {call for call, *_ in IMPLIED}:
        return "what another edit implies, as above"
    if it.owner and it.owner.is_of_trait and not it.contract():
        return "its clauses are the trait's; what it answers is turned at the calls that use it"
    return "" if it.contract() else "no clause"


def table(edits):
    order = {"public": 0, "helper": 1, "private": 2}
    rows = []
    for it in edits:
        seen = rank(it.at)
        label = f"`{it.at.label}`" if it.at else "(outside of a function)"
        rows.append((order[seen], label + ("" if seen == "public" else f" ({seen})"), it))
    rows.sort(key=lambda row: (row[0], row[1], row[2].name))
    lines = [f"| {label} | `{it.name}` | {it.meaning.replace('|', chr(92) + '|')} |" for _, label, it in rows]
    return "| function | edit | the meaning that it turns |\n|---|---|---|\n" + "\n".join(lines) + "\n"


def lines_with_turns():
    return [line for line in repo.read(LINES).split("\n") if '"turns":' in line]


def lines_named():
    """The rows of the lines that are named in an edit's place."""
    named = [json.loads(line) for line in lines_with_turns()]
    return "".join(f"| `{it['call']}` | {it['name']} | {it['turns']} |\n" for it in named)


def code(names):
    return ", ".join(f"`{it}`" for it in names)


def first_and_implied(edits):
    """The rows of the wrong bodies that come to mind first, and of what is implied; it ends where they name what isn't there."""
    named = {f"{it.crate}/{it.name}" for it in edits}
    named |= {f"{it['call']}: {it['name']}" for it in map(json.loads, lines_with_turns())}
    asked = [name for _, *names in FIRST for name in names] + [name for _, _, names, _ in IMPLIED for name in names]
    missing = [name for name in asked if name not in named]
    if missing:
        sys.exit("edits: FIRST or IMPLIED names what isn't there: " + ", ".join(missing))
    first = "".join(f"| {body} | {code(names)} |\n" for body, *names in FIRST)
    return FIRST_HEAD + first + IMPLIED_HEAD + "".join(f"| `{call}` | {meaning} | {code(names)} | {why} |\n" for call, meaning, names, why in IMPLIED)


def page():
    edits = all_edits()
    counts = collections.Counter(rank(it.at) for it in edits)
    text = HEAD + f"{len(edits)} edits: {counts['public']} at public calls, {counts['helper']} at functions of helper crates, {counts['private']} at private ones.\n"
    for crate in repo.crates():
        own = [it for it in edits if it.crate == crate]
        if own:
            text += f"\n## `{crate}`\n\n{table(own)}"
    text += LINES_HEAD + lines_named() + first_and_implied(edits)
    turned = {(it.crate, it.at.path, it.at.start) for it in edits if it.at}
    public = [it for it in repo.all_functions() if repo.is_public(it)]
    without = [it for it in public if (it.crate, it.path, it.start) not in turned]
    text += f"\n## Public calls without an edit at the call itself\n\n{len(without)} of {len(public)}.\n\n| crate | call | |\n|---|---|---|\n"
    return text + "".join(f"| `{it.crate}` | `{it.label}` | {why_none(it)} |\n" for it in without)


def main():
    edits = all_edits()
    wrong = [why for why in (unfit(it.crate, it.path) for it in edits) if why] + list(scattered(edits))
    if wrong:
        sys.exit("edits: " + "\nedits: ".join(wrong))
    made = page()
    if "--check" in sys.argv[1:]:
        if made != repo.read(PAGE):
            sys.exit(f"edits: {PAGE} differs: run tools/edits.py")
        return
    with open(f"{repo.TOP}/{PAGE}", "w", encoding="utf-8") as file:
        file.write(made)


if __name__ == "__main__":
    main()
