"""Holds the header, the wrappers, the carried calls and the crates against each other, by reading the files: every constant,
every call's arguments, every refusal's sentence. Then each of these is changed in turn, in memory, and must be told."""

import functools
import pathlib
import re
import sys

ROOT = pathlib.Path(__file__).resolve().parent.parent.parent
HEADER = "include/figures.h"
RUST, ANSWERS, RAW = (f"bindings/rust/src/{name}.rs" for name in ("lib", "answers", "raw"))
PYTHON = "bindings/python/figures.py"
CARRY = "bindings/carry/carry.c"
CALLS = tuple(f"crates/figures_c/src/{name}.rt" for name in ("forward", "backward", "widest", "office"))
REPLY = "crates/figures_c/src/reply.rt"
REPLIES = "crates/figures_c/specs/Reply.antt"
REFUSAL = "crates/day/src/refusal.rt"
TABLE = "crates/rules/specs/Table.antt"


def macro(name):
    return HEADER, rf"^#define FIGURES_{name} (?:UINT32_C\()?(\d+)\b"


def rust(name, file=RUST):
    return file, rf"^(?:pub )?const {name}: \w+ = ([\d_]+|u32::MAX);"


def python(name):
    return PYTHON, rf"^{name} = (\d+)\b"


def code(crate, file, name):
    return f"crates/{crate}/src/{file}.rt", rf"^ *(?:pub )?const {name}: \w+ = (?:Reading\()?(\d+)\)?;"


def spec(file, name, crate="rules"):
    return f"crates/{crate}/specs/{file}.antt", rf"^{name} = (\d+)\b"


# Each constant, and every place where it stands: a file, and a pattern that finds the number there.
CONSTANTS = {
    "numbers of a reply": (macro("REPLY"), (RAW, r"Reply = \[u32; (\d+)\]"), python("_REPLY"), (REPLY, r"-> \[u32; (\d+)\]"))
    + tuple((file, r"reply: &mut \[u32; (\d+)\]") for file in CALLS),
    "refused": (macro("REFUSED"), rust("REFUSED", ANSWERS), python("_REFUSED"), code("figures_c", "reply", "REFUSED"))
    + ((REPLIES, r"^refused_reply \w+ \w+ = (\d+) ∷"),),
    "an answer": (macro("ANSWER"), rust("ANSWER", ANSWERS), python("_ANSWER"), code("figures_c", "reply", "ANSWER"))
    + ((REPLIES, r"^(?:done_reply|rows_reply|\w+ \((?:Some|answer\.Value)) .* = (\d+) ∷"),),
    "none": (macro("NONE"), python("_NONE"), code("figures_c", "reply", "NONE"))
    + ((REPLIES, r"^\w+ (?:None|\(answer\.Nothing .*\)) = (\d+) ∷"),),
    "numbers of a row": (macro("ROW"), rust("ROW"), python("ROW"))
    + (code("day", "row", "ROW_WIDTH"), spec("Day", "row_width")),
    "rows": (macro("MOST_ROWS"), rust("MOST_ROWS"), python("MOST_ROWS"))
    + (code("day", "row", "MOST_ROWS"), spec("Day", "most_rows")),
    "stops": (macro("MOST_STOPS"), rust("MOST_STOPS"), python("MOST_STOPS"))
    + (code("figures", "checks", "MOST_STOPS"), spec("Day", "most_stops")),
    "pivots": (macro("MOST_PIVOTS"), rust("MOST_PIVOTS"), python("MOST_PIVOTS"))
    + (code("figures", "pivots", "MOST_PIVOTS"), spec("Pivots", "most_pivots")),
    "the horizon": (macro("HORIZON"), rust("HORIZON"), python("HORIZON"))
    + (code("clock", "lib", "HORIZON"), spec("Clock", "horizon")),
    "scratch": (macro("SCRATCH"), rust("SCRATCH"), python("_SCRATCH"))
    + (code("figures", "checks", "SCRATCH"), spec("Lent", "scratch_places")),
    "unreached": (macro("UNREACHED"), rust("UNREACHED"), python("_UNREACHED"))
    + (code("passes", "forward", "UNREACHED"), spec("Routes", "in_numbers unreached"), spec("Forward", "nowhere", "passes")),
    "bytes of stack": (macro("STACK"), rust("STACK")),
    "the last client": (code("day", "row", "LAST_CLIENT"), spec("Day", "last_client")),
    "the number of a row's fault": ((REFUSAL, r"^ +Refusal::Row \{ \.\. \} => (\d+),"), spec("Table", "row_fault"))
    + (spec("Refusals", r"number_of \(refusal\.Row place\)", "day"),),
    "the greatest number": (macro("UNREACHED"), python("_MOST")),
}

# A constant that stands in no place above is a finding, so that a new one is not forgotten.
NAMES = {
    HEADER: r"^#define (FIGURES_\w+) .*\d",
    RUST: r"^(?:pub )?const (\w+)",
    ANSWERS: r"^(?:pub )?const (\w+)",
    PYTHON: r"^([A-Z_]+) = \d",
}

# The sentence of each refusal, and the constant that it names.
SENTENCES = {
    HEADER: r"^ \* +(\d+)      (\S.*?)  +\S.*$",
    ANSWERS: r"^ +(\d+) => \"(.*)\",$",
    PYTHON: r"^ +(\d+): \"(.*)\",$",
}
NAMED = {
    1: "numbers of a row",
    2: "rows",
    3: "stops",
    4: "the last client",
    5: "the horizon",
    8: "pivots",
    10: "scratch",
    11: "the last client",
}


def number(text):
    return 4294967295 if text == "u32::MAX" else int(text.replace("_", ""))


@functools.lru_cache(maxsize=None)
def matched(pattern, text):
    return list(re.finditer(pattern, text, re.MULTILINE))


def matches(texts, file, pattern):
    return matched(pattern, texts[file])


def constant_findings(texts):
    for what, places in CONSTANTS.items():
        said = {(file, number(found[1])) for file, pattern in places for found in matches(texts, file, pattern)}
        for file, pattern in places:
            if not matches(texts, file, pattern):
                yield f"{what}: not in {file}"
        if len({value for _, value in said}) > 1:
            yield f"{what}: " + ", ".join(f"{value} in {file}" for file, value in sorted(said))


def name_findings(texts):
    for file, pattern in NAMES.items():
        rules = [rule for places in CONSTANTS.values() for at, rule in places if at == file]
        held = {found.start() for rule in rules for found in matches(texts, file, rule)}
        for found in matches(texts, file, pattern):
            if found.start() not in held:
                yield f"{found[1]} in {file} is held against nothing"


def refusals(texts, file):
    return {int(found[1]): found[2] for found in matches(texts, file, SENTENCES[file])}


def sentence_findings(texts):
    given = {int(found[1]) for found in matches(texts, TABLE, r"(?:when|check_at_first|number =|^row_fault =) (\d+)")}
    for file in SENTENCES:
        if set(refusals(texts, file)) != given:
            yield f"the numbers of {file} are {sorted(refusals(texts, file))}, those of {TABLE} {sorted(given)}"
        for k, what in NAMED.items():
            for found in matches(texts, *CONSTANTS[what][-1]):
                named = f"{number(found[1]):,}"
                if not re.search(rf"(?<![\d,]){named}(?![\d,])", refusals(texts, file).get(k, "")):
                    yield f"the sentence of {k} in {file} does not name {named}"
    if refusals(texts, ANSWERS) != refusals(texts, PYTHON):
        yield f"{ANSWERS} and {PYTHON} have different sentences"


KINDS = {
    "const uint32_t *": "read",
    "uint32_t *": "written",
    "size_t ": "length",
    "uint32_t ": "number",
    "*const u32": "read",
    "*mut u32": "written",
    "*mut Reply": "reply",
    "usize": "length",
    "u32": "number",
    "&[u32]": "read",
    "&mut [u32]": "written",
}


def c_calls(text):
    """Of each call its arguments, each a name and a kind."""
    for call, inside in re.findall(r"^void (figures_\w+)\(([^)]*)\)", text, re.MULTILINE):
        words = [" ".join(word.split()) for word in inside.split(",")]
        parts = [re.fullmatch(r"(.*?)(\w+)(\[FIGURES_REPLY\])?", word).groups() for word in words]
        yield call, [(name, "reply" if reply else KINDS.get(kind)) for kind, name, reply in parts]


def rust_calls(text):
    for call, inside in re.findall(r"^ +pub fn (figures_\w+)\(([^)]*)\)", text, re.MULTILINE):
        yield call, [(name, KINDS.get(kind)) for name, kind in re.findall(r"(\w+): ([^,]+?)(?:,|\s*$)", inside)]


def crate_calls(text):
    """A slice is a pointer and a length."""
    for call, inside in re.findall(r"^pub extern \"C\" fn (figures_\w+)\(([^)]*)\)", text, re.MULTILINE):
        arguments = []
        for name, kind in re.findall(r"(\w+): (&mut \[u32; \d+\]|[^,]+?)(?:,|\s*$)", inside):
            arguments.append((name, "reply" if ";" in kind else KINDS.get(kind)))
            if kind.endswith("[u32]"):
                arguments.append((f"{name}_len", "length"))
        yield call, arguments


READERS = {HEADER: c_calls, CARRY: c_calls, RAW: rust_calls}


def call_findings(texts):
    wanted = dict(call for file in CALLS for call in crate_calls(texts[file]))
    if len(wanted) != 8:
        yield f"the crates export {len(wanted)} calls"
    for file, reader in READERS.items():
        calls = dict(reader(texts[file]))
        for call in sorted(set(wanted) | set(calls)):
            if wanted.get(call) != calls.get(call):
                yield f"{call} in {file} has {calls.get(call)}, in the crates {wanted.get(call)}"


def findings(texts):
    for check in constant_findings, name_findings, sentence_findings, call_findings:
        yield from check(texts)


def changed(texts, file, start, end, new):
    return {**texts, file: texts[file][:start] + new + texts[file][end:]}


def changes(texts):
    """Every constant one greater, every refusal without its number or its constant, every argument's name and type lost."""
    for what, places in CONSTANTS.items():
        for file, pattern in places:
            for found in matches(texts, file, pattern):
                yield f"{what} in {file}", changed(texts, file, *found.span(1), str(number(found[1]) + 1))
    for file, pattern in SENTENCES.items():
        for found in matches(texts, file, pattern):
            yield f"the number {found[1]} in {file}", changed(texts, file, *found.span(1), "99")
            if int(found[1]) in NAMED:
                yield f"the sentence of {found[1]} in {file}", changed(texts, file, *found.span(2), "one of 7")
    for file in (*READERS, *CALLS):
        for call in matches(texts, file, r"(?:void|fn) (figures_\w+)\([^)]*\)"):
            for found in re.finditer(r"\w+(?=: |[,)]|\[FIGURES_REPLY\])", call[0]):
                start, end = (call.start() + place for place in found.span())
                yield f"{found[0]} of {call[1]} in {file}", changed(texts, file, start, end, "other")


def main():
    files = {file for places in CONSTANTS.values() for file, _ in places} | {HEADER, ANSWERS, CARRY, TABLE, *CALLS}
    texts = {file: (ROOT / file).read_text(encoding="utf-8") for file in files}
    tried = list(changes(texts))
    found = list(findings(texts))
    if not found:
        found = [f"nothing tells a change of {what}" for what, after in tried if next(findings(after), None) is None]
    for finding in found:
        print(f"interface: {finding}", file=sys.stderr)
    if not found:
        print(f"the header, the wrappers and the crates agree, and each of {len(tried)} changes is told")
    return 1 if found else 0


if __name__ == "__main__":
    sys.exit(main())
