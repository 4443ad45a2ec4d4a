#!/usr/bin/env python3
"""Brings the repository's own definitions, lemmas, fields and constructors to today's spelling, once.

usage: python3 tools/respell.py        at the top of the repository
       python3 tools/respell.py --map  prints old and new names and changes nothing

A word in camel case goes to snake case. A dash goes to an underscore, but stays where it joins two names: of definitions of
specs/, or words of the library. Names of functions of src/ and of the library stay. Texts of must-fail edits, README.md and
docs/ follow. Names that would fall together get the endings that CLASH says.
"""

import collections
import pathlib
import re
import sys

ROOT = pathlib.Path(__file__).resolve().parent.parent if len(sys.argv) < 3 else pathlib.Path(sys.argv[2])
WORD = re.compile(r"[A-Za-zα-ωΑ-Ωℕ_][A-Za-z0-9α-ωΑ-Ω_'′₀-₉ℕ→-]*")
CAMEL = re.compile(r"^_?[a-z][a-z0-9]*(?:[A-Z]|[a-z0-9]*[A-Z])")
DECLARED = re.compile(r"^(?:\s*)(?:(?:pub|abbrev|unfoldable|private)\s+)*([^\s(){}:;,.]+)(?:\s+:|(?:\s+[^\s(){}:;,.]+)*\s+:)(?=\s|$)")
# words of the library that lemmas are named by
LIBRARY = set("length take drop append map set get_or replicate add mul sub div mod pow lt le ltb leb eqb and or not min max zero suc cons nil xor cond".split())
# names that one spelling would make one. A lemma with a dash beside a definition in camel case ends in _lem by itself.
CLASH = {
    "not-whole": "not_whole",
    "read-block": "read_block",
    "sync-block": "reads_sync",
    # fields, and the number of a refusal, beside a definition
    "loop-time": "loop_time",
    "same-verdict": "same_verdict",
    "read-tint": "read_tint",
    "write-tint": "write_tint",
    "open-sender": "open_sender",
    "open-receiver": "open_receiver",
    "build-block": "build_block",
    "unlessRefused": "outcomes_unless_refused",
    "xor-bits-assoc": "xor_bit_assoc",
    "xor-bits-comm": "xor_bit_comm",
    "xor-bits-none": "xor_bit_none",
    "xor-bits-self": "xor_bit_self",
    "low_digit": "low_digit_lem",
    "no_ones": "no_ones_lem",
    "one_more": "one_more_lem",
    "same_bits": "same_bits_lem",
    "sent_word": "sent_word_lem",
    "at_last": "at_last_lem",
}
# names of one file alone, not of a field
LOCAL = {
    "crates/line/proofs/Pieces/Reception.antt": {"in_step": "when_in_step"},
    "crates/line_c/proofs/receiver_calls/order_line_receive/Proof.antt": {"with_array": "with_array_in_state"},
}


def snake(word):
    word = re.sub(r"([a-z0-9])([A-Z])", lambda m: m[1] + "_" + m[2].lower(), word)
    return word


def code(line):
    """A line of antt without its comment, and the comment."""
    at = re.search(r"(?:^|\s)--(?=\s|$)", line)
    return (line, "") if not at else (line[: at.start()], line[at.start():])


def antt_files():
    for path in sorted(ROOT.glob("crates/*/*/**/*.antt")):
        if "out" not in path.relative_to(ROOT).parts[:3]:
            yield path


def library_names(path):
    """Names that a file's imports bring from elsewhere than this repository's crates."""
    crates = "|".join(p.name for p in (ROOT / "crates").iterdir())
    own = re.compile(rf"^Rattle\.(?:{crates})\.")
    for m in re.finditer(r"^(?:ghost )?use ([^\s{]+?)\.?\{([^}]*)\}", path.read_text(), re.M):
        if not own.match(m[1]):
            for name in m[2].split(","):
                yield from name.replace(" as ", " ").split()


def declared(path):
    """Names that a file declares: at the margin, as fields and constructors, and as bound variables."""
    text = path.read_text()
    proof = path.name == "Proof.antt"
    for line in text.splitlines():
        line = code(line)[0]
        if line.startswith("use ") or not line.strip():
            continue
        m = re.match(r"^\s*(?:(?:pub|abbrev|unfoldable)\s+)*((?:[^\s(){}:;,.]+\s+)+):(?=\s|$)", line)
        if m and not (proof and re.search(r":\s+tie\.|statement", line)):
            yield from m[1].split()
        m = re.match(r"^\s*(?:pub\s+)?(?:record|data|abbrev pub|abbrev)\s+([^\s(){}:;,.]+)", line)
        if m:
            yield m[1]
        for m in re.finditer(r"[({]([^(){}:;,]+?)\s:(?=\s|$)", line):
            yield from m[1].split()
        for m in re.finditer(r"λ ([^(){}.]+)\.", line):
            yield from m[1].split()
        for m in re.finditer(r"\blet ([^\s(){}:=]+)(?= (?::|=))", line):
            yield m[1]


def own_names():
    names, library = set(), set()
    for path in antt_files():
        library.update(library_names(path))
        names.update(declared(path))
    for path in ROOT.glob("crates/*/src/**/*.rt"):
        library.update(library_names(path))
    return names - library, library


def specs_words():
    """Names of definitions of specs/ with no dash: what a dash may join."""
    for path in antt_files():
        if "specs" in path.parts:
            for m in re.finditer(r"^(?:abbrev pub|unfoldable pub|pub) ([a-z][A-Za-z0-9_']*)\s+:", path.read_text(), re.M):
                yield snake(m[1])


def respelled(names, words):
    joinable = set(words) | LIBRARY
    for name in sorted(names):
        if not re.match(r"[A-Za-z_]", name):
            continue
        new = snake(name) if CAMEL.match(name) or ("-" in name and re.search(r"[a-z0-9][A-Z]", name)) else name
        if "-" in new and not new.startswith("-"):
            parts = [p for p in new.split("-")]
            out = parts[0]
            for left, right in zip(parts, parts[1:]):
                both = out.split("-")[-1] in joinable and right in joinable
                out += ("-" if both else "_") + right
            new = out
        new = CLASH.get(name, new)
        if new != name:
            yield name, new


def turn(text, table):
    return WORD.sub(lambda m: table.get(m[0], m[0]), text)


def turn_local(text, table):
    return re.sub(r"(?<![.\w'-])(%s)(?![\w'-])" % "|".join(table), lambda m: table[m[0]], text) if table else text


def without_clashes(table):
    """The table with _lem on each name with a dash that a name in camel case has too."""
    camel = {new for old, new in table.items() if "-" not in old}
    return {old: new + "_lem" if "-" in old and old not in CLASH and new in camel else new for old, new in table.items()}


def turn_antt(text, table):
    camel = {old: new for old, new in table.items() if "-" not in old}
    out = []
    for line in text.splitlines(keepends=True):
        before, comment = code(line)
        comment = turn(comment, camel)
        comment = re.sub(r"`[^`]*`", lambda m: turn(m[0], table), comment)
        out.append(turn(before, table) + comment)
    return "".join(out)


def turn_rt(text, table):
    """Of a .rt file the ghost lines and the clauses; elsewhere words in camel case alone."""
    camel = {old: new for old, new in table.items() if "-" not in old}
    out, depth = [], 0
    for line in text.splitlines(keepends=True):
        ghost = depth > 0 or re.match(r"\s*(ghost|ensures|requires|pub ghost)\b", line)
        out.append(turn(line, table if ghost and "//" not in line else camel))
        if ghost:
            depth += line.count("{") - line.count("}")
            depth = max(depth, 0)
    return "".join(out)


def turn_page(text, table):
    return re.sub(r"`[^`\n]*`", lambda m: turn(m[0], table), text)


def turn_edit(text, table):
    out, antt = [], False
    for line in text.splitlines(keepends=True):
        m = re.match(r"(file|old|new|why|#)?:? ?", line)
        if line.startswith("file:"):
            antt = line.strip().endswith(".antt")
        elif line.startswith(("old:", "new:")):
            head, rest = line[:4], line[4:]
            line = head + (turn_antt(rest, table) if antt else turn_rt(rest, table))
        else:
            line = turn_page(line, table)
        out.append(line)
    return "".join(out)


def main():
    names, library = own_names()
    table = dict(respelled(names, set(specs_words())))
    table = without_clashes({old: new for old, new in table.items() if old not in library})
    taken = collections.defaultdict(list)
    for old, new in table.items():
        taken[new].append(old)
    faults = [(new, olds) for new, olds in taken.items() if len(olds) > 1]
    faults += [(new, olds + [new]) for new, olds in taken.items() if new in names | library]
    if "--map" in sys.argv:
        for old, new in sorted(table.items()):
            print(old, new)
        for new, olds in faults:
            print("FALLS TOGETHER:", new, "<-", *olds)
        return 0
    for path in antt_files():
        local = LOCAL.get(str(path.relative_to(ROOT)), {})
        more = {"under-alarm": "under_alarm"} if path.name == "BitsUsed.antt" else {}
        path.write_text(turn_antt(turn_local(path.read_text(), local), {**table, **more}))
    for path in sorted(ROOT.glob("crates/*/src/**/*.rt")):
        path.write_text(turn_rt(path.read_text(), table))
    for path in sorted(ROOT.glob("crates/*/must-fail/**/*.edit")):
        path.write_text(turn_edit(path.read_text(), table))
    for path in [ROOT / "README.md", *sorted(ROOT.glob("docs/*.md"))]:
        path.write_text(turn_page(path.read_text(), table))
    return 0


if __name__ == "__main__":
    raise SystemExit(main())
