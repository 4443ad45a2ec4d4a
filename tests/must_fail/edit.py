"""Edits of a crate: their format, which is rt's, and the crate's texts with them."""

import pathlib
import re
import typing

FUNCTION = re.compile(r'^ *(?:pub(?:\(crate\))? )?(?:extern "C" )?fn ')
CLAUSE = re.compile(r"^ *(?:requires|ensures|ghost)\b")


class Replacement(typing.NamedTuple):
    """One text of a file in place of another; the file is named from the crate's folder."""

    file: str
    old: str
    new: str


class Edit(typing.NamedTuple):
    path: pathlib.Path

    @property
    def name(self):
        return self.path.stem

    def replacements(self):
        file = old = None
        for line in self.path.read_text().splitlines():
            if line.startswith("file: "):
                file = line[len("file: ") :]
            elif line.startswith("old: "):
                old = line[len("old: ") :]
            elif line.startswith("new:"):
                yield Replacement(file, old, line[len("new:") :].removeprefix(" "))


def headers(text):
    """What a caller sees of the functions of a source file: the lines of each up to the brace that opens its body."""
    found, inside = [], False
    for line in text.splitlines():
        inside = inside or bool(FUNCTION.match(line))
        if inside:
            found.append(line)
        if line.endswith("{") and not CLAUSE.match(line):
            inside = False
    return found


def edited(crate, edits):
    """The texts of the files in the folder crate with the edits, by path, or none where an edit replaces nothing, is one of
    a proof, has an old text that is not there once or would change what a caller sees of a function."""
    texts = {}
    for edit in edits:
        replacements = list(edit.replacements())
        for file, old, new in replacements:
            path = crate / file
            text = texts.get(path) or (path.read_text() if path.is_file() else "")
            if file.startswith("proofs/") or text.count(old) != 1 or headers(text) != headers(text.replace(old, new)):
                return {}
            texts[path] = text.replace(old, new)
        if not replacements:
            return {}
    return texts
