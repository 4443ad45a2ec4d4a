"""Where the refusal of an edit is looked for: its places.

A place is the folder of a function's proof, or another file of proofs/. An edit within a function has that function's place
alone, since callers see contracts and no edit changes one. An edit of a constant has the places of the functions that name
it, also by another constant. An edit of a definition has every place that rests on its file, by `use` lines and, for a
function, the `ghost use` lines of its source file and of those that it uses. All this is read from the text: where in doubt
a place too many is taken, so that two edits are tried apart. An edit of an enum's numbers has the places of the impls that
turn the enum into another type.
"""

import pathlib
import re

FUNCTION = re.compile(r'^( *)(?:pub(?:\(crate\))? )?(?:extern "C" )?fn (\w+)', re.MULTILINE)
CONSTANT = re.compile(r"^ *(?:pub(?:\(crate\))? )?const (\w+):.*?;$", re.MULTILINE | re.DOTALL)
# An impl, of a trait or of the type alone.
TYPE = re.compile(r"^impl(?:<[^>]*>)? (?:(?:\w+::)*(\w+)(?:<(\w+)>)? for )?(\w+)", re.MULTILINE)
DECLARED = re.compile(r"^(?:pub(?:\(crate\))? )?(?:struct|enum) (\w+)", re.MULTILINE)
ENUM = re.compile(r"^(?:pub(?:\(crate\))? )?enum (\w+) \{.*?^\}", re.MULTILINE | re.DOTALL)
# The cycle of calls that a function is in, by the attributes right above it.
CYCLE = re.compile(r"#\[cycle\((\w+)\)\]\s*(?:#\[[^\n]*\]\s*)*\Z")
MODULE_USED = re.compile(r"\b(\w+)::")
# A module of the crate's specs or proofs, by its whole name, and one that a function's `#[tactic(..)]` names.
IMPORTED = r"^(?:pub |ghost )*use Rattle\.{}\.((?:specs|proofs)(?:\.[^.\s{{;]+)+)"
FOR_TACTICS = re.compile(r"\bcrate::((?:specs|proofs)(?:::\w+)+)::")


def impl_name(found):
    """An impl as rt names it in a function's path: U8FromRefusal is `impl From<Refusal> for u8`."""
    trait, argument, name = found.groups()
    return name if trait is None else "".join(part[0].upper() + part[1:] for part in (name, trait, argument or "") if part)


def module_of(file):
    """The names of a source file's module; the root has none."""
    module = pathlib.PurePath(file).relative_to("src").with_suffix("")
    return [] if module.name in ("lib", "main") else list(module.parts)


class Places:
    def __init__(self, crate):
        """Reads the crate in this folder."""
        self.crate = crate
        self.imported = re.compile(IMPORTED.format(crate.name), re.MULTILINE)
        self.sources = {str(path.relative_to(crate)): path.read_text() for path in crate.glob("src/**/*.rt")}
        # The functions of each place: the source file, the start and the end of each. A name of one of them, as rt prints it.
        self.functions, self.names = {}, {}
        for file, text in self.sources.items():
            for start, end, place, name in self.functions_in(file, text):
                self.functions.setdefault(place, []).append((file, start, end))
                self.names[place] = name
        self.rests_on = self.all_imports()

    def functions_in(self, file, text):
        """The start, the end, the place and the name of each function in a source file. A function ends at the first brace that
        stands as far from the margin as it does. The functions of a cycle of calls have one place."""
        types = [(found.start(), impl_name(found)) for found in TYPE.finditer(text)]
        for found in FUNCTION.finditer(text):
            end = re.compile(rf"^{found[1]}}}", re.MULTILINE).search(text, found.start()).end()
            owner = [name for start, name in types if start < found.start()][-1:] if found[1] else []
            cycle = CYCLE.search(text[: found.start()])
            names = [*module_of(self.home(file, owner)), *owner]
            yield found.start(), end, self.folder(names, found[2], cycle and cycle[1]), "::".join([self.crate.name, *names, found[2]])

    def home(self, file, owner):
        """The source file whose module names a function: the one that declares its type, where an impl stands in another. Of
        several types of that name it is the one that the file imports."""
        declaring = [other for other, text in self.sources.items() if owner and owner[0] in DECLARED.findall(text)]
        if file in declaring:
            return file
        imported = [other for other in declaring if self.imports_type(file, other, owner[0])]
        found = imported or declaring
        return found[0] if len(found) == 1 else file

    def imports_type(self, file, other, name):
        """Whether a source file imports a type of this name from another."""
        return re.search(rf"^use crate::{pathlib.PurePath(other).stem}::[^;]*\b{name}\b", self.sources[file], re.MULTILINE)

    def folder(self, names, function, cycle):
        """A function's place. That of functions which call each other, or themselves, is named after the cycle."""
        parent = pathlib.PurePath("proofs", *names)
        itself = (self.crate / parent / f"+{function}").is_dir() and function
        return str(parent / (f"+{cycle or itself}" if cycle or itself else function))

    def place_of(self, path):
        """The place of a file in proofs/, given by its path from the crate's folder."""
        folders = {str(folder) for folder in pathlib.PurePath(path).parents}
        return next(iter(folders & self.functions.keys()), path)

    def imports(self, text):
        """The places and definition files that the `use` lines of a text name."""
        for name in [*self.imported.findall(text), *FOR_TACTICS.findall(text)]:
            path = name.replace("::", "/").replace(".", "/")
            yield f"{path}.antt" if path.startswith("specs") else self.place_of(f"{path}.antt")

    def all_imports(self):
        """What each definition file and each place names."""
        found = {}
        for path in sorted([*self.crate.glob("specs/**/*.antt"), *self.crate.glob("proofs/**/*.antt")]):
            file = str(path.relative_to(self.crate))
            found.setdefault(self.place_of(file), set()).update(self.imports(path.read_text()))
        for place, parts in self.functions.items():
            for used in {used for file, _, _ in parts for used in self.files_used(file)}:
                found.setdefault(place, set()).update(self.imports(self.sources[used]))
        return found

    def files_used(self, file):
        """A source file and those that it uses, also by another: the root, and the modules that it names, each with those
        below it."""
        found, left = set(), {file}
        while left:
            found |= left
            named = {module for file in left for module in MODULE_USED.findall(self.sources[file])}
            left = {file for file in self.sources if not module_of(file) or module_of(file)[0] in named} - found
        return found

    def resting_on(self, file):
        """The places that rest on a definition file, also by another."""
        found, left = set(), {file}
        while left:
            found |= left
            left = {place for place, names in self.rests_on.items() if names & left} - found
        return {place for place in found if place.startswith("proofs")}

    def naming(self, constant):
        """The places of the functions that name a constant, also by another constant."""
        names, word = {constant}, re.compile(r"\w+")
        constants = [(found[1], set(word.findall(found[0]))) for text in self.sources.values() for found in CONSTANT.finditer(text)]
        while more := {name for name, words in constants if words & names} - names:
            names |= more
        for place, parts in self.functions.items():
            if any(names & set(word.findall(self.sources[file][start:end])) for file, start, end in parts):
                yield place

    def turning(self, enum):
        """The places of the functions that turn an enum into another type."""
        return {place for place in self.functions if f"From{enum}" in pathlib.PurePath(place).parts[-2]}

    def of_source(self, file, old):
        """The places of a text of a source file; none where it is in no function, no constant and no enum."""
        text = self.sources[file]
        at = text.find(old)
        functions = [(place, part) for place, parts in self.functions.items() for part in parts]
        inside = {place for place, (other, start, end) in functions if other == file and start <= at < end}
        if inside:
            return inside
        enums = [found[1] for found in ENUM.finditer(text) if found.start() <= at < found.end()]
        constants = [found[1] for found in CONSTANT.finditer(text) if found.start() < at + len(old) and at < found.end()]
        return set().union(*map(self.naming, constants), *map(self.turning, enums))

    def of_code(self, edit):
        """The places of what an edit that fits the crate changes in source files."""
        return set().union(*(self.of_source(file, old) for file, old, _ in edit.replacements() if file.startswith("src/")))

    def of_edit(self, edit):
        """The places of an edit that fits the crate."""
        return self.of_code(edit).union(*(self.resting_on(file) for file, _, _ in edit.replacements() if not file.startswith("src/")))
