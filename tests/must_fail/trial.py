"""The edits of one crate, tried many in one check over the record of the crate as it is."""

import difflib
import re
import shutil
import tempfile
import threading
import typing

from must_fail.edit import edited
from must_fail.places import Places
from must_fail.trees import Tree
from must_fail.verdict import MISFIT, PROVED, REFUSED, judge


NOT_TRIED = "it replaces nothing, is one of a proof, has an old text that is not there once, or changes what a caller sees"
RENAMED = ", with the edited code's names in the proof"
# A name that rattle makes of a place in the code, `if-x-y` of `if x <= y`.
PLACE_NAME = r"[A-Za-z_]\w*(?:-\w+)+"
# The files of a function that rattle makes with such names; the first has what is to be proved.
MADE = ("AnswersOffered.antt", "Goals.antt", "Lts.antt")


class Generated(typing.NamedTuple):
    """What rattle makes of a function: the names of what is to be proved, and all its names of places in order."""

    goals: list
    names: list


def base(name):
    """A name without the number of a second place of the same text."""
    return re.sub(r"-[2-9]\Z", "", name)


def shape(name):
    """How many parts a name has, and which of them are numbers."""
    return tuple(part.isdigit() for part in name.split("-"))


def pairs(one, other):
    """The names of places in the code and in the edited code that stand for each other: by their order, and of the others, those
    that only one of both has, if there are as many, or as many of one shape."""
    found = {}
    for _, start, end, begin, last in difflib.SequenceMatcher(None, list(map(base, one)), list(map(base, other)), autojunk=False).get_opcodes():
        if end - start == last - begin:
            found.update(zip(one[start:end], other[begin:last]))
    left = [name for name in one if name not in found and name not in other]
    more = [name for name in other if name not in found.values() and name not in one]
    if len(left) == len(more):
        return {**found, **dict(zip(left, more))}
    for form in set(map(shape, left)):
        some, others = ([name for name in names if shape(name) == form] for names in (left, more))
        if len(some) == len(others):
            found.update(zip(some, others))
    return found


def renaming(before, after):
    """The names of places that the edited code has in place of others: each of one that begins alike, as `if-`. A branch has such
    names besides, made where a proof asks for them."""
    found = {}
    for head in {name.partition("-")[0] for name in before}:
        found.update(pairs(*([name for name in dict.fromkeys(names) if name.startswith(f"{head}-")] for names in (before, after))))
    branches = [(old.removeprefix("if-"), new.removeprefix("if-")) for old, new in found.items() if old.startswith("if-")]
    more = {f"{head}-{old}": f"{head}-{new}" for head in ("then", "else", "Then", "Else") for old, new in branches}
    return {**more, **found}


def line(name, shown, seconds=None):
    """What a check shows of an edit, in words."""
    where = f", first at {shown.where}" if shown.where else ""
    return f"{name}: {shown.what}{where}" + ("" if seconds is None else f" ({seconds:.1f} s)")


class Trial:
    """The edits of a crate of root, tried below the folder work, with the checks' outputs in the folder logs."""

    def __init__(self, root, work, logs, name, edits):
        self.root, self.work, self.logs, self.name = root, work, logs / name, name
        self.crate = root / "crates" / name
        self.edits = [edit for edit in edits if edited(self.crate, [edit])]
        self.unfit = [edit for edit in edits if edit not in self.edits]
        self.places = Places(self.crate)
        self.own = {edit: self.places.of_edit(edit) for edit in self.edits}
        # The crate as it is, with its record, and each worker's copy.
        self.tree, self.copies = None, {}
        # What rattle makes of functions as they are.
        self.generated, self.generating = {}, threading.Lock()
        self.faults = []

    def size(self):
        """About how long a check of the crate takes, beside others': the bytes of its definitions and proofs."""
        return sum(path.stat().st_size for part in ("specs", "proofs") for path in (self.crate / part).rglob("*.antt"))

    def say(self, text, fault=False):
        print(f"{self.name}{text}", flush=True)
        if fault:
            self.faults.append(text)

    def start(self):
        """Checks a copy of the crate as it is, which makes the record."""
        shutil.rmtree(self.logs, ignore_errors=True)
        self.logs.mkdir(parents=True)
        self.tree = Tree(self.root, self.work / self.name, self.name)
        self.tree.take_record(self.crate / "out" / "incremental")
        self.try_as_it_is(self.tree)

    def finish(self):
        """Checks the workers' copies as they are, and removes them all."""
        for tree in self.copies.values():
            self.try_as_it_is(tree)
        for tree in [self.tree, *self.copies.values()]:
            shutil.rmtree(tree.folder)

    def check(self, tree, label, texts):
        """A check of a tree with these texts, and the seconds it took; LABEL.log has the output."""
        check, seconds = tree.check_with(texts)
        (self.logs / f"{label}.log").write_text(check.output)
        return check, seconds

    def try_as_it_is(self, tree):
        check, seconds = self.check(tree, "as it is", {})
        proved = check.status == 0
        self.say(f", as it is: {PROVED if proved else 'NOT PROVED'} ({seconds:.1f} s)", fault=not proved)

    def generated_of(self, tree, folder, texts):
        """What rattle makes of the function with this folder, with these texts."""
        with tempfile.TemporaryDirectory(dir=tree.folder) as made:
            tree.check_with(texts, "--start", self.places.names[folder], "--generated", made)
            texts = [path.read_text() for path in (tree.generated(made, folder) / name for name in MADE) if path.is_file()]
            goals = re.findall(r"^pub (\S+) : goal\.", "".join(texts[:1]), re.MULTILINE)
            return Generated(goals, [name for text in texts for name in re.findall(PLACE_NAME, text)])

    def as_it_is(self, folder):
        with self.generating:
            if folder not in self.generated:
                self.generated[folder] = self.generated_of(self.tree, folder, {})
            return self.generated[folder]

    def goals(self, folder):
        """The names of what is to be proved of the function with this folder, as it is."""
        return self.as_it_is(folder).goals if folder in self.places.names else []

    def renamed_proofs(self, tree, edit):
        """The proofs of the functions whose code an edit changes, with its names of places, as far as these are others."""
        texts, found = edited(tree.crate, [edit]), {}
        for folder in sorted(self.places.of_code(edit)):
            files = sorted((tree.crate / folder).glob("*.antt"))
            if files:
                names = renaming(self.as_it_is(folder).names, self.generated_of(tree, folder, texts).names)
                for path in files:
                    text = path.read_text()
                    new = re.sub(rf"(?<![\w-]){PLACE_NAME}", lambda name: names.get(name[0], name[0]), text)
                    if new != text:
                        found[path] = new
        return found

    def judged(self, check, edits):
        return judge(check, self.places, {edit.name: self.own[edit] for edit in edits}, self.goals)

    def groups(self):
        """The edits in as few groups as a greedy choice finds: no two of a group have a place in common. Those with the most
        places come first. Edits that cannot be tried are said."""
        for edit in self.unfit:
            self.say(f"/{edit.name}: {NOT_TRIED}", fault=True)
        groups = []
        for edit in sorted(self.edits, key=lambda edit: -len(self.own[edit])):
            own = self.own[edit]
            for group, taken in groups:
                if own and taken and not own & taken and edited(self.crate, [*group, edit]):
                    group.append(edit)
                    taken |= own
                    break
            else:
                groups.append(([edit], set(own)))
        return [group for group, _ in groups]

    def copy_of(self, worker):
        """A worker's own copy of the crate, with the record of the crate as it is."""
        if worker not in self.copies:
            self.copies[worker] = Tree(self.root, self.work / f"{self.name}-{worker}", self.name)
            self.copies[worker].take_record(self.tree.record)
        return self.copies[worker]

    def shown_by(self, tree, label, edits, proofs):
        """What a check with these edits shows of each, and the seconds it took; proofs holds other texts of proofs, by edit."""
        texts = edited(tree.crate, edits)
        for edit in edits:
            texts.update(proofs.get(edit) or {})
        check, seconds = self.check(tree, label, texts)
        tree.take_record(self.tree.record)
        return self.judged(check, edits), seconds

    def try_alone(self, tree, edit, proofs=None):
        """Tries one edit, and if the proof does not fit, with the edited code's names of places in it: proofs, once they are
        known."""
        shown, seconds = self.shown_by(tree, edit.name, [edit], {edit: proofs})
        if shown[edit.name].what == MISFIT and proofs is None:
            proofs = self.renamed_proofs(tree, edit)
            if proofs:
                return self.try_alone(tree, edit, proofs)
        text = line(edit.name, shown[edit.name], seconds)
        self.say(f"/{text}{RENAMED if proofs else ''}", fault=shown[edit.name].what != REFUSED)

    def try_together(self, tree, edits, proofs={}):
        """Tries edits in one check. Of those that are not refused there, the ones whose proofs do not fit are tried together with
        the edited code's names of places in them: proofs, by edit. The others are tried alone."""
        if len(edits) == 1:
            return self.try_alone(tree, edits[0], proofs.get(edits[0]))
        shown, seconds = self.shown_by(tree, f"{edits[0].name} and {len(edits) - 1} more", edits, proofs)
        lines = [f"\n    {line(edit.name, shown[edit.name])}" for edit in edits]
        self.say(f", {len(edits)} edits in one check ({seconds:.1f} s){RENAMED if proofs else ''}:{''.join(lines)}")
        left = [edit for edit in edits if shown[edit.name].what != REFUSED]
        misfits = [edit for edit in left if shown[edit.name].what == MISFIT and edit not in proofs]
        others = {edit: self.renamed_proofs(tree, edit) for edit in misfits}
        again = [edit for edit in misfits if others[edit]]
        if again:
            self.try_together(tree, again, others)
        for edit in left:
            if edit not in again:
                self.try_alone(tree, edit, proofs.get(edit, others.get(edit)))
