"""What the output of a check shows of each edit that was in it: whether a fact failed in one of the edit's own places."""

import os
import re
import typing

REFUSED = "refused"
# What a check shows of an edit that is not refused in it.
PROVED = "proved"
BROKEN = "a file is broken"
MISFIT = "the proof does not fit"
OTHER_GOALS = "other goals than before"
ELSEWHERE = "no error in a place of its own"

# A place, the declaration there and the message, which may go on in lines that begin with blanks.
ERROR = re.compile(r"^(\S+): error[^:]*: (?:`([^`]*)`: )?(.*(?:\n  .*)*)", re.MULTILINE)
FUNCTION_LINE = re.compile(r"^fn .*", re.MULTILINE)
OPEN_GOAL = re.compile(r"^note: (\S+): it is not proved that .*?\(`([^`]*)`\)", re.MULTILINE)
NO_PROOF = re.compile(r"^fn \S+: no proof: expected \S+ in (\S+)/\w+\.antt; `search` did not prove ")

# The declaration names one that was refused: nothing new.
CONSEQUENCE = re.compile(r"was not admitted|was rejected, (?:was|were) not checked")
# The proof speaks of a place or a name that the edited code does not have. That something printed "is not in scope here" is
# only a hint on how to paste it.
UNFIT = re.compile(r"has no field|has no `|that can be named from here|is not in scope(?! here, so)")
# Files and declarations of a function's proof that hold no fact: the loops' invariants and measures, and the list of the facts.
NO_FACT_FILE = "Invariants.antt"
NO_FACT = re.compile(r"Inv-|μ-|.*[-_]spec$")


class Shown(typing.NamedTuple):
    """What a check shows of an edit, and where."""

    what: str
    where: str = ""


def kind(goal):
    """What a goal is of: its name without the places in the code, `returns` of `returns-then-x-y`."""
    return goal.partition("-")[0]


class Check(typing.NamedTuple):
    """A check of a crate: its folder, the exit status and the output."""

    crate: object
    status: int
    output: str

    def errors(self):
        """The path from the crate's folder, the line and column, the declaration and the message of each error that is not
        the consequence of another."""
        for found, declaration, message in ERROR.findall(self.output):
            if not CONSEQUENCE.search(message):
                path, _, column = os.path.normpath(found).partition(":")
                yield path, column, declaration, message

    def open_functions(self):
        """The functions with goals that no file answers and no search proves: the folder from the crate's, and the place and
        the name of each such goal."""
        start = 0
        for line in FUNCTION_LINE.finditer(self.output):
            goals = OPEN_GOAL.findall(self.output[start : line.start()])
            if found := NO_PROOF.match(line[0]):
                yield os.path.normpath(found[1]), goals
            start = line.end()


def shown_of_error(path, column, declaration, message):
    if not path.startswith("proofs/"):
        return Shown(BROKEN, f"{path}:{column}")
    unfit = UNFIT.search(message) or NO_FACT.match(declaration) or path.endswith(NO_FACT_FILE)
    return Shown(MISFIT if unfit else REFUSED, f"{path}:{column}")


def all_shown(check, places, goals):
    """What a check that ended in not-proved shows, with the place of each. The function goals gives the names of what is to be
    proved of the functions of this folder without an edit."""
    for error in check.errors():
        yield places.place_of(error[0]), shown_of_error(*error)
    for folder, found in check.open_functions():
        kinds = {kind(goal) for goal in goals(folder)}
        same = [where for where, goal in found if kind(goal) in kinds]
        yield folder, Shown(REFUSED, same[0]) if same else Shown(OTHER_GOALS, found[0][0] if found else "")


def shown_of_edit(own, strays):
    """What an edit comes to, by what is shown in its own places and in places of no edit."""
    faults = [found for found in [*own, *strays] if found.what != REFUSED]
    if faults or own:
        return (faults or own)[0]
    return Shown(ELSEWHERE, strays[0].where if strays else "")


def judge(check, places, owned, goals):
    """What a check shows of each edit in it; owned has their places, by name. With an error in a place of no edit it cannot
    be told which edit of several it belongs to: none is then refused by this check."""
    if check.status == 0:
        return {name: Shown(PROVED) for name in owned}
    if check.status != 1 or not re.search(r"^logic=not-proved", check.output, re.MULTILINE):
        return {name: Shown(f"no verdict (exit {check.status})") for name in owned}
    shown = list(all_shown(check, places, goals))
    strays = [found for place, found in shown if place not in set().union(*owned.values())]
    if strays and len(owned) > 1:
        return {name: Shown(ELSEWHERE, strays[0].where) for name in owned}
    return {name: shown_of_edit([found for place, found in shown if place in own], strays) for name, own in owned.items()}
