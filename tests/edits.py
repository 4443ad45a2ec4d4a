#!/usr/bin/env python3
"""Tries the edits in crates/NAME/must-fail/ and crates/NAME/further/: the prover must refuse each because a fact fails.

    edits.py [NAME ...]          many edits in one check
    edits.py --by-rt [NAME ...]  by rt must-fail, a check for each edit; it takes any refusal

NAME is a crate or an edit; without one, all are tried. First docs/CLAIMS.md must name every edit and no other.

Without --by-rt, a crate is checked as it is, over the record that rt check keeps; then with edits, each time over that
same record, so that only what they reach is checked again; and at the end as it is once more. This shows where and why an edit
is refused, which rt must-fail does not judge: a fact must fail in one of the edit's own places (must_fail/places.py). Edits
that have no place in common go into one check. Whatever is not refused there is tried again alone: where its proof only misses
names of the code, with those of the edited code.

The work is done on copies outside the repository; target/edits/CRATE/LABEL.log has a check's output.
"""

import collections
import concurrent.futures
import os
import pathlib
import queue
import re
import shutil
import subprocess
import sys
import tempfile
import time

from must_fail.edit import Edit
from must_fail.trees import copy_crates
from must_fail.trial import Trial

ROOT = pathlib.Path(__file__).resolve().parent.parent
LOGS = ROOT / "target" / "edits"
# What a check may take of the memory, in bytes.
MEMORY = 3_000_000_000


def all_edits():
    """The edits by crate, those that rt ci tries first."""
    found = collections.defaultdict(list)
    for folder in ("must-fail", "further"):
        for path in sorted(ROOT.glob(f"crates/*/{folder}/*.edit")):
            found[path.relative_to(ROOT).parts[1]].append(Edit(path))
    return found


def words_of(*patterns):
    """The words of the crates' files that fit a pattern."""
    return set(re.findall(r"\w+", " ".join(file.read_text() for pattern in patterns for file in ROOT.glob(f"crates/*/{pattern}"))))


def name_faults(edits):
    """What is wrong with the edits' names. A word in backquotes with an underscore in docs/CLAIMS.md names an edit, unless
    it is a word of the sources, the definitions or the proofs."""
    claims = set(re.findall(r"`([a-z0-9]+(?:_[a-z0-9]+)+)`", (ROOT / "docs" / "CLAIMS.md").read_text()))
    sources = words_of("src/**/*.rt")
    words = sources | words_of("specs/**/*.antt", "proofs/**/*.antt")
    names = collections.Counter(edit.name for edit in edits)
    yield from (f"{name}: two edits have this name" for name in names if names[name] > 1)
    yield from (f"{name}: the name of an edit must have an underscore" for name in names if "_" not in name)
    yield from (f"{name}: the name of an edit may not be a word of the sources" for name in names.keys() & sources)
    yield from (f"{name}: docs/CLAIMS.md does not name this edit" for name in sorted(names.keys() - claims))
    yield from (f"{name}: docs/CLAIMS.md names this edit, and there is none" for name in sorted(claims - words - names.keys()))


def processors():
    """How many checks go side by side: one for each processor, if the memory holds them."""
    memory = os.sysconf("SC_PAGE_SIZE") * os.sysconf("SC_PHYS_PAGES")
    return max(1, min(len(os.sched_getaffinity(0)), memory // MEMORY))


def prove(names):
    """Has rt check prove these crates, or all, and build those that they stand on; over what it kept, if it has done so."""
    for folder, words in [(ROOT / "crates" / name, ["check"]) for name in names] or [(ROOT, ["all", "check"])]:
        run = subprocess.run(["rt", *words], cwd=folder, stdout=subprocess.PIPE, stderr=subprocess.STDOUT, text=True)
        if run.returncode:
            sys.exit(f"{run.stdout}edits.py: rt {' '.join(words)}: not proved as it is")


def try_all(chosen, is_whole):
    """Tries the chosen edits, by crate: the exit status. is_whole: whether these are all."""
    began = time.monotonic()
    prove([] if is_whole else chosen)
    with tempfile.TemporaryDirectory(prefix="edits-") as work:
        trials = [Trial(ROOT, pathlib.Path(work), LOGS, name, edits) for name, edits in chosen.items()]
        checks = try_trials(sorted(trials, key=lambda trial: -trial.size()), processors())
    tried, faults = sum(map(len, chosen.values())), sum(len(trial.faults) for trial in trials)
    print(f"{tried} edits tried, {checks} checks with edits, {faults} failed ({time.monotonic() - began:.0f} s)")
    return 1 if faults else 0


def try_trials(trials, workers):
    """Tries the edits of some crates, the longest first; how many groups they made. Each worker has copies of its own."""
    free = queue.SimpleQueue()
    for worker in range(workers):
        free.put(worker)

    def try_group(trial, group):
        worker = free.get()
        try:
            trial.try_together(trial.copy_of(worker), group)
        finally:
            free.put(worker)

    with concurrent.futures.ThreadPoolExecutor(workers) as pool:
        list(pool.map(Trial.start, trials))
        groups = [(trial, group) for trial in trials for group in trial.groups()]
        groups.sort(key=lambda found: (-found[0].size(), -sum(len(found[0].own[edit]) for edit in found[1])))
        list(pool.map(lambda found: try_group(*found), groups))
        list(pool.map(Trial.finish, trials))
    return len(groups)


def try_by_rt(chosen):
    """Has rt must-fail try the chosen edits, by crate: its exit status."""
    with tempfile.TemporaryDirectory(prefix="edits-") as work:
        tree = pathlib.Path(work) / "by-rt"
        copy_crates(ROOT, tree)
        for folder in (tree / "crates").glob("*/must-fail"):
            shutil.rmtree(folder)
        for name, edits in chosen.items():
            folder = tree / "crates" / name / "must-fail"
            folder.mkdir()
            for edit in edits:
                shutil.copy(edit.path, folder)
        return subprocess.run(["rt", "must-fail", *chosen], cwd=tree).returncode


def chosen_edits(edits, names):
    """The edits of the named crates and the named edits, by crate; all where nothing is named."""
    known = edits.keys() | {edit.name for found in edits.values() for edit in found}
    for name in names:
        if name not in known:
            sys.exit(f"edits.py: {name}: no edit has this name, and no crate that has edits")
    chosen = {}
    for crate, found in edits.items():
        chosen[crate] = [edit for edit in found if not names or crate in names or edit.name in names]
    return {crate: found for crate, found in chosen.items() if found}


def main():
    names = [name for name in sys.argv[1:] if name != "--by-rt"]
    edits = all_edits()
    if not edits:
        sys.exit("edits.py: there are no edits")
    chosen = chosen_edits(edits, names)
    faults = list(name_faults([edit for found in edits.values() for edit in found]))
    if faults:
        sys.exit("\n".join(f"edits.py: {fault}" for fault in faults))
    if len(names) < len(sys.argv) - 1:
        return try_by_rt(chosen)
    return try_all(chosen, is_whole=not names)


if __name__ == "__main__":
    sys.exit(main())
