"""Copies of the crates in which edits are tried, each with the record of checks that rt check keeps."""

import os
import pathlib
import shutil
import subprocess
import time

from must_fail.verdict import Check


def copy_crates(root, tree):
    """A new tree that holds the crates and no result of a check."""
    shutil.rmtree(tree, ignore_errors=True)
    shutil.copytree(root / "crates", tree / "crates", ignore=lambda folder, names: {"out"} & set(names))
    for name in ("crates.txt", "HANDLES"):
        if (root / name).is_file():
            shutil.copy(root / name, tree)


def link(one, other):
    """A second name for a file, or a copy where there can be none."""
    try:
        os.link(one, other)
    except OSError:
        shutil.copy2(one, other)


def link_proved(one, other):
    """The same of a record's file, but a copy unless it holds what was proved: a check replaces such a file and changes none."""
    if str(one).endswith(".oantt"):
        link(one, other)
    else:
        shutil.copy2(one, other)


class Tree:
    """A tree in which one crate is checked. The libraries that it stands on are taken as rt built them in root."""

    def __init__(self, root, folder, name):
        copy_crates(root, folder)
        for built in (root / "crates").glob("*/out/rlib"):
            shutil.copytree(built, folder / built.relative_to(root), symlinks=True, copy_function=link)
        self.folder, self.name = folder, name
        self.crate = folder / "crates" / name
        self.record = self.crate / "out" / "incremental"

    def check(self, *words):
        """A check of the crate as it stands, and the seconds it took."""
        began = time.monotonic()
        command = ["rt", "check", "--jobs", "1", *words]
        run = subprocess.run(command, cwd=self.crate, stdout=subprocess.PIPE, stderr=subprocess.STDOUT, text=True, errors="replace")
        return Check(self.crate, run.returncode, run.stdout), time.monotonic() - began

    def generated(self, made, folder):
        """Where rattle writes, below the folder made, what it makes of the function with this folder."""
        part, _, function = folder.partition("/")
        return pathlib.Path(made) / f"Rattle-{self.name}-{part}" / function

    def check_with(self, texts, *words):
        """The same with other texts of some files; the files are as they were afterwards."""
        before = {path: path.read_text() for path in texts}
        for path, text in texts.items():
            path.write_text(text)
        try:
            return self.check(*words)
        finally:
            for path, text in before.items():
                path.write_text(text)

    def take_record(self, of):
        """Makes the record another one. A check of an edited crate leaves its own results there, in place of those that the
        next one could use."""
        shutil.rmtree(self.record, ignore_errors=True)
        if of.is_dir():
            shutil.copytree(of, self.record, symlinks=True, copy_function=link_proved)
