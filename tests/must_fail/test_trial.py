"""Tries edits that must not count as refused, and their neighbours that must, on a small crate.

    cd tests && python3 -m unittest must_fail.test_trial
"""

import contextlib
import io
import pathlib
import subprocess
import tempfile
import unittest

from must_fail.edit import Edit
from must_fail.trial import Trial
from must_fail.verdict import ELSEWHERE, PROVED, Check, judge

SAMPLE = {
    "crates.txt": "sample:\n",
    "crates/sample/src/lib.rt": """#![tactic(auto)]

ghost use Rattle.std.specs.Prelude.{◌≡◌, ◌≤◌};
ghost use Rattle.sample.specs.Halves.{halved};

const PARTS: u64 = 2;

pub fn half(x: u64) -> u64
    ensures { result ≡ halved x }
{
    x / PARTS
}

pub fn quarter(x: u64) -> u64
    ensures { result ≡ halved (halved x) }
{
    let h = half(x);
    half(h)
}

pub fn least(x: u64, y: u64) -> u64
    ensures { result ≤ x }
{
    if x <= y {
        x
    } else {
        y
    }
}
""",
    "crates/sample/specs/Lib.antt": "pub mod Halves\n",
    "crates/sample/specs/Halves.antt": """use Rattle.std.specs.Prelude.{ℕ, ◌/◌}

unfoldable pub halved : ℕ → ℕ
halved x = x / 2
""",
    "crates/sample/proofs/half/Answers.antt": """use mathlib.Core.Path.{refl}
use Rattle.sample.specs.Halves.{halved}
use Rattle.sample.proofs.half.Goals as goal

pub returns : goal.returns
unfolding halved
returns c = refl
""",
    "crates/sample/proofs/quarter/Answers.antt": """use mathlib.Core.Path.{◌∙◌, ap}
use Rattle.sample.specs.Halves.{halved}
use Rattle.sample.proofs.quarter.Goals as goal

pub returns : goal.returns
returns c = c.half.ensures ∙ ap halved c.half-h.ensures
""",
}

# The file, and the old text and the new one of each place. half is called by quarter; least has no proof file.
CODE = "src/lib.rt"
EDITS = {
    "callee_wrong": (CODE, "    x / PARTS", "    x / 3"),
    "constant_wrong": (CODE, "PARTS: u64 = 2", "PARTS: u64 = 3"),
    "definition_wrong": ("specs/Halves.antt", "x / 2", "x / 3"),
    "caller_wrong": (CODE, "    half(h)", "    half(x)"),
    "uncalled_wrong": (CODE, "x <= y", "y <= x"),
    "another_call": (CODE, "    half(h)", "    half(half(h))"),
    "renamed_wrong": (CODE, "let h = half(x)", "let g = half(x)", "    half(h)", "    half(half(g))"),
    "renamed_harmless": (CODE, "let h = half(x)", "let g = half(x)", "    half(h)", "    half(g)"),
    "caller_harmless": (CODE, "half(x)", "half((x))"),
    "changes_nothing": (CODE, "x <= y", "x <= y"),
    "still_proved": (CODE, "x <= y", "x < y"),
    "breaks_the_syntax": (CODE, "x <= y", "x <= (y"),
    "breaks_a_definition": ("specs/Halves.antt", "x / 2", "y / 2"),
    "no_call": (CODE, "    half(h)", "    h / 2"),
    "another_goal": (CODE, "x <= y", "x + 1 <= y"),
    "another_contract": (CODE, "result ≤ x", "x ≤ result"),
    "another_signature": (CODE, "y: u64", "y: u32"),
    "no_such_text": (CODE, "x >= y", "x > y"),
    "of_a_proof": ("proofs/half/Answers.antt", "= refl", "= refl "),
}


def sample_edits(root):
    """Writes the sample crate and its edits; the edits by name."""
    for file, text in SAMPLE.items():
        (root / file).parent.mkdir(parents=True, exist_ok=True)
        (root / file).write_text(text)
    folder = root / "crates" / "sample" / "must-fail"
    folder.mkdir()
    for name, (file, *texts) in EDITS.items():
        pairs = [f"old: {old}\nnew: {new}\n" for old, new in zip(texts[::2], texts[1::2])]
        (folder / f"{name}.edit").write_text(f"file: {file}\n{''.join(pairs)}")
    return {name: Edit(folder / f"{name}.edit") for name in EDITS}


class TrialTest(unittest.TestCase):
    @classmethod
    def setUpClass(cls):
        cls.folder = tempfile.TemporaryDirectory()
        cls.addClassCleanup(cls.folder.cleanup)
        cls.root = pathlib.Path(cls.folder.name).resolve()
        cls.edits = sample_edits(cls.root)
        subprocess.run(["rt", "check"], cwd=cls.root / "crates" / "sample", check=True, stdout=subprocess.DEVNULL)
        cls.trial = Trial(cls.root, cls.root / "work", cls.root / "logs", "sample", cls.edits.values())
        with contextlib.redirect_stdout(io.StringIO()):
            cls.trial.start()

    def faults(self, *names):
        """The edits that are not refused if these are tried in one check."""
        self.trial.faults.clear()
        with contextlib.redirect_stdout(io.StringIO()) as said:
            self.trial.try_together(self.trial.copy_of(0), [self.edits[name] for name in names])
        self.said = said.getvalue()
        return [fault[1:].partition(":")[0] for fault in self.trial.faults]

    def test_wrong_ones_are_refused_alone(self):
        for name in ("callee_wrong", "constant_wrong", "definition_wrong", "caller_wrong", "uncalled_wrong", "another_call"):
            self.assertEqual(self.faults(name), [])

    def test_wrong_ones_are_refused_together_each_in_its_place(self):
        self.assertEqual(self.faults("callee_wrong", "caller_wrong", "uncalled_wrong"), [])
        self.assertEqual(len(self.said.splitlines()), 4, "nothing was tried again")
        for where in ("proofs/half/Answers.antt", "proofs/quarter/Answers.antt", "src/lib.rt"):
            self.assertIn(f"refused, first at {where}", self.said)

    def test_a_caller_is_not_refused_by_its_callee(self):
        self.assertEqual(self.faults("callee_wrong", "caller_harmless"), ["caller_harmless"])

    def test_a_proved_one_is_not_refused_beside_a_wrong_one(self):
        for name in ("changes_nothing", "still_proved"):
            self.assertEqual(self.faults(name), [name])
            self.assertEqual(self.faults("callee_wrong", name), [name])

    def test_a_broken_file_is_no_refusal(self):
        for name in ("breaks_the_syntax", "breaks_a_definition"):
            self.assertEqual(self.faults(name), [name])
        self.assertEqual(self.faults("callee_wrong", "breaks_the_syntax"), ["breaks_the_syntax"])

    def test_a_proof_that_does_not_fit_is_no_refusal(self):
        for name in ("no_call", "another_goal"):
            self.assertEqual(self.faults(name), [name])
            self.assertEqual(self.faults("callee_wrong", name), [name])

    def test_names_of_places_in_the_proof_are_those_of_the_edited_code(self):
        self.assertEqual(self.faults("renamed_wrong"), [])
        self.assertIn("with the edited code's names in the proof", self.said)
        self.assertEqual(self.faults("callee_wrong", "renamed_wrong"), [])
        self.assertEqual(self.faults("renamed_harmless"), ["renamed_harmless"])
        self.assertIn(f"renamed_harmless: {PROVED}", self.said)

    def test_unfit_ones_are_not_tried(self):
        self.assertEqual([edit.name for edit in self.trial.unfit], ["another_contract", "another_signature", "no_such_text", "of_a_proof"])

    def test_no_two_of_a_group_have_a_place_in_common(self):
        with contextlib.redirect_stdout(io.StringIO()):
            groups = [[edit.name for edit in group] for group in self.trial.groups()]
        group_of = {name: number for number, group in enumerate(groups) for name in group}
        for one, other in (("callee_wrong", "constant_wrong"), ("definition_wrong", "caller_wrong"), ("caller_wrong", "another_call")):
            self.assertNotEqual(group_of[one], group_of[other])

    def test_an_error_elsewhere_is_no_refusal(self):
        output = "./proofs/half/Answers.antt:8:13: error: `returns`: these differ\nlogic=not-proved\n"
        check = Check(pathlib.Path("/c"), 1, output)
        shown = judge(check, self.trial.places, {"an_edit": {"proofs/quarter"}}, self.trial.goals)
        self.assertEqual(shown["an_edit"].what, ELSEWHERE)
        both = judge(check, self.trial.places, {"an_edit": {"proofs/quarter"}, "another": {"proofs/least"}}, self.trial.goals)
        self.assertEqual({found.what for found in both.values()}, {ELSEWHERE})


if __name__ == "__main__":
    unittest.main()
