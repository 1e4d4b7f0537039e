#!/usr/bin/env python3
"""Tests what judges wrong bodies, and what looks where definitions stand, on a repository of one small crate that is made for each test.

usage: tools/tests.py
"""
import os
import shutil
import subprocess
import sys
import tempfile
import unittest

sys.dont_write_bytecode = True
TOOLS = os.path.dirname(os.path.abspath(__file__))
FILES = {
    "crates.txt": "low:\n",
    "crates/low/src/lib.rt": """//! Counts.
#![tactic(auto)]
ghost use Rattle.low.specs.Counts.{next_of};

/// The number behind one.
pub fn next(n: u8) -> u16
    ensures { result ≡ next_of n }
{
    n as u16 + 1
}
""",
    "crates/low/specs/Lib.antt": "pub mod Counts\npub mod Inside\n",
    "crates/low/specs/Inside.antt": "pub mod Parts\n",
    "crates/low/specs/Counts.antt": "-- the number behind one\nabbrev pub next_of : ℕ → ℕ\nnext_of n = suc n\n",
    "crates/low/specs/Inside/Parts.antt": "-- no more than one\nabbrev pub IsPart : ℕ → Type 0\nIsPart n = n ≤ 1\n",
    "tests/edits/low/next_is_itself.edit": "file: src/lib.rt\nold: n as u16 + 1\nnew: n as u16 + 0\n",
    "tests/edits/counts.txt": "low 1\n",
}
RECORD = "import edits; edits.write_down('low', edits.sums_of('low', edits.libraries()), {over_stubs})"


class Repository(unittest.TestCase):
    def setUp(self):
        self.top = tempfile.mkdtemp()
        self.addCleanup(shutil.rmtree, self.top)
        for path, text in FILES.items():
            self.write(path, text)
        shutil.copytree(TOOLS, f"{self.top}/tools", ignore=shutil.ignore_patterns("__pycache__"))

    def write(self, path, text):
        os.makedirs(os.path.dirname(f"{self.top}/{path}") or ".", exist_ok=True)
        with open(f"{self.top}/{path}", "w", encoding="utf-8") as it:
            it.write(text)

    def run_tool(self, *words):
        how = {"cwd": self.top, "stdout": subprocess.PIPE, "stderr": subprocess.STDOUT, "text": True}
        return subprocess.run([sys.executable, *words], env=os.environ | {"PYTHONPATH": f"{self.top}/tools"}, **how)

    def record(self, over_stubs=False):
        made = self.run_tool("-c", RECORD.format(over_stubs=over_stubs))
        self.assertEqual(made.returncode, 0, made.stdout)

    def known(self):
        return self.run_tool("tools/edits.py", "--known").returncode


class Record(Repository):
    def test_what_was_refused_is_known(self):
        self.record()
        self.assertEqual(self.known(), 0)

    def test_what_is_not_in_the_record_is_unknown(self):
        self.assertEqual(self.known(), 1)

    def test_a_changed_body_is_unknown(self):
        self.record()
        self.write("crates/low/src/lib.rt", FILES["crates/low/src/lib.rt"].replace("{\n    n as", "{\n    let n = n;\n    n as"))
        self.assertEqual(self.known(), 1)

    def test_a_changed_definition_is_unknown(self):
        self.record()
        self.write("crates/low/specs/Counts.antt", FILES["crates/low/specs/Counts.antt"].replace("= suc n", "= n + 1"))
        self.assertEqual(self.known(), 1)

    def test_an_edit_whose_texts_say_the_same_is_refused(self):
        for new in ("n as u16 + 1", "n as u16  +1 // one more"):
            self.write("tests/edits/low/next_is_itself.edit", f"file: src/lib.rt\nold: n as u16 + 1\nnew: {new}\n")
            self.assertNotEqual(self.run_tool("-c", RECORD.format(over_stubs=False)).returncode, 0)
            self.assertEqual(self.known(), 1)

    def test_an_edit_whose_old_text_stands_nowhere_or_twice_is_refused(self):
        for old in ("n as u16 + 2", "u16"):
            self.write("tests/edits/low/next_is_itself.edit", f"file: src/lib.rt\nold: {old}\nnew: u8\n")
            self.assertEqual(self.known(), 1)

    def test_edits_that_are_gone_are_missed(self):
        self.record()
        shutil.rmtree(f"{self.top}/tests/edits/low")
        self.assertEqual(self.known(), 1)

    def test_another_judge_knows_nothing(self):
        self.record()
        with open(f"{self.top}/tools/edits.py", "a", encoding="utf-8") as it:
            it.write("\n\nEdit.is_refused = lambda *_: True\n")
        self.assertEqual(self.known(), 1)

    def test_what_was_judged_over_stubs_is_untried(self):
        self.record(over_stubs=True)
        self.assertEqual(self.known(), 1)
        self.record()
        self.assertEqual(self.known(), 0)
        self.record(over_stubs=True)
        self.assertEqual(self.known(), 0)


class Refusals(Repository):
    def is_refused(self, said):
        words = f"import edits; edit = edits.edits_of('low')[0]; print(edit.is_refused({said!r}, [edit]))"
        return self.run_tool("-c", words).stdout.strip()

    def test_a_goal_of_its_function_refuses_an_edit(self):
        self.assertEqual(self.is_refused("note: src/lib.rt:9:5: it is not proved that the clause holds\n"), "True")

    def test_an_answer_that_no_longer_fits_refuses_it(self):
        self.assertEqual(self.is_refused("proofs/lib/next/Answers.antt:4:5: error: the types differ\n"), "True")

    def test_a_name_that_is_gone_does_not(self):
        self.assertEqual(self.is_refused("proofs/lib/next/Answers.antt:4:5: error: `n` is not in scope\n"), "False")

    def test_a_proved_body_is_let_through(self):
        self.assertEqual(self.is_refused("fn low::next: proved\nlogic=proved functions=1\n"), "False")

    def test_a_goal_of_another_function_lets_it_through(self):
        self.assertEqual(self.is_refused("note: src/other.rt:9:5: it is not proved that the clause holds\n"), "False")


class Inside(Repository):
    def test_definitions_stand_where_they_are_cited(self):
        said = self.run_tool("tools/inside.py")
        self.assertEqual(said.returncode, 0, said.stdout)

    def test_a_public_contract_cites_nothing_inside(self):
        text = FILES["crates/low/src/lib.rt"].replace("specs.Counts.{next_of}", "specs.Inside.Parts.{IsPart}")
        self.write("crates/low/src/lib.rt", text.replace("result ≡ next_of n", "IsPart n → IsPart result"))
        self.assertEqual(self.run_tool("tools/inside.py").returncode, 1)


if __name__ == "__main__":
    unittest.main()
