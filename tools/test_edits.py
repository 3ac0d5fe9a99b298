#!/usr/bin/env python3
"""Tests of tools/edits. Run: python3 tools/test_edits.py"""

import importlib.machinery
import importlib.util
import os
import sys
import unittest

HERE = os.path.dirname(os.path.abspath(__file__))
sys.dont_write_bytecode = True
loader = importlib.machinery.SourceFileLoader("edits", os.path.join(HERE, "edits"))
edits = importlib.util.module_from_spec(importlib.util.spec_from_loader("edits", loader))
loader.exec_module(edits)

# What the prover prints of a crate `rows`: `at` is wrong, and so is `find`, which is over `at`; `seek` waits for it; `least` is wrong and has no
# proof file; the proofs of `decode` and `step` name what the edited code does not have; of `take` one goal is wrong, and of `Row::is` two.
LOG = """./proofs/Row/at/Answers.antt:9:13: error: `returns`: the two types differ
  here `?0` is the `_` written at 9:40
./proofs/Row/at/Answers.antt:12:5: error: `returns-2`: `returns` was not admitted (it was rejected), so this cannot be checked
./proofs/find/Answers.antt:20:5: error: `loop-i-preserved`: the two types differ
./proofs/seek/Answers.antt:20:5: error: `returns`: `close` was not admitted (it was rejected), so this cannot be checked
./proofs/+deep/Answers.antt:7:2: error: `returns`: the two types differ
./proofs/decode/Answers.antt:6:29: error: `returns-then-n-eq0`: `goal.returns-then-n-eq0`: module `Rattle.rows.proofs.decode.Goals` has no `returns-then-n-eq0` that can be named from here
./proofs/decode/Answers.antt:13:13: error: `returns`: `search`: no proof of `Post`
./proofs/step/Invariants.antt:58:60: error: `invariant-loop-i`: record `In-loop-i` has no field `left`
./proofs/take/Answers.antt:8:3: error: `returns-then-a-b`: the two types differ
./proofs/Laws.antt:3:4: error: `front-kept`: the two types differ
./proofs/Laws.antt:8:4: error: `all-kept`: `front-kept` was not admitted (it was rejected), so this cannot be checked
note: src/lib.rt:51:9: it is not proved that what the function ensures holds when it returns (`returns-then-b-a`)
fn rows::Row::at: not proved
fn rows::Row::is: no proof: expected answers in ./proofs/Row/is/Answers.antt; `search` did not prove `bounds-s-i`, `returns`
fn rows::find: not proved; it calls `rows::Row::at`, which is not proved
fn rows::seek: not proved; it calls `rows::find`, which is not proved
fn rows::least: no proof: expected answers in ./proofs/least/Answers.antt; `search` did not prove `returns-then-b-a`
fn rows::take: not proved
fn rows::wait: not proved; it calls `rows::seek`, which is not proved
logic=not-proved
"""


def edit(at):
    made = edits.Edit("crates/rows/must-fail/1.edit", "wrong", "a wrong answer")
    made.at = at
    return made


def refused(at):
    return edits.is_refused(edit(at), LOG)


class Refused(unittest.TestCase):
    def test_an_error_of_the_functions_own(self):
        self.assertTrue(refused("Row::at"))
        self.assertTrue(refused("deep"))
        self.assertTrue(refused("find"))

    def test_a_function_without_a_proof_file(self):
        self.assertTrue(refused("least"))
        self.assertTrue(refused("Row::is"))

    def test_what_only_stands_on_a_refused_one_is_not_refused(self):
        self.assertFalse(refused("seek"))
        self.assertFalse(refused("wait"))

    def test_another_function_of_that_name_is_not_it(self):
        self.assertFalse(refused("at"))
        self.assertFalse(refused("is"))
        self.assertFalse(refused("Row::least"))

    def test_a_proof_that_no_longer_fits_shows_nothing(self):
        self.assertFalse(refused("decode"))
        self.assertFalse(refused("step"))

    def test_a_goal_by_its_name(self):
        self.assertTrue(refused("take/returns-then-a-b"))
        self.assertFalse(refused("take/returns"))
        self.assertFalse(refused("Row::at/returns-2"))
        self.assertTrue(refused("Row::is/returns"))
        self.assertTrue(refused("Row::is/bounds-s-i"))
        self.assertFalse(refused("Row::is/bounds-s"))

    def test_a_law_by_its_name(self):
        self.assertTrue(refused("Laws.front-kept"))
        self.assertFalse(refused("Laws.all-kept"))
        self.assertFalse(refused("Laws.other"))
        self.assertFalse(refused("More.front-kept"))

    def test_no_log_is_no_refusal(self):
        self.assertFalse(edits.is_refused(edit("Row::at"), ""))


class Asked(unittest.TestCase):
    def test_edits_that_can_be_made(self):
        one = edit("at")
        one.pairs = [("crates.txt", "limits:\n", "limits: flow\n"), ("crates.txt", "limits: flow\n", "limits: line\n")]
        self.assertIn("\nlimits: line\n", edits.made([one])["crates.txt"])
        one.pairs = [("crates.txt", "limits", "flow")]
        self.assertEqual(edits.made([one]), {})

    def test_all_that_a_crate_stands_on(self):
        found = edits.libraries()
        self.assertEqual(found["limits"], set())
        self.assertEqual(found["octets"], {"limits", "flow"})
        self.assertTrue(found["key"] >= {"ksnaf", "hmac", "kdf", "sha256_block"})
        self.assertIn("exports", found)


class Repository(unittest.TestCase):
    def test_public_functions_are_found(self):
        found = set(edits.public())
        self.assertIn(("exports", "pr_event"), found)
        self.assertIn(("names", "Name::is_host"), found)
        self.assertIn(("batch", "serve"), found)
        self.assertNotIn(("batch", "tell"), found)


if __name__ == "__main__":
    unittest.main()
