#!/usr/bin/env python3
"""Tests of tools/coverage and tools/series. Run: python3 tools/test_coverage.py"""

import importlib.machinery
import importlib.util
import os
import sys
import tempfile
import unittest

HERE = os.path.dirname(os.path.abspath(__file__))
sys.dont_write_bytecode = True


def loaded(name):
    loader = importlib.machinery.SourceFileLoader(name, os.path.join(HERE, name))
    module = importlib.util.module_from_spec(importlib.util.spec_from_loader(name, loader))
    loader.exec_module(module)
    return module


coverage, series = loaded("coverage"), loaded("series")

OPEN = "open domain=bsf.example restart=7 lifetime=3600\n"
CARD = "card a impi=a@b rand=00..0f autn=a0..af xres=01020304 ck=10..1f ik=20..2f\n"


def read(content):
    with tempfile.TemporaryDirectory() as folder:
        path = os.path.join(folder, "one.txt")
        with open(path, "w", encoding="utf-8") as file:
            file.write(OPEN + CARD + content)
        return coverage.File(path)


def course(content, run=1):
    return [happening for happening, _ in coverage.courses(read(content))[run - 1]]


class Courses(unittest.TestCase):
    def test_a_sign_in(self):
        lines = (
            "VECTOR time=1 restart=7 run=1 card=a settings=none => 7\n"
            "START time=1 impi=a@b => 0 01070100\n"
            "RESPONSE time=1 restart=7 run=1 res=01020304 => 12\n"
            "VECTOR time=1 restart=7 run=1 card=a settings=none => 0 challenge card=a\n"
            "RESPONSE time=1 restart=7 run=1 res=01020304 => 0 session card=a btid=t start=1 expiry=2\n"
            "RESPONSE time=1 restart=7 run=1 res=00*4 => 7\n"
            "START time=1 impi=a@b => 0 01070200\n"
        )
        expected = ["VECTOR", "START", "right RES", "VECTOR", "right RES", "late wrong RES", "late START"]
        self.assertEqual(course(lines), expected)
        self.assertEqual(course(lines, 2), ["START"])

    def test_another_restart_or_a_refused_form_or_clock_is_not_the_runs(self):
        lines = (
            "START time=1 impi=a@b => 0 01070100\n"
            "ABORT time=1 restart=8 run=1 => 7\n"
            "ABORT time=0 restart=7 run=1 => 4\n"
            "raw 04 01 07 01 00 => 3\n"
        )
        self.assertEqual(course(lines), ["START"])

    def test_a_lapse_counts_where_no_later_event_finds_the_run_open(self):
        lines = (
            "START time=100 impi=a@b => 0 01070100\n"
            "ABORT time=130 restart=7 run=1 => 7\n"
            "KEY time=200 peer=p btid=t naf=n.e+0100000002 application=0 => 14\n"
        )
        self.assertEqual(course(lines), ["START", "lapse", "late ABORT"])
        lines += "ABORT time=129 restart=7 run=1 => 0 aborted\n"
        self.assertEqual(course(lines), ["START", "ABORT"])
        lines += "START time=130 impi=c@d => 0 01070200\n"
        self.assertEqual(course(lines), ["START", "ABORT", "lapse"])

    def test_rows_that_nothing_can_meet(self):
        for row, rule in [
            (("ABORT", "VECTOR"), None),  # before its START
            (("START", "ABORT", "VECTOR"), "E"),
            (("late ABORT", "START"), "E"),
            (("VECTOR", "late VECTOR"), "O"),
            (("wrong RES", "right RES", "late ABORT"), "O"),
            (("right RES", "right RES", "late ABORT"), None),  # 13, then a session
            (("lapse", "lapse"), "L"),
            (("ABORT", "VECTOR", "lapse"), "L"),
            (("ABORT", "lapse", "late VECTOR"), None),
        ]:
            self.assertEqual(coverage.impossible(row), rule, row)


class Marks(unittest.TestCase):
    def test_a_mark_belongs_to_the_next_event(self):
        start, abort = "START time=1 impi=a@b => 0 01070100\n", "ABORT time=1 restart=7 run=1 => 0 04\n"
        file = read("# meets: one\n# more words\n" + start + abort)
        self.assertEqual([event.marks for event in file.events], [["one"], []])

    def test_ranges(self):
        lines = ("START time=1 impi= => 3", "START time=1 impi=hex:61*64 => 4", "START time=1 impi=hex:61*65 => 4")
        file = read("\n".join(lines))
        found = {(kind, field): cells for kind, field, cells in coverage.ranges([file])}
        one = ("one", 3), None, ("one", 4), None
        self.assertEqual([place for _, place in found["START", "IMPI, octets"]], list(one))

    def test_places_of_refusals(self):
        file = read("START time=1 impi= => 3\nSTART time=1 impi=a@b => 0 01070100\n")
        good = coverage.wrong_places("## 3 FORM\n`one:3` and not `one:4`\n", [file])
        self.assertEqual([one for one in good if "nothing shows" not in one], [])
        for text in ("## 4 CLOCK\n`one:3`", "## 3 FORM\n`one:9`", "## 3 SHAPE\n`one:3`"):
            found = coverage.wrong_places(text, [file])
            self.assertTrue([one for one in found if "nothing shows" not in one], text)


class Series(unittest.TestCase):
    def test_every_triple_that_needs_no_full_table_is_written(self):
        for first in coverage.ALL:
            met = set()
            for one in series.all_courses(first):
                self.assertIsNotNone(series.follow(coverage.BEFORE, one))
                self.assertLess(len([what for what in one if what != "lapse"]), coverage.LAPSE)
                met |= {tuple(one[at : at + 3]) for at in range(len(one) - 2)}
            for two in coverage.ALL:
                for three in coverage.ALL:
                    if series.course_over((first, two, three), series.ways_to()):
                        self.assertIn((first, two, three), met)


if __name__ == "__main__":
    unittest.main()
