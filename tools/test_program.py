#!/usr/bin/env python3
"""Tests of the event program on a pipe whose input arrives octet by octet. Run, after `./keyserver` was built: python3 tools/test_program.py"""

import os
import subprocess
import time
import unittest

ROOT = os.path.dirname(os.path.dirname(os.path.abspath(__file__)))
PROGRAM = os.path.join(ROOT, "target/bin/keyserver")


def octets(name):
    """The input of an event file."""
    subprocess.run([os.path.join(ROOT, "tools/events"), "asm", f"events/{name}.txt"], cwd=ROOT, check=True, stdout=subprocess.DEVNULL)
    with open(os.path.join(ROOT, f"target/events/{name}.bin"), "rb") as file:
        return file.read()


def dripped(source):
    """What the program prints where it is given an octet at a time. It may stop before the last."""
    with subprocess.Popen([PROGRAM], stdin=subprocess.PIPE, stdout=subprocess.PIPE, bufsize=0) as run:
        try:
            for at in range(len(source)):
                run.stdin.write(source[at : at + 1])
                time.sleep(0.0005)
            run.stdin.close()
        except BrokenPipeError:
            pass
        return run.stdout.read()


class Cut(unittest.TestCase):
    """However the input is cut, the lines are those of the whole."""

    def same(self, name):
        source = octets(name)
        whole = subprocess.run([PROGRAM], input=source, stdout=subprocess.PIPE, check=False).stdout
        self.assertTrue(whole.endswith(b"\n"))
        self.assertEqual(dripped(source), whole)

    def test_events(self):
        for name in ("worked-example", "incident", "policy", "forms"):
            with self.subTest(name):
                self.same(name)

    def test_opening_parts(self):
        for name in ("rows", "opening-rows-17", "opening-cut-row", "opening-not-shortest"):
            with self.subTest(name):
                self.same(name)

    def test_damaged_input(self):
        for name in ("damaged-length-513", "damaged-event-cut"):
            with self.subTest(name):
                self.same(name)


if __name__ == "__main__":
    unittest.main()
