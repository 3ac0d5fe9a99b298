#!/usr/bin/env python3
"""Tests of tools/events. Run: python3 tools/test_events.py"""

import importlib.machinery
import importlib.util
import os
import random
import sys
import tempfile
import unittest

HERE = os.path.dirname(os.path.abspath(__file__))
sys.dont_write_bytecode = True
loader = importlib.machinery.SourceFileLoader("events", os.path.join(HERE, "events"))
spec = importlib.util.spec_from_loader("events", loader)
events = importlib.util.module_from_spec(spec)
loader.exec_module(events)

# The input and the output as document 01 prints them.
EXAMPLE = bytes.fromhex(
    "0b 62 73 66 2e 65 78 61 6d 70 6c 65 07 90 1c 00"
    "06 01 64 03 61 40 62"
    "04 04 65 07 01"
    "06 01 65 03 63 40 64"
    "04 04 66 07 01"
    "04 04 65 07 02"
)
EXAMPLE_LINES = ["1 0 01070100", "2 0 04", "3 0 01070200", "4 7 -", "5 0 04"]

OPEN = "open domain=bsf.example restart=7 lifetime=3600\n"
CARD = "card a impi=a@b rand=00..0f autn=a0..af xres=01020304 ck=10..1f ik=20..2f\n"


def assembled(content):
    return events.Source("test", content)


def first_event(line):
    """The body of one event below an opening."""
    item = assembled(OPEN + CARD + line).items[1]
    length = events.Reader(item.octets).number()
    return item.octets[-length:]


def expected(line):
    return assembled(OPEN + CARD + line).expected()


def below_events():
    return events.sources_below(os.path.join(HERE, "..", "events"))


class Octets(unittest.TestCase):
    def test_numbers(self):
        for value, octets in [(0, "00"), (127, "7f"), (128, "8001"), (3600, "901c"), (2**32 - 1, "ffffffff0f")]:
            self.assertEqual(events.number(value).hex(), octets)
            self.assertEqual(events.Reader(bytes.fromhex(octets)).number(), value)
        for octets in ("", "80", "8000", "818000"):
            with self.assertRaises(events.Cut):
                events.Reader(bytes.fromhex(octets)).number()

    def test_marked_examples_3_and_4(self):
        rand = bytes(range(16))
        self.assertEqual(events.btid(rand, b"bsf.example"), b"AAECAwQFBgcICQoLDA0ODw==@bsf.example")
        string = events.kdf_string(1, [b"gba-me", rand, b"a@b", events.naf_octets("n.e+0100000002")])
        self.assertEqual(len(string), 42)
        self.assertEqual(
            string.hex(),
            "01" + "6762612d6d650006" + rand.hex() + "0010" + "6140620003" + "6e2e650100000002" + "0008",
        )

    def test_octets_in_hex(self):
        self.assertEqual(events.hex_octets("00..03+ff*2+0aB0"), bytes([0, 1, 2, 3, 255, 255, 10, 176]))
        for word in ("0", "0g", "03..00", "0..f", "ff*"):
            with self.assertRaises(events.Wrong):
                events.hex_octets(word)


class Assembler(unittest.TestCase):
    def test_worked_example(self):
        source = events.read_source(os.path.join(HERE, "..", "events", "worked-example.txt"))
        self.assertEqual(source.octets(), EXAMPLE)
        self.assertEqual(source.expected(), EXAMPLE_LINES)

    def test_bodies(self):
        card = bytes(range(16)) + bytes(range(0xA0, 0xB0)) + b"\4\1\2\3\4" + bytes(range(0x10, 0x30))
        self.assertEqual(first_event("START time=100 impi=a@b"), b"\1\x64\3a@b")
        self.assertEqual(
            first_event("VECTOR time=100 restart=7 run=1 card=a settings=none"), b"\2\x64\7\1\3a@b" + card + b"\0"
        )
        self.assertEqual(
            first_event("VECTOR time=100 restart=7 run=1 card=a impi=c settings=before"),
            b"\2\x64\7\1\1c" + card + b"\1",
        )
        self.assertEqual(
            first_event(
                "VECTOR time=100 restart=7 run=1 card=a settings=given lifetime=60 timestamp=5\n"
                "  entry=1,0,00000001,u entry=200,255,01..04,hex:ff00"
            ),
            b"\2\x64\7\1\3a@b" + card + b"\2\x3c\5\2\1\0\0\0\0\1\1u\xc8\1\xff\1\1\2\3\4\2\xff\0",
        )
        self.assertEqual(first_event("RESPONSE time=100 restart=7 run=1 card=a"), b"\3\x64\7\1\4\1\2\3\4")
        self.assertEqual(first_event("RESPONSE time=100 restart=7 run=1 res=aa*4"), b"\3\x64\7\1\4\xaa\xaa\xaa\xaa")
        self.assertEqual(first_event("ABORT time=1000000000000 restart=7 run=0")[0], 4)
        self.assertEqual(
            first_event("KEY time=100 peer=p btid=btid(a) naf=n.e+0100000002 application=0"),
            b"\5\x64\1p\x24AAECAwQFBgcICQoLDA0ODw==@bsf.example\x08n.e\1\0\0\0\2\0",
        )

    def test_opening_part(self):
        source = assembled(OPEN + "row peer=p fqdn=f identity=1 group=255 required=300\nraw 01")
        self.assertEqual(source.octets(), EXAMPLE[:15] + b"\1\1p\1f\1\xff\1\xac\2" + b"\1\1")
        self.assertEqual(assembled(OPEN.strip() + " rows=17").octets(), EXAMPLE[:15] + b"\x11")
        source = assembled("opening 00 => 1 -\nSTART time=1 impi=a")
        self.assertEqual(source.octets(), b"\0\4\1\1\1a")
        self.assertEqual(source.expected(), ["0 1 -"])

    def test_damaged_events(self):
        source = assembled(OPEN + "raw 0180 00 => 3 -\nframe 00 => 3 FORM")
        self.assertEqual(source.octets(), EXAMPLE[:16] + b"\3\1\x80\0" + b"\0")
        self.assertEqual(source.expected(), ["1 3 -", "2 3 -"])

    def test_comments_and_joined_lines(self):
        source = assembled("# all of it\n" + OPEN + "START # who\n  time=100\n\n  # when\n  impi=a#b => 0 04 # so\n")
        self.assertEqual(source.items[1].octets, b"\6\1\x64\3a#b")
        self.assertEqual(source.expected(), ["1 0 04"])

    def test_answers(self):
        for line, answer in [
            ("opened restart=7 run=1 timestamp=3600", "010701901c"),
            ("challenge card=a", "02" + bytes(range(16)).hex() + bytes(range(0xA0, 0xB0)).hex()),
            (
                "session btid=btid(a) start=100 expiry=3700",
                "0324" + b"AAECAwQFBgcICQoLDA0ODw==@bsf.example".hex() + "64f41c",
            ),
            ("aborted", "04"),
            ("wrong", "06"),
            (
                "key key=key(a) start=100 expiry=160 impi=a@b entry=00000001,u",
                "05f5678a136496c7f7b6321c9cb16710e19c23f0a3a74c728cbd592fc3cc42f13e64a001036140620100000001" + "0175",
            ),
            (
                "key key=key(a,n.e+0100000002) start=1 expiry=2 impi= entry=none",
                "05f5678a136496c7f7b6321c9cb16710e19c23f0a3a74c728cbd592fc3cc42f13e01020000",
            ),
        ]:
            event = "KEY time=100 peer=p btid=btid(a) naf=n.e+0100000002 application=0 => 0 "
            self.assertEqual(expected(event + line), [f"1 0 {answer}"])
            self.assertEqual(expected(event + answer), [f"1 0 {answer}"])
            words = events.answer_words(bytes.fromhex(answer))
            self.assertEqual(words.split()[0], line.split()[0])
            self.assertEqual(expected(event + words), [f"1 0 {answer}"])
        for line in ("7", "7 -", "7 STALE"):
            self.assertEqual(expected("raw 00 => " + line), ["1 7 -"])
        self.assertEqual(expected("raw 00 => 15 NO B-TID"), ["1 15 -"])

    def test_wrong_sources(self):
        for line in [
            "STOP time=1",
            "START time=1",
            "START time=1 impi=a run=1",
            "START time=1 time=2 impi=a",
            "START time=x impi=a",
            "START time=1 impi",
            "START time=1 impi=a entry=1,0,00000000,u",
            "START time=1 impi=a => 8 STALE",
            "START time=1 impi=a => 17 -",
            "START time=1 impi=a => 0",
            "START time=1 impi=a =>",
            "START time=1 impi=a => 0 opened restart=7 run=1",
            "VECTOR time=1 restart=7 run=1 card=b settings=none",
            "VECTOR time=1 restart=7 run=1 card=a settings=some",
            "VECTOR time=1 restart=7 run=1 card=a settings=given lifetime=0 timestamp=0 entry=1,2",
            "KEY time=1 peer=p btid=btid(b) naf=n.e+0100000002 application=0",
            "KEY time=1 peer=p btid=t naf=n.e application=0",
            "raw 0",
            "open domain=d restart=1 lifetime=60",
            "START time=1 impi=a\nrow peer=p fqdn=f identity=0 group=0 required=0",
            "row peer=p fqdn=f identity=256 group=0 required=0",
            "card",
            "card a impi=b",
        ]:
            with self.assertRaisesRegex(events.Wrong, r"^test:\d+: "):
                assembled(OPEN + CARD + line)


class Disassembler(unittest.TestCase):
    def again(self, octets, lines=()):
        source = assembled("\n".join(events.disassemble(octets, lines)))
        self.assertEqual(source.octets(), octets)
        self.assertEqual(source.expected(), list(lines))
        return source

    def test_worked_example(self):
        source = self.again(EXAMPLE, EXAMPLE_LINES)
        self.assertEqual(" ".join(source.items[4].words), "ABORT time=102 restart=7 run=1")

    def test_event_files(self):
        for path in below_events():
            source = events.read_source(path)
            self.again(source.octets(), source.expected())

    def test_values_that_need_hex(self):
        for name in (b"", b"hex:00", b"btid(a)", b"a b", b"#", b"=>", b"a=b", b"\xff", "ä".encode(), b"+", b"a+0102"):
            body = b"\1\1" + events.text(name)
            self.again(EXAMPLE[:16] + events.text(body))
            for protocol in (b"", b"\1\0\0\0\2", b"abcde"):
                body = b"\5\1" + events.text(name) + events.text(name) + events.text(name + protocol) + b"\0"
                self.again(EXAMPLE[:16] + events.text(body))

    def test_damaged(self):
        draw = random.Random(1)
        files = [EXAMPLE] + [events.read_source(path).octets() for path in below_events()]
        files = [octets for octets in files if octets]
        for _ in range(3000):
            octets = bytearray(draw.choice(files))
            for _ in range(draw.randrange(4)):
                octets[draw.randrange(len(octets))] = draw.choice([0, 1, 0x7F, 0x80, 0xFF, draw.randrange(256)])
            if draw.random() < 0.3:
                del octets[draw.randrange(len(octets)) :]
            self.again(bytes(octets))
        for length in range(len(EXAMPLE)):
            self.again(EXAMPLE[:length])


class Programs(unittest.TestCase):
    """Programs that print what they are told, right or wrong."""

    def source(self):
        return events.read_source(os.path.join(HERE, "..", "events", "worked-example.txt"))

    def program(self, code):
        return [sys.executable, "-c", code]

    def all_at_once(self, lines):
        return self.program(f"import sys; sys.stdin.buffer.read(); print({chr(10).join(lines)!r})")

    def test_differences(self):
        source = self.source()
        printed = events.run_program(self.all_at_once(EXAMPLE_LINES), source.octets())
        self.assertEqual(events.differences(source, printed), [])
        other = EXAMPLE_LINES[:3] + ["4 0 04"] + EXAMPLE_LINES[4:]
        found = events.differences(source, events.run_program(self.all_at_once(other), source.octets()))
        self.assertEqual(found[0], "line 8: ABORT time=102 restart=7 run=1")
        self.assertIn("4 7 -   7 STALE", found[1])
        self.assertIn("4 0 04   0 aborted", found[2])
        for lines in (EXAMPLE_LINES[:4], EXAMPLE_LINES + ["6 3 -"], []):
            self.assertTrue(events.differences(source, lines))
        crash = self.program("import sys; sys.exit(3)")
        self.assertEqual(events.run_program(crash, source.octets()), ["(the program ended with 3)"])
        self.assertTrue(events.differences(assembled(OPEN + "raw 00"), []))

    def test_step(self):
        source = self.source()
        prompt = self.program(
            "import os\n"
            f"for item, line in zip({[len(item.octets) for item in source.items]!r}, [''] + {EXAMPLE_LINES!r}):\n"
            "    while item: item -= len(os.read(0, item))\n"
            "    os.write(1, (line and line + '\\n').encode())\n"
        )
        self.assertEqual(events.step_program(prompt, source), EXAMPLE_LINES)
        wait, events.WAIT = events.WAIT, 1
        try:
            late = events.step_program(self.all_at_once(EXAMPLE_LINES), source)
        finally:
            events.WAIT = wait
        self.assertEqual(late, ["(no line for 1 seconds)"])

    def test_step_cut(self):
        """What is cut shows at the end of the input, and no sooner."""
        whole = self.all_at_once(["1 3 -"])
        self.assertEqual(events.step_program(whole, assembled(OPEN + "frame 04 04 => 3 -")), ["1 3 -"])
        self.assertEqual(events.step_program(whole, assembled("opening 0b => 1 -\nraw 01")), ["1 3 -"])

    def test_commands(self):
        with tempfile.TemporaryDirectory() as folder:
            path = os.path.join(folder, "one.txt")
            with open(path, "w", encoding="utf-8") as file:
                file.write(OPEN + "START time=100 impi=a@b => 0 01070100\n")
            options = type("Options", (), {"files": [path], "o": folder})
            self.assertEqual(events.asm(options), 0)
            with open(os.path.join(folder, "one.bin"), "rb") as file:
                self.assertEqual(file.read(), EXAMPLE[:23])
            with open(os.path.join(folder, "one.expected"), encoding="ascii") as file:
                self.assertEqual(file.read(), "1 0 01070100\n")


if __name__ == "__main__":
    unittest.main()
