"""The readable form: what it says, and that it goes there and back."""
from __future__ import annotations

import random
import unittest

from frontend import cores, maps, numbers, text, tracefile
from frontend.assembler import assemble
from frontend.programs import ROOT
from frontend.tests import balance, case_a, core_switch, highest_first, locked_lines, true_lru
from frontend.tests.helpers import random_file, random_trace
from frontend.tracefile import Step, Trace

HEADER = "sets 1\nways 4\nrule tree\n"


def steps_of(lines: str) -> tuple[Step, ...]:
    """Assemble step lines under a header."""
    return assemble("case.txt", (HEADER + lines).encode()).steps


class RoundTrip(unittest.TestCase):
    """Showing a file and assembling the text gives the file."""

    def there_and_back(self, data: bytes) -> None:
        shown = text.show(tracefile.decode(data)).encode("ascii")
        self.assertEqual(tracefile.encode(assemble("shown.txt", shown)), data)

    def test_random_bytes(self):
        source = random.Random(3)
        for count in (0, 1, 5, 400):
            self.there_and_back(random_file(source, count))

    def test_random_traces(self):
        source = random.Random(4)
        for count in range(0, 200, 3):
            self.there_and_back(tracefile.encode(random_trace(source, count)))

    def test_every_kind_and_domain(self):
        for argument in (0, 63, 0xFFFF_FFFF, 0x1_0000_0000, (1 << 64) - 1):
            steps = tuple(Step(number, 255 - number, argument) for number in range(256))
            self.there_and_back(tracefile.encode(Trace(0, 255, 7, steps)))

    def test_every_kind_of_a_core(self):
        for kind in (32, 33, 34, 35, 40):
            for argument in (0, 64, 0x02_0101, 0xFF_FFFF, 0x100_0000, 0x100_0203, (1 << 64) - 1):
                steps = tuple(Step(core, kind, argument) for core in range(256))
                self.there_and_back(tracefile.encode(Trace(1, 4, 0, steps)))

    def test_selectors_all_over(self):
        source = random.Random(16)
        steps = [Step(3, 40, number << 8 * place) for place in range(3) for number in range(256)]
        steps += [Step(31, 40, source.getrandbits(24)) for _ in range(1000)]
        steps += [Step(32, 40, source.getrandbits(64)) for _ in range(1000)]
        self.there_and_back(tracefile.encode(Trace(1, 4, 0, tuple(steps))))

    def test_maps_all_over(self):
        steps = tuple(Step(1, 16, word | (word * 3 & 0xFFFF) << 16) for word in range(0, 1 << 16, 17))
        self.there_and_back(tracefile.encode(Trace(1, 16, 1, steps)))

    def test_most_steps(self):
        self.there_and_back(tracefile.encode(Trace(256, 16, 1, (Step(15, 2, 1 << 63),) * 4096)))

    def test_geometries(self):
        for sets, ways, rule in ((0, 0, 0), (256, 255, 255), (3, 5, 2), (1, 4, 3)):
            self.there_and_back(tracefile.encode(Trace(sets, ways, rule, ())))


class Forms(unittest.TestCase):
    """What lines of a text mean."""

    def test_case_a(self):
        source = (ROOT / "examples" / "case-a.txt").read_bytes()
        self.assertEqual(tracefile.encode(assemble("case-a.txt", source)), case_a.FILE)

    def test_true_lru(self):
        source = (ROOT / "examples" / "true-lru.txt").read_bytes()
        self.assertEqual(tracefile.encode(assemble("true-lru.txt", source)), true_lru.FILE)

    def test_locked_lines(self):
        source = (ROOT / "examples" / "locked-lines.txt").read_bytes()
        self.assertEqual(tracefile.encode(assemble("locked-lines.txt", source)), locked_lines.FILE)

    def test_core_switch(self):
        source = (ROOT / "examples" / "core-switch.txt").read_bytes()
        self.assertEqual(tracefile.encode(assemble("core-switch.txt", source)), core_switch.FILE)

    def test_balance(self):
        source = (ROOT / "examples" / "balance.txt").read_bytes()
        self.assertEqual(tracefile.encode(assemble("balance.txt", source)), balance.FILE)

    def test_highest_first(self):
        source = (ROOT / "examples" / "highest-first.txt").read_bytes()
        self.assertEqual(tracefile.encode(assemble("highest-first.txt", source)), highest_first.FILE)

    def test_canonical_text(self):
        shown = text.show(tracefile.decode(case_a.FILE))
        policies = "0 policy hit=0,1 fill=0,1  # 0x3 0x3\n1 policy hit=2,3 fill=2,3  # 0xc 0xc\n"
        expected = f"{policies}0 store 0x0\n0 load 0x40\n"
        self.assertTrue(shown.startswith("sets 1\nways 4\nrule tree\n\n" + expected), shown)

    def test_maps_in_hexadecimal(self):
        for argument, line in (
            (0x0003_000F, "0 policy hit=0-3 fill=0,1  # 0xf 0x3"),
            (0x0000_8000, "0 policy hit=way15 fill=none  # 0x8000 0x0"),
            (0, "0 policy hit=none fill=none  # 0x0 0x0"),
            (0x1_0000_0000, "0 policy arg=0x1_0000_0000"),
        ):
            trace = Trace(1, 16, 0, (Step(0, 16, argument),))
            self.assertEqual(text.show(trace).splitlines()[-1], line)
            self.assertEqual(assemble("one", text.show(trace).encode()), trace)

    def test_canonical_text_without_steps(self):
        for rule, name in ((0, "tree"), (1, "nru"), (2, "lru"), (3, "3"), (9, "9")):
            self.assertEqual(text.show(Trace(2, 8, rule, ())), f"sets 2\nways 8\nrule {name}\n")

    def test_raw_forms_are_shown_where_needed(self):
        steps = (Step(7, 9, 0x123), Step(0, 16, 0x1_0000_0003), Step(200, 0, 1 << 63))
        shown = text.show(Trace(1, 4, 1, steps))
        expected = "rule nru\n\n7 kind=9 0x123\n0 policy arg=0x1_0000_0003\n200 fetch 0x8000_0000_0000_0000\n"
        self.assertTrue(shown.endswith(expected), shown)

    def test_steps_of_cores_are_shown_by_name(self):
        for step, line in (
            (Step(3, 32, 64), "core 3 fetch 0x40"),
            (Step(0, 33, 0), "core 0 load 0x0"),
            (Step(32, 34, 1 << 32), "core 32 store 0x1_0000_0000"),
            (Step(255, 35, 64), "core 255 flush 0x40"),
            (Step(3, 40, 0x020100), "core 3 select cs=0 ds=1 es=2"),
            (Step(3, 40, 0xFF0010), "core 3 select cs=16 ds=0 es=255"),
            (Step(3, 40, 0x100_0000), "core 3 select arg=0x100_0000"),
            (Step(3, 40, 0x1_0002_0100), "core 3 select arg=0x1_0002_0100"),
            (Step(3, 36, 64), "3 kind=36 0x40"),
            (Step(3, 39, 64), "3 kind=39 0x40"),
            (Step(3, 41, 64), "3 kind=41 0x40"),
        ):
            self.assertEqual(text.show_step(step), line)
            self.assertEqual(steps_of(line), (step,))

    def test_steps_of_cores(self):
        lines = "core 3 fetch 0\ncore 0 load 64\ncore 0x1f store 0x80\ncore 255 flush 0b11\n\tcore  1\tload 1_000 #\n"
        expected = (Step(3, 32, 0), Step(0, 33, 64), Step(31, 34, 128), Step(255, 35, 3), Step(1, 33, 1000))
        self.assertEqual(steps_of(lines), expected)
        self.assertEqual(steps_of("3 kind=33 0x40\n3 kind=40 0x20101\n"), (Step(3, 33, 64), Step(3, 40, 0x020101)))

    def test_selectors(self):
        for written, argument in (
            ("cs=0 ds=1 es=1", 0x01_0100),
            ("es=3 cs=1 ds=2", 0x03_0201),
            ("ds=0x0f es=0b1 cs=15", 0x01_0F0F),
            ("cs=16 ds=255 es=200", 0xC8_FF10),
            ("arg=0", 0),
            ("arg=0x1_0000_0000_0000", 1 << 48),
            ("arg=18446744073709551615", (1 << 64) - 1),
        ):
            self.assertEqual(steps_of(f"core 3 select {written}\n"), (Step(3, 40, argument),), written)

    def test_kinds(self):
        lines = "0 fetch 0\n1 load 64\n2 store 0x80\n3 flush 0b11\n4 kind=16 7\n5 kind=0x20 1_000\n"
        expected = (Step(0, 0, 0), Step(1, 1, 64), Step(2, 2, 128), Step(3, 3, 3), Step(4, 16, 7), Step(5, 32, 1000))
        self.assertEqual(steps_of(lines), expected)

    def test_policies(self):
        for written, argument in (
            ("hit=0,1 fill=0,1", 0x0003_0003),
            ("hit=0-3 fill=none", 0x0000_000F),
            ("hit=0x3 fill=0x1", 0x0001_0003),
            ("hit=way3 fill=0b1000", 0x0008_0008),
            ("hit=3-3 fill=0x8", 0x0008_0008),
            ("hit=0-2,5,7-15 fill=way15", 0x8000_FFA7),
            ("fill=way2 hit=2,3", 0x0004_000C),
            ("arg=0x1_0000_0003", 0x1_0000_0003),
            ("hit=none fill=none", 0),
        ):
            self.assertEqual(steps_of(f"1 policy {written}\n"), (Step(1, 16, argument),), written)

    def test_rules(self):
        for name, number in (("tree", 0), ("tree-plru", 0), ("nru", 1), ("lru", 2), ("0", 0), ("0x2", 2), ("255", 255)):
            trace = assemble("case.txt", f"rule {name}\nways 2\nsets 8\n".encode())
            self.assertEqual(trace, Trace(8, 2, number, ()))

    def test_comments_blanks_tabs_and_line_ends(self):
        data = b"\xef\xbb\xbf# caf\xc3\xa9\r\nsets 1\r\n\r\n ways\t4 # four\r\nrule nru#x\r\n\t0\tload\t64"
        self.assertEqual(assemble("case.txt", data), Trace(1, 4, 1, (Step(0, 1, 64),)))

    def test_every_example_assembles(self):
        found = sorted((ROOT / "examples").glob("*.txt"))
        self.assertIn("case-a.txt", [path.name for path in found])
        for path in found:
            assemble(path.name, path.read_bytes())


class Parts(unittest.TestCase):
    """Numbers and maps by themselves."""

    def test_numbers(self):
        for written, value in (("0", 0), ("007", 7), ("1_000", 1000), ("0xFf", 255), ("0b1_0", 2), ("0X1", 1)):
            self.assertEqual(numbers.parse(written), value, written)
        for written in ("", "-1", "+1", "1.0", "x", "0x", "0b2", "1_", "_1", "1__0", "\u0663", "1e3"):
            self.assertIsNone(numbers.parse(written), written)
        self.assertGreater(numbers.parse("9" * 10_000), 1 << 64)
        self.assertEqual(numbers.parse("0" * 10_000 + "5"), 5)

    def test_hexadecimal(self):
        for number, digits, written in (
            (0, 1, "0x0"),
            (0x1_0000, 1, "0x1_0000"),
            (0x1, 2, "0x01"),
            (0x132, 4, "0x0132"),
            (0x123_4567, 8, "0x0123_4567"),
            (0x123_4567_89AB_CDEF, 16, "0x0123_4567_89ab_cdef"),
            (0x1_0123, 4, "0x1_0123"),
        ):
            self.assertEqual(numbers.hexadecimal(number, digits), written)

    def test_maps(self):
        for word in range(1 << 16):
            self.assertEqual(maps.parse(maps.write(word)), word)
        written = ["none", "way0", "way3", "0,1", "0-2", "0-2,4,5"]
        self.assertEqual([maps.write(word) for word in (0, 1, 8, 3, 7, 0b110111)], written)

    def test_selectors(self):
        for selectors, argument in (((0, 0, 0), 0), ((1, 2, 3), 0x030201), ((255, 0, 16), 0x1000FF)):
            self.assertEqual((cores.join(selectors), cores.split(argument)), (argument, selectors))
        self.assertIsNone(cores.split(0x100_0000))
        self.assertEqual(cores.lowest(0x904_0302_0100), (0, 1, 2))
        self.assertEqual(cores.write((0, 1, 15)), "CS 0, DS 1, ES 15")
        for kind, place in ((32, 0), (33, 1), (34, 2), (35, 1), (40, None), (0, None), (16, None), (36, None)):
            self.assertEqual(cores.place(Step(0, kind, 0)), place)
