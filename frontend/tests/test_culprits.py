"""What is to blame for a refusal, and what `assemble` warns of."""
from __future__ import annotations

import random
import unittest

from frontend import culprits, forewarn, listing, programs, refusals, tracefile
from frontend.assembler import read
from frontend.culprits import Scene
from frontend.stepper import Row
from frontend.tests.helpers import block, by_rote, call, held, needs_programs, parsed, random_trace
from frontend.tests.test_cli import InFolder
from frontend.tracefile import Step, Trace

FULL = 4_294_967_295
REMOVE = "Remove the domain by a policy with two empty maps, which zeroes its counts, and give it its maps anew."


def said(number: int, step: Step, domain: int | None, ways: int = 8, free: dict[int, int] | None = None, **stood) -> str:
    """Say why a step is refused, by what stood before it: maps and counts of the domains."""
    data = block(stood.get("maps", {}), 0, {0: Row(0, 0, 0, (0,) * ways)}, counts=stood.get("counts"))
    (before,) = parsed(data + held({}), Trace(1, ways, 0, ())).blocks
    return culprits.of_step(number, Scene(step, domain, ways, before, (free or {}).__getitem__))


def policy(hit: int, fill: int, domain: int = 1) -> Step:
    """Make a policy change."""
    return Step(domain, 16, hit | fill << 16)


class Input(unittest.TestCase):
    """Refusals that the step alone brings about."""

    def test_a_core_that_is_not_in_the_list(self):
        for kind in (32, 33, 34, 35, 40):
            listed = "Core 32 is not in the list: the lister lends records for cores 0 to 31."
            self.assertEqual(said(11, Step(32, kind, 0x10), None), f"{listed} Name a core from 0 to 31.")

    def test_a_domain(self):
        for kind in (0, 3, 16, 99):
            wrong = "Domain 16 is named, and domains go from 0 to 15."
            self.assertEqual(said(3, Step(16, kind, 0), 16), f"{wrong} Name a domain from 0 to 15.")

    def test_a_kind(self):
        for kind in (4, 15, 17, 31, 36, 255):
            self.assertTrue(said(4, Step(1, kind, 0), 1).startswith(f"Kind {kind} is unknown. Use 0 (fetch), 1 (load), "))

    def test_writes_of_selectors(self):
        for argument, wrong in (
            (0x10, "CS would be 16"),
            (0xFF00, "DS would be 255"),
            (0x20_0F10, "CS would be 16 and ES would be 32"),
            (0xFF10_10_11, "CS would be 17 and DS would be 16 and ES would be 16"),
        ):
            due = f"{wrong}, and a selector names a domain, 0 to 15. Name a domain from 0 to 15 by each of the three."
            self.assertEqual(said(3, Step(3, 40, argument), None), due)
        told = said(5, Step(3, 40, 0x100_0000), None)
        self.assertIn("A byte of the argument other than the three selectors is not zero. Give CS, DS and ES", told)

    def test_which_of_the_three_reasons(self):
        below, part, upper = "Name only ways below 8.", "Put every way of the fill map into the hit map too.", "Leave the upper 32 bits zero."
        for argument, due in (
            (0x0000_0100, f"The hit map has way 8 (0x100), and the cache has ways 0 to 7. {below}"),
            (0x0300_0F00, f"The hit map has ways 8-11 (0xf00) and the fill map has ways 8,9 (0x300), and the cache has ways 0 to 7. {below}"),
            (0x000C_0004, f"The fill map has way 3 (0x8), which the hit map has not. {part}"),
            (0x0003_0000, f"The fill map has ways 0,1 (0x3), which the hit map has not. {part}"),
            (0x1_0003_0003, f"Bits above the two maps are set, 0x1_0000_0000. {upper}"),
        ):
            self.assertEqual(said(5, Step(1, 16, argument), 1), due)
        told = said(5, Step(1, 16, 0x8000_0000_0100_0001), 1)
        for part in ("The fill map has way 8 (0x100), and", "which the hit map has not.", "0x8000_0000_0000_0000. Name", upper):
            self.assertIn(part, told)

    def test_all_sixteen_ways(self):
        self.assertEqual(said(5, Step(1, 16, 0xFFFF_FFFF), 1, ways=16), refusals.of_number(5))  # no lister refuses it so


class State(unittest.TestCase):
    """Refusals that depend on what stood before the step."""

    def test_a_domain_without_ways(self):
        due = "The hit map of domain 1 is empty: it has no ways."
        told = said(6, Step(1, 1, 64), 1)
        self.assertEqual(told, f"{due} Give it ways by a policy step before its first access or flush.")
        for kind, selector in ((32, "CS"), (33, "DS"), (34, "ES"), (35, "DS")):
            fix = f"Give it ways by a policy step first, or let {selector} of core 3 name a domain that has ways."
            self.assertEqual(said(6, Step(3, kind, 64), 1), f"{due} {fix}")

    def test_a_selector_that_is_no_domain(self):
        for kind, selector in ((32, "CS"), (33, "DS"), (34, "ES"), (35, "DS")):
            due = f"{selector} of core 3 is 77, and a selector names a domain, 0 to 15. Write the selectors of core 3 anew, each"
            self.assertEqual(said(3, Step(3, kind, 64), 77), f"{due} from 0 to 15.")

    def test_which_count(self):
        counts = {1: (0, FULL, 0, 0, 0, FULL, 0), 2: (FULL,) * 7}
        due = f"The counts of misses and fills of domain 1 are 4,294,967,295 and cannot rise. {REMOVE}"
        self.assertEqual(said(7, Step(1, 1, 64), 1, counts=counts), due)
        self.assertEqual(said(7, Step(3, 33, 64), 1, counts=counts), due)
        counts = {1: (0, 0, 0, 0, 0, 0, FULL - 2)}
        due = "The count of dropped lines of domain 1 is 4,294,967,293, and the lines that the change would drop would carry it past"
        self.assertEqual(said(7, policy(0, 0), 1, counts=counts), f"{due} 4,294,967,295. {REMOVE}")
        self.assertEqual(said(7, Step(1, 1, 64), 1), refusals.of_number(7))  # no count is full

    def test_which_ways_of_which_domain(self):
        maps = {0: (0b0011, 0b0011), 1: (0b1100, 0b1100), 7: (0b1_0000, 0)}
        fix = "Leave what is shared out, or take it from the other domain by a policy step first."
        for asked, due in (
            (0b0010, "domain 0 has way 1 (0x2) in its hit map"),
            (0b1111, "domain 0 has ways 0,1 (0x3) in its hit map"),
            (0b1_1111, "domain 0 has ways 0,1 (0x3) in its hit map and domain 7 has way 4 (0x10) in its hit map"),
        ):
            self.assertEqual(said(8, policy(asked, 0), 1, maps=maps), f"The hit map shares ways: {due}. {fix}")

    def test_which_nodes_of_which_domain(self):
        free = {0: 0, 5: 0b10, 10: 0b10, 0xF0: 0b1100100}
        maps = {0: (5, 5), 1: (0xF0, 0xF0)}
        told = said(9, policy(10, 10), 1, maps=maps, free=free)
        self.assertTrue(told.startswith("Node 1 would be free for domain 1 and for domain 0: each could turn a bit that"), told)
        self.assertTrue(told.endswith(refusals.REFUSALS[9].fix), told)
        free[255] = 0b1111111
        told = said(9, policy(255, 255, 2), 2, maps=maps, free=free)
        both = "Node 1 would be free for domain 2 and for domain 0; nodes 2,5,6 would be free for domain 2 and for domain 1: each"
        self.assertTrue(told.startswith(both), told)

    def test_numbers_that_nothing_explains(self):
        for number in (77, 1, 2, 10):
            for step, domain in ((Step(0, 1, 0), 0), (Step(0, 33, 0), 0), (Step(0, 40, 0), None), (policy(1, 1), 1)):
                self.assertEqual(said(number, step, domain), refusals.of_number(number))
        for number, step, domain in (
            (3, Step(1, 1, 0), 1),
            (3, Step(0, 40, 0), None),
            (4, Step(1, 1, 0), 1),
            (5, Step(1, 1, 0xFFFF_FFFF_FFFF), 1),
            (5, policy(3, 3), 1),
            (6, Step(32, 33, 0), None),
            (7, Step(77, 1, 0), 77),
            (8, policy(3, 3), 1),
            (8, Step(1, 1, 3), 1),
            (9, Step(1, 1, 3), 1),
            (11, Step(1, 1, 0), 1),
            (11, Step(3, 33, 0), 2),
        ):
            self.assertEqual(said(number, step, domain, maps={0: (4, 4)}), refusals.of_number(number), (number, step))


class Warnings(InFolder):
    """What `assemble` tells of a text that the cache will refuse in part or as a whole."""

    HEADER = "sets 4\nways 8\nrule tree\n"

    def warned(self, text: str) -> list[str]:
        return list(forewarn.of(read("t.txt", text.encode())))

    def test_nothing(self):
        self.assertEqual(self.warned(f"{self.HEADER}0 policy hit=0-7 fill=0\n".replace("fill=0", "fill=none") + "0 load 0\n2 load 0\n"), [])

    def test_a_step(self):
        (told,) = self.warned(f"{self.HEADER}0 load 0x40\n  16 load 0x40  # too many\n")
        why = "this step can only be refused, by 3. Domain 16 is named, and domains go from 0 to 15. Name a domain from 0 to 15."
        self.assertEqual(told, f"t.txt:5:3: warning: {why}\n      16 load 0x40  # too many\n      ^^^^^^^^^^^^")

    def test_a_geometry(self):
        for header, line, why in (
            ("sets 3\nways 8\nrule tree", 1, "3 sets; the number of sets is a power of two from 1 to 256"),
            ("sets 0\nways 8\nrule tree", 1, "0 sets; the number of sets is a power of two from 1 to 256"),
            ("sets 4\nways 3\nrule tree", 2, "3 ways; the number of ways is 2, 4, 8 or 16"),
            ("sets 4\nways 8\nrule 3", 3, "rule 3; rules are 0 (tree), 1 (nru), 2 (lru)"),
        ):
            (told,) = self.warned(f"{header}\n16 load 0\n")  # of its steps nothing is said
            self.assertTrue(told.startswith(f"t.txt:{line}:1: warning: the whole file will be refused by 1: {why}\n    "), told)
        self.assertEqual(len(self.warned("sets 3\nways 3\nrule 9\n")), 3)

    def test_many_steps(self):
        told = self.warned(self.HEADER + "0 kind=99 0\n" * 50)
        self.assertEqual((len(told), told[-1]), (21, "t.txt: 50 steps can only be refused, the first 20 shown"))

    def test_the_file_is_written_all_the_same(self):
        text = self.file("t.txt", f"{self.HEADER}0 load 0\n77 load 0\n".encode())
        target = self.folder / "t.trace"
        status, out, err = call("assemble", text, "-o", str(target))
        self.assertEqual((status, out, len(target.read_bytes())), (0, b"", 28))
        self.assertRegex(err, r"t\.txt:5:1: warning: this step can only be refused, by 3\. Domain 77 is(.|\n)*t\.trace: 4 sets, 8 ways")
        self.assertEqual(call("assemble", text, "-o", "-")[1], target.read_bytes())

    @needs_programs
    def test_the_lister_refuses_what_is_warned_of_and_nothing_else_from_the_input(self):
        source, seen = random.Random(21), set()
        for _ in range(60):
            trace = random_trace(source, 60)
            listed = listing.parse(programs.lister(tracefile.encode(trace)))
            self.assertEqual(bool(list(forewarn.outside(trace))), listed.refused == 1, trace)
            for step, answer in zip(trace.steps, listed.answers):
                found = culprits.from_input(step, trace.ways)
                number = answer.fields[0] if answer.word == "refused" else None
                self.assertEqual(found and found[0], number if number in (3, 4, 5, 11) else None, (step, answer))
                seen.add(found and found[0])
        self.assertEqual(seen, {None, 3, 4, 5, 11})


@needs_programs
class SharedNodes(unittest.TestCase):
    """The nodes that are named for refusal 9 are those that the proved program says to be free."""

    def test_case_f(self):
        trace = Trace(1, 8, 0, (Step(0, 16, 0x0005_0005), Step(1, 16, 0x000A_000A)))
        status, out, err = call("explain", "-", "--refused", stdin=tracefile.encode(trace))
        self.assertEqual((status, err), (0, ""))
        self.assertIn("\n  refused 9\n  Node 1 would be free for domain 1 and for domain 0: each could turn", out.decode())

    def test_parts_is_asked_once(self):
        steps = (Step(0, 16, 0x0005_0005), *(Step(1, 16, fill | fill << 16) for fill in (10, 0x10A, 0x80A, 10)))
        data, asked, real = tracefile.encode(Trace(1, 16, 0, steps)), [], programs.parts
        with by_rote(parts=lambda entries: asked.append(entries) or real(entries)):
            status, out, _ = call("explain", "-", stdin=data)
        self.assertEqual((status, out.count(b"refused 9"), len(asked)), (0, 4, 1))

    def test_more_maps_than_a_file_has_steps(self):
        fills = [fill for fill in range(1, 1 << 16) if fill & 0b11 == 0b01][:4095]
        steps = (Step(0, 16, 0x000A_000A), *(Step(1, 16, fill | fill << 16) for fill in fills))
        status, out, err = call("explain", "-", "--word", "refused", stdin=tracefile.encode(Trace(1, 16, 0, steps)))
        self.assertEqual((status, err), (0, ""))
        self.assertGreater(out.count(b"\n  refused 9\n  Node"), 100)
