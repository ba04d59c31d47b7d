"""The comparison with the struck-out run, on listings made by hand."""
from __future__ import annotations

import re
import unittest
from dataclasses import replace

from frontend import isolate, struck, text, tracefile
from frontend.compare import compare
from frontend.errors import MachineFailure
from frontend.isolate import Isolated
from frontend.paint import Paint
from frontend.run import Run
from frontend.stepper import Row
from frontend.tests import core_switch, schema, true_lru
from frontend.tests.helpers import block, by_rote, call, held, taken, with_counts
from frontend.tests.test_cli import InFolder
from frontend.tracefile import Step, Trace

STEPS = (
    Step(0, 16, 0x1_0001),
    Step(1, 16, 0x2_0002),
    Step(1, 1, 0),
    Step(0, 1, 0),
    Step(2, 16, 0x1_0001),
    Step(1, 3, 0),
    Step(0, 1, 64),
)
WHOLE = Trace(1, 2, 1, STEPS)
STRUCK = Trace(1, 2, 1, tuple(step for place, step in enumerate(STEPS) if place not in (2, 5)))

WHOLE_LISTING = b"""\
1 2 1 7
0 policy 0 0
1 policy 0 0
2 fill 1
3 fill 0
4 refused 8
5 flush 1 0
6 evict 0 0 0
domain 0 0 2 1 0 0 2 0
domain 1 0 1 0 0 1 1 0
"""
STRUCK_LISTING = b"""\
1 2 1 5
0 policy 0 0
1 policy 0 0
2 fill 0
3 refused 8
4 evict 0 0 0
domain 0 0 2 1 0 0 2 0
domain 1 0 0 0 0 0 0 0
"""
BOTH = {0: (1, 1), 1: (2, 2)}
FRESH = block({}, 0, {0: Row(0, 0, 3, (0, 0))})
MADE = block({0: (1, 1)}, domain=0), block(BOTH, domain=1)


def whole_stream(visited: int = 1) -> bytes:
    """Write the stream of the whole run, in which the neighbour's fill visited some ways."""
    return with_counts(
        WHOLE_LISTING,
        FRESH,
        *MADE,
        block(BOTH, 0, {0: Row(2, 0, 1, (0, 0))}, visited, 1),
        block(BOTH, 0, {0: Row(3, 0, 0, (0, 0))}, 1, 0),
        block(BOTH, domain=2),
        block(BOTH, 0, {0: Row(1, 0, 0, (0, 0))}, 1, 1),
        block(BOTH, 0, {0: Row(1, 0, 0, (1, 0))}, 1, 0),
        held({0: 1}),
    )


WHOLE_STREAM = whole_stream()
STRUCK_MID = block(BOTH, 0, {0: Row(1, 0, 2, (0, 0))}, 1, 0), block(BOTH, domain=2)


def struck_stream(last: bytes) -> bytes:
    """Write the stream of the struck-out run with a last block."""
    return with_counts(STRUCK_LISTING, FRESH, *MADE, *STRUCK_MID, last, held({0: 1}))


STRUCK_STREAM = struck_stream(block(BOTH, 0, {0: Row(1, 0, 2, (1, 0))}, 1, 0))



WHOLE_RUN = taken(WHOLE, WHOLE_LISTING, WHOLE_STREAM)
# Domain 0 has fill map 1 at the end of both runs, and the one set's word is 0, and 2 in the struck-out run.
PARTS_ASKED = tuple(tracefile.encode(Trace(1, 2, 1, (Step(1, 0, word),))) for word in (0, 2))


def rendered(name: str, whole: Run, struck: Run) -> str:
    """Lay out how two runs compare for domain 0."""
    found = [Isolated(0, struck, compare(whole, struck, 0))]
    return "\n".join(isolate.render_one(name, whole, found, Paint(False))) + "\n"


class Compare(unittest.TestCase):
    """What is compared, and what is found."""

    def found(self, listed: bytes = STRUCK_LISTING, stream: bytes = STRUCK_STREAM):
        return compare(WHOLE_RUN, taken(STRUCK, listed, stream), 0)

    def rendered(self, listed: bytes = STRUCK_LISTING, stream: bytes = STRUCK_STREAM) -> str:
        struck = taken(STRUCK, listed, stream)
        return rendered("t.trace", WHOLE_RUN, struck)

    def test_no_difference(self):
        found = self.found()
        self.assertEqual(found.differences(), [])
        self.assertEqual([pair.places for pair in found.own], [(0, 0), (3, 2), (6, 4)])
        self.assertEqual([pair.places for pair in found.others], [(1, 1), (4, 3)])
        self.assertEqual([pair.seen[0] for pair in found.others], ["accepted", "refused 8"])
        told = self.rendered()
        self.assertIn("Struck out: 2 steps", told)
        self.assertIn("No difference: domain 0 sees the same in both runs, and each of its lookups visits as many ways.\n", told)
        self.assertNotIn("*", told)
        self.assertRegex(told, r"\n +0 +0 +asks for .* +policy 0 0 +policy 0 0\n")
        self.assertRegex(told, r"\n +6 +4 +loads at 0x40 +evict 0 0 0, 1 way visited +evict 0 0 0, 1 way visited\n")
        self.assertRegex(told, r"\n +line of the listing +domain 0 0 2 1 0 0 2 0 +domain 0 0 2 1 0 0 2 0\n")
        self.assertRegex(told, r"\n +lines in its ways +1 valid +1 valid\n")
        self.assertRegex(told, r"\n +core records +0 of 32 not zero +0 of 32 not zero\n")
        self.assertNotIn("by cores", told)

    def test_different_answer(self):
        listed = STRUCK_LISTING.replace(b"2 fill 0", b"2 hit 0").replace(b"4 evict 0 0 0", b"4 evict 0 0 1")
        told = self.rendered(listed)
        self.assertRegex(told, r"\n\* +3 +2 +loads at 0x0 +fill 0, 1 way visited +hit 0, 1 way visited +<- first difference\n")
        self.assertRegex(told, r"\n\* +6 +4 +loads at 0x40 +evict 0 0 0, 1 way visited +evict 0 0 1, 1 way visited\n")
        self.assertEqual(told.count("<- first difference"), 1)
        self.assertIn(
            "First difference: step 3 (2 in the struck-out run), domain 0 loads at 0x0: "
            "'fill 0, 1 way visited' in the whole run, 'hit 0, 1 way visited' in the struck-out run.\n",
            told,
        )
        self.assertIn("\n2 differences: domain 0 does not see the same in both runs.\n", told)
        self.assertIn("\nNext difference: step 6 (4 in the struck-out run), domain 0 loads at 0x40: 'evict 0 0 0, 1", told)

    def test_different_number_of_ways_visited(self):
        stream = struck_stream(block(BOTH, 0, {0: Row(1, 0, 2, (1, 0))}, 2, 0))
        self.assertEqual([pair.places for pair in self.found(stream=stream).differences()], [(6, 4)])
        told = self.rendered(stream=stream)
        self.assertRegex(told, r"\n\* +6 +4 .* +evict 0 0 0, 1 way visited +evict 0 0 0, 2 ways visited +<- first difference\n")
        self.assertIn("\n1 difference: domain 0 does not see the same in both runs.\n", told)
        self.assertIn(
            "First difference: step 6 (4 in the struck-out run), domain 0 loads at 0x40: "
            "'evict 0 0 0, 1 way visited' in the whole run, 'evict 0 0 0, 2 ways visited' in the struck-out run.\n",
            told,
        )

    def test_a_lookup_in_one_run_alone(self):
        stream = struck_stream(block(BOTH, 0, {0: Row(1, 0, 2, (1, 0))}, 0, 0))
        first = self.found(stream=stream).differences()[0]
        self.assertEqual(first.seen, ("evict 0 0 0, 1 way visited", "evict 0 0 0"))

    def test_ways_visited_for_another_domain_may_differ(self):
        whole = taken(WHOLE, WHOLE_LISTING, whole_stream(2))
        self.assertNotEqual(whole.visited, WHOLE_RUN.visited)
        self.assertEqual(compare(whole, taken(STRUCK, STRUCK_LISTING, STRUCK_STREAM), 0).differences(), [])

    def test_different_verdict_on_another_domain(self):
        told = self.rendered(STRUCK_LISTING.replace(b"3 refused 8", b"3 policy 0 0"))
        self.assertRegex(told, r"\n\* +4 +3 +domain 2 asks for .* +refused 8 +accepted +<- first difference\n")

    def test_drops_of_another_domain_may_differ(self):
        self.assertEqual(self.found(STRUCK_LISTING.replace(b"1 policy 0 0", b"1 policy 5 2")).differences(), [])

    def test_counts_of_another_domain_may_differ(self):
        self.assertEqual(self.found(STRUCK_LISTING.replace(b"domain 1 0 0 0 0 0 0 0\n", b"")).differences(), [])

    def test_different_counts(self):
        line = "domain 0 0 2 1 0 0 2 0"
        for place in range(2, 9):
            numbers = line.split()
            other = " ".join((*numbers[:place], "9", *numbers[place + 1 :]))
            first = self.found(STRUCK_LISTING.replace(line.encode(), other.encode())).differences()[0]
            self.assertEqual(first.seen, (line, other))

    def test_line_of_the_domain_missing(self):
        told = self.rendered(STRUCK_LISTING.replace(b"domain 0 0 2 1 0 0 2 0\n", b""))
        self.assertRegex(told, r"\n\* +line of the listing +domain 0 0 2 1 0 0 2 0 +none +<- first difference\n")
        self.assertIn("First difference: at the end, line of the listing:", told)

    def test_counts_of_a_domain_without_a_line(self):
        none, trace = (0,) * 7, Trace(1, 2, 1, (Step(9, 99, 0),))
        for counts, same in ((none, True), ((*none[1:], 1), False), ((1, *none[1:]), False)):
            streams = (FRESH + block({}, domain=9, counts={9: said}) + held({}) for said in (none, counts))
            whole, struck = (taken(trace, b"1 2 1 1\n0 refused 4\n", stream) for stream in streams)
            found = compare(whole, struck, 9)
            names = [ending.name for ending in found.endings[:2]]
            self.assertEqual((names, found.differences() == []), (["line of the listing", "counts"], same), counts)

    def test_different_line_in_its_way(self):
        stream = struck_stream(block(BOTH, 0, {0: Row(1, 1, 2, (1, 0))}, 1, 0))
        first = self.found(stream=stream).differences()[0]
        self.assertEqual((first.name, first.seen), ("set 0 way 0", ("tag 1", "tag 1, dirty")))

    def test_different_map(self):
        stream = struck_stream(block({0: (1, 0), 1: (2, 2)}, 0, {0: Row(1, 0, 2, (1, 0))}, 1, 0))
        first = self.found(stream=stream).differences()[0]
        self.assertEqual((first.name, first.seen), ("fill map", ("way0 (0x1)", "none (0x0)")))

    def test_steps_that_do_not_pair(self):
        with self.assertRaises(MachineFailure):
            compare(WHOLE_RUN, taken(Trace(1, 2, 1, ()), b"1 2 1 0\n", FRESH + held({})), 0)


class Counted(unittest.TestCase):
    """All differences are counted, and the first few are told."""

    SETS, WAYS = 8, 2

    def run_of(self, dirty: int) -> Run:
        policy = Step(0, 16, 0x3_0003)
        fresh = {number: Row(0, 0, 0, (0, 0)) for number in range(self.SETS)}
        last = {number: Row(3, dirty, 0, (1, 2)) for number in range(self.SETS)}
        stream = block({}, 0, fresh) + block({0: (3, 3)}, 0, last, domain=0) + held({0: self.SETS * self.WAYS})
        listed = b"8 2 0 1\n0 policy 0 0\ndomain 0 0 0 0 0 0 0 0\n"
        return taken(Trace(self.SETS, self.WAYS, 0, (policy,)), listed, stream)

    def test_every_line_counts(self):
        whole, struck = self.run_of(0), self.run_of(3)
        found = compare(whole, struck, 0)
        self.assertEqual(len(found.differences()), self.SETS * self.WAYS)
        told = rendered("t.trace", whole, struck)
        hidden = self.SETS * self.WAYS - isolate.MOST_ENDINGS
        self.assertEqual(told.count("\n*  set "), isolate.MOST_ENDINGS)
        self.assertIn(f"\n*  and {hidden} more differences\n", told)
        self.assertIn("\n16 differences: domain 0 does not see the same in both runs.\n", told)
        self.assertEqual(told.count("difference: at the end, set "), isolate.MOST_TOLD)
        self.assertTrue(told.endswith(f"\nAnd {16 - isolate.MOST_TOLD} more.\n"), told)

    def test_no_more_than_there_are(self):
        found = compare(self.run_of(0), self.run_of(1), 0)
        self.assertEqual(len(found.differences()), self.SETS)
        self.assertEqual([ending.name for ending in found.differences()[:2]], ["set 0 way 0", "set 1 way 0"])


def lines_of(steps: tuple[Step, ...]) -> bytes:
    """Write steps as the purger does."""
    return "".join(f"{step.named} {step.kind} {step.argument}\n" for step in steps).encode()


def refused_run(steps: tuple[Step, ...], *domains: int, records: dict[int, tuple[int, int, int]] | None = None) -> Run:
    """Make a run in which every step was refused, and taken for a domain."""
    listed = "".join(f"{place} refused 6\n" for place in range(len(steps)))
    fresh = block({}, 0, {0: Row(0, 0, 0, (0, 0))}, records=records)
    stream = fresh + b"".join(block({}, domain=domain, records=records) for domain in domains) + held({})
    return taken(Trace(1, 2, 0, steps), f"1 2 0 {len(steps)}\n{listed}".encode(), stream)


class StruckOut(unittest.TestCase):
    """The purger's list is held against the steps that are to be kept."""

    def refused(self, lines: bytes, domain: int = 0) -> str:
        with self.assertRaises(MachineFailure) as caught:
            struck.kept(WHOLE_RUN, domain, lines)
        return str(caught.exception)

    def test_the_struck_out_list(self):
        self.assertEqual(struck.kept(WHOLE_RUN, 0, lines_of(STRUCK.steps)), STRUCK)
        kinds = (0, 1, 2, 3, 4, 15, 16, 17, 31, 36, 39, 41, 255)
        steps = tuple(Step(domain, kind, 7) for domain in (0, 1, 16, 255) for kind in kinds)
        kept = tuple(step for step in steps if step.named == 1 or step.kind > 3)
        whole = refused_run(steps, *(step.named for step in steps))
        self.assertEqual(struck.kept(whole, 1, lines_of(kept)).steps, kept)
        self.assertEqual(struck.kept(refused_run(()), 3, b"").steps, ())

    def test_steps_by_cores(self):
        records = {0: (1, 2, 3), 31: (2, 3, 1), 5: (16, 77, 255)}
        accesses = tuple(Step(core, kind, 7) for core in (0, 31, 4, 5, 32, 255) for kind in (32, 33, 34, 35))
        steps = (*accesses, *(Step(core, 40, 1 << 40) for core in (0, 1, 31, 32, 255)))
        none = 65535
        chosen = (1, 2, 3, 2, 2, 3, 1, 3, 0, 0, 0, 0, 16, 77, 255, 77, *[none] * 8, *[none] * 5)
        whole = refused_run(steps, *chosen, records=records)
        for domain, of_it in (
            (0, (Step(4, 32, 7), Step(4, 33, 7), Step(4, 34, 7), Step(4, 35, 7))),
            (1, (Step(0, 32, 7), Step(31, 34, 7))),
            (2, (Step(0, 33, 7), Step(0, 35, 7), Step(31, 32, 7))),
            (3, (Step(0, 34, 7), Step(31, 33, 7), Step(31, 35, 7))),
            (15, ()),
        ):
            kept = tuple(step for step in steps if step in of_it or step.named > 31 or step.kind == 40)
            self.assertEqual(len(kept), len(of_it) + 8 + 5)
            self.assertEqual(struck.kept(whole, domain, lines_of(kept)).steps, kept)
            with self.assertRaises(MachineFailure):
                struck.kept(whole, domain, lines_of(tuple(step for step in kept if step.named < 32)))
            with self.assertRaises(MachineFailure):
                struck.kept(whole, domain, lines_of(steps))

    def test_a_purger_that_strikes_by_the_core_number(self):
        steps = Step(1, 33, 64), Step(0, 33, 64)  # core 0's DS is 1, and core 1's is 0
        whole = refused_run(steps, 0, 1, records={0: (1, 1, 1)})
        self.assertEqual(struck.kept(whole, 1, lines_of(steps[1:])).steps, steps[1:])
        with self.assertRaises(MachineFailure) as caught:
            struck.kept(whole, 1, lines_of(steps[:1]))
        says = "its step 0 is 'core 1 load 0x40', and should be 'core 0 load 0x40'"
        self.assertIn(f"struck-out list of domain 1: {says}", str(caught.exception))

    def test_a_purger_that_keeps_or_drops_too_much(self):
        says = "target/bin/purger did not give the struck-out list of domain 0: "
        self.assertEqual(
            self.refused(lines_of(WHOLE.steps)), f"{says}its step 2 is '1 load 0x0', and should be '0 load 0x0'"
        )
        self.assertEqual(self.refused(b""), f"{says}it ends after 0 steps, and '0 policy hit=way0 fill=way0' should follow")
        self.assertEqual(
            self.refused(lines_of(STRUCK.steps[:-1])), f"{says}it ends after 4 steps, and '0 load 0x40' should follow"
        )
        self.assertEqual(
            self.refused(lines_of((*STRUCK.steps, STEPS[2]))), f"{says}it should end after 5 steps, and '1 load 0x0' follows"
        )
        swapped = (STRUCK.steps[1], STRUCK.steps[0], *STRUCK.steps[2:])
        self.assertIn("its step 0 is '1 policy", self.refused(lines_of(swapped)))

    def test_lines_that_are_none(self):
        good = lines_of(STRUCK.steps)
        for size in range(len(good)):
            self.refused(good[:size])
        self.assertIn("it breaks off within line 5, '0 1 64'", self.refused(good[:-1]))
        for lines in (b"\n", b"0 1\n", b"0 1 +64\n", b"0 1 6_4\n", b"0  1 64\n", b"0 1 64 \n", b"0 1 64\r\n", b"\xff\n"):
            self.assertIn("and should be a domain or core, a kind and an argument", self.refused(lines))


class Command(unittest.TestCase):
    """The command with programs that answer by rote."""

    def isolate(
        self,
        struck_listing: bytes,
        kept: tuple[Step, ...] = STRUCK.steps,
        said_parts: tuple[bytes, bytes] = (b"0\n", b"0\n"),
        stream: bytes = STRUCK_STREAM,
        whole_stream: bytes = WHOLE_STREAM,
    ) -> tuple[int, bytes, str]:
        whole, struck_file = tracefile.encode(WHOLE), tracefile.encode(STRUCK)
        said = {
            "lister": {whole: WHOLE_LISTING, struck_file: struck_listing}.__getitem__,
            "stepper": {whole: whole_stream, struck_file: stream}.__getitem__,
            "purger": lambda data, domain: {(whole, 0): lines_of(kept)}[data, domain],
            "parts": lambda entries: {PARTS_ASKED[0]: said_parts[0], PARTS_ASKED[1]: said_parts[1]}[entries],
        }
        with by_rote(**said):
            return call("isolate", "-", "0", stdin=whole)

    def test_a_purger_that_keeps_all(self):
        status, out, err = self.isolate(STRUCK_LISTING, STEPS)
        self.assertEqual((status, out), (3, b""))
        self.assertIn("dipperlock: target/bin/purger did not give the struck-out list of domain 0: its step 2 is", err)

    def test_a_lister_that_refuses_the_struck_out_trace(self):
        status, out, err = self.isolate(b"refused 1\n")
        self.assertEqual((status, out), (3, b""))
        self.assertIn("target/bin/lister takes the trace, but the struck-out trace is refused by 1", err)

    def test_own_data_that_differs(self):
        status, out, err = self.isolate(STRUCK_LISTING, said_parts=(b"0\n", b"1\n"))
        self.assertEqual((status, err), (1, ""))
        self.assertIn(b"own replacement data of set 0", out)
        self.assertIn(b"'0x0' in the whole run, '0x1' in the struck-out run", out)

    def test_ways_visited_that_differ(self):
        stream = struck_stream(block(BOTH, 0, {0: Row(1, 0, 2, (1, 0))}, 2, 0))
        status, out, err = self.isolate(STRUCK_LISTING, stream=stream)
        self.assertEqual((status, err), (1, ""))
        self.assertIn(b"'evict 0 0 0, 1 way visited' in the whole run, 'evict 0 0 0, 2 ways visited' in the struck-out run", out)

    def test_lines_that_do_not_balance(self):
        none, agree = held({}), "target/bin/lister and target/bin/stepper do not agree on the lines of domain 0: "
        said = "'fills 2 = evicted 1 + flushed 0 + dropped 0 + held 0' should hold, and the right side is 1"
        for streams in ({"stream": STRUCK_STREAM[:-64] + none}, {"whole_stream": WHOLE_STREAM[:-64] + none}):
            status, out, err = self.isolate(STRUCK_LISTING, **streams)
            self.assertEqual((status, out, err), (3, b"", f"dipperlock: {agree}{said}\n"))

    def test_parts_that_are_not_whole(self):
        for answer in (b"", b"0", b"0\n0\n", b"refused 5\n", b"-1\n", b"\n", b"\xff\n"):
            status, out, err = self.isolate(STRUCK_LISTING, said_parts=(answer, b"0\n"))
            self.assertEqual((status, out), (3, b""), answer)
            self.assertIn("target/bin/parts did not give", err)

    def test_status(self):
        status, out, err = self.isolate(STRUCK_LISTING)
        self.assertEqual((status, err), (0, ""))
        self.assertTrue(out.startswith(b"standard input: 1 set, 2 ways, rule 1 (NRU), 7 steps\n"), out)
        status, out, _ = self.isolate(STRUCK_LISTING.replace(b"2 fill 0", b"2 hit 0"))
        self.assertEqual(status, 1)
        self.assertIn(b"First difference", out)
        self.assertNotIn(b"\x1b", out)

    def test_own_bits_are_counted(self):
        for part, said in ((b"0\n", "0 bits one"), (b"1\n", "1 bit one"), (b"3\n", "2 bits one")):
            status, out, _ = self.isolate(STRUCK_LISTING, said_parts=(part, part))
            self.assertEqual(status, 0)
            self.assertRegex(out.decode(), f"\n +own replacement data +{said} +{said}\n")


class Struck(InFolder):
    """The struck-out trace, written for others to run."""

    def run_it(self, *arguments: str) -> tuple[int, str, str]:
        whole, struck_file = tracefile.encode(WHOLE), tracefile.encode(STRUCK)
        said = {
            "lister": {whole: WHOLE_LISTING, struck_file: STRUCK_LISTING}.__getitem__,
            "stepper": {whole: WHOLE_STREAM, struck_file: STRUCK_STREAM}.__getitem__,
            "purger": lambda data, domain: {(whole, 0): lines_of(STRUCK.steps)}[data, domain],
            "parts": lambda entries: b"0\n",
        }
        with by_rote(**said):
            status, out, err = call("isolate", "-", *arguments, stdin=whole)
        return status, out.decode(), err

    def test_as_a_file_and_as_a_text(self):
        for name, due in (("s.trace", tracefile.encode(STRUCK)), ("s.txt", text.show(STRUCK).encode()), ("S.TXT", text.show(STRUCK).encode())):
            target = self.folder / name
            status, out, err = self.run_it("0", "-o", str(target))
            self.assertEqual((status, err, target.read_bytes()), (0, "", due))
            self.assertIn("No difference: domain 0", out)

    def test_where_it_cannot_go(self):
        for arguments, reason in (
            (("0", "-o", "-"), "standard output has the comparison; write the struck-out trace to a file"),
            (("--all", "-o", "x.trace"), "with --all, the name behind -o has to have {domain} in it"),
        ):
            status, out, err = self.run_it(*arguments)
            self.assertEqual((status, out), (2, ""))
            self.assertIn(reason, err)

    def test_the_input_is_not_lost(self):
        path = self.file("in.trace", tracefile.encode(WHOLE))
        with by_rote():
            self.assert_bad(("isolate", path, "0", "-o", path), "is the input itself, which would be lost; write to another file")
        self.assertEqual((self.folder / "in.trace").read_bytes(), tracefile.encode(WHOLE))

    def test_json(self):
        status, out, err = self.run_it("0", "--json")
        records = schema.lines(out.encode(), "isolate")
        self.assertEqual((status, err), (0, ""))
        self.assertEqual([record["type"] for record in records], ["trace", *["pair"] * 5, *["ending"] * 6, "verdict"])
        pair = {"place": 6, "struck_place": 4, "whole": "evict 0 0 0, 1 way visited", "struck": "evict 0 0 0, 1 way visited", "same": True}
        self.assertEqual({**records[3], **pair}, records[3])
        verdict = {"domain": 0, "same": True, "differences": 0, "first": None, "own_steps": 3, "struck_out": 2}
        self.assertEqual(records[-1], {"type": "verdict", **verdict})


class AllDomains(unittest.TestCase):
    """The verdict on each domain in use."""

    def test_in_use(self):
        self.assertEqual(isolate.in_use(WHOLE_RUN), [0, 1, 2])
        steps = Step(3, 33, 0), Step(16, 1, 0), Step(255, 16, 0), Step(9, 99, 0), Step(32, 33, 0)
        domains = 4, 16, 255, 9, 65535
        self.assertEqual(isolate.in_use(refused_run(steps, *domains, records={3: (0, 4, 0)})), [4, 9])
        self.assertEqual(list(isolate.render_all("t", refused_run(()), [], Paint(False)))[1:], ["No step belongs to a domain."])

    def test_lines(self):
        worse = taken(STRUCK, STRUCK_LISTING.replace(b"2 fill 0", b"2 hit 0"), STRUCK_STREAM)
        good = taken(STRUCK, STRUCK_LISTING, STRUCK_STREAM)
        found = [Isolated(domain, struck, compare(WHOLE_RUN, struck, 0)) for domain, struck in ((0, good), (5, worse))]
        lines = list(isolate.render_all("t.trace", WHOLE_RUN, found, Paint(False)))
        self.assertEqual(lines[0], "t.trace: 1 set, 2 ways, rule 1 (NRU), 7 steps")
        self.assertEqual(lines[1], "domain 0: 3 steps of its own, 2 struck out: no difference")
        first = "the first: step 3 (2 in the struck-out run), domain 0 loads at 0x0: 'fill 0, 1 way visited' in the whole run"
        self.assertTrue(lines[2].startswith(f"domain 5: 3 steps of its own, 2 struck out: 1 difference, {first}"), lines[2])
        records = list(isolate.tell_all("t.trace", WHOLE_RUN, found, Paint(False)))
        self.assertEqual([record.get("same") for record in records], [None, True, False])


class TrueLru(unittest.TestCase):
    """The example of true LRU with programs that answer by rote: a domain's own data is the order of its fill ways."""

    def isolate(self, parts: tuple[bytes, bytes]) -> tuple[int, str]:
        whole = tracefile.decode(true_lru.FILE)
        kept = tuple(step for place, step in enumerate(whole.steps) if place not in true_lru.STRUCK_PLACES)
        struck_file = tracefile.encode(Trace(1, 4, 2, kept))
        asked = tuple(tracefile.encode(Trace(1, 4, 2, (Step(7, 0, word),))) for word in true_lru.WORDS)
        said = {
            "lister": {true_lru.FILE: true_lru.LISTING, struck_file: true_lru.STRUCK_LISTING}.__getitem__,
            "stepper": {true_lru.FILE: true_lru.STREAM, struck_file: true_lru.STRUCK_STREAM}.__getitem__,
            "purger": lambda data, domain: {(true_lru.FILE, 0): lines_of(kept)}[data, domain],
            "parts": dict(zip(asked, parts)).__getitem__,
        }
        with by_rote(**said):
            status, out, err = call("isolate", "-", "0", stdin=true_lru.FILE)
        self.assertEqual(err, "")
        return status, out.decode()

    def test_no_difference(self):
        status, out = self.isolate((true_lru.OWN, true_lru.OWN))
        self.assertEqual(status, 0, out)
        self.assertIn("No difference: domain 0 sees the same in both runs, ", out)
        self.assertRegex(out, r"\n +own replacement data +oldest first 2 0 1 +oldest first 2 0 1\n")

    def test_another_order(self):
        status, out = self.isolate((true_lru.OWN, b"258\n"))  # 0x102
        self.assertEqual(status, 1, out)
        row = r"own replacement data of set 0 +oldest first 2 0 1 +oldest first 1 0 2 +<- first difference"
        self.assertRegex(out, rf"\n\* +{row}\n")
        seen = "'oldest first 2 0 1' in the whole run, 'oldest first 1 0 2' in the struck-out run."
        self.assertIn(f"First difference: at the end, own replacement data of set 0: {seen}\n", out)

    def test_a_part_that_is_no_order(self):
        for part, written in ((b"0\n", "0x0"), (b"8209\n", "0x2011"), (b"515\n", "0x203")):
            status, out = self.isolate((true_lru.OWN, part))
            self.assertEqual(status, 1, out)
            self.assertIn(f"'oldest first 2 0 1' in the whole run, '{written}' in the struck-out run", out)

    def test_many_sets(self):
        stream = block({}, 0, {number: Row(0, 0, 0x01, (0, 0)) for number in range(4)})
        for fill, own, said in (
            (3, (0x01, 0x10, 0x01, 0x01), "4 orders"),
            (3, (0x01,) * 4, "oldest first 0 1"),
            (2, (0x1,) * 4, "oldest first 1"),
            (0, (0,) * 4, "none"),
        ):
            trace, listed = Trace(4, 2, 2, (Step(0, 16, 3 | fill << 16),)), b"4 2 2 1\n0 policy 0 0\ndomain 0 0 0 0 0 0 0 0\n"
            run = replace(taken(trace, listed, stream + block({0: (3, fill)}, domain=0) + held({})), own=own)
            ending = compare(run, run, 0).endings[-2]
            self.assertEqual((ending.name, ending.seen), ("own replacement data", (said, said)))


class CoreSwitch(unittest.TestCase):
    """The example of a core that switches, with programs that answer by rote."""

    WHOLE = tracefile.decode(core_switch.FILE)
    KEPT = tuple(step for place, step in enumerate(WHOLE.steps) if place not in core_switch.STRUCK_PLACES)

    def isolate(
        self,
        kept: tuple[Step, ...] = KEPT,
        listed: bytes = core_switch.STRUCK_LISTING,
        stream: bytes = core_switch.STRUCK_STREAM,
    ) -> tuple[int, str, str]:
        struck_file = tracefile.encode(replace(self.WHOLE, steps=self.KEPT))
        asked = tuple(tracefile.encode(Trace(1, 4, 0, (Step(3, 0, word),))) for word in core_switch.WORDS)
        said = {
            "lister": {core_switch.FILE: core_switch.LISTING, struck_file: listed}.__getitem__,
            "stepper": {core_switch.FILE: core_switch.STREAM, struck_file: stream}.__getitem__,
            "purger": lambda data, domain: {(core_switch.FILE, 1): lines_of(kept)}[data, domain],
            "parts": dict.fromkeys(asked, core_switch.OWN).__getitem__,
        }
        with by_rote(**said):
            status, out, err = call("isolate", "-", "1", stdin=core_switch.FILE)
        return status, out.decode(), err

    def test_no_difference(self):
        status, out, err = self.isolate()
        self.assertEqual((status, err), (0, ""), out)
        self.assertIn("No difference: domain 1 sees the same in both runs, ", out)
        by_cores = "5 of them by cores whose selectors named such a domain"
        self.assertIn(f"\nStruck out: 6 steps, the accesses and flushes of domains other than 1, {by_cores}\n", out)
        self.assertIn("\nDomain 1 and the core records at the end\n", out)
        self.assertRegex(out, r"\n +core records +1 of 32 not zero +1 of 32 not zero\n")

    def test_steps_are_named_by_their_cores(self):
        table = self.isolate()[1].partition("\nSteps of domain 1, ")[2].partition("\n\n")[0].splitlines()[2:]
        rows = [re.split("  +", row.strip()) for row in table]
        self.assertEqual(
            [(int(places[0]), int(places[1]), said) for *places, said, _, _ in rows],
            [
                (0, 0, "asks for hit map 0,1 (0x3) and fill map 0,1 (0x3)"),
                (4, 3, "core 3 stores at 0x40"),
                (5, 4, "core 3 loads at 0x40"),
                (10, 7, "core 3 loads at 0x80"),
                (12, 8, "core 3 flushes 0x40"),
                (14, 9, "core 3 fetches at 0x80"),
            ],
        )
        self.assertEqual(rows[3][3:], ["fill 0, 2 ways visited"] * 2)

    def test_a_difference_in_a_step_by_a_core(self):
        status, out, _ = self.isolate(listed=core_switch.STRUCK_LISTING.replace(b"\n9 hit 0", b"\n9 fill 1"))
        self.assertEqual(status, 1)
        seen = "'hit 0, 1 way visited' in the whole run, 'fill 1, 1 way visited' in the struck-out run."
        self.assertIn(f"First difference: step 14 (9 in the struck-out run), core 3 fetches at 0x80: {seen}\n", out)

    def test_other_answers_to_steps_of_no_domain(self):
        listed = core_switch.STRUCK_LISTING.replace(b"10 refused 11", b"10 refused 12")
        self.assertEqual(self.isolate(listed=listed)[0], 0)

    def test_a_purger_that_goes_by_the_domains_that_steps_name(self):
        kept = tuple(step for step in self.WHOLE.steps if step.named == 1 or step.kind > 3)
        status, out, err = self.isolate(kept=kept)
        self.assertEqual((status, out), (3, ""))
        says = "its step 2 is 'core 3 load 0x40', and should be 'core 3 select cs=1 ds=1 es=1'"
        self.assertEqual(err, f"dipperlock: target/bin/purger did not give the struck-out list of domain 1: {says}\n")

    def test_a_purger_that_strikes_writes_of_selectors(self):
        kept = tuple(step for step in self.KEPT if step.kind != 40)
        status, out, err = self.isolate(kept=kept)
        self.assertEqual((status, out), (3, ""))
        self.assertIn("its step 2 is 'core 3 store 0x40', and should be 'core 3 select cs=1 ds=1 es=1'", err)

    def test_a_purger_that_strikes_a_core_that_is_not_in_the_list(self):
        status, out, err = self.isolate(kept=tuple(step for step in self.KEPT if step.named != 32))
        self.assertEqual((status, out), (3, ""))
        self.assertIn("its step 10 is 'core 3 select cs=1 ds=16 es=1', and should be 'core 32 load 0x40'", err)


class Records(unittest.TestCase):
    """The core records at the end of both runs."""

    STEPS = (Step(3, 40, 0x030201), Step(4, 40, 0))

    def run_of(self, *records: dict[int, tuple[int, int, int]]) -> Run:
        fresh = block({}, 0, {0: Row(0, 0, 0, (0, 0))})
        stream = fresh + b"".join(block({}, records=record) for record in records) + held({})
        return taken(Trace(1, 2, 0, self.STEPS), b"1 2 0 2\n0 select 1 2 3\n1 select 0 0 0\n", stream)

    def endings(self, whole: Run, struck: Run) -> list[tuple[str, tuple[str, str]]]:
        return [(ending.name, ending.seen) for ending in compare(whole, struck, 0).endings if "record" in ending.name]

    def test_equal(self):
        whole = self.run_of({3: (1, 2, 3)}, {3: (1, 2, 3)})
        self.assertEqual(self.endings(whole, whole), [("core records", ("1 of 32 not zero",) * 2)])
        whole = self.run_of({3: (1, 2, 3)}, {3: (1, 2, 3), 4: (0, 0, 1)})
        self.assertEqual(self.endings(whole, whole), [("core records", ("2 of 32 not zero",) * 2)])

    def test_different(self):
        whole = self.run_of({3: (1, 2, 3)}, {3: (1, 2, 3)})
        struck = self.run_of({3: (1, 2, 4)}, {3: (1, 2, 4), 4: (0, 7, 0)})
        self.assertEqual(
            self.endings(whole, struck),
            [
                ("record of core 3", ("CS 1, DS 2, ES 3", "CS 1, DS 2, ES 4")),
                ("record of core 4", ("CS 0, DS 0, ES 0", "CS 0, DS 7, ES 0")),
            ],
        )
        told = rendered("t.trace", whole, struck)
        self.assertRegex(told, r"\n\* +record of core 3 +CS 1, DS 2, ES 3 +CS 1, DS 2, ES 4 +<- first difference\n")
        self.assertIn("First difference: at the end, record of core 3: 'CS 1, DS 2, ES 3' in the whole run, ", told)

    def test_steps_that_belong_to_the_domain_in_one_run_alone(self):
        steps = (Step(3, 33, 0),)
        whole, other = refused_run(steps, 1, records={3: (0, 1, 0)}), refused_run(steps, 2, records={3: (0, 2, 0)})
        with self.assertRaises(MachineFailure) as caught:
            compare(whole, other, 1)
        self.assertIn("the struck-out run does not have the steps that are compared", str(caught.exception))
