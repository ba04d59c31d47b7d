"""The story of a run, from a listing and a stream made by hand."""
from __future__ import annotations

import os
import re
import unittest
from unittest import mock

from frontend import assembler, files, listing, paint, run, stepper, tracefile
from frontend.explain import MOST_ROWS, Explainer
from frontend.paint import Paint
from frontend.programs import ROOT
from frontend.stepper import Row
from frontend.telling import Teller, Wanted
from frontend.tests import balance, case_a, core_switch, highest_first, locked_lines, true_lru
from frontend.tests.helpers import block, by_rote, call, held, parsed, taken
from frontend.tracefile import Step, Trace


def told(trace: Trace, listed: bytes, stream: bytes, colour: bool = False, show_all: bool = False, **options) -> str:
    """Tell a run of what programs might have said; with `source`, as that of a text, and with `wanted`, some of its steps."""
    run_taken, wanted = taken(trace, listed, stream), options.get("wanted", Wanted())
    given = files.Given("t.txt", b"", options.get("source"))
    steps = Teller(given, trace, wanted).tell(run.moments(run_taken))
    return "\n".join(Explainer(run_taken, "t.txt", Paint(colour), show_all).lines(steps, wanted.all))


def told_of_each_step(trace: Trace, listed: bytes, stream: bytes) -> list[str]:
    """Tell a run, and give what is told of each step, its lines joined."""
    *steps, last = told(trace, listed, stream).split("\nstep ")[1:]
    return [" ".join(step.split()) for step in (*steps, last.partition("\nAt the end\n")[0])]


def told_case_a(colour: bool = False) -> str:
    """Tell case A."""
    return told(tracefile.decode(case_a.FILE), case_a.LISTING, case_a.STREAM, colour)


class CaseA(unittest.TestCase):
    """Case A, step by step."""

    def step(self, place: int) -> str:
        after = told_case_a().partition(f"\nstep {place} ")[2]
        return after.partition("\n\n")[0]

    def test_head_and_end(self):
        story = told_case_a()
        self.assertTrue(story.startswith("1 set, 4 ways, rule 0 (Tree-PLRU), 9 steps\n"))
        end = """
At the end
  domain 0: hits 1, misses 3, evicted 1, written back 1, flushed 1, fills 3, dropped 0
  domain 1: hits 0, misses 1, evicted 0, written back 0, flushed 0, fills 1, dropped 0

Lines in and lines out
  domain 0: fills 3 = evicted 1 + flushed 1 + dropped 0 + held 1
  domain 1: fills 1 = evicted 0 + flushed 0 + dropped 0 + held 1"""
        self.assertTrue(story.endswith(end), story)
        self.assertNotIn("\x1b", story)

    def test_policy(self):
        step = self.step(1)
        self.assertIn("domain 1 asks for hit map 2,3 (0xc) and fill map 2,3 (0xc)\n  policy 0 0\n  Accepted; no valid", step)
        self.assertIn("\n  domain 0 has hit map 0,1 (0x3) and fill map 0,1 (0x3)\n", step)
        turned = "none (0x0) -> 2,3 (0xc)"
        self.assertIn(f"\n  domain 1 has hit map {turned} and fill map {turned}\n  no row changed", step)

    def test_evict(self):
        expected = """\
 domain 0 loads at 0x80 (line 2, set 0, tag 2)
  evict 1 0 1
  A miss: the line with tag 0 was evicted from way 1 (dirty, so it is written back), and the way was
  filled.
  The lookup visited 2 ways.
     set 0  before                 after  hit map   fill map
     way 0  tag 1                  tag 1  domain 0  domain 0
  *  way 1  tag 0, dirty           tag 2  domain 0  domain 0
     way 2  empty                  empty  domain 1  domain 1
     way 3  tag 0                  tag 0  domain 1  domain 1
  *  word   0x2 (right at node 1)  0x0"""
        self.assertEqual(self.step(5), expected)

    def test_flush_keeps_the_tag(self):
        self.assertRegex(self.step(6), r"\n  \*  way 0  tag 1 +tag 1, invalid ")

    def test_refused(self):
        step = self.step(7)
        self.assertIn("\n  refused 6\n  The hit map of domain 2 is empty: it has no ways. Give it ways by a policy", step)
        self.assertNotIn("way 0", step)

    def test_hit_changes_nothing(self):
        self.assertIn("hit 1\n  A hit in way 1.\n  The lookup visited 2 ways.\n", self.step(8))
        self.assertNotIn("*", self.step(8))

    def test_ways_visited(self):
        said = {place: re.findall(r"\n  The lookup visited (.*)\.\n", self.step(place)) for place in range(9)}
        two = ["2 ways"]
        self.assertEqual(said, {0: [], 1: [], 2: two, 3: two, 4: two, 5: two, 6: ["1 way"], 7: [], 8: two})


class TrueLru(unittest.TestCase):
    """The example of true LRU, whose words are orders."""

    def story(self) -> str:
        return told(tracefile.decode(true_lru.FILE), true_lru.LISTING, true_lru.STREAM)

    def step(self, place: int) -> str:
        return self.story().partition(f"\nstep {place} ")[2].partition("\n\n")[0]

    def test_word(self):
        self.assertTrue(self.story().startswith("1 set, 4 ways, rule 2 (true LRU), 13 steps\n"))
        expected = """\
 domain 0 loads at 0xc0 (line 3, set 0, tag 3)
  evict 1 1 0
  A miss: the line with tag 1 was evicted from way 1 (not dirty), and the way was filled.
  The lookup visited 3 ways.
     set 0  before                         after                          hit map   fill map
     way 0  tag 2                          tag 2                          domain 0  domain 0
  *  way 1  tag 1                          tag 3                          domain 0  domain 0
     way 2  tag 0                          tag 0                          domain 0  domain 0
     way 3  tag 0, dirty                   tag 0, dirty                   domain 1  domain 1
  *  word   0x1023 (oldest first 1 0 2 3)  0x0231 (oldest first 0 2 3 1)"""
        self.assertEqual(self.step(7), expected)

    def test_a_place_is_a_digit(self):
        self.assertIn("\n  *  word   0x0123 (oldest first 0 1 2 3)  0x3012 (oldest first 3 0 1 2)", self.step(1))

    def test_orders_are_those_that_the_text_says(self):
        text = (ROOT / "examples" / "true-lru.txt").read_text(encoding="ascii")
        steps = [line for line in text.splitlines() if line[:1].isdigit()]
        blocks = parsed(true_lru.STREAM, tracefile.decode(true_lru.FILE)).blocks
        said = {place: line.partition("oldest first ")[2][:7] for place, line in enumerate(steps) if "oldest first" in line}
        self.assertEqual(list(said), [0, 1, 4, 5, 6, 8, 9, 12])
        for place, order in said.items():
            word = stepper.rows_at_end(blocks[: place + 2])[0].word
            self.assertEqual(f"{word:04x}", order.replace(" ", ""), place)

    def test_a_word_that_is_no_order(self):
        for word, written in ((0, "0x0000"), (0x3211, "0x3211"), (0x4321, "0x4321"), (0x1_0123, "0x1_0123")):
            stream = block({}, 0, {0: Row(0, 0, word, (0,) * 4)}) + block({}, domain=3) + held({})
            story = told(Trace(1, 4, 2, (Step(3, 0, 0),)), b"1 4 2 1\n0 pass\n", stream)
            self.assertIn(f"\n     word   {written}  {written}\n", story)
            self.assertNotIn("oldest", story)


class LockedLines(unittest.TestCase):
    """The example of locked lines, hits in which turn no node."""

    TEXT = (ROOT / "examples" / "locked-lines.txt").read_text(encoding="ascii")

    def step(self, place: int) -> str:
        story = told(tracefile.decode(locked_lines.FILE), locked_lines.LISTING, locked_lines.STREAM)
        return story.partition(f"\nstep {place} ")[2].partition("\n\n")[0]

    def test_word(self):
        turned = "\n  *  word   0x2 (right at node 1)  0x0"
        stayed = "\n     word   0x0     0x0"
        self.assertTrue(self.step(6).endswith(turned), self.step(6))
        locked = "Its line is locked: the way is not in the domain's fill map."
        self.assertIn(f"\n  hit 0\n  A hit in way 0. {locked}\n  The lookup visited 1 way.\n", self.step(7))
        self.assertTrue(self.step(7).endswith(stayed), self.step(7))
        self.assertNotIn("*", self.step(7))

    def test_which_lines_are_told_as_locked(self):
        self.assertIn("\n  hit 2\n  A hit in way 2.\n  The lookup visited 3 ways.\n", self.step(6))
        for example, places in ((locked_lines, [7, 9, 11, 12]), (true_lru, [10]), (case_a, [])):
            steps = told_of_each_step(tracefile.decode(example.FILE), example.LISTING, example.STREAM)
            self.assertEqual([place for place, step in enumerate(steps) if "lock" in step], places, example.__name__)

    def test_ways_are_those_that_the_text_says(self):
        said = re.findall(r"^3 (?:load|store) .*?\bway ([0-9])", self.TEXT, re.MULTILINE)
        self.assertEqual(said, re.findall("(?:fill|hit|evict) ([0-9])", locked_lines.LISTING.decode()))

    def test_nodes_are_those_that_the_text_says(self):
        steps = [line for line in self.TEXT.splitlines() if line[:1].isdigit()][6:10]
        said = [re.findall("node 1 points [a-z]+|turns no node", line) for line in steps]
        self.assertEqual(said, [["node 1 points left"], ["turns no node"], ["node 1 points right"], ["turns no node"]])
        blocks = parsed(locked_lines.STREAM, tracefile.decode(locked_lines.FILE)).blocks
        words = [stepper.rows_at_end(blocks[: place + 2])[0].word for place in range(6, 10)]
        self.assertEqual(words, [0, 0, 0b10, 0b10])


class HighestFirst(unittest.TestCase):
    """The example of the way that a miss takes under NRU, and what is told of it."""

    TEXT = (ROOT / "examples" / "highest-first.txt").read_text(encoding="ascii")
    FILL = "the highest of the domain's fill map that held no valid line, was filled."
    VICTIM = "It is the highest way of the fill map whose bit was one."
    DEFAULT = "No bit of the fill map was one: all became one, and its highest way is the victim, whose bit then became zero."

    def steps(self) -> list[str]:
        """Tell each step, its lines joined."""
        return told_of_each_step(tracefile.decode(highest_first.FILE), highest_first.LISTING, highest_first.STREAM)

    def test_an_invalid_way(self):
        steps = self.steps()
        for place, way in ((2, 2), (3, 1), (4, 0), (11, 1), (12, 0)):
            self.assertIn(f" fill {way} A miss: way {way}, {self.FILL} The lookup", steps[place])
        self.assertEqual([place for place, step in enumerate(steps) if self.FILL in step], [2, 3, 4, 11, 12])

    def test_a_victim(self):
        steps = self.steps()
        for place, way, why in ((5, 2, self.DEFAULT), (6, 1, self.VICTIM), (8, 2, self.DEFAULT)):
            self.assertIn(f" from way {way} (not dirty), and the way was filled. {why} The lookup", steps[place])
        said = [place for place, step in enumerate(steps) if self.VICTIM in step or self.DEFAULT in step]
        self.assertEqual(said, [5, 6, 8])

    def test_words_before_and_after_a_default(self):
        self.assertTrue(self.steps()[5].endswith(" * word 0x8 (one at way 3) 0xb (one at ways 0,1,3)"))

    def test_other_rules_say_nothing_of_it(self):
        for example in (case_a, locked_lines, true_lru):
            story = " ".join(told(tracefile.decode(example.FILE), example.LISTING, example.STREAM).split())
            self.assertIn(" evict ", story)
            self.assertNotIn("bit", story)

    def test_the_maps_are_those_of_the_domain_before_the_step(self):
        for then, why in (({1: (15, 2)}, self.VICTIM), ({1: (15, 13)}, self.DEFAULT), ({0: (15, 2)}, self.DEFAULT)):
            stream = block(then, 0, {0: Row(15, 0, 0b0010, (0,) * 4)}) + block({1: (15, 15)}, visited=4, domain=1)
            story = told_of_each_step(Trace(1, 4, 1, (Step(1, 1, 64),)), b"1 4 1 1\n0 evict 1 0 0\n", stream + held({}))
            self.assertIn(f" filled. {why} The lookup", story[0])

    def test_answers_that_no_lister_gives(self):
        fresh = block({}, 0, {0: Row(0, 0, 0b1111, (0,) * 4)})
        for step, domain in ((Step(16, 1, 0), 16), (Step(255, 1, 0), 255), (Step(0, 40, 0), 65535)):
            stream = fresh + block({}, domain=domain) + held({})
            (said,) = told_of_each_step(Trace(1, 4, 1, (step,)), b"1 4 1 1\n0 evict 9 0 0\n", stream)
            self.assertIn(f" evicted from way 9 (not dirty), and the way was filled. {self.DEFAULT}", said)

    def test_ways_are_those_that_the_text_says(self):
        said = re.findall("# (fills|hits|evicts|flushes) way ([0-9])", self.TEXT)
        words = {"fill": "fills", "hit": "hits", "evict": "evicts", "flush": "flushes"}
        found = re.findall("(fill|hit|evict|flush) ([0-9])", highest_first.LISTING.decode())
        self.assertEqual(said, [(words[word], way) for word, way in found])


class Locked(unittest.TestCase):
    """What is told of a hit and a flush: by the maps of the domain before the step, whatever the rule is."""

    HIT = "A hit in way 2."
    FLUSHES = (
        "The line in way 2 was made invalid; it was not dirty.",
        "The line in way 2 was made invalid; it was dirty, so it is written back.",
    )
    WHY = "the way is not in the domain's fill map."
    IS, WAS = f" Its line is locked: {WHY}", f" It was locked: {WHY}"

    def said(self, rule: int, answer: str, then: dict[int, tuple[int, int]], now: dict[int, tuple[int, int]]) -> str:
        """Tell a step of domain 1 with the maps before and after it; give its answer in words."""
        step, rows = Step(1, 3 if answer.startswith("flush") else 1, 0), {0: Row(0b0100, 0, 0x0123, (0,) * 4)}
        stream = block(then, 0, rows) + block(now, visited=1, domain=1) + held({})
        listed = f"1 4 {rule} 1\n0 {answer}\n".encode()
        (told_of_it,) = told_of_each_step(Trace(1, 4, rule, (step,)), listed, stream)
        return told_of_it.partition(f" {answer} ")[2].partition(" The lookup visited ")[0]

    def assert_said(self, maps: dict[int, tuple[int, int]], of_hit: str, of_flush: str) -> None:
        """See what is added to the words of a hit and of a flush in way 2, under every rule."""
        for rule in (0, 1, 2):
            self.assertEqual(self.said(rule, "hit 2", maps, maps), self.HIT + of_hit, (rule, maps))
            for dirty, flush in enumerate(self.FLUSHES):
                self.assertEqual(self.said(rule, f"flush 2 {dirty}", maps, maps), flush + of_flush, (rule, maps))

    def test_in_a_way_outside_the_fill_map(self):
        for maps in ({1: (0b0100, 0)}, {1: (0b1111, 0b1011)}, {0: (0b1001, 0b1001), 1: (0b0110, 0b0010)}):
            self.assert_said(maps, self.IS, self.WAS)

    def test_in_a_way_of_the_fill_map(self):
        for maps in ({1: (0b0100, 0b0100)}, {1: (0b1111, 0b0100)}, {0: (0b1011, 0), 1: (0b0100, 0b0100)}):
            self.assert_said(maps, "", "")

    def test_the_maps_are_those_before_the_step(self):
        locking, filling = {1: (0b0100, 0)}, {1: (0b0100, 0b0100)}
        self.assertEqual(self.said(0, "hit 2", locking, filling), self.HIT + self.IS)
        self.assertEqual(self.said(0, "hit 2", filling, locking), self.HIT)

    def test_other_answers(self):
        maps = {1: (0b1111, 0b0010)}
        for answer in ("fill 2", "evict 2 0 0", "pass", "absent", "policy 2 2", "refused 2"):
            said = self.said(0, answer, maps, maps)
            self.assertTrue(said.endswith(".") and "lock" not in said, (answer, said))

    def test_answers_that_no_lister_gives(self):
        for domain, way in ((1, 0), (1, 99), (1, 10**19), (2, 2), (16, 2), (255, 2)):
            fresh = block({1: (0b0100, 0)}, 0, {0: Row(0, 0, 0, (0,) * 4)})
            stream = fresh + block({}, domain=domain) + held({})
            story = told(Trace(1, 4, 0, (Step(domain, 1, 0),)), f"1 4 0 1\n0 hit {way}\n".encode(), stream)
            self.assertIn(f"\n  A hit in way {way}.\n", story)


class CoreSwitch(unittest.TestCase):
    """The example of a core that works for one domain, then for another."""

    TEXT = (ROOT / "examples" / "core-switch.txt").read_text(encoding="ascii")
    TRACE = tracefile.decode(core_switch.FILE)

    def steps(self) -> list[str]:
        """Give what the text says of each step, without and with a comment."""
        return [line for line in self.TEXT.splitlines() if line[:1].isdigit() or line.startswith("core")]

    def story(self) -> str:
        return told(self.TRACE, core_switch.LISTING, core_switch.STREAM)

    def step(self, place: int) -> str:
        return self.story().partition(f"\nstep {place} ")[2].partition("\n\n")[0]

    def test_a_miss_where_the_neighbour_has_the_line(self):
        expected = """\
 core 3 loads at 0x40 (line 1, set 0, tag 1)
  Core 3 loads through DS, which names domain 2.
  fill 3
  A miss: way 3, the highest of the domain's fill map that held no valid line, was filled.
  The lookup visited 2 ways.
     set 0  before        after         hit map   fill map
     way 0  empty         empty         domain 1  domain 1
     way 1  tag 1, dirty  tag 1, dirty  domain 1  domain 1
     way 2  empty         empty         domain 2  domain 2
  *  way 3  empty         tag 1         domain 2  domain 2
     word   0x0           0x0"""
        self.assertEqual(self.step(7), expected)

    def test_word(self):
        turned = "\n  *  word   0x2 (right at node 1)  0x6 (right at nodes 1,2)"
        self.assertTrue(self.step(11).endswith(turned), self.step(11))

    def test_writes_of_selectors(self):
        first = "Accepted; changed CS from 0 to 1, DS from 0 to 1, ES from 0 to 1."
        self.assertEqual(self.step(3), f" core 3 asks for CS 1, DS 1, ES 1\n  select 1 1 1\n  {first}")
        last = "Accepted; changed CS from 2 to 1, DS from 2 to 1."
        self.assertEqual(self.step(9), f" core 3 asks for CS 1, DS 1, ES 2\n  select 1 1 2\n  {last}")

    def test_a_domain_without_ways(self):
        route = "Core 3 loads through DS, which names domain 0."
        self.assertIn(f"\n  {route}\n  refused 6\n  The hit map of domain 0 is empty: it has no ways.", self.step(2))
        said = " ".join(self.step(2).split())
        self.assertIn("or let DS of core 3 name a domain that has ways. domain 1 has hit map 0,1 (0x3) and", said)
        self.assertNotIn("way 0 ", said)

    def test_refused(self):
        listed = "Core 32 is not in the list: the lister lends records for cores 0 to 31. Name a core from 0 to 31."
        self.assertEqual(self.step(15), f" core 32 loads at 0x40 (line 1, set 0, tag 1)\n  refused 11\n  {listed}")
        said, wrong = " ".join(self.step(16).split()), "DS would be 16, and a selector names a domain, 0 to 15."
        self.assertTrue(said.startswith(f"core 3 asks for CS 1, DS 16, ES 1 refused 3 {wrong} Name a domain"), said)

    def test_a_step_without_a_core(self):
        self.assertIn("\nstep 13  domain 2 loads at 0x40 (line 1, set 0, tag 1)\n  hit 3\n  A hit in way 3.\n", self.story())

    def test_selectors_and_domains_are_those_that_the_text_says(self):
        said = re.findall(r"^core .*# ([CDE]S).*?\bdomain ([0-9])", self.TEXT, re.MULTILINE)
        self.assertEqual(said, re.findall(r"through ([CDE]S), which names domain ([0-9])\.", self.story()))
        blocks = parsed(core_switch.STREAM, self.TRACE).blocks
        for line, block in list(zip(self.steps(), blocks[1:]))[2:]:
            named = re.search(r"# ([CDE]S.*?)?domain ([0-9])", line)
            self.assertEqual(named and int(named[2]), block.domain, line)

    def test_ways_are_those_that_the_text_says(self):
        said = re.findall(r"#.*\b(fills|hits|evicts|flushes) way ([0-9])", self.TEXT)
        words = {"fill": "fills", "hit": "hits", "evict": "evicts", "flush": "flushes"}
        found = re.findall("(fill|hit|evict|flush) ([0-9])", core_switch.LISTING.decode())
        self.assertEqual(said, [(words[word], way) for word, way in found])

    def test_refusals_are_those_that_the_text_says(self):
        said = [re.findall("refused [0-9]+", line) for line in self.steps()]
        answers = [str(answer) for answer in listing.parse(core_switch.LISTING).answers]
        self.assertEqual(said, [[answer] if answer.startswith("refused") else [] for answer in answers])
        self.assertEqual([place for place, found in enumerate(said) if found], [2, 15, 16])


class Cores(unittest.TestCase):
    """What is told of steps by cores, from streams made by hand."""

    FRESH = {0: Row(0b0101, 0, 0, (0, 0, 0, 0))}
    MAPS = {1: (0b0011, 0b0011), 2: (0b1100, 0b1000)}
    HELD = {3: (1, 2, 77)}

    def said(self, step: Step, answer: str, domain: int = 65535, visited: int = 0, **changes) -> str:
        """Tell one step after which a block has changed; give its lines, joined."""
        after = {"visited": visited, "domain": domain, "records": self.HELD, **changes}
        fresh = block(self.MAPS, 0, self.FRESH, records=self.HELD, counts=changes.get("counts"))
        stream = fresh + block(self.MAPS, **after) + held({})
        (told_of_it,) = told_of_each_step(Trace(1, 4, 0, (step,)), f"1 4 0 1\n0 {answer}\n".encode(), stream)
        return told_of_it

    def test_after_the_route_all_is_as_for_the_domain(self):
        for answer in ("hit 3", "hit 2", "fill 3", "evict 2 9 1", "pass", "flush 2 1", "absent"):
            kind, verb = (3, "flushes") if answer.startswith(("flush", "absent")) else (1, "loads")
            by_core = self.said(Step(3, kind + 32, 64), answer, 2, 2)
            by_domain = self.said(Step(2, kind, 64), answer, 2, 2)
            route = f"Core 3 {verb} through DS, which names domain 2. "
            self.assertEqual(by_core.partition(route)[2], by_domain[by_domain.index(answer) :])

    def test_locked_lines_of_the_selected_domain(self):
        self.assertIn("A hit in way 2. Its line is locked: the way is not", self.said(Step(3, 33, 0), "hit 2", 2, 1))
        self.assertNotIn("locked", self.said(Step(3, 33, 0), "hit 3", 2, 2))
        self.assertNotIn("locked", self.said(Step(3, 32, 0), "hit 0", 1, 1))

    def test_a_selector_that_is_no_domain(self):
        said = self.said(Step(3, 34, 64), "refused 3", 77)
        self.assertIn("Core 3 stores through ES, which names domain 77. refused 3 ES of core 3 is 77, and", said)

    def test_counts_that_are_full(self):
        said = self.said(Step(3, 32, 64), "refused 7", 1)
        route = "Core 3 fetches through CS, which names domain 1. refused 7"
        self.assertIn(f"{route} One of the domain's seven counts is 4,294,967,295 and cannot rise, or", said)
        self.assertIn("domain 2 has hit map 2,3 (0xc) and fill map way3 (0x8)", said)
        for counts, which in (
            ((7, 4_294_967_295, 0, 0, 0, 0, 0), "count of misses of domain 1 is"),
            ((0, 0, 0, 4_294_967_295, 0, 0, 4_294_967_295), "counts of written back and dropped of domain 1 are"),
            ((4_294_967_295,) * 3 + (0,) * 4, "counts of hits, misses and evicted of domain 1 are"),
        ):
            said = self.said(Step(3, 32, 64), "refused 7", 1, counts={1: counts, 2: (4_294_967_295,) * 7})
            self.assertIn(f"{route} The {which} 4,294,967,295 and cannot rise. Remove the domain", said)

    def test_a_write_that_changes_nothing(self):
        said = self.said(Step(3, 40, 0x4D_0201), "select 1 2 77")
        self.assertTrue(said.endswith(" CS 1, DS 2, ES 77 select 1 2 77 Accepted; no selector changed."), said)

    def test_a_write_of_one_selector(self):
        said = self.said(Step(3, 40, 0x00_0201), "select 1 2 0", records={3: (1, 2, 0)})
        self.assertTrue(said.endswith(" select 1 2 0 Accepted; changed ES from 77 to 0."), said)

    def test_a_byte_above_the_selectors(self):
        said = self.said(Step(3, 40, 0x100_0000), "refused 5")
        self.assertIn("asks for the selectors of argument 0x100_0000 refused 5 A byte of the argument", said)

    def test_answers_that_no_lister_gives(self):
        for step, answer, domain in (
            (Step(32, 33, 0), "hit 0", 65535),
            (Step(255, 40, 0), "select 0 0 0", 65535),
            (Step(3, 1, 0), "select 1 2 3", 3),
            (Step(200, 1, 0), "select 1 2 3", 200),
            (Step(32, 33, 0), "refused 6", 65535),
            (Step(3, 40, 0), "hit 1", 65535),
            (Step(3, 40, 0), "policy 1 1", 65535),
        ):
            self.assertIn(f" {answer} ", self.said(step, answer, domain))


class Balance(unittest.TestCase):
    """The example of lines in and lines out, and how every story ends."""

    TEXT = (ROOT / "examples" / "balance.txt").read_text(encoding="ascii")

    def story(self) -> str:
        return told(tracefile.decode(balance.FILE), balance.LISTING, balance.STREAM)

    def step(self, place: int) -> str:
        return self.story().partition(f"\nstep {place} ")[2].partition("\n\n")[0]

    def ending(self, example) -> list[str]:
        """Give the last lines of an example's story, under their title."""
        story = told(tracefile.decode(example.FILE), example.LISTING, example.STREAM)
        return story.partition("\n\nLines in and lines out\n")[2].splitlines()

    def test_the_end(self):
        self.assertEqual(self.ending(balance), [f"  domain {domain}: {said}" for domain, said in balance.BALANCES.items()])
        counts = "hits 0, misses 5, evicted 1, written back 1, flushed 1, fills 5, dropped 1"
        self.assertIn(f"\n\nAt the end\n  domain 0: {counts}\n  domain 1: hits 0, misses 1, ", self.story())

    def test_the_text_ends_with_the_same(self):
        for domain, said in balance.BALANCES.items():
            self.assertEqual(re.findall(f"^{domain} .*(fills [0-9]+ = .*)$", self.TEXT, re.MULTILINE)[-1], said)

    def test_policy_changes(self):
        dropped, removed = "It counts as dropped for domain 0.", "The domain is removed, and its counts are zero."
        self.assertIn(f"\n  policy 1 0\n  Accepted; dropped 1 valid line, 0 dirty. {dropped}\n", self.step(9))
        self.assertIn(f"\n  policy 1 1\n  Accepted; dropped 1 valid line, 1 dirty. {removed}\n", self.step(10))
        self.assertIn("\n  policy 0 0\n  Accepted; no valid line was dropped.\n", self.step(11))

    def test_a_line_for_each_domain_line(self):
        for example, domains in ((case_a, "01"), (locked_lines, "34"), (core_switch, "12"), (true_lru, "01")):
            form = "  domain ([0-9]): fills [0-9]+ = evicted [0-9]+ [+] flushed [0-9]+ [+] dropped [0-9]+ [+] held [0-9]+"
            found = [re.fullmatch(form, line)[1] for line in self.ending(example)]
            self.assertEqual("".join(found), domains)

    def test_no_domain_has_ways(self):
        stream = block({}, 0, {0: Row(0, 0, 0, (0, 0))}) + block({}, domain=3) + held({})
        story = told(Trace(1, 2, 0, (Step(3, 1, 0),)), b"1 2 0 1\n0 refused 6\n", stream)
        self.assertTrue(story.endswith("\n\nAt the end\n  no domain has ways"), story)


class Policies(unittest.TestCase):
    """Policy steps that change many rows, and rows of several domains."""

    SETS = MOST_ROWS + 3

    def story(self, show_all: bool) -> str:
        sets = 8
        fresh = block({}, 0, {number: Row(0, 0, 3, (0, 0)) for number in range(sets)})
        full = {number: Row(1, 1, 2, (number + 1, 0)) for number in range(self.SETS)}
        empty = {number: Row(0, 0, 3, (0, 0)) for number in range(self.SETS)}
        trace = Trace(sets, 2, 1, (Step(0, 2, 0), Step(0, 16, 0)))
        stream = fresh + block({0: (1, 1)}, 0, full, domain=0) + block({}, 0, empty, domain=0) + held({})
        return told(trace, b"8 2 1 2\n0 fill 0\n1 policy 7 7\n", stream, show_all=show_all).partition("\nstep 1")[2]

    def test_summary(self):
        story = self.story(False)
        self.assertEqual(story.count("before"), MOST_ROWS)
        self.assertIn(f"\n  {self.SETS - MOST_ROWS} more sets changed; --all shows them", story)
        removed = "The domain is removed, and its counts are zero."
        self.assertIn(f"\n  Accepted; dropped 7 valid lines, 7 dirty. {removed}\n", story)
        self.assertRegex(story, r"\n  \*  way 0  tag 1, dirty +empty +domain 0 -> -  domain 0 -> -\n")
        self.assertRegex(story, r"\n  \*  word   0x2 \(one at way 1\) +0x3 \(one at ways 0,1\)\n")
        self.assertIn("\n  no domain has ways", story)

    def test_all(self):
        story = self.story(True)
        self.assertEqual(story.count("before"), self.SETS)
        self.assertNotIn("--all", story)

    def test_way_of_two_domains(self):
        stream = block({}, 0, {0: Row(0, 0, 0, (0, 0))}) + block({3: (1, 0), 12: (1, 1)}, domain=3) + held({})
        story = told(Trace(1, 2, 0, (Step(3, 0, 0),)), b"1 2 0 1\n0 pass\n", stream)
        self.assertRegex(story, r"way 0  empty +empty +- -> domain 3,12  - -> domain 12\n")


class Source(unittest.TestCase):
    """The line of a text that a step stands on, and its comment."""

    TEXT = b"sets 1\nways 4\nrule tree\n\n  0 policy hit=0,1 fill=0,1\t# mine \xc3\xa4\x07\n\n2 load 0x40 # none\n"

    def story(self, data: bytes) -> str:
        text = assembler.read("t.txt", data)
        stream = block({}, 0, {0: Row(0, 0, 0, (0, 0, 0, 0))}) + block({0: (3, 3)}, domain=0) + block({0: (3, 3)}, domain=2)
        listed = b"1 4 0 2\n0 policy 0 0\n1 refused 6\ndomain 0 0 0 0 0 0 0 0\n"
        return told(text.trace, listed, stream + held({}), source=text)

    def test_lines(self):
        story = self.story(self.TEXT)
        self.assertIn("(0x3)\n  t.txt:5: 0 policy hit=0,1 fill=0,1\t# mine \u00e4?\n  policy 0 0\n", story)
        self.assertIn("\nstep 1  domain 2 loads at 0x40 (line 1, set 0, tag 1)\n  t.txt:7: 2 load 0x40 # none\n  refused 6\n", story)

    def test_a_long_line(self):
        story = self.story(self.TEXT.replace(b"# none", b"#" + b" long" * 1000))
        self.assertIn("  t.txt:7: 2 load 0x40 # long long", story)
        self.assertIn("... (5,013 characters)\n  refused 6\n", story)

    def test_a_trace_file_has_none(self):
        self.assertNotIn("t.txt", told_case_a())


class Filters(unittest.TestCase):
    """Some of the steps of case A."""

    def places(self, *options: str) -> list[int]:
        """Explain case A with options; give the places of the steps that are told."""
        with by_rote(lister=lambda data: case_a.LISTING, stepper=lambda data: case_a.STREAM):
            status, out, err = call("explain", "-", *options, stdin=case_a.FILE)
        self.assertEqual((status, err), (0, ""))
        found = [int(place) for place in re.findall("^step ([0-9]+) ", out.decode(), re.MULTILINE)]
        ending = f"\n{len(found)} step{'s' * (len(found) != 1)} of 9 shown\n"
        self.assertEqual(out.decode().endswith(ending), bool(options), out.decode())
        self.assertEqual("At the end" in out.decode(), not options)
        return found

    def test_by_place(self):
        self.assertEqual(self.places(), list(range(9)))
        self.assertEqual(self.places("--step", "3"), [3])
        self.assertEqual(self.places("--step", "3-5"), [3, 4, 5])
        self.assertEqual(self.places("--step", "0,3-5,4,8-4000"), [0, 3, 4, 5, 8])
        self.assertEqual(self.places("--step", "1", "--step", "7"), [1, 7])
        self.assertEqual(self.places("--step", "9-100"), [])

    def test_by_domain(self):
        self.assertEqual(self.places("--domain", "1"), [1, 4])
        self.assertEqual(self.places("--domain", "1", "--domain", "2"), [1, 4, 7])
        self.assertEqual(self.places("--domain", "15"), [])

    def test_by_answer(self):
        self.assertEqual(self.places("--word", "evict"), [5])
        self.assertEqual(self.places("--word", "fill", "--word", "hit"), [2, 3, 4, 8])
        self.assertEqual(self.places("--refused"), [7])
        self.assertEqual(self.places("--refused", "--word", "hit"), [7, 8])

    def test_by_several(self):
        self.assertEqual(self.places("--word", "fill", "--domain", "0"), [2, 3])
        self.assertEqual(self.places("--word", "fill", "--domain", "0", "--step", "3"), [3])
        self.assertEqual(self.places("--set", "0"), [2, 3, 4, 5, 6, 7, 8])  # no policy change changed it
        self.assertEqual(self.places("--set", "1"), [])

    def test_options_that_are_wrong(self):
        for options, reason in (
            (("--step", "x"), "'x' is not a number; write it in decimal, from 0"),
            (("--step", "5-3"), "'5-3' runs downwards; write 3-5"),
            (("--step", "3-"), "'' is not a number"),
            (("--step", ""), "'' is not a number"),
            (("--set", "-1"), "'-1' is not a number"),
            (("--domain", "16"), "is not a domain; domains are the decimal numbers 0 to 15"),
            (("--word", "miss"), "invalid choice: 'miss' (choose from"),
        ):
            status, out, err = call("explain", "-", *options, stdin=case_a.FILE)
            self.assertEqual((status, out), (2, b""))
            self.assertIn(reason, err)

    def test_one_set_of_many(self):
        sets = 8
        fresh = block({}, 0, {number: Row(0, 0, 3, (0, 0)) for number in range(sets)})
        full = {number: Row(1, 1, 2, (number + 1, 0)) for number in range(7)}
        trace = Trace(sets, 2, 1, (Step(0, 2, 0), Step(0, 16, 0), Step(0, 1, 64 * 3)))
        stream = fresh + block({0: (1, 1)}, 0, full, domain=0) + block({}, 0, {2: Row(0, 0, 3, (0, 0))}, domain=0)
        stream += block({}, 3, domain=0) + held({})
        listed = b"8 2 1 3\n0 fill 0\n1 policy 1 1\n2 refused 6\n"
        for number, due in ((0, ["0"]), (2, ["0", "1"]), (3, ["0", "2"]), (7, [])):
            story = told(trace, listed, stream, wanted=Wanted(sets=frozenset((number,))))
            self.assertEqual(re.findall("^step ([0-9]+) ", story, re.MULTILINE), due, number)
            shown = set(re.findall("set ([0-9]+)  before", story))
            self.assertEqual(shown, {str(number)} if due else set())


class Colour(unittest.TestCase):
    """Colour on a terminal only."""

    def test_painted(self):
        self.assertIn("\x1b[31mrefused 6\x1b[0m", told_case_a(colour=True))
        self.assertIn("\x1b[32mhit 1\x1b[0m", told_case_a(colour=True))

    def test_choice(self):
        terminal, pipe = mock.Mock(), mock.Mock()
        terminal.isatty.return_value, pipe.isatty.return_value = True, False
        for stream, environment, coloured in (
            (terminal, {}, True),
            (terminal, {"NO_COLOR": "1"}, False),
            (terminal, {"NO_COLOR": ""}, True),
            (terminal, {"TERM": "dumb"}, False),
            (pipe, {}, False),
        ):
            with mock.patch("sys.stdout", stream), mock.patch.dict(os.environ, environment, clear=True):
                self.assertEqual(paint.for_output()("red", "x") != "x", coloured, environment)


class Command(unittest.TestCase):
    """The command with programs that answer by rote."""

    def test_case_a(self):
        with by_rote(lister=lambda data: case_a.LISTING, stepper=lambda data: case_a.STREAM):
            status, out, err = call("explain", "-", stdin=case_a.FILE)
        self.assertEqual((status, err), (0, ""))
        self.assertEqual(out.decode(), told_case_a() + "\n")

    def refused(self, listed: bytes, stream: bytes) -> str:
        """Explain case A by what programs might have said, which is not to be printed; give the error."""
        with by_rote(lister=lambda data: listed, stepper=lambda data: stream):
            status, out, err = call("explain", "-", stdin=case_a.FILE)
        self.assertEqual((status, out), (3, b""), err)
        return err

    def test_programs_that_disagree(self):
        what = "target/bin/stepper did not give a whole stream of this trace: it breaks off within block 0 of 10"
        self.assertEqual(self.refused(case_a.LISTING, b""), f"dipperlock: {what}\n")

    def test_a_stepper_of_before_the_lines_held(self):
        due = "it has 0 bytes, and should have the 64 that say how many lines each domain holds"
        what = f"target/bin/stepper did not give a whole stream of this trace: after its 10 blocks {due}"
        self.assertEqual(self.refused(case_a.LISTING, case_a.STREAM[:-64]), f"dipperlock: {what}\n")

    def test_lines_that_do_not_balance(self):
        blocks, zero = case_a.STREAM[:-64], "evicted 0 + flushed 0 + dropped 0"
        for listed, end, domain, said, out in (
            (case_a.LISTING, {0: 2, 1: 1}, 0, "fills 3 = evicted 1 + flushed 1 + dropped 0 + held 2", 4),
            (case_a.LISTING, {0: 0, 1: 1}, 0, "fills 3 = evicted 1 + flushed 1 + dropped 0 + held 0", 2),
            (case_a.LISTING, {0: 1, 1: 0}, 1, f"fills 1 = {zero} + held 0", 0),
            (case_a.LISTING.replace(b"1 1 1 3 0", b"1 1 1 4 0"), {0: 1, 1: 1}, 0, "fills 4 = evicted 1 +", 3),
            (case_a.LISTING.replace(b"1 1 1 3 0", b"1 1 1 3 1"), {0: 1, 1: 1}, 0, "flushed 1 + dropped 1 + held 1", 4),
            (case_a.LISTING.replace(b"1 1 1 3 0", b"1 1 0 3 0"), {0: 1, 1: 1}, 0, "evicted 1 + flushed 0 + dropped 0 +", 2),
            (case_a.LISTING.replace(b"3 1 1 1 3 0", b"3 2 1 1 3 0"), {0: 1, 1: 1}, 0, "= evicted 2 + flushed 1 +", 4),
            (case_a.LISTING.replace(b"0 0 0 1 0", b"0 0 0 0 0"), {0: 1, 1: 1}, 1, f"fills 0 = {zero} + held 1", 1),
        ):
            err = self.refused(listed, blocks + held(end))
            agree = f"target/bin/lister and target/bin/stepper do not agree on the lines of domain {domain}: '"
            self.assertTrue(err.startswith(f"dipperlock: {agree}fills ") and said in err, err)
            self.assertTrue(err.endswith(f"' should hold, and the right side is {out}\n"), err)

    def test_counts_that_differ(self):
        for line in ("9 3 1 1 1 3 0", "1 9 1 1 1 3 0", "1 3 1 9 1 3 0"):
            err = self.refused(case_a.LISTING.replace(b"domain 0 1 3 1 1 1 3 0", b"domain 0 %s" % line.encode()), case_a.STREAM)
            agree = "target/bin/lister and target/bin/stepper do not agree on the counts of domain 0: 'hits "
            self.assertTrue(err.startswith(f"dipperlock: {agree}{line[0]}, misses {line[2]}, ") and " and 'hits 1, misses 3, " in err, err)
