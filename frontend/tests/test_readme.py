"""What README.md says of the front end is so."""
from __future__ import annotations

import re
import unittest

from frontend import __main__ as entry
from frontend import listing, text, tracefile, words
from frontend.assembler import assemble
from frontend.programs import ROOT
from frontend.tests import case_a, core_switch, locked_lines
from frontend.tests.helpers import parsed

README = (ROOT / "README.md").read_text(encoding="utf-8")
LINK = re.compile(r"\]\(([^)#]+)")


class Readme(unittest.TestCase):
    """The front page."""

    def test_python(self):
        oldest = ".".join(map(str, entry.OLDEST))
        self.assertIn(f"Python {oldest} or later", README)
        self.assertIn(f"Python {oldest} or later", (ROOT / "dipperlock").read_text(encoding="utf-8"))

    def test_links_lead_somewhere(self):
        links = LINK.findall(README)
        self.assertIn("docs/PROOF-NOTES.md", links)
        for link in links:
            self.assertTrue((ROOT / link).exists(), link)

    def test_the_worked_example(self):
        self.assertIn("".join(f"    {line}\n" for line in case_a.LISTING.decode().splitlines()), README)

    def test_what_is_said_of_its_steps(self):
        second, fourth, fifth = (listing.parse(case_a.LISTING).answers[place].fields for place in (2, 4, 5))
        said = " ".join(README.split())
        self.assertIn(f"In step 2 domain 0 fills way {second[0]}, the higher of its two. In step 4 ", said)
        holds = f"which domain 0 holds in way {second[0]}: it does not hit there, and fills its own way {fourth[0]}."
        self.assertIn(f" In step 4 domain 1 loads address 0, {holds} In step 5 domain 0 is full, ", said)
        self.assertEqual(fifth[2], 1)
        self.assertIn(f" and the victim is way {fifth[0]}, tag {fifth[1]}, dirty. ", said)

    def test_what_others_quote_too(self):
        header = (ROOT / "include" / "dipperlock.h").read_text(encoding="utf-8")
        (prints,) = re.findall(r' \* +prints "(fill [0-9])"\.\n', header)
        self.assertIn(f"\nprints `{prints}`. [examples/c/case_a.c]", README)
        found = README.partition("BUG=BUG_HIT_ALL_WAYS` prints\n\n")[2].partition("\n\n")[0]
        self.assertIn(f"\n\n{found}\n\n", (ROOT / "examples" / "verilator" / "README.md").read_text(encoding="utf-8"))

    def test_every_word_of_a_listing_is_named(self):
        for word, count in ((word, len(names)) for word, names in listing.FIELDS.items()):
            (numbers,) = re.findall(rf"\n\| `{word}` \| ([^|]*?) ?\|", README)
            self.assertEqual(len([number for number in numbers.split(", ") if number]), count, word)

    def test_every_rule_is_named(self):
        for name in tracefile.RULES.values():
            self.assertIn(f"`{name}`", README)

    def test_how_many_sets_a_file_holds(self):
        said = f"names more than {tracefile.MAX_SETS} sets, gives the one line `refused 10`"
        self.assertIn(said, " ".join(README.split()))

    def test_document_01_is_told_once(self):
        self.assertEqual(README.count("\n## Document 01\n"), 1)
        self.assertIn("(../README.md#document-01)", (ROOT / "docs" / "CLAIMS.md").read_text(encoding="utf-8")[:800])

    def test_how_the_other_parts_are_tested(self):
        self.assertIn("cargo test --manifest-path reference/Cargo.toml", README)
        self.assertTrue((ROOT / "reference" / "Cargo.toml").is_file())


class Locking(unittest.TestCase):
    """The section on locked lines, which quotes an example."""

    SECTION = README.partition("\n## Locking a working set\n")[2].partition("\n## ")[0]
    LINES = [line[4:] for line in SECTION.splitlines() if line.startswith("    ")]

    def test_the_lines_are_those_of_the_example(self):
        quoted = "\n".join(line for line in self.LINES if "#" in line) + "\n"
        self.assertTrue(quoted.startswith("3 policy hit=0-3 fill=1,2 "))
        self.assertIn(f"\n{quoted}", (ROOT / "examples" / "locked-lines.txt").read_text(encoding="ascii"))

    def test_the_listing_is_that_of_the_example(self):
        quoted = "\n".join(line for line in self.LINES if "#" not in line) + "\n"
        self.assertTrue(quoted.startswith("5 policy 0 0\n"))
        self.assertIn(f"\n{quoted}", locked_lines.LISTING.decode())

    def test_what_explain_says(self):
        answer = listing.parse(locked_lines.LISTING).answers[7]
        self.assertIn(f"of step 7: `{words.answer(answer, 0b1001)}`", self.SECTION)


class CoresAndSelectors(unittest.TestCase):
    """The section on cores, which quotes an example."""

    SECTION = README.partition("\n## Cores and selectors\n")[2].partition("\n## ")[0]
    LINES = [line[4:] for line in SECTION.splitlines() if line.startswith("    ")]
    TRACE = tracefile.decode(core_switch.FILE)

    def test_the_lines_are_those_of_the_example(self):
        quoted = "\n".join(line for line in self.LINES if line.startswith("core")) + "\n"
        self.assertIn(quoted, (ROOT / "examples" / "core-switch.txt").read_text(encoding="ascii"))
        self.assertEqual(quoted.splitlines()[0].split("  ")[0], text.show_step(self.TRACE.steps[6]))

    def test_the_listing_is_that_of_the_example(self):
        quoted = "\n".join(line for line in self.LINES if line[0].isdigit()) + "\n"
        self.assertIn(f"\n{quoted}", core_switch.LISTING.decode())
        self.assertTrue(quoted.startswith("6 select 2 2 2\n"))

    def test_what_explain_says(self):
        blocks = parsed(core_switch.STREAM, self.TRACE).blocks
        self.assertIn(f"of step 7: `{words.route(self.TRACE.steps[7], blocks[8].domain)}`", self.SECTION)
        changed = words.selected(blocks[9].records[3], blocks[10].records[3])
        self.assertIn(f"of step 9: `{changed}`", self.SECTION)

    def test_what_is_struck_out(self):
        said = "`isolate` strikes out steps 7, 8 and 11 for domain 1, whose own is step 10."
        self.assertIn(said, " ".join(self.SECTION.split()))
        domains = [block.domain for block in parsed(core_switch.STREAM, self.TRACE).blocks[1:]]
        self.assertEqual([place for place in range(6, 12) if place in core_switch.STRUCK_PLACES], [7, 8, 11])
        self.assertEqual(domains[10], 1)

    def test_the_text_form(self):
        for written in re.findall(r"`(core [0-9][^`]*)`", README):
            (step,) = assemble("one", f"sets 1\nways 4\nrule tree\n{written}".encode()).steps
            self.assertEqual(text.show_step(step), written)
