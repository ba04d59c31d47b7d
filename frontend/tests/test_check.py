"""The command that holds the log of a simulation against the listing: what differs, and what is told of it."""
from __future__ import annotations

import json
import random
import re
import shlex
import unittest
from unittest import mock

from frontend import check, cli, files, helptext, listing, logform, programs, tracefile
from frontend.logform import Form, Log, Reading
from frontend.paint import Paint
from frontend.tests import case_a, core_switch, true_lru
from frontend.tests.helpers import by_rote, call, needs_programs
from frontend.tests.test_cli import CASE_A, InFolder
from frontend.tests.test_with_programs import busy_trace
from frontend.tracefile import Trace

RTL = programs.ROOT / "examples" / "rtl"
FORM = "t={any} CACHE step={place} {word} {fields}"
KEYS = [
    *("type", "of", "how", "place", "log_line", "log_text", "source", "step"),
    *("expected", "found", "said", "set", "policies", "next"),
]


def changed(*pairs: tuple[bytes, bytes]) -> bytes:
    """Give case A's listing with some lines, or parts of the text, replaced; each stands there once."""
    listed = case_a.LISTING
    for old, new in pairs:
        assert listed.count(old) == 1, old
        listed = listed.replace(old, new)
    return listed


class ByRote(InFolder):
    """Case A with programs that answer by rote."""

    def check(self, log: bytes, *options: str, file: str = CASE_A) -> tuple[int, str]:
        said = {"lister": {case_a.FILE: case_a.LISTING}.__getitem__, "stepper": {case_a.FILE: case_a.STREAM}.__getitem__}
        with by_rote(**said):
            status, out, err = call("check", file, "-", *options, stdin=log)
        self.assertEqual(err, "")
        return status, out.decode()

    def told(self, log: bytes, *options: str) -> str:
        status, out = self.check(log, *options)
        self.assertEqual(status, 1, out)
        return out

    def tell_json(self, log: bytes, *options: str) -> list[dict]:
        status, out = self.check(log, "--json", *options)
        found = [json.loads(line) for line in out.splitlines()]
        self.assertEqual(found[0], {"type": "trace", "name": CASE_A, "sets": 1, "ways": 4, "rule": "tree", "steps": 9})
        for record in found[1:-1]:
            self.assertEqual((record["type"], list(record)), ("difference", KEYS))
        checked = ["type", "same", "agreed", "differences", "missing", "passed_over"]
        self.assertEqual((found[-1]["type"], list(found[-1])), ("checked", checked))
        self.assertEqual((status, found[-1]["same"]), (1, False) if found[-1]["differences"] else (0, True))
        return found[1:]


class Agreement(ByRote):
    """Logs that agree."""

    HEAD = f"{CASE_A}: 1 set, 4 ways, rule 0 (Tree-PLRU), 9 steps\n\n"

    def test_a_listing(self):
        said = f"{self.HEAD}12 of 12 lines agree; 0 different, 0 missing\nstandard input agrees with the listing.\n"
        self.assertEqual(self.check(case_a.LISTING), (0, said))
        self.assertEqual(self.check(case_a.LISTING.replace(b"\n", b"\r\n").upper().replace(b"DOMAIN", b"domain")), (0, said))
        *_, checked = self.tell_json(case_a.LISTING)
        due = {"type": "checked", "same": True, "agreed": 12, "differences": 0, "missing": 0, "passed_over": 0}
        self.assertEqual(checked, due)

    def test_without_header_and_domain_lines(self):
        header, *steps = case_a.LISTING.splitlines(keepends=True)[:10]
        for lines, count in (([header, *steps], 10), (steps, 9), (steps[::-1], 9), ([*steps, header], 10)):
            status, out = self.check(b"".join(lines))
            self.assertEqual((status, out.splitlines()[2]), (0, f"{count} of {count} lines agree; 0 different, 0 missing"))

    def test_the_stepper_is_not_run(self):
        needed = mock.Mock()
        with by_rote(lister={case_a.FILE: case_a.LISTING}.__getitem__, stepper=mock.Mock(side_effect=AssertionError)):
            with mock.patch.object(programs, "need", needed):
                self.assertEqual(call("check", CASE_A, "-", stdin=case_a.LISTING)[0], 0)
                self.assertEqual(call("check", "-", self.file("a.list", case_a.LISTING), stdin=case_a.FILE)[0], 0)
                self.assertEqual(call("check", CASE_A, "-", stdin=changed((b"1 4 0 9\n", b"1 4 0 8\n")))[0], 1)
        self.assertEqual(needed.mock_calls, [mock.call("lister")] * 3)

    def test_the_example(self):
        said = "9 of 9 lines agree; 0 different, 0 missing\nstandard input agrees with the listing.\n"
        self.assertEqual(self.check((RTL / "case-a.log").read_bytes(), "--format", FORM), (0, self.HEAD + said))

    def test_in_part(self):
        log = b"".join(line.rpartition(b" ")[0] + b"\n" for line in case_a.LISTING.splitlines()[1:10])  # without the last number
        status, out = self.check(log, "--format", "{place} {word} {way} {tag}", "--format", "{place} {word} {rest}")
        self.assertEqual(status, 0)
        self.assertIn("\n9 of 9 lines agree; 0 different, 0 missing\n9 lines compared in part: the form does not have all", out)

    def test_passed_over(self):
        log = b"# comment\nhello\n" + case_a.LISTING + b"\nbye\n"
        status, out = self.check(log, "--skip")
        self.assertEqual(status, 0)
        self.assertIn("\n2 lines passed over, the first: standard input:2: hello\nstandard input agrees", out)
        *_, checked = self.tell_json(log, "--skip")
        self.assertEqual((checked["agreed"], checked["passed_over"]), (12, 2))
        self.assertNotIn("passed over", self.check(case_a.LISTING, "--skip")[1])

    def test_a_trace_without_steps(self):
        data = tracefile.encode(Trace(1, 4, 0, ()))
        with by_rote(lister={data: b"1 4 0 0\n"}.__getitem__):
            for log in (b"", b"1 4 0 0\n", b"# nothing\n"):
                self.assertEqual(call("check", "-", self.file("a.log", log), stdin=data)[0], 0)
            status, out, _ = call("check", "-", self.file("a.log", b"0 hit 1\n"), stdin=data)
        self.assertEqual(status, 1)
        self.assertIn(b"\nstep 0  the trace has no such step; it has none\n", out)


class Differences(ByRote):
    """Every kind of difference, and what is told of it."""

    def test_the_example(self):
        path = str(RTL / "case-a-bug.log")
        status, out = self.check((RTL / "case-a-bug.log").read_bytes(), "--format", FORM)
        self.assertEqual(status, 1)
        due = f"""\
{CASE_A}: 1 set, 4 ways, rule 0 (Tree-PLRU), 9 steps

step 4  domain 1 loads at 0x0 (line 0, set 0, tag 0)
  {CASE_A}:10: 1 load 0x0                  # domain 0 has the line; domain 1 does not hit it
  {path}:7: t=100 CACHE step=4 HIT way=1
  expected  fill 3
            A miss: way 3, the highest of the domain's fill map that held no valid line, was filled.
  found     hit 1
  set 0  before the step        hit map   fill map
  way 0  tag 1                  domain 0  domain 0
  way 1  tag 0, dirty           domain 0  domain 0
  way 2  empty                  domain 1  domain 1
  way 3  empty                  domain 1  domain 1
  word   0x2 (right at node 1)
   next  step                    expected     found
   5     domain 0 loads at 0x80  evict 1 0 1  evict 1 0 1
   6     domain 0 flushes 0x40   flush 0 0    flush 0 0
   7     domain 2 loads at 0x0   refused 6    refused 6

8 of 9 lines agree; 1 different, 0 missing
{path} does not agree with the listing: 1 difference.
"""
        self.assertEqual(out.replace("standard input", path), due)

    def test_another_answer(self):
        wrong = (b"5 evict 1 0 1", b"5 evict 1 0 0"), (b"4 fill 3", b"4 hit 3"), (b"8 hit 1", b"8 refused 1")
        for old, new in wrong:
            out, place = self.told(changed((old, new))), int(old[:1])
            self.assertIn(f"\nstep {place}  domain ", out)
            self.assertIn(f"\n  standard input:{place + 2}: {new.decode()}\n", out)
            self.assertIn(f"\n  expected  {old[2:].decode()}\n", out)
            self.assertIn(f"\n  found     {new[2:].decode()}\n", out)
            self.assertIn("\n11 of 12 lines agree; 1 different, 0 missing\n", out)
            self.assertTrue(out.endswith("\nstandard input does not agree with the listing: 1 difference.\n"), out)

    def test_what_is_no_number_differs(self):
        out = self.told(changed((b"8 hit 1", b"8 hit x")))
        self.assertIn("\n  expected  hit 1\n            A hit in way 1.\n  found     hit x\n", out)
        difference, _ = self.tell_json(changed((b"5 evict 1 0 1", b"5 evict x 0 3")))
        self.assertEqual(difference["found"], {"word": "evict", "way": "x", "tag": "0x0", "dirty": 3})
        self.assertEqual(difference["expected"], {"word": "evict", "way": 1, "tag": "0x0", "dirty": True})

    def test_no_line(self):
        log = changed((b"6 flush 0 0\n", b""))
        out = self.told(log)
        self.assertIn("\nstep 6  domain 0 flushes 0x40 (line 1, set 0, tag 1)\n", out)
        said = "The line in way 0 was made invalid; it was not dirty."
        self.assertIn(f"\n  expected  flush 0 0\n            {said}\n  found     no line\n", out)
        self.assertIn("\n11 of 11 lines agree; 0 different, 1 missing\n", out)
        difference, checked = self.tell_json(log)
        self.assertEqual((difference["of"], difference["how"], difference["place"]), ("step", "missing", 6))
        self.assertEqual((difference["log_line"], difference["log_text"], difference["found"]), (None, None, None))
        self.assertEqual((checked["agreed"], checked["differences"], checked["missing"]), (11, 1, 1))

    def test_no_line_at_all(self):
        for log in (b"", b"# nothing\n\n"):
            *found, checked = self.tell_json(log, "--max", "100")
            self.assertEqual([difference["place"] for difference in found], list(range(9)))
            self.assertEqual((checked["agreed"], checked["differences"], checked["missing"]), (0, 9, 9))
            said = "\n0 of 0 lines agree; 0 different, 9 missing\n8 more differences; --max 9 tells all\n"
            self.assertIn(said, self.told(log))

    def test_a_second_line(self):
        for second, same in ((b"3 fill 0", True), (b"3 fill 1", False)):
            log = changed((b"8 hit 1\n", b"8 hit 1\n" + second + b"\n"))
            out = self.told(log)
            self.assertIn("\nstep 3  domain 0 loads at 0x40 (line 1, set 0, tag 1)\n", out)
            self.assertIn(f"\n  standard input:11: {second.decode()}\n", out)
            self.assertIn(f"\n  found     {second[2:].decode()}, in a second line; the first is line 5\n", out)
            self.assertIn("\n12 of 13 lines agree; 1 different, 0 missing\n", out)
            difference, _ = self.tell_json(log)
            self.assertEqual((difference["how"], difference["place"], difference["log_line"]), ("second", 3, 11))
            self.assertEqual(difference["found"] == difference["expected"], same)

    def test_a_step_that_the_trace_has_not(self):
        for place in (9, 4096, 10**30):
            log = case_a.LISTING + b"%d hit 1\n" % place
            out = self.told(log)
            self.assertIn(f"\nstep {place}  the trace has no such step; its last is 8\n", out)
            said = f"  standard input:13: {place} hit 1\n  expected  no line\n  found     hit 1\n"
            self.assertIn(f"\n{said}\n12 of 13 lines agree;", out)
            difference, _ = self.tell_json(log)
            self.assertEqual((difference["how"], difference["place"], difference["log_line"]), ("extra", place, 13))
            nothing = {key: difference[key] for key in ("source", "step", "expected", "said", "set", "policies", "next")}
            self.assertEqual(nothing, {**dict.fromkeys(nothing), "next": []})

    def test_the_header(self):
        for header in (b"1 4 0 8", b"2 4 0 9", b"1 8 0 9", b"1 4 1 9"):
            log = changed((b"1 4 0 9", header))
            out = self.told(log)
            said = header.decode()
            due = f"  standard input:1: {said}\n  expected  1 4 0 9\n  found     {said}\n\n11 of 12 lines agree;"
            self.assertIn(f"\nthe header line: sets, ways, rule and number of steps\n{due}", out)
            difference, _ = self.tell_json(log)
            self.assertEqual((difference["of"], difference["how"], difference["place"]), ("header", "other", None))
            self.assertEqual(difference["expected"], {"sets": 1, "ways": 4, "rule": 0, "steps": 9})
            self.assertEqual(difference["found"], dict(zip(difference["expected"], map(int, header.split()))))
        self.assertIn("1 4 0 9, in a second line; the first is line 1\n", self.told(b"1 4 0 9\n" + case_a.LISTING))

    def test_domain_lines(self):
        line = b"domain 1 0 1 0 0 0 1 0\n"
        for new, found, how in (
            (b"domain 1 0 1 0 0 0 2 0\n", "domain 1 0 1 0 0 0 2 0", "other"),
            (b"", "no line", "missing"),
            (line + line, "domain 1 0 1 0 0 0 1 0, in a second line; the first is line 12", "second"),
            (line + b"domain 2 0 0 0 0 0 0 0\n", "domain 2 0 0 0 0 0 0 0", "extra"),
        ):
            log = changed((line, new))
            out = self.told(log)
            self.assertIn(f"\nthe line of domain {2 if how == 'extra' else 1}\n", out)
            counts = "hits 0, misses 1, evicted 0, written back 0, flushed 0, fills 1, dropped 0"
            due = "no line" if how == "extra" else f"{line.decode()}            {counts}"
            self.assertIn(f"\n  expected  {due}\n  found     {found}\n", out)
            difference, _ = self.tell_json(log)
            self.assertEqual((difference["of"], difference["how"], difference["place"]), ("domain", how, None))
        difference, _ = self.tell_json(changed((b"domain 0 1 3", b"domain 0 2 3")))
        counts = {"hits": 1, "misses": 3, "evicted": 1, "written_back": 1, "flushed": 1, "fills": 3, "dropped": 0}
        self.assertEqual(difference["expected"], {"domain": 0, "counts": counts})
        self.assertEqual(difference["found"], {"domain": 0, "counts": {**counts, "hits": 2}})

    def test_the_whole_trace_is_said_to_be_refused(self):
        out = self.told(b"refused 10\n")
        self.assertIn("\nthe whole trace\n  standard input:1: refused 10\n  expected  no line\n  found     refused 10\n", out)
        difference, checked = self.tell_json(b"refused 10\n")
        self.assertEqual((difference["of"], difference["how"]), ("file", "extra"))
        self.assertEqual(difference["found"], {"word": "refused", "number": 10})
        self.assertEqual((checked["differences"], checked["missing"]), (10, 9))

    def test_order_and_most(self):
        log = changed(
            (b"1 4 0 9\n", b"domain 1 0 1 0 0 0 1 1\n9 hit 1\n8 hit 1\n8 hit 0\n1 4 0 8\n"),
            (b"\n8 hit 1\ndomain 0", b"\ndomain 0"),
            (b"2 fill 1\n", b""),
            (b"5 evict 1 0 1", b"5 evict 1 0 0"),
            (b"domain 1 0 1 0 0 0 1 0\n", b""),
        )
        *found, checked = self.tell_json(log, "--max", "9")
        told = [(difference["of"], difference["how"], difference["place"]) for difference in found]
        steps = [("step", how, place) for how, place in (("missing", 2), ("other", 5), ("second", 8), ("extra", 9))]
        self.assertEqual(told, [("header", "other", None), *steps, ("domain", "other", None)])
        self.assertEqual((checked["agreed"], checked["differences"], checked["missing"]), (8, 6, 1))
        for most in range(1, 8):
            *some, same = self.tell_json(log, "--max", str(most))
            self.assertEqual((some, same), (found[:most], checked))
            out = self.told(log, "--max", str(most))
            self.assertEqual(len(re.findall("^  expected  ", out, re.MULTILINE)), min(most, 6))
            self.assertEqual("; --max 6 tells all\n" in out, most < 6)
        self.assertIn("\n5 more differences; --max 6 tells all\n", self.told(log))
        self.assertIn("\n1 more difference; --max 6 tells all\n", self.told(log, "--max", "5"))

    def test_a_policy_change(self):
        log = changed((b"1 policy 0 0", b"1 policy 1 0"))
        out = self.told(log)
        self.assertIn("\nstep 1  domain 1 asks for hit map 2,3 (0xc) and fill map 2,3 (0xc)\n", out)
        self.assertIn("\n  before the step\n    domain 0 has hit map 0,1 (0x3) and fill map 0,1 (0x3)\n   next ", out)
        difference, _ = self.tell_json(log)
        policy = {"map": "0x3", "ways": [0, 1]}
        self.assertEqual((difference["set"], difference["policies"]), (None, [{"domain": 0, "hit": policy, "fill": policy}]))
        first = self.told(changed((b"\n0 policy 0 0", b"\n0 policy 1 0")))
        self.assertIn("\n  before the step\n    no domain has ways\n", first)

    def test_json(self):
        difference, checked = self.tell_json(changed((b"4 fill 3", b"4 hit 1"), (b"6 flush 0 0\n", b"")))
        step = {"by": "domain", "number": 1, "kind": "load", "kind_number": 1, "argument": "0x0"}
        self.assertEqual((difference["place"], difference["log_line"], difference["log_text"]), (4, 6, "4 hit 1"))
        self.assertEqual((difference["step"], difference["source"]["line"]), (step, 10))
        self.assertEqual((difference["expected"], difference["found"]), ({"word": "fill", "way": 3}, {"word": "hit", "way": 1}))
        self.assertTrue(difference["said"].startswith("A miss: way 3, the highest "))
        row = {"set": 0, "valid": "0x3", "dirty": "0x2", "word": "0x2", "tags": ["0x1", "0x0", "0x0", "0x0"]}
        self.assertEqual((difference["set"], difference["policies"]), (row, None))
        self.assertEqual([(after["place"], after["found"]) for after in difference["next"]], [
            (5, {"word": "evict", "way": 1, "tag": "0x0", "dirty": True}),
            (6, None),
            (7, {"word": "refused", "number": 6}),
        ])
        self.assertEqual(list(difference["next"][0]), ["place", "step", "expected", "found"])
        self.assertEqual(difference["next"][1]["expected"], {"word": "flush", "way": 0, "dirty": False})
        due = {"type": "checked", "same": False, "agreed": 10, "differences": 2, "missing": 1, "passed_over": 0}
        self.assertEqual(checked, due)

    def test_json_of_what_is_not_said(self):
        difference, _ = self.tell_json(b"5 EVICT 0", "--format", "{place} {word} {way}", "--max", "9")[5:7]
        self.assertEqual(difference["found"], {"word": "evict", "way": 0, "tag": None, "dirty": None})
        self.assertEqual(difference["log_text"], "5 EVICT 0")

    def test_a_trace_file_has_no_source(self):
        path = self.file("a.trace", case_a.FILE)
        out = self.check(changed((b"8 hit 1", b"8 hit 0")), file=path)[1]
        self.assertIn("\nstep 8  domain 0 loads at 0x80 (line 2, set 0, tag 2)\n  standard input:10: 8 hit 0\n", out)
        self.assertNotIn("next", out)  # it is the last one

    def test_colour(self):
        given = files.read_trace(CASE_A)
        log = Log("a.log", changed((b"4 fill 3", b"4 hit 1"), (b"5 evict 1 0 1\n", b"")), [])
        listed = listing.parse(case_a.LISTING)
        with by_rote(lister=lambda data: case_a.LISTING, stepper=lambda data: case_a.STREAM):
            report = check.Report(given, listed, log, check.compare(listed, log, False), 1)
        out = "\n".join(report.lines(Paint(True)))
        self.assertIn("expected  \x1b[32mfill 3\x1b[0m", out)
        for part in ("found     \x1b[31mhit 1\x1b[0m", "\x1b[31m*  5 ", "\x1b[31ma.log does not agree"):
            self.assertIn(part, out)


class WithoutRefused(ByRote):
    """Logs of RTL that is given legal requests only."""

    STEPS = case_a.LISTING.splitlines(keepends=True)[1:10]
    PLACELESS = [line.partition(b" ")[2] for line in STEPS]

    def test_with_places(self):
        log = b"".join(self.STEPS[:7] + self.STEPS[8:])
        self.assertIn("\nstep 7  domain 2 loads at 0x0 (", self.told(log))
        status, out = self.check(log, "--without-refused")
        self.assertEqual(status, 0)
        self.assertIn("\n1 refused step without a line, as --without-refused says\n", out)

    def test_a_line_for_a_refused_step_is_compared(self):
        log = b"".join(self.STEPS)
        status, out = self.check(log, "--without-refused")
        self.assertEqual(status, 0)
        self.assertNotIn("refused step", out)
        for wrong in (b"7 refused 3", b"7 pass"):
            out = self.told(log.replace(b"7 refused 6", wrong), "--without-refused")
            self.assertIn(f"\n  expected  refused 6\n            The hit map of domain 2 is empty: it has no ways.", out)

    def test_other_steps_need_their_lines(self):
        log = b"".join(self.STEPS[:6] + self.STEPS[8:])
        out = self.told(log, "--without-refused")
        self.assertIn("\nstep 6  domain 0 flushes ", out)
        self.assertIn("\n   7     domain 2 loads at 0x0   refused 6  no line\n", out)

    def test_without_places(self):
        form = "--format", "{word} {fields}"
        self.assertEqual(self.check(b"".join(self.PLACELESS), *form)[0], 0)
        given = self.PLACELESS[:7] + self.PLACELESS[8:]
        self.assertEqual(self.check(b"".join(given), *form, "--without-refused")[0], 0)
        out = self.told(b"".join(given), *form)
        self.assertIn("\nstep 7  domain 2 loads at 0x0 (", out)
        self.assertIn("\n  found     hit 1\n", out)
        self.assertIn("\n7 of 8 lines agree; 1 different, 1 missing\n", out)
        out = self.told(b"".join(self.PLACELESS), *form, "--without-refused")
        self.assertIn("\nstep 8  domain 0 loads at 0x80 (", out)
        self.assertIn("\n  found     refused 6\n", out)
        self.assertIn("\n1 more difference; ", out)

    def test_one_line_too_many_without_places(self):
        form = "--format", "{word} {fields}"
        log = b"".join(self.PLACELESS) + b"absent\n"
        title = "one line more than steps  the trace has no such step; its last is 8"
        self.assertIn(f"\n{title}\n  standard input:10: absent\n", self.told(log, *form))
        difference, _ = self.tell_json(log, *form)
        self.assertEqual((difference["how"], difference["place"], difference["log_line"]), ("extra", None, 10))

    def test_the_domain_lines_still_count(self):
        log = b"".join(self.STEPS[:7] + self.STEPS[8:]) + b"domain 0 1 3 1 1 1 3 0\n"
        self.assertIn("\nthe line of domain 1\n", self.told(log, "--without-refused"))


class Skip(ByRote):
    """Lines that are passed over are counted, and their steps are missing."""

    def test_a_damaged_line(self):
        log = changed((b"5 evict 1 0 1", b"5 evict 1 0"))
        out = self.told(log, "--skip")
        self.assertIn("\nstep 5  domain 0 loads at 0x80 (", out)
        self.assertIn("\n  found     no line\n", out)
        passed = "1 line passed over, the first: standard input:7: 5 evict 1 0"
        self.assertIn(f"\n11 of 11 lines agree; 0 different, 1 missing\n{passed}\n", out)
        _, checked = self.tell_json(log, "--skip")
        self.assertEqual((checked["agreed"], checked["missing"], checked["passed_over"]), (11, 1, 1))

    def test_forms_that_fit_no_line(self):
        out = self.told(case_a.LISTING, "--skip", "--format", "CACHE {place} {word} {fields}")
        more = "8 more differences; --max 9 tells all"
        self.assertIn(f"\n0 of 0 lines agree; 0 different, 9 missing\n{more}\n12 lines passed over,", out)


class Machine(InFolder):
    """Programs that do not do their part, and files that are refused."""

    WRONG = changed((b"4 fill 3", b"4 hit 1"))

    def test_what_is_not_whole(self):
        for listed in (b"", case_a.LISTING[:100], b"refused 10\n"):
            with by_rote(lister=lambda data, listed=listed: listed):
                what = "dipperlock: target/bin/lister did not give a whole listing of this trace: "
                self.assert_bad(("check", CASE_A, "-"), what, stdin=case_a.LISTING, due=3)
        with by_rote(lister=lambda data: case_a.LISTING, stepper=lambda data: case_a.STREAM[:1000]):
            what = "dipperlock: target/bin/stepper did not give a whole stream of this trace: "
            for options in ((), ("--json",)):
                self.assert_bad(("check", CASE_A, "-", *options), what, stdin=self.WRONG, due=3)

    def test_which_programs_are_needed(self):
        for data, listed, stream, log, due in (
            (case_a.FILE, case_a.LISTING, case_a.STREAM, self.WRONG, [mock.call("lister"), mock.call("lister", "stepper")]),
            (case_a.FILE, case_a.LISTING, case_a.STREAM, case_a.LISTING + b"9 hit 0\n", [mock.call("lister")]),
        ):
            needed = mock.Mock()
            with by_rote(lister=lambda _, listed=listed: listed, stepper=lambda _, stream=stream: stream):
                with mock.patch.object(programs, "need", needed):
                    self.assertEqual(call("check", "-", self.file("a.log", log), stdin=data)[0], 1)
            self.assertEqual(needed.mock_calls, due)

    def test_refused_files(self):
        three = tracefile.encode(Trace(3, 4, 0, ()))
        for data, number, why in ((three, 1, "refused by 1: 3 sets, 4 ways, "), (b"\0b", 10, "refused by 10: it has 2 bytes")):
            with by_rote(lister={data: b"refused %d\n" % number}.__getitem__):
                path = self.file("a.log", b"# as the lister has it\nrefused %d\n" % number)
                status, out, err = call("check", "-", path, stdin=data)
                self.assertEqual((status, err), (0, ""))
                self.assertTrue(out.decode().startswith(f"standard input is {why}"), out)
                said = f"\n\n1 of 1 line agrees; 0 different, 0 missing\n{path} agrees with the listing.\n"
                self.assertTrue(out.endswith(said.encode()), out)
                status, out, err = call("check", "-", path, "--json", stdin=data)
                head, checked = map(json.loads, out.splitlines())
                self.assertEqual((status, head["type"], head["number"], checked["same"]), (0, "refused", number, True))
                self.check_other_logs(data, number)

    def check_other_logs(self, data: bytes, number: int) -> None:
        path = self.file("b.log", b"refused 6\n")
        status, out, _ = call("check", "-", path, stdin=data)
        self.assertEqual(status, 1)
        due = f"\nthe whole trace\n  {path}:1: refused 6\n  expected  refused {number}\n  found     refused 6\n"
        self.assertIn(due.encode(), out)
        status, out, _ = call("check", "-", self.file("b.log", case_a.LISTING), "--json", "--max", "99", stdin=data)
        *found, checked = [json.loads(line) for line in out.splitlines()][1:]
        told = [(difference["of"], difference["how"]) for difference in found]
        extra = [("header", "extra"), *[("step", "extra")] * 9, *[("domain", "extra")] * 2]
        self.assertEqual((status, told), (1, [("file", "missing"), *extra]))
        self.assertEqual((checked["agreed"], checked["differences"], checked["missing"]), (0, 13, 1))
        self.assertEqual(call("check", "-", self.file("b.log", case_a.LISTING), stdin=data)[0], 1)
        forms = ("--format", "{place} {word} {fields}", "--skip")
        self.assert_bad(("check", "-", path, *forms), f"dipperlock: standard input is refused by {number}", stdin=data)


class Cores(unittest.TestCase):
    """Steps of cores, and words that are orders."""

    def told(self, example: object, name: str, old: bytes, new: bytes) -> str:
        self.assertEqual(example.LISTING.count(old), 1)
        with by_rote(lister={example.FILE: example.LISTING}.__getitem__, stepper={example.FILE: example.STREAM}.__getitem__):
            log = example.LISTING.replace(old, new)
            status, out, err = call("check", str(programs.ROOT / "examples" / name), "-", stdin=log)
        self.assertEqual((status, err), (1, ""))
        return out.decode()

    def test_a_core(self):
        out = self.told(core_switch, "core-switch.txt", b"\n7 fill 3\n", b"\n7 hit 0\n")
        self.assertIn("\nstep 7  core 3 loads at 0x40 (line 1, set 0, tag 1)\n", out)
        self.assertIn("\n  Core 3 loads through DS, which names domain 2.\n  expected  fill 3\n", out)
        self.assertRegex(out, r"\n  set 0  before the step .*\n  way 0  .* domain 1  domain 1\n")

    def test_a_select(self):
        out = self.told(core_switch, "core-switch.txt", b"\n9 select 1 1 2\n", b"\n9 select 1 2 1\n")
        said = "Accepted; changed CS from 2 to 1, DS from 2 to 1."
        self.assertIn(f"\n  expected  select 1 1 2\n            {said}\n  found     select 1 2 1\n   next  step ", out)

    def test_an_order(self):
        answers = listing.parse(true_lru.LISTING).answers
        place = next(place for place, answer in enumerate(answers) if answer.word == "evict")
        out = self.told(true_lru, "true-lru.txt", f"\n{place} {answers[place]}\n".encode(), f"\n{place} pass\n".encode())
        self.assertRegex(out, r"\n  word   0x[0-3]{4} \(oldest first [0-3] [0-3] [0-3] [0-3]\)\n")


class Help(unittest.TestCase):
    """What the help says is so."""

    SAID = " ".join(helptext.CHECK.split())

    def test_placeholders(self):
        for name in re.findall("{[a-z_]+}", logform.PLACEHOLDERS_ARE):
            self.assertIn(name, helptext.CHECK)
        for word in listing.FIELDS:
            self.assertRegex(self.SAID, rf"\b{word}\b")

    def test_numbers(self):
        self.assertIn(f"LOG may have up to {files.LARGEST_LOG:,} bytes.", self.SAID)
        self.assertIn(f"the first {logform.MOST_SHOWN} are told", self.SAID)
        self.assertEqual(check._NEXT, 3)
        self.assertIn("and the next three steps.", self.SAID)

    def test_what_the_help_says_of_numbers(self):
        log = Log("a", b"hit way= 1 tag=0\nhit way=x tag=0\n", [Form("{word} way={way} tag={tag}")])
        self.assertEqual([entry.reading for entry in log.entries], [Reading("hit", (1,)), Reading("hit", ("x",))])

    def test_the_example_has_the_form_of_the_logs(self):
        (line,) = helptext.EXAMPLES["check"]
        args = cli._parser().parse_args(shlex.split(line)[1:])
        self.assertIn(FORM, shlex.split(line))
        for name in ("case-a.log", "case-a-bug.log"):
            log = Log(name, (RTL / name).read_bytes(), args.format)
            self.assertEqual((log.strange, [entry.number for entry in log.entries]), ([], list(range(9))))


@needs_programs
class WithPrograms(InFolder):
    """Logs of the examples and of random traces, with the proved programs."""

    SWAPS = (("hit", "fill", "refused"), ("pass", "absent"), ("flush", "policy"), ("evict", "select"))

    def examples(self) -> list[str]:
        return sorted(str(path) for path in (programs.ROOT / "examples").glob("*.txt"))

    def test_examples(self):
        for path in self.examples():
            listed = call("list", path)[1]
            status, out, err = call("check", path, "-", stdin=listed)
            self.assertEqual((status, err), (0, ""), out)

    def test_the_logs(self):
        options = "--format", FORM
        self.assertEqual(call("check", CASE_A, str(RTL / "case-a.log"), *options)[0], 0)
        status, out, err = call("check", CASE_A, str(RTL / "case-a-bug.log"), *options)
        self.assertEqual((status, err), (1, ""))
        self.assertIn(b"\nstep 4  domain 1 loads at 0x0 (", out)

    def test_every_refusal_is_told(self):
        path = str(programs.ROOT / "examples" / "refusals.txt")
        listed = call("list", path)[1].decode()
        log = re.sub("refused [0-9]+", "pass", listed).encode()
        status, out, _ = call("check", path, "-", "--max", "99", "--json", stdin=log)
        found = [json.loads(line) for line in out.splitlines()][1:-1]
        self.assertEqual((status, len(found)), (1, listed.count("refused")))
        explained = map(json.loads, call("explain", path, "--refused", "--json")[1].splitlines())
        due = [(told["place"], told["said"]) for told in explained if told["type"] == "step"]
        self.assertEqual([(each["place"], each["said"]) for each in found], due)

    def test_a_shared_node_needs_one_program_more(self):
        path = str(programs.ROOT / "examples" / "shared-node.txt")
        listed = call("list", path)[1]
        self.assertIn(b" refused 9\n", listed)
        for wrong, needed in ((b" refused 8\n", ["lister", "stepper", "parts"]), (b" refused 9\n7 hit 1\n", ["lister"])):
            with mock.patch.object(programs, "need") as need:
                status, out, err = call("check", path, "-", stdin=listed.replace(b" refused 9\n", wrong))
            self.assertEqual((status, err), (1, ""), out)
            self.assertEqual([*need.call_args[0]], needed)

    def wrong(self, source: random.Random, lines: list[str]) -> tuple[list[str], str]:
        """Change, drop or double one line of a listing; give the new one, and how."""
        place, how = source.randrange(len(lines)), source.choice(("field", "word", "drop", "double"))
        line = lines[place].split(" ")
        numbers = range(1 if line[1].isdigit() and line[0].isdigit() else 2, len(line))
        if how == "field" and numbers:
            at = source.choice(numbers)
            line[at] = str(int(line[at]) + source.choice((1, 7)))
        elif how == "word" and line[1] in listing.FIELDS:
            others = next(words for words in self.SWAPS if line[1] in words)
            line[1] = source.choice([word for word in others if word != line[1]])
        elif how == "drop" and line[1] in listing.FIELDS:
            return lines[:place] + lines[place + 1 :], "missing"
        else:
            at = source.randrange(len(lines))
            return lines[:at] + [lines[place]] + lines[at:], "second"
        return lines[:place] + [" ".join(line)] + lines[place + 1 :], "other"

    def test_random_traces(self):
        source, seen = random.Random(31), []
        for _ in range(24):
            data = tracefile.encode(busy_trace(source, 60, tops=(7, 63)))
            path = self.file("a.trace", data)
            listed = call("list", path)[1]
            self.assertEqual(call("check", path, "-", stdin=listed)[0], 0)
            lines, how = self.wrong(source, listed.decode().splitlines())
            status, out, err = call("check", path, "-", "--json", stdin="\n".join(lines).encode())
            _, difference, checked = map(json.loads, out.splitlines())
            self.assertEqual((status, err, checked["differences"], difference["how"]), (1, "", 1, how), difference)
            seen.append(how)
            if difference["set"] is not None:
                self.assert_row(path, difference)
        self.assertEqual(set(seen), {"other", "missing", "second"})

    def assert_row(self, path: str, difference: dict) -> None:
        """Hold the set that is told against the state before the step."""
        out = call("state", path, "--before", str(difference["place"]), "--json")[1]
        rows = [record for record in map(json.loads, out.splitlines()) if record["type"] == "set"]
        self.assertEqual({"type": "set", **difference["set"]}, rows[difference["set"]["set"]])

    def rtl(self, source: random.Random, place: int, answer: listing.Answer) -> str:
        """Print an answer as RTL might, in one of several forms."""
        values = dict(zip(listing.FIELDS[answer.word], answer.fields))
        lead = f"@{10 * place}ns cache: step={place:5} {source.choice((str.lower, str.upper))(answer.word)}"
        if not set(values) - {"way", "tag", "dirty"} and source.random() < 0.5:
            return f"{lead} way={values.get('way', 'x')} tag={values.get('tag', 0):#x} dirty={values.get('dirty', '-')}"
        if source.random() < 0.5:
            return f"{lead} " + ", ".join(map(hex, values.values()))
        return f"{lead} " + " ".join(f"{name}={value}" for name, value in source.sample(sorted(values.items()), len(values)))

    def test_random_logs_in_several_forms(self):
        source = random.Random(32)
        forms = ("{word} way={way} tag={tag} dirty={dirty}", "{word} {fields}")
        options = [option for form in forms for option in ("--format", f"@{{any}} cache: step={{place}} {form}")]
        for _ in range(8):
            data = tracefile.encode(busy_trace(source, 100, tops=(7, 63)))
            path = self.file("a.trace", data)
            answers = listing.parse(call("list", path)[1]).answers
            lines = [self.rtl(source, place, answer) for place, answer in enumerate(answers)]
            source.shuffle(lines)
            self.assertEqual(call("check", path, "-", *options, stdin="\n".join(lines).encode())[0], 0)
            legal = [line for line in lines if "refused" not in line.lower()]
            status, out, _ = call("check", path, "-", *options, "--without-refused", stdin="\n".join(legal).encode())
            self.assertEqual(status, 0, out.decode())
            noisy = "\n".join(part for line in legal for part in (line, "", "# note", "UVM_INFO: something else"))
            options += "--without-refused", "--skip", "--json"
            *_, checked = call("check", path, "-", *options, stdin=noisy.encode())[1].splitlines()
            del options[-3:]
            agreed = {"same": True, "agreed": len(legal), "differences": 0, "missing": 0, "passed_over": len(legal)}
            self.assertEqual(json.loads(checked), {"type": "checked", **agreed})

    def test_random_logs_without_places(self):
        source = random.Random(33)
        for _ in range(8):
            data = tracefile.encode(busy_trace(source, 60, tops=(7, 63)))
            path = self.file("a.trace", data)
            answers = [str(answer) for answer in listing.parse(call("list", path)[1]).answers]
            legal = [answer for answer in answers if not answer.startswith("refused")]
            options = "--format", "{word} {fields}"
            self.assertEqual(call("check", path, "-", *options, stdin="\n".join(answers).encode())[0], 0)
            self.assertEqual(call("check", path, "-", *options, "--without-refused", stdin="\n".join(legal).encode())[0], 0)
            del legal[source.randrange(len(legal))]
            self.assertEqual(call("check", path, "-", *options, "--without-refused", stdin="\n".join(legal).encode())[0], 1)

    def test_a_whole_trace_is_quick(self):
        data = tracefile.encode(busy_trace(random.Random(34), 4096))
        path = self.file("a.trace", data)
        listed = call("list", path)[1]
        status, out, _ = call("check", path, "-", stdin=listed)
        self.assertEqual(status, 0)
        self.assertRegex(out.decode(), r"\n(4,09[0-9]|4,1[01][0-9]) of \1 lines agree; 0 different, 0 missing\n")
