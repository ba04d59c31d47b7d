"""All tables, policies and counts at a moment of a run."""
from __future__ import annotations

import random
import unittest
from dataclasses import replace

from frontend import maps, run, tracefile
from frontend.listing import Counts
from frontend.tests import case_a, schema
from frontend.tests.helpers import by_rote, call, needs_programs, parsed, streamed
from frontend.tests.test_cli import CASE_A, InFolder
from frontend.tests.test_with_programs import busy_trace

PREFIX = tracefile.encode(replace(tracefile.decode(case_a.FILE), steps=tracefile.decode(case_a.FILE).steps[:6]))
PREFIX_LISTING = b"""\
1 4 0 6
0 policy 0 0
1 policy 0 0
2 fill 1
3 fill 0
4 fill 3
5 evict 1 0 1
domain 0 0 3 1 1 0 3 0
domain 1 0 1 0 0 0 1 0
"""
AFTER_FIVE = """\
examples/case-a.txt: 1 set, 4 ways, rule 0 (Tree-PLRU), 9 steps
After step 5: domain 0 loads at 0x80: evict 1 0 1

Policies and counts
  domain  hit map    fill map   hits  misses  evicted  written back  flushed  fills  dropped  held
  0       0,1 (0x3)  0,1 (0x3)     0       3        1             1        0      3        0     2
  1       2,3 (0xc)  2,3 (0xc)     0       1        0             0        0      1        0     1
  the other 14 domains: no ways, and all counts zero

Core records
  32 cores: all selectors zero

Tables
  set  valid        dirty       word  tag 0  tag 1  tag 2  tag 3
  0    0,1,3 (0xb)  none (0x0)  0x0       1      2      0      0
"""


class ByRote(InFolder):
    """The command with programs that answer by rote."""

    def test_only_the_steps_up_to_the_moment_are_run(self):
        asked = []
        with by_rote(lister=lambda data: asked.append(data) or case_a.LISTING, stepper=lambda data: case_a.STREAM):
            self.assertEqual(call("state", CASE_A, "--after", "8")[0], 0)
            self.assertEqual(call("state", CASE_A)[0], 0)
        self.assertEqual(asked, [case_a.FILE] * 2)
        with by_rote(lister=lambda data: asked.append(data) or PREFIX_LISTING, stepper=lambda data: case_a.STREAM):
            for moment in (("--after", "5"), ("--before", "6")):
                self.assertEqual(call("state", CASE_A, *moment)[0], 3)  # a stream of nine steps is not one of six
        self.assertEqual(asked[2:], [PREFIX] * 2)

    def test_steps_that_there_are_not(self):
        for arguments, reason in (
            (("--after", "9"), "has no step 9; it has 9 steps, 0 to 8"),
            (("--before", "9"), "has no step 9; it has 9 steps, 0 to 8"),
            (("--after", "123456"), "has no step 123,456; it has 9 steps, 0 to 8"),
            (("--after", "-1"), "'-1' is not a number"),
            (("--after", "x"), "'x' is not a number; write it in decimal, from 0"),
            (("--after", "1", "--before", "1"), "not allowed with argument"),
        ):
            with by_rote(lister=lambda data: case_a.LISTING, stepper=lambda data: case_a.STREAM):
                self.assert_bad(("state", CASE_A, *arguments), reason)
        empty = self.file("none.txt", b"sets 1\nways 4\nrule tree\n")
        with by_rote():
            self.assert_bad(("state", empty, "--after", "0"), "has no step 0; it has none")


@needs_programs
class Programs(unittest.TestCase):
    """The command with the proved programs."""

    def test_case_a(self):
        status, out, err = call("state", CASE_A, "--after", "5")
        self.assertEqual((status, err), (0, ""))
        self.assertEqual(out.decode().replace(CASE_A, "examples/case-a.txt"), AFTER_FIVE)
        self.assertEqual(call("state", CASE_A, "--before", "6")[1], out)
        self.assertIn(b"\nAfter step 8, the last: domain 0 loads at 0x80: hit 1\n", call("state", CASE_A)[1])

    def test_a_fresh_cache(self):
        data = tracefile.encode(tracefile.Trace(256, 16, 2, (tracefile.Step(3, 40, 0x010203),)))
        out = call("state", "-", "--before", "0", stdin=data)[1].decode()
        self.assertIn("\nBefore the first step: a fresh cache\n", out)
        self.assertIn("\n  16 domains: no ways, and all counts zero\n", out)
        self.assertRegex(out, r"\n  0-255  none \(0x0\)  none \(0x0\)  0x0123_4567_89ab_cdef \(oldest first 0 1 2 .* 15\)( +0){16}\n$")
        self.assertIn("\n  core 3: CS 3, DS 2, ES 1\n  the other 31 cores: all", call("state", "-", stdin=data)[1].decode())

    def test_rows_that_are_not_alike_have_lines_of_their_own(self):
        steps = tracefile.Step(0, 16, 0x3_0003), tracefile.Step(0, 1, 64), tracefile.Step(0, 2, 128), tracefile.Step(0, 2, 192)
        out = call("state", "-", stdin=tracefile.encode(tracefile.Trace(8, 2, 1, steps)))[1].decode()
        rows = [line.split()[0] for line in out.partition("\nTables\n")[2].splitlines()[1:]]
        self.assertEqual(rows, ["0", "1", "2-3", "4-7"])  # all tags are zero; set 1 has a line, and sets 2 and 3 dirty ones

    def test_every_moment_of_a_run(self):
        source = random.Random(31)
        for _ in range(3):
            data = tracefile.encode(busy_trace(source, 40))
            trace = tracefile.decode(data)
            stream = parsed(streamed(data), trace)
            rows = stream.blocks[0].rows.copy()
            for place, block in enumerate(stream.blocks[1:]):
                rows.take(block.rows)
                records = schema.lines(call("state", "-", "--after", str(place), "--json", stdin=data)[1], "state")
                self.assertEqual(records[1]["after"], place)
                domains = [record for record in records if record["type"] == "domain"]
                self.assertEqual(tuple(int(record["hit"]["map"], 16) for record in domains), block.hit)
                self.assertEqual(tuple(int(record["fill"]["map"], 16) for record in domains), block.fill)
                self.assertEqual(tuple(Counts(**record["counts"]) for record in domains), block.counts)
                cores = [tuple(list(record.values())[2:]) for record in records if record["type"] == "core"]
                self.assertEqual(tuple(cores), block.records)
                sets = [record for record in records if record["type"] == "set"]
                self.assertEqual([record["set"] for record in sets], list(range(trace.sets)))
                for record in sets:
                    numbers = [int(record[key], 16) for key in ("valid", "dirty", "word")]
                    self.assertEqual((*numbers, tuple(int(tag, 16) for tag in record["tags"])), rows[record["set"]])
                held = [sum(len(maps.members(row.valid & hit)) for row in rows.values()) for hit in block.hit]
                self.assertEqual([record["held"] for record in domains], held)

    def test_counts_after_each_step_are_those_of_the_listing(self):
        source = random.Random(32)
        for _ in range(6):
            data = tracefile.encode(busy_trace(source, 60))
            trace = tracefile.decode(data)
            for place, block in enumerate(parsed(streamed(data), trace).blocks):
                part = run.take("part", tracefile.encode(replace(trace, steps=trace.steps[:place])))
                counts = {domain: values for domain, values in enumerate(block.counts) if block.hit[domain]}
                self.assertEqual(counts, part.listing.counts)
                self.assertFalse(any(any(values) for domain, values in enumerate(block.counts) if not block.hit[domain]))
