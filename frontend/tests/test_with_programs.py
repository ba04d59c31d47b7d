"""The front end with the proved programs, where they are built."""
from __future__ import annotations

import os
import random
import re
import shlex
import subprocess
import sys
import tempfile
import unittest
from dataclasses import replace
from pathlib import Path
from unittest import mock

from frontend import cores, crates, files, helptext, listing, maps, programs, run, stepper, struck, telling, tracefile, words
from frontend.tests import balance, case_a, core_switch, highest_first, locked_lines, true_lru
from frontend.tests.helpers import MAIN, call, knows_cores, needs_programs, parsed, random_trace, start, streamed
from frontend.tracefile import Step, Trace

EXAMPLES = sorted((programs.ROOT / "examples").glob("*.txt"))


def busy_trace(
    source: random.Random, count: int, rules: tuple[int, ...] = (0, 1, 2), tops: tuple[int, ...] = (63, 255, 1023)
) -> Trace:
    """Make a trace within the limits that has steps of every kind; `tops` are the highest lines, and low ones are hit often."""
    ways = source.choice((2, 4, 8, 16))
    steps = []
    for _ in range(count):
        word = source.getrandbits(ways) & source.getrandbits(ways)
        policy = word | (word & source.getrandbits(ways)) << 16
        selectors = cores.join(tuple(source.choice((0, 0, 1, 1, 15, 15, 16)) for _ in cores.SELECTORS))
        kind = source.choice((0, 1, 1, 2, 2, 3, 16, 16, 32, 33, 33, 34, 34, 35, 40))
        address = source.randint(0, source.choice(tops)) * 64
        argument = {16: policy, 40: selectors | (source.random() < 0.1) << 24}.get(kind, address)
        steps.append(Step(source.choice((0, 3, 31, 32) if kind >= 32 else (0, 1, 15)), kind, argument))
    return Trace(source.choice((1, 2, 4, 256)), ways, source.choice(rules), tuple(steps))


def blocks_of(taken: run.Run) -> list[stepper.Block]:
    """Give every block of a run's stream."""
    return parsed(streamed(tracefile.encode(taken.trace)), taken.trace).blocks


def said(data: bytes, name: str, *arguments: str) -> bytes:
    """Write all data to a program's standard input, then give what it writes; a pipe that breaks is an error."""
    command = (programs.BIN / name, *arguments)
    with subprocess.Popen(command, stdin=subprocess.PIPE, stdout=subprocess.PIPE) as job:
        with job.stdin:
            job.stdin.write(data)
        return job.stdout.read()


@needs_programs
class CaseA(unittest.TestCase):
    """Document 01's cases that a program shows."""

    def test_listing(self):
        example = str(programs.ROOT / "examples" / "case-a.txt")
        for arguments in (("list", example), ("list",)):
            self.assertEqual(call(*arguments, stdin=case_a.FILE), (0, case_a.LISTING, ""))

    def test_stream(self):
        self.assertEqual(streamed(case_a.FILE), case_a.STREAM)

    def test_purge(self):
        whole = run.take("case A", case_a.FILE)
        kept = struck.kept(whole, 0, programs.purger(case_a.FILE, 0)).steps
        self.assertEqual(kept, tuple(step for place, step in enumerate(whole.trace.steps) if place not in (4, 7)))

    def test_limits(self):
        many = (Step(0, 0, 0),) * 4096
        for trace, first in (
            (Trace(256, 2, 0, ()), b"256 2 0 0\n"),
            (Trace(0, 2, 0, ()), b"refused 1\n"),
            (Trace(3, 2, 0, ()), b"refused 1\n"),
            (Trace(255, 2, 0, ()), b"refused 1\n"),
            (Trace(257, 2, 0, ()), b"refused 10\n"),
            (Trace(512, 2, 0, ()), b"refused 10\n"),
            (Trace(512, 3, 9, many), b"refused 10\n"),
            (Trace(4096, 2, 0, ()), b"refused 10\n"),
            (Trace(65_535, 2, 0, ()), b"refused 10\n"),
            (Trace(1, 2, 2, ()), b"1 2 2 0\n"),
            (Trace(1, 2, 3, ()), b"refused 1\n"),
            (Trace(1, 2, 0, (Step(15, 1, 0),)), b"1 2 0 1\n0 refused 6\n"),
            (Trace(1, 2, 0, (Step(16, 1, 0),)), b"1 2 0 1\n0 refused 3\n"),
            (Trace(1, 2, 0, many), b"1 2 0 4096\n0 refused 6\n"),
            (Trace(1, 2, 0, (*many, many[0])), b"refused 10\n"),
        ):
            status, out, _ = call("list", stdin=tracefile.encode(trace))
            self.assertEqual((status, out[: len(first)]), (2 if first.startswith(b"refused") else 0, first))


@needs_programs
class TrueLru(unittest.TestCase):
    """The example of true LRU, in both runs, and words that are orders."""

    EXAMPLE = str(programs.ROOT / "examples" / "true-lru.txt")

    def test_whole_run(self):
        self.assertEqual(call("list", self.EXAMPLE), (0, true_lru.LISTING, ""))
        self.assertEqual(streamed(true_lru.FILE), true_lru.STREAM)

    def test_struck_out_run(self):
        whole = run.take("true LRU", true_lru.FILE)
        kept = struck.kept(whole, 0, programs.purger(true_lru.FILE, 0))
        self.assertEqual(len(kept.steps), len(whole.trace.steps) - len(true_lru.STRUCK_PLACES))
        data = tracefile.encode(kept)
        self.assertEqual((programs.lister(data), streamed(data)), (true_lru.STRUCK_LISTING, true_lru.STRUCK_STREAM))

    def test_isolate(self):
        for domain, order in (("0", "oldest first 2 0 1"), ("1", "oldest first 3"), ("2", "none")):
            status, out, _ = call("isolate", self.EXAMPLE, domain)
            self.assertEqual(status, 0, out)
            self.assertRegex(out.decode(), f"\n +own replacement data +{order} +{order}\n")

    def test_explain(self):
        status, out, _ = call("explain", self.EXAMPLE)
        self.assertEqual(status, 0)
        self.assertIn("0x0123 (oldest first 0 1 2 3)  0x3012 (oldest first 3 0 1 2)", out.decode())

    def test_no_node_is_shared(self):
        steps = Step(0, 16, 0x0005_0005), Step(1, 16, 0x000A_000A)  # case F's maps
        answers = listing.parse(programs.lister(tracefile.encode(Trace(1, 8, 2, steps)))).answers
        self.assertEqual([str(answer) for answer in answers], ["policy 0 0"] * 2)

    def test_every_word_is_an_order(self):
        source = random.Random(12)
        for _ in range(12):
            trace = busy_trace(source, 100, (2,))
            blocks = parsed(streamed(tracefile.encode(trace)), trace).blocks
            for row in (row for block in blocks for row in block.rows.values()):
                self.assertIsNotNone(words.order(row.word, list(range(trace.ways))), row)


@needs_programs
class LockedLines(unittest.TestCase):
    """Hits in ways outside the fill map: in the example, and in traces whose one domain locks any of its ways."""

    EXAMPLE = str(programs.ROOT / "examples" / "locked-lines.txt")

    def test_example(self):
        self.assertEqual(call("list", self.EXAMPLE), (0, locked_lines.LISTING, ""))
        self.assertEqual(streamed(locked_lines.FILE), locked_lines.STREAM)

    def locking_trace(self, source: random.Random, rule: int, domain: int, kinds: tuple[int, ...]) -> Trace:
        ways = source.choice((4, 8, 16))
        whole = (1 << ways) - 1
        steps = [Step(domain, 16, whole | whole << 16), *(Step(domain, 1, 64 * line) for line in range(ways))]
        for _ in range(20):
            steps.append(Step(domain, 16, whole | source.getrandbits(ways) << 16))
            steps += (Step(domain, source.choice(kinds), 64 * source.randrange(ways + 2)) for _ in range(8))
        return Trace(1, ways, rule, tuple(steps))

    def test_the_word_stays(self):
        source, seen = random.Random(14), 0
        for rule in (0, 1, 2) * 2:
            taken = run.take("random", tracefile.encode(self.locking_trace(source, rule, 0, (0, 1, 2))))
            word = blocks_of(taken)[0].rows[0].word
            for block, answer in zip(blocks_of(taken)[1:], taken.listing.answers):
                before, word = word, block.rows[0].word if block.rows else word
                if answer.word == "hit" and not block.fill[0] >> answer.fields[0] & 1:
                    seen += 1
                    self.assertEqual(word, before, (rule, answer))
        self.assertGreater(seen, 200)

    def test_explain_tells_each(self):
        source, seen = random.Random(15), set()
        for rule in (0, 1, 2) * 2:
            taken = run.take("random", tracefile.encode(self.locking_trace(source, rule, 15, (1, 2, 3))))
            _, out, _ = call("explain", "-", stdin=tracefile.encode(taken.trace))
            steps = re.split("\nstep [0-9]+ ", out.decode())[1:]
            self.assertEqual(len(steps), len(taken.trace.steps))
            for told, block, answer in zip(steps, blocks_of(taken), taken.listing.answers):
                found = answer.word in ("hit", "flush")
                locked = found and not block.fill[15] >> answer.fields[0] & 1
                self.assertEqual("locked" in told, locked, told)
                if found:
                    seen.add((rule, answer.word, locked))
        self.assertEqual(len(seen), 12)  # under each rule a hit and a flush, locked and not


@needs_programs
class HighestFirst(unittest.TestCase):
    """The way that a miss takes: in the example, and in any trace."""

    EXAMPLE = str(programs.ROOT / "examples" / "highest-first.txt")

    def test_example(self):
        self.assertEqual(call("list", self.EXAMPLE), (0, highest_first.LISTING, ""))
        self.assertEqual(streamed(highest_first.FILE), highest_first.STREAM)

    def candidates(self, rule: int, answer: listing.Answer, fill: int, row: stepper.Row) -> tuple[str, list[int]]:
        """Give what the ways have in common that would do for an answer, and these; none where the highest need not be taken."""
        if answer.word == "fill":
            return "invalid", maps.members(fill & ~row.valid)
        if answer.word != "evict" or rule != tracefile.NRU:
            return "", []
        return ("bit one", maps.members(fill & row.word)) if fill & row.word else ("default", maps.members(fill))

    def test_the_way_is_the_highest_that_would_do(self):
        source, seen = random.Random(21), []
        for _ in range(24):
            taken = run.take("random", tracefile.encode(busy_trace(source, 300, tops=(63,))))
            rule, rows = taken.trace.rule, {}
            for before, after, answer in zip(blocks_of(taken), blocks_of(taken)[1:], taken.listing.answers):
                rows.update(before.rows)
                if answer.word in ("fill", "evict"):
                    sort, ways = self.candidates(rule, answer, before.fill[after.domain], rows[after.set])
                    self.assertIn(answer.fields[0], ways[-1:] or range(taken.trace.ways), (rule, answer, ways))
                    seen += [(rule, sort)] if len(ways) > 1 else []
        for due in ((0, "invalid"), (1, "invalid"), (2, "invalid"), (1, "bit one"), (1, "default")):
            self.assertGreater(seen.count(due), 10, due)


@needs_programs
class Balance(unittest.TestCase):
    """Lines in and lines out: in the example, and in any trace."""

    EXAMPLE = programs.ROOT / "examples" / "balance.txt"

    def test_example(self):
        self.assertEqual(call("list", str(self.EXAMPLE)), (0, balance.LISTING, ""))
        self.assertEqual(streamed(balance.FILE), balance.STREAM)

    def test_explain(self):
        status, out, _ = call("explain", str(self.EXAMPLE))
        last = "".join(f"  domain {domain}: {said}\n" for domain, said in balance.BALANCES.items())
        self.assertEqual((status, out.decode().partition("\nLines in and lines out\n")[2]), (0, last))

    def test_balances_are_those_that_the_text_says(self):
        lines = [line for line in self.EXAMPLE.read_text(encoding="ascii").splitlines() if line[:1].isdigit()]
        found = {place: re.search("fills [0-9]+ = .*", line) for place, line in enumerate(lines)}
        said = {place: match[0] for place, match in found.items() if match}
        self.assertEqual(list(said), [3, 5, 6, 7, 8, 9, 11, 12])
        whole = tracefile.decode(balance.FILE)
        for place, due in said.items():
            taken = run.take("a beginning", tracefile.encode(replace(whole, steps=whole.steps[: place + 1])))
            domain = whole.steps[place].named
            self.assertEqual(words.balance(taken.listing.counts[domain], taken.held[domain]), due, place)

    def test_lines_held_are_those_of_the_rows(self):
        source, seen = random.Random(19), set()
        for _ in range(12):
            taken = run.take("random", tracefile.encode(busy_trace(source, 200)))
            rows = stepper.rows_at_end(blocks_of(taken)).values()
            due = tuple(sum(len(maps.members(row.valid & hit)) for row in rows) for hit in blocks_of(taken)[-1].hit)
            self.assertEqual(taken.held, due)
            seen.update(due)
        self.assertGreater(len(seen), 3)

    def tally(self, taken: run.Run, domain: int) -> dict[str, int]:
        """Count a domain's lines in and lines out by the answers to its steps since it was last removed."""
        lines = {"fill": 0, "evict": 0, "flush": 0, "policy": 0}
        for place, (step, answer) in enumerate(zip(taken.trace.steps, taken.listing.answers)):
            if taken.domains[place] == domain and answer.word in lines:
                lines[answer.word] += answer.fields[0] if answer.word == "policy" else 1
                if answer.word == "policy" and step.argument == 0:
                    lines = dict.fromkeys(lines, 0)
        return lines

    def test_counts_are_those_of_the_answers(self):
        source, dropped, removed = random.Random(20), 0, 0
        for _ in range(12):
            taken = run.take("random", tracefile.encode(busy_trace(source, 300)))
            accepted = (step for step, answer in zip(taken.trace.steps, taken.listing.answers) if answer.word == "policy")
            removed += sum(step.argument == 0 for step in accepted)
            for domain, counts in taken.listing.counts.items():
                due = self.tally(taken, domain)
                self.assertEqual(counts.fills, due["fill"] + due["evict"])
                self.assertEqual((counts.evicted, counts.flushed, counts.dropped), (due["evict"], due["flush"], due["policy"]))
                dropped += counts.dropped
        self.assertGreater(min(dropped, removed), 10)


@unittest.skipIf(programs.amiss("lister"), "target/bin/lister is missing or not up to date")
class Skipped(unittest.TestCase):
    """The tests here are skipped where the lister knows no cores. It has to know them where its sources do."""

    def test_a_lister_of_sources_with_cores_knows_them(self):
        needed = crates._needed(crates._listed(programs.ROOT), "lister")
        self.assertTrue(knows_cores() or "cores" not in needed)


@needs_programs
class CoreSwitch(unittest.TestCase):
    """The example of a core that switches, in both runs."""

    EXAMPLE = str(programs.ROOT / "examples" / "core-switch.txt")

    def test_whole_run(self):
        self.assertEqual(call("list", self.EXAMPLE), (0, core_switch.LISTING, ""))
        self.assertEqual(streamed(core_switch.FILE), core_switch.STREAM)

    def test_struck_out_run(self):
        whole = run.take("core switch", core_switch.FILE)
        kept = struck.kept(whole, 1, programs.purger(core_switch.FILE, 1))
        due = tuple(step for place, step in enumerate(whole.trace.steps) if place not in core_switch.STRUCK_PLACES)
        self.assertEqual(kept.steps, due)
        data = tracefile.encode(kept)
        self.assertEqual(programs.lister(data), core_switch.STRUCK_LISTING)
        self.assertEqual(streamed(data), core_switch.STRUCK_STREAM)

    def test_isolate(self):
        for domain, gone, by_core in (("0", 10, 9), ("1", 6, 5), ("2", 6, 6), ("3", 11, 10)):
            status, out, err = call("isolate", self.EXAMPLE, domain)
            self.assertEqual((status, err), (0, ""), out)
            said = f"{gone} steps, the accesses and flushes of domains other than {domain}, {by_core} of them by cores"
            self.assertIn(f"\nStruck out: {said}", out.decode())
            self.assertRegex(out.decode(), r"\n +core records +1 of 32 not zero +1 of 32 not zero\n")

    def test_explain(self):
        status, out, _ = call("explain", self.EXAMPLE)
        self.assertEqual(status, 0)
        self.assertIn("\n  Core 3 loads through DS, which names domain 2.\n  fill 3\n", out.decode())
        self.assertIn("\n  select 1 1 2\n  Accepted; changed CS from 2 to 1, DS from 2 to 1.\n", out.decode())


@needs_programs
class Cores(unittest.TestCase):
    """Steps by cores and writes of selectors, in the listing and in the stream."""

    def answers(self, *steps: Step) -> list[str]:
        """Give the answers to some steps on a cache whose domain 1 has all ways."""
        trace = Trace(1, 4, 0, (Step(1, 16, 0xF_000F), *steps))
        return [str(answer) for answer in run.take("steps", tracefile.encode(trace)).listing.answers[1:]]

    def test_writes_of_selectors(self):
        for core, argument, answer in (
            (0, 0, "select 0 0 0"),
            (31, 0x0F0E0D, "select 13 14 15"),
            (31, 0x0F0F10, "refused 3"),
            (31, 0x0F100F, "refused 3"),
            (31, 0x100F0F, "refused 3"),
            (31, 0x100_0000, "refused 5"),
            (31, 1 << 63, "refused 5"),
            (31, 0x100_0010, "refused 3"),
            (32, 0, "refused 11"),
            (32, 0x100_0010, "refused 11"),
            (255, 0, "refused 11"),
        ):
            self.assertEqual(self.answers(Step(core, 40, argument)), [answer], (core, hex(argument)))

    def test_accesses_and_flushes(self):
        select = Step(31, 40, 0x010101)
        answers = self.answers(select, *(Step(31, kind, 64) for kind in (32, 33, 34, 35, 35)))
        self.assertEqual(answers[1:], ["fill 3", "hit 3", "hit 3", "flush 3 1", "absent"])
        for kind in (32, 33, 34, 35):
            self.assertEqual(self.answers(Step(31, kind, 64)), ["refused 6"])  # domain 0 has no ways
            self.assertEqual(self.answers(Step(16, kind, 64)), ["refused 6"])  # and core 16 is no domain
            self.assertEqual(self.answers(Step(32, kind, 64)), ["refused 11"])

    def test_which_selector(self):
        for kind, argument in ((32, 0x000001), (33, 0x000100), (34, 0x010000), (35, 0x000100)):
            for selectors in (0x000001, 0x000100, 0x010000):
                answer = self.answers(Step(3, 40, selectors), Step(3, kind, 64))[1]
                due = {35: "absent"}.get(kind, "fill 3") if selectors == argument else "refused 6"
                self.assertEqual(answer, due, (kind, hex(selectors)))

    def test_kinds_beside_them_are_unknown(self):
        for kind in (31, 36, 37, 38, 39, 41):
            self.assertEqual(self.answers(Step(15, kind, 0), Step(16, kind, 0)), ["refused 4", "refused 3"])

    def test_a_step_by_a_core_is_the_step_of_its_domain(self):
        source, seen = random.Random(17), set()
        for _ in range(12):
            taken = run.take("random", tracefile.encode(busy_trace(source, 300, tops=(3, 63))))
            plain, due = [], []
            for place, (step, answer) in enumerate(zip(taken.trace.steps, taken.listing.answers)):
                domain = taken.domains[place]
                if domain is not None:
                    plain.append(Step(domain, step.kind - 32, step.argument) if step.by_core else step)
                    due.append(answer)
                    seen.add((step.kind, answer.word))
            again = run.take("plain", tracefile.encode(replace(taken.trace, steps=tuple(plain))))
            self.assertEqual(list(again.listing.answers), due)
            self.assertEqual(again.listing.counts, taken.listing.counts)
            self.assertEqual(stepper.rows_at_end(blocks_of(again)), stepper.rows_at_end(blocks_of(taken)))
        found = {(kind, word) for kind in (32, 33, 34) for word in ("hit", "fill", "evict", "pass", "refused")}
        self.assertLessEqual(found | {(35, "flush"), (35, "absent")}, seen)

    def test_records_are_what_was_selected(self):
        source, words_seen = random.Random(18), set()
        for _ in range(12):
            taken = run.take("random", tracefile.encode(busy_trace(source, 200)))
            records = [(0, 0, 0)] * 32
            self.assertEqual(blocks_of(taken)[0].records, tuple(records))
            for step, answer, block in zip(taken.trace.steps, taken.listing.answers, blocks_of(taken)[1:]):
                if answer.word == "select":
                    self.assertEqual((step.kind, cores.split(step.argument)), (40, answer.fields))
                    records[step.named] = answer.fields
                if step.kind == 40:
                    words_seen.add(str(answer) if answer.word == "refused" else answer.word)
                self.assertEqual(block.records, tuple(records))
        self.assertEqual(words_seen, {"select", "refused 3", "refused 5", "refused 11"})


@needs_programs
class Longest(unittest.TestCase):
    """Standard input of as many bytes as the longest trace file has, and of more."""

    FILE = tracefile.encode(Trace(1, 2, 0, (Step(0, 0, 0),) * 4096))

    def test_longest_file_stands(self):
        self.assertEqual(len(self.FILE), 40_968)
        listed = listing.parse(said(self.FILE, "lister"))
        self.assertEqual((listed.refused, len(listed.answers)), (None, 4096))

    def test_one_byte_more(self):
        self.assertEqual(said(self.FILE + b"\0", "lister"), b"refused 10\n")

    def test_the_rest_is_read_too(self):
        data = self.FILE + bytes(200_000)
        self.assertEqual(said(data, "lister"), b"refused 10\n")
        self.assertEqual((said(data, "purger", "0"), said(data, "stepper")), (b"", b""))


@needs_programs
class Much(unittest.TestCase):
    """Runs whose streams have 75 megabytes: all rows after each of 2,048 policy changes."""

    ROOM = 64 * 1024  # kilobytes

    # A process of its own starts the command and says what that took: a child's number is no less than what its parent has.
    OTHER = (
        "import resource, subprocess, sys\n"
        "status = subprocess.call(sys.argv[1:], stdout=subprocess.DEVNULL)\n"
        "print(status, resource.getrusage(resource.RUSAGE_CHILDREN).ru_maxrss)"
    )

    def most(self, trace: Trace, *arguments: str) -> int:
        """Run a command on a trace; give the most memory that it took, in kilobytes."""
        with tempfile.TemporaryDirectory() as folder:
            path = Path(folder) / "much.trace"
            path.write_bytes(tracefile.encode(trace))
            command = (sys.executable, "-I", "-S", MAIN, arguments[0], str(path), *arguments[1:])
            streams = {"stdin": subprocess.DEVNULL, "stdout": subprocess.PIPE, "stderr": subprocess.PIPE}
            done = subprocess.run((sys.executable, "-c", self.OTHER, *command), check=True, **streams)
        status, used = map(int, done.stdout.split())
        self.assertEqual((status, done.stderr), (0, b""))
        return used

    def test_memory(self):
        turns = tuple(Step(0, 16, 0x10001 << place % 16) for place in range(2048))  # under true LRU each changes every row
        halves = tuple(Step(0, 16, 0xFF00FF << 8 * (place % 2)) for place in range(2048))
        each = tuple(Step(place % 16, 16 if place < 16 else 2, 0x10001 << place if place < 16 else 64 * place) for place in range(4096))
        stores = tuple(step for place, half in enumerate(halves) for step in (half, Step(0, 2, 64 * (37 * place % 4096))))
        for rule, steps in ((2, turns), (1, halves), (0, halves), (0, stores)):
            for arguments in (("explain",), ("explain", "--json", "--step", "0-9"), ("isolate", "--all"), ("plot", "-o", "-")):
                used = self.most(Trace(256, 16, rule, steps), *arguments)
                self.assertLess(used, self.ROOM, (rule, arguments))
        self.assertLess(self.most(Trace(256, 16, 2, each), "isolate", "--all"), self.ROOM)


@needs_programs
class Bare(unittest.TestCase):
    """The programs run without the front end: what they tell on standard error where a read or a write fails."""

    COMMANDS = (("lister",), ("purger", "0"), ("stepper",), ("parts",))

    def told(self, command: tuple[str, ...], redirections: str) -> tuple[bytes, bytes]:
        """Give what a program writes and tells, run by a shell with these redirections."""
        line = f"exec {shlex.quote(str(programs.BIN / command[0]))} {' '.join(command[1:])} {redirections}"
        job = subprocess.run(("sh", "-c", line), input=case_a.FILE, stdout=subprocess.PIPE, stderr=subprocess.PIPE, check=True)
        return job.stdout, job.stderr

    def test_a_failed_read_is_told_and_nothing_is_written(self):
        for command in self.COMMANDS:
            for redirection in ("<&-", "< /"):
                message = f"{command[0]}: standard input could not be read to its end\n".encode()
                self.assertEqual(self.told(command, redirection), (b"", message), (command, redirection))

    def test_a_failed_write_is_told(self):
        for command in self.COMMANDS:
            for redirection in ("> /dev/full", ">&-"):
                message = f"{command[0]}: standard output could not be written\n".encode()
                self.assertEqual(self.told(command, redirection)[1], message, (command, redirection))

    def test_a_whole_run_tells_nothing(self):
        for command in self.COMMANDS:
            out, err = self.told(command, "")
            self.assertEqual((out != b"", err), (True, b""), command)

    def test_the_purger_wants_a_domain(self):
        for argument in ("", "16", "x", "-1", "007", "1000"):
            message = b"purger: the first argument has to be a domain, 0 to 15\n"
            self.assertEqual(self.told(("purger", argument), ""), (b"", message), argument)


@needs_programs
class OwnParts(unittest.TestCase):
    """The own part of replacement words, by the proved call."""

    def parts(self, ways: int, rule: int, word: int, *fill_maps: int, sets: int = 1) -> bytes:
        entries = tuple(Step(fill & 0xFF, fill >> 8, word) for fill in fill_maps)
        return programs.parts(tracefile.encode(Trace(sets, ways, rule, entries)))

    def test_free_nodes_and_nru_bits(self):
        ones, fill_maps = (1 << 64) - 1, (12, 5, 255, 1, 0, 256)
        self.assertEqual(self.parts(8, 0, ones, *fill_maps), b"16\n2\n127\n0\n0\nrefused 5\n")
        self.assertEqual(self.parts(8, 1, ones, *fill_maps), b"12\n5\n255\n1\n0\nrefused 5\n")
        self.assertEqual(self.parts(8, 1, ones, *fill_maps, sets=3), b"refused 1\n")

    def test_orders_of_fill_ways(self):
        fill_maps = 7, 8, 10, 15, 0, 16
        for word, orders in (
            (0x2031, (0x201, 0x3, 0x31, 0x2031, 0)),
            (0x2301, (0x201, 0x3, 0x31, 0x2301, 0)),
            (0x0123, (0x012, 0x3, 0x13, 0x0123, 0)),
            (0, (0x012, 0x3, 0x13, 0x0123, 0)),  # no order, so read as the fresh one
        ):
            said = "".join(f"{order}\n" for order in orders) + "refused 5\n"
            self.assertEqual(self.parts(4, 2, word, *fill_maps), said.encode(), hex(word))
        for word in true_lru.WORDS:
            self.assertEqual(self.parts(4, 2, word, 7), true_lru.OWN)


@needs_programs
class Examples(unittest.TestCase):
    """Everything that is printed as an example."""

    def test_help(self):
        with tempfile.TemporaryDirectory() as folder:
            os.symlink(programs.ROOT / "examples", Path(folder) / "examples")
            for line in dict.fromkeys(line for lines in helptext.EXAMPLES.values() for line in lines):
                job = start(*shlex.split(line)[1:], cwd=folder)
                _, err = job.communicate()
                self.assertEqual(job.returncode, 0, (line, err))

    def test_the_picture_in_the_readme(self):
        with start("plot", "examples/partition-shift.txt", "-o", "-", cwd=programs.ROOT) as job:
            drawn, err = job.communicate()
        self.assertEqual((job.returncode, err), (0, b""))
        self.assertEqual(drawn, (programs.ROOT / "docs" / "partition-shift.svg").read_bytes())

    def test_refusals_are_those_that_the_text_says(self):
        text = (programs.ROOT / "examples" / "refusals.txt").read_bytes()
        status, out, _ = call("list", str(programs.ROOT / "examples" / "refusals.txt"))
        numbers = [answer.fields[0] for answer in listing.parse(out).answers if answer.word == "refused"]
        self.assertEqual((status, numbers), (0, [3, 4, 5, 5, 5, 6, 8, 9, 11]))
        for number in numbers:
            self.assertIn(b"# %d: " % number, text)

    def test_ways_visited_are_those_that_the_text_says(self):
        path = programs.ROOT / "examples" / "lookup-order.txt"
        status, out, _ = call("explain", str(path))
        visited = re.findall(r"\n  The lookup visited ([0-9]+ ways?)\.\n", out.decode())
        self.assertEqual((status, visited), (0, re.findall("# ([0-9]+ ways?)", path.read_text(encoding="ascii"))))
        self.assertEqual([int(said.split()[0]) for said in visited], [4, 4, 4, 4, 1, 3, 2, 3, 4, 2, 2, 2])

    def test_all_domains_and_their_struck_out_traces(self):
        with tempfile.TemporaryDirectory() as folder:
            for path in EXAMPLES:
                whole = run.take("example", files.read_trace(str(path)).data)
                target = f"{folder}/{path.stem}-{{domain}}.txt"
                status, out, err = call("isolate", str(path), "--all", "-o", target)
                used = sorted({domain for domain in whole.domains if domain is not None and domain < 16})
                found = re.findall(r"^domain ([0-9]+): .* struck out: no difference$", out.decode(), re.MULTILINE)
                self.assertEqual((status, err, list(map(int, found))), (0, "", used))
                for domain in used:
                    kept = struck.kept(whole, domain, programs.purger(tracefile.encode(whole.trace), domain))
                    written = files.read_trace(target.replace("{domain}", str(domain))).data
                    self.assertEqual(written, tracefile.encode(kept))

    def test_isolate_and_explain(self):
        for path in EXAMPLES:
            for domain in range(4):
                status, out, err = call("isolate", str(path), str(domain))
                self.assertEqual((status, err), (0, ""), out)
            self.assertEqual(call("explain", "--all", str(path))[0], 0)


@needs_programs
class Random(unittest.TestCase):
    """What programs say of one trace fits together."""

    def test_no_difference(self):
        source = random.Random(7)
        for _ in range(12):
            data = tracefile.encode(busy_trace(source, 150))
            status, out, err = call("isolate", "-", source.choice(("0", "1", "15")), stdin=data)
            self.assertEqual((status, err), (0, ""), out.decode())
            self.assertEqual(call("explain", "-", stdin=data)[0], 0)

    def test_maps_at_the_end_are_those_of_the_listing(self):
        source = random.Random(8)
        for _ in range(12):
            taken = run.take("random", tracefile.encode(busy_trace(source, 100)))
            held = [domain for domain, word in enumerate(blocks_of(taken)[-1].hit) if word]
            self.assertEqual(list(taken.listing.counts), held)

    def test_refused_steps_change_nothing(self):
        source = random.Random(9)
        for _ in range(12):
            taken = run.take("random", tracefile.encode(busy_trace(source, 100)))
            for place, answer in enumerate(taken.listing.answers):
                before, after = blocks_of(taken)[place], blocks_of(taken)[place + 1]
                if answer.word == "refused":
                    self.assertEqual((after.hit, after.fill, after.rows), (before.hit, before.fill, {}))
                    self.assertEqual(after.records, before.records)

    def test_ways_visited(self):
        source, hits = random.Random(13), []
        for _ in range(12):
            taken = run.take("random", tracefile.encode(busy_trace(source, 200, tops=(3,))))
            due, domains = [0], (block.domain for block in blocks_of(taken)[1:])
            for block, domain, answer in zip(blocks_of(taken), domains, taken.listing.answers):
                ways = [] if answer.word in ("policy", "select", "refused") else maps.members(block.hit[domain])
                if answer.word in ("hit", "flush"):
                    ways = ways[: ways.index(answer.fields[0]) + 1]
                    hits.append(len(ways))
                due.append(len(ways))
            self.assertEqual([block.visited for block in blocks_of(taken)], due)
        self.assertGreater(max(hits), 3)

    def test_where_addresses_lie(self):
        source, seen = random.Random(25), set()
        for _ in range(12):
            taken = run.take("random", tracefile.encode(busy_trace(source, 150)))
            for moment in run.moments(taken):
                address = telling.address_of(moment.step, taken.trace.sets)
                self.assertEqual(address is None, moment.step.kind in (16, 40))
                if address is None:
                    continue
                self.assertEqual(address.set, moment.after.set)
                if moment.answer.word in ("hit", "fill", "evict", "flush"):
                    row = moment.after.rows.get(address.set, moment.rows[address.set])
                    self.assertEqual(address.tag, row.tags[moment.answer.fields[0]])
                seen.add(moment.answer.word)
        self.assertEqual(seen, {"hit", "fill", "evict", "pass", "flush", "absent", "refused"})

    def test_a_run_whose_blocks_are_not_kept_is_told_alike(self):
        source = random.Random(26)
        for _ in range(6):
            data = tracefile.encode(busy_trace(source, 100))
            for arguments in (("explain", "--all"), ("explain", "--json"), ("plot", "-o", "-")):
                told = call(arguments[0], "-", *arguments[1:], stdin=data)
                with mock.patch.object(run, "MOST_KEPT", source.choice((0, 1, 300))):
                    self.assertEqual(call(arguments[0], "-", *arguments[1:], stdin=data), told)

    def test_any_trace_is_listed(self):
        source = random.Random(10)
        for _ in range(20):
            data = tracefile.encode(random_trace(source, 30))
            listed = listing.parse(programs.lister(data))
            stream = streamed(data)
            self.assertIn(listed.refused, (None, 1))
            self.assertEqual(stream == b"", listed.refused == 1)
            if stream:
                parsed(stream, tracefile.decode(data))

    def test_files_refused_by_ten(self):
        many = (tracefile.encode(Trace(sets, 4, 0, (Step(0, 16, 0x30003),))) for sets in (257, 512, 4096, 65_535))
        for data in (b"", b"1234567", case_a.FILE[:-1], case_a.FILE + b"\0", *many):
            self.assertEqual((programs.lister(data), programs.parts(data)), (b"refused 10\n", b"refused 10\n"))
            self.assertEqual((programs.purger(data, 0), streamed(data)), (b"", b""))

    def test_pass_through(self):
        data = tracefile.encode(busy_trace(random.Random(11), 500))
        done = subprocess.run((programs.BIN / "lister",), input=data, capture_output=True, check=True)
        self.assertEqual(call("list", stdin=data), (0, done.stdout, ""))
