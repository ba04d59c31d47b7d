"""The comparison of tools/compare: runs two programs on the same files and says where they differ."""

import collections
import itertools
import os
import pathlib
import re
import struct
import subprocess
import tempfile
import time
from dataclasses import dataclass, replace
from typing import Callable

from families import make
from traces import GEOMETRIES, SELECT, THROUGH, step_of, steps_in

ACCESSES = {0: "instruction fetch", 1: "load", 2: "store", 3: "flush"}
THROUGH_CORES = {THROUGH + kind: f"{name} through a core" for kind, name in ACCESSES.items()}
KINDS = {**ACCESSES, 16: "policy", **THROUGH_CORES, SELECT: "selector write"}
SELECTORS = ["CS", "DS", "ES"]
USED = {THROUGH: 0, THROUGH + 1: 1, THROUGH + 2: 2, THROUGH + 3: 1}  # which of them a kind through a core uses
FIRST_LINE = re.compile(rb"(?:refused (\d+)|(\d+) (\d+) (\d+) \d+)\n")
STEP_LINE = re.compile(rb"^\d+ (?:refused (\d+)|([a-z]+)(.*))$", re.MULTILINE)
DOMAIN_LINE = re.compile(rb"^domain .* (\d+)$", re.MULTILINE)  # with the last of its counts, the lines dropped
PAUSE = 0.005  # seconds, a few times what a program needs to start and to read what is there


class Problem(Exception):
    """A program that cannot be had, or arguments that make no sense: exit status 2."""


# Running one program on one file.

@dataclass(frozen=True)
class Outcome:
    """How a run ended: its status (None if it ran out of time), its output and its complaints."""

    status: int | None
    listing: bytes
    complaints: bytes = b""


def run(program, data, timeout, pauses=False, arguments=()):
    """Gives a program a file through a pipe; with pauses, in three pieces, so that one read cannot bring it whole."""
    middle = min(len(data) // 2, 30_000)  # no more than a pipe takes at once
    cuts = [0, middle // 10, middle] if pauses else [0]
    pipe = subprocess.PIPE
    with subprocess.Popen([program, *arguments], stdin=pipe, stdout=pipe, stderr=pipe) as process:
        try:
            for start, end in itertools.pairwise(cuts):
                os.write(process.stdin.fileno(), data[start:end])
                time.sleep(PAUSE)
        except BrokenPipeError:
            pass  # The program has read enough; what it says decides.
        try:
            listing, complaints = process.communicate(data[cuts[-1]:], timeout)
        except subprocess.TimeoutExpired:
            process.kill()
            return Outcome(None, process.communicate()[0])
    return Outcome(process.returncode, listing, complaints)


def agreed(proved, reference):
    return proved.status == reference.status == 0 and proved.listing == reference.listing


# The files to compare on.

@dataclass(frozen=True)
class File:
    family: str
    name: str
    data: bytes
    pauses: bool = False


def shares(families, count):
    """How many files each family gets: one, and of the rest a part by its weight."""
    weights = list(itertools.accumulate(family.weight for family in families))
    rest = max(0, count - len(families))
    ends = [round(rest * weight / weights[-1]) for weight in weights]
    return [1 + end - start for start, end in zip([0] + ends, ends)]


def made_files(families, count, seed):
    """For each family its name, what it is, and its files, made one by one."""
    for family, number in zip(families, shares(families, count)):
        files = (File(family.name, f"seed-{seed}-{family.name}-{index}", make(family, seed, index), family.pauses)
                 for index in range(number))
        yield family.name, family.about, files


def given_files(paths):
    files = [File("given", pathlib.Path(path).stem, pathlib.Path(path).read_bytes(), True) for path in paths]
    yield "given", "files named on the command line", files


# What was seen.

class Census:
    """How often each answer came up, by the reference's listings."""

    WORDS = ["hit", "fill", "evict", "pass", "flush", "absent", "policy", "select"]
    DETAILS = {"hit": "in locked ways", "evict": "dirty", "flush": "dirty", "policy": "dropping lines",
               "select": "with selectors that differ"}
    FIELDS = {"evict": re.compile(rb" \d+ \d+ 1"), "flush": re.compile(rb" \d+ 1"),
              "policy": re.compile(rb" [1-9]\d* \d+"),
              "select": re.compile(rb" (\d+)(?! \1 \1$).*")}  # with which an answer has its detail
    STEP_NUMBERS = {3: "domain or selector 16 or more", 4: "unknown kind", 5: "argument of a policy or selector write",
                    6: "empty hit map", 8: "shared way", 9: "shared node", 11: "core not in the list"}
    FILE_NUMBERS = {1: "geometry", 10: "trace file"}
    GEOMETRIES = GEOMETRIES
    NEVER = "refused 2, a table's length, 7, a full count, another list than 32 cores, or a stored selector above 15"

    def __init__(self):
        self.answers = collections.Counter()
        self.details = collections.Counter()
        self.through = collections.Counter()
        self.dropped = 0
        self.dirty_dropped = 0
        self.most_dropped = 0
        self.refused_steps = collections.Counter()
        self.refused_files = collections.Counter()
        self.geometries = collections.Counter()
        self.domain_lines = 0
        self.with_drops = 0

    def take(self, data, listing):
        first = FIRST_LINE.match(listing)
        if first is None:
            return
        if first[1]:
            self.refused_files[int(first[1])] += 1
            return
        self.geometries[int(first[2]), int(first[3]), int(first[4])] += 1
        last_counts = DOMAIN_LINE.findall(listing)
        self.domain_lines += len(last_counts)
        self.with_drops += len(last_counts) - last_counts.count(b"0")
        answers = STEP_LINE.findall(listing)
        self.take_domains(data, answers)
        for number, word, fields in answers:
            if number:
                self.refused_steps[int(number)] += 1
                continue
            word = word.decode()
            self.answers[word] += 1
            if word in self.FIELDS and self.FIELDS[word].fullmatch(fields):
                self.details[word] += 1
            if word == "policy":
                self.take_drops(*map(int, fields.split()))

    def take_drops(self, dropped, dirty_dropped):
        """What an accepted policy change dropped."""
        self.dropped += dropped
        self.dirty_dropped += dirty_dropped
        self.most_dropped = max(self.most_dropped, dropped)

    def take_domains(self, data, answers):
        """What is to be seen only with the domain of each step: hits in ways outside its fill map, and the steps that
        came to it through a selector."""
        fill_maps = collections.Counter()
        for domain, used, argument, word, fields in accepted_steps(data, answers):
            if word == b"policy":
                fill_maps[domain] = argument >> 16
            elif word == b"hit":
                self.details["hit"] += not fill_maps[domain] >> int(fields) & 1
            if used is not None:
                self.through[used] += 1

    def print(self):
        steps = sum(self.answers.values()) + sum(self.refused_steps.values())
        print(f"census, by the reference's listings: {steps:,} steps in {sum(self.geometries.values()):,} traces")
        for word in self.WORDS:
            detail = f"  of them {self.details[word]:,} {self.DETAILS[word]}" if word in self.DETAILS else ""
            detail += f", at most {self.most_dropped:,}" if word == "policy" else ""
            print_count(word, self.answers[word], detail)
        print_count("dropped", self.dropped, f"  lines, by policy changes, of them {self.dirty_dropped:,} dirty")
        if "select" in self.WORDS:
            uses = ", ".join(f"{self.through[name]:,} by {name}" for name in SELECTORS)
            print_count("by cores", self.through.total(), f"  of these answers, through selectors: {uses}")
        for number, about in self.STEP_NUMBERS.items():
            print_count(f"refused {number}", self.refused_steps[number], f"  {about}")
        for number, about in self.FILE_NUMBERS.items():
            print_count(f"refused {number}", self.refused_files[number], f"  {about}: the whole file")
        self.print_more()
        print_count("domain", self.domain_lines, f"  lines of counts, of them {self.with_drops:,} with drops")
        rarest = min(self.geometries[geometry] for geometry in self.GEOMETRIES)
        seen = sum(1 for geometry in self.GEOMETRIES if self.geometries[geometry])
        print_count("geometries", seen, f"  of {len(self.GEOMETRIES)}, the rarest in {rarest:,} traces")
        print(f"  (no file can bring about {self.NEVER})")

    def print_more(self):
        """What the census of another subject has beside this."""


def accepted_steps(data, answers):
    """Of each step of a file that was not refused: the domain that the cache took it for, None of a selector write; the
    selector that named the domain, None where the step itself did; its argument; its answer's word and fields."""
    selectors = collections.defaultdict(lambda: (0, 0, 0))
    for place, (_, word, fields) in enumerate(answers[:steps_in(data) or 0]):
        if not word:
            continue
        named, kind, argument = step_of(data, place)
        if word == b"select":
            selectors[named] = tuple(map(int, fields.split()))
            yield None, None, argument, word, fields
        elif kind in USED:
            yield selectors[named][USED[kind]], SELECTORS[USED[kind]], argument, word, fields
        else:
            yield named, None, argument, word, fields


def print_count(name, number, rest=""):
    print(f"  {name:<11}{f'{number:,}' if number else 'NEVER':>11}{rest}")


# Differences.

def short_path(path):
    """A path as seen from here, if it is below; else in full."""
    path = pathlib.Path(path)
    return str(path.relative_to(pathlib.Path.cwd())) if path.is_relative_to(pathlib.Path.cwd()) else str(path)


def first_other_line(one, other):
    """The number, from 0, of the first line that differs, and both lines (None where a listing has ended)."""
    lines = itertools.zip_longest(one.splitlines(keepends=True), other.splitlines(keepends=True))
    return next(((number, *pair) for number, pair in enumerate(lines) if pair[0] != pair[1]), None)


def shown(line):
    if line is None:
        return "(the output has ended)"
    text = line.removesuffix(b"\n").decode("ascii", "backslashreplace")
    text = text if text.isprintable() else repr(text)
    text = text if len(text) <= 200 else text[:200] + " ..."
    return text if line.endswith(b"\n") else text + "  (without a line feed)"


def about_steps(output, first):
    """The function that says which step a line of such an output is about, or what else the line is; the line of step 0
    is `first`."""
    def describe(data, line):
        n = steps_in(data)
        if n is None:
            return f"line {line} of the {output}; the file has {len(data)} bytes"
        sets, ways, rule = struct.unpack_from("<HBB", data)
        trace = f"{n} steps, {sets} sets, {ways} ways, rule {rule}"
        place = line - first
        if not 0 <= place < n:
            return f"line {line} of the {output} of {trace}"
        named, kind, argument = step_of(data, place)
        who = f"{'core' if kind in USED or kind == SELECT else 'domain'} {named}"
        return f"step {place} of {trace}: {who}, kind {kind} ({KINDS.get(kind, 'unknown')}), {argument:#x}"
    return describe


def describe_ending(outcome):
    if outcome.status is None:
        return "did not end in time"
    complaints = outcome.complaints.decode("utf-8", "replace").strip().splitlines()
    return f"status {outcome.status}" + (f", and says: {' '.join(complaints[:2])}" if complaints else "")


def as_it_is(_data, output):
    """What a proved program wrote about a file, if it writes what the reference writes."""
    return output


def nothing_more(_data):
    """The words that both programs are given about a file, if there are none."""
    return ()


@dataclass(frozen=True)
class Subject:
    """What is compared: the words that ask for it, of the reference and of tools/compare; the census of what came up in
    it; a function that says of a file what a line, from 0, of the output is about; one that makes what the proved
    program wrote about a file into what is set beside the reference's output; and one that gives the words about a
    file that both programs are given, the reference after its own."""

    asked_of_reference: tuple
    asked_of_compare: str
    census: type
    describe: Callable[[bytes, int], str]
    proved_text: Callable[[bytes, bytes], bytes] = as_it_is
    asked_of_both: Callable[[bytes], tuple] = nothing_more


LISTINGS = Subject((), "", Census, about_steps("listing", 1))


@dataclass(frozen=True)
class Difference:
    subject: Subject
    file: File
    proved: Outcome
    reference: Outcome
    kept: pathlib.Path

    def print(self):
        again = f"tools/compare {short_path(self.kept)}{self.subject.asked_of_compare}"
        print(f"first difference: {self.file.name}, of family {self.file.family}")
        print(f"  kept       {short_path(self.kept)}")
        print(f"  rerun      {again}  (with the same --proved and --reference)")
        if self.proved.status != 0 or self.reference.status != 0:
            print(f"  proved     {describe_ending(self.proved)}")
            print(f"  reference  {describe_ending(self.reference)}")
        other = first_other_line(self.proved.listing, self.reference.listing)
        if other:
            line, in_proved, in_reference = other
            print(f"  at         {self.subject.describe(self.file.data, line)}")
            print(f"  proved     {shown(in_proved)}")
            print(f"  reference  {shown(in_reference)}")


class Keeper:
    """Keeps files with a difference, in a directory that is made for the first of them."""

    def __init__(self, directory):
        self.directory = directory

    def keep(self, file):
        self.directory = pathlib.Path(self.directory or tempfile.mkdtemp(prefix="compare-"))
        os.makedirs(self.directory, exist_ok=True)
        kept = self.directory / f"{file.name}.trace"
        kept.write_bytes(file.data)
        return kept


# The whole comparison.

class Comparison:
    """Both programs, what they have been given so far, and what came of it."""

    def __init__(self, proved, reference, subject, options):
        self.proved, self.reference, self.subject, self.options = proved, reference, subject, options
        self.census = subject.census()
        self.keeper = Keeper(options.keep)
        self.differences = []
        self.tried = 0

    def enough(self):
        return len(self.differences) >= self.options.stop_after

    def family(self, name, about, files):
        """Compares on the files of one family and prints a line about it, with the first file that differs."""
        before, tried_before = len(self.differences), self.tried
        for file in files:
            self.compare(file)
            if self.enough():
                break
        tried, found = self.tried - tried_before, self.differences[before:]
        kept = f"  DIFFERS, first in {short_path(found[0].kept)}" if found else ""
        print(f"  {name:<12}{tried - len(found):>6} of {tried:<6} {about}{kept}", flush=True)

    def compare(self, file):
        given = file.data, self.options.timeout, file.pauses
        words = self.subject.asked_of_both(file.data)
        reference = run(self.reference, *given, (*self.subject.asked_of_reference, *words))
        proved = run(self.proved, *given, words)
        proved = replace(proved, listing=self.subject.proved_text(file.data, proved.listing))
        self.tried += 1
        self.census.take(file.data, reference.listing)
        if not agreed(proved, reference):
            self.differences.append(Difference(self.subject, file, proved, reference, self.keeper.keep(file)))


def report(proved, reference, subject, made, options):
    """Compares on all files, those named or those made, and prints everything; the exit status."""
    started = time.monotonic()
    comparison = Comparison(proved, reference, subject, options)
    print(f"proved     {short_path(proved)}\nreference  {short_path(reference)}")
    print("agreed, by family" + ("" if options.paths else f", of seed {options.seed}"), flush=True)
    for group in given_files(options.paths) if options.paths else made:
        comparison.family(*group)
        if comparison.enough():
            print(f"given up after {len(comparison.differences)} differences (--stop-after)")
            break
    different = len(comparison.differences)
    print(f"{comparison.tried - different:,} of {comparison.tried:,} agreed, in {time.monotonic() - started:.0f} s\n")
    comparison.census.print()
    if different:
        print()
        comparison.differences[0].print()
    return 1 if different else 0
