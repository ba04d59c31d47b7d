"""The struck-out lists, for tools/compare --purges: a domain for each file, and a census.

target/bin/purger and, with the word `purge`, the reference are given a domain and a trace file, and write the steps
that are left without the accesses and flushes of the others: a line for each, with the two bytes of its code and its
argument. A step through a core belongs to the domain that the selector names at that moment of the run, which is lent
32 fresh records. Of a file refused by 10 both write nothing; a geometry that 1 refuses does not matter here.
"""

import collections
import random
import re
import struct

from comparing import USED, Subject, print_count
from traces import CORES, DOMAINS, HEADER, MOST_STEPS, SELECT, step_of, steps_in

MOST_SETS = 256
STEP = re.compile(rb"^(\d+) (\d+) \d+$", re.MULTILINE)
SORTS = {
    "plain": "accesses and flushes that name a domain",
    "by cores": "accesses and flushes through cores",
    "no core": "the same, of a core not in the list",
    "selects": "selector writes",
    "others": "policy changes and unknown kinds",
}


def domain_of(data):
    """The domain whose list is compared. It is drawn from the file's own bytes, so that a kept file has it again:
    mostly one that a step of the file names, or writes into a selector."""
    rng, n = random.Random(data), steps_in(data)
    for _ in range(20 if n and rng.random() < 0.9 else 0):
        named, kind, argument = step_of(data, rng.randrange(n))
        if kind == SELECT:
            return (argument >> 8 * rng.randrange(3)) % DOMAINS
        if kind not in USED:
            return named % DOMAINS
    return rng.randrange(DOMAINS)


def words(data):
    """What both programs are asked about a file."""
    return (str(domain_of(data)),)


def describe(data, line):
    """What a line of the output is about."""
    return f"line {line} of the struck-out list of domain {domain_of(data)}, of a file of {len(data)} bytes"


# What was seen.

def sort_of(named, kind):
    """The sort of a step, by its code."""
    if kind < 4:
        return "plain"
    if kind in USED:
        return "by cores" if named < CORES else "no core"
    return "selects" if kind == SELECT else "others"


def stands(data):
    """Whether a file is not refused by 10."""
    n = steps_in(data)
    return n is not None and n <= MOST_STEPS and struct.unpack_from("<H", data)[0] <= MOST_SETS


class Census:
    """How many steps were kept and how many were struck out, by the reference's output."""

    def __init__(self):
        self.steps = collections.Counter()
        self.kept = collections.Counter()
        self.domains = collections.Counter()
        self.refused_files = 0

    def take(self, data, output):
        if not stands(data):
            self.refused_files += 1
            return
        self.domains[domain_of(data)] += 1
        codes = data[HEADER:HEADER + 2 * steps_in(data)]
        self.steps.update(map(sort_of, codes[::2], codes[1::2]))
        self.kept.update(sort_of(int(named), int(kind)) for named, kind in STEP.findall(output))

    def print(self):
        print(f"census, by the reference's output: {self.steps.total():,} steps in {self.domains.total():,} files")
        for sort, about in SORTS.items():
            struck = self.steps[sort] - self.kept[sort]
            print_count(sort, self.steps[sort], f"  {about}: {self.kept[sort]:,} kept, {struck:,} struck out")
        rarest = min(self.domains[domain] for domain in range(DOMAINS))
        print_count("domains", len(self.domains), f"  of {DOMAINS}, the rarest for {rarest:,} files")
        print_count("refused 10", self.refused_files, "  the whole file")


PURGES = Subject(("purge",), " --purges", Census, describe, asked_of_both=words)
