"""The counting of tools/compare --sweeps: how many instructions a policy change takes for a set.

Both programs list calls, so that there can be more sets than a trace file may name; slices.py says more of them. What a
change takes is the difference between two traces, of which one has changes at its end that the other has not.
"""

import itertools
import pathlib
import random
import tempfile
from dataclasses import dataclass

import counting
from comparing import agreed, run, short_path
from counting import RULES
from slices import SLICES
from traces import LOAD, STORE, Trace, header

FEW, MANY = 256, 4096  # sets
WAYS = [8, 16]
LINES = 64
CHANGES = 64


# The traces.

def begun(geometry):
    """A trace that gives way 0 to domain 0, and lets it store to a line in each of 64 sets, spread over all sets; then
    it gives domain 0 all ways, and lets it load these lines. They are in way 0, which stays where half of the ways
    move."""
    trace = Trace(random.Random(0), geometry)
    for ways_map, kind in ((1, STORE), ((1 << trace.ways) - 1, LOAD)):
        trace.set_policy(0, ways_map, ways_map)
        for place in range(LINES):
            trace.add(0, kind, 64 * (place * trace.sets // LINES))
    return trace


def changed(geometry, left):
    """The same trace and, at its end, changes that leave these ways to domain 0 and give all of them back, in turn."""
    trace = begun(geometry)
    whole, _ = trace.maps(0)
    for place in range(CHANGES):
        ways_map = whole if place % 2 else left
        trace.set_policy(0, ways_map, ways_map)
    return trace


def sorts():
    """Each sort of change: how many ways move, the rule, its name, the ways, and the map of those that stay."""
    for name, (rule, rule_name), ways in itertools.product(["all", "half"], RULES, WAYS):
        yield name, rule, rule_name, ways, 0 if name == "all" else (1 << ways // 2) - 1


# Counting.

@dataclass(frozen=True)
class Program:
    """A program, the words that ask it for listings of calls, and a directory for its counts."""

    path: pathlib.Path
    words: tuple
    directory: pathlib.Path

    def run(self, data, timeout):
        return run(self.path, data, timeout, arguments=self.words)

    def instructions(self, data):
        return counting.instructions(self.path, data, self.directory, self.words)

    def of_change(self, geometry, left):
        """Instructions that a change takes for a set."""
        more = self.instructions(changed(geometry, left).file()) - self.instructions(begun(geometry).file())
        return more / CHANGES / geometry[0]

    def of_clearing(self, ways, rule):
        """Instructions that it takes to make the tables of a set fresh, as it has to for a file without a step too."""
        many, one = (self.instructions(header(sets, ways, rule, 0)) for sets in (MANY, 1))
        return (many - one) / (MANY - 1)


HEAD = f"""\
instructions that a policy change takes for a set, by callgrind: those for a trace with {CHANGES} changes at its end,
less those for it without them, divided by {CHANGES} and by the sets. Domain 0 has all ways, and a line in {LINES} sets.
  all        all ways move: domain 0 is removed, and gets them back, in turn; the words are fresh from the first on
  half       half of them move: domain 0 gives up the upper half, and gets it back, in turn; its lines are in way 0
  clearing   making the tables of a set fresh, by the proved program: those for a file without a step at {MANY:,} sets,
             less those at 1. Where memset uses rep stosb callgrind counts each byte, and there are 8 W in the tags
  entries    in the tables of a set: W tags, valid, dirty, and the replacement word
  ratio      proved at {MANY:,} sets / what stands before

                             proved         reference
  move  rule       ways     256   4,096     256   4,096   clearing  ratio   entries  ratio"""


def print_row(name, rule_name, ways, proved, reference, clearing):
    change, entries = proved[-1], ways + 3
    counts = " ".join(f"{count:>7,.1f}" for count in [*proved, *reference])
    ratios = f"{clearing:>10,.1f} {change / clearing:>6.2f} {entries:>9} {change / entries:>6.2f}"
    print(f"  {name:<5} {rule_name:<10} {ways:>4} {counts} {ratios}", flush=True)


def report(proved, reference, options):
    """Counts the instructions of both programs on every trace and prints a row about each sort of change; the exit
    status. Where they do not agree on a trace, there is nothing to count."""
    print(f"proved     {short_path(proved)}\nreference  {short_path(reference)}\n{HEAD}", flush=True)
    with tempfile.TemporaryDirectory(prefix="compare-sweeps-") as directory:
        proved = Program(proved, (), pathlib.Path(directory))
        reference = Program(reference, SLICES.asked_of_reference, pathlib.Path(directory))
        for name, rule, rule_name, ways, left in sorts():
            geometries = [(sets, ways, rule) for sets in (FEW, MANY)]
            for data in (changed(geometry, left).file() for geometry in geometries):
                if not agreed(proved.run(data, options.timeout), reference.run(data, options.timeout)):
                    print(f"  {name}, {rule_name}: the programs do not agree on this trace; compare them first")
                    return 1
            counts = [[program.of_change(geometry, left) for geometry in geometries] for program in (proved, reference)]
            print_row(name, rule_name, ways, *counts, proved.of_clearing(ways, rule))
    return 0
