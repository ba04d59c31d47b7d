"""The counting of tools/compare --count: how many instructions two programs take for a step of the same traces.

callgrind, a tool of valgrind, runs a program and counts its instructions. Its count repeats to the digit, whatever else
the machine does.
"""

import pathlib
import random
import re
import shutil
import subprocess
import tempfile

from comparing import Outcome, Problem, agreed, describe_ending, run, short_path
from timing import answers
from traces import LOAD, MOST_STEPS, STORE, THROUGH, halved, header, submap

SETS, WAYS = 256, 16
HALF = WAYS // 2
WHOLE = (1 << WAYS) - 1
UPPER = WHOLE - ((1 << HALF) - 1)  # the map of domain 1 at first; that of domain 0 is the lower half
RULES = [(0, "Tree-PLRU"), (1, "NRU"), (2, "LRU")]
COUNTS = "callgrind.out"  # the file that callgrind leaves in the directory
TOTAL = re.compile(rb"^totals: (\d+)$", re.MULTILINE)


# The traces.

def address(number, tag):
    """Where the line with this set and this tag begins."""
    return (tag * SETS + number) * 64


def fill_sets(trace, domains=2):
    """Fills all ways of every sixteenth set, each domain its share of them with tags from 0 on. Answers these sets."""
    filled = range(0, SETS, 16)
    for number in filled:
        for domain in range(domains):
            for tag in range(WAYS // domains):
                trace.add(domain, LOAD, address(number, tag))
    return filled


def add_access(trace, numbers, tag, domains=2):
    """A load or a store of one of the domains, in one of these sets."""
    rng = trace.rng
    trace.add(rng.randrange(domains), rng.choice([LOAD, STORE]), address(rng.choice(numbers), tag))


def hits(trace):
    """Fills some sets, then accesses nothing but the lines that are there."""
    filled = fill_sets(trace)
    while len(trace.steps) < MOST_STEPS:
        add_access(trace, filled, trace.rng.randrange(HALF))


def whole_hits(trace):
    """Gives all ways to domain 0, and does the same."""
    trace.set_policy(1, 0, 0)
    trace.set_policy(0, WHOLE, WHOLE)
    filled = fill_sets(trace, 1)
    while len(trace.steps) < MOST_STEPS:
        add_access(trace, filled, trace.rng.randrange(WAYS), 1)


def evictions(trace):
    """Fills some sets, then accesses them with tags that were never there."""
    filled = fill_sets(trace)
    while len(trace.steps) < MOST_STEPS:
        add_access(trace, filled, len(trace.steps))


def policies(trace):
    """Loads tags 0 and 1 for domain 0 in every set, which fill ways 7 and 6, the highest of its half. Then changes both
    maps of domain 1 to any ways of its half, and lets every eighth step be a load. Domain 0 keeps its maps and loads
    the line in way 6 only: in all sets the tree's node 10, between these two ways, stays one, and the NRU bits of ways
    0 to 5, so that no change finds a word that is zero; an order of LRU never is."""
    rng = trace.rng
    for tag in (0, 1):
        for number in range(SETS):
            trace.add(0, LOAD, address(number, tag))
    while len(trace.steps) < MOST_STEPS:
        if len(trace.steps) % 8 == 0:
            domain = rng.randrange(2)
            trace.add(domain, LOAD, address(rng.randrange(SETS), 1 if domain == 0 else 0))
        else:
            hit_map = submap(rng, UPPER) or UPPER
            trace.set_policy(1, hit_map, submap(rng, hit_map) or hit_map)


def hits_through_cores(trace):
    """Does what `hits` does, but for its last step, through cores: core 0, whose fresh selectors name domain 0, and
    core 1, which gets domain 1 at the start. Loads go by DS, and stores by ES."""
    begun = len(trace.steps)
    hits(trace)
    plain = trace.steps[begun:-1]
    del trace.steps[begun:]
    trace.select(1, (1, 1, 1))
    for domain, kind, argument in plain:
        trace.add(domain, THROUGH + kind, argument)


SORTS = [
    ("hits", "nearly all steps hit, in all ways of 16 sets", hits),
    ("whole hits", "the same, of one domain that has all ways", whole_hits),
    ("evictions", "nearly all steps evict, in 16 sets", evictions),
    ("policies", "most steps are accepted changes that find no word zero", policies),
]


def made(seed, name, rule, add_steps):
    """A trace of the sort with this name. Under all rules it has the same steps."""
    trace = halved(random.Random(f"{seed} {name}"), (SETS, WAYS, rule))
    add_steps(trace)
    return trace


def traces(seed):
    """Each trace, with its name and what its steps are."""
    for name, about, add_steps in SORTS:
        for rule, rule_name in RULES:
            yield f"{name}, {rule_name}", about, made(seed, name, rule, add_steps)
    about = "the steps of the first trace, each through a core"
    yield "hits through a core", about, made(seed, "hits", 0, hits_through_cores)


# Counting.

def need_valgrind(option):
    """A problem where valgrind is missing."""
    if shutil.which("valgrind") is None:
        raise Problem(f"{option} needs valgrind, and there is none; Debian has it in the package valgrind")


def instructions(program, data, directory, arguments=(), toggles=()):
    """How many instructions a program takes for a file; or, with functions at whose entry and exit the counting is
    turned on or off, so many of them. It reads a file, not a pipe, which could bring it in pieces."""
    given, counts = directory / "trace", directory / COUNTS
    given.write_bytes(data)
    command = ["valgrind", "-q", "--vgdb=no", "--tool=callgrind", f"--callgrind-out-file={counts}"]
    only = [f"--toggle-collect={function}" for function in toggles]
    with open(given, "rb") as file:
        done = subprocess.run([*command, *only, program, *arguments], stdin=file, stdout=subprocess.DEVNULL,
                              stderr=subprocess.PIPE)
    if done.returncode != 0:
        ending = describe_ending(Outcome(done.returncode, b"", done.stderr))
        raise Problem(f"cannot count the instructions of {short_path(program)}: under valgrind it ends with {ending}")
    return int(TOTAL.search(counts.read_bytes())[1])


def per_step(program, trace, directory):
    """Instructions for a step: those for the trace, less those for a trace of the same geometry without a step."""
    start = instructions(program, header(*trace.geometry, 0), directory)
    return (instructions(program, trace.file(), directory) - start) / len(trace.steps)


def print_row(name, proved, reference, rest):
    print(f"  {name:<21} {proved:>9,.1f} {reference:>9,.1f} {proved / reference:>6.2f}  {rest}", flush=True)


def report(proved, reference, options):
    """Counts the instructions of both programs on every trace and prints a row about each; the exit status. Where they
    do not agree on a trace, there is nothing to count."""
    print(f"proved     {short_path(proved)}\nreference  {short_path(reference)}")
    print(f"instructions per step by callgrind, start-up taken off; {MOST_STEPS:,} steps a trace, seed {options.seed};")
    print(f"{SETS} sets of {WAYS} ways, of which two domains have half each at first.")
    print("ratio: proved / reference; in brackets the steps by answer, where policy is an accepted change.\n")
    print(f"  {'':<21} {'proved':>9} {'reference':>9} {'ratio':>6}", flush=True)
    with tempfile.TemporaryDirectory(prefix="compare-count-") as directory:
        for name, about, trace in traces(options.seed):
            outcome = run(reference, trace.file(), options.timeout)
            if not agreed(run(proved, trace.file(), options.timeout), outcome):
                print(f"  {name}: the programs do not agree on this trace; compare them first")
                return 1
            counts = [per_step(program, trace, pathlib.Path(directory)) for program in (proved, reference)]
            print_row(name, *counts, f"{about} ({answers(trace.file(), outcome.listing)})")
    return 0
