"""The families of files that tools/compare tries: random, long, short and damaged ones, each made from a seed.

FAMILIES has every family with its name, a line that says what it is, its weight among the files made, and the function
that makes one. `make(family, seed, index)` makes a file; equal arguments make equal files.
"""

import random
from dataclasses import dataclass
from typing import Callable

import dropped
from cores import add_edge, add_turn, begin
from locked import add_round
from traces import (FETCH, FLUSH, GEOMETRIES, HEADER, LARGEST_FILE, LOAD, MOST_STEPS, POLICY, RULES, SETS, STORE, WAYS,
                    Mix, Trace, grow, header, whole_file)


@dataclass(frozen=True)
class Family:
    name: str
    about: str
    weight: float
    maker: Callable[[random.Random, int], bytes]
    pauses: bool = False  # given in pieces, with pauses between them


def make(family, seed, index):
    return family.maker(random.Random(f"{seed} {family.name} {index}"), index)


# Traces that stand.

def some_geometry(rng, rules=RULES, sets=SETS):
    return rng.choice(sets), rng.choice(WAYS), rng.choice(rules)


def some_length(rng):
    """Mostly up to a few hundred steps, seldom more."""
    return rng.randint(*rng.choices([(0, 10), (10, 150), (150, 600), (600, 2000)], [10, 60, 25, 5])[0])


def of_mix(mix, sets=SETS):
    """The maker of traces with this mix of steps, and one of these numbers of sets."""
    def maker(rng, _index):
        return grow(Trace(rng, some_geometry(rng, mix.rules, sets)), mix, some_length(rng)).file()
    return maker


def short(rng, _index):
    return grow(Trace(rng, some_geometry(rng)), Mix(), rng.randint(0, 8)).file()


def long(rng, _index):
    mix = rng.choice([Mix(), Mix(policy=40, relock=8), Mix(crowd=(1, 3)), Mix(crowd=(0.3, 0.7), flush=30)])
    return grow(Trace(rng, some_geometry(rng)), mix, MOST_STEPS - rng.choice([0, 0, 0, 1])).file()


def with_locks(sets=SETS):
    """The maker of traces with locked lines, at one of these numbers of sets."""
    def maker(rng, _index):
        geometry = rng.choice(sets), rng.choice([4, 8, 16]), rng.choices(RULES, [8, 1, 1])[0]
        trace = Trace(rng, geometry)
        for _ in range(rng.randint(1, 6)):
            add_round(trace)
        return trace.file()
    return maker


def with_cores(sets=SETS):
    """The maker of traces with cores that are switched, at one of these numbers of sets."""
    def maker(rng, _index):
        trace = Trace(rng, (rng.choice(sets), rng.choices(WAYS, [1, 4, 5, 5])[0], rng.choice(RULES)))
        team = begin(trace)
        for _ in range(rng.randint(2, 12)):
            add_turn(trace, team)
        return trace.file()
    return maker


def selectors(rng, _index):
    """Steps at the limits of cores and selectors among those that show what they left."""
    trace = Trace(rng, some_geometry(rng))
    team = begin(trace)
    for _ in range(rng.randint(2, 8)):
        add_turn(trace, team)
        for _ in range(rng.randint(5, 15)):
            add_edge(trace, team)
    return trace.file()


def with_drops(sets=SETS):
    """The maker of traces with lines that policy changes drop, at one of these numbers of sets."""
    def maker(rng, _index):
        trace = Trace(rng, some_geometry(rng, sets=sets))
        for _ in range(rng.randint(1, 5)):
            dropped.add_round(trace)
        dropped.add_end(trace)
        return trace.file()
    return maker


def each_geometry(rng, index):
    geometry = GEOMETRIES[index % len(GEOMETRIES)]
    return grow(Trace(rng, geometry), Mix(used_sets=8), rng.randint(50, 400)).file()


def wild(rng, _index):
    kinds = [FETCH, LOAD, STORE, FLUSH, POLICY, POLICY, POLICY, 4, 15, 17, rng.randrange(256)]
    n = some_length(rng) // 4
    steps = [(rng.randrange(20), rng.choice(kinds), rng.getrandbits(rng.randint(1, 64))) for _ in range(n)]
    return whole_file(some_geometry(rng), steps)


def both(domain, ways_map):
    """A policy change to equal hit and fill maps."""
    return domain, POLICY, ways_map | ways_map << 16


WORKED_CASES = [
    ((1, 4, 0), [both(0, 3), both(1, 12), (0, STORE, 0), (0, LOAD, 64), (1, LOAD, 0), (0, LOAD, 128), (0, FLUSH, 64),
                 (2, LOAD, 0), (0, LOAD, 128)]),
    ((1, 8, 0), [both(0, 5), both(1, 10)]),
    ((1, 8, 0), [both(0, 3), both(1, 12)]),
    ((256, 8, 0), []),
    ((257, 8, 0), []),
    ((4096, 8, 0), []),
    ((1, 2, 0), [both(15, 1), both(16, 2)]),
    ((1, 2, 0), [(0, LOAD, 0)] * MOST_STEPS),
    ((1, 2, 0), [(0, LOAD, 0)] * (MOST_STEPS + 1)),
]


def worked_case(_rng, index):
    return whole_file(*WORKED_CASES[index % len(WORKED_CASES)])


# Damaged files, and files that are refused as a whole.

def some_file(rng):
    """A small trace that stands, to be damaged."""
    return grow(Trace(rng, some_geometry(rng)), Mix(), rng.randint(1, 60)).file()


def with_number(data, n):
    """The file with another number of steps in its header."""
    return data[:4] + (n % (1 << 32)).to_bytes(4, "little") + data[HEADER:]


def flip(rng, data, first, end):
    """One to three bits flipped among the bytes from `first` to before `end`."""
    flipped = bytearray(data)
    for _ in range(rng.randint(1, 3)):
        flipped[rng.randrange(first, end)] ^= 1 << rng.randrange(8)
    return bytes(flipped)


def too_many_steps(rng, _index):
    n = MOST_STEPS + rng.choice([1, 1, 1, 2, 10, rng.randint(1, 4000)])
    geometry = rng.choice([some_geometry(rng), (3, 5, 7)])
    return header(*geometry, n) + rng.randbytes(10) * n


def bad_sets(rng):
    """Mostly a number of sets that no file may name: refused 1 below 256, and 10 above."""
    below = [0, 3, 5, 100, 255, rng.getrandbits(8)]
    above = [257, 258, 260, 300, 512, 1024, 4096, 4097, 8192, 32768, 65535, rng.getrandbits(16)]
    return rng.choice(rng.choice([below, above]))


def bad_geometry(rng, _index):
    sets, ways, rule = some_geometry(rng)
    bad_ways = rng.choice([0, 1, 3, 5, 6, 7, 9, 12, 15, 17, 18, 24, 32, 64, 128, 255, rng.getrandbits(8)])
    bad_rule = rng.choice([3, 4, 5, 16, 128, 254, 255, rng.getrandbits(8)])
    fault = rng.choice([1, 1, 2, 2, 4, 4, 3, 5, 6, 7])
    geometry = (bad_sets(rng) if fault & 1 else sets, bad_ways if fault & 2 else ways, bad_rule if fault & 4 else rule)
    trace = grow(Trace(rng, (sets, ways, rule)), Mix(), rng.randint(0, 20))
    return whole_file(geometry, trace.steps)


def truncated(rng, _index):
    data = some_file(rng)
    return data[:rng.choice([len(data) - rng.randint(1, 10), rng.randrange(len(data))])]


def extended(rng, _index):
    return some_file(rng) + rng.choice([rng.randbytes(rng.randint(1, 40)), bytes(rng.choice([1, 2, 8, 10])), b"\n"])


def flipped_header(rng, _index):
    data = some_file(rng)
    return flip(rng, data, 0, HEADER)


def flipped_body(rng, _index):
    data = some_file(rng)
    return flip(rng, data, HEADER, len(data))


def wrong_number(rng, _index):
    data = some_file(rng)
    n = (len(data) - HEADER) // 10
    wrong = [n - 1, n + 1, 0, n << 8, n << 16, n << 24, n + (1 << 8), n + (1 << 16), n + (1 << 24), n + (1 << 31)]
    wrong += [MOST_STEPS, MOST_STEPS + 1, (1 << 31) - 1, (1 << 32) - 1, rng.getrandbits(32)]
    return with_number(data, rng.choice(wrong))


def each_length(rng, index):
    """Lengths 0 to 64 in turn, with the number of steps that fits best: 8, 18, 28, ... bytes stand."""
    length = index % 65
    data = header(*some_geometry(rng), max(0, length - HEADER) // 10) + rng.randbytes(64)
    return data[:length]


def near_length(rng, _index):
    n = rng.choice([rng.randint(0, 100), MOST_STEPS - 1, MOST_STEPS])
    length = HEADER + 10 * n + rng.randint(-10, 10)
    data = header(*some_geometry(rng), n) + rng.randbytes(100) * (length // 100 + 1)
    return data[:length]


def noise(rng, _index):
    """Plain random bytes; some of them with the number of steps that fits their length."""
    n = rng.randint(0, 40)
    if rng.random() < 0.3:
        return with_number(rng.randbytes(HEADER + 10 * n), n)
    return rng.randbytes(rng.choice([HEADER + 10 * n, rng.randint(0, 400), rng.randint(0, 12)]))


def oversize(rng, _index):
    """Longer than the largest file that stands; the number of steps says anything."""
    length = rng.choice([LARGEST_FILE + rng.randint(1, 10), 1 << 16, (1 << 16) + 18, rng.randint(41000, 400000)])
    n = rng.choice([0, 1, MOST_STEPS, MOST_STEPS + 1, (length - HEADER) // 10, (1 << 32) - 1])
    data = header(*some_geometry(rng), n) + rng.randbytes(1000) * (length // 1000 + 1)
    return data[:length]


FAMILIES = [
    Family("mixed", "some of everything", 9, of_mix(Mix())),
    Family("hits", "few lines, so that most accesses hit", 5, of_mix(Mix(crowd=(0.1, 0.5), flush=3, policy=4))),
    Family("evictions", "more lines than ways, so that most accesses evict", 8,
           of_mix(Mix(crowd=(1, 3), used_sets=1, flush=2))),
    Family("flushes", "as many flushes as accesses", 5, of_mix(Mix(access=40, flush=40, crowd=(0.3, 1)))),
    Family("moves", "ways move between domains; domains are removed and put back", 8,
           of_mix(Mix(policy=30, move=12, remove=8, crowd=(0.3, 1)))),
    Family("locks", "fill maps change under the same hit map: locked ways, `pass`", 10,
           of_mix(Mix(policy=10, relock=30, shut=4, crowd=(0.5, 2), used_sets=2, rules=(0, 0, 1, 2)))),
    Family("locked", "hits in locked ways, and evictions beside them, mostly under Tree-PLRU", 14, with_locks()),
    Family("drops", "ways full of lines are handed to and fro, given up and taken back, or wanted in vain (8, 9)", 12,
           with_drops()),
    Family("cores", "cores are switched between domains; accesses and flushes through their selectors", 14,
           with_cores()),
    Family("selectors", "cores, selectors and bytes of selector writes at their limits (11, 3, 5)", 7, selectors),
    Family("tree", "Tree-PLRU with maps that cross subtrees and share nodes (9)", 8,
           of_mix(Mix(policy=15, share=15, relock=20, crowd=(0.5, 2), used_sets=2, rules=(0,)))),
    Family("nru", "NRU with small maps and many evictions", 4,
           of_mix(Mix(policy=10, relock=10, crowd=(0.5, 2), used_sets=2, rules=(1,)))),
    Family("lru", "LRU with hits that turn the order round, and ways that change hands", 6,
           of_mix(Mix(policy=10, relock=10, move=8, crowd=(0.5, 1.5), used_sets=2, rules=(2,)))),
    Family("overlaps", "hit maps that share ways (8)", 4, of_mix(Mix(policy=25, overlap=20, anything=10))),
    Family("arguments", "policy arguments that are none (5)", 4, of_mix(Mix(policy=25, argument=30))),
    Family("strays", "unknown kinds, domains of 16 and more, domains without ways", 4,
           of_mix(Mix(stray=40, strangers=0.4))),
    Family("addresses", "lines from the whole 64 bits, tags of many digits", 4, of_mix(Mix(wide=0.9))),
    Family("geometries", "each of the 108 geometries in turn, many sets in use", 4, each_geometry),
    Family("wild", "random codes and arguments under a good header", 3, wild),
    Family("short", "0 to 8 steps", 3, short),
    Family("long", "4,096 steps, or one less", 2, long),
    Family("pieces", "a good trace given in pieces, with pauses, as a slow writer would", 1, of_mix(Mix()), True),
    Family("cases", "cases A, F, G, J, K and L in turn, J as a file has it", 0.4, worked_case),
    Family("many", "4,097 steps and more, otherwise well formed", 0.6, too_many_steps),
    Family("geometry", "sets, ways or rule outside the limits (1), or more than 256 sets (10)", 3, bad_geometry),
    Family("truncated", "a good trace that ends early", 2, truncated),
    Family("extended", "a good trace with bytes after its end", 1, extended),
    Family("header", "a good trace with bits of its header flipped", 3, flipped_header),
    Family("body", "a good trace with bits of its codes and arguments flipped", 2, flipped_body),
    Family("number", "a good trace with another number of steps in its header", 2, wrong_number),
    Family("lengths", "each length from 0 to 64 bytes in turn", 3, each_length),
    Family("near", "lengths around 8 + 10 n", 2, near_length),
    Family("noise", "plain random bytes", 2, noise),
    Family("oversize", "longer than the largest file that stands", 1, oversize),
]


def listed(rng, index):
    """A file of any of these families."""
    return rng.choices(FAMILIES, [family.weight for family in FAMILIES])[0].maker(rng, index)
