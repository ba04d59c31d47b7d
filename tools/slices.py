"""Larger slices, for tools/compare --slices: files of calls with more sets than a trace file may name, and a census.

A file of calls has the form of a trace file, and may name any number of sets. target/bin/slices and, with the word
`slices`, the reference write about it what a listing has: the first line, a line for each step, and the lines of the
domains. Outside the limits each step is refused by 1. No list of cores is lent: kinds 32 to 35 and 40 are unknown. Only
a file without the form is refused as a whole, by 10. FAMILIES has the families of files, as families.py has those of
traces.
"""

import comparing
from comparing import Subject, about_steps
from families import (Family, bad_geometry, both, each_length, extended, flipped_body, flipped_header, listed,
                      near_length, noise, of_mix, oversize, some_geometry, too_many_steps, truncated, wild, with_cores,
                      with_drops, with_locks, wrong_number)
from traces import (GEOMETRIES, LOAD, MOST_STEPS, RULES, STORE, WAYS, Mix, Trace, change_grant, change_move,
                    change_relock, change_remove, grow, whole_file)

LARGER = [512, 1024, 2048, 4096]
CALLED = [(sets, ways, rule) for sets in LARGER for ways in WAYS for rule in RULES] + GEOMETRIES


# Which sets are in use.

def alike_sets(rng, sets, most):
    """Sets whose low bits agree, the low eight at least: with no other bits all of them would be one set."""
    apart = 1 << rng.randrange(8, sets.bit_length() - 1)
    low = rng.randrange(apart)
    return [low + apart * place for place in rng.sample(range(sets // apart), min(most, sets // apart))]


def edge_sets(rng, sets, most):
    """The first set, the last one, and those on both sides of 256, 512 and so on."""
    edges = [0, sets - 1] + [number for power in [256, *LARGER] if power < sets for number in (power - 1, power)]
    return rng.sample(edges, min(most, len(edges)))


# Files.

def larger(mix):
    """The maker of traces with this mix of steps, at more than 256 sets."""
    return of_mix(mix, LARGER)


def some_trace(rng):
    return Trace(rng, some_geometry(rng, sets=LARGER))


def add_run(trace, n):
    """Loads and stores, from any set on through all of them, or through some."""
    rng = trace.rng
    first, apart = rng.randrange(trace.sets), rng.choice([1, 1, 3, 17, 257, 512])
    stores = rng.choice([rng.random(), 1])
    for place in range(first, first + apart * n, apart):
        line = rng.randrange(3) * trace.sets + place % trace.sets
        trace.add(trace.member(), STORE if rng.random() < stores else LOAD, 64 * line)


def drops(rng, _index):
    """Runs through the sets, and after each of them a change that drops many lines."""
    trace, most = some_trace(rng), rng.randint(1000, MOST_STEPS - 2)
    while len(trace.steps) < most:
        for _ in range(rng.choice([1, 1, 2])):
            change_grant(trace)
        add_run(trace, rng.choice([300, 1000, most]))
        del trace.steps[most:]
        rng.choice([change_remove, change_remove, change_move])(trace)  # one step or two
    return trace.file()


def swept(rng, _index):
    """Ways change hands, then accesses in many sets show what was left in their words and turn them for the next."""
    trace = some_trace(rng)
    numbers = edge_sets(rng, trace.sets, 4) + rng.sample(range(trace.sets), rng.randint(10, 50))
    change_grant(trace)
    for first_tag in range(0, 100, 10):
        rng.choice([change_grant, change_relock, change_relock, change_move])(trace)
        for number in numbers:
            for tag in rng.choices(range(first_tag, first_tag + 12), k=rng.randint(1, 6)):
                trace.add(trace.member(), rng.choice([LOAD, STORE]), 64 * (tag * trace.sets + number))
    return whole_file(trace.geometry, trace.steps[:MOST_STEPS])


def each_geometry(rng, index):
    geometry = CALLED[index % len(CALLED)]
    return grow(Trace(rng, geometry), Mix(used_sets=8), rng.randint(50, 400)).file()


def long(rng, _index):
    return grow(some_trace(rng), Mix(used_sets=20), MOST_STEPS).file()


def case_j(_rng, index):
    """Case J by a call, 4,096, 257 and 8,192 sets, and other numbers of sets at the limits: a line in the last set."""
    sets = [4096, 257, 8192, 4097, 4095, 0, 65535, 3, 256, 1][index % 10]
    return whole_file((sets, 8, 0), [both(0, 255), (0, STORE, 64 * max(0, sets - 1)), (0, LOAD, 0), both(0, 0)])


def sixteenfold(*makers):
    """The maker of files by any of these makers, with sixteen times the sets in the header."""
    def maker(rng, index):
        data = rng.choice(makers)(rng, index)
        sets = int.from_bytes(data[:2], "little") * 16 % 65536
        return sets.to_bytes(2, "little")[:len(data)] + data[2:]
    return maker


FAMILIES = [
    Family("mixed", "some of everything, at 512 to 4,096 sets as most of these families", 6, larger(Mix())),
    Family("alike", "sets that agree in their low eight bits or more", 8,
           larger(Mix(choose_sets=alike_sets, used_sets=6, crowd=(0.3, 1.5)))),
    Family("edges", "the first and the last set, and those on both sides of 256, 512 and so on", 6,
           larger(Mix(choose_sets=edge_sets, used_sets=8, crowd=(0.3, 1.5), policy=12))),
    Family("evictions", "more lines than ways, so that most accesses evict", 4,
           larger(Mix(crowd=(1, 3), used_sets=2, flush=2))),
    Family("locks", "fill maps change under the same hit map: locked ways, `pass`", 4,
           larger(Mix(policy=10, relock=30, shut=4, crowd=(0.5, 2), rules=(0, 0, 1, 2)))),
    Family("locked", "hits in locked ways, and evictions beside them, mostly under Tree-PLRU", 8, with_locks(LARGER)),
    Family("cores", "kinds that name a core, which are unknown here (4, and 3 for a number of 16 or more)", 2,
           with_cores(LARGER)),
    Family("moves", "ways move between domains; domains are removed and put back", 5,
           larger(Mix(policy=30, move=12, remove=8, crowd=(0.3, 1)))),
    Family("addresses", "lines from the whole 64 bits, tags of many digits", 3, larger(Mix(wide=0.9))),
    Family("swept", "ways change hands between accesses in many sets", 6, swept),
    Family("drops", "changes that drop lines by the hundred and the thousand", 6, drops),
    Family("handed", "ways full of lines are handed to and fro, given up and taken back", 3, with_drops(LARGER)),
    Family("geometries", "each of the 156 geometries in turn, first the 48 of more than 256 sets", 14, each_geometry),
    Family("long", "4,096 steps", 2, long),
    Family("pieces", "given in pieces, with pauses, as a slow writer would", 1, larger(Mix()), True),
    Family("cases", "case J by a call, and other numbers of sets at the limits", 2, case_j),
    Family("listed", "files of the families of traces: most have up to 256 sets", 5, listed),
    Family("refused", "sets, ways or rule mostly outside the limits (1)", 5, bad_geometry),
    Family("wild", "random codes and arguments under a good header", 2, sixteenfold(wild)),
    Family("damaged", "damaged, with wrong lengths or numbers of steps, or plain random bytes", 6,
           sixteenfold(truncated, extended, flipped_header, flipped_body, wrong_number, each_length, near_length,
                       noise, oversize, too_many_steps)),
]


# What was seen.

class Census(comparing.Census):
    """How often each answer came up, by the reference's output."""

    WORDS = [word for word in comparing.Census.WORDS if word != "select"]
    STEP_NUMBERS = {1: "geometry", 3: "domain 16 or more", 4: "unknown kind", 5: "policy argument", 6: "empty hit map",
                    8: "shared way", 9: "shared node"}
    FILE_NUMBERS = {10: "trace file"}
    GEOMETRIES = CALLED
    NEVER = ("refused 2, a table's length, or 7, a full count, or a change that drops more than "
             f"{MOST_STEPS - 2:,} lines")


SLICES = Subject(("slices",), " --slices", Census, about_steps("output", 1))
