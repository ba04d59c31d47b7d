"""Lent records and tables, for tools/compare --lent: the families of files, and a census.

target/bin/slices and, with the word `slices`, the reference are given a file of what is lent and a trace, as lending.py
has it; all tags and replacement words are lent zero, and there is no list of cores. They write the first line and the
step lines of a listing, and then a line for each of the sixteen domains: `domain`, number, hit map and fill map as
stored, and the seven counts. A file too short for what is lent, or longer than a trace file may be, is refused by 10 as a
whole, as a trace file is by 10 or 1; one of a trace file's form has nothing lent, and its calls are slices.py's.
FAMILIES has the families of files, as families.py has those of traces.
"""

import struct

import comparing
from comparing import Subject, about_steps, print_count
from families import (Family, bad_geometry, extended, listed, noise, some_geometry, too_many_steps, truncated,
                      wrong_number)
from lending import (FRONT, LARGEST, MOST_SETS, RECORD, RECORDS, Lent, add_steps, any_maps, disjoint, drops, garbage,
                     lent_file, mostly_high, mostly_low, nothing, overlapping, some_table)
from traces import (DOMAINS, GEOMETRIES, LARGEST_FILE, POLICY, WAYS, change_grab, change_grow, change_replace,
                    change_share, change_shrink, step_of, steps_in)

MOST_LENT = (LARGEST_FILE - FRONT - 8) // 10  # steps
FEW_SETS = [1, 1, 1, 2, 2, 4, 8, 16, 64, 256]
MANY_SETS = [64, 128, 256]


# Files.

def of_maps(some_maps, uses=0.3, six_counts=mostly_low):
    """The maker of files with such stored maps, of whose steps this part are accesses and flushes, and with such counts
    but dropped."""
    def maker(rng, _index):
        trace = Lent(rng, some_geometry(rng, sets=FEW_SETS), some_maps)
        return add_steps(trace, rng.randint(1, 60), uses).lent_file(six_counts)
    return maker


def edge(rng, _index):
    """One change, or a few, that would drop lines, if the first few choices bring such; the count is at its edge."""
    for _ in range(5):
        trace = Lent(rng, some_geometry(rng, sets=FEW_SETS), any_maps)
        for _ in range(rng.choice([1, 1, 1, 2, 3])):
            rng.choice([change_shrink, change_grow, change_replace, change_share])(trace)
        if trace.would_drop():
            break
    return trace.lent_file(mostly_low)


def neighbours(rng, _index):
    """Changes that want ways of neighbours, which may hold lines there, and some that do not."""
    trace = Lent(rng, some_geometry(rng, sets=FEW_SETS), rng.choice([disjoint, disjoint, overlapping]))
    for _ in range(rng.randint(1, 8)):
        rng.choice([change_grab, change_grab, change_grab, change_share, change_shrink, change_replace])(trace)
    return trace.lent_file(mostly_low)


def many(rng, _index):
    """Changes at many sets; half of the time the first one, of a domain that may have ways, is to all ways."""
    trace = Lent(rng, some_geometry(rng, sets=MANY_SETS), rng.choice([nothing, disjoint, any_maps]))
    if rng.random() < 0.5:
        whole = (1 << trace.ways) - 1
        trace.set_policy(trace.anyone(), whole, whole)
    return add_steps(trace, rng.randint(1, 20), 0.1).lent_file(mostly_low)


def each_geometry(rng, index):
    trace = Lent(rng, GEOMETRIES[index % len(GEOMETRIES)], any_maps)
    return add_steps(trace, rng.randint(10, 100), 0.4).lent_file(mostly_low)


def long(rng, _index):
    trace = Lent(rng, some_geometry(rng), any_maps)
    return add_steps(trace, MOST_LENT + rng.choice([-1, 0, 0, 1]), 0.8).lent_file(mostly_low)


def behind(some_trace_file):
    """The maker of files with a trace file by this maker, behind anything that may be lent."""
    def maker(rng, index):
        data, stored = some_trace_file(rng, index), any_maps(rng, rng.choice(WAYS))
        records = [(*stored.get(domain, (0, 0)), *mostly_low(rng), LARGEST - rng.choice([0, 5, LARGEST]))
                   for domain in range(DOMAINS)]
        if rng.random() < 0.3:
            records = RECORD.iter_unpack(rng.randbytes(RECORDS))
        return lent_file(records, some_table(rng, MOST_SETS), some_table(rng, MOST_SETS), data)
    return maker


def short(rng, _index):
    """A file that ends before its trace file, or in it."""
    data = of_maps(any_maps)(rng, 0)
    length = rng.choice([rng.randrange(len(data)), rng.randrange(FRONT), FRONT - 1, FRONT, FRONT + rng.randrange(9)])
    return data[:length]


def refused(rng, index):
    return rng.choice([bad_geometry, extended, noise, too_many_steps, truncated, wrong_number])(rng, index)


FAMILIES = [
    Family("disjoint", "stored maps without a common way; dropped counts near the largest, as in all of these", 8,
           of_maps(disjoint)),
    Family("overlaps", "stored maps that have ways in common", 8, of_maps(overlapping)),
    Family("garbage", "any 16 bits for maps", 8, of_maps(garbage)),
    Family("edges", "a change or a few, which just reach the largest count, pass it, or stay below it", 10, edge),
    Family("neighbours", "ways are wanted of neighbours (8), whose lines in them would be too many to drop", 10,
           neighbours),
    Family("counts", "accesses and flushes while counts fill up, each of the seven", 8,
           of_maps(disjoint, 0.9, mostly_high)),
    Family("many", "changes that drop lines by the hundred and the thousand", 5, many),
    Family("geometries", "each of the 108 geometries in turn", 6, each_geometry),
    Family("long", "3,942 steps, the most that go with what is lent, or one less or more", 0.4, long),
    Family("pieces", "given in pieces, with pauses, as a slow writer would", 0.5, of_maps(any_maps), True),
    Family("listed", "files of the families of traces, behind any records and tables", 4, behind(listed)),
    Family("refused", "files of which most have a trace file that is refused (10, 1)", 2, behind(refused)),
    Family("short", "files that end early", 3, short),
]


# What was seen.

class Followed:
    """What a file lends, and what its listing says that the steps did to it: the maps of the domains as they are read,
    the valid map of each set, and the dropped counts."""

    def __init__(self, data):
        self.sets, self.ways = struct.unpack_from("<HB", data, FRONT)
        whole = (1 << self.ways) - 1
        records = list(RECORD.iter_unpack(data[:RECORDS]))
        self.hit_maps = {domain: record[0] & whole for domain, record in enumerate(records)}
        self.fill_maps = {domain: record[0] & record[1] & whole for domain, record in enumerate(records)}
        self.dropped = {domain: record[-1] for domain, record in enumerate(records)}
        self.valid = list(struct.unpack_from(f"<{self.sets}H", data, RECORDS))

    def follow(self, domain, argument, word, fields):
        """What a step did that was not refused, as far as it matters here."""
        number = argument // 64 % self.sets
        if word == b"fill":
            self.valid[number] |= 1 << int(fields)
        elif word == b"flush":
            self.valid[number] &= ~(1 << int(fields.split()[0]))
        elif word == b"policy":
            hit_map = argument & 0xffff
            cleaned = self.hit_maps[domain] ^ hit_map
            self.valid = [of_set & ~cleaned for of_set in self.valid]
            self.hit_maps[domain], self.fill_maps[domain] = hit_map, argument >> 16
            self.dropped[domain] = self.dropped[domain] + int(fields.split()[0]) if hit_map else 0


class Census(comparing.Census):
    """How often each answer came up, by the reference's output, and how close dropped counts were to the largest."""

    WORDS = [word for word in comparing.Census.WORDS if word != "select"]
    STEP_NUMBERS = {3: "domain 16 or more", 4: "unknown kind", 5: "policy argument", 6: "empty hit map",
                    7: "full count, or drops that would pass the largest", 8: "shared way", 9: "shared node"}
    NEVER = "refused 2, a table's length, lent tags or replacement words but zeros, or a list of cores"

    def __init__(self):
        super().__init__()
        self.spent_changes = 0
        self.reached = 0
        self.spared = 0

    def take(self, data, listing):
        self.lent = data
        super().take(data[FRONT:], listing)

    def take_domains(self, data, answers):
        """Follows the steps of a file through what it lends."""
        state = Followed(self.lent)
        for place, (number, word, fields) in enumerate(answers[:steps_in(data) or 0]):
            domain, kind, argument = step_of(data, place)
            if number and kind == POLICY:
                self.take_refused(state, int(number), domain, argument & 0xffff)
            elif word == b"hit":
                self.details["hit"] += not state.fill_maps[domain] >> int(fields) & 1
            elif word:
                before = state.dropped[domain]
                state.follow(domain, argument, word, fields)
                self.reached += before < state.dropped[domain] == LARGEST

    def take_refused(self, state, number, domain, hit_map):
        """A policy change that was refused. Of those by 8, some are spared 7 as lines of neighbours are no drops."""
        self.spent_changes += number == 7
        if number == 8:
            own, of_others = drops(state.hit_maps, state.valid, domain, hit_map)
            self.spared += state.dropped[domain] + own <= LARGEST < state.dropped[domain] + own + of_others

    def print_more(self):
        print_count("7, policy", self.spent_changes, "  of refused 7: policy changes")
        print_count("8, not 7", self.spared, "  of refused 8: 7 would hold too if the neighbours' lines were drops")
        print_count("reached", self.reached, "  policy changes that carried dropped to the largest count")


def describe(data, line):
    """Which step a line of the output is about, or what else the line is."""
    trace = data[FRONT:]
    n = steps_in(trace)
    if n is not None and n < line <= n + DOMAINS:
        return f"the record of domain {line - n - 1} after {n} steps"
    return about_steps("output", 1)(trace, line)


LENT = Subject(("slices",), " --lent", Census, describe)
