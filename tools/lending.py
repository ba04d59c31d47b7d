"""Lent records and tables, for tools/compare --lent: how files are made whose counts are as large as the policy changes
of the trace allow, or a little too large.

A file has sixteen records, little-endian, of domains 0 to 15: hit map and fill map as stored (2 bytes each) and the
seven counts (4 each). Then come 256 valid maps and 256 dirty maps of 2 bytes, of which the first S of each are lent,
and a trace file. Which files are made is said in lent.py.
"""

import collections
import struct

from traces import (DOMAINS, FETCH, FLUSH, LOAD, STORE, Trace, block, change_again, change_anything, change_argument,
                    change_grab, change_grant, change_grow, change_move, change_overlap, change_relock, change_remove,
                    change_replace, change_share, change_shrink, submap)

LARGEST = (1 << 32) - 1
COUNTS = 7
RECORD = struct.Struct(f"<HH{COUNTS}I")
TABLE = struct.Struct("<256H")
RECORDS = DOMAINS * RECORD.size
FRONT = RECORDS + 2 * TABLE.size  # what stands before the trace file
MOST_SETS = 256


def lent_file(records, valid, dirty, trace_file):
    return b"".join(RECORD.pack(*record) for record in records) + TABLE.pack(*valid) + TABLE.pack(*dirty) + trace_file


# What a policy change drops.

def lines(valid, ways_map):
    """How many lines are valid in the ways of a map, in all sets together."""
    return sum((of_set & ways_map).bit_count() for of_set in valid)


def drops(hit_maps, valid, domain, hit_map):
    """The lines in the ways that a change of a domain to this hit map would clean: how many are drops of it, and how
    many are in ways that it would take from other domains. All maps are as they are read."""
    others = 0
    for other, ways_map in hit_maps.items():
        others |= ways_map if other != domain else 0
    cleaned = hit_maps.get(domain, 0) ^ hit_map
    taken = cleaned & hit_map & others
    return lines(valid, cleaned & ~taken), lines(valid, taken)


# Stored maps: a hit map and a fill map for each of some domains.

def some_domains(rng, numbers=(1, 2, 2, 3, 3, 4, 6)):
    return rng.sample(range(DOMAINS), rng.choice(numbers))


def disjoint(rng, ways):
    """Maps that a trace could have stored, but for nodes that they may share: no two hit maps have a way in common."""
    maps, left = {}, (1 << ways) - 1
    for domain in some_domains(rng, (0, 1, 2, 2, 3, 3, 4, 6, 16)):
        hit_map = (block(rng, ways) if rng.random() < 0.5 else submap(rng, left)) & left
        left &= ~hit_map
        maps[domain] = hit_map, hit_map if rng.random() < 0.6 else submap(rng, hit_map)
    return maps


def overlapping(rng, ways):
    """Maps of W ways that mostly have ways in common, and fill maps that are mostly parts of the hit maps."""
    maps = {}
    for domain in some_domains(rng):
        hit_map = submap(rng, (1 << ways) - 1)
        maps[domain] = hit_map, submap(rng, hit_map) if rng.random() < 0.8 else rng.getrandbits(ways)
    return maps


def garbage(rng, ways):
    """Any maps of 16 ways, some of them with nothing but ways of W or more, and some domains with sane maps."""
    def some_map():
        return rng.choice([rng.getrandbits(16), rng.getrandbits(16) & rng.getrandbits(16), 1 << rng.randrange(16),
                           rng.getrandbits(16) >> ways << ways, (1 << 16) - 1])
    of_garbage = {domain: (some_map(), some_map()) for domain in some_domains(rng, (1, 2, 3, 4, 16))}
    return {**disjoint(rng, ways), **of_garbage} if rng.random() < 0.5 else of_garbage


def nothing(_rng, _ways):
    """No domain has ways: valid lines are in ways that nobody holds."""
    return {}


def any_maps(rng, ways):
    return rng.choice([disjoint, overlapping, garbage])(rng, ways)


def some_table(rng, sets):
    """256 maps. Those of the first sets have no places set, few, half, most or all of the 16; the others are not
    lent, and may hold anything."""
    def sparse():
        return rng.getrandbits(16) & rng.getrandbits(16) & rng.getrandbits(16)
    some_map = rng.choice([lambda: 0, sparse, lambda: rng.getrandbits(16), lambda: rng.getrandbits(16),
                           lambda: 0xffff & ~sparse(), lambda: 0xffff])
    return [some_map() for _ in range(sets)] + [rng.getrandbits(16) for _ in range(MOST_SETS - sets)]


# A trace on what is lent.

class Lent(Trace):
    """A trace on lent records and tables in the making. `valid` is a guess at the valid maps that the steps so far have
    left, and `tried` has for each domain what its changes would make of a dropped count of zero: as a number of lines,
    with those of the change itself, and beside it how many lines of neighbours are in ways that it wants. No count is
    full in that guess. It only steers the counts that are lent; nothing is compared with it."""

    def __init__(self, rng, geometry, some_maps):
        super().__init__(rng, geometry)
        whole = (1 << self.ways) - 1
        self.stored = some_maps(rng, self.ways)
        self.policies = {domain: (hit_map & whole, fill_map & hit_map & whole)
                         for domain, (hit_map, fill_map) in self.stored.items() if hit_map & whole}
        self.cast = [*self.stored, *some_domains(rng, (1, 2))]
        self.lent_valid, self.lent_dirty = some_table(rng, self.sets), some_table(rng, self.sets)
        self.valid = self.lent_valid[:self.sets]
        self.used = rng.sample(range(self.sets), min(self.sets, 4))
        self.dropped = collections.Counter()
        self.tried = collections.defaultdict(list)
        self.removed = set()

    def set_policy(self, domain, hit_map, fill_map, high=0):
        hit_maps = {member: of_member for member, (of_member, _) in self.policies.items()}
        own, of_others = drops(hit_maps, self.valid, domain, hit_map)
        cleaned = self.maps(domain)[0] ^ hit_map
        if hit_map and domain not in self.removed:
            self.tried[domain].append((self.dropped[domain] + own, of_others))
        accepted = super().set_policy(domain, hit_map, fill_map, high)
        if accepted:
            self.dropped[domain] += own
            self.valid = [of_set & ~cleaned for of_set in self.valid]
            if not hit_map:
                self.removed.add(domain)  # what was lent to it no longer matters
        return accepted

    def would_drop(self):
        """Whether some change tried has lines to drop."""
        return any(total for changes in self.tried.values() for total, _ in changes)

    def use(self, domain, kind, tag):
        """An access or a flush in one of a few sets; tag 0 is that of all lent lines."""
        number = self.rng.choice(self.used)
        self.add(domain, kind, 64 * (tag * self.sets + number))
        hit_map, fill_map = self.maps(domain)
        found, free = self.valid[number] & hit_map, fill_map & ~self.valid[number]
        if kind == FLUSH:
            self.valid[number] &= ~(found & -found) if tag == 0 else -1  # the lowest of them is hit
        elif tag or not found:
            self.valid[number] |= 1 << free.bit_length() >> 1  # the highest of them is filled, if there is one

    def lent_file(self, six_counts):
        """The file: the dropped counts are mostly such that changes reach the largest count, or nearly so."""
        records = [(*self.stored.get(domain, (0, 0)), *six_counts(self.rng), some_dropped(self, domain))
                   for domain in range(DOMAINS)]
        return lent_file(records, self.lent_valid, self.lent_dirty, self.file())


# Counts.

def low_count(rng):
    return rng.choice([0, 0, rng.randrange(10), rng.getrandbits(32) % LARGEST])


def high_count(rng):
    """The largest count, or one below it by so little that a few steps reach it."""
    return LARGEST - rng.choice([0, 1, 1, 2, 2, 3, rng.randrange(20)])


def mostly_low(rng):
    """Six counts that seldom turn an access down."""
    return [high_count(rng) if rng.random() < 0.03 else low_count(rng) for _ in range(COUNTS - 1)]


def mostly_high(rng):
    """Six counts of which accesses and flushes soon fill one, if none is full."""
    return [high_count(rng) if rng.random() < 0.4 else low_count(rng) for _ in range(COUNTS - 1)]


def some_dropped(trace, domain):
    """A dropped count with room for the drops of the changes up to one of those tried, with a line too little, none or
    some over; where the change wants ways of neighbours, mostly with room for its own lines and not for all of theirs.
    """
    rng, tried = trace.rng, trace.tried[domain]
    if not tried or rng.random() < 0.15:
        return rng.choice([low_count, high_count])(rng)
    total, of_others = rng.choice([change for change in tried if any(change)] or tried)
    room = total + rng.choice([-2, -1, -1, 0, 0, 0, 1, rng.randrange(of_others or 1), rng.randrange(of_others or 1)])
    return LARGEST - max(0, room)


# Steps.

CHANGES = {change_shrink: 8, change_grow: 8, change_replace: 8, change_grab: 8, change_move: 4, change_remove: 3,
           change_share: 5, change_overlap: 3, change_grant: 3, change_anything: 3, change_relock: 2, change_again: 2,
           change_argument: 1}  # and weights


def add_change(trace):
    trace.rng.choices(list(CHANGES), CHANGES.values())[0](trace)


def add_use(trace):
    """Mostly a load or a store of a line that was not there, else one of a line that may be, a fetch or a flush."""
    rng = trace.rng
    domain = trace.member() if rng.random() < 0.95 else rng.randrange(DOMAINS)
    tag = rng.choice([0, rng.randrange(4), len(trace.steps) + 1, len(trace.steps) + 1])
    trace.use(domain, rng.choices([LOAD, STORE, FETCH, FLUSH], [4, 4, 1, 2])[0], tag)


def add_steps(trace, n, uses):
    """Adds steps up to n, of which this part are accesses and flushes, and the others mostly policy changes."""
    while len(trace.steps) < n:
        if trace.rng.random() < uses:
            add_use(trace)
        else:
            add_change(trace)
    del trace.steps[n:]
    return trace
