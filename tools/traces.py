"""Traces for tools/compare: how a trace of steps is made that hits, evicts, flushes and moves ways often.

A trace file (document 01, "Trace file and listing") has, little-endian, sets (2 bytes), ways (1), rule (1) and number
of steps n (4); then n codes of 2 bytes (domain, kind); then n arguments of 8 bytes. Which traces are made, and which
damaged files, is said in families.py.
"""

import functools
import struct
from dataclasses import dataclass
from typing import Callable

SETS = [1, 2, 4, 8, 16, 32, 64, 128, 256]  # that a trace file may name
WAYS = [2, 4, 8, 16]
RULES = [0, 1, 2]  # Tree-PLRU, NRU, LRU
GEOMETRIES = [(sets, ways, rule) for sets in SETS for ways in WAYS for rule in RULES]
DOMAINS = 16
FETCH, LOAD, STORE, FLUSH, POLICY = 0, 1, 2, 3, 16
THROUGH, SELECT = 32, 40  # by document 02, kinds 0 to 3 through a core are 32 more, and 40 writes a core's selectors
CORES = 32  # core records that the lister lends
MOST_STEPS = 4096
HEADER = 8
LARGEST_FILE = HEADER + 10 * MOST_STEPS


# Files and their parts.

def header(sets, ways, rule, n):
    return struct.pack("<HBBI", sets, ways, rule, n)


def body(steps):
    """The codes, then the arguments, of steps (domain, kind, argument)."""
    codes = bytes(number for domain, kind, _ in steps for number in (domain, kind))
    return codes + struct.pack(f"<{len(steps)}Q", *(argument for _, _, argument in steps))


def whole_file(geometry, steps):
    return header(*geometry, len(steps)) + body(steps)


def steps_in(data):
    """The number of steps of a file that has the length for them; none of another."""
    n = struct.unpack_from("<I", data, 4)[0] if len(data) >= HEADER else None
    return n if n is not None and len(data) == HEADER + 10 * n else None


def step_of(data, place):
    """The domain, or core, the kind and the argument of one step of a file that stands."""
    n = struct.unpack_from("<I", data, 4)[0]
    domain, kind = struct.unpack_from("<BB", data, HEADER + 2 * place)
    (argument,) = struct.unpack_from("<Q", data, HEADER + 2 * n + 8 * place)
    return domain, kind, argument


# Maps of ways.

def submap(rng, ways_map):
    """Some of the ways of a map; each number of ways, none and all too, is equally likely."""
    ways = [way for way in range(16) if ways_map >> way & 1]
    return sum(1 << way for way in rng.sample(ways, rng.randint(0, len(ways))))


def block(rng, ways):
    """1, 2, 4, ... ways side by side, as a subtree of the replacement tree has them."""
    size = 1 << rng.randrange(ways.bit_length())
    return ((1 << size) - 1) << size * rng.randrange(ways // size)


@functools.lru_cache(maxsize=None)
def free_nodes(ways, fill_map):
    """The nodes of the replacement tree with a way of the map in each half, as bits of a word."""
    def below(node, first, count):
        if count == 1:
            return 0
        half = count // 2
        left = fill_map >> first & (1 << half) - 1
        right = fill_map >> first + half & (1 << half) - 1
        deeper = below(2 * node + 1, first, half) | below(2 * node + 2, first + half, half)
        return deeper | (1 << node if left and right else 0)
    return below(0, 0, ways)


@functools.lru_cache(maxsize=None)
def nodes_above(ways, way):
    """The nodes of the replacement tree on the path to a way, as bits of a word."""
    node, nodes = ways - 1 + way, 0
    while node:
        node = (node - 1) // 2
        nodes |= 1 << node
    return nodes


def under_free_nodes(ways, hit_map, fill_map):
    """The locked ways, in the hit map and not in the fill map, that have a free node of the fill map above them."""
    free = free_nodes(ways, fill_map)
    locked = hit_map & ~fill_map
    return [way for way in range(ways) if locked >> way & 1 and free & nodes_above(ways, way)]


# A trace in the making.

class Trace:
    """A trace in the making. `policies` and `cores`, the selectors CS, DS and ES of each core, are a guess at what the
    steps so far have left, by a small model of what is refused. It only steers what is made next, so that most policy
    changes are acceptable, and most steps through cores are of domains that have ways; nothing is compared with it.
    """

    def __init__(self, rng, geometry):
        self.rng = rng
        self.geometry = geometry
        self.sets, self.ways, self.rule = geometry
        self.steps = []
        self.policies = {}
        self.cores = [(0, 0, 0)] * CORES
        self.cast = rng.sample(range(DOMAINS), rng.choice([1, 2, 3, 4, 4, 6, 8, 16]))

    def add(self, domain, kind, argument):
        self.steps.append((domain, kind, argument))

    def shares_way(self, domain, hit_map):
        return any(hit_map & hit for other, (hit, _) in self.policies.items() if other != domain)

    def shares_node(self, domain, fill_map):
        free = free_nodes(self.ways, fill_map) if self.rule == 0 else 0
        return any(free & free_nodes(self.ways, fill) for other, (_, fill) in self.policies.items() if other != domain)

    def stands(self, domain, hit_map, fill_map):
        return not self.shares_way(domain, hit_map) and not self.shares_node(domain, fill_map)

    def set_policy(self, domain, hit_map, fill_map, high=0):
        """A policy change, and whether it is acceptable."""
        self.add(domain, POLICY, hit_map | fill_map << 16 | high << 32)
        argument_stands = not high and not fill_map & ~hit_map and not hit_map >> self.ways
        accepted = argument_stands and self.stands(domain, hit_map, fill_map)
        if accepted:
            self.policies[domain] = (hit_map, fill_map)
            if not hit_map:
                del self.policies[domain]
        return accepted

    def select(self, core, selectors, high=0):
        """A selector write."""
        cs, ds, es = selectors
        self.add(core, SELECT, cs | ds << 8 | es << 16 | high << 24)
        if core < CORES and max(selectors) < DOMAINS and not high:
            self.cores[core] = (cs, ds, es)

    def selected(self, core, kind):
        """The domain of a fetch, load, store or flush through a core."""
        cs, ds, es = self.cores[core]
        return {FETCH: cs, LOAD: ds, STORE: es, FLUSH: ds}[kind]

    def unowned(self, domain):
        """The ways that no domain but this one has."""
        taken = 0
        for other, (hit_map, _) in self.policies.items():
            taken |= hit_map if other != domain else 0
        return (1 << self.ways) - 1 & ~taken

    def member(self):
        """A domain that has ways, if there is one."""
        return self.rng.choice(list(self.policies)) if self.policies else self.rng.choice(self.cast)

    def anyone(self):
        return self.rng.choice(self.cast)

    def maps(self, domain):
        return self.policies.get(domain, (0, 0))

    def file(self):
        return whole_file(self.geometry, self.steps)


def halved(rng, geometry):
    """A trace that begins with two domains, 0 and 1, each with half of the ways."""
    trace = Trace(rng, geometry)
    half = trace.ways // 2
    low = (1 << half) - 1
    trace.set_policy(0, low, low)
    trace.set_policy(1, low << half, low << half)
    return trace


# Policy changes: each adds one or a few steps.

def change_grant(trace):
    """A domain gets ways that nobody else has: the first acceptable choice of a few."""
    rng, domain = trace.rng, trace.anyone()
    for _ in range(8):
        wanted = block(rng, trace.ways) if rng.random() < 0.5 else submap(rng, (1 << trace.ways) - 1)
        hit_map = wanted & trace.unowned(domain)
        fill_map = hit_map if rng.random() < 0.6 else submap(rng, hit_map)
        if hit_map and trace.stands(domain, hit_map, fill_map):
            break
    trace.set_policy(domain, hit_map, fill_map)


def change_move(trace):
    """One domain gives up ways and another one takes them."""
    giver, taker = trace.member(), trace.anyone()
    hit_map, fill_map = trace.maps(giver)
    ways = submap(trace.rng, hit_map)
    trace.set_policy(giver, hit_map & ~ways, fill_map & ~ways)
    hit_map, fill_map = trace.maps(taker)
    trace.set_policy(taker, hit_map | ways, fill_map | ways)


def change_shrink(trace):
    """A domain gives up some of its ways; one at least it keeps, if it has one."""
    domain = trace.member()
    hit_map, fill_map = trace.maps(domain)
    kept = submap(trace.rng, hit_map) or hit_map & -hit_map
    trace.set_policy(domain, kept, fill_map & kept)


def change_grow(trace):
    """A domain takes ways that nobody has, and keeps its own."""
    rng, domain = trace.rng, trace.anyone()
    hit_map, fill_map = trace.maps(domain)
    more = submap(rng, trace.unowned(domain) & ~hit_map)
    trace.set_policy(domain, hit_map | more, fill_map | (more if rng.random() < 0.6 else submap(rng, more)))


def change_replace(trace):
    """A domain gives up some of its ways and takes others that nobody has: the first acceptable choice of a few."""
    rng, domain = trace.rng, trace.anyone()
    unowned = trace.unowned(domain)
    for _ in range(8):
        hit_map = submap(rng, unowned)
        fill_map = hit_map if rng.random() < 0.6 else submap(rng, hit_map)
        if hit_map and hit_map != trace.maps(domain)[0] and trace.stands(domain, hit_map, fill_map):
            break
    trace.set_policy(domain, hit_map, fill_map)


def change_again(trace):
    """A domain gets the maps that it has."""
    domain = trace.member()
    trace.set_policy(domain, *trace.maps(domain))


def change_remove(trace):
    """A domain is removed and, half of the time, put back at once with the same maps."""
    domain = trace.member()
    maps = trace.maps(domain)
    trace.set_policy(domain, 0, 0)
    if trace.rng.random() < 0.5:
        trace.set_policy(domain, *maps)


def lock(trace, domain):
    """Another fill map under the same hit map: lines stay, ways are locked and unlocked. Most of these maps have a free
    node above a locked way, if the first few choices bring one: no hit in that way turns it."""
    rng, hit_map = trace.rng, trace.maps(domain)[0]
    spread = rng.random() < 0.7
    for _ in range(8):
        fill_map = submap(rng, hit_map)
        wanted = under_free_nodes(trace.ways, hit_map, fill_map) if spread else fill_map
        if wanted and trace.stands(domain, hit_map, fill_map):
            break
    trace.set_policy(domain, hit_map, fill_map)


def change_relock(trace):
    """A domain locks and unlocks ways."""
    lock(trace, trace.member())


def change_shut(trace):
    """An empty fill map under the same hit map: misses pass."""
    domain = trace.member()
    trace.set_policy(domain, trace.maps(domain)[0], 0)


def change_overlap(trace):
    """A hit map with a way of another domain: refused 8."""
    domain, other = trace.anyone(), trace.member()
    hit_map = trace.maps(domain)[0] | submap(trace.rng, trace.maps(other)[0])
    trace.set_policy(domain, hit_map, submap(trace.rng, hit_map))


def change_grab(trace):
    """A domain gives up some of its ways, and wants at least one of another domain: refused 8."""
    rng, other = trace.rng, trace.member()
    domain = rng.choice([member for member in trace.policies if member != other] or trace.cast)
    wanted = submap(rng, trace.maps(other)[0]) or trace.maps(other)[0]
    hit_map = submap(rng, trace.maps(domain)[0]) | wanted
    trace.set_policy(domain, hit_map, submap(rng, hit_map))


def change_share(trace):
    """Under Tree-PLRU, maps without a common way that share a free node (refused 9), if there are such maps."""
    rng = trace.rng
    for _ in range(12):
        domain = trace.anyone()
        hit_map = trace.unowned(domain) & (rng.getrandbits(16) | rng.getrandbits(16))
        fill_map = hit_map if rng.random() < 0.7 else submap(rng, hit_map)
        if trace.shares_node(domain, fill_map):
            break
    trace.set_policy(domain, hit_map, fill_map)


def change_argument(trace):
    """An argument that is no policy: refused 5, also where 8 or 9 would hold too."""
    rng, domain = trace.rng, trace.anyone()
    hit_map = rng.choice([trace.maps(domain)[0], submap(rng, (1 << trace.ways) - 1)])
    fill_map, high = submap(rng, hit_map), 0
    fault = rng.randrange(4)
    if fault == 0 and trace.ways < 16:
        hit_map |= 1 << rng.randrange(trace.ways, 16)
    elif fault == 1 and trace.ways < 16:
        fill_map |= 1 << rng.randrange(trace.ways, 16)
    elif fault == 2:
        fill_map |= 1 << rng.randrange(trace.ways)
    else:
        high = 1 << rng.randrange(32)
    trace.set_policy(domain, hit_map, fill_map, high)


def change_anything(trace):
    """Any two maps of W ways."""
    hit_map = trace.rng.getrandbits(trace.ways)
    trace.set_policy(trace.anyone(), hit_map, hit_map & trace.rng.getrandbits(trace.ways))


# What traces consist of.

def any_sets(rng, sets, most):
    """Any of the sets, at most so many."""
    return [rng.randrange(sets) for _ in range(rng.randint(1, most))]


@dataclass(frozen=True)
class Mix:
    """What a trace mostly consists of: weights of steps, weights of policy changes, and how crowded its sets are."""

    access: int = 80
    flush: int = 8
    policy: int = 8
    stray: int = 1
    grant: int = 6
    move: int = 4
    remove: int = 2
    relock: int = 5
    shut: int = 1
    overlap: int = 1
    share: int = 1
    argument: int = 1
    anything: int = 1
    crowd: tuple = (0.1, 1.5)  # lines in use per set, from and to, as multiples of W
    used_sets: int = 3  # at most so many sets are in use
    choose_sets: Callable = any_sets  # which they are
    stores: float = 0.35  # of the accesses
    wide: float = 0.1  # of the lines: tags of many bits
    strangers: float = 0.03  # of accesses and flushes: by a domain of any number below 16
    rules: tuple = tuple(RULES)

    def changes(self):
        """The policy changes and their weights."""
        table = {change_grant: self.grant, change_move: self.move, change_remove: self.remove,
                 change_relock: self.relock, change_shut: self.shut, change_overlap: self.overlap,
                 change_share: self.share, change_argument: self.argument, change_anything: self.anything}
        return list(table), list(table.values())


def addresses(trace, mix):
    """The lines that a trace uses: enough for evictions, few enough for hits."""
    rng = trace.rng
    sets = mix.choose_sets(rng, trace.sets, mix.used_sets)
    low, high = (max(1, round(part * trace.ways)) for part in mix.crowd)
    lines = []
    for tag in range(rng.randint(low, high)):
        if rng.random() < mix.wide:
            tag = rng.getrandbits(rng.randint(8, 58)) | rng.choice([0, 1 << 57])
        lines += [(tag * trace.sets + number) % (1 << 58) * 64 for number in sets]
    rng.shuffle(lines)
    return lines


def add_stray(trace, lines):
    """An unknown kind, a domain of 16 or more, or both; seldom a kind that names a core."""
    rng = trace.rng
    unknown = rng.choice([4, 5, 8, 15, 17, 18, 31, 36, 128, 255, rng.randint(4, 15), rng.randint(17, 255)])
    known = rng.choice([FETCH, LOAD, STORE, FLUSH, POLICY])
    too_high = rng.choice([16, 17, 31, 128, 255, rng.randint(16, 255)])
    domain, kind = rng.choice([(trace.anyone(), unknown), (too_high, known), (too_high, unknown)])
    trace.add(domain, kind, rng.choice([0, rng.choice(lines), 1 | 1 << 16, rng.getrandbits(64)]))


def add_access(trace, lines, mix, kind):
    """An access or a flush, of a line at the head of the list more often than of one at its end."""
    rng = trace.rng
    domain = rng.randrange(DOMAINS) if rng.random() < mix.strangers else trace.member()
    place = int(len(lines) * rng.random() * rng.random() ** 0.3)
    trace.add(domain, kind, lines[place] + int(64 * rng.random()))


def grow(trace, mix, n):
    """Adds steps to a trace, up to n. First a few domains get ways, if none has; then steps come by their weights."""
    rng, lines = trace.rng, addresses(trace, mix)
    changes, weights = mix.changes()
    total = mix.access + mix.flush + mix.policy + mix.stray
    for _ in range(0 if trace.policies else rng.randint(1, 5)):
        change_grant(trace)
    while len(trace.steps) < n:
        if not trace.policies and rng.random() < 0.3:
            change_grant(trace)
        draw = total * rng.random()
        if draw < mix.access:
            store = rng.random() < mix.stores
            add_access(trace, lines, mix, STORE if store else LOAD if rng.random() < 0.6 else FETCH)
        elif draw < mix.access + mix.flush:
            add_access(trace, lines, mix, FLUSH)
        elif draw < mix.access + mix.flush + mix.policy:
            rng.choices(changes, weights)[0](trace)
        else:
            add_stray(trace, lines)
    del trace.steps[n:]
    return trace
