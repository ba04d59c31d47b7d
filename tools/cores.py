"""Traces with cores, for tools/compare: cores are switched between domains, and the domains work through their
selectors and beside them.

All domains use the same lines, and a core's three selectors mostly differ: a step that went through another selector,
or through one as it was before the switch, would be answered otherwise.
"""

from dataclasses import dataclass

from traces import (CORES, DOMAINS, FETCH, FLUSH, LOAD, POLICY, SELECT, STORE, THROUGH, any_sets, block, change_grant,
                    change_move, change_overlap, change_relock, change_remove, change_share, submap)

KINDS = [FETCH, LOAD, STORE, FLUSH]
CHANGES = [change_grant, change_grant, change_move, change_remove, change_relock, change_overlap, change_share]


@dataclass(frozen=True)
class Team:
    """The cores that a trace uses, and the sets."""

    cores: list
    sets: list


def begin(trace):
    """A few domains get ways, mostly domain 0 too, which fresh records name; then half of the cores in use are
    switched."""
    rng = trace.rng
    trace.cast = rng.sample(range(DOMAINS), rng.choice([2, 3, 3, 4, 5, 6]))
    if rng.random() < 0.7:
        trace.cast[0] = 0
    for domain in dict.fromkeys(trace.cast):
        share_out(trace, domain)
    cores = rng.sample(range(CORES), rng.choice([1, 2, 2, 3, 4, 8, CORES]))
    for core in cores:
        if rng.random() < 0.5:
            switch(trace, core)
    return Team(cores, any_sets(rng, trace.sets, 3))


def share_out(trace, domain):
    """The domain gets ways that nobody has, the first acceptable choice of a few: mostly all of them to be filled."""
    rng = trace.rng
    for _ in range(8):
        hit_map = (block(rng, trace.ways // 2) << rng.choice([0, trace.ways // 2])) & trace.unowned(domain)
        fill_map = hit_map if rng.random() < 0.9 else submap(rng, hit_map)
        if fill_map and trace.stands(domain, hit_map, fill_map):
            trace.set_policy(domain, hit_map, fill_map)
            return


def someone(trace):
    """A domain that has ways, seldom any."""
    return trace.member() if trace.rng.random() < 0.97 else trace.rng.randrange(DOMAINS)


def switch(trace, core):
    """A core gets another domain: in all selectors, in one of them, or in each of them another one."""
    rng, selectors = trace.rng, list(trace.cores[core])
    how = rng.random()
    if how < 0.25:
        selectors = [someone(trace)] * 3
    elif how < 0.5:
        selectors[rng.randrange(3)] = someone(trace)
    else:
        selectors = [someone(trace) for _ in range(3)]
    trace.select(core, selectors)


def line_for(trace, team, domain):
    """An address of a line that the domain may hold: it has a few lines more than ways."""
    rng = trace.rng
    ways = trace.maps(domain)[0].bit_count()
    tag = rng.randrange(ways + rng.choice([1, 1, 2, 4]))
    return 64 * (tag * trace.sets + rng.choice(team.sets)) + rng.randrange(64)


def some_kind(trace):
    return trace.rng.choices(KINDS, [20, 36, 34, 10])[0]


def add_through(trace, team):
    """A fetch, load, store or flush through a core."""
    core, kind = trace.rng.choice(team.cores), some_kind(trace)
    trace.add(core, THROUGH + kind, line_for(trace, team, trace.selected(core, kind)))


def add_plain(trace, team):
    """One by a domain itself."""
    domain = trace.member()
    trace.add(domain, some_kind(trace), line_for(trace, team, domain))


def add_turn(trace, team):
    """A core is switched, or a policy is changed; then the cores work, with some plain steps and edges between."""
    rng = trace.rng
    if rng.random() < 0.85:
        switch(trace, rng.choice(team.cores))
    else:
        rng.choice(CHANGES)(trace)
    for _ in range(rng.randint(3, 40)):
        draw = rng.random()
        if draw < 0.75:
            add_through(trace, team)
        elif draw < 0.92:
            add_plain(trace, team)
        elif draw < 0.99:
            switch(trace, rng.choice(team.cores))
        else:
            add_edge(trace, team)


# At the limits.

def edge_core(rng):
    """Mostly 31, the last core, or 32, which is not in the list, or a number near other limits."""
    return rng.choice([0, 15, 16, 30, 31, 31, 31, 32, 32, 32, 33, 63, 64, 127, 128, 255, rng.randrange(256)])


def good_selector(trace):
    return trace.rng.choice([15, someone(trace), someone(trace)])


def bad_selector(rng):
    return rng.choice([16, 16, 16, 17, 31, 32, 64, 127, 128, 255, 255, rng.randint(16, 255)])


def bad_bytes(rng):
    """The five bytes over the selectors, not all zero."""
    return rng.choice([1, 1 << rng.randrange(40), 1 << 39, 0xff << 8 * rng.randrange(5), (1 << 40) - 1,
                       rng.randint(1, (1 << 40) - 1)])


def add_write(trace, core):
    """A selector write, with a bad selector or more, bad bytes, both, or neither."""
    rng = trace.rng
    fault = rng.choice([0, 0, 1, 1, 2, 3])
    selectors = [good_selector(trace) for _ in range(3)]
    if fault & 1:
        for place in rng.sample(range(3), rng.choice([1, 1, 1, 2, 3])):
            selectors[place] = bad_selector(rng)
    trace.select(core, selectors, bad_bytes(rng) if fault & 2 else 0)


def add_edge(trace, team):
    """A step at the limits of cores and selectors, or of a kind that is next to theirs."""
    rng = trace.rng
    core = edge_core(rng)
    address = line_for(trace, team, trace.member())
    sort = rng.randrange(5)
    if sort == 0:  # of a core of the team, so that what follows shows what was written
        add_write(trace, rng.choice(team.cores))
    elif sort == 1:
        add_write(trace, core)
    elif sort == 2:
        trace.add(core, THROUGH + some_kind(trace), address)
    elif sort == 3:  # unknown, and 3 for a number of 16 or more, though a core might have it
        near = [THROUGH - 1, *range(THROUGH + 4, SELECT), SELECT + 1]
        kind = rng.choice([*near, THROUGH + POLICY, rng.randint(SELECT + 1, 255)])
        trace.add(rng.choice([core, trace.member()]), kind, address)
    else:  # 3: a number that could be a core's, with a kind that names a domain
        number = rng.choice([16, 31, 32, rng.randint(16, 31), rng.randint(16, 255)])
        trace.add(number, rng.choice([*KINDS, POLICY]), rng.choice([address, 0, 1 | 1 << 16]))
