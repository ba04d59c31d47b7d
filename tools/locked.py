"""Traces with locked lines, for tools/compare: a domain fills its ways, leaves some of them out of its fill map, and
goes on with the lines in them and with others.

Most are under Tree-PLRU, with a free node above a locked way. By document 02 a hit there turns no node; if it turned
one, the evictions that follow in the same set would show it.
"""

from traces import (FETCH, FLUSH, LOAD, STORE, any_sets, block, change_grant, change_move, change_overlap,
                    change_remove, change_share, lock, submap)

LEAST = 3  # ways: one to be locked, and two to be filled, with a free node between them


def owner(trace):
    """A domain with ways enough to lock some: one that has them, or one that gets them if it can."""
    rng = trace.rng
    owners = [domain for domain, (hit_map, _) in trace.policies.items() if hit_map.bit_count() >= LEAST]
    if owners:
        return rng.choice(owners)
    domain = trace.anyone()
    for _ in range(8):
        wanted = block(rng, trace.ways) if rng.random() < 0.5 else submap(rng, (1 << trace.ways) - 1)
        hit_map = wanted & trace.unowned(domain)
        if hit_map.bit_count() >= LEAST and trace.stands(domain, hit_map, hit_map):
            break
    trace.set_policy(domain, hit_map, hit_map)
    return domain


def add_use(trace, domain, line):
    """A load, a store, seldom a fetch or a flush."""
    trace.add(domain, trace.rng.choices([LOAD, STORE, FETCH, FLUSH], [50, 35, 10, 4])[0], line)


def add_work(trace, domain, lines):
    """Mostly the domain uses one of the lines; else any domain does, or maps change, mostly those of others."""
    rng = trace.rng
    draw = rng.random()
    if draw < 0.85:
        add_use(trace, domain, rng.choice(lines))
    elif draw < 0.95:
        add_use(trace, trace.member(), rng.choice(lines))
    else:
        changes = [change_grant, change_grant, change_share, change_overlap, change_move, change_remove]
        rng.choice(changes)(trace)


def add_round(trace):
    """A domain opens all of its ways and fills them in a set or two, then locks some of them and works on."""
    rng, domain = trace.rng, owner(trace)
    hit_map = trace.maps(domain)[0]
    if trace.stands(domain, hit_map, hit_map):
        trace.set_policy(domain, hit_map, hit_map)
    held, first = hit_map.bit_count(), rng.randrange(20)
    numbers, more = any_sets(rng, trace.sets, 2), rng.randint(1, 4)
    lines = [64 * (tag * trace.sets + number) for tag in range(first, first + held + more) for number in numbers]
    for line in lines[:held * len(numbers)]:
        add_use(trace, domain, line)
    for _ in range(rng.choice([1, 1, 2])):
        lock(trace, domain)
        for _ in range(len(numbers) * rng.randint(5, 40)):
            add_work(trace, domain, lines)
