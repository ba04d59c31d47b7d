"""Traces that drop lines, for tools/compare: domains fill their ways, flush some of the lines, and then ways change
hands, one policy change after another.

By document 02 each domain counts its fills, and the lines that its own policy changes dropped; a removal zeroes both.
Changes that 8 or 9 turns down drop nothing, though a neighbour may hold lines in the ways that they want.
"""

from traces import (FLUSH, LOAD, STORE, any_sets, change_again, change_grab, change_grant, change_grow, change_move,
                    change_overlap, change_relock, change_remove, change_replace, change_share, change_shrink)

CHANGES = {change_move: 8, change_shrink: 6, change_grow: 6, change_replace: 6, change_grab: 6, change_remove: 3,
           change_share: 4, change_grant: 3, change_overlap: 3, change_relock: 2, change_again: 1}  # and weights


def add_change(trace):
    trace.rng.choices(list(CHANGES), CHANGES.values())[0](trace)


def add_use(trace, domain, kind, numbers):
    """A load, store or flush in one of these sets, of one of a few lines more than the domain has ways."""
    rng = trace.rng
    tag = rng.randrange(trace.maps(domain)[0].bit_count() + 2)
    trace.add(domain, kind, 64 * (tag * trace.sets + rng.choice(numbers)) + rng.randrange(64))


def fill_up(trace, numbers):
    """Domains load and store lines in these sets, about as many as they have ways there."""
    rng = trace.rng
    stores = rng.choice([0, 0.3, 0.5, 0.8, 1])
    for domain, (hit_map, _) in trace.policies.items():
        for _ in range(round(len(numbers) * hit_map.bit_count() * rng.uniform(0.2, 1.5))):
            add_use(trace, domain, STORE if rng.random() < stores else LOAD, numbers)


def flush_some(trace, numbers):
    for _ in range(trace.rng.randint(0, 2 * len(numbers))):
        add_use(trace, trace.member(), FLUSH, numbers)


def add_round(trace):
    """Domains get ways, if few have some, fill them in a few sets and flush some lines; then ways change hands."""
    rng = trace.rng
    numbers = any_sets(rng, trace.sets, 6)
    for _ in range(rng.randint(2, 5) if len(trace.policies) < 2 else 0):
        change_grant(trace)
    fill_up(trace, numbers)
    flush_some(trace, numbers)
    for _ in range(rng.randint(1, 5)):
        add_change(trace)


def add_end(trace):
    """Many policy changes, and some accesses between them, so that there are lines to drop."""
    rng = trace.rng
    numbers = any_sets(rng, trace.sets, 3)
    for _ in range(rng.randint(10, 60)):
        add_change(trace)
        for _ in range(rng.choice([0, 0, 2, 5, 10])):
            add_use(trace, trace.member(), rng.choices([LOAD, STORE, FLUSH], [5, 5, 1])[0], numbers)
