"""What is to blame for the refusal of a step: the domain and the way, the node, the count, the part of the argument.

The number is the cache's answer, and so are the maps, the counts and the free nodes that are looked at here. Where nothing is
found that would explain the number, what holds of it in general is said."""
from __future__ import annotations

from collections.abc import Callable
from typing import NamedTuple

from frontend import cores, maps
from frontend.numbers import hexadecimal
from frontend.refusals import LARGEST_COUNT, LAST_CORE, LAST_DOMAIN, REFUSALS, REMOVE, Refusal, of_number
from frontend.stepper import Block
from frontend.tracefile import KINDS, POLICY, SELECT, Step

_HALF = 2 * maps.WAYS  # bits of an argument that hold the two maps


class Scene(NamedTuple):
    """A step, the domain that it was taken for, the number of ways, what stood before it, and the nodes free for a fill map."""

    step: Step
    domain: int | None
    ways: int
    before: Block
    free: Callable[[int], int]

    def others(self) -> list[int]:
        """List the domains other than the step's own."""
        return [domain for domain in range(len(self.before.hit)) if domain != self.domain]


def of_step(number: int, scene: Scene) -> str:
    """Say why a step is refused, what is to blame, and the fix."""
    from_input = _FROM_INPUT.get(number)
    found = from_input(scene.step, scene.ways) if from_input else None
    from_state = _FROM_STATE.get(number)
    if found is None and from_state and scene.domain is not None:
        found = from_state(scene)
    return of_number(number) if found is None else str(found)


def from_input(step: Step, ways: int) -> tuple[int, Refusal] | None:
    """Give the number and the reason by which a step is refused whatever came before it; None if that depends, or it is not.

    `ways` is to be within the limits."""
    found = ((number, refusal(step, ways)) for number, refusal in _FROM_INPUT.items())
    return next((pair for pair in found if pair[1] is not None), None)


def _not_listed(step: Step, _ways: int) -> Refusal | None:
    """Blame a core that has no record."""
    if not step.by_core or step.named <= LAST_CORE:
        return None
    return Refusal(
        f"Core {step.named} is not in the list: the lister lends records for cores 0 to {LAST_CORE}.",
        f"Name a core from 0 to {LAST_CORE}.",
    )


def _no_domain(step: Step, _ways: int) -> Refusal | None:
    """Blame a domain, or selectors that are to be written, of 16 or more."""
    if step.kind == SELECT:
        return _no_domains(step)
    if step.by_core or step.named <= LAST_DOMAIN:
        return None
    return Refusal(f"Domain {step.named} is named, and domains go from 0 to {LAST_DOMAIN}.", REFUSALS[3].fix)


def _no_domains(step: Step) -> Refusal | None:
    """Blame selectors of 16 or more that are to be written."""
    named = zip(cores.SELECTORS, cores.lowest(step.argument))
    high = [f"{name} would be {selector}" for name, selector in named if selector > LAST_DOMAIN]
    if not high:
        return None
    return Refusal(
        f"{' and '.join(high)}, and a selector names a domain, 0 to {LAST_DOMAIN}.",
        f"Name a domain from 0 to {LAST_DOMAIN} by each of the three.",
    )


def _unknown_kind(step: Step, _ways: int) -> Refusal | None:
    """Blame a kind."""
    known = step.by_core or step.kind in KINDS
    return None if known else Refusal(f"Kind {step.kind} is unknown.", REFUSALS[4].fix)


def _bad_argument(step: Step, ways: int) -> Refusal | None:
    """Blame what is wrong with the argument of a policy change or of a write of selectors."""
    if step.kind == SELECT:
        return None if cores.split(step.argument) is not None else Refusal(
            "A byte of the argument other than the three selectors is not zero.",
            "Give CS, DS and ES in the three low bytes, CS in the lowest, and leave the other five zero.",
        )
    if step.kind != POLICY:
        return None
    wrong = list(_wrong_maps(step.argument, ways))
    return Refusal(" ".join(why for why, _ in wrong), " ".join(fix for _, fix in wrong)) if wrong else None


def _wrong_maps(argument: int, ways: int) -> list[tuple[str, str]]:
    """List which of refusal 5's three reasons hold of a policy's argument, each with its fix."""
    hit, fill, rest = argument & maps.LARGEST, argument >> maps.WAYS & maps.LARGEST, argument >> _HALF << _HALF
    high, outside = (hit | fill) >> ways << ways, fill & ~hit
    named = ((f"the {name} map", word >> ways << ways) for name, word in (("hit", hit), ("fill", fill)))
    which = " and ".join(f"{name} has {_ways(word)}" for name, word in named if word)
    reasons = (
        (high, f"{which[:1].upper()}{which[1:]}, and the cache has ways 0 to {ways - 1}.", f"Name only ways below {ways}."),
        (
            outside,
            f"The fill map has {_ways(outside)}, which the hit map has not.",
            "Put every way of the fill map into the hit map too.",
        ),
        (rest, f"Bits above the two maps are set, {hexadecimal(rest)}.", "Leave the upper 32 bits zero."),
    )
    return [(why, fix) for found, why, fix in reasons if found]


def _strange_selector(scene: Scene) -> Refusal | None:
    """Blame a stored selector of 16 or more."""
    if cores.place(scene.step) is None:
        return None
    core = scene.step.named
    return Refusal(
        f"{_selector(scene.step)} is {scene.domain}, and a selector names a domain, 0 to {LAST_DOMAIN}.",
        f"Write the selectors of core {core} anew, each from 0 to {LAST_DOMAIN}.",
    )


def _no_ways(scene: Scene) -> Refusal:
    """Blame the domain whose hit map is empty."""
    why = f"The hit map of domain {scene.domain} is empty: it has no ways."
    if cores.place(scene.step) is None:
        return Refusal(why, REFUSALS[6].fix)
    return Refusal(why, f"Give it ways by a policy step first, or let {_selector(scene.step)} name a domain that has ways.")


def _full_count(scene: Scene) -> Refusal | None:
    """Blame the counts that cannot rise; for a policy change, that of dropped lines."""
    if scene.domain > LAST_DOMAIN:
        return None
    counts = scene.before.counts[scene.domain]
    if scene.step.kind == POLICY:
        past = f"and the lines that the change would drop would carry it past {LARGEST_COUNT:,}"
        return Refusal(f"The count of dropped lines of domain {scene.domain} is {counts.dropped:,}, {past}.", REMOVE)
    full = [name.replace("_", " ") for name, value in zip(counts._fields, counts) if value == LARGEST_COUNT]
    if not full:
        return None
    which = f"count of {full[0]}" if len(full) == 1 else f"counts of {', '.join(full[:-1])} and {full[-1]}"
    verb = "is" if len(full) == 1 else "are"
    return Refusal(f"The {which} of domain {scene.domain} {verb} {LARGEST_COUNT:,} and cannot rise.", REMOVE)


def _shared_ways(scene: Scene) -> Refusal | None:
    """Blame the ways that other domains' hit maps have."""
    asked = scene.step.argument & maps.LARGEST
    shared = {other: scene.before.hit[other] & asked for other in scene.others()}
    said = [f"domain {other} has {_ways(word)} in its hit map" for other, word in shared.items() if word]
    if scene.step.kind != POLICY or not said:
        return None
    return Refusal(f"The hit map shares ways: {' and '.join(said)}.", REFUSALS[8].fix)


def _shared_nodes(scene: Scene) -> Refusal | None:
    """Blame the nodes that are free for other domains."""
    if scene.step.kind != POLICY:
        return None
    asked = scene.free(scene.step.argument >> maps.WAYS & maps.LARGEST)
    shared = {other: scene.free(scene.before.fill[other]) & asked for other in scene.others()}
    said = [f"{_nodes(word)} would be free for domain {scene.domain} and for domain {other}" for other, word in shared.items() if word]
    if not said:
        return None
    listed = "; ".join(said)
    why = f"{listed[:1].upper()}{listed[1:]}: each could turn a bit that the other's victim depends on."
    return Refusal(why, REFUSALS[9].fix)


def _selector(step: Step) -> str:
    """Name the selector that a core's access or flush goes through."""
    return f"{cores.SELECTORS[cores.place(step)]} of core {step.named}"


def _ways(word: int) -> str:
    """Name the ways of a map, and give the map beside them."""
    return f"{'way' if len(maps.members(word)) == 1 else 'ways'} {maps.places(word)} ({word:#x})"


def _nodes(word: int) -> str:
    """Name nodes of the tree by their numbers."""
    return f"{'node' if len(maps.members(word)) == 1 else 'nodes'} {maps.places(word)}"


# The numbers that a step alone can bring about, in the order in which they are checked, and those that the state can.
_FROM_INPUT = {11: _not_listed, 3: _no_domain, 4: _unknown_kind, 5: _bad_argument}
_FROM_STATE = {3: _strange_selector, 6: _no_ways, 7: _full_count, 8: _shared_ways, 9: _shared_nodes}
