"""The struck-out run beside the whole run: what the chosen domain sees in each, taken from what the programs said."""
from __future__ import annotations

from collections.abc import Callable
from dataclasses import dataclass

from frontend import cores, maps, words
from frontend.errors import MachineFailure
from frontend.listing import Listing
from frontend.numbers import counted
from frontend.run import Run
from frontend.tracefile import LRU, POLICY, Step

_NO_LINE = "none"  # what stands for the line of a domain that has none


@dataclass(frozen=True)
class Compared:
    """What is seen in the whole run and in the struck-out run."""

    seen: tuple[str, str]

    @property
    def same(self) -> bool:
        """Tell whether both runs agree."""
        return self.seen[0] == self.seen[1]


@dataclass(frozen=True)
class Pair(Compared):
    """A step of both runs, and its place in each."""

    step: Step
    places: tuple[int, int]


@dataclass(frozen=True)
class Ending(Compared):
    """Something that stands at the end of both runs."""

    name: str


@dataclass(frozen=True)
class Comparison:
    """All that is compared: the domain's own steps, the other domains' policy changes, and the end."""

    own: list[Pair]
    others: list[Pair]
    endings: list[Ending]

    def differences(self) -> list[Compared]:
        """List what differs: steps in the order of the whole run, then what stands at the end."""
        pairs = sorted(self.own + self.others, key=lambda pair: pair.places)
        return [thing for thing in (*pairs, *self.endings) if not thing.same]


def compare(whole: Run, struck: Run, domain: int) -> Comparison:
    """Compare what a domain sees in the whole run and in its struck-out run."""
    own = _pairs(whole, struck, lambda run, place: run.domains[place] == domain, _answer)
    others = _pairs(whole, struck, lambda run, place: _is_policy(run, place) and run.domains[place] != domain, _verdict)
    return Comparison(own, others, [ending for part in _AT_THE_END for ending in part(whole, struck, domain)])


def _is_policy(run: Run, place: int) -> bool:
    """Tell whether a step is a policy change."""
    return run.trace.steps[place].kind == POLICY


def _answer(run: Run, place: int) -> str:
    """Give what is compared of the domain's own step: its answer, and how many ways its lookup visited, if it made one."""
    answer, visited = str(run.listing.answers[place]), run.visited[place]
    return f"{answer}, {counted(visited, 'way')} visited" if visited else answer


def _verdict(run: Run, place: int) -> str:
    """Give what is compared of another domain's policy change: that it is accepted, or its refusal."""
    answer = run.listing.answers[place]
    return "accepted" if answer.word == "policy" else str(answer)


def _pairs(whole: Run, struck: Run, chosen: Callable[[Run, int], bool], view: Callable[[Run, int], str]) -> list[Pair]:
    """Pair the n-th chosen step of one run with the n-th of the other."""
    places = [[i for i in range(len(run.trace.steps)) if chosen(run, i)] for run in (whole, struck)]
    steps = [[run.trace.steps[i] for i in found] for run, found in zip((whole, struck), places)]
    if steps[0] != steps[1]:
        raise MachineFailure("the struck-out run does not have the steps that are compared")
    return [Pair((view(whole, i), view(struck, j)), step, (i, j)) for step, i, j in zip(steps[0], *places)]


def _counts(whole: Run, struck: Run, domain: int) -> list[Ending]:
    """Compare the domain's line at the end of the listing, which has its counts; of a domain without a line, the counts too."""
    lines = [_domain_line(run.listing, domain) for run in (whole, struck)]
    endings = [Ending((lines[0], lines[1]), "line of the listing")]
    if _NO_LINE in lines:
        endings.append(Ending((words.counts(whole.end.counts[domain]), words.counts(struck.end.counts[domain])), "counts"))
    return endings


def _domain_line(listing: Listing, domain: int) -> str:
    """Give the domain's line at the end of a listing."""
    counts = listing.counts.get(domain)
    return _NO_LINE if counts is None else " ".join(map(str, ("domain", domain, *counts)))


def _maps(whole: Run, struck: Run, domain: int) -> list[Ending]:
    """Compare the domain's two maps."""
    pairs = (whole.end.hit, struck.end.hit, "hit map"), (whole.end.fill, struck.end.fill, "fill map")
    return [Ending((maps.both(left[domain]), maps.both(right[domain])), name) for left, right, name in pairs]


def _lines(whole: Run, struck: Run, domain: int) -> list[Ending]:
    """Compare the lines in the ways of the domain's hit map, in every set: each that differs, or how many there are."""
    ways = maps.members(whole.end.hit[domain])
    pairs = ((number, whole.rows[number], struck.rows[number]) for number in sorted(whole.rows))
    endings = [
        Ending((words.line(left, way), words.line(right, way)), f"set {number} way {way}")
        for number, left, right in pairs
        for way in ways
    ]
    different = [ending for ending in endings if not ending.same]
    valid = [f"{run.held[domain]} valid" for run in (whole, struck)]
    return different or [Ending((valid[0], valid[1]), "lines in its ways")]


def _own_data(whole: Run, struck: Run, domain: int) -> list[Ending]:
    """Compare the domain's own replacement data, set by set: each set that differs, or what they have in all."""
    left, right = (_own_parts(run, domain) for run in (whole, struck))
    endings = [Ending(seen, f"own replacement data of set {number}") for number, seen in enumerate(zip(left, right))]
    different = [ending for ending in endings if not ending.same]
    in_all = _own_in_all(whole, left)
    return different or [Ending((in_all, in_all), "own replacement data")]


def _own_parts(run: Run, domain: int) -> list[str]:
    """Write the domain's own part of each set's replacement word: bits, or the order of its fill ways."""
    if run.trace.rule != LRU:
        return [f"{part:#x}" for part in run.own]
    ways = maps.members(run.end.fill[domain])
    return [words.order(part, ways) or f"{part:#x}" for part in run.own]


def _own_in_all(run: Run, parts: list[str]) -> str:
    """Sum up the own parts of all sets: how many bits are one, or the one order that all have, or how many orders there are."""
    if run.trace.rule == LRU:
        return parts[0] if len(set(parts)) == 1 else counted(len(parts), "order")
    ones = sum(bin(part).count("1") for part in run.own)
    return f"{counted(ones, 'bit')} one"


def _records(whole: Run, struck: Run, _domain: int) -> list[Ending]:
    """Compare the core records: each that differs, or how many have a selector that is not zero."""
    left, right = whole.end.records, struck.end.records
    written = zip(map(cores.write, left), map(cores.write, right))
    endings = [Ending(seen, f"record of core {core}") for core, seen in enumerate(written)]
    different = [ending for ending in endings if not ending.same]
    in_all = f"{sum(map(any, left))} of {len(left)} not zero"
    return different or [Ending((in_all, in_all), "core records")]


# Whatever else is compared at the end is one more function here.
_AT_THE_END = (_counts, _maps, _lines, _own_data, _records)
