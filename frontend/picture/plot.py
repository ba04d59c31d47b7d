"""What there is to draw of a run, gathered in one pass over its steps: how counts move, who has which way, what was refused.

What stands after step p is drawn from p to p + 1: a value, or an owner, that is there after step p begins at place p."""
from __future__ import annotations

from collections.abc import Iterable, Iterator
from dataclasses import dataclass
from itertools import groupby
from typing import NamedTuple

from frontend.listing import Counts
from frontend.run import Moment
from frontend.stepper import Block
from frontend.tracefile import Step

COUNTS = ("hits", "misses", "evicted", "written_back")
Points = list  # of places and values: from that place on, a count has that value; the first place is 0


class Panel(NamedTuple):
    """The counts of a domain, each by its name, as they are after each step."""

    domain: int
    curves: dict[str, Points]

    @property
    def top(self) -> int:
        """Give the largest value that a count has at any time."""
        return max(value for points in self.curves.values() for _, value in points)

    def final(self, count: str) -> int:
        """Give a count at the end."""
        return self.curves[count][-1][1]


class Holder(NamedTuple):
    """A domain whose hit map holds a way; the way is locked where its fill map does not."""

    domain: int
    locked: bool


class Stretch(NamedTuple):
    """A way in the hands of the same domains, or of none, after all steps from `start` to before `end`.

    Where several short ones were pooled, `pooled` says how many, and the holders are all that had it at some time."""

    way: int
    start: int
    end: int
    holders: tuple[Holder, ...]
    pooled: int = 1


class Change(NamedTuple):
    """An accepted policy change: its place, the domain that it is for, and the step."""

    place: int
    domain: int | None
    step: Step


class Refusal(NamedTuple):
    """A refused step: its place and the number of the refusal."""

    place: int
    number: int


@dataclass(frozen=True)
class Series:
    """All that is drawn. The stretches of a way follow each other from 0 to the number of steps, lowest way first."""

    steps: int
    ways: int
    panels: tuple[Panel, ...]
    stretches: tuple[Stretch, ...]
    changes: tuple[Change, ...]
    refusals: tuple[Refusal, ...]


def gather(ways: int, moments: Iterable[Moment]) -> Series:
    """Gather what there is to draw of a run's steps."""
    counted, owned = _Counted(), _Owned(ways)
    changes, refusals, steps = [], [], 0
    for place, step, answer, before, after, _ in moments:
        counted.take(place, before, after)
        owned.take(place, after)
        if answer.word == "policy":
            changes.append(Change(place, after.domain, step))
        elif answer.word == "refused":
            refusals.append(Refusal(place, *answer.fields))
        steps = place + 1
    panels = tuple(Panel(domain, counted.curves(domain)) for domain in sorted(counted.moved | owned.owners))
    return Series(steps, ways, panels, tuple(owned.stretches(steps)), tuple(changes), tuple(refusals))


class _Counted:
    """The counts of all domains as they come, noted where they change."""

    def __init__(self) -> None:
        self.moved: set[int] = set()  # the domains whose counts are not always what they were before the first step
        self._noted: list[list[tuple[int, Counts]]] = []

    def take(self, place: int, before: Block, after: Block) -> None:
        """Take the counts after a step."""
        if not self._noted:
            self._noted = [[(place, counts)] for counts in after.counts]
        elif after.counts == before.counts:
            return
        for domain, (old, new) in enumerate(zip(before.counts, after.counts)):
            if old != new:
                self.moved.add(domain)
                self._noted[domain].append((place, new))

    def curves(self, domain: int) -> dict[str, Points]:
        """Give the counts of a domain that are drawn, each with the places where it changes."""
        return {name: list(_turns((place, getattr(counts, name)) for place, counts in self._noted[domain])) for name in COUNTS}


class _Owned:
    """The holders of all ways as they come, noted where they change."""

    def __init__(self, ways: int) -> None:
        self.owners: set[int] = set()  # the domains that have ways at some time
        self._noted: list[list[tuple[int, tuple[Holder, ...]]]] = [[] for _ in range(ways)]
        self._maps: tuple | None = None

    def take(self, place: int, after: Block) -> None:
        """Take the maps after a step."""
        if (after.hit, after.fill) == self._maps:
            return
        self._maps = after.hit, after.fill
        owners = [(domain, hit, fill) for domain, (hit, fill) in enumerate(zip(*self._maps)) if hit or fill]
        self.owners.update(domain for domain, _, _ in owners)
        for way, noted in enumerate(self._noted):
            holders = tuple(Holder(domain, not fill >> way & 1) for domain, hit, fill in owners if hit >> way & 1)
            if not noted or noted[-1][1] != holders:
                noted.append((place, holders))

    def stretches(self, steps: int) -> Iterator[Stretch]:
        """Give the stretches of each way, up to the number of steps."""
        for way, noted in enumerate(self._noted):
            ends = [place for place, _ in noted[1:]] + [steps]
            for (start, holders), end in zip(noted, ends):
                yield Stretch(way, start, end, holders)


def _turns(values: Iterable[tuple[int, int]]) -> Iterator[tuple[int, int]]:
    """Give those of some places and values at which the value is another than before."""
    last = None
    for place, value in values:
        if value != last:
            yield place, value
        last = value


def thinned(points: Points, span: float, rise: float) -> Points:
    """Leave points out that nobody would see.

    Within a span of places the lowest, the highest and the last stay, and of these, those that are by a rise above or below
    the one before; the very last always."""
    kept = []
    for _, some in groupby(points, key=lambda point: point[0] // span):
        near = list(some)
        values = [value for _, value in near]
        for number in sorted({values.index(min(values)), values.index(max(values)), len(near) - 1}):
            if not kept or abs(values[number] - kept[-1][1]) >= rise:
                kept.append(near[number])
    return kept if not points or kept[-1] == points[-1] else [*kept, points[-1]]


def pooled(stretches: Iterable[Stretch], span: float) -> list[Stretch]:
    """Put stretches of a way that follow each other, each shorter than a span of places, into one."""
    kept: list[Stretch] = []
    for stretch in stretches:
        last = kept[-1] if kept else None
        if last and last.way == stretch.way and _short(last, span) and _short(stretch, span):
            holders = tuple(sorted({*last.holders, *stretch.holders}))
            kept[-1] = Stretch(last.way, last.start, stretch.end, holders, last.pooled + 1)
        else:
            kept.append(stretch)
    return kept


def _short(stretch: Stretch, span: float) -> bool:
    """Tell whether a stretch may be pooled, or is of short ones already."""
    return stretch.pooled > 1 or stretch.end - stretch.start < span
