"""What there is to tell of a step: its source line, where its address lies, by which selector it goes, and its answer in words."""
from __future__ import annotations

from collections.abc import Iterable, Iterator
from dataclasses import dataclass
from typing import NamedTuple

from frontend import cores, culprits, maps, parts, words
from frontend.culprits import Scene
from frontend.files import Given
from frontend.listing import Answer
from frontend.run import Moment
from frontend.stepper import Block
from frontend.tracefile import ACCESSES, LINE_BYTES, NRU, POLICY, Step, Trace

_SHARED_NODE = Answer("refused", (9,))
_NO_ROWS = ("refused", "select")  # the answers of steps that change no row


class Address(NamedTuple):
    """Where an address lies: its line, and the set and the tag that the line has."""

    line: int
    set: int
    tag: int


class Told(NamedTuple):
    """All that is told of a step. `sets` are those whose rows are shown, and `source` is the line of the text and its number."""

    moment: Moment
    source: tuple[int, str] | None
    address: Address | None
    route: str | None
    said: str
    sets: list[int]


@dataclass(frozen=True)
class Wanted:
    """Which steps are wanted: by place, domain, set and word of the answer; None where any will do."""

    places: tuple[range, ...] | None = None
    domains: frozenset[int] | None = None
    sets: frozenset[int] | None = None
    words: frozenset[str] | None = None

    @property
    def all(self) -> bool:
        """Tell whether every step is wanted."""
        return self == Wanted()

    def wants(self, moment: Moment) -> bool:
        """Tell whether a step is wanted. To a set belong the accesses and flushes there, and the policy changes that changed it."""
        return (
            (self.places is None or any(moment.place in some for some in self.places))
            and (self.domains is None or moment.after.domain in self.domains)
            and (self.words is None or moment.answer.word in self.words)
            and (self.sets is None or not self.sets.isdisjoint(concerned(moment)))
        )


def concerned(moment: Moment) -> list[int]:
    """List the sets that a step is about: those that it changed, and that of the address of an access or a flush."""
    changed = sorted(moment.after.rows)
    return sorted({moment.after.set, *changed}) if moment.step.kind in ACCESSES else changed


def programs_for(answers: Iterable[Answer]) -> list[str]:
    """List the programs that are needed to say what some answers mean: which nodes are shared, `parts` knows."""
    return ["parts"] if _SHARED_NODE in answers else []


class Teller:
    """Puts together what is told of the steps of a trace."""

    def __init__(self, given: Given, trace: Trace, wanted: Wanted) -> None:
        self._given, self._trace, self._wanted = given, trace, wanted
        self._free: dict[int, int] = {}

    def tell(self, moments: Iterator[Moment]) -> Iterator[Told]:
        """Tell the steps that are wanted."""
        return (self._told(moment) for moment in moments if self._wanted.wants(moment))

    def _told(self, moment: Moment) -> Told:
        """Tell one step."""
        step, after = moment.step, moment.after
        routed = cores.place(step) is not None and after.domain is not None
        return Told(
            moment,
            self._given.source(moment.place),
            address_of(step, self._trace.sets),
            words.route(step, after.domain) if routed else None,
            self._said(moment),
            self._sets(moment),
        )

    def _sets(self, moment: Moment) -> list[int]:
        """List the sets whose rows are shown: none for a step that changes none."""
        if moment.answer.word in _NO_ROWS and not moment.after.rows:
            return []
        shown = concerned(moment)
        return shown if self._wanted.sets is None else [number for number in shown if number in self._wanted.sets]

    def _said(self, moment: Moment) -> str:
        """Say what an answer means, by what stood before and after its step."""
        _, step, answer, before, after, _ = moment
        if answer.word == "refused":
            return culprits.of_step(answer.fields[0], Scene(step, after.domain, self._trace.ways, before, self._free_nodes))
        if answer.word == "select":
            return words.selected(_record(before, step.named), _record(after, step.named))
        if answer.word == "policy":
            return words.changed(answer, step)
        return words.answer(answer, _locked(before, after.domain)) + self._choice(moment)

    def _choice(self, moment: Moment) -> str:
        """Say how a victim was found, in a sentence to follow that of the answer; nothing but under NRU."""
        if moment.answer.word != "evict" or self._trace.rule != NRU:
            return ""
        fill = _of_domain(moment.before.fill, moment.after.domain)
        return " " + words.nru_victim(moment.rows[moment.after.set].word, fill)

    def _free_nodes(self, fill: int) -> int:
        """Give the nodes that are free for a fill map. A program says it, once for all maps that the trace's policy changes ask for."""
        if fill not in self._free:
            asked = (step.argument >> maps.WAYS & maps.LARGEST for step in self._trace.steps if step.kind == POLICY)
            known = sorted({some for some in (0, fill, *asked) if not some >> self._trace.ways})
            self._free.update(zip(known, parts.free_nodes(self._trace, known)))
        return self._free[fill]


def address_of(step: Step, sets: int) -> Address | None:
    """Say where the address of an access or a flush lies; None for another step."""
    if step.kind not in ACCESSES:
        return None
    line = step.argument // LINE_BYTES
    return Address(line, line % sets, line // sets)


def _record(block: Block, core: int) -> tuple[int, ...]:
    """Give the selectors of a core; none for a core that has no record."""
    return block.records[core] if core < len(block.records) else ()


def _of_domain(domain_maps: tuple[int, ...], domain: int | None) -> int:
    """Give the map of a domain; empty for what is no domain."""
    return domain_maps[domain] if domain is not None and domain < len(domain_maps) else 0


def _locked(block: Block, domain: int | None) -> int:
    """Give the map of the ways that are in a domain's hit map and not in its fill map."""
    return _of_domain(block.hit, domain) & ~_of_domain(block.fill, domain)
