"""A run told step by step: the rows before and after as the stepper gives them, and the lister's answers in words."""
from __future__ import annotations

import functools
import textwrap
from collections.abc import Iterable, Iterator
from typing import NamedTuple

from frontend import maps, records, words
from frontend.listing import Answer
from frontend.numbers import counted
from frontend.paint import Paint
from frontend.records import Record
from frontend.run import Run
from frontend.stepper import Block, Row
from frontend.table import columns
from frontend.telling import Told

MOST_ROWS = 4
_WIDTH = 100
_COLOURS = {"refused": "red", "hit": "green"}
_BY_STATE = (6, 7, 8, 9)  # the refusals that depend on what the domains have


class _Change(NamedTuple):
    """A row before and after a step, and the maps before and after it."""

    number: int
    rows: tuple[Row, Row]
    blocks: tuple[Block, Block]


class Explainer:
    """Tells a trace step by step, as text. `name` is that of the text whose lines are shown."""

    def __init__(self, run: Run, name: str, paint: Paint, show_all: bool) -> None:
        self._run, self._trace, self._name, self._paint = run, run.trace, name, paint
        self._most = run.trace.sets if show_all else MOST_ROWS

    def lines(self, steps: Iterable[Told], whole: bool = True) -> Iterator[str]:
        """Give the story of some steps, line by line; the end too, if they are all the steps."""
        yield f"{words.geometry(self._trace)}, {counted(len(self._trace.steps), 'step')}"
        shown = 0
        for shown, told in enumerate(steps, 1):
            yield ""
            yield from self._step(told)
        yield ""
        if whole:
            yield from self._end()
        else:
            yield f"{counted(shown, 'step')} of {len(self._trace.steps):,} shown"

    def _step(self, told: Told) -> Iterator[str]:
        """Tell one step."""
        place, step, answer, before, after, _ = told.moment
        located = f" ({words.located(*told.address)})" if told.address is not None else ""
        yield self._paint("bold", f"step {place}  {words.step(step)}{located}")
        if told.source is not None:
            yield "  " + self._paint("dim", f"{self._name}:{told.source[0]}: {told.source[1]}")
        if told.route is not None:
            yield f"  {told.route}"
        yield from self._answer(answer, told.said)
        if after.visited:
            yield f"  The lookup visited {counted(after.visited, 'way')}."
        if answer.word == "policy" or answer.word == "refused" and answer.fields[0] in _BY_STATE:
            yield from told_maps(before, after)
        yield from self._changes(told)

    def _end(self) -> Iterator[str]:
        """Tell the counts of each domain that has ways, and where the lines went that it filled."""
        counts = self._run.listing.counts
        yield "At the end"
        if not counts:
            yield "  no domain has ways"
            return
        for domain in counts:
            yield f"  domain {domain}: {words.counts(counts[domain])}"
        yield ""
        yield "Lines in and lines out"
        for domain in counts:
            yield f"  domain {domain}: {words.balance(counts[domain], self._run.held[domain])}"

    def _answer(self, answer: Answer, said: str) -> Iterator[str]:
        """Tell the answer, as listed and in words."""
        yield "  " + self._paint(_COLOURS.get(answer.word, "yellow"), str(answer))
        if len(said) + 2 <= _WIDTH:
            yield f"  {said}"
        else:
            yield from textwrap.wrap(said, _WIDTH, initial_indent="  ", subsequent_indent="  ")

    def _changes(self, told: Told) -> Iterator[str]:
        """Tell the rows of a step's sets before and after it, but no more than are wanted."""
        _, _, answer, before, after, rows = told.moment
        if not told.sets and answer.word == "policy":
            yield "  no row changed"
        for number in told.sets[: self._most]:
            row = rows[number]
            yield from self._row(_Change(number, (row, after.rows.get(number, row)), (before, after)))
        hidden = len(told.sets) - self._most
        if hidden > 0:
            yield f"  {counted(hidden, 'more set')} changed; --all shows them"

    def _row(self, change: _Change) -> Iterator[str]:
        """Tell one row before and after a step, way by way."""
        ways = range(self._trace.ways)
        lines = map(words.lines, change.rows)
        owners = (_owners(*(getattr(block, kind) for block in change.blocks), len(ways)) for kind in ("hit", "fill"))
        table = [(" ", f"set {change.number}", "before", "after", "hit map", "fill map")]
        table += [(_mark(*pair[1:3]), *pair) for pair in zip(map("way {}".format, ways), *lines, *owners)]
        texts = [words.replacement_word(self._trace, row.word) for row in change.rows]
        table.append((_mark(*texts), "word", *texts, "", ""))
        head, *body = columns(table)
        yield "  " + self._paint("dim", head)
        for line in body:
            yield "  " + (self._paint("yellow", line) if line.startswith("*") else line)


def tell_records(run: Run, name: str, steps: Iterable[Told], whole: bool) -> Iterator[Record]:
    """Give the same as objects: the trace, a step each, and the end, if they are all the steps."""
    yield records.head(name, run.trace)
    yield from map(_record, steps)
    if whole:
        yield from (records.domain(number, run.end, run.held) for number in run.listing.counts)


def _record(told: Told) -> Record:
    """Give what is told of a step as an object."""
    place, step, answer, before, after, rows = told.moment
    source, address = told.source, told.address
    return {
        "type": "step",
        "place": place,
        "source": source and {"line": source[0], "text": source[1]},
        "step": records.step(step),
        "domain": after.domain,
        "address": address and {"line": hex(address.line), "set": address.set, "tag": hex(address.tag)},
        "answer": records.answer(answer),
        "said": told.said,
        "visited": after.visited,
        "policies": _policies(before, after),
        "sets": [
            {"set": number, "before": records.row(rows[number]), "after": records.row(after.rows.get(number, rows[number]))}
            for number in told.sets
        ],
    }


def _policies(before: Block, after: Block) -> list[Record]:
    """Give the policies that a step changed."""
    pairs = zip(zip(before.hit, before.fill), zip(after.hit, after.fill))
    return [
        {"domain": domain, "before": records.policy(*then), "after": records.policy(*now)}
        for domain, (then, now) in enumerate(pairs)
        if then != now
    ]


def told_maps(before: Block, after: Block) -> Iterator[str]:
    """Tell the maps of each domain that has any, before and after a step."""
    told = False
    for domain, then, now in zip(range(len(after.hit)), zip(before.hit, before.fill), zip(after.hit, after.fill)):
        if any(then) or any(now):
            hit = _turned(maps.both(then[0]), maps.both(now[0]))
            fill = _turned(maps.both(then[1]), maps.both(now[1]))
            told = True
            yield f"  domain {domain} has hit map {hit} and fill map {fill}"
    if not told:
        yield "  no domain has ways"


@functools.lru_cache(maxsize=8)
def _owners(before: tuple[int, ...], after: tuple[int, ...], ways: int) -> list[str]:
    """Name, for each way, the domains whose map holds it, before and after a step."""
    return [_turned(owners_of(before, way), owners_of(after, way)) for way in range(ways)]


def owners_of(domain_maps: tuple[int, ...], way: int) -> str:
    """Name the domains whose map holds a way."""
    holders = [str(domain) for domain, word in enumerate(domain_maps) if word >> way & 1]
    return "domain " + ",".join(holders) if holders else "-"


def _turned(before: str, after: str) -> str:
    """Write what something was and is, or once if it stayed."""
    return after if before == after else f"{before} -> {after}"


def _mark(before: str, after: str) -> str:
    """Mark what changed."""
    return "" if before == after else "*"
