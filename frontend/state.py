"""All tables, policies and counts as they are at some moment of a run: after a step, before one, or at the end.

The programs are run on the steps up to that moment. What they say at the end of such a run is what stands there in the whole one."""
from __future__ import annotations

import argparse
from collections.abc import Iterator
from dataclasses import replace

from frontend import cores, maps, records, run, tracefile, words
from frontend.errors import BadInput
from frontend.files import Given
from frontend.listing import Counts
from frontend.numbers import counted
from frontend.records import Record
from frontend.run import Run
from frontend.stepper import Row
from frontend.table import columns
from frontend.tracefile import Trace


def render(given: Given, args: argparse.Namespace) -> Iterator[str]:
    """Lay the state out for a reader."""
    whole, taken = _take(given, args)
    yield f"{given.title}: {words.geometry(whole)}, {counted(len(whole.steps), 'step')}"
    yield _moment(whole, taken)
    yield ""
    yield "Policies and counts"
    yield from _indented(_domains(taken))
    yield ""
    yield "Core records"
    yield from _indented(_cores(taken))
    yield ""
    yield "Tables"
    yield from _indented(_sets(taken))


def tell(given: Given, args: argparse.Namespace) -> Iterator[Record]:
    """Give the state as objects: the trace, the moment, and every domain, core and set."""
    whole, taken = _take(given, args)
    yield records.head(given.title, whole)
    last = len(taken.trace.steps) - 1
    answer = records.answer(taken.listing.answers[-1]) if last >= 0 else None
    yield {"type": "state", "after": last if last >= 0 else None, "answer": answer}
    yield from (records.domain(number, taken.end, taken.held) for number in range(len(taken.held)))
    for core, record in enumerate(taken.end.records):
        yield {"type": "core", "core": core, **records.selectors(record)}
    for number in sorted(taken.rows):
        yield {"type": "set", "set": number, **records.row(taken.rows[number])}


def _take(given: Given, args: argparse.Namespace) -> tuple[Trace, Run]:
    """Give the whole trace, and the run of its steps up to the moment that is asked for."""
    whole = run.decode(given.name, given.data)
    count = len(whole.steps)
    asked, many = (args.before, args.before) if args.before is not None else (args.after, (args.after or 0) + 1)
    if asked is not None and asked >= count:
        has = f"it has {counted(count, 'step')}, 0 to {count - 1}" if count else "it has none"
        raise BadInput(f"{given.title} has no step {asked:,}; {has}")
    steps = whole.steps if asked is None else whole.steps[:many]
    return whole, run.take(given.name, tracefile.encode(replace(whole, steps=steps)))


def _moment(whole: Trace, taken: Run) -> str:
    """Say which moment it is."""
    last = len(taken.trace.steps) - 1
    if last < 0:
        return "Before the first step: a fresh cache"
    ending = ", the last" if last + 1 == len(whole.steps) else ""
    return f"After step {last}{ending}: {words.step(taken.trace.steps[last])}: {taken.listing.answers[last]}"


def _domains(taken: Run) -> list[str]:
    """Lay out the policies and counts of the domains that have any, and say how many have none."""
    end = taken.end
    rows = [("domain", "hit map", "fill map", *(name.replace("_", " ") for name in Counts._fields), "held")]
    for number, (hit, fill, counts, held) in enumerate(zip(end.hit, end.fill, end.counts, taken.held)):
        if hit or fill or any(counts) or held:
            rows.append((str(number), maps.both(hit), maps.both(fill), *(f"{value:,}" for value in (*counts, held))))
    others = len(taken.held) - len(rows) + 1
    table = columns(rows, right=tuple(range(3, len(rows[0])))) if len(rows) > 1 else []
    said = f"{'the other ' if table else ''}{counted(others, 'domain')}: no ways, and all counts zero"
    return [*table, said] if others else table


def _cores(taken: Run) -> list[str]:
    """Write the selectors of each core that has one that is not zero, and say how many have none."""
    written = [f"core {core}: {cores.write(record)}" for core, record in enumerate(taken.end.records) if any(record)]
    others = len(taken.end.records) - len(written)
    said = f"{'the other ' if written else ''}{counted(others, 'core')}: all selectors zero"
    return [*written, said] if others else written


def _sets(taken: Run) -> list[str]:
    """Lay out the rows of all sets, those side by side that are alike in one line."""
    runs: list[tuple[int, int, Row]] = []
    for number in sorted(taken.rows):
        row = taken.rows[number]
        if runs and runs[-1][2] == row:
            runs[-1] = (runs[-1][0], number, row)
        else:
            runs.append((number, number, row))
    trace = taken.trace
    head = ("set", "valid", "dirty", "word", *(f"tag {way}" for way in range(trace.ways)))
    rows = [_set(first, last, row, trace) for first, last, row in runs]
    return columns([head, *rows], right=tuple(range(4, 4 + trace.ways)))


def _set(first: int, last: int, row: Row, trace: Trace) -> tuple[str, ...]:
    """Lay out the row that some sets side by side have."""
    number = str(first) if first == last else f"{first}-{last}"
    word = words.replacement_word(trace, row.word)
    return (number, maps.both(row.valid), maps.both(row.dirty), word, *map(str, row.tags))


def _indented(lines: list[str]) -> Iterator[str]:
    """Set lines in a little."""
    return (f"  {line}" for line in lines)
