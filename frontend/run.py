"""A trace run: what the file says, and what the lister and the stepper say of it."""
from __future__ import annotations

from collections.abc import Iterator
from dataclasses import dataclass, replace
from typing import BinaryIO, NamedTuple

from frontend import files, listing, parts, programs, refusals, source, stepper, tracefile, words
from frontend.errors import BadInput, MachineFailure
from frontend.listing import Answer, Listing
from frontend.stepper import Block, Rows
from frontend.tracefile import Step, Trace

_GEOMETRY, _FILE = 1, 10  # the numbers by which a whole file is refused
MOST_KEPT = 20_000  # rows, up to which the blocks of a stream are kept; a row has up to 142 bytes
_UTF_16 = (b"\xff\xfe", b"\xfe\xff")  # how a text begins that two bytes write a character of


@dataclass(frozen=True)
class Run:
    """A trace, its listing, and what the stepper says: whom each step was taken for, how many ways its lookup visited, and the end.

    The end is the last block, every row, and the lines that each domain holds. `blocks` are all of the stream, if the
    rows that changed are not too many to be kept. `own` is a domain's own part of each set's word, where that was
    asked for."""

    trace: Trace
    listing: Listing
    domains: tuple[int | None, ...]
    visited: tuple[int, ...]
    end: Block
    rows: Rows
    held: tuple[int, ...]
    blocks: tuple[Block, ...] | None
    own: tuple[int, ...] = ()


class Moment(NamedTuple):
    """A step of a run: its place, its answer, what stood before it and after it, and all rows before it, until the next step."""

    place: int
    step: Step
    answer: Answer
    before: Block
    after: Block
    rows: Rows


def take(name: str, data: bytes) -> Run:
    """Run the programs on a trace file; raise BadInput if the file is refused."""
    trace = decode(name, data)
    _, listed = listing_of(data)
    if listed.refused is not None:
        raise BadInput(why_refused(name, data, listed.refused))
    with programs.stepper(data) as stream:
        taken = fold(trace, listed, stream)
    _check_counts(taken)
    return taken


def fold(trace: Trace, listed: Listing, stream: BinaryIO) -> Run:
    """Read a whole stream, and keep of it what is not too much: not every row that a step changed, if these are many."""
    reader = stepper.Reader(stream, trace)
    blocks = reader.blocks()
    end = next(blocks)
    rows, kept, many, domains, visited = end.rows.copy(), [end], len(end.rows), [], []
    for end in blocks:
        rows.take(end.rows)
        domains.append(end.domain)
        visited.append(end.visited)
        many += len(end.rows)
        if many <= MOST_KEPT:
            kept.append(end)
    all_kept = tuple(kept) if many <= MOST_KEPT else None
    return Run(trace, listed, tuple(domains), tuple(visited), end, rows, reader.held, all_kept)


def moments(taken: Run) -> Iterator[Moment]:
    """Give every step of a run as it comes. Where its blocks were not kept, the stepper, whose stream was found whole, is run again."""
    if taken.blocks is not None:
        yield from walk(taken.trace, taken.listing, iter(taken.blocks))
        return
    with programs.stepper(tracefile.encode(taken.trace)) as stream:
        yield from walk(taken.trace, taken.listing, stepper.Reader(stream, taken.trace).blocks())


def walk(trace: Trace, listed: Listing, blocks: Iterator[Block]) -> Iterator[Moment]:
    """Give the steps of a stream one by one. All rows are kept once, as they stand before the step."""
    before = next(blocks)
    rows = before.rows.copy()
    for place, after in enumerate(blocks):
        yield Moment(place, trace.steps[place], listed.answers[place], before, after, rows)
        rows.take(after.rows)
        before = after


def with_own(run: Run, domain: int) -> Run:
    """Add a domain's own part of each set's replacement word at the end; which part that is, is the rule's matter, and a program says it."""
    fill = run.end.fill[domain]
    asked = [(fill, run.rows[number].word) for number in sorted(run.rows)]
    return replace(run, own=parts.of(run.trace, asked))


def listing_of(data: bytes) -> tuple[bytes, Listing]:
    """Give the listing of a file as the lister writes it, and taken apart; raise NotWhole if it is not whole."""
    written = programs.lister(data)
    listed = listing.parse(written)
    listing.check(listed, data)
    return written, listed


def decode(name: str, data: bytes) -> Trace:
    """Read a trace file; say what is wrong with one that is refused by 10."""
    try:
        return tracefile.decode(data)
    except tracefile.BadTraceFile as bad:
        raise BadInput(why_refused(name, data, _FILE)) from bad


def why_refused(name: str, data: bytes, number: int) -> str:
    """Say why a whole file is refused, what it has, and what would be right."""
    refused, fault = f"{files.title(name)} is refused by {number}", tracefile.why_refused(data)
    if number == _FILE and fault:
        return f"{refused}: {fault}.{_hint(data)}"
    if number == _GEOMETRY and not fault:
        refused += f": {words.geometry(tracefile.decode(data))}"
    return f"{refused}. {refusals.of_number(number)}"


def _check_counts(taken: Run) -> None:
    """Hold each domain line against the counts at the end of the stream, and the lines that came in against those out and held.

    That both are equal is a theorem; where they are not, a program is at fault."""
    for domain, counts in taken.listing.counts.items():
        held = taken.held[domain]
        out = counts.evicted + counts.flushed + counts.dropped + held
        if counts.fills != out:
            wrong = f"'{words.balance(counts, held)}' should hold, and the right side is {out:,}"
            raise MachineFailure(f"target/bin/lister and target/bin/stepper do not agree on the lines of domain {domain}: {wrong}")
        if counts != taken.end.counts[domain]:
            said = f"'{words.counts(counts)}' and '{words.counts(taken.end.counts[domain])}'"
            raise MachineFailure(f"target/bin/lister and target/bin/stepper do not agree on the counts of domain {domain}: {said}")


def _hint(data: bytes) -> str:
    """Say what to do with a file that is perhaps not meant as a trace file."""
    if source.is_text(data):
        return " It looks like a trace text: 'dipperlock assemble' makes a trace file of it; list, explain and isolate take both."
    if data.startswith(_UTF_16) or data and source.is_text(data.decode("latin-1").encode()):
        return " If it is meant as a trace text, save it as UTF-8."
    return ""
