"""The stepper's stream, taken apart as it comes: what stands before the first step and after each, and the lines held at the end.

A block has the domains' maps and counts, the core records, how many ways the step's lookup visited, the domain that the step was
taken for, and rows: that of an access's or a flush's set, and all rows for a policy change. Rows that are as they were are left
out here, and the others are kept as bytes until somebody asks for one: of many, few are looked at."""
from __future__ import annotations

import struct
from collections.abc import Iterable, Iterator, Mapping
from dataclasses import dataclass
from typing import BinaryIO, NamedTuple

from frontend import cores, maps
from frontend.errors import MachineFailure
from frontend.listing import Counts
from frontend.numbers import counted
from frontend.text import show_step
from frontend.tracefile import SELECT, Step, Trace

DOMAINS = 16
NO_DOMAIN = 0xFFFF  # the number that stands for no domain
_DOMAIN = struct.Struct(f"<HH{len(Counts._fields)}I")
_RECORDS = struct.Struct(f"<{cores.LENT * len(cores.SELECTORS)}B")
_PLACE = struct.Struct("<HHHH")
_HELD = struct.Struct(f"<{DOMAINS}I")
_OF_DOMAINS = DOMAINS * _DOMAIN.size
_HEAD = _OF_DOMAINS + _RECORDS.size + _PLACE.size
_TOGETHER = 16  # rows that are compared at once


class Row(NamedTuple):
    """One set: its valid and dirty maps, its replacement word and its tags."""

    valid: int
    dirty: int
    word: int
    tags: tuple[int, ...]


class Rows(Mapping):
    """Rows by the number of their set, as the stream has them; a row is taken apart when it is asked for."""

    __slots__ = ("_ways", "_form", "_raw")

    def __init__(self, ways: int, raw: dict[int, bytes]) -> None:
        self._ways, self._form, self._raw = ways, _form(ways), raw

    def __getitem__(self, number: int) -> Row:
        _, valid, dirty, word, *tags = self._form.unpack(self._raw[number])
        return Row(valid, dirty, word, tuple(tags))

    def __iter__(self) -> Iterator[int]:
        return iter(self._raw)

    def __len__(self) -> int:
        return len(self._raw)

    def take(self, changed: Rows) -> None:
        """Put rows that changed in the place of those that stood there."""
        self._raw.update(changed._raw)

    def copy(self) -> Rows:
        """Give rows of their own, which stay as these are now."""
        return Rows(self._ways, dict(self._raw))


class Block(NamedTuple):
    """What stands after a step: the domains' maps and counts, the cores' selectors, its argument's set, the rows that changed.

    `visited` is how many ways the step's lookup visited; it is 0 where the step made none. `domain` is the one that
    the cache took the step for; None where the step is none of the cache's, as a write of selectors."""

    hit: tuple[int, ...]
    fill: tuple[int, ...]
    counts: tuple[Counts, ...]
    records: tuple[tuple[int, ...], ...]
    set: int
    visited: int
    domain: int | None
    rows: Rows


@dataclass(frozen=True)
class Stream:
    """A whole stream: the fresh block and one for each step, and how many valid lines each domain's hit map has at the end."""

    blocks: list[Block]
    held: tuple[int, ...]


class Reader:
    """Takes a stream apart, block by block, and holds it against its trace; raises MachineFailure where it does not fit."""

    def __init__(self, stream: BinaryIO, trace: Trace) -> None:
        self._stream, self._trace = stream, trace
        self._size = _form(trace.ways).size
        numbers = struct.pack(f"<{trace.sets}H", *range(trace.sets))
        self._numbers = numbers[::2], numbers[1::2]  # what all rows begin with, the low bytes and the high ones
        self._rows = b""  # every row as it stands, one behind the other; before the first block there is none
        self._each: list[tuple] = [(b"",)] * DOMAINS  # the record of each domain in the last block, as bytes and taken apart
        self._domains: tuple[bytes, tuple] = (b"", ())  # and all of them
        self._records: tuple[bytes, tuple] = (b"", ())  # the core records of the last block, as bytes and taken apart
        self.held: tuple[int, ...] = ()  # known when all blocks have been read

    def blocks(self) -> Iterator[Block]:
        """Give the fresh block, and one for each step."""
        before = self._block(0)
        self._check_fresh(before)
        yield before
        for place, step in enumerate(self._trace.steps):
            after = self._block(place + 1)
            _check_domain(place, step, before, after)
            yield after
            before = after
        self._end(before)

    def _block(self, number: int) -> Block:
        """Take the next block off the stream."""
        head = self._read(_HEAD, number)
        domains = self._domains_of(head[:_OF_DOMAINS])
        records = self._records_of(head[_OF_DOMAINS : _OF_DOMAINS + _RECORDS.size])
        place, count, visited, domain = _PLACE.unpack_from(head, _HEAD - _PLACE.size)
        self._check_place(place, visited)
        rows = self._changed(self._read(count * self._size, number), count)
        taken_for = None if domain == NO_DOMAIN else domain
        return Block(*domains, records, place, visited, taken_for, rows)

    def _read(self, size: int, number: int) -> bytes:
        """Read some bytes of a block."""
        data = self._stream.read(size)
        if len(data) != size:
            raise _misfit(f"it breaks off within block {number} of {len(self._trace.steps) + 1}")
        return data

    def _domains_of(self, data: bytes) -> tuple[tuple, ...]:
        """Give the hit maps, the fill maps and the counts of all domains; only what is not as it was is taken apart."""
        if data == self._domains[0]:
            return self._domains[1]
        for number in range(DOMAINS):
            own = data[number * _DOMAIN.size : (number + 1) * _DOMAIN.size]
            if own != self._each[number][0]:
                hit, fill, *counts = _DOMAIN.unpack(own)
                self._each[number] = own, hit, fill, Counts._make(counts)
        self._domains = data, tuple(zip(*self._each))[1:]
        return self._domains[1]

    def _records_of(self, data: bytes) -> tuple[tuple[int, ...], ...]:
        """Take the core records apart, unless they are as they were."""
        if data != self._records[0]:
            self._records = data, _records(data)
        return self._records[1]

    def _changed(self, raw: bytes, count: int) -> Rows:
        """Give those of some rows that are not as they were, and note them."""
        if raw == self._rows:
            return Rows(self._trace.ways, {})
        if count == self._trace.sets:
            if (raw[:: self._size], raw[1 :: self._size]) != self._numbers:
                raise self._wrong_rows()
            changed = dict(self._differing(raw))
            self._rows = raw
            return Rows(self._trace.ways, changed)
        pieces = (raw[start : start + self._size] for start in range(0, len(raw), self._size))
        changed = {number: row for number, row in map(self._numbered, pieces) if self._standing(number) != row}
        for number, row in changed.items():
            self._rows = b"".join((self._rows[: number * self._size], row, self._rows[(number + 1) * self._size :]))
        return Rows(self._trace.ways, changed)

    def _differing(self, raw: bytes) -> Iterator[tuple[int, bytes]]:
        """Give those of all rows that are not as they stand. Most are, so that many are compared at once first."""
        rows, size, together = self._rows, self._size, self._size * _TOGETHER
        for begin in range(0, len(raw), together):
            if raw[begin : begin + together] != rows[begin : begin + together]:
                for start in range(begin, min(begin + together, len(raw)), size):
                    row = raw[start : start + size]
                    if row != rows[start : start + size]:
                        yield start // size, row

    def _standing(self, number: int) -> bytes:
        """Give a row as it stands."""
        return self._rows[number * self._size : (number + 1) * self._size]

    def _numbered(self, row: bytes) -> tuple[int, bytes]:
        """Give a row with the number of its set."""
        number = int.from_bytes(row[:2], "little")
        if number >= self._trace.sets:
            raise self._wrong_rows()
        return number, row

    def _end(self, last: Block) -> None:
        """Read what stands behind the last block."""
        data = self._stream.read(_HELD.size + 1)
        if len(data) != _HELD.size:
            has = counted(len(data), "byte") if len(data) < _HELD.size else f"more than {_HELD.size} bytes"
            due = f"the {_HELD.size} that say how many lines each domain holds"
            raise _misfit(f"after its {counted(len(self._trace.steps) + 1, 'block')} it has {has}, and should have {due}")
        self.held = _HELD.unpack(data)
        _check_held(self.held, last, self._trace)

    def _check_fresh(self, fresh: Block) -> None:
        """Hold the block before the first step against the sets of the trace."""
        if list(fresh.rows) != list(range(self._trace.sets)):
            raise self._wrong_rows()
        if fresh.domain is not None:
            raise _misfit(f"it has {_title(fresh.domain)} before the first step")

    def _check_place(self, place: int, visited: int) -> None:
        """Hold a set against those of the trace, and the ways visited against its ways."""
        if place >= self._trace.sets:
            raise self._wrong_rows()
        if visited > self._trace.ways:
            raise _misfit(f"a lookup visited {counted(visited, 'way')}, and the trace has {counted(self._trace.ways, 'way')}")

    def _wrong_rows(self) -> MachineFailure:
        """Make the error of rows that are not those of the trace's sets."""
        return _misfit(f"its rows are not those of {self._trace.sets} sets")


def parse(stream: BinaryIO, trace: Trace) -> Stream:
    """Take a whole stream apart; raise MachineFailure if it does not fit the trace. Every block is kept: this is for short ones."""
    reader = Reader(stream, trace)
    return Stream(list(reader.blocks()), reader.held)


def rows_at_end(blocks: Iterable[Block]) -> Rows:
    """Give every row as the last of some blocks, from the fresh one on, left it."""
    first, *others = blocks
    rows = first.rows.copy()
    for block in others:
        rows.take(block.rows)
    return rows


def _form(ways: int) -> struct.Struct:
    """Give the form of a row: set, valid map, dirty map, replacement word and tags."""
    return struct.Struct(f"<HHHQ{ways}Q")


def _records(data: bytes) -> tuple[tuple[int, ...], ...]:
    """Put the selectors of all cores into a record for each."""
    size = len(cores.SELECTORS)
    return tuple(tuple(data[start : start + size]) for start in range(0, len(data), size))


def _check_domain(place: int, step: Step, before: Block, after: Block) -> None:
    """Hold a step's domain against the one that it names or its core selects, and the records against its kind."""
    due = _domain_of(step, before)
    if after.domain != due:
        raise _misfit(f"{_which(place, step)} was taken for {_title(after.domain)}, and should be for {_title(due)}")
    if after.records == before.records:
        return
    changed = [core for core, record in enumerate(after.records) if record != before.records[core]]
    if (step.kind, changed) != (SELECT, [step.named]):
        raise _misfit(f"{_which(place, step)} changed the record of core {changed[0]}")


def _check_held(held: tuple[int, ...], last: Block, trace: Trace) -> None:
    """Hold the number of lines that each domain holds against the room that its hit map has for them."""
    for domain, lines in enumerate(held):
        room = trace.sets * len(maps.members(last.hit[domain]))
        if lines > room:
            raise _misfit(f"domain {domain} holds {counted(lines, 'line')}, and its hit map has room for {room:,}")


def _domain_of(step: Step, before: Block) -> int | None:
    """Give the domain that a step names, or its core's selector in the block before; None if there is none."""
    if not step.by_core:
        return step.named
    place = cores.place(step)
    return None if place is None or step.named >= len(before.records) else before.records[step.named][place]


def _which(place: int, step: Step) -> str:
    """Name a step in a message."""
    return f"step {place}, '{show_step(step)}',"


def _title(domain: int | None) -> str:
    """Name a domain in a message."""
    return "no domain" if domain is None else f"domain {domain}"


def _misfit(what: str) -> MachineFailure:
    """Make the error of a stream that is not one of its trace."""
    return MachineFailure(f"target/bin/stepper did not give a whole stream of this trace: {what}")
