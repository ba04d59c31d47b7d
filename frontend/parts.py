"""What the program `parts` says: the own part of each of some replacement words, a line for each."""
from __future__ import annotations

from dataclasses import replace

from frontend import programs, tracefile
from frontend.errors import MachineFailure
from frontend.quote import cut
from frontend.tracefile import LARGEST_ARGUMENT, MAX_STEPS, Step, Trace

_MOST_QUOTED = 60  # characters of a line that is no number


def of(trace: Trace, asked: list[tuple[int, int]]) -> tuple[int, ...]:
    """Give the own parts, for each a fill map and a word, under the ways and the rule of a trace."""
    pieces = (asked[start : start + MAX_STEPS] for start in range(0, len(asked), MAX_STEPS))
    return tuple(part for piece in pieces for part in _of_piece(trace, piece))


def _of_piece(trace: Trace, asked: list[tuple[int, int]]) -> tuple[int, ...]:
    """Ask for as many as one file holds. They stand in the form of a trace file: a fill map for a code, a word for an argument."""
    entries = tuple(Step(fill & 0xFF, fill >> 8, word) for fill, word in asked)
    return parse(programs.parts(tracefile.encode(replace(trace, steps=entries))), len(entries))


def free_nodes(trace: Trace, fills: list[int]) -> tuple[int, ...]:
    """Give the map of the tree's nodes that are free for each of some fill maps: the own part of a word that is all ones."""
    return of(trace, [(fill, LARGEST_ARGUMENT) for fill in fills])


def parse(data: bytes, count: int) -> tuple[int, ...]:
    """Read the own parts of as many words; raise MachineFailure if that is not what the lines are."""
    lines = data.split(b"\n")
    if lines.pop() != b"" or len(lines) != count:
        raise MachineFailure(f"target/bin/parts did not give a whole answer: {len(lines)} lines for {count} words")
    for line in lines:
        if not line.isdigit():
            raise MachineFailure(f"target/bin/parts did not give the own part of a word, but '{cut(line.decode('ascii', 'replace'), _MOST_QUOTED)}'")
    return tuple(int(line) for line in lines)
