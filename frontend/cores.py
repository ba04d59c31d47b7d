"""A core's three selectors: which of them a step goes through, and how the argument of a select step holds them.

Each names a domain: CS that of the core's fetches, DS that of its loads and flushes, ES that of its stores. Which
domain that is at some moment of a run is for the programs to say."""
from __future__ import annotations

from frontend.tracefile import Step

LENT = 32  # records that the lister lends, for cores 0 to 31
SELECTORS = ("CS", "DS", "ES")
_PLACES = {32: 0, 33: 1, 34: 2, 35: 1}  # for each kind, the place of the selector that it goes through
_BITS = 8  # of a selector in an argument


def place(step: Step) -> int | None:
    """Give the place of the selector that a step goes through; None for a step that goes through none."""
    return _PLACES.get(step.kind)


def join(selectors: tuple[int, ...]) -> int:
    """Give the argument that holds three selectors, the first in its lowest byte."""
    return sum(selector << _BITS * number for number, selector in enumerate(selectors))


def lowest(argument: int) -> tuple[int, ...]:
    """Give the three low bytes of an argument, lowest first."""
    return tuple(argument >> _BITS * number & (1 << _BITS) - 1 for number in range(len(SELECTORS)))


def split(argument: int) -> tuple[int, ...] | None:
    """Give the three selectors that an argument holds; None if another byte of it is not zero."""
    return None if argument >> _BITS * len(SELECTORS) else lowest(argument)


def write(selectors: tuple[int, ...]) -> str:
    """Write three selectors by name, such as `CS 0, DS 1, ES 1`."""
    return ", ".join(f"{name} {selector}" for name, selector in zip(SELECTORS, selectors))
