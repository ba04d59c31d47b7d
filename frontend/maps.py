"""A map, a 16-bit word whose bit w stands for way w, as a list of ways."""
from __future__ import annotations

from frontend import numbers
from frontend.quote import cut, quoted

WAYS = 16
LARGEST = (1 << WAYS) - 1
NONE = "none"
ALONE = "way"  # what stands before the number of a way that is alone in its map
FORM = "a map is a list of ways such as 0,1 or 0-3, one way such as way3, a mask such as 0x3, or none"


class BadMap(Exception):
    """A text that is no map: where in it the fault lies, how wide it is, and what is wrong."""

    def __init__(self, offset: int, width: int, message: str) -> None:
        super().__init__(message)
        self.offset, self.width = offset, width


def members(word: int) -> list[int]:
    """List the positions of the bits that are one, lowest first."""
    return [bit for bit in range(word.bit_length()) if word >> bit & 1]


def places(word: int) -> str:
    """Write the positions of the bits that are one, runs of three or more as ranges."""
    runs: list[list[int]] = []
    for bit in members(word):
        if runs and runs[-1][-1] == bit - 1:
            runs[-1].append(bit)
        else:
            runs.append([bit])
    return ",".join(f"{run[0]}-{run[-1]}" if len(run) > 2 else ",".join(map(str, run)) for run in runs)


def write(word: int) -> str:
    """Write a map as the list of its ways, one way as `way3`, or `none`.

    A number alone could be a way as well as a map: document 01's map 3 is ways 0 and 1. So none is written, and none is read."""
    if word == 0:
        return NONE
    return f"{ALONE}{places(word)}" if len(members(word)) == 1 else places(word)


def both(word: int) -> str:
    """Write a map as the list of its ways, and beside it in hexadecimal, as registers and boot ROMs have it."""
    return f"{write(word)} ({word:#x})"


def parse(text: str) -> int:
    """Read a map from a list of ways, one way, a mask or `none`; raise BadMap for anything else."""
    if text == NONE:
        return 0
    if numbers.is_mask(text):
        return _mask(text)
    if text.startswith(ALONE):
        return 1 << _way(text[len(ALONE) :], len(ALONE), text)
    number = numbers.parse(text)
    if number is not None:
        raise BadMap(0, len(text), _two_meanings(text, number))
    return _list(text)


def _mask(text: str) -> int:
    """Read a map written as a number."""
    word = numbers.parse(text)
    if word is None:
        raise BadMap(0, len(text), f"{quoted(text)} is not a mask; {FORM}")
    if word > LARGEST:
        raise BadMap(0, len(text), f"mask {cut(text)} has a way above 15; the largest mask is {LARGEST:#x}")
    return word


def _two_meanings(text: str, number: int) -> str:
    """Say what a number alone could mean, and how to write each."""
    if number > LARGEST:
        return f"{quoted(text)} is no map; {FORM}"
    which = {0: "empty", 1: f"way {places(number)}"}.get(len(members(number)), f"ways {places(number)}")
    as_map = f"{NONE if number == 0 else hex(number)} for the map {number}, which is {which}"
    if number >= WAYS:
        return f"{quoted(text)} alone is neither a way nor a mask; write {as_map}"
    return f"{quoted(text)} alone could be a way or a map; write {ALONE}{number} for way {number}, or {as_map}"


def _list(text: str) -> int:
    """Read a map written as a list of ways."""
    word, offset = 0, 0
    for item in text.split(","):
        ways = _item(item, offset, text)
        if word & ways:
            twice = members(word & ways)[0]
            raise BadMap(offset, len(item), f"way {twice} is named twice; name each way once")
        word |= ways
        offset += len(item) + 1
    return word


def _item(item: str, offset: int, whole: str) -> int:
    """Read one item of a list of ways: a way, or a range of ways."""
    if not item:
        hint = "for an empty map write none" if not whole else "write ways with one comma between and no space"
        raise BadMap(max(offset - 1, 0), 1, f"a way is missing; {hint}")
    first, dash, last = item.partition("-")
    low = _way(first, offset, item)
    high = _way(last, offset + len(first) + 1, item) if dash else low
    if low > high:
        raise BadMap(offset, len(item), f"range {cut(item)} runs downwards; write {high}-{low}")
    return (1 << high + 1) - (1 << low)


def _way(text: str, offset: int, item: str) -> int:
    """Read one way of an item."""
    way = None if numbers.is_mask(text) else numbers.parse(text)
    if way is None:
        width = len(text) or 1
        raise BadMap(offset if text else max(offset - 1, 0), width, f"{quoted(item)} is not a way; {FORM}")
    if way >= WAYS:
        raise BadMap(offset, len(text), f"way {cut(text)} is above 15, the highest that a map can hold")
    return way
