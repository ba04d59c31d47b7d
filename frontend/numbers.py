"""Numbers as a trace text writes them: decimal, `0x` or `0b`, with `_` between digits."""
from __future__ import annotations

import re

_FORMS = (
    (re.compile(r"0[xX]([0-9a-fA-F]+(?:_[0-9a-fA-F]+)*)"), 16),
    (re.compile(r"0[bB]([01]+(?:_[01]+)*)"), 2),
    (re.compile(r"([0-9]+(?:_[0-9]+)*)"), 10),
)
_ENOUGH = 400  # digits by which every number that a file can hold is known, and every larger one is known to be larger


def parse(text: str) -> int | None:
    """Give the number that a text writes, or None if it writes none."""
    for form, base in _FORMS:
        match = form.fullmatch(text)
        if match:
            digits = match[1].replace("_", "").lstrip("0")
            return int(digits[:_ENOUGH] or "0", base)
    return None


def is_mask(text: str) -> bool:
    """Tell whether a text starts as a `0x` or `0b` number does."""
    return text[:2].lower() in ("0x", "0b")


def hexadecimal(number: int, digits: int = 1) -> str:
    """Write a number in hexadecimal, in at least so many digits, in groups of four."""
    width = len("0x") + digits + (digits - 1) // 4
    return f"{number:#0{width}_x}"


def counted(number: int, thing: str) -> str:
    """Write a number of things, such as `1 step` or `4,096 steps`."""
    return f"{number:,} {thing}" if number == 1 else f"{number:,} {thing}s"
