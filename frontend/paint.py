"""Colour for a terminal."""
from __future__ import annotations

import os
import sys

_CODES = {"bold": "1", "dim": "2", "red": "31", "green": "32", "yellow": "33"}


class Paint:
    """Colours texts, or leaves them as they are."""

    def __init__(self, on: bool) -> None:
        self._on = on

    def __call__(self, colour: str, text: str) -> str:
        """Give the text in a colour."""
        return f"\x1b[{_CODES[colour]}m{text}\x1b[0m" if self._on else text


def for_output() -> Paint:
    """Choose colour for a terminal, unless NO_COLOR is set or the terminal has none."""
    tty = sys.stdout is not None and sys.stdout.isatty()
    return Paint(tty and not os.environ.get("NO_COLOR") and os.environ.get("TERM") != "dumb")
