"""Words and names of the person's own in a message: never longer than a line or two, and never a control character."""
from __future__ import annotations

_MOST = 60  # characters of a word that are shown
_MOST_NAME = 200  # characters of a file's name that are shown
_SHOWN_END = 20  # of them, those at the end, where a path has the file's own name


def quoted(text: str) -> str:
    """Quote a word; of a long one, its beginning and its length."""
    return repr(text) if len(text) <= _MOST else f"{text[:_MOST]!r}... ({len(text):,} characters)"


def named(name: str) -> str:
    """Give a file's name as it is, or cut in its middle if it is long."""
    shown = name if name and name.isprintable() else repr(name)
    if len(shown) <= _MOST_NAME:
        return shown
    return f"{shown[:_MOST_NAME - _SHOWN_END]}...{shown[-_SHOWN_END:]} ({len(shown):,} characters)"


def cut(text: str, most: int = _MOST) -> str:
    """Give a text as it is; of a long one, its beginning and its length."""
    return text if len(text) <= most else f"{text[:most]}... ({len(text):,} characters)"
