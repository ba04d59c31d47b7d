"""Columns of plain text."""
from __future__ import annotations


def columns(rows: list[tuple[str, ...]], right: tuple[int, ...] = ()) -> list[str]:
    """Lay rows out in columns two spaces apart; the columns named by `right` are set flush right."""
    padded = []
    for place, cells in enumerate(zip(*rows)):
        width = max(map(len, cells))
        padded.append([cell.rjust(width) for cell in cells] if place in right else [cell.ljust(width) for cell in cells])
    return ["  ".join(cells).rstrip() for cells in zip(*padded)]
