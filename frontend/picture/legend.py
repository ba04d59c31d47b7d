"""The legend of a picture: each mark and hatching that it has, in words."""
from __future__ import annotations

from collections.abc import Callable
from typing import NamedTuple

from frontend.numbers import counted
from frontend.picture import hatching, panels, svg, waymap
from frontend.picture.frame import ACCENT, FRAME, INK, LEFT, MARGIN, PAPER, SOFT, WIDTH, label, line, row_title
from frontend.picture.plot import COUNTS, Series, Stretch

_SIZE = 11
_ROW = 19
_SAMPLE = 30
_BETWEEN = 22


class _Entry(NamedTuple):
    """A mark and what it means; the mark is drawn where it is told to, and there may be none."""

    said: str
    mark: Callable[[float, float], str] | None = None

    @property
    def before(self) -> float:
        """Say how far the words stand behind the mark's beginning."""
        return _SAMPLE + 7 if self.mark else 0


def draw(series: Series, stretches: list[Stretch], lines: bool, top: float) -> tuple[str, float]:
    """Draw the legend from some height on, and give the height of the whole picture."""
    drawn, y = [line((MARGIN, top - 22), (WIDTH - MARGIN, top - 22), stroke=FRAME, stroke_width=0.6)], top
    for name, entries in _groups(series, stretches, lines):
        if entries:
            drawn.append(row_title(name, y, _SIZE))
            more, y = _flow(entries, y)
            drawn += more
            y += _ROW + 3
    return svg.element("g", *drawn, id="legend"), y + 2


def _flow(entries: list[_Entry], y: float) -> tuple[list[str], float]:
    """Lay entries side by side, in as many rows as they need; give them, and the height of the last row."""
    drawn, x = [], LEFT
    for entry in entries:
        wide = entry.before + svg.width(entry.said, _SIZE)
        if x > LEFT and x + wide > WIDTH - MARGIN:
            x, y = LEFT, y + _ROW
        if entry.mark:
            drawn.append(entry.mark(x, y - 4))
        drawn.append(label(entry.said, x + entry.before, y, _SIZE, fill=SOFT))
        x += wide + _BETWEEN
    return drawn, y


def _groups(series: Series, stretches: list[Stretch], lines: bool) -> list[tuple[str, list[_Entry]]]:
    """List the groups of entries, by name; one without entries is not shown."""
    steps = "Step p, by its place in the listing, spans from p to p + 1; what is drawn there stands after the step."
    return [
        ("curves", _curves() if series.panels else []),
        ("ways", _ways(series, stretches)),
        ("marks", _marks(series, lines)),
        ("steps", [_Entry(steps)]),
    ]


def _curves() -> list[_Entry]:
    """Tell the curves."""
    entries = [_Entry(panels.PENS[count].title, _piece(count)) for count in COUNTS]
    return [*entries, _Entry("as counted after each step; a removal of the domain sets them to zero")]


def _ways(series: Series, stretches: list[Stretch]) -> list[_Entry]:
    """Tell the hatchings."""
    alone = [stretch.holders for stretch in stretches if stretch.pooled == 1]
    locked = [holder.domain for holders in alone for holder in holders if holder.locked]
    entries = [_Entry(f"domain {panel.domain}", _field(panel.domain)) for panel in series.panels]
    if locked:
        entries.append(_Entry("locked (L): in the domain's hit map, not in its fill map", _field(min(locked), True)))
    if () in alone or not alone:
        entries.append(_Entry("nobody has the way", _plain(PAPER)))
    if any(len(holders) > 1 for holders in alone):
        entries.append(_Entry("hatchings above each other, and numbers with a +: these domains all have the way"))
    if len(alone) < len(stretches):
        said = "turns: so many owners in a row, each too briefly to be drawn"
        entries.append(_Entry(said, _plain(hatching.fill(hatching.POOLED))))
    return entries


def _marks(series: Series, lines: bool) -> list[_Entry]:
    """Tell the lines and the crosses."""
    entries = []
    if lines:
        entries.append(_Entry("accepted policy change; above it the number of its domain", _upright))
    elif series.changes:
        entries.append(_Entry(f"{counted(len(series.changes), 'policy change')} accepted, too many for a line each"))
    if series.refusals:
        said = "refused step, with the refusal's number where there is room; steps close together share a cross"
        entries.append(_Entry(said, _crossed))
    return entries


def _piece(count: str) -> Callable[[float, float], str]:
    """Give what draws a piece of a count's curve."""
    return lambda x, y: panels.sample(count, x, y, _SAMPLE)


def _field(domain: int, locked: bool = False) -> Callable[[float, float], str]:
    """Give what draws a field with the hatching of a domain."""
    return lambda x, y: waymap.sample(domain, locked, (x, y - 6, _SAMPLE, 12))


def _plain(fill: str) -> Callable[[float, float], str]:
    """Give what draws a field that is no domain's."""
    return lambda x, y: svg.element("rect", x=x, y=y - 6, width=_SAMPLE, height=12, fill=fill, stroke=FRAME, stroke_width=0.8)


def _upright(x: float, y: float) -> str:
    """Draw a piece of the line of a policy change."""
    return line((x + _SAMPLE / 2, y - 7), (x + _SAMPLE / 2, y + 7), stroke=ACCENT)


def _crossed(x: float, y: float) -> str:
    """Draw a cross."""
    return svg.element("path", d=waymap.cross(x + _SAMPLE / 2, y), fill="none", stroke=INK, stroke_width=1.4)
