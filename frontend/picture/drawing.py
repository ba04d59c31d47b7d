"""One picture of a run, as SVG: a panel with the counts of each domain and, on the same steps, a map of the ways by owner."""
from __future__ import annotations

from collections.abc import Iterator
from itertools import groupby

from frontend import words
from frontend.numbers import counted
from frontend.picture import hatching, legend, panels, plot, svg, waymap
from frontend.picture.frame import ACCENT, BEHIND, LARGE, LEFT, MARGIN, PAPER, SMALL, SOFT, WIDTH, Frame, label, line, row_title
from frontend.picture.plot import Change, Series

MOST_LINES = 40  # accepted policy changes, up to which each has a line
_FAR = 5  # panels, from which on the steps are numbered above them too
_BETWEEN = 8  # pixels between the numbers above one line and those above the next
_MOST_NUMBERS = 3  # above lines that lie near together


def draw(name: str, geometry: str, series: Series) -> str:
    """Draw a run: the name of its trace, the words for its geometry, and the series."""
    return _Picture(name, f"{geometry}, {counted(series.steps, 'step')}", series).whole()


class _Picture:
    """The parts of a picture, from the top down, and where each begins."""

    def __init__(self, name: str, about: str, series: Series) -> None:
        self._name, self._about, self._series = name, about, series
        self._frame = Frame(LEFT, WIDTH - panels.room(series.panels), series.steps)
        self._stretches = plot.pooled(series.stretches, waymap.LEAST / self._frame.step)
        self._changes = series.changes if len(series.changes) <= MOST_LINES else ()
        numbered = len(series.panels) >= _FAR
        self._first = 92 + 16 * numbered + 16 * bool(self._changes)
        self._tops = [self._first + panels.PITCH * number for number in range(len(series.panels))]
        self._map = self._first + (panels.PITCH * len(series.panels) if series.panels else 36) + 20
        self._end = self._map + waymap.BAND * series.ways
        self._axis = self._end + (waymap.STRIP if series.refusals else 2)

    def whole(self) -> str:
        """Write the whole picture."""
        key, height = legend.draw(self._series, self._stretches, bool(self._changes), self._axis + 52)
        many = any(stretch.pooled > 1 for stretch in self._stretches)
        parts = (
            svg.title(f"{self._name}: {self._about}"),
            svg.element("desc", svg.escaped(_described(self._series))),
            hatching.patterns([panel.domain for panel in self._series.panels], many),
            svg.element("rect", width=WIDTH, height=height, fill=PAPER),
            *self._parts(),
            key,
        )
        about = {"version": "1.1", "width": WIDTH, "height": height, "viewBox": f"0 0 {WIDTH} {svg.number(height)}"}
        whole = svg.element("svg", "\n", "\n".join(parts), "\n", xmlns=svg.NAMESPACE, **about, font_family="sans-serif")
        return f'<?xml version="1.0" encoding="UTF-8"?>\n{whole}\n'

    def _parts(self) -> Iterator[str]:
        """Draw all but the legend, what lies behind first."""
        series, frame = self._series, self._frame
        pairs = list(zip(series.panels, self._tops))
        yield self._head()
        yield from (panels.ground(panel, frame, top) for panel, top in pairs)
        yield waymap.bands(series, frame, self._map)
        yield waymap.hatched(self._stretches, frame, self._end)
        yield from map(self._line, self._changes)
        yield from self._line_numbers()
        yield from (panels.curves(panel, frame, top) for panel, top in pairs)
        yield self._heading("Ways by owner", self._map - 12)
        yield waymap.chips(self._stretches, frame, self._end)
        yield waymap.refused(series.refusals, frame, self._end)
        yield from self._ticks()

    def _head(self) -> str:
        """Write what the picture is of, and what its first part is."""
        name = svg.shortened(self._name, LARGE, WIDTH - 2 * MARGIN, bold=True)
        drawn = [label(name, MARGIN, 32, LARGE, font_weight="bold", id="name")]
        drawn.append(label(self._about, MARGIN, 51, 12, fill=SOFT, id="about"))
        drawn.append(self._heading("Counts of each domain after each step", 80))
        if not self._series.panels:
            said = "No domain has ways at any time." if self._series.steps else "The trace has no steps."
            drawn.append(label(said, LEFT, self._first + 12, fill=SOFT))
        return "".join(drawn)

    def _heading(self, content: str, y: float) -> str:
        """Write what a part of the picture is, on a ground that no line goes through."""
        ground = {"x": MARGIN - 2, "y": y - 11, "width": svg.width(content, 12, bold=True) + 4, "height": 15}
        end = "" if not self._series.panels else label("at the end", self._frame.right + BEHIND, y, SMALL, fill=SOFT)
        return svg.element("rect", **ground, fill=PAPER) + label(content, MARGIN, y, 12, font_weight="bold") + end

    def _line(self, change: Change) -> str:
        """Draw the line of an accepted policy change through all panels and the map."""
        x = self._frame.x(change.place)
        said = svg.title(f"step {change.place}: {words.step(change.step)}")
        told = {"class_": "change", "data_place": change.place, "data_domain": change.domain}
        where = {"x1": x, "y1": self._first - 6, "x2": x, "y2": self._end}
        return svg.element("line", said, **told, **where, stroke=ACCENT, stroke_width=0.9)

    def _line_numbers(self) -> Iterator[str]:
        """Write above the lines whose policy it is, for lines that lie near together in one."""
        if not self._changes:
            return
        y = self._first - 10
        yield row_title("policy", y, fill=ACCENT)
        for some in _near(self._changes, self._frame):
            yield label(_numbers(some), self._frame.x(some[0].place), y, SMALL, class_="numbers", fill=ACCENT)

    def _ticks(self) -> Iterator[str]:
        """Draw the axis of the steps, and number it."""
        frame, y = self._frame, self._axis
        yield line((frame.left, y), (frame.right, y), stroke=SOFT)
        yield row_title("step", y + 17)
        for tick in frame.ticks():
            x, written = frame.x(tick), f"{tick:,}"
            yield line((x, y), (x, y + 5), stroke=SOFT)
            yield label(written, x, y + 17, SMALL, class_="tick", text_anchor="middle")
            if len(self._series.panels) >= _FAR:
                yield label(written, x, 98, SMALL, fill=SOFT, text_anchor="middle")


def _near(changes: tuple[Change, ...], frame: Frame) -> list[list[Change]]:
    """Put changes together where what is written above the first of them would run into the next."""
    groups: list[list[Change]] = []
    for change in changes:
        if groups and frame.x(groups[-1][0].place) + svg.width(_numbers(groups[-1]), SMALL) + _BETWEEN > frame.x(change.place):
            groups[-1].append(change)
        else:
            groups.append([change])
    return groups


def _numbers(changes: list[Change]) -> str:
    """Write whose policy some changes are."""
    if len(changes) > _MOST_NUMBERS:
        return counted(len(changes), "change")
    return ", ".join(str(change.domain) for change in changes)


def _described(series: Series) -> str:
    """Describe the picture to whoever cannot see it."""
    said = [f"{counted(len(series.changes), 'accepted policy change')}, {counted(len(series.refusals), 'refused step')}."]
    for panel in series.panels:
        said.append(f"Domain {panel.domain} at the end: {', '.join(panels.written(panel, count) for count in panel.curves)}.")
    last = {stretch.way: stretch.holders for stretch in series.stretches}
    for holders, some in groupby(last, key=last.get):
        ways = list(some)
        said.append(f"Way {ways[0]}" + (f" to {ways[-1]}" if len(ways) > 1 else "") + f" at the end: {waymap.owners(holders)}.")
    return " ".join(said)
