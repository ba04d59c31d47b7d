"""The panels of a picture: for each domain four counts over the steps, each named at its right end."""
from __future__ import annotations

from typing import NamedTuple

from frontend.picture import hatching, plot, svg
from frontend.picture.frame import FRAME, GRID, INK, LABEL, LEFT, MARGIN, PLAIN, Frame, label, line, row_title
from frontend.picture.plot import Panel, Points

HEIGHT = 76  # of a panel
PITCH = 100  # from one panel to the next
_LABEL_HEIGHT = 14
_SAMPLE = 24  # the piece of a curve before its name
_RESOLUTION = 0.4  # pixels, across and up, within which points of a curve are thinned


class Pen(NamedTuple):
    """How a count is called and drawn: the lengths of its dashes and gaps, how thick it is, and the form of the dashes' ends."""

    title: str
    dash: str
    thick: float
    colour: str
    cap: str | None = None

    def stroke(self) -> dict[str, object]:
        """Give the attributes of what is drawn with it."""
        dashes = {"stroke_dasharray": self.dash, "stroke_linecap": self.cap}
        return {"fill": "none", "stroke": self.colour, "stroke_width": self.thick, **dashes}


PENS = {  # in the order in which they are drawn: where curves lie on each other, those below are still seen
    "hits": Pen("hits", "none", 3.6, "#a6a6a6"),
    "misses": Pen("misses", "7 3.5", 1.7, INK),
    "written_back": Pen("write-backs", "12 2 2 2", 1, INK),
    "evicted": Pen("evictions", "0.1 5", 2.6, INK, "round"),
}


def written(panel: Panel, count: str) -> str:
    """Write a count's name and its value at the end."""
    return f"{PENS[count].title} {panel.final(count):,}"


def room(panels: tuple[Panel, ...]) -> float:
    """Say how much room the labels at the right end need, with the picture's margin."""
    widths = [svg.width(written(panel, count), PLAIN) for panel in panels for count in panel.curves]
    return LABEL + max([svg.width("write-backs 4,096", PLAIN), *widths]) + MARGIN


def ground(panel: Panel, frame: Frame, top: float) -> str:
    """Draw what lies behind the curves of a panel: its light grid, and its scale, name and hatching before it."""
    bottom = top + HEIGHT
    rows = [line((frame.left, y), (frame.right, y), stroke=GRID) for y in (top, top + HEIGHT / 2)]
    columns = [line((frame.x(tick), top), (frame.x(tick), bottom), stroke=GRID) for tick in frame.ticks()]
    base = line((frame.left, bottom), (frame.right, bottom), stroke=FRAME)
    scale = [row_title("0", bottom + 3.5)] + ([row_title(f"{panel.top:,}", top + 3.5)] if panel.top else [])
    middle = top + HEIGHT / 2
    name = row_title(f"domain {panel.domain}", middle, PLAIN, font_weight="bold", fill=INK)
    at = {"x": LEFT - 8 - 36, "y": middle + 6, "width": 36, "height": 11}
    swatch = svg.element("rect", **at, fill=hatching.fill(panel.domain), stroke=FRAME, stroke_width=0.8)
    return svg.element("g", *rows, *columns, base, *scale, name, swatch, class_="panel", data_domain=panel.domain)


def curves(panel: Panel, frame: Frame, top: float) -> str:
    """Draw the curves of a panel, each with its name and its last value at the right end."""
    scale = HEIGHT / max(panel.top, 1)
    ends = {count: top + HEIGHT - scale * panel.final(count) for count in panel.curves}
    order = sorted(ends, key=ends.get)
    drawn = [_curve(panel, count, frame, (top + HEIGHT, scale)) for count in PENS]
    for count, y in zip(order, apart([ends[count] for count in order], _LABEL_HEIGHT, top, top + HEIGHT)):
        drawn += _label(panel, count, frame.right, (ends[count], y))
    return "".join(drawn)


def _curve(panel: Panel, count: str, frame: Frame, scale: tuple[float, float]) -> str:
    """Draw a count over the steps; the scale is where zero lies, and how high one is."""
    points = plot.thinned(panel.curves[count], _RESOLUTION / frame.step, _RESOLUTION / scale[1])
    told = {"data_domain": panel.domain, "data_count": count, "data_final": panel.final(count)}
    return svg.element("path", d=_stairs(points, frame, *scale), class_="curve", **told, **PENS[count].stroke())


def _stairs(points: Points, frame: Frame, zero: float, scale: float) -> str:
    """Write the path that stays at each value up to the next point."""
    (start, first), *others = points
    path = [f"M{svg.number(frame.x(start))},{svg.number(zero - scale * first)}"]
    path += (f"H{svg.number(frame.x(place))}V{svg.number(zero - scale * value)}" for place, value in others)
    return "".join((*path, f"H{svg.number(frame.right)}"))


def _label(panel: Panel, count: str, right: float, heights: tuple[float, float]) -> list[str]:
    """Write the label of a curve: a thin line from its end, a piece of it, and its name and value."""
    end, y = heights
    leader = line((right + 2, end), (right + LABEL - _SAMPLE - 7, y), stroke=FRAME, stroke_width=0.8)
    sample = line((right + LABEL - _SAMPLE - 5, y), (right + LABEL - 5, y), **PENS[count].stroke())
    told = {"data_domain": panel.domain, "data_count": count}
    return [leader, sample, label(written(panel, count), right + LABEL, y + 3.8, class_="label", **told)]


def apart(wanted: list[float], least: float, low: float, high: float) -> list[float]:
    """Move ascending heights as little as will do until each is so much below the one before, and all lie between two bounds.

    Less the room of those before it, each has to be no less than the one before: where that fails, they share their mean."""
    shared: list[tuple[float, int]] = []  # sums, and of how many
    for number, height in enumerate(wanted):
        total, many = height - number * least, 1
        while shared and shared[-1][0] / shared[-1][1] > total / many:
            total, many = total + shared[-1][0], many + shared[-1][1]
            shared.pop()
        shared.append((total, many))
    means = [total / many for total, many in shared for _ in range(many)]
    last = high - (len(wanted) - 1) * least
    return [max(low, min(mean, last)) + number * least for number, mean in enumerate(means)]


def sample(count: str, x: float, y: float, width: float) -> str:
    """Draw a piece of a count's curve, for the legend."""
    return line((x, y), (x + width, y), **PENS[count].stroke())
