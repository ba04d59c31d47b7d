"""What the parts of a picture share: where the plots lie and which step stands where, the colours, and the sizes of texts."""
from __future__ import annotations

from dataclasses import dataclass
from itertools import count

from frontend.picture import svg

WIDTH = 960  # of the whole picture, in pixels, as is all else
MARGIN = 20
LEFT = 92  # where the plots begin; what a row is called stands before it
BEHIND = 14  # from the right end of the plots to what stands behind them
LABEL = 43  # and to the names of the curves, which have a piece of the curve before them

INK, SOFT, FRAME, GRID, ACCENT, PAPER = "#1c1c1c", "#595959", "#a8a8a8", "#e3e3e3", "#b23c17", "#ffffff"
SMALL, PLAIN, LARGE = 10, 11, 16  # sizes of texts

_LEAST_TICK = 50  # from one numbered tick to the next


@dataclass(frozen=True)
class Frame:
    """The plots' left and right ends, and how many steps lie between them. Step p spans from x(p) to x(p + 1)."""

    left: float
    right: float
    steps: int

    @property
    def step(self) -> float:
        """Give the width of a step."""
        return (self.right - self.left) / max(self.steps, 1)

    def x(self, place: float) -> float:
        """Give where a place lies."""
        return self.left + self.step * place

    def ticks(self) -> range:
        """Give the round places that are numbered."""
        rounds = (some * 10**power for power in count() for some in (1, 2, 5))
        return range(0, self.steps + 1, next(every for every in rounds if every * self.step >= _LEAST_TICK))


def label(content: str, x: float, y: float, size: int = PLAIN, **attributes: object) -> str:
    """Write a text in ink, or as the attributes say."""
    return svg.text(content, x, y, **{"font_size": size, "fill": INK, **attributes})


def row_title(content: str, y: float, size: int = SMALL, **attributes: object) -> str:
    """Write what a row is called, so that it ends before the plots."""
    return label(content, LEFT - 8, y, size, **{"text_anchor": "end", "fill": SOFT, **attributes})


def line(start: tuple[float, float], end: tuple[float, float], **attributes: object) -> str:
    """Draw a line from one point to another."""
    return svg.element("line", x1=start[0], y1=start[1], x2=end[0], y2=end[1], **attributes)
