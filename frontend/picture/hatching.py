"""A hatching for each domain, which tells it from the others in black and white too; it is the same in every picture."""
from __future__ import annotations

from typing import NamedTuple

from frontend.picture import svg


class Hatch(NamedTuple):
    """A tile that is repeated: its size, what is drawn in it and how thick, and the colours of the ground and of the lines."""

    size: float
    lines: str
    thick: float
    ground: str
    ink: str


_RISING, _FALLING = "M-2,2l4,-4M0,8l8,-8M6,10l4,-4", "M-2,6l4,4M0,0l8,8M6,-2l4,4"
_CLOSE_RISING, _CLOSE_FALLING = "M-1,1l2,-2M0,4l4,-4M3,5l2,-2", "M-1,3l2,2M0,0l4,4M3,-1l2,2"
HATCHES = (  # by domain; those that are close in number are not close in looks
    Hatch(8, _RISING, 1.2, "#dfe9f4", "#3f6fa3"),
    Hatch(6, "M1.5,1.5h.01M4.5,4.5h.01", 1.9, "#f9e6d3", "#b4641f"),
    Hatch(6, "M0,3h6", 1.2, "#def0df", "#3f8450"),
    Hatch(8, _RISING + _FALLING, 1, "#ebe3f3", "#7656a0"),
    Hatch(6, "M3,0v6", 1.2, "#f7dfdf", "#ac4b4b"),
    Hatch(8, _FALLING, 1.2, "#d9efef", "#2f8080"),
    Hatch(8, "M0,.5h8M0,4.5h8M2,.5v4M6,4.5v4", 1, "#f4eecf", "#8a781c"),
    Hatch(6, "M3,0v6M0,3h6", 0.9, "#f7e2ee", "#a64b80"),
    Hatch(4, _CLOSE_RISING, 0.9, "#e3e7ec", "#53637a"),
    Hatch(8, "M1,4a3,3 0 1,0 6,0a3,3 0 1,0 -6,0", 1, "#ece2d9", "#7d5c40"),
    Hatch(3, "M0,1.5h3", 0.9, "#e9f2d2", "#68831f"),
    Hatch(8, "M0,6l4,-4l4,4", 1.2, "#e0e3f6", "#4e58ad"),
    Hatch(3, "M1.5,0v3", 0.9, "#fae4da", "#b5583a"),
    Hatch(4, _CLOSE_FALLING, 0.9, "#daeef7", "#2f7ba0"),
    Hatch(8, "M4,1.5v5M1.5,4h5", 1.2, "#efe7dc", "#7a6a4f"),
    Hatch(8, "M0,2h4.5M4,6h4.5", 1.5, "#e8e8e8", "#585858"),
)
POOLED = "pooled"
_MANY = Hatch(4, "M0,0h2v2h-2zM2,2h2v2h-2z", 0, "#ffffff", "#8c8c8c")  # a fine checkerboard, for ways that change hands quickly


def fill(name: object) -> str:
    """Give what to fill with for the hatching of a domain, or that of pooled stretches."""
    return f"url(#hatch-{name})"


def patterns(domains: list[int], many: bool) -> str:
    """Write the patterns of some domains, and that of pooled stretches if it is needed."""
    written = [_pattern(domain, HATCHES[domain]) for domain in domains]
    return svg.element("defs", *written, *([_pattern(POOLED, _MANY)] if many else ()))


def _pattern(name: object, hatch: Hatch) -> str:
    """Write a pattern."""
    ground = svg.element("rect", width=hatch.size, height=hatch.size, fill=hatch.ground)
    if hatch.thick:
        pen = {"fill": "none", "stroke": hatch.ink, "stroke_width": hatch.thick, "stroke_linecap": "round"}
    else:
        pen = {"fill": hatch.ink}
    lines = svg.element("path", d=hatch.lines, **pen)
    size = {"width": hatch.size, "height": hatch.size}
    return svg.element("pattern", ground, lines, id=f"hatch-{name}", patternUnits="userSpaceOnUse", **size)
