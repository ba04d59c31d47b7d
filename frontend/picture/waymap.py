"""The map of a picture: a band for each way, hatched by the domain that has it, and below it the steps that were refused."""
from __future__ import annotations

from frontend.numbers import counted
from frontend.picture import hatching, svg
from frontend.picture.frame import BEHIND, INK, MARGIN, PAPER, PLAIN, SMALL, SOFT, WIDTH, Frame, label, row_title
from frontend.picture.plot import Holder, Refusal, Series, Stretch

BAND = 20  # from one way to the next
STRIP = 18  # of the refused steps below the map
LEAST = 4  # pixels, half a tile of most hatchings; shorter stretches that follow each other are pooled
_HEIGHT = BAND - 3
_NAMED = 1000  # stretches, up to which each says what it is while one points at it
_THIN = 0.6
_CROSS = 3.2  # half of a cross
_NEAR = 9  # pixels within which refused steps share a cross
_LIGHTER = 0.42  # the hatching of a locked way
_DASHED = 10  # pixels, from which on a locked way has an outline


def bands(series: Series, frame: Frame, top: float) -> str:
    """Draw the empty band of each way, its name before it and its owner at the end behind it."""
    holders = dict.fromkeys(range(series.ways), ())
    holders.update((stretch.way, stretch.holders) for stretch in series.stretches)
    drawn = []
    for way in range(series.ways):
        y = top + BAND * (series.ways - 1 - way)
        at = {"x": frame.left, "y": y, "width": frame.right - frame.left, "height": _HEIGHT}
        drawn.append(svg.element("rect", class_="way", data_way=way, **at, fill=PAPER, stroke="#d0d0d0", stroke_width=_THIN))
        drawn.append(row_title(f"way {way}", y + 12.3))
        told = {"class_": "owner", "data_way": way, "fill": INK if holders[way] else SOFT}
        room = WIDTH - frame.right - BEHIND - MARGIN
        drawn.append(label(svg.shortened(owners(holders[way]), SMALL, room), frame.right + BEHIND, y + 12.3, SMALL, **told))
    return "".join(drawn)


def hatched(stretches: list[Stretch], frame: Frame, bottom: float) -> str:
    """Draw the stretches that some domain has, upwards from the bottom of the map."""
    named = len(stretches) <= _NAMED
    drawn = (_hatched(stretch, frame, _top(stretch.way, bottom), named) for stretch in stretches if stretch.holders)
    return svg.element("g", *drawn, stroke_width=_THIN)


def _hatched(stretch: Stretch, frame: Frame, top: float, named: bool) -> str:
    """Draw a stretch: a field for its domain, or fields above each other if more than one has the way."""
    left, right = frame.x(stretch.start), frame.x(stretch.end)
    at = {"data_way": stretch.way, "data_from": stretch.start, "data_to": stretch.end}
    said = (svg.title(_said(stretch)),) if named else ()
    place = {"x": left, "width": right - left}
    if stretch.pooled > 1:
        domains = ",".join(map(str, _domains(stretch.holders)))
        told = {"class_": "pooled", **at, "data_domain": domains, "data_stretches": stretch.pooled}
        return svg.element("rect", *said, **told, **place, y=top, height=_HEIGHT, fill=hatching.fill(hatching.POOLED))
    height, drawn = _HEIGHT / len(stretch.holders), []
    for number, holder in enumerate(stretch.holders):
        told = {"class_": "stretch", **at, "data_domain": holder.domain, "data_locked": int(holder.locked)}
        where = {**place, "y": top + _HEIGHT - (number + 1) * height, "height": height}
        drawn.append(svg.element("rect", *said, **told, **where, **_look(holder, right - left)))
    return "".join(drawn)


def _look(holder: Holder, width: float) -> dict[str, object]:
    """Say how the field of a domain is drawn: lighter, and in a dashed outline if it is not narrow, where the way is locked."""
    hatch = hatching.fill(holder.domain)
    if not holder.locked:
        return {"fill": hatch, "stroke": hatching.HATCHES[holder.domain].ink if width >= LEAST else None}
    outline = {"stroke": INK, "stroke_width": 1, "stroke_dasharray": "4 2"} if width >= _DASHED else {}
    return {"fill": hatch, "fill_opacity": _LIGHTER, **outline}


def chips(stretches: list[Stretch], frame: Frame, bottom: float) -> str:
    """Write the number of its domain at the beginning of each stretch that has room for it."""
    drawn = []
    for stretch in (stretch for stretch in stretches if stretch.holders):
        left, right, y = frame.x(stretch.start), frame.x(stretch.end), _top(stretch.way, bottom)
        for written in _marks(stretch):
            width = svg.width(written, PLAIN, bold=True) + 6
            if width + 8 <= right - left:
                at = {"x": left + 4, "y": y + 2.5, "width": width, "height": _HEIGHT - 5, "rx": 2}
                drawn.append(svg.element("rect", **at, fill=PAPER, fill_opacity=0.92))
                told = {"class_": "chip", "data_way": stretch.way, "font_weight": "bold"}
                drawn.append(label(written, left + 7, y + 13, **told))
                break
    return "".join(drawn)


def _marks(stretch: Stretch) -> list[str]:
    """Give what may be written into a stretch, the longest first."""
    if stretch.pooled > 1:
        return [counted(stretch.pooled, "turn"), str(stretch.pooled)]
    return [" + ".join(_numbers(stretch.holders, " locked")), "+".join(_numbers(stretch.holders, "L"))]


def owners(holders: tuple[Holder, ...]) -> str:
    """Name the domains that have a way."""
    if not holders:
        return "nobody"
    if len(holders) == 1:
        return f"domain {_numbers(holders, ', locked')[0]}"
    return f"domains {', '.join(_numbers(holders, 'L'))}"


def _numbers(holders: tuple[Holder, ...], locked: str) -> list[str]:
    """Write the numbers of domains, and after each for which the way is locked what says so."""
    return [f"{holder.domain}{locked if holder.locked else ''}" for holder in holders]


def _said(stretch: Stretch) -> str:
    """Say what a stretch is."""
    steps = f"step {stretch.start}" if stretch.end == stretch.start + 1 else f"steps {stretch.start} to {stretch.end - 1}"
    if stretch.pooled > 1:
        domains = ", ".join(map(str, _domains(stretch.holders)))
        return f"way {stretch.way}, {steps}: {counted(stretch.pooled, 'turn')}, of {domains}"
    return f"way {stretch.way}, {steps}: {owners(stretch.holders)}"


def _domains(holders: tuple[Holder, ...]) -> list[int]:
    """List the domains among some holders, each once."""
    return sorted({holder.domain for holder in holders})


def _top(way: int, bottom: float) -> float:
    """Give the height at which the band of a way begins; way 0 is the lowest."""
    return bottom - BAND * (way + 1)


def refused(refusals: tuple[Refusal, ...], frame: Frame, top: float) -> str:
    """Mark the refused steps in a strip below the map, each by a tick and a cross, and by its number where there is room."""
    if not refusals:
        return ""
    near, y = gathered(refusals, frame), top + STRIP / 2 + 1
    drawn = [row_title("refused", y + 3.5), label(counted(len(refusals), "step"), frame.right + BEHIND, y + 3.5, SMALL)]
    places = [frame.x(some[0].place + 0.5) for some in near]
    for some, before, x, after in zip(near, [-WIDTH, *places], places, [*places[1:], frame.right + BEHIND]):
        drawn.append(_cross(some, x, (top, y)))
        written = str(some[0].number)
        alone = min(x - before, after - x) > 12 + svg.width(written, SMALL)
        if alone and len({refusal.number for refusal in some}) == 1:
            drawn.append(label(written, x + 6, y + 3.5, SMALL, class_="number", fill=SOFT))
    return "".join(drawn)


def gathered(refusals: tuple[Refusal, ...], frame: Frame) -> list[list[Refusal]]:
    """Put refused steps that lie too near for a cross of each together."""
    groups: list[list[Refusal]] = []
    for refusal in refusals:
        if groups and frame.step * (refusal.place - groups[-1][0].place) < _NEAR:
            groups[-1].append(refusal)
        else:
            groups.append([refusal])
    return groups


def _cross(some: list[Refusal], x: float, heights: tuple[float, float]) -> str:
    """Draw the cross of some refused steps, and a tick above it."""
    top, y = heights
    shape = f"M{svg.number(x)},{svg.number(top)}v3{cross(x, y)}"
    numbers = ",".join(map(str, sorted({refusal.number for refusal in some})))
    told = {"data_place": some[0].place, "data_last": some[-1].place, "data_steps": len(some), "data_number": numbers}
    steps = f"{counted(len(some), 'step')}, {some[0].place} to {some[-1].place}" if len(some) > 1 else f"step {some[0].place}"
    said = svg.title(f"{steps}: refused by {numbers.replace(',', ', ')}")
    return svg.element("path", said, class_="refused", **told, d=shape, fill="none", stroke=INK, stroke_width=1.4)


def cross(x: float, y: float) -> str:
    """Write the path of a cross around a point."""
    whole = 2 * _CROSS
    return f"M{svg.number(x - _CROSS)},{svg.number(y - _CROSS)}l{whole},{whole}m0,{-whole}l{-whole},{whole}"


def sample(domain: int, locked: bool, at: tuple[float, float, float, float]) -> str:
    """Draw a field of a domain, for the legend."""
    x, y, width, height = at
    look = {"stroke_width": _THIN, **_look(Holder(domain, locked), width)}
    return svg.element("rect", x=x, y=y, width=width, height=height, **look)
