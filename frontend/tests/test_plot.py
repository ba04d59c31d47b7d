"""The picture of a run: what is gathered, what is drawn of it, and that it says what the listing says."""
from __future__ import annotations

import itertools
import os
import random
import re
import unittest
from collections import Counter
from collections.abc import Iterable, Iterator
from unittest import mock
from xml.etree import ElementTree

from frontend import listing, programs, run, tracefile, words
from frontend.listing import Answer, Counts
from frontend.picture import drawing, hatching, panels, plot, svg
from frontend.picture.plot import Holder, Panel, Series, Stretch
from frontend.run import Moment
from frontend.stepper import Block, Rows
from frontend.tests import case_a
from frontend.tests.helpers import NONE_COUNTED, by_rote, call, needs_no_rights, needs_programs, random_bytes
from frontend.tests.test_cli import InFolder
from frontend.tracefile import POLICY, Step, Trace

ROOT = programs.ROOT
EXAMPLES = sorted((ROOT / "examples").glob("*.txt"))
SHIFT = str(ROOT / "examples" / "partition-shift.txt")
SVG = f"{{{svg.NAMESPACE}}}"
WIDE, NARROW, BOLD = 0.62, 0.36, 1.12  # how wide letters are, for the size of the font; and bold ones, for plain ones
ACCEPTED = Answer("policy", (0, 0))
REFUSED = Answer("refused", (6,))
LARGEST = 0xFFFF_FFFF  # that a count can be
Item = tuple  # of an answer, the maps and the counts after its step, by domain, and the domain of the step


def block(maps: dict[int, tuple[int, int]], counts: dict[int, tuple[int, ...]], domain: int | None = None) -> Block:
    """Make what stands after a step."""
    hit, fill = zip(*(maps.get(number, (0, 0)) for number in range(16)))
    of_each = tuple(Counts(*counts.get(number, NONE_COUNTED)) for number in range(16))
    return Block(hit, fill, of_each, (), 0, 0, domain, Rows(4, {}))


def moments(*items: Item) -> Iterator[Moment]:
    """Make the steps of a run."""
    before = block({}, {})
    for place, (answer, maps, counts, domain) in enumerate(items):
        after = block(maps, counts, domain)
        step = Step(domain, POLICY if answer.word == "policy" else 1, 0)
        yield Moment(place, step, answer, before, after, after.rows)
        before = after


def gathered(ways: int, *items: Item) -> Series:
    """Gather what there is to draw of made-up steps."""
    return plot.gather(ways, moments(*items))


class Picture:
    """A picture, taken apart."""

    def __init__(self, written: str | bytes) -> None:
        self.root = ElementTree.fromstring(written)
        self.width, self.height = (float(self.root.get(name)) for name in ("width", "height"))
        self._classes: dict[str | None, list[ElementTree.Element]] = {}
        for element in self.root.iter():
            self._classes.setdefault(element.get("class"), []).append(element)

    def of_class(self, name: str, domain: int | None = None) -> list[ElementTree.Element]:
        """Give the elements of a class, or of those the ones of a domain."""
        found = self._classes.get(name, [])
        return found if domain is None else [element for element in found if element.get("data-domain") == str(domain)]

    def texts(self) -> list[ElementTree.Element]:
        """Give all texts."""
        return list(self.root.iter(f"{SVG}text"))

    def said(self) -> str:
        """Give all that is written, a text a line."""
        return "\n".join(text.text for text in self.texts())

    def plot(self) -> tuple[float, float]:
        """Give the left end of the plots and their width."""
        band = self.of_class("way")[0]
        return float(band.get("x")), float(band.get("width"))

    def values(self, domain: int, count: str, top: int, steps: int) -> list[float]:
        """Give the values that a curve has in the middle of each step, by where it is drawn."""
        (curve,) = (one for one in self.of_class("curve", domain) if one.get("data-count") == count)
        (panel,) = self.of_class("panel", domain)
        rows = [float(line.get("y1")) for line in panel.iter(f"{SVG}line") if line.get("y1") == line.get("y2")]
        zero, scale = max(rows), max(top, 1) / (max(rows) - min(rows))
        left, width = self.plot()
        first, *moves = re.findall("[MHV][^MHV]*", curve.get("d"))
        x, y = map(float, first[1:].split(","))
        values: list[float] = []
        for move in moves:
            if move[0] == "V":
                y = float(move[1:])
                continue
            x = float(move[1:])
            values += [(zero - y) * scale] * (round((x - left) / width * steps) - len(values))
        return values


def drawn(series: Series, name: str = "made up", geometry: str = "1 set, 4 ways, rule 0") -> Picture:
    """Draw, and take apart."""
    return Picture(drawing.draw(name, geometry, series))


def box(text: ElementTree.Element) -> tuple[float, float, float, float]:
    """Estimate where a text lies: left, top, right and bottom."""
    size, x, y = (float(text.get(name)) for name in ("font-size", "x", "y"))
    wide = size * sum(NARROW if sign in " .,:;il" else WIDE for sign in text.text) * (BOLD if text.get("font-weight") else 1)
    left = x - wide * {"end": 1, "middle": 0.5}.get(text.get("text-anchor"), 0)
    return left, y - 0.74 * size, left + wide, y + 0.2 * size


def told(elements: Iterable[ElementTree.Element], *names: str) -> list[str]:
    """Give what elements tell under some names, a text for each."""
    return [" ".join(element.get(f"data-{name}") for name in names) for element in elements]


def lively(seed: int, moves: int, count: int = 4096) -> Trace:
    """Make a trace whose sixteen domains have sixteen ways, which go from one to another now and then, and lock some."""
    source = random.Random(seed)
    own = {domain: 1 << domain for domain in range(16)}
    steps = [Step(domain, POLICY, ways | ways << 16) for domain, ways in own.items()]
    while len(steps) < count:
        if source.random() < moves / count:
            giver, taker, way = source.randrange(16), source.randrange(16), 1 << source.randrange(16)
            given = own[giver] & way
            own[giver] &= ~given
            own[taker] |= given
            for domain in (giver, taker):
                fill = own[domain] & source.choice((0xFFFF, 0xFFFF, source.getrandbits(16)))
                steps.append(Step(domain, POLICY, own[domain] | fill << 16))
        else:
            line = source.randrange(source.choice((60, 300)))
            steps.append(Step(source.randrange(16), source.choice((0, 1, 1, 2, 2, 3)), 64 * line))
    return Trace(64, 16, 2, tuple(steps[:count]))


class Gathering(unittest.TestCase):
    """What is gathered in one pass."""

    def test_nothing(self):
        self.assertEqual(gathered(4), Series(0, 4, (), (), (), ()))

    def test_counts_are_noted_where_they_change(self):
        had = {3: (3, 3)}
        series = gathered(
            2,
            (ACCEPTED, had, {}, 3),
            (Answer("fill", (1,)), had, {3: (0, 1, 0, 0, 0, 1, 0)}, 3),
            (REFUSED, had, {3: (0, 1, 0, 0, 0, 1, 0)}, 5),
            (Answer("hit", (1,)), had, {3: (1, 1, 0, 0, 0, 1, 0)}, 3),
            (Answer("evict", (1, 0, 1)), had, {3: (1, 2, 1, 1, 0, 2, 0)}, 3),
        )
        (panel,) = series.panels
        curves = {
            "hits": [(0, 0), (3, 1)],
            "misses": [(0, 0), (1, 1), (4, 2)],
            "evicted": [(0, 0), (4, 1)],
            "written_back": [(0, 0), (4, 1)],
        }
        self.assertEqual(panel, Panel(3, curves))
        self.assertEqual((panel.top, panel.final("misses"), panel.final("hits")), (2, 2, 1))
        self.assertEqual((series.steps, series.refusals), (5, ((2, 6),)))

    def test_a_removal_makes_curves_fall(self):
        hit = Answer("hit", (0,)), {0: (1, 1)}, {0: (1, 0, 0, 0, 0, 0, 0)}, 0
        (panel,) = gathered(2, (ACCEPTED, {0: (1, 1)}, {}, 0), hit, (ACCEPTED, {}, {}, 0)).panels
        self.assertEqual(panel.curves["hits"], [(0, 0), (1, 1), (2, 0)])
        self.assertEqual((panel.top, panel.final("hits")), (1, 0))

    def test_domains_in_use(self):
        items = (REFUSED, {}, {}, 9), (ACCEPTED, {2: (1, 0)}, {}, 2), (ACCEPTED, {}, {15: (0, 0, 0, 0, 0, 0, 1)}, 2)
        self.assertEqual([panel.domain for panel in gathered(2, *items).panels], [2, 15])
        self.assertEqual(gathered(2, items[0]).panels, ())

    def test_counts_that_move_in_the_first_step(self):
        (panel,) = gathered(2, (Answer("hit", (0,)), {}, {4: (1, 0, 0, 0, 0, 0, 0)}, 4)).panels
        self.assertEqual((panel.domain, panel.curves["hits"], panel.curves["misses"]), (4, [(0, 1)], [(0, 0)]))

    def test_stretches(self):
        first, second = {0: (0b11, 0b01)}, {0: (0b01, 0b01), 1: (0b10, 0b10)}
        items = (REFUSED, {}, {}, 0), (ACCEPTED, first, {}, 0), (REFUSED, first, {}, 1), (ACCEPTED, second, {}, 1)
        due = [
            Stretch(0, 0, 1, ()),
            Stretch(0, 1, 4, (Holder(0, False),)),
            Stretch(1, 0, 1, ()),
            Stretch(1, 1, 3, (Holder(0, True),)),
            Stretch(1, 3, 4, (Holder(1, False),)),
        ]
        series = gathered(2, *items)
        self.assertEqual(list(series.stretches), due)
        self.assertEqual([(change.place, change.domain) for change in series.changes], [(1, 0), (3, 1)])

    def test_a_way_of_two_domains(self):
        (stretch,) = gathered(1, (ACCEPTED, {3: (1, 1), 1: (1, 0)}, {}, 1)).stretches
        self.assertEqual(stretch.holders, (Holder(1, True), Holder(3, False)))

    def test_thinning_keeps_what_is_seen(self):
        points = [(0, 0), (1, 1), (2, 2), (3, 0), (4, 1), (5, 2), (9, 7)]
        self.assertEqual(plot.thinned(points, 0.3, 1), points)
        self.assertEqual(plot.thinned(points, 4, 1), [(0, 0), (2, 2), (3, 0), (4, 1), (5, 2), (9, 7)])
        self.assertEqual(plot.thinned(points, 100, 1), [(0, 0), (9, 7)])
        self.assertEqual(plot.thinned(points, 0.3, 2), [(0, 0), (2, 2), (3, 0), (5, 2), (9, 7)])
        self.assertEqual(plot.thinned([(0, 0), (5, 1)], 1, 3), [(0, 0), (5, 1)])

    def test_short_stretches_are_pooled(self):
        one, two = (Holder(1, False),), (Holder(2, True),)
        places = [(0, 10, one), (10, 11, ()), (11, 20, two), (20, 21, one), (21, 22, ()), (22, 23, one), (23, 30, two)]
        stretches = [Stretch(0, *place) for place in places] + [Stretch(1, 0, 1, one), Stretch(1, 1, 30, ())]
        self.assertEqual(plot.pooled(stretches, 1), stretches)
        pooled = [*stretches[:3], Stretch(0, 20, 23, one, 3), *stretches[6:]]
        self.assertEqual(plot.pooled(stretches, 2), pooled)
        self.assertEqual(plot.pooled([Stretch(0, 0, 1, one), Stretch(0, 1, 2, two)], 2), [Stretch(0, 0, 2, (*one, *two), 2)])


class Writing(unittest.TestCase):
    """Elements, numbers and texts."""

    def test_elements(self):
        self.assertEqual(svg.element("g"), "<g/>")
        written = '<g class="x" stroke-width="1.5"><a/><b/></g>'
        self.assertEqual(svg.element("g", "<a/>", "<b/>", class_="x", stroke_width=1.5, id=None), written)
        self.assertEqual(svg.text("<&>", 1, 2.25, fill='"'), '<text x="1" y="2.25" fill="&quot;">&lt;&amp;&gt;</text>')

    def test_numbers(self):
        for number, written in ((0, "0"), (100, "100"), (1.0, "1"), (0.104, "0.1"), (-2.5, "-2.5"), (1e9, "1000000000")):
            self.assertEqual(svg.number(number), written)

    def test_what_no_xml_may_hold(self):
        for sign in ("\0", "\x1b", "\x7f", "\ud800", "\udcff", "\ufffe", "\uffff", "\U0001f600", "\t", "]]>"):
            read = ElementTree.fromstring(svg.text(sign, 0, 0).encode("utf-8")).text
            self.assertIn(read, (sign, "\ufffd"))

    def test_long_texts_are_shortened_in_their_middle(self):
        self.assertEqual(svg.shortened("examples/case-a.txt", 16, 400), "examples/case-a.txt")
        for name in ("x" * 1000 + ".txt", "\u6f22" * 300, "i" * 500):
            short = svg.shortened(name, 16, 400)
            self.assertLessEqual(svg.width(short, 16), 400)
            self.assertGreater(svg.width(short, 16), 330)
            self.assertEqual((short[:9], short[-9:]), (name[:9], name[-9:]))
        self.assertEqual(svg.shortened("abc", 16, 1), "\u2026")

    def test_labels_are_moved_apart(self):
        self.assertEqual(panels.apart([0, 20, 40], 14, 0, 76), [0, 20, 40])
        self.assertEqual(panels.apart([30, 30], 14, 0, 76), [23, 37])
        self.assertEqual(panels.apart([76] * 4, 14, 0, 76), [34, 48, 62, 76])
        self.assertEqual(panels.apart([0] * 4, 14, 0, 76), [0, 14, 28, 42])
        source = random.Random(1)
        for _ in range(300):
            wanted = sorted(source.choice((0, 76, source.uniform(0, 76))) for _ in range(4))
            found = panels.apart(wanted, 14, 0, 76)
            self.assertTrue(all(low + 13.999 <= high for low, high in zip(found, found[1:])), (wanted, found))
            self.assertTrue(-0.001 <= found[0] and found[-1] <= 76.001, (wanted, found))


class Legible(unittest.TestCase):
    """A test that looks at the texts of a picture."""

    def assert_legible(self, picture: Picture, apart: bool = True) -> None:
        """See that no text is small, out of the picture or, if that is asked for, on another one."""
        boxes = [box(text) for text in picture.texts()]
        for text, (left, top, right, bottom) in zip(picture.texts(), boxes):
            self.assertGreaterEqual(float(text.get("font-size")), 10)
            inside = 0 <= left and 0 <= top and right <= picture.width and bottom <= picture.height
            self.assertTrue(inside, (text.text, left, top, right, bottom))
        places = sorted(zip(boxes, (text.text for text in picture.texts())), key=lambda place: place[0][1])
        for number, (one, said) in enumerate(places) if apart else ():
            below = itertools.takewhile(lambda place, bottom=one[3]: place[0][1] < bottom, places[number + 1 :])
            self.assertEqual([], [other for two, other in below if one[0] < two[2] and two[0] < one[2]], said)

    def assert_labels_apart(self, picture: Picture) -> None:
        """See that the labels of curves do not meet, and that each says the last value of its curve."""
        heights = sorted(float(text.get("y")) for text in picture.of_class("label"))
        self.assertTrue(all(low + 12 <= high for low, high in zip(heights, heights[1:])), heights)
        labels = {(text.get("data-domain"), text.get("data-count")): text.text for text in picture.of_class("label")}
        for one in picture.of_class("curve"):
            domain, count, final = (one.get(f"data-{name}") for name in ("domain", "count", "final"))
            self.assertEqual(labels.pop((domain, count)), f"{panels.PENS[count].title} {int(final):,}")
        self.assertEqual(labels, {})


def many_policies(count: int) -> Series:
    """Gather as many accepted policy changes as wanted."""
    return gathered(2, *((ACCEPTED, {place % 2: (1, 1)}, {}, place % 2) for place in range(count)))


def crowded() -> Series:
    """Gather a run that no cache makes: every count moves in every step, and ways change hands as often as can be drawn."""
    items = []
    for place in range(4096):
        owner = place // 25 + 5 * (place % 25 == 0)
        counts = {number: (place // 4, place // 3 + number, place // 2, place, 0, 0, 0) for number in range(16)}
        items.append((REFUSED if place % 3 else ACCEPTED, {owner % 16: (0xFFFF, 0xFF)}, counts, 0))
    return gathered(16, *items)


def odd_series() -> Iterator[Series]:
    """Make runs of all kinds, also such as come from no cache."""
    source = random.Random(5)
    yield gathered(16)
    yield gathered(2, (ACCEPTED, {0: (1, 1)}, {}, 0))
    yield gathered(2, *[(REFUSED, {}, {}, 0)] * 7)
    yield gathered(4, (ACCEPTED, {number: (15, number) for number in range(16)}, {7: (LARGEST,) * 7}, 0))
    yield many_policies(40)
    yield many_policies(400)
    yield crowded()
    for steps in (2, 10, 30, 100, 999, 1000):
        items = []
        for _ in range(steps):
            maps = {number: (source.getrandbits(16), source.getrandbits(16)) for number in range(source.choice((1, 3, 16)))}
            counts = {number: [source.choice((0, 5, 1000, LARGEST))] * 7 for number in (0, 1, 2)}
            answer = Answer("refused", (source.choice((3, 11)),)) if source.random() < 0.5 else ACCEPTED
            items.append((answer, maps, counts, source.randrange(16)))
        yield gathered(source.choice((2, 16)), *items)


class Drawing(Legible):
    """What is drawn of made-up steps."""

    def test_odd_runs(self):
        for series in odd_series():
            picture = drawn(series, "n" * 300)
            self.assert_legible(picture, apart=False)
            self.assert_labels_apart(picture)
            self.assertEqual(len(picture.of_class("way")), series.ways)
            self.assertEqual(len(picture.of_class("curve")), 4 * len(series.panels))

    def test_names_are_escaped(self):
        for name in ('<&>"\'.txt', "]]><script>alert(1)</script>", "a\u202eb", "caf\u00e9 \u6f22\u5b57", "&amp;"):
            picture = drawn(gathered(2), name)
            self.assertEqual(picture.root.find(f"{SVG}title").text, f"{name}: 1 set, 4 ways, rule 0, 0 steps")
            self.assertEqual(picture.texts()[0].text, name)

    def test_it_is_plain(self):
        allowed = {"svg", "title", "desc", "defs", "pattern", "rect", "path", "line", "g", "text"}
        for series in odd_series():
            picture = drawn(series)
            self.assertEqual({element.tag for element in picture.root.iter()} - {f"{SVG}{tag}" for tag in allowed}, set())
            self.assertEqual(picture.root.get("viewBox"), f"0 0 960 {picture.root.get('height')}")
            self.assertEqual((picture.root.get("version"), picture.root.get("font-family")), ("1.1", "sans-serif"))
            ground = next(element for element in picture.root if element.tag == f"{SVG}rect")
            self.assertEqual((ground.get("fill"), float(ground.get("height"))), ("#ffffff", picture.height))
            known = {f"url(#{pattern.get('id')})" for pattern in picture.root.iter(f"{SVG}pattern")}
            used = {element.get("fill") for element in picture.root.iter() if element.get("fill", "").startswith("url")}
            self.assertEqual(used - known, set())
            ids = Counter(element.get("id") for element in picture.root.iter() if element.get("id"))
            self.assertEqual(set(ids.values()), {1})

    def test_no_steps(self):
        picture = drawn(gathered(8))
        self.assertIn("The trace has no steps.", picture.said())
        self.assertEqual([text.text for text in picture.of_class("tick")], ["0"])
        self.assertEqual([text.text for text in picture.of_class("owner")], ["nobody"] * 8)
        self.assertEqual(picture.of_class("stretch"), [])

    def test_no_domain_in_use(self):
        picture = drawn(gathered(2, (REFUSED, {}, {}, 0), (REFUSED, {}, {}, 0)))
        self.assertIn("No domain has ways at any time.", picture.said())
        self.assertEqual([mark.get("data-place") for mark in picture.of_class("refused")], ["0", "1"])

    def test_one_step(self):
        picture = drawn(gathered(2, (ACCEPTED, {6: (3, 1)}, {}, 6)))
        left, width = picture.plot()
        for way, (locked, mark, said) in enumerate((("0", "6", "domain 6"), ("1", "6 locked", "domain 6, locked"))):
            (stretch,) = (one for one in picture.of_class("stretch") if one.get("data-way") == str(way))
            self.assertEqual(told([stretch], "domain", "from", "to", "locked"), [f"6 0 1 {locked}"])
            self.assertEqual((float(stretch.get("x")), float(stretch.get("width"))), (left, width))
            (band,) = (one for one in picture.of_class("way") if one.get("data-way") == str(way))
            self.assertEqual((band.get("y"), band.get("height")), (stretch.get("y"), stretch.get("height")))
            self.assertEqual([chip.text for chip in picture.of_class("chip") if chip.get("data-way") == str(way)], [mark])
            self.assertEqual([text.text for text in picture.of_class("owner") if text.get("data-way") == str(way)], [said])
        self.assertEqual([text.text for text in picture.of_class("tick")], ["0", "1"])

    def test_way_0_is_the_lowest(self):
        bands = {int(band.get("data-way")): float(band.get("y")) for band in drawn(gathered(16)).of_class("way")}
        self.assertEqual(sorted(bands, key=bands.get, reverse=True), list(range(16)))

    def test_locked_ways_look_otherwise(self):
        picture = drawn(gathered(2, (ACCEPTED, {6: (3, 1)}, {}, 6)))
        plain, locked = picture.of_class("stretch")
        self.assertEqual((plain.get("fill-opacity"), plain.get("stroke-dasharray")), (None, None))
        self.assertLess(float(locked.get("fill-opacity")), 0.5)
        self.assertTrue(locked.get("stroke-dasharray"))
        self.assertIn("locked (L): in the domain's hit map, not in its fill map", picture.said())

    def test_a_way_of_two_domains(self):
        picture = drawn(gathered(1, (ACCEPTED, {3: (1, 1), 1: (1, 0)}, {}, 1)))
        self.assertEqual([one.get("data-domain") for one in picture.of_class("stretch")], ["1", "3"])
        self.assertEqual([chip.text for chip in picture.of_class("chip")], ["1 locked + 3"])
        self.assertEqual([text.text for text in picture.of_class("owner")], ["domains 1L, 3"])

    def test_curves_are_told_apart_without_colour(self):
        pens = panels.PENS.values()
        self.assertEqual(tuple(sorted(panels.PENS)), tuple(sorted(plot.COUNTS)))
        for looks in zip(*((pen.dash, pen.thick, pen.title) for pen in pens)):
            self.assertEqual(len(set(looks)), 4)
        picture = drawn(many_policies(3))
        for domain in (0, 1):
            dashes = [one.get("stroke-dasharray") for one in picture.of_class("curve", domain)]
            self.assertEqual(len(set(dashes)), 4)

    def test_domains_are_told_apart_without_colour(self):
        self.assertEqual(len({(hatch.size, hatch.lines) for hatch in hatching.HATCHES}), 16)
        picture = drawn(gathered(16, (ACCEPTED, {number: (1 << number, 1 << number) for number in range(16)}, {}, 0)))
        self.assertEqual(len({one.get("fill") for one in picture.of_class("stretch")}), 16)
        self.assertEqual([chip.text for chip in picture.of_class("chip")], [str(number) for number in range(16)])
        patterns = [tuple(part.get("d") for part in one.iter(f"{SVG}path")) for one in picture.root.iter(f"{SVG}pattern")]
        self.assertEqual(len(set(patterns)), 16)
        for number in range(16):
            self.assertIn(f"\ndomain {number}\n", picture.said())

    def test_lines_are_few_or_none(self):
        picture = drawn(many_policies(40))
        lines = picture.of_class("change")
        self.assertEqual([line.get("data-place") for line in lines], [str(place) for place in range(40)])
        first = min(float(line.get("y1")) for panel in picture.of_class("panel") for line in panel.iter(f"{SVG}line"))
        lowest = max(float(band.get("y")) + float(band.get("height")) for band in picture.of_class("way"))
        for line in lines:
            self.assertEqual(line.get("x1"), line.get("x2"))
            self.assertTrue(float(line.get("y1")) < first < lowest <= float(line.get("y2")))
        picture = drawn(many_policies(41))
        self.assertEqual(picture.of_class("change"), [])
        self.assertIn("41 policy changes accepted, too many for a line each", picture.said())

    def test_crosses_are_thinned(self):
        series = gathered(2, *[(REFUSED, {}, {}, 0)] * 4096)
        marks = drawn(series).of_class("refused")
        self.assertLess(len(marks), 120)
        self.assertEqual(sum(int(mark.get("data-steps")) for mark in marks), 4096)
        places = [(int(mark.get("data-place")), int(mark.get("data-last"))) for mark in marks]
        self.assertEqual((places[0][0], places[-1][1]), (0, 4095))
        self.assertTrue(all(last + 1 == first for (_, last), (first, _) in zip(places, places[1:])))
        self.assertIn("\n4,096 steps\n", drawn(series).said())

    def test_crosses_stand_at_their_steps_and_apart(self):
        source = random.Random(3)
        for steps in (7, 90, 1000, 4096):
            answers = (REFUSED if source.random() < 0.2 else ACCEPTED for _ in range(steps))
            picture = drawn(gathered(2, *((answer, {}, {}, 0) for answer in answers)))
            left, width = picture.plot()
            places = [float(mark.get("d")[1:].split(",")[0]) for mark in picture.of_class("refused")]
            for mark, x in zip(picture.of_class("refused"), places):
                self.assertAlmostEqual(x, left + width * (int(mark.get("data-place")) + 0.5) / steps, delta=0.01)
            self.assertTrue(all(low + 8 <= high for low, high in zip(places, places[1:])), places)

    def test_numbers_of_refusals_stand_where_there_is_room(self):
        for steps, all_of_them in ((5, True), (25, True), (40, False), (60, False), (400, False)):
            picture = drawn(gathered(2, *[(Answer("refused", (11,)), {}, {}, 0)] * steps))
            crosses = sorted(float(mark.get("d")[1:].split(",")[0]) for mark in picture.of_class("refused"))
            numbers = picture.of_class("number")
            self.assertEqual(len(numbers) == len(crosses), all_of_them)
            for left, _, right, _ in map(box, numbers):
                self.assertEqual([x for x in crosses if left < x + 3.2 and x - 3.2 < right], [], steps)

    def test_owners_that_change_quickly_are_pooled(self):
        series = gathered(2, *((ACCEPTED, {place % 3: (3, 3)}, {}, 0) for place in range(4000)))
        picture = drawn(series)
        self.assertEqual([one.get("data-stretches") for one in picture.of_class("pooled")], ["4000", "4000"])
        self.assertEqual([one.get("data-domain") for one in picture.of_class("pooled")], ["0,1,2"] * 2)
        self.assertEqual([chip.text for chip in picture.of_class("chip")], ["4,000 turns"] * 2)
        self.assertIn("turns: so many owners in a row, each too briefly to be drawn", picture.said())

    def test_ticks_are_round(self):
        for steps, due in ((1, [0, 1]), (9, list(range(10))), (120, list(range(0, 121, 10))), (4096, list(range(0, 4001, 500)))):
            picture = drawn(gathered(2, *[(REFUSED, {}, {}, 0)] * steps))
            self.assertEqual([text.text for text in picture.of_class("tick")], [f"{tick:,}" for tick in due])
            left, width = picture.plot()
            for tick, text in zip(due, picture.of_class("tick")):
                self.assertAlmostEqual(float(text.get("x")), left + width * tick / steps, delta=0.01)

    def test_the_most_that_can_be_drawn(self):
        written = drawing.draw("crowded", "16 ways", crowded())
        self.assertLess(len(written.encode("utf-8")), 1_500_000)
        self.assertGreater(len(Picture(written).of_class("stretch")), 5000)


class Command(InFolder):
    """The command, with programs that answer by rote: case A."""

    def plot(self, *arguments: str) -> tuple[int, bytes, str]:
        """Draw case A, or what the arguments name."""
        with by_rote(lister=lambda data: case_a.LISTING, stepper=lambda data: case_a.STREAM):
            return call("plot", *arguments, stdin=case_a.FILE)

    def test_case_a(self):
        target = self.folder / "case-a.svg"
        status, out, err = self.plot(self.file("a.trace", case_a.FILE), "-o", str(target))
        size = target.stat().st_size
        said = f"{target}: 1 set, 4 ways, rule 0 (Tree-PLRU), 9 steps, 2 domains in use, {size:,} bytes\n"
        self.assertEqual((status, out, err), (0, b"", said))
        picture = Picture(target.read_bytes())
        name, about, *_ = (text.text for text in picture.texts())
        self.assertEqual((name, about), (str(self.folder / "a.trace"), "1 set, 4 ways, rule 0 (Tree-PLRU), 9 steps"))
        finals = {"hits": "1", "misses": "3", "evicted": "1", "written_back": "1"}
        found = {one.get("data-count"): one.get("data-final") for one in picture.of_class("curve", 0)}
        self.assertEqual(found, finals)
        self.assertEqual(told(picture.of_class("refused"), "place", "number"), ["7 6"])
        stretches = told(picture.of_class("stretch"), "way", "domain", "from", "to", "locked")
        self.assertEqual(stretches, ["0 0 0 9 0", "1 0 0 9 0", "2 1 1 9 0", "3 1 1 9 0"])
        self.assertIn("Domain 0 at the end: hits 1, misses 3, evictions 1, write-backs 1.", picture.root.find(f"{SVG}desc").text)

    def test_standard_streams(self):
        for arguments in (("-o", "-"), ("-", "-o", "-")):
            status, out, err = self.plot(*arguments)
            self.assertEqual((status, err), (0, ""))
            self.assertEqual(Picture(out).texts()[0].text, "standard input")

    def test_any_name(self):
        for name in ("<&>\"'.trace", "line\nbreak.trace", "\u6f22\u5b57.trace", "n" * 200 + ".trace"):
            status, out, _ = self.plot(self.file(name, case_a.FILE), "-o", "-")
            self.assertEqual(status, 0)
            Picture(out)

    @unittest.skipUnless(os.name == "posix", "names are bytes on POSIX only")
    def test_a_name_that_is_no_text(self):
        path = os.fsencode(self.folder) + b"/\xff\xfe.trace"
        try:
            with open(path, "wb") as file:
                file.write(case_a.FILE)
        except OSError:
            self.skipTest("this file system takes no such name")
        status, out, _ = self.plot(os.fsdecode(path), "-o", "-")
        self.assertEqual(status, 0)
        self.assertIn("\\udcff\\udcfe.trace", Picture(out).root.find(f"{SVG}title").text)

    def test_where_it_is_written_must_be_said(self):
        self.assert_bad(("plot", "x.trace"), "usage: dipperlock plot", "the following arguments are required: -o")

    def test_not_over_the_input(self):
        path = self.file("a.trace", case_a.FILE)
        self.assert_bad(("plot", path, "-o", path), "is the input itself, which would be lost")
        self.assertEqual((self.folder / "a.trace").read_bytes(), case_a.FILE)

    def test_what_is_no_trace(self):
        target = str(self.folder / "x.svg")
        for data in (b"", b"\0" * 7, random_bytes(random.Random(2), 99)):
            self.assert_bad(("plot", self.file("x.trace", data), "-o", target), "is refused by 10")
        self.assert_bad(("plot", self.file("x.txt", b"sets 1\n0 lod 0"), "-o", target), "x.txt:2:3")
        self.assert_bad(("plot", str(self.folder / "none.trace"), "-o", target), "cannot read", due=3)
        self.assertFalse(os.path.exists(target))

    def test_a_refused_geometry(self):
        target = str(self.folder / "x.svg")
        path = self.file("x.trace", tracefile.encode(Trace(3, 4, 0, ())))
        with by_rote(lister=lambda data: b"refused 1\n"):
            self.assert_bad(("plot", path, "-o", target), "is refused by 1: 3 sets, 4 ways")
        self.assertFalse(os.path.exists(target))

    def test_a_stream_that_is_cut(self):
        target, old = self.folder / "x.svg", b"an old picture"
        target.write_bytes(old)
        with by_rote(lister=lambda data: case_a.LISTING, stepper=lambda data: case_a.STREAM[:-1]):
            status, out, err = call("plot", "-o", str(target), stdin=case_a.FILE)
        self.assertEqual((status, out), (3, b""))
        self.assertIn("target/bin/stepper did not give a whole stream of this trace", err)
        self.assertEqual(target.read_bytes(), old)

    def test_a_folder_that_is_not_there(self):
        status, _, err = self.plot("-o", str(self.folder / "none" / "x.svg"))
        self.assertEqual(status, 3)
        self.assertIn("cannot write", err)

    @needs_no_rights
    def test_a_folder_that_takes_no_file(self):
        os.chmod(self.folder, 0o500)
        self.addCleanup(os.chmod, self.folder, 0o700)
        self.assertEqual(self.plot("-o", str(self.folder / "x.svg"))[0], 3)

    def test_a_fault_writes_nothing(self):
        target = self.folder / "x.svg"
        with mock.patch.object(drawing, "draw", side_effect=ZeroDivisionError("float division by zero")):
            self.assertEqual(self.plot("-o", str(target))[0], 4)
        self.assertEqual(os.listdir(self.folder), [])


def tallied(taken: run.Run) -> Iterator[dict[int, Counter]]:
    """Count the answers of a listing by domain, as they are after each step."""
    counts = {domain: Counter() for domain in range(16)}
    rises = {"hit": ("hits",), "fill": ("misses",), "evict": ("misses", "evicted"), "pass": ("misses",)}
    for step, answer, domain in zip(taken.trace.steps, taken.listing.answers, taken.domains):
        if answer.word == "policy" and step.argument == 0:
            counts[domain].clear()
        dirty = ("written_back",) if answer.word in ("evict", "flush") and answer.fields[-1] else ()
        if answer.word not in ("refused", "select"):
            counts[domain].update((*rises.get(answer.word, ()), *dirty))
        yield {number: Counter(of_one) for number, of_one in counts.items()}


def owned(taken: run.Run) -> dict[int, list[tuple[tuple[int, bool], ...]]]:
    """Say for each way and each step who has it after the step, and whether it is locked, by the accepted policy steps alone."""
    maps: dict[int, tuple[int, int]] = {}
    found: dict[int, list] = {way: [] for way in range(taken.trace.ways)}
    for step, answer in zip(taken.trace.steps, taken.listing.answers):
        if answer.word == "policy":
            maps[step.named] = step.argument & 0xFFFF, step.argument >> 16
        for way, of_way in found.items():
            held = ((domain, not fill >> way & 1) for domain, (hit, fill) in sorted(maps.items()) if hit >> way & 1)
            of_way.append(tuple(held))
    return found


def by_step(stretches: Iterable[ElementTree.Element], ways: int, steps: int) -> dict[int, list[tuple[tuple[int, bool], ...]]]:
    """Say for each way and each step who has it, by the stretches of a picture."""
    found: dict[int, list] = {way: [()] * steps for way in range(ways)}
    for one in stretches:
        way, start, end, domain, locked = (int(one.get(f"data-{name}")) for name in ("way", "from", "to", "domain", "locked"))
        for place in range(start, end):
            found[way][place] += ((domain, bool(locked)),)
    return found


@needs_programs
class WithPrograms(Legible):
    """Pictures of runs by the proved programs, held against their listings."""

    def picture(self, data: bytes, name: str = "trace") -> tuple[run.Run, Picture]:
        """Run a trace, and draw it."""
        taken = run.take(name, data)
        status, out, err = call("plot", "-o", "-", stdin=data)
        self.assertEqual((status, err), (0, ""))
        return taken, Picture(out)

    def assert_says_what_the_listing_says(self, taken: run.Run, picture: Picture) -> None:
        """Hold the curves' ends, the crosses and the lines of a picture against the listing."""
        finals: dict[int, dict[str, int]] = {}
        for one in picture.of_class("curve"):
            finals.setdefault(int(one.get("data-domain")), {})[one.get("data-count")] = int(one.get("data-final"))
        for domain, counts in taken.listing.counts.items():
            self.assertEqual(finals.pop(domain), {name: getattr(counts, name) for name in plot.COUNTS})
        self.assertTrue(all(not any(of_one.values()) for of_one in finals.values()), finals)  # those removed before the end
        answers = list(enumerate(taken.listing.answers))
        accepted = [str(place) for place, answer in answers if answer.word == "policy"]
        lines = [line.get("data-place") for line in picture.of_class("change")]
        self.assertEqual(lines, accepted if len(accepted) <= 40 else [])
        refused = Counter(place for place, answer in answers if answer.word == "refused")
        for mark in picture.of_class("refused"):
            first, last, steps = (int(mark.get(f"data-{name}")) for name in ("place", "last", "steps"))
            self.assertEqual(sum(refused.pop(place, 0) for place in range(first, last + 1)), steps)
        self.assertFalse(refused)

    def test_examples(self):
        for path in EXAMPLES:
            taken, picture = self.picture(tracefile.encode(run_text(path)))
            steps = len(taken.trace.steps)
            self.assert_says_what_the_listing_says(taken, picture)
            self.assert_legible(picture)
            self.assert_labels_apart(picture)
            self.assert_owners(taken, picture)
            self.assert_curves(taken, picture)
            self.assertIn(f"{words.geometry(taken.trace)}, {steps} steps", picture.said())

    def assert_curves(self, taken: run.Run, picture: Picture) -> None:
        """Hold each curve at each step against the answers counted up to it."""
        after = list(tallied(taken))
        for domain in sorted({int(one.get("data-domain")) for one in picture.of_class("curve")}):
            top = max(counts[domain][name] for counts in after for name in plot.COUNTS)
            for name in plot.COUNTS:
                due = [counts[domain][name] for counts in after]
                found = picture.values(domain, name, top, len(after))
                self.assertEqual([round(value) for value in found], due, (domain, name))

    def test_partition_shift(self):
        taken, picture = self.picture(tracefile.encode(run_text(ROOT / "examples" / "partition-shift.txt")))
        self.assertEqual(len(taken.trace.steps), 120)
        self.assertEqual([line.get("data-place") for line in picture.of_class("change")], ["0", "1", "60", "61", "96"])
        self.assertEqual(told(picture.of_class("refused"), "place", "number"), ["59 8"])
        gone = [one for one in picture.of_class("stretch") if one.get("data-way") in ("4", "5")]
        self.assertEqual(told(gone, "domain", "from", "to"), ["0 0 60", "1 61 120"] * 2)
        kinds = Counter(tracefile.KINDS[step.kind] for step in taken.trace.steps)
        self.assertTrue(kinds["load"] and kinds["store"] and kinds["flush"] == 3, kinds)
        hits = picture.values(1, "hits", 25, 120)
        self.assertTrue(hits[59] < 0.5 < 20 < hits[119])  # what the hand-over is for

    def test_long_runs(self):
        for moves in (10, 100, 3000):
            trace = lively(moves, moves)
            data = tracefile.encode(trace)
            before = sum(os.times()[:4])
            status, out, err = call("plot", "-o", "-", stdin=data)
            took = sum(os.times()[:4]) - before
            self.assertEqual((status, err), (0, ""))
            self.assertLess(took, 2)
            self.assertLess(len(out), 1_500_000)
            taken, picture = run.take("long", data), Picture(out)
            self.assertEqual(len(picture.of_class("panel")), 16)
            self.assert_says_what_the_listing_says(taken, picture)
            self.assert_labels_apart(picture)
            self.assert_legible(picture)
            self.assert_owners(taken, picture)
            self.assert_curves_near(taken, picture)

    def assert_owners(self, taken: run.Run, picture: Picture) -> None:
        """Hold the stretches against the accepted policy steps, and those that were pooled against the domains among them."""
        due = owned(taken)
        found = by_step(picture.of_class("stretch"), taken.trace.ways, len(taken.trace.steps))
        for one in picture.of_class("pooled"):
            way, start, end = (int(one.get(f"data-{name}")) for name in ("way", "from", "to"))
            among = due[way][start:end]
            domains = sorted({domain for held in among for domain, _ in held})
            self.assertEqual(one.get("data-domain"), ",".join(map(str, domains)))
            self.assertEqual(int(one.get("data-stretches")), len(list(itertools.groupby(among))))
            self.assertFalse(any(found[way][start:end]))
            found[way][start:end] = among
        for way, of_way in due.items():  # not all at once: to lay out where long lists differ takes minutes
            differ = [(way, place, *pair) for place, pair in enumerate(zip(found[way], of_way)) if pair[0] != pair[1]]
            self.assertEqual(differ[:3], [])

    def assert_curves_near(self, taken: run.Run, picture: Picture) -> None:
        """Hold thinned curves, as they are drawn, against the counts: three steps off, or a hundredth of the height, is near."""
        steps = len(taken.trace.steps)
        for panel in plot.gather(taken.trace.ways, run.moments(taken)).panels:
            for name, points in panel.curves.items():
                found = picture.values(panel.domain, name, panel.top, steps)
                self.assertAlmostEqual(found[-1], panel.final(name), delta=0.01 * max(panel.top, 1))
                ends = [place for place, _ in points[1:]] + [steps]
                for (start, value), end in zip(points, ends):
                    near = found[max(start - 3, 0) : end + 3]
                    off = min(abs(one - value) for one in near)
                    self.assertLess(off, 0.01 * max(panel.top, 1) + 0.5, (panel.domain, name, start))

    def test_short_runs(self):
        for steps in ((), (Step(0, POLICY, 0x0003_0003),), (Step(0, 1, 0),), (Step(16, 99, 1),)):
            taken, picture = self.picture(tracefile.encode(Trace(1, 2, 1, steps)))
            self.assert_says_what_the_listing_says(taken, picture)
            self.assert_legible(picture)

    def test_refused_files(self):
        status, out, err = call("plot", "-o", "-", stdin=tracefile.encode(Trace(3, 4, 0, ())))
        self.assertEqual((status, out), (2, b""))
        self.assertIn("standard input is refused by 1: 3 sets, 4 ways", err)


def run_text(path: object) -> Trace:
    """Assemble an example."""
    status, out, err = call("assemble", str(path), "-o", "-")
    assert status == 0, err
    return tracefile.decode(out)
