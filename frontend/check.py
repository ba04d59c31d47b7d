"""A log held against the listing of its trace: what differs, and what there is to tell of each difference."""
from __future__ import annotations

import argparse
import itertools
import textwrap
from collections.abc import Iterator
from typing import NamedTuple

from frontend import explain, files, programs, records, run, tracefile, words
from frontend.errors import BadInput
from frontend.files import Given
from frontend.listing import FIELDS, Answer, Counts, Listing
from frontend.logform import DOMAIN, FILE, HEADER, STEP, Entry, Log, Reading
from frontend.numbers import counted
from frontend.paint import Paint
from frontend.quote import cut
from frontend.records import Record
from frontend.stepper import Row
from frontend.table import columns
from frontend.telling import Teller, Told, Wanted, programs_for
from frontend.tracefile import POLICY

OTHER, MISSING, EXTRA, SECOND = "other", "missing", "extra", "second"  # how a line differs, or that there is none
_RANK = {FILE: 0, HEADER: 1, STEP: 2, DOMAIN: 3}  # in which order differences are told
_NEXT = 3  # steps that are shown behind one that differs
_WIDTH = 100
_INDENT = " " * 12  # as wide as what stands before an answer
_NO_LINE = "no line"
_HEADER = ("sets", "ways", "rule", "steps")


class Difference(NamedTuple):
    """What differs: of what and how, the number of the step or domain, what is expected, the line, and the first of its kind."""

    of: str
    how: str
    number: int
    expected: Reading | None
    entry: Entry | None
    first: Entry | None = None

    @property
    def place(self) -> int | None:
        """Give the place of the step; None if it is none of a step, or a line too many that does not say of which."""
        stated = self.how != EXTRA or self.entry.number is not None
        return self.number if self.of == STEP and stated else None

    @property
    def found(self) -> Reading | None:
        """Give what the log says; None if it has no line."""
        return self.entry.reading if self.entry else None


class Checked(NamedTuple):
    """All differences, in the order of the run; the first line for each step; refused steps that need no line and have none."""

    differences: list[Difference]
    said: dict[int, Entry]
    spared: frozenset[int]

    @property
    def missing(self) -> int:
        """Count the lines that the log does not have."""
        return sum(difference.how == MISSING for difference in self.differences)

    @property
    def differing(self) -> int:
        """Count the lines that the log has and that differ."""
        return len(self.differences) - self.missing


class Scene(NamedTuple):
    """What is told of a step that differs, and the row of its address's set before it, if it has an address."""

    told: Told
    row: Row | None


def check_arguments(args: argparse.Namespace) -> None:
    """Refuse arguments that do not go together."""
    if args.file == files.STREAM and args.log == files.STREAM:
        raise BadInput("FILE and LOG cannot both be standard input; name a file for one of them")
    if len({form.has_place for form in args.format}) > 1:
        right = "put it into all, or into none if the lines are in the steps' order"
        raise BadInput(f"one --format has {{place}} and another has not; {right}")


def compare(listed: Listing, log: Log, without_refused: bool) -> Checked:
    """Hold a log against a listing; steps that are refused need no line if the log is without them."""
    due = _expected(listed)
    refused = {place for place, answer in enumerate(listed.answers) if without_refused and answer.word == "refused"}
    differences, firsts = [], {}
    for of, number, entry in _numbered(log.entries, len(listed.answers), refused):
        expected, first = due.get((of, number)), firsts.setdefault((of, number), entry)
        how = _how(entry, expected, first)
        if how is not None:
            differences.append(Difference(of, how, number, expected, entry, first))
    spared = frozenset(place for place in refused if (STEP, place) not in firsts)
    differences += _missing(due, firsts, spared)
    differences.sort(key=lambda found: (_RANK[found.of], found.number, found.entry.line if found.entry else 0))
    return Checked(differences, {number: entry for (of, number), entry in firsts.items() if of == STEP}, spared)


def _expected(listed: Listing) -> dict[tuple[str, int], Reading]:
    """Give what every line of a log should say, by what it is of and the number of its step or domain."""
    if listed.refused is not None:
        return {(FILE, 0): Reading("refused", (listed.refused,))}
    due = {(HEADER, 0): Reading("", listed.header)}
    due.update(((STEP, place), Reading(answer.word, answer.fields)) for place, answer in enumerate(listed.answers))
    due.update(((DOMAIN, domain), Reading("domain", (domain, *counts))) for domain, counts in listed.counts.items())
    return due


def _numbered(entries: list[Entry], steps: int, refused: set[int]) -> Iterator[tuple[str, int, Entry]]:
    """Give each line with what it is of, and its number; a line that does not say of which step is that of the next one."""
    given = itertools.chain((place for place in range(steps) if place not in refused), itertools.count(steps))
    for entry in entries:
        yield entry.of, next(given) if entry.number is None else entry.number, entry


def _how(entry: Entry, expected: Reading | None, first: Entry) -> str | None:
    """Say how a line differs; None if it does not. `first` is the first line of the same step or domain, perhaps itself."""
    if expected is None:
        return EXTRA
    if first is not entry:
        return SECOND
    return None if entry.reading.agrees(expected) else OTHER


def _missing(due: dict, firsts: dict, spared: frozenset[int]) -> Iterator[Difference]:
    """Give what a log has no line for. It may be without the header, and without any domain line."""
    needed = {FILE, STEP, *(of for of, _ in firsts)}
    for (of, number), expected in due.items():
        if of in needed and (of, number) not in firsts and not (of == STEP and number in spared):
            yield Difference(of, MISSING, number, expected, None)


def _scenes(given: Given, told: list[Difference]) -> dict[int, Scene]:
    """Run the trace, if a step of it differs, and give what there is to tell of those that do."""
    steps = {difference.number: difference.expected for difference in told if difference.of == STEP and difference.expected}
    if not steps:
        return {}
    answers = [Answer(*expected) for expected in steps.values()]
    programs.need("lister", "stepper", *programs_for(answers))
    taken = run.take(given.name, given.data)
    moments = (moment for moment in run.moments(taken) if moment.place in steps)
    found = Teller(given, taken.trace, Wanted()).tell(moments)
    return {each.moment.place: Scene(each, each.moment.rows[each.address.set] if each.address else None) for each in found}


class Report:
    """Tells what was found, as text or as objects; of the differences only as many as are wanted."""

    def __init__(self, given: Given, listed: Listing, log: Log, found: Checked, most: int) -> None:
        self._given, self._listed, self._log, self._found = given, listed, log, found
        self._trace = tracefile.decode(given.data) if listed.refused is None else None
        self._told = found.differences[:most]
        self._scenes = _scenes(given, self._told)

    def lines(self, paint: Paint) -> Iterator[str]:
        """Give it as text."""
        if self._trace is None:
            yield run.why_refused(self._given.name, self._given.data, self._listed.refused)
        else:
            yield f"{self._given.title}: {words.geometry(self._trace)}, {counted(len(self._trace.steps), 'step')}"
        for difference in self._told:
            yield ""
            yield from self._difference(difference, paint)
        yield ""
        yield from self._sum()
        yield paint("red" if self._found.differences else "green", self._verdict())

    def records(self) -> Iterator[Record]:
        """Give it as objects: the trace, the differences that are told, and the verdict."""
        if self._trace is None:
            why = run.why_refused(self._given.name, self._given.data, self._listed.refused)
            yield records.refused_file(self._given.title, self._listed.refused, why)
        else:
            yield records.head(self._given.title, self._trace)
        yield from map(self._record, self._told)
        yield {
            "type": "checked",
            "same": not self._found.differences,
            "agreed": len(self._log.entries) - self._found.differing,
            "differences": len(self._found.differences),
            "missing": self._found.missing,
            "passed_over": len(self._log.strange),
        }

    def _scene(self, difference: Difference) -> Scene | None:
        """Give what is known of the step that differs."""
        return self._scenes.get(difference.number) if difference.of == STEP else None

    def _difference(self, difference: Difference, paint: Paint) -> Iterator[str]:
        """Tell one difference."""
        scene, entry = self._scene(difference), difference.entry
        yield paint("bold", self._title(difference, scene))
        if scene and scene.told.source:
            yield "  " + paint("dim", f"{self._given.title}:{scene.told.source[0]}: {scene.told.source[1]}")
        if entry:
            yield "  " + paint("dim", f"{self._log.name}:{entry.line}: {self._log.line(entry.line)}")
        if scene and scene.told.route:
            yield f"  {scene.told.route}"
        yield "  expected  " + paint("green", str(difference.expected or _NO_LINE))
        yield from textwrap.wrap(_meaning(difference, scene), _WIDTH, initial_indent=_INDENT, subsequent_indent=_INDENT)
        yield "  found     " + paint("red", str(difference.found or _NO_LINE)) + _again(difference)
        if scene:
            yield from self._before(scene, paint)
            yield from self._next(difference.number, paint)

    def _title(self, difference: Difference, scene: Scene | None) -> str:
        """Say what differs."""
        if scene:
            address, step = scene.told.address, words.step(scene.told.moment.step)
            return f"step {difference.number}  {step}" + (f" ({words.located(*address)})" if address else "")
        if difference.of == HEADER:
            return "the header line: sets, ways, rule and number of steps"
        if difference.of == DOMAIN:
            return f"the line of domain {difference.number}"
        if difference.of == FILE:
            return "the whole trace"
        steps = len(self._trace.steps) if self._trace else 0
        last = f"its last is {steps - 1}" if steps else "it has none"
        which = "one line more than steps" if difference.place is None else f"step {cut(str(difference.place))}"
        return f"{which}  the trace has no such step; {last}"

    def _before(self, scene: Scene, paint: Paint) -> Iterator[str]:
        """Tell what stood before a step: the set of its address, or for a policy change the policies."""
        before, row = scene.told.moment.before, scene.row
        if scene.told.moment.step.kind == POLICY:
            yield "  " + paint("dim", "before the step")
            yield from (f"  {line}" for line in explain.told_maps(before, before))
        if row is None:
            return
        table = [(f"set {scene.told.address.set}", "before the step", "hit map", "fill map")]
        for way in range(self._trace.ways):
            owners = (explain.owners_of(domain_maps, way) for domain_maps in (before.hit, before.fill))
            table.append((f"way {way}", words.line(row, way), *owners))
        head, *body = columns([*table, ("word", words.replacement_word(self._trace, row.word), "", "")])
        yield "  " + paint("dim", head)
        yield from (f"  {line}" for line in body)

    def _next(self, place: int, paint: Paint) -> Iterator[str]:
        """Tell the steps behind one that differs, and what the log says of each; what differs is marked."""
        table = [(" ", "next", "step", "expected", "found")]
        for after, expected, entry in self._behind(place):
            differs = after not in self._found.spared and not (entry and entry.reading.agrees(expected))
            found = str(entry.reading) if entry else _NO_LINE
            table.append(("*" if differs else "", str(after), words.step(self._trace.steps[after]), str(expected), found))
        if len(table) > 1:
            head, *body = columns(table)
            yield paint("dim", head)
            yield from (paint("red", line) if line.startswith("*") else line for line in body)

    def _behind(self, place: int) -> Iterator[tuple[int, Reading, Entry | None]]:
        """Give the steps behind one: their places, what is expected of them, and the log's first line for each."""
        for after, answer in enumerate(self._listed.answers[place + 1 : place + 1 + _NEXT], place + 1):
            yield after, Reading(answer.word, answer.fields), self._found.said.get(after)

    def _sum(self) -> Iterator[str]:
        """Say how many lines agree, differ and are missing, and what was not compared."""
        found, lines = self._found, len(self._log.entries)
        agreed = lines - found.differing
        agree = f"{agreed:,} of {counted(lines, 'line')} {'agrees' if agreed == 1 else 'agree'}"
        yield f"{agree}; {found.differing:,} different, {found.missing:,} missing"
        more = len(found.differences) - len(self._told)
        if more:
            yield f"{counted(more, 'more difference')}; --max {len(found.differences)} tells all"
        if found.spared:
            yield f"{counted(len(found.spared), 'refused step')} without a line, as --without-refused says"
        partly = sum(None in entry.reading.values for entry in self._log.entries)
        if partly:
            yield f"{counted(partly, 'line')} compared in part: the form does not have all numbers of the word"
        if self._log.strange:
            first, passed = self._log.strange[0], counted(len(self._log.strange), "line")
            yield f"{passed} passed over, the first: {self._log.name}:{first}: {self._log.line(first)}"

    def _verdict(self) -> str:
        """Say in a line whether the log agrees."""
        if not self._found.differences:
            return f"{self._log.name} agrees with the listing."
        return f"{self._log.name} does not agree with the listing: {counted(len(self._found.differences), 'difference')}."

    def _record(self, difference: Difference) -> Record:
        """Give a difference as an object."""
        scene, entry = self._scene(difference), difference.entry
        told = scene.told if scene else None
        return {
            "type": "difference",
            "of": difference.of,
            "how": difference.how,
            "place": difference.place,
            "log_line": entry.line if entry else None,
            "log_text": self._log.line(entry.line) if entry else None,
            "source": {"line": told.source[0], "text": told.source[1]} if told and told.source else None,
            "step": records.step(told.moment.step) if told else None,
            "expected": _reading(difference.of, difference.expected),
            "found": _reading(difference.of, difference.found),
            "said": told.said if told else None,
            "set": {"set": told.address.set, **records.row(scene.row)} if scene and scene.row else None,
            "policies": _policies(told) if told and told.moment.step.kind == POLICY else None,
            "next": [self._next_record(*each) for each in self._behind(difference.number)] if told else [],
        }

    def _next_record(self, place: int, expected: Reading, entry: Entry | None) -> Record:
        """Give a step behind one that differs as an object."""
        step, found = records.step(self._trace.steps[place]), entry.reading if entry else None
        return {"place": place, "step": step, "expected": _reading(STEP, expected), "found": _reading(STEP, found)}


def _meaning(difference: Difference, scene: Scene | None) -> str:
    """Say what is expected in words; nothing if that is no answer to a step and no domain line."""
    if difference.of == DOMAIN and difference.expected:
        return words.counts(Counts(*difference.expected.values[1:]))
    return scene.told.said if scene else ""


def _again(difference: Difference) -> str:
    """Say of a second line where the first one stands."""
    return f", in a second line; the first is line {difference.first.line}" if difference.how == SECOND else ""


def _policies(told: Told) -> list[Record]:
    """Give the policies before a step as objects."""
    pairs = enumerate(zip(told.moment.before.hit, told.moment.before.fill))
    return [{"domain": domain, **records.policy(*both)} for domain, both in pairs if any(both)]


def _reading(of: str, reading: Reading | None) -> Record | None:
    """Give what is expected, or what a line says, as an object; a field that is not said is null."""
    if reading is None:
        return None
    if of == HEADER:
        return dict(zip(_HEADER, reading.values))
    if of == DOMAIN:
        return {"domain": reading.values[0], "counts": records.counts(Counts(*reading.values[1:]))}
    pairs = list(zip(FIELDS[reading.word], reading.values))
    given = records.answer(Answer(reading.word, tuple(value if isinstance(value, int) else 0 for _, value in pairs)))
    strange = {name: value for name, value in pairs if not isinstance(value, int) or given[name] is True and value > 1}
    return {**given, **strange}
