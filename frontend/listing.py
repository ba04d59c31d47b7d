"""The lister's listing, taken apart into answers and domain lines, and held against the form that a whole one has."""
from __future__ import annotations

import re
from dataclasses import dataclass
from typing import NamedTuple

from frontend import maps, tracefile
from frontend.errors import MachineFailure
from frontend.numbers import counted
from frontend.quote import quoted
from frontend.tracefile import Trace

DOMAINS = 16
FILE_REFUSED = 10  # the number by which a file is refused that has not the length, steps or sets of a trace file
FIELDS = {
    "hit": ("way",),
    "fill": ("way",),
    "evict": ("way", "tag", "dirty"),
    "pass": (),
    "flush": ("way", "dirty"),
    "absent": (),
    "policy": ("dropped", "dirty_dropped"),
    "select": ("cs", "ds", "es"),
    "refused": ("number",),
}
_NUMBER = "(0|[1-9][0-9]{0,19})"
_REFUSED = re.compile("refused (1|10)")
_HEADER = re.compile(" ".join([_NUMBER] * 4))
_STEP = re.compile(f"{_NUMBER} ([a-z]+)((?: {_NUMBER})*)")
_DOMAIN = re.compile(" ".join(["domain", *[_NUMBER] * 8]))


@dataclass(frozen=True)
class Answer:
    """A step's answer: a word of the listing and its fields."""

    word: str
    fields: tuple[int, ...]

    def __str__(self) -> str:
        """Give the answer as the listing has it."""
        return " ".join((self.word, *map(str, self.fields)))


class Counts(NamedTuple):
    """A domain's counts, in the order of its line."""

    hits: int
    misses: int
    evicted: int
    written_back: int
    flushed: int
    fills: int
    dropped: int


@dataclass(frozen=True)
class Listing:
    """A listing: the number by which the file is refused, or the header, the answers and the domains' counts."""

    refused: int | None
    header: tuple[int, ...]
    answers: tuple[Answer, ...]
    counts: dict[int, Counts]


class NotWhole(MachineFailure):
    """An output of the lister that is not a whole listing of its file."""

    def __init__(self, what: str) -> None:
        super().__init__(f"target/bin/lister did not give a whole listing of this trace: {what}")


def parse(data: bytes) -> Listing:
    """Take a listing apart; raise NotWhole if it is not of a listing's form."""
    *lines, rest = data.decode("ascii", "replace").split("\n")
    if rest:
        raise NotWhole(f"it breaks off within line {len(lines) + 1}, {quoted(rest)}")
    if not lines:
        raise NotWhole("it is empty")
    refused = _REFUSED.fullmatch(lines[0])
    if refused and len(lines) == 1:
        return Listing(int(refused[1]), (), (), {})
    header = _numbers(_HEADER, lines, 0, "sets, ways, rule and number of steps, or 'refused' and 1 or 10 with nothing after it")
    end = 1 + header[3]
    if len(lines) < end:
        raise NotWhole(f"it says {counted(header[3], 'step')}, and ends after the lines of {len(lines) - 1:,}")
    answers = tuple(_answer(lines, place) for place in range(header[3]))
    return Listing(None, header, answers, _counts(lines, end))


def check(listed: Listing, data: bytes) -> None:
    """Hold a listing against its file; raise NotWhole if it is another's, or cut."""
    fault = tracefile.why_refused(data)
    if fault and listed.refused != FILE_REFUSED:
        raise NotWhole(f"it is not 'refused {FILE_REFUSED}', and the file is refused by {FILE_REFUSED}: {fault}")
    if not fault and listed.refused == FILE_REFUSED:
        raise NotWhole(f"it is 'refused {FILE_REFUSED}', and the file has the length, steps and sets of a trace file")
    if listed.refused is not None:
        return
    trace = tracefile.decode(data)
    header = trace.sets, trace.ways, trace.rule, len(trace.steps)
    if listed.header != header:
        written = [" ".join(map(str, numbers)) for numbers in (listed.header, header)]
        raise NotWhole(f"its first line is '{written[0]}', and the file's numbers are '{written[1]}'")
    due = _with_ways(trace, listed.answers)
    if list(listed.counts) != due:
        written = [", ".join(map(str, domains)) or "none" for domains in (listed.counts, due)]
        raise NotWhole(f"its domain lines are those of {written[0]}, and by its own answers {written[1]} have ways at the end")


def _with_ways(trace: Trace, answers: tuple[Answer, ...]) -> list[int]:
    """List the domains that have ways at the end: those whose last accepted policy has a hit map.

    This asks nothing of the cache. Only so can a listing be told from one whose last lines are missing."""
    accepted = (step for step, answer in zip(trace.steps, answers) if answer.word == "policy")
    hit = {step.named: step.argument & maps.LARGEST for step in accepted}
    return sorted(domain for domain, word in hit.items() if word)


def _numbers(form: re.Pattern, lines: list[str], place: int, what: str) -> tuple[int, ...]:
    """Read the numbers of a line; `what` says what should stand there."""
    match = form.fullmatch(lines[place])
    if not match:
        raise NotWhole(f"line {place + 1} is {quoted(lines[place])}, and should be {what}")
    return tuple(map(int, match.groups()))


def _answer(lines: list[str], place: int) -> Answer:
    """Take a step's line apart into its answer."""
    match = _STEP.fullmatch(lines[1 + place])
    fields = tuple(map(int, match[3].split())) if match else ()
    if not match or match[1] != str(place) or match[2] not in FIELDS or len(FIELDS[match[2]]) != len(fields):
        raise NotWhole(f"line {place + 2} is {quoted(lines[1 + place])}, and should be the answer to step {place}")
    return Answer(match[2], fields)


def _counts(lines: list[str], start: int) -> dict[int, Counts]:
    """Take the domain lines apart into each domain's counts."""
    counts: dict[int, Counts] = {}
    for place in range(start, len(lines)):
        least = max(counts, default=-1) + 1
        domain, *seven = _numbers(_DOMAIN, lines, place, "a domain and its seven counts, or the end")
        if not least <= domain < DOMAINS:
            raise NotWhole(f"line {place + 1} is {quoted(lines[place])}, and domains go upwards from 0 to {DOMAINS - 1}")
        counts[domain] = Counts(*seven)
    return counts
