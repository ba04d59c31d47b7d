"""The struck-out list: what the purger keeps of a trace, held against what documents 01 and 02 say that it keeps.

Which steps are struck out goes by their kind and by the domain that they belong to. That is the one for which they
were taken in the whole run, as the stepper says. So the front end can say it without a rule of the cache."""
from __future__ import annotations

import re
from dataclasses import replace
from itertools import zip_longest

from frontend.errors import MachineFailure
from frontend.numbers import counted
from frontend.quote import quoted
from frontend.run import Run
from frontend.text import show_step
from frontend.tracefile import ACCESSES, Step, Trace

_NUMBER = "(0|[1-9][0-9]{0,19})"
_LINE = re.compile(" ".join([_NUMBER] * 3))


def kept(whole: Run, domain: int, lines: bytes) -> Trace:
    """Give the trace of the purger's lines; raise MachineFailure if they are not the struck-out list of a domain."""
    due = tuple(step for place, step in enumerate(whole.trace.steps) if not _is_struck(whole, domain, place))
    given = _steps(lines, domain)
    for place, (got, wanted) in enumerate(zip_longest(given, due)):
        if got != wanted:
            raise _differs(domain, _where(place, got, wanted))
    return replace(whole.trace, steps=given)


def _is_struck(whole: Run, domain: int, place: int) -> bool:
    """Tell whether a step is an access or a flush that belongs to another domain; one that belongs to none stays."""
    return whole.trace.steps[place].kind in ACCESSES and whole.domains[place] not in (domain, None)


def _steps(lines: bytes, domain: int) -> tuple[Step, ...]:
    """Read the purger's lines: domain or core, kind and argument."""
    *whole, rest = lines.decode("ascii", "replace").split("\n")
    if rest:
        raise _differs(domain, f"it breaks off within line {len(whole) + 1}, {quoted(rest)}")
    matches = [_LINE.fullmatch(line) for line in whole]
    if None in matches:
        place = matches.index(None)
        due = "a domain or core, a kind and an argument"
        raise _differs(domain, f"line {place + 1} is {quoted(whole[place])}, and should be {due}")
    return tuple(Step(*map(int, match.groups())) for match in matches)


def _where(place: int, got: Step | None, wanted: Step | None) -> str:
    """Say how two lists differ from a place on."""
    if got is None:
        return f"it ends after {counted(place, 'step')}, and '{show_step(wanted)}' should follow"
    if wanted is None:
        return f"it should end after {counted(place, 'step')}, and '{show_step(got)}' follows"
    return f"its step {place} is '{show_step(got)}', and should be '{show_step(wanted)}'"


def _differs(domain: int, what: str) -> MachineFailure:
    """Make the error of a purger whose output is not the struck-out list."""
    return MachineFailure(f"target/bin/purger did not give the struck-out list of domain {domain}: {what}")
