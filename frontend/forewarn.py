"""What `assemble` warns of: a geometry by which the whole file will be refused, and steps that can only be refused.

These are the refusals that document 01 takes from the input alone. Which steps they hold of is tested against the lister."""
from __future__ import annotations

from collections.abc import Iterator

from frontend import culprits
from frontend.assembler import Assembled
from frontend.source import MOST_SHOWN
from frontend.tracefile import MAX_SETS, NUMBERS_OF_WAYS, RULES, Trace



def of(read: Assembled) -> Iterator[str]:
    """Give the warnings about a text, each with its line; of many steps, the first ones and how many there are."""
    geometry = list(outside(read.trace))
    for word, message in geometry:
        said = f"the whole file will be refused by 1: {message}"
        yield read.source.warn(read.header_lines[word], said)
    if geometry:
        return
    found = list(_refused(read))
    for line, message in found[:MOST_SHOWN]:
        yield read.source.warn(line, message)
    if len(found) > MOST_SHOWN:
        yield f"{read.source.name}: {len(found):,} steps can only be refused, the first {MOST_SHOWN} shown"


def outside(trace: Trace) -> Iterator[tuple[str, str]]:
    """List which of a geometry's three numbers are outside the limits, and what would be right."""
    sets = trace.sets
    if not 1 <= sets <= MAX_SETS or sets & (sets - 1):
        yield "sets", f"{sets} sets; the number of sets is a power of two from 1 to {MAX_SETS}"
    if trace.ways not in NUMBERS_OF_WAYS:
        yield "ways", f"{trace.ways} ways; the number of ways is 2, 4, 8 or 16"
    if trace.rule not in RULES:
        yield "rule", f"rule {trace.rule}; rules are {', '.join(f'{number} ({name})' for number, name in RULES.items())}"


def _refused(read: Assembled) -> Iterator[tuple[int, str]]:
    """List the lines of the steps that can only be refused, and why."""
    for step, line in zip(read.trace.steps, read.step_lines):
        found = culprits.from_input(step, read.trace.ways)
        if found is not None:
            yield line, f"this step can only be refused, by {found[0]}. {found[1]}"
