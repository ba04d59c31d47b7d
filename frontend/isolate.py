"""The comparison of runs with their struck-out runs: done for a domain or for each in use, and laid out side by side."""
from __future__ import annotations

import argparse
from collections.abc import Callable, Iterator
from dataclasses import replace
from typing import NamedTuple

from frontend import files, programs, records, run, struck, text, tracefile, words
from frontend.compare import Compared, Comparison, Ending, Pair, compare
from frontend.errors import BadInput, MachineFailure
from frontend.numbers import counted
from frontend.paint import Paint
from frontend.records import Record
from frontend.run import Run
from frontend.stepper import DOMAINS
from frontend.table import columns
from frontend.tracefile import Step, Trace

MOST_TOLD = 5  # differences that are told in a sentence each
MOST_ENDINGS = 8  # differences at the end that are shown in the table
DOMAIN = "{domain}"  # what stands in a file's name for the number of a domain
_MARK = "<- first difference"


class Isolated(NamedTuple):
    """A domain, the run of its struck-out list, and how that compares with the whole run."""

    domain: int
    struck: Run
    found: Comparison


def check_arguments(args: argparse.Namespace) -> None:
    """Refuse arguments that do not go together."""
    if args.all == (args.domain is not None):
        raise BadInput("isolate takes either a domain, 0 to 15, or --all, which is each domain in use")
    if args.all and args.output is not None and DOMAIN not in args.output:
        raise BadInput(f"with --all, the name behind -o has to have {DOMAIN} in it, in place of which each domain's number stands")
    if args.output == files.STREAM:
        raise BadInput("standard output has the comparison; write the struck-out trace to a file")
    if args.output is not None:
        files.refuse_same(args.file, args.output)


def in_use(whole: Run) -> list[int]:
    """List the domains that any step belongs to."""
    return sorted({domain for domain in whole.domains if domain is not None and domain < DOMAINS})


def isolated(whole: Run, domain: int) -> Isolated:
    """Run the struck-out list of a domain, and compare what the domain sees."""
    whole = run.with_own(whole, domain)
    kept = struck.kept(whole, domain, programs.purger(tracefile.encode(whole.trace), domain))
    struck_run = replace(run.with_own(_take_struck(kept), domain), blocks=None)  # one for each domain may have to be kept
    return Isolated(domain, struck_run, compare(whole, struck_run, domain))


def _take_struck(kept: Trace) -> Run:
    """Run a struck-out trace, whose geometry the lister has just taken."""
    try:
        return run.take("the struck-out trace", tracefile.encode(kept))
    except BadInput as refused:
        raise MachineFailure(f"target/bin/lister takes the trace, but {refused}") from refused


def write_struck(args: argparse.Namespace, each: Isolated) -> None:
    """Write the struck-out trace of a domain where that is asked for: as a text by a name that ends in .txt, else as a trace file."""
    if args.output is None:
        return
    name = args.output.replace(DOMAIN, str(each.domain))
    files.refuse_same(args.file, name)  # a number in a name may make it another's
    files.write(name, text.contents(name, tracefile.encode(each.struck.trace)))


def render_one(name: str, whole: Run, found: list[Isolated], paint: Paint) -> Iterator[str]:
    """Lay the comparison of one domain out for a reader."""
    (domain, struck_run, comparison) = found[0]
    differences = comparison.differences()
    first = differences[0] if differences else None
    yield f"{name}: {words.geometry(whole.trace)}, {counted(len(whole.trace.steps), 'step')}"
    yield _struck_out(domain, whole.trace, struck_run.trace)
    yield ""
    yield f"Steps of domain {domain}, their answers, and how many ways their lookups visited"
    yield from _pair_table(comparison.own, _own_step, first, paint)
    yield ""
    yield f"Domain {domain} and the core records at the end"
    yield from _ending_table(comparison.endings, first, paint)
    yield ""
    yield "Policy changes of other domains: accepted, or the refusal"
    yield from _pair_table(comparison.others, words.step, first, paint)
    yield ""
    yield from (paint("red" if differences else "green", line) for line in _conclusion(domain, differences))


def render_all(name: str, whole: Run, found: list[Isolated], paint: Paint) -> Iterator[str]:
    """Lay the verdict on each domain in use out, a line each."""
    yield f"{name}: {words.geometry(whole.trace)}, {counted(len(whole.trace.steps), 'step')}"
    for domain, struck_run, comparison in found:
        differences = comparison.differences()
        gone = len(whole.trace.steps) - len(struck_run.trace.steps)
        verdict = f"{counted(len(differences), 'difference')}, the first: {_sentence(differences[0])}" if differences else "no difference"
        own = f"{counted(len(comparison.own), 'step')} of its own, {gone:,} struck out"
        yield paint("red" if differences else "green", f"domain {domain}: {own}: {verdict}")
    if not found:
        yield "No step belongs to a domain."


def tell_one(name: str, whole: Run, found: list[Isolated], _paint: Paint) -> Iterator[Record]:
    """Give the comparison of one domain as objects: each thing that is compared, and the verdict."""
    yield records.head(name, whole.trace)
    comparison = found[0].found
    for kind, pairs in (("own", comparison.own), ("other", comparison.others)):
        for pair in pairs:
            place = {"place": pair.places[0], "struck_place": pair.places[1], "step": records.step(pair.step)}
            yield {"type": "pair", "of": kind, **place, **_seen(pair)}
    for ending in comparison.endings:
        yield {"type": "ending", "of": ending.name, **_seen(ending)}
    yield from _verdicts(whole, found)


def tell_all(name: str, whole: Run, found: list[Isolated], _paint: Paint) -> Iterator[Record]:
    """Give the verdict on each domain in use as an object."""
    yield records.head(name, whole.trace)
    yield from _verdicts(whole, found)


def _verdicts(whole: Run, found: list[Isolated]) -> Iterator[Record]:
    """Give the verdicts on some domains."""
    for domain, struck_run, comparison in found:
        differences = comparison.differences()
        yield {
            "type": "verdict",
            "domain": domain,
            "same": not differences,
            "differences": len(differences),
            "first": _sentence(differences[0]) if differences else None,
            "own_steps": len(comparison.own),
            "struck_out": len(whole.trace.steps) - len(struck_run.trace.steps),
        }


def _seen(thing: Compared) -> Record:
    """Give what is seen in both runs."""
    return {"whole": thing.seen[0], "struck": thing.seen[1], "same": thing.same}


def _struck_out(domain: int, whole: Trace, struck: Trace) -> str:
    """Say how many steps are struck out, and how many of them are by cores."""
    gone = len(whole.steps) - len(struck.steps)
    by_core = sum(step.by_core for step in whole.steps) - sum(step.by_core for step in struck.steps)
    said = f"Struck out: {counted(gone, 'step')}, the accesses and flushes of domains other than {domain}"
    return f"{said}, {by_core:,} of them by cores whose selectors named such a domain" if by_core else said


def _own_step(step: Step) -> str:
    """Say what a step of the chosen domain does, and which core makes it, if one does."""
    return words.step(step) if step.by_core else words.deed(step)


def _pair_table(pairs: list[Pair], say: Callable[[Step], str], first: Compared | None, paint: Paint) -> list[str]:
    """Lay steps of both runs out, one a line."""
    if not pairs:
        return ["  none"]
    rows = [(" ", "place", "struck-out place", "step", "answer", "struck-out answer", "")]
    for pair in pairs:
        rows.append(_marked((*map(str, pair.places), say(pair.step), *pair.seen), pair, first))
    return _coloured(columns(rows, right=(1, 2)), [None, *pairs], paint)


def _ending_table(endings: list[Ending], first: Compared | None, paint: Paint) -> list[str]:
    """Lay what stands at the end of both runs out: all that is the same, and the first differences."""
    hidden = {id(ending) for ending in [ending for ending in endings if not ending.same][MOST_ENDINGS:]}
    shown = [ending for ending in endings if id(ending) not in hidden]
    rows = [(" ", "", "whole run", "struck-out run", "")]
    rows += [_marked((ending.name, *ending.seen), ending, first) for ending in shown]
    table = _coloured(columns(rows), [None, *shown], paint)
    return table + [paint("red", f"*  and {counted(len(hidden), 'more difference')}")] if hidden else table


def _marked(cells: tuple[str, ...], thing: Compared, first: Compared | None) -> tuple[str, ...]:
    """Put a mark before a row that differs, and one behind the first that does."""
    return ("" if thing.same else "*", *cells, _MARK if thing is first else "")


def _coloured(lines: list[str], things: list[Compared | None], paint: Paint) -> list[str]:
    """Colour the head of a table and the rows that differ."""
    head, *body = zip(lines, things)
    return [paint("dim", head[0]), *(line if thing.same else paint("red", line) for line, thing in body)]


def _conclusion(domain: int, differences: list[Compared]) -> list[str]:
    """Say whether there are differences, how many, and what the first ones are."""
    if not differences:
        return [f"No difference: domain {domain} sees the same in both runs, and each of its lookups visits as many ways."]
    lines = [f"{counted(len(differences), 'difference')}: domain {domain} does not see the same in both runs."]
    for place, thing in enumerate(differences[:MOST_TOLD]):
        lines.append(f"{'Next' if place else 'First'} difference: {_sentence(thing)}")
    hidden = len(differences) - MOST_TOLD
    return lines + [f"And {hidden:,} more."] if hidden > 0 else lines


def _sentence(thing: Compared) -> str:
    """Say where something differs, and what it is in both runs."""
    if isinstance(thing, Ending):
        where = f"at the end, {thing.name}"
    else:
        where = f"step {thing.places[0]} ({thing.places[1]} in the struck-out run), {words.step(thing.step)}"
    return f"{where}: '{thing.seen[0]}' in the whole run, '{thing.seen[1]}' in the struck-out run."
