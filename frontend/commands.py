"""What each command does, from its arguments to its exit status."""
from __future__ import annotations

import argparse

from frontend import check, explain, files, forewarn, isolate, paint, programs, records, run, state, streams
from frontend import text, tracefile, version, words
from frontend.errors import DIFFERENCE, DONE, BadInput
from frontend.files import Given
from frontend.logform import Log
from frontend.numbers import counted
from frontend.picture import drawing, plot
from frontend.telling import Teller, Wanted, programs_for


def list_trace(args: argparse.Namespace) -> int:
    """Print the listing of a trace, byte for byte as the lister gives it; that of a refused file too."""
    given = files.read_trace(args.file)
    programs.need("lister")
    written, listed = run.listing_of(given.data)
    why = None if listed.refused is None else run.why_refused(args.file, given.data, listed.refused)
    if not args.json:
        streams.write_out(written)
    elif why is None:
        streams.write_out_lines(records.lines(records.listed(given.title, tracefile.decode(given.data), listed)))
    else:
        streams.write_out_lines(records.lines((records.refused_file(given.title, listed.refused, why),)))
    if why is not None:
        raise BadInput(why)
    return DONE


def assemble(args: argparse.Namespace) -> int:
    """Turn a trace text into a trace file, and warn of what the cache will refuse whatever comes before it."""
    files.refuse_same(args.file, args.output)
    read = files.read_text(args.file)
    data = tracefile.encode(read.trace)
    files.write(args.output, data)
    for warning in forewarn.of(read):
        streams.tell(warning)
    if args.output != files.STREAM:
        made = f"{counted(len(read.trace.steps), 'step')}, {counted(len(data), 'byte')}"
        streams.tell(f"{files.title(args.output)}: {words.geometry(read.trace)}, {made}")
    return DONE


def show(args: argparse.Namespace) -> int:
    """Turn a trace file into its canonical text."""
    files.refuse_same(args.file, args.output)
    trace = run.decode(args.file, files.read_file(args.file))
    files.write(args.output, text.show(trace).encode("ascii"))
    return DONE


def isolate_domain(args: argparse.Namespace) -> int:
    """Compare what a domain, or each of those in use, sees in the whole run and in its struck-out run."""
    isolate.check_arguments(args)
    given = _read(args, *programs.NAMES)
    whole = run.take(given.name, given.data)
    if args.all:
        found = [isolate.isolated(whole, domain) for domain in isolate.in_use(whole)]
        write = isolate.tell_all if args.json else isolate.render_all
    else:
        found = [isolate.isolated(whole, args.domain)]
        write = isolate.tell_one if args.json else isolate.render_one
    for each in found:
        isolate.write_struck(args, each)
    lines = write(given.title, whole, found, paint.for_output())
    streams.write_out_lines(records.lines(lines) if args.json else lines)
    return DIFFERENCE if any(each.found.differences() for each in found) else DONE


def explain_trace(args: argparse.Namespace) -> int:
    """Tell a run step by step."""
    given = _read(args, "lister", "stepper")
    taken, wanted = run.take(given.name, given.data), _wanted(args)
    programs.need(*programs_for(taken.listing.answers))
    steps = Teller(given, taken.trace, wanted).tell(run.moments(taken))
    if args.json:
        lines = records.lines(explain.tell_records(taken, given.title, steps, wanted.all))
    else:
        lines = explain.Explainer(taken, given.title, paint.for_output(), args.all).lines(steps, wanted.all)
    streams.write_out_lines(lines)
    return DONE


def _wanted(args: argparse.Namespace) -> Wanted:
    """Give the steps that the options of explain ask for."""
    some = [frozenset(chosen) if chosen else None for chosen in (args.domain, args.set, args.word)]
    return Wanted(tuple(args.step) if args.step else None, *some)


def show_state(args: argparse.Namespace) -> int:
    """Show all tables, policies and counts as they are after a step."""
    given = _read(args, "lister", "stepper")
    lines = state.tell(given, args) if args.json else state.render(given, args)
    streams.write_out_lines(records.lines(lines) if args.json else lines)
    return DONE


def check_log(args: argparse.Namespace) -> int:
    """Hold the log of a simulation against the listing of its trace."""
    check.check_arguments(args)
    given = files.read_trace(args.file)
    log = Log(files.title(args.log), files.read_log(args.log), args.format)
    if not args.skip:
        log.refuse_strange()
    programs.need("lister")
    _, listed = run.listing_of(given.data)
    if args.format and listed.refused is not None:
        raise BadInput(run.why_refused(args.file, given.data, listed.refused))
    found = check.compare(listed, log, args.without_refused)
    report = check.Report(given, listed, log, found, args.max)
    streams.write_out_lines(records.lines(report.records()) if args.json else report.lines(paint.for_output()))
    return DIFFERENCE if found.differences else DONE


def plot_trace(args: argparse.Namespace) -> int:
    """Draw a run as one picture."""
    files.refuse_same(args.file, args.output)
    given = _read(args, "lister", "stepper")
    taken = run.take(given.name, given.data)
    series = plot.gather(taken.trace.ways, run.moments(taken))
    geometry = words.geometry(taken.trace)
    data = drawing.draw(given.title, geometry, series).encode("utf-8")
    files.write(args.output, data)
    if args.output != files.STREAM:
        made = f"{counted(series.steps, 'step')}, {counted(len(series.panels), 'domain')} in use, {counted(len(data), 'byte')}"
        streams.tell(f"{files.title(args.output)}: {geometry}, {made}")
    return DONE


def _read(args: argparse.Namespace, *needed: str) -> Given:
    """Read the trace that a command is given, and see that the programs that it needs are there.

    A file that is refused by 10 needs no program."""
    given = files.read_trace(args.file)
    run.decode(args.file, given.data)
    programs.need(*needed)
    return given


def tell_version() -> int:
    """Say which front end, which toolchain and which programs these are."""
    streams.write_out_text(version.report())
    return DONE
