"""The command line: its commands and their arguments, and how each ending becomes an exit status."""
from __future__ import annotations

import argparse
import os
import sys
import traceback
from pathlib import Path
from typing import NoReturn, TextIO

from frontend import addresses, commands, convert, files, helptext, listing, logform, streams
from frontend.errors import DONE, FAULT, INTERRUPTED, MACHINE_FAILED, BadInput, Failure, MachineFailure, reason
from frontend.quote import cut

DEBUG = "DIPPERLOCK_DEBUG"
_MOST_DIGITS = 9  # of a place or a number of a set
_MOST = 1000  # characters of a message about the command line, or about a fault of ours


class UsageError(BadInput):
    """A command line that cannot be read, told with its usage."""

    def report(self) -> str:
        """Give the text as it is."""
        return str(self)


def main(arguments: list[str]) -> int:
    """Run a command line and give its exit status; tell every error without a traceback."""
    try:
        return _run(arguments)
    except Failure as failure:
        return _end(failure.report(), failure.status)
    except OSError as error:
        return _end(f"dipperlock: {reason(error)}", MACHINE_FAILED)
    except MemoryError:
        return _end("dipperlock: there is not enough memory", MACHINE_FAILED)
    except KeyboardInterrupt:
        return INTERRUPTED
    except Exception as error:  # whatever it is, it is ours, and must not look like a difference that was found
        return _end(_fault(error), FAULT)


def _end(message: str, status: int) -> int:
    """Tell why a command line failed, if that can be told, and give its status, which says it too."""
    try:
        if message:
            streams.tell(message)
    except MachineFailure:
        pass
    return status


def _fault(error: Exception) -> str:
    """Say in a line that the front end itself is at fault, and where; with a traceback where that is asked for."""
    if os.environ.get(DEBUG):
        return traceback.format_exc().rstrip("\n")
    place = traceback.extract_tb(error.__traceback__)[-1]
    what = cut(" ".join(f"{type(error).__name__}: {error}".split()), _MOST)
    where = f"{Path(place.filename).name}, line {place.lineno}"
    return f"dipperlock: a fault in the front end itself, not in what it was given ({what}; {where}); {DEBUG}=1 shows more"


def _run(arguments: list[str]) -> int:
    """Read the command line and run its command."""
    parser = _parser()
    if not arguments:
        raise UsageError(parser.format_help().rstrip("\n"))
    try:
        args = parser.parse_args(arguments)
    except SystemExit as done:
        return int(done.code or DONE)
    return args.run(args)


class _Parser(argparse.ArgumentParser):
    """A parser whose help and errors are written as all else is, so that a failure to write them is told."""

    def print_help(self, file: TextIO | None = None) -> None:
        """Write the help to standard output."""
        streams.write_out_text(self.format_help())

    def error(self, message: str) -> NoReturn:
        """Refuse the command line."""
        raise UsageError(f"{self.format_usage()}{self.prog}: error: {cut(message, _MOST)}")


class _Append(argparse.Action):
    """An option that may be given more than once, and adds all that it names."""

    def __call__(self, _parser: argparse.ArgumentParser, args: argparse.Namespace, values: list, _option: str | None = None) -> None:
        """Add what was named."""
        setattr(args, self.dest, [*(getattr(args, self.dest) or ()), *values])


class _Version(argparse.Action):
    """The option that says which versions there are, and ends."""

    def __call__(self, parser: argparse.ArgumentParser, *_: object) -> NoReturn:
        """Say it."""
        sys.exit(commands.tell_version())


def _parser() -> argparse.ArgumentParser:
    """Build the parser of the whole command line."""
    parser = _Parser(
        prog="dipperlock",
        description=helptext.ABOUT,
        epilog=f"{helptext.first_examples()}\n\n{helptext.STATUS}",
        formatter_class=argparse.RawDescriptionHelpFormatter,
    )
    what = "say which version this is, of the toolchain and the programs too, and whether they are up to date"
    parser.add_argument("--version", action=_Version, nargs=0, help=what)
    subs = parser.add_subparsers(title="commands", metavar="COMMAND", required=True)
    _add_list(subs)
    _add_explain(subs)
    _add_state(subs)
    _add_isolate(subs)
    _add_check(subs)
    _add_plot(subs)
    _add_assemble(subs)
    _add_show(subs)
    _add_convert(subs)
    return parser


def _add_list(subs: argparse._SubParsersAction) -> None:
    """Add the command that prints a listing."""
    sub = _command(subs, "list", "print the listing of a trace", helptext.LIST)
    _add_trace(sub)
    _add_json(sub)
    sub.set_defaults(run=commands.list_trace)


def _add_assemble(subs: argparse._SubParsersAction) -> None:
    """Add the command that makes a trace file."""
    sub = _command(subs, "assemble", "turn a trace text into a trace file", helptext.ASSEMBLE)
    sub.add_argument("file", metavar="FILE.txt", help="the trace text; - is standard input")
    what = "the trace file to write; - is standard output"
    sub.add_argument("-o", dest="output", metavar="FILE", required=True, help=what)
    sub.set_defaults(run=commands.assemble)


def _add_show(subs: argparse._SubParsersAction) -> None:
    """Add the command that makes a trace text."""
    sub = _command(subs, "show", "turn a trace file into a trace text", helptext.SHOW)
    sub.add_argument("file", metavar="FILE", help="the trace file; - is standard input")
    what = "the text to write (default: print it)"
    sub.add_argument("-o", dest="output", metavar="FILE.txt", default=files.STREAM, help=what)
    sub.set_defaults(run=commands.show)


def _add_isolate(subs: argparse._SubParsersAction) -> None:
    """Add the command that compares a run with its struck-out run."""
    sub = _command(subs, "isolate", "compare a run with its struck-out run", helptext.ISOLATE)
    sub.add_argument("file", metavar="FILE", help="a trace file or a trace text; - is standard input")
    sub.add_argument("domain", metavar="DOMAIN", nargs="?", type=_domain, help="the chosen domain, 0 to 15")
    sub.add_argument("--all", action="store_true", help="each domain in use, a line with the verdict for each")
    what = "write the struck-out trace too, as a text if the name ends in .txt; with --all, {domain} in the name is the number"
    sub.add_argument("-o", dest="output", metavar="FILE", help=what)
    _add_json(sub)
    sub.set_defaults(run=commands.isolate_domain)


def _add_explain(subs: argparse._SubParsersAction) -> None:
    """Add the command that tells a run step by step."""
    sub = _command(subs, "explain", "tell a run step by step", helptext.EXPLAIN)
    _add_trace(sub)
    what = "show every set that a policy step changed, not only the first few"
    sub.add_argument("--all", action="store_true", help=what)
    what = "only these steps, by place: 7, 100-120, or 3,7-9"
    sub.add_argument("--step", metavar="PLACES", type=_places, action=_Append, help=what)
    sub.add_argument("--domain", metavar="N", type=_domain, action="append", help="only steps of this domain, a core's too")
    what = "only accesses and flushes in this set, and policy changes that changed it; other sets are not shown"
    sub.add_argument("--set", metavar="N", type=_number, action="append", help=what)
    what = f"only steps with this answer: {', '.join(listing.FIELDS)}"
    sub.add_argument("--word", metavar="WORD", choices=tuple(listing.FIELDS), action="append", help=what)
    sub.add_argument("--refused", dest="word", action="append_const", const="refused", help="only refused steps")
    _add_json(sub)
    sub.set_defaults(run=commands.explain_trace)


def _add_state(subs: argparse._SubParsersAction) -> None:
    """Add the command that shows the tables at some moment."""
    sub = _command(subs, "state", "show all tables, policies and counts after a step", helptext.STATE)
    _add_trace(sub)
    which = sub.add_mutually_exclusive_group()
    which.add_argument("--after", metavar="N", type=_number, help="after step N; without it, at the end")
    which.add_argument("--before", metavar="N", type=_number, help="before step N; before step 0 the cache is fresh")
    _add_json(sub)
    sub.set_defaults(run=commands.show_state)


def _add_convert(subs: argparse._SubParsersAction) -> None:
    """Add the command that makes trace files of an address trace."""
    sub = _command(subs, "convert", "turn an address trace into trace files", helptext.CONVERT)
    what = "the address trace (default, and -: standard input)"
    sub.add_argument("file", metavar="FILE", nargs="?", default=files.STREAM, help=what)
    what = "its form: din, lackey or csv; known where FILE's name ends in .din, .lackey or .csv"
    sub.add_argument("--from", dest="form", choices=tuple(addresses.FORMS), help=what)
    what = "the trace file to write, a trace text if the name ends in .txt; - is standard output; {window} writes all windows"
    sub.add_argument("-o", dest="output", metavar="OUT", required=True, help=what)
    sub.add_argument("--sets", metavar="N", type=convert.read_sets, default=64, help="a power of two up to 256 (default: 64)")
    sub.add_argument("--ways", metavar="N", type=convert.read_ways, default=8, help="2, 4, 8 or 16 (default: 8)")
    sub.add_argument("--rule", metavar="RULE", type=convert.read_rule, default=0, help="tree, nru or lru (default: tree)")
    sub.add_argument("--domain", metavar="N", type=_domain, default=0, help="whose accesses these are (default: 0)")
    sub.add_argument("--hit", metavar="MAP", type=convert.read_map, help="its hit map (default: all ways)")
    sub.add_argument("--fill", metavar="MAP", type=convert.read_map, help="its fill map (default: the hit map)")
    sub.add_argument("--window", metavar="N", type=_number, help="which window (default: 0)")
    sub.set_defaults(run=convert.convert_addresses, refuse=sub.error)


def _add_check(subs: argparse._SubParsersAction) -> None:
    """Add the command that holds a log against the listing."""
    sub = _command(subs, "check", "hold the log of an RTL simulation against the listing", helptext.CHECK)
    sub.add_argument("file", metavar="FILE", help="a trace file or a trace text; - is standard input")
    sub.add_argument("log", metavar="LOG", help="the log; - is standard input")
    what = "a form of the log's lines, such as '{place} {word} {fields}'; may be given more than once"
    sub.add_argument("--format", metavar="FORM", type=_form, action="append", default=[], help=what)
    sub.add_argument("--max", metavar="N", type=_most, default=1, help="how many differences are told (default: 1)")
    sub.add_argument("--skip", action="store_true", help="pass over lines that fit no form, and say how many there were")
    sub.add_argument("--without-refused", action="store_true", help="the log has no lines for steps that the model refuses")
    _add_json(sub)
    sub.set_defaults(run=commands.check_log)


def _add_plot(subs: argparse._SubParsersAction) -> None:
    """Add the command that draws a run."""
    sub = _command(subs, "plot", "draw a run as one picture, in SVG", helptext.PLOT)
    _add_trace(sub)
    what = "the picture to write; - is standard output"
    sub.add_argument("-o", dest="output", metavar="FILE.svg", required=True, help=what)
    sub.set_defaults(run=commands.plot_trace)


def _add_json(sub: argparse.ArgumentParser) -> None:
    """Add the option for whoever scripts."""
    sub.add_argument("--json", action="store_true", help="write objects of JSON, one a line; docs/output.schema.json has their keys")


def _command(subs: argparse._SubParsersAction, name: str, short: str, long: str) -> argparse.ArgumentParser:
    """Add a command with its help and its example."""
    form = argparse.RawDescriptionHelpFormatter
    return subs.add_parser(name, help=short, description=long, epilog=helptext.examples(name), formatter_class=form)


def _add_trace(sub: argparse.ArgumentParser) -> None:
    """Add the argument that names a trace, standard input where it is absent."""
    what = "a trace file or a trace text (default, and -: standard input)"
    sub.add_argument("file", metavar="FILE", nargs="?", default=files.STREAM, help=what)


def _domain(word: str) -> int:
    """Read the number of a domain."""
    if word.isascii() and word.isdigit() and len(word) <= 2 and int(word) <= 15:
        return int(word)
    raise argparse.ArgumentTypeError(f"{word!r} is not a domain; domains are the decimal numbers 0 to 15")


def _number(word: str) -> int:
    """Read a place or a number of a set."""
    if word.isascii() and word.isdigit() and len(word) <= _MOST_DIGITS:
        return int(word)
    raise argparse.ArgumentTypeError(f"{word!r} is not a number; write it in decimal, from 0")


def _most(word: str) -> int:
    """Read how many differences are to be told."""
    most = _number(word)
    if most < 1:
        raise argparse.ArgumentTypeError(f"{word!r} is too small; at least one difference is told")
    return most


def _form(word: str) -> logform.Form:
    """Read a form of a log's lines."""
    try:
        return logform.Form(word)
    except logform.BadForm as bad:
        raise argparse.ArgumentTypeError(str(bad)) from bad


def _places(word: str) -> list[range]:
    """Read places of steps: numbers and ranges, with commas between."""
    return [_some(item) for item in word.split(",")]


def _some(item: str) -> range:
    """Read a place, or a range of places with its last one."""
    first, dash, last = item.partition("-")
    low = _number(first)
    high = _number(last) if dash else low
    if low > high:
        raise argparse.ArgumentTypeError(f"{item!r} runs downwards; write {high}-{low}")
    return range(low, high + 1)
