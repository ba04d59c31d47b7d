"""The command `convert`: an address trace becomes trace files for one domain, each with as many accesses as it holds."""
from __future__ import annotations

import argparse
import contextlib
import os
import tempfile
from collections.abc import Iterable, Iterator
from dataclasses import dataclass
from itertools import islice
from typing import BinaryIO

from frontend import addresses, files, maps, streams, text, tracefile, words
from frontend.errors import DONE, BadInput, MachineFailure, reason
from frontend.numbers import counted
from frontend.quote import quoted
from frontend.tracefile import MAX_SETS, NUMBERS_OF_WAYS, POLICY, RULE_NUMBERS, Step, Trace

ROOM = tracefile.MAX_STEPS - 1  # accesses of a window; its first step is the policy change
WINDOW = "{window}"  # what stands in a file's name for the number of a window
_PIECE = 1 << 18  # bytes of an address trace that are read at a time
_SETS = tuple(1 << power for power in range(MAX_SETS.bit_length()))


@dataclass(frozen=True)
class Head:
    """What every window begins with: a fresh cache, and the policy change that gives the domain its maps."""

    sets: int
    ways: int
    rule: int
    domain: int
    hit: int
    fill: int

    def trace(self, accesses: Iterable[tuple[int, int]]) -> Trace:
        """Make the trace of a window."""
        first = Step(self.domain, POLICY, self.hit | self.fill << maps.WAYS)
        steps = (first, *(Step(self.domain, kind, address) for kind, address in accesses))
        return Trace(self.sets, self.ways, self.rule, steps)

    def told(self) -> str:
        """Say the geometry, the domain and its maps."""
        owner = f"domain {self.domain} with hit map {maps.both(self.hit)} and fill map {maps.both(self.fill)}"
        return f"{words.geometry(self.trace(()))}, {owner}"


class Windows:
    """The windows of an address trace, given one after the other; how many there are is known when all have been given."""

    def __init__(self, name: str, form: str) -> None:
        self._name, self._form = name, form
        self.count, self.accesses = 0, 0

    def __iter__(self) -> Iterator[list[tuple[int, int]]]:
        """Read the whole trace, and give its accesses; raise BadInput at the end if a line is bad, or if there is no access."""
        title, form = files.title(self._name), addresses.FORMS[self._form]
        lines = addresses.Lines(title, files.pieces(self._name, _PIECE), form.left_out)
        accesses = form.read(lines)
        window = list(islice(accesses, ROOM))
        while window:
            self.count += 1
            self.accesses += len(window)
            yield window
            window = list(islice(accesses, ROOM))
        lines.fail()
        if not self.count:
            raise BadInput(f"{title} has no access; in the form {self._form} '{form.example}' is one")

    def note(self, number: int) -> str:
        """Say of a window where it comes from."""
        first, last = number * ROOM, min((number + 1) * ROOM, self.accesses) - 1
        held = f"access {first:,}" if first == last else f"accesses {first:,} to {last:,}"
        return f"window {number:,} of {self.count:,} of {files.title(self._name)} ({self._form}): {held}"


def convert_addresses(args: argparse.Namespace) -> int:
    """Turn an address trace into the trace file of one of its windows, or of each."""
    head, windows = _head(args), Windows(args.file, _form(args))
    if WINDOW not in args.output:
        return _convert_one(args, head, windows)
    if args.window is not None:
        args.refuse(f"argument --window: {WINDOW} in the name behind -o writes every window; leave one of the two out")
    return _convert_all(args, head, windows)


def _convert_one(args: argparse.Namespace, head: Head, windows: Windows) -> int:
    """Write one window."""
    files.refuse_same(args.file, args.output)
    wanted, steps, data = args.window or 0, 0, b""
    for number, accesses in enumerate(windows):
        if number == wanted:
            steps, data = len(accesses) + 1, tracefile.encode(head.trace(accesses))
    if not steps:
        there = "there is one window, 0" if windows.count == 1 else f"there are {windows.count:,}, 0 to {windows.count - 1:,}"
        raise BadInput(f"{files.title(args.file)} has no window {wanted:,}; {there}")
    files.write(args.output, text.contents(args.output, data, windows.note(wanted)))
    where = "standard output" if args.output == files.STREAM else files.title(args.output)
    made = f"{_accesses(steps - 1)}, {counted(steps, 'step')}"
    more = windows.count > 1 and args.window is None
    others = f"; --window N, 0 to {windows.count - 1:,}, picks another, and {WINDOW} in the name writes all" if more else ""
    streams.tell(f"{where}: {head.told()}, window {wanted:,} of {windows.count:,}, {made}{others}")
    return DONE


def _convert_all(args: argparse.Namespace, head: Head, windows: Windows) -> int:
    """Write every window to its own file. They are kept in a temporary file until it is known that no line is bad."""
    with _kept(_name(args.output, 0)) as kept:
        for accesses in windows:
            kept.write(tracefile.encode(head.trace(accesses)))
        for number in range(windows.count):
            files.refuse_same(args.file, _name(args.output, number))
        kept.seek(0)
        for number in range(windows.count):
            name, data = _name(args.output, number), kept.read(tracefile.LARGEST_FILE)
            _write_nth(name, text.contents(name, data, windows.note(number)), number, windows.count)
    made = f"{_accesses(windows.accesses)}, {counted(windows.accesses + windows.count, 'step')}"
    each = counted(windows.count, "window") + (", each in its own file" if windows.count > 1 else "")
    streams.tell(f"{files.title(args.output)}: {head.told()}, {each}, {made}")
    return DONE


@contextlib.contextmanager
def _kept(name: str) -> Iterator[BinaryIO]:
    """Make a temporary file in the folder of another, where there has to be room anyway. It has no name, and leaves nothing."""
    try:
        with tempfile.TemporaryFile(dir=os.path.dirname(name) or os.curdir) as file:
            yield file
    except OSError as error:
        raise MachineFailure(f"cannot write {files.title(name)}: {reason(error)}") from error


def _write_nth(name: str, data: bytes, number: int, count: int) -> None:
    """Write one of many files; where that fails, tell how many there are by then."""
    try:
        files.write(name, data)
    except MachineFailure as failure:
        raise MachineFailure(f"{failure}; {number:,} of {counted(count, 'window')} were written before") from failure


def _name(output: str, number: int) -> str:
    """Give the name of a window's file."""
    return output.replace(WINDOW, str(number))


def _form(args: argparse.Namespace) -> str:
    """Give the form of the address trace, by the option or by the file's name."""
    endings = {form: f".{form}" for form in addresses.FORMS}
    known = [form for form, ending in endings.items() if args.file.lower().endswith(ending)]
    if args.form is None and not known:
        why = f"the form of {files.title(args.file)} is not known by a name that ends in {_either(endings.values())}"
        args.refuse(f"argument --from: {why}; give --from {_either(endings)}")
    return args.form or known[0]


def _head(args: argparse.Namespace) -> Head:
    """Give what the options say of the cache and the domain; refuse maps that a cache of so many ways refuses."""
    every = (1 << args.ways) - 1
    hit = every if args.hit is None else args.hit
    fill = hit if args.fill is None else args.fill
    for option, word in (("--hit", hit), ("--fill", fill)):
        if word & ~every:
            above = maps.members(word & ~every)[0]
            args.refuse(f"argument {option}: way {above} is not below --ways {args.ways}; ways go from 0 to {args.ways - 1}")
    if not hit:
        args.refuse("argument --hit: the hit map is empty, and a domain without ways makes no accesses; name a way or more")
    if fill & ~hit:
        outside = maps.members(fill & ~hit)[0]
        right = "a domain fills only where it hits"
        args.refuse(f"argument --fill: way {outside} is not in the hit map, {maps.both(hit)}; {right}")
    return Head(args.sets, args.ways, args.rule, args.domain, hit, fill)


def read_sets(word: str) -> int:
    """Read the option that says the number of sets."""
    right = f"the number of sets is a power of two from 1 to {MAX_SETS}, the most that a trace file holds"
    return _known(word, {str(number): number for number in _SETS}, right)


def read_ways(word: str) -> int:
    """Read the option that says the number of ways."""
    return _known(word, {str(number): number for number in NUMBERS_OF_WAYS}, f"the number of ways is {_either(map(str, NUMBERS_OF_WAYS))}")


def read_rule(word: str) -> int:
    """Read the option that names the rule."""
    return _known(word, RULE_NUMBERS, "rules are tree (or tree-plru), nru and lru")


def read_map(word: str) -> int:
    """Read an option that is a map, as a trace text has it."""
    try:
        return maps.parse(word)
    except maps.BadMap as bad:
        raise argparse.ArgumentTypeError(str(bad)) from bad


def _known(word: str, known: dict[str, int], right: str) -> int:
    """Read an option that takes only a few words."""
    if word not in known:
        raise argparse.ArgumentTypeError(f"{quoted(word)} will not do; {right}")
    return known[word]


def _accesses(number: int) -> str:
    """Write a number of accesses."""
    return "1 access" if number == 1 else f"{number:,} accesses"


def _either(items: Iterable[str]) -> str:
    """Write alternatives."""
    *others, last = items
    return f"{', '.join(others)} or {last}"
