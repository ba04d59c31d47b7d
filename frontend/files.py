"""Reading and writing files and the standard streams by name, with errors in words."""
from __future__ import annotations

import contextlib
import errno
import os
import stat
from collections.abc import Iterator
from dataclasses import dataclass
from typing import BinaryIO

from frontend import assembler, source, streams, tracefile
from frontend.errors import BadInput, MachineFailure, reason
from frontend.quote import named
from frontend.replace import replace_file
from frontend.text import NAME_END

STREAM = "-"
LARGEST_TEXT = 1024 * tracefile.MAX_STEPS  # bytes; that is ten times the longest line that `show` writes, for each step
LARGEST_LOG = 4096 * tracefile.MAX_STEPS  # bytes
_STANDARD_INPUT = 0
_STANDARD_OUTPUT = 1
_NOT_BESIDE = (errno.EACCES, errno.EPERM, errno.EBUSY)  # what a folder says that takes no new file, or does not let the old one go


@dataclass(frozen=True)
class Given:
    """A trace that somebody names: its name, the trace file, and where that was assembled of a text, the text."""

    name: str
    data: bytes
    text: assembler.Assembled | None = None

    @property
    def title(self) -> str:
        """Name it in a message."""
        return title(self.name)

    def source(self, place: int) -> tuple[int, str] | None:
        """Give the line of the text that a step stands on, and its number; None where there is no text."""
        if self.text is None:
            return None
        number = self.text.step_lines[place]
        return number, self.text.source.line(number)


def title(name: str) -> str:
    """Name a file in a message."""
    return "standard input" if name == STREAM else named(name)


def read_file(name: str) -> bytes:
    """Read a trace file, or standard input for `-`; of one that is too long, one byte too many."""
    with _opened(name) as stream:
        return streams.read_up_to(stream, tracefile.LARGEST_FILE + 1)


def pieces(name: str, size: int) -> Iterator[bytes]:
    """Read a file, or standard input for `-`, piece by piece to its end; each piece has that size, but the last is smaller."""
    with _opened(name) as stream:
        piece = streams.read_up_to(stream, size)
        while len(piece) == size:
            yield piece
            piece = streams.read_up_to(stream, size)
        yield piece


def read_text(name: str) -> assembler.Assembled:
    """Read a trace text, or standard input for `-`, and assemble it."""
    with _opened(name) as stream:
        data = streams.read_up_to(stream, LARGEST_TEXT + 1)
    return _assemble(name, data)


def read_log(name: str) -> bytes:
    """Read the log of a simulation, or standard input for `-`; raise BadInput for one that is too long."""
    with _opened(name) as stream:
        data = streams.read_up_to(stream, LARGEST_LOG + 1)
    if len(data) > LARGEST_LOG:
        share = f"{LARGEST_LOG // tracefile.MAX_STEPS:,} for each of the {tracefile.MAX_STEPS:,} steps that a trace can have"
        most = f"more than {LARGEST_LOG:,} bytes, the most that a log may have ({share})"
        raise BadInput(f"{title(name)} has {most}; keep those of its lines that are of the cache, with grep for instance")
    return data


def read_trace(name: str) -> Given:
    """Read a trace file, or a trace text as the trace file that it assembles to.

    A text is known by its name or by what it holds. The latter is never in doubt: a number of sets up to 256 has a byte 0,
    so that no trace file which the cache takes could be read as a text."""
    by_name = name.lower().endswith(NAME_END)
    with _opened(name) as stream:
        data = streams.read_up_to(stream, tracefile.LARGEST_FILE + 1)
        if not by_name and not source.is_text(data):
            return Given(name, data)
        if len(data) > tracefile.LARGEST_FILE:  # else its end has been read
            data += streams.read_up_to(stream, LARGEST_TEXT + 1 - len(data))
    try:
        text = _assemble(name, data)
        return Given(name, tracefile.encode(text.trace), text)
    except source.SourceErrors as errors:
        known = "" if by_name else f"\n{title(name)}: this was taken as a trace text, since it holds text; a trace file is binary"
        raise source.SourceErrors(f"{errors}{known}") from errors


def write(name: str, data: bytes) -> None:
    """Write a whole file, or to standard output for `-`; where that fails, an old file is as it was."""
    if name == STREAM:
        streams.write_out(data)
        return
    try:
        replace_file(name, data)
    except OSError as error:
        raise MachineFailure(f"cannot write {title(name)}: {reason(error)}{_hint(name, error)}") from error


def refuse_same(name: str, target: str) -> None:
    """Refuse to write a file over the one that it is made from."""
    given, wanted = _found(name, _STANDARD_INPUT), _found(target, _STANDARD_OUTPUT)
    if given is None or wanted is None or not stat.S_ISREG(given.st_mode):
        return
    if os.path.samestat(given, wanted):
        where = "standard output" if target == STREAM else title(target)
        raise BadInput(f"{where} is the input itself, which would be lost; write to another file")


@contextlib.contextmanager
def _opened(name: str) -> Iterator[BinaryIO]:
    """Open a file, or standard input for `-`; tell what goes wrong with it then and later."""
    try:
        if name == STREAM:
            yield streams.standard_input()
        else:
            with open(name, "rb") as stream:
                yield stream
    except OSError as error:
        raise MachineFailure(f"cannot read {title(name)}: {reason(error)}") from error


def _assemble(name: str, data: bytes) -> assembler.Assembled:
    """Assemble a text that is not too long."""
    if len(data) > LARGEST_TEXT:
        share = f"{LARGEST_TEXT // tracefile.MAX_STEPS:,} for each of the {tracefile.MAX_STEPS:,} steps that a trace can have"
        raise BadInput(f"{title(name)} has more than {LARGEST_TEXT:,} bytes, the most that a trace text may have ({share})")
    return assembler.read(title(name), data)


def _hint(name: str, error: OSError) -> str:
    """Say after a failed write what became of an old file, and what could be done."""
    if not os.path.isfile(name):
        return ""
    if error.errno in _NOT_BESIDE and os.access(name, os.W_OK):
        return "; the file is as it was. A new one is made beside it first; '-o - > FILE' writes over the old one"
    return "; the file is as it was"


def _found(name: str, standard: int) -> os.stat_result | None:
    """Give what stands under a name, or behind a standard stream for `-`; None if there is nothing."""
    try:
        return os.fstat(standard) if name == STREAM else os.stat(name)
    except OSError:
        return None
