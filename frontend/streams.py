"""The standard streams: read and written until all is done, however little the system takes or gives at a time.

What is written goes past Python's own buffers, so that no write is left for the end of the process, where its failure would
have another exit status."""
from __future__ import annotations

import select
import sys
from collections.abc import Iterable
from typing import BinaryIO

from frontend.errors import MachineFailure, ReaderGone, reason

_MANY = 1 << 16  # characters of lines that are written together


class Cut(OSError):
    """A write that failed, and how many bytes were taken before."""

    def __init__(self, error: OSError, taken: int) -> None:
        super().__init__(error.errno, reason(error))
        self.taken = taken


def write_all(stream: BinaryIO, data: bytes) -> None:
    """Write all bytes; raise a Cut, or BrokenPipeError, if that cannot be done."""
    raw = getattr(stream, "raw", stream)
    rest = memoryview(data)
    while rest:
        try:
            taken = raw.write(rest)
        except BrokenPipeError:
            raise
        except OSError as error:
            raise Cut(error, len(data) - len(rest)) from error
        if taken is None:  # a pipe that is full, and that another program has set not to wait
            select.select((), (raw,), ())
        else:
            rest = rest[taken:]


def read_up_to(stream: BinaryIO, most: int) -> bytes:
    """Read to the end, or until as many bytes as wanted have come. The end is read once: a terminal goes on after it."""
    raw = getattr(stream, "raw", stream)
    pieces, missing = [], most
    while missing > 0:
        piece = raw.read(missing)
        if piece is None:  # a pipe that is empty, and that another program has set not to wait
            select.select((raw,), (), ())
            continue
        if not piece:
            break
        pieces.append(piece)
        missing -= len(piece)
    return b"".join(pieces)


def standard_input() -> BinaryIO:
    """Give standard input's bytes; say on a terminal that they are waited for."""
    if sys.stdin is None:
        raise MachineFailure("cannot read standard input: it is closed; name a file")
    if sys.stdin.isatty():
        tell("dipperlock: reading from standard input; end it with Ctrl-D")
    return sys.stdin.buffer


def write_out(data: bytes, already: int | None = None) -> None:
    """Write bytes to standard output. Where they are a piece of what is written there, `already` is how many were written before."""
    if sys.stdout is None:
        raise MachineFailure("cannot write standard output: it is closed")
    try:
        write_all(sys.stdout.buffer, data)
    except BrokenPipeError as error:
        raise ReaderGone() from error
    except Cut as cut:
        taken, of_all = (cut.taken, f" of {len(data):,}") if already is None else (already + cut.taken, "")
        part = f"; {taken:,}{of_all} bytes were written" if taken else ""
        raise MachineFailure(f"cannot write standard output: {reason(cut)}{part}") from cut


def write_out_text(text: str) -> None:
    """Write a text to standard output."""
    write_out(_encoded(text))


def write_out_lines(lines: Iterable[str]) -> None:
    """Write lines to standard output as they come, many at a time."""
    waiting, size, written = [], 0, 0
    for line in lines:
        waiting.append(line)
        size += len(line)
        if size >= _MANY:
            written += _write_piece(waiting, written)
            waiting, size = [], 0
    if waiting:
        _write_piece(waiting, written)


def _write_piece(lines: list[str], already: int) -> int:
    """Write some lines after those that were written already; give how many bytes they are."""
    data = _encoded("\n".join(lines) + "\n")
    write_out(data, already)
    return len(data)


def _encoded(text: str) -> bytes:
    """Give the bytes of a text; a name of a file may hold some that are no text."""
    return text.encode("utf-8", "surrogateescape")


def tell(text: str, end: str = "\n") -> None:
    """Write a line to standard error; nothing if it is closed, since then nobody wants to be told."""
    stream = sys.stderr
    if stream is None:
        return
    try:
        if hasattr(stream, "buffer"):
            write_all(stream.buffer, (text + end).encode(stream.encoding or "utf-8", "backslashreplace"))
        else:  # a stream put in its place, as tests do
            stream.write(text + end)
    except OSError as error:
        raise MachineFailure(f"cannot write standard error: {reason(error)}") from error
