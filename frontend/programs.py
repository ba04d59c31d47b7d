"""Running the proved programs in target/bin: every answer about a cache comes from them."""
from __future__ import annotations

import contextlib
import os
import signal
import subprocess
import tempfile
import time
from collections.abc import Iterator
from pathlib import Path
from typing import BinaryIO

from frontend.build import build
from frontend.crates import newest_source
from frontend.errors import MachineFailure, reason
from frontend.quote import cut
from frontend.streams import tell

ROOT = Path(__file__).resolve().parent.parent
BIN = ROOT / "target" / "bin"
NAMES = ("lister", "purger", "stepper", "parts")
_MOST_SAID = 2000  # characters of what a program says on standard error that are passed on
_PIECE = 1 << 16  # bytes of an output that nobody looks at, read at a time


def lister(trace: bytes) -> bytes:
    """Give the listing of a trace file."""
    return _run("lister", (), trace)


def purger(trace: bytes, domain: int) -> bytes:
    """Give the steps that the struck-out list of a domain keeps, a line for each: domain, kind and argument."""
    return _run("purger", (str(domain),), trace)


@contextlib.contextmanager
def stepper(trace: bytes) -> Iterator[BinaryIO]:
    """Give the stream of what each step leaves in maps, counts and rows, to be read as it comes: it may be a hundred megabytes.

    Where it does not fit its trace, and the stepper did not end well, it is told how it ended."""
    with tempfile.TemporaryFile() as told, _started("stepper", told) as job:
        try:
            with contextlib.suppress(BrokenPipeError), job.stdin:
                job.stdin.write(trace)
            yield job.stdout
        except MachineFailure:
            _let_end(job)
            _ended("stepper", job.returncode, _said(told))
            raise
        except BaseException:  # whoever read the stream has gone, or Ctrl-C
            job.kill()
            raise
        _let_end(job)
        _ended("stepper", job.returncode, _said(told))


def parts(entries: bytes) -> bytes:
    """Give the own parts of replacement words, a line for each. They stand in a trace file: a fill map for a code, a word for an argument."""
    return _run("parts", (), entries)


def amiss(name: str) -> str | None:
    """Say why a program has to be built: it is missing, or older than a source that it is made of. None if it need not."""
    program = BIN / name
    if not program.is_file():
        return "is missing"
    newest = newest_source(ROOT, name)
    if newest is not None and program.stat().st_mtime_ns < newest[0]:
        return f"is older than {newest[1]}"
    return None


def need(*names: str) -> None:
    """See that programs are there and of the sources as they stand; build those that are not, and no others."""
    found = {name: amiss(name) for name in names}
    wanting = {name: what for name, what in found.items() if what is not None}
    if not wanting:
        return
    sources = [newest_source(ROOT, name) for name in wanting]
    seen = max([time.time_ns(), *(newest[0] for newest in sources if newest)])
    build(ROOT, wanting)
    for name in wanting:
        # A program is given the time at which its build began: a source that was written meanwhile is newer.
        with contextlib.suppress(OSError):
            os.utime(BIN / name, ns=(seen, seen))


def _run(name: str, arguments: tuple[str, ...], trace: bytes) -> bytes:
    """Run a program on a trace file; pass on what it says on standard error."""
    try:
        done = subprocess.run((BIN / name, *arguments), input=trace, stdout=subprocess.PIPE, stderr=subprocess.PIPE, check=False)
    except OSError as error:
        raise _cannot_run(name, error) from error
    _ended(name, done.returncode, done.stderr)
    return done.stdout


def _started(name: str, told: BinaryIO) -> subprocess.Popen:
    """Start a program whose output is read as it comes; what it says on standard error goes to a file."""
    try:
        return subprocess.Popen((BIN / name,), stdin=subprocess.PIPE, stdout=subprocess.PIPE, stderr=told)
    except OSError as error:
        raise _cannot_run(name, error) from error


def _let_end(job: subprocess.Popen) -> None:
    """Read what a program still writes, so that it can end, and wait for that."""
    while job.stdout.read(_PIECE):
        pass
    job.wait()


def _said(told: BinaryIO) -> bytes:
    """Give what a program said on standard error."""
    told.seek(0)
    return told.read()


def _ended(name: str, status: int, told: bytes) -> None:
    """Pass on what a program said on standard error; raise MachineFailure if it did not end well."""
    said = cut(told.decode("utf-8", "replace").strip(), _MOST_SAID)
    if status != 0:
        raise MachineFailure(f"target/bin/{name} {_ending(status)}" + (f": {said}" if said else ""))
    if said:
        tell(f"dipperlock: target/bin/{name} says: {said}")


def _cannot_run(name: str, error: OSError) -> MachineFailure:
    """Make the error of a program that could not be started."""
    return MachineFailure(f"cannot run target/bin/{name}: {reason(error)}")


def _ending(status: int) -> str:
    """Say how a program ended that did not end well."""
    if status > 0:
        return f"ended with status {status}"
    try:
        return f"was ended by {signal.Signals(-status).name}"
    except ValueError:
        return f"was ended by signal {-status}"
