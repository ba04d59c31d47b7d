"""Building proved programs with `rt run`, each in the folder of its crate, and saying so while it takes its time.

`rt run` proves a program, makes it and runs it, and ends with the program's own status; so it is given no input, and what counts
is whether it made the file."""
from __future__ import annotations

import contextlib
import os
import shutil
import subprocess
import sys
import tempfile
import time
from pathlib import Path

from frontend.errors import MachineFailure, reason
from frontend.streams import tell

_COMMAND = ("rt", "run")


def build(root: Path, wanting: dict[str, str]) -> None:
    """Build programs of the repository, given with what is amiss with each; raise MachineFailure if that cannot be done."""
    amiss = ", ".join(f"target/bin/{name} {what}" for name, what in wanting.items())
    if shutil.which(_COMMAND[0]) is None:
        missing = f"{amiss}, and there is no 'rt' on the PATH to build with"
        raise MachineFailure(f"{missing}; add its directory to PATH, or run '{by_hand(*wanting)}' where it is")
    tell(f"dipperlock: {amiss}; building with {_spoken(*wanting)}, which takes some minutes the first time")
    for name in wanting:
        _put(root, name, _made(root, name))


def by_hand(*names: str) -> str:
    """Give the commands that build programs and put them in their place, as a shell takes them at the top of the repository."""
    each = "(cd crates/$name && rt run < /dev/null); cp crates/$name/out/$name target/bin"
    return f"mkdir -p target/bin; for name in {' '.join(names)}; do {each}; done"


def _spoken(*names: str) -> str:
    """Name the command and where it runs."""
    return f"'{' '.join(_COMMAND)}' in {', '.join(f'crates/{name}' for name in names)}"


def _made(root: Path, name: str) -> Path:
    """Have a program made; give the file. An older one goes first, so that what is there afterwards was made now."""
    folder = root / "crates" / name
    made = folder / "out" / name
    try:
        with contextlib.suppress(FileNotFoundError):
            made.unlink()
        with tempfile.TemporaryFile() as log:
            streams = {"stdin": subprocess.DEVNULL, "stdout": log, "stderr": subprocess.STDOUT}
            with subprocess.Popen(_COMMAND, cwd=folder, **streams) as job:
                status = _wait(job)
            log.seek(0)
            said = log.read().decode("utf-8", "replace").rstrip("\n")
    except OSError as error:
        raise MachineFailure(f"cannot run {_spoken(name)}: {reason(error)}") from error
    if made.is_file():
        return made
    if status == 0:
        raise MachineFailure(f"{_spoken(name)} succeeded, but there is still no crates/{name}/out/{name}")
    tell(said)
    raise MachineFailure(f"{_spoken(name)} failed with status {status}; what it said stands above")


def _put(root: Path, name: str, made: Path) -> None:
    """Copy a program that was made to target/bin, beside an older one and then in its place: that one may be running."""
    place = root / "target" / "bin" / name
    fresh = place.with_name(f".{name}.{os.getpid()}")
    try:
        place.parent.mkdir(parents=True, exist_ok=True)
        shutil.copy(made, fresh)
        os.replace(fresh, place)
    except OSError as error:
        raise MachineFailure(f"cannot copy crates/{name}/out/{name} to target/bin/{name}: {reason(error)}") from error


def _wait(job: subprocess.Popen) -> int:
    """Wait for a build and give its status; on a terminal, count the seconds meanwhile."""
    live = sys.stderr is not None and sys.stderr.isatty()
    start = time.monotonic()
    try:
        while True:
            if live:
                tell(f"\r  {time.monotonic() - start:.0f} s", end="")
            try:
                return job.wait(timeout=1)
            except subprocess.TimeoutExpired:
                continue
    except BaseException:  # Ctrl-C above all
        job.terminate()
        raise
    finally:
        if live:
            tell("")
