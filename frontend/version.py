"""What `--version` says: the front end, the toolchain, and the programs that answer."""
from __future__ import annotations

import platform
import shutil
import subprocess

from frontend import programs
from frontend.quote import cut
from frontend.table import columns

VERSION = "0.2.0"
_PATIENCE = 20  # seconds that `rt version` may take


def report() -> str:
    """Say which front end, which toolchain and which programs these are."""
    rows = [("dipperlock", f"{VERSION}, with Python {platform.python_version()}"), ("rt", _toolchain())]
    rows += [(name, f"{programs.BIN / name} {programs.amiss(name) or 'is up to date'}") for name in programs.NAMES]
    return "\n".join(columns(rows)) + "\n"


def _toolchain() -> str:
    """Give the first line of `rt version`, or say why there is none."""
    if shutil.which("rt") is None:
        return "not found on the PATH"
    streams = {"stdin": subprocess.DEVNULL, "stdout": subprocess.PIPE, "stderr": subprocess.DEVNULL}
    try:
        done = subprocess.run(("rt", "version"), timeout=_PATIENCE, check=False, **streams)
    except (OSError, subprocess.TimeoutExpired) as error:
        return f"'rt version' cannot be run: {error}"
    lines = done.stdout.decode("utf-8", "replace").splitlines()
    return cut(lines[0]) if done.returncode == 0 and lines else f"'rt version' ended with status {done.returncode}"
