"""Which source files a program is made of, by crates.txt, and which of them was written last.

Only `src` counts: specs and proofs decide whether a program is proved, not what it does. Time stamps decide, so that a file put
in place with an old time is not noticed; whether anything changed is then for `rt run` to say, which goes by contents."""
from __future__ import annotations

from pathlib import Path

_LIST = "crates.txt"


def newest_source(root: Path, program: str) -> tuple[int, Path] | None:
    """Give the time, in nanoseconds, and the name of the source file of a program that was written last; None if it has none."""
    names = _needed(_listed(root), program)
    files = (file for name in names for file in (root / "crates" / name / "src").rglob("*.rt"))
    return max(((file.stat().st_mtime_ns, file.relative_to(root)) for file in files), default=None)


def _listed(root: Path) -> dict[str, list[str]]:
    """Read each crate and the crates that it names; nothing where programs stand without their sources."""
    try:
        text = (root / _LIST).read_text(encoding="utf-8")
    except FileNotFoundError:
        return {}
    lines = (line.partition("#")[0].partition(":") for line in text.splitlines())
    return {head.strip().partition(" ")[0]: rest.split() for head, colon, rest in lines if colon}  # `staticlib` may stand behind


def _needed(listed: dict[str, list[str]], program: str) -> list[str]:
    """List a program's crate and all crates below it. A crate names those whose promises it sees, and these have their own below.

    Crates of the toolchain are named too, but have no line and no folder here."""
    found: dict[str, None] = {}
    waiting = [program]
    while waiting:
        name = waiting.pop()
        if name not in found:
            found[name] = None
            waiting += listed.get(name, [])
    return list(found)
