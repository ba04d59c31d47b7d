"""Tries changes of definitions for tools/mutate: checks the copy with each, and says what became of it."""

import copy
import dataclasses
import json
import os
import pathlib
import re
import shutil
import signal
import subprocess
import tempfile
import time

import copying
from changing import Change

SECONDS = 60
KIBIBYTES = 6 * 1024 * 1024
ERROR = re.compile(r"^\S*/(specs|proofs)/([\w-]+)\.antt:\d+:\d+: error", re.M)
FIRST = 2  # so many that refused others make the first batch: each refusal takes a while to be told
OPENING = "Computing"  # modules that only open definitions for others


class Problem(Exception):
    """What keeps the tool from working."""


@dataclasses.dataclass
class Tried:
    """What became of a change: `refused` by a computed module, `ill-typed`, `survived` or `no end`; and the time."""

    fate: str
    by: str
    seconds: float


def toolchain() -> pathlib.Path:
    """The kit's folder, found by where `rt` is."""
    found = shutil.which("rt")
    if not found:
        raise Problem("rt is not in the path")
    home = pathlib.Path(found).resolve().parent.parent
    if not (home / "bin" / "rattle").is_file():
        raise Problem(f"no toolchain at {home}")
    return home


class Copy:
    """A copy of the definitions to work in, with what a check of it as it is has kept."""

    def __init__(self, root: pathlib.Path, place: pathlib.Path):
        self.root, self.place = root, place
        self.home = toolchain()
        self.work, self.kept = place / "copy", place / "kept"
        self.made = copying.make(root)
        self.reach = {name: set(self.made.near([name], [])[0]) for name in self.made.proofs}
        self.costs: dict[str, float] = {}
        self.known = place / "refused.json"  # which computed modules refused changes, of this run and of earlier ones
        self.kills: dict[str, dict[str, int]] = json.loads(self.known.read_text()) if self.known.is_file() else {}

    def begin(self) -> None:
        """Checks the copy as it is, and measures what each computed module takes."""
        shutil.rmtree(self.work, ignore_errors=True)
        self.kept.mkdir(parents=True, exist_ok=True)
        self._put(self.made.specs, self.made.proofs)
        status, said, _ = self._check(self.kept, 1800)
        if status != 0:
            raise Problem(f"the copy as it is was not proved:\n{said[-3000:]}")
        self.costs = self._costs()

    def _costs(self) -> dict[str, float]:
        """About how long each computed module takes: between the times at which it and the one before it were kept."""
        files = {f: f.stat().st_mtime for f in self.kept.glob("*/*.oantt")}
        found, last = {}, 0.0
        for file, moment in sorted(files.items(), key=lambda item: item[1]):
            if "-proofs." in file.name:
                found[file.stem.rpartition(".")[2]] = min(moment - last, 5.0)
            last = moment
        return {name: found.get(name, 1.0) for name in self.made.proofs}

    def learned(self) -> None:
        """Keeps for later runs what refused changes."""
        self.known.write_text(json.dumps(self.kills, indent=1) + "\n")

    def beside(self, number: int) -> "Copy":
        """A further copy to work in, over what this one has kept and learns."""
        other = copy.copy(self)
        other.work = self.place / f"copy{number}"
        shutil.rmtree(other.work, ignore_errors=True)
        return other

    def _put(self, specs: dict[str, str], proofs: dict[str, str]) -> None:
        """Has the copy hold these modules."""
        copying.put(self.work / "src", self.made.rust, "rt")
        copying.put(self.work / "specs", specs)
        copying.put(self.work / "proofs", proofs)

    def stages(self, module: str, name: str) -> list[list[str]]:
        """The computed modules that reach a module, in the order in which they are tried on a change of a definition in
        it, in batches that grow: those that refused others of the definition first, then of the module, then the
        crate's own, then those that name few modules."""
        kills, near = self.kills.get(f"{module} {name}", {}), self.kills.get(module, {})
        crate = re.match(r"[A-Z][a-z]*", module)[0]
        names = [n for n in self.made.proofs if not n.endswith(OPENING) and module in self.reach[n]]
        rest = {n: (not n.startswith(crate), len(self.reach[n]), self.costs[n]) for n in names}
        names.sort(key=lambda n: (-kills.get(n, 0), -near.get(n, 0), rest[n]))
        first = sum(n in near for n in names[:FIRST])
        batches: list[list[str]] = [names[:first]] if first else []
        room, limit = 0.0, 0.4
        for name in names[first:]:
            if room <= 0:
                batches.append([])
                room, limit = limit, limit * 3
            batches[-1].append(name)
            room -= self.costs[name]
        return batches

    def attempt(self, module: str, change: Change) -> Tried:
        """Makes a change in a module's file, and tries what is computed until something refuses it."""
        began = time.monotonic()
        text = copying.turned(change.applied(self.made.files[module].read_text()))
        with tempfile.TemporaryDirectory(dir=self.place) as folder:
            shutil.copytree(self.kept, folder, dirs_exist_ok=True, copy_function=os.link)
            fate, by = self._stage_by_stage(module, change.name, text, pathlib.Path(folder))
        if fate == "refused":
            for key in (module, f"{module} {change.name}"):
                counts = self.kills.setdefault(key, {})
                counts[by] = counts.get(by, 0) + 1
        return Tried(fate, by, time.monotonic() - began)

    def _stage_by_stage(self, module: str, name: str, text: str, kept: pathlib.Path) -> tuple[str, str]:
        for batch in self.stages(module, name):
            specs, proofs = self.made.near(batch, [module])
            self._put(specs | {module: text}, proofs)
            status, said, _ = self._check(kept, SECONDS)
            if status == 0:
                continue
            places = ERROR.findall(said)
            if any(part == "specs" for part, _ in places):
                return "ill-typed", next(n for part, n in places if part == "specs")
            if places:
                return "refused", places[0][1]
            return "no end", f"status {status} in {', '.join(batch)}"
        return "survived", ""

    def _check(self, kept: pathlib.Path, seconds: float) -> tuple[int, str, float]:
        """Checks the copy over what is kept of earlier checks: the status, what was said, and the time. A check that
        passed the limits has status -1."""
        home = self.home
        words = [home / "bin/rattle", "check", "--crate-name", copying.CRATE, self.work / "src/lib.rt"]
        words += ["--extern", f"std={home}/rlibs/std.rlib", "-L", f"dependency={home}/rlibs"]
        words += ["--antt-project", home / "rattle/logic/antt-project.json", "--logic-built", home / "logic_built"]
        words += ["--incremental", kept, "--jobs", "1"]
        began = time.monotonic()
        with tempfile.TemporaryFile(dir=self.place) as out:
            with subprocess.Popen(words, stdout=out, stderr=subprocess.STDOUT, start_new_session=True) as run:
                status = _watch(run, began + seconds)
            out.seek(0)
            return status, out.read().decode(errors="replace"), time.monotonic() - began


def _watch(run: subprocess.Popen, until: float) -> int:
    """Waits for a check, and ends it where it takes too long or too much memory."""
    while True:
        try:
            return run.wait(timeout=0.2)
        except subprocess.TimeoutExpired:
            if time.monotonic() > until or _held(run.pid) > KIBIBYTES:
                os.killpg(run.pid, signal.SIGKILL)
                run.wait()
                return -1


def _held(pid: int) -> int:
    """How much memory a process holds, in KiB."""
    try:
        found = re.search(r"VmRSS:\s*(\d+)", pathlib.Path(f"/proc/{pid}/status").read_text())
    except OSError:
        return 0
    return int(found[1]) if found else 0
