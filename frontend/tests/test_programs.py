"""Running and building the programs, with stand-ins for `rt` and for the programs."""
from __future__ import annotations

import contextlib
import io
import os
import subprocess
import sys
import tempfile
import time
import unittest
from pathlib import Path
from unittest import mock

from frontend import build, cli, crates, programs, stepper, tracefile
from frontend.errors import MachineFailure
from frontend.tests import case_a
from frontend.tests.helpers import call, streamed


class Terminal(io.StringIO):
    """A stream that says it is a terminal."""

    def isatty(self) -> bool:
        return True


class StandIns(unittest.TestCase):
    """A repository of its own for each test, with a folder on the PATH."""

    def setUp(self) -> None:
        folder = tempfile.TemporaryDirectory()
        self.addCleanup(folder.cleanup)
        self.root = Path(folder.name)
        self.bin = self.root / "target" / "bin"
        self.path = self.root / "path"
        self.bin.mkdir(parents=True)
        self.path.mkdir()
        for name in programs.NAMES:
            (self.root / "crates" / name).mkdir(parents=True)
        for patch in (
            mock.patch.multiple(programs, ROOT=self.root, BIN=self.bin),
            mock.patch.dict(os.environ, {"PATH": str(self.path)}),
        ):
            patch.start()
            self.addCleanup(patch.stop)

    def script(self, folder: Path, name: str, body: str) -> None:
        """Write an executable Python script."""
        path = folder / name
        path.write_text(f"#!{sys.executable}\nimport os, sys, time\n{body}\n")
        path.chmod(0o755)

    def attempt(self, stream: io.StringIO, *names: str) -> str | bytes:
        """Run the lister on case A, after seeing that some programs are there; give what it said, or the error."""
        with contextlib.redirect_stderr(stream):
            try:
                programs.need(*names)
                return programs.lister(case_a.FILE)
            except MachineFailure as failure:
                return failure.report()


class Running(StandIns):
    """Programs that are there."""

    def test_input_output_and_arguments(self):
        self.script(self.bin, "lister", "sys.stdout.buffer.write(sys.stdin.buffer.read() + b'\\xff\\r\\n')")
        self.assertEqual(programs.lister(case_a.FILE), case_a.FILE + b"\xff\r\n")
        self.script(self.bin, "purger", "print(sys.argv[1:])")
        self.assertEqual(programs.purger(b"", 15), b"['15']\n")
        self.script(self.bin, "stepper", "")
        self.assertEqual(streamed(b"x" * 1_000_000), b"")

    def test_a_stream_is_read_as_it_comes(self):
        self.script(self.bin, "stepper", "sys.stdout.buffer.write(sys.stdin.buffer.read()[:5] + bytes(1_000_000))")
        with programs.stepper(case_a.FILE) as stream:  # what is not read does not keep the program from ending
            self.assertEqual(stream.read(6), case_a.FILE[:5] + b"\0")
        self.script(self.bin, "stepper", "print('x'); sys.stderr.write('full\\n')")
        with contextlib.redirect_stderr(io.StringIO()) as err:
            self.assertEqual(streamed(case_a.FILE), b"x\n")
        self.assertEqual(err.getvalue(), "dipperlock: target/bin/stepper says: full\n")

    def test_how_a_stepper_ended_is_told_before_what_its_stream_lacks(self):
        for body, said in (
            ("sys.exit('no memory')", "ended with status 1: no memory"),
            ("os.kill(os.getpid(), 9)", "was ended by SIGKILL"),
            ("", "did not give a whole stream of this trace: it breaks off within block 0 of 10"),
        ):
            self.script(self.bin, "stepper", body)
            with self.assertRaises(MachineFailure) as caught, programs.stepper(case_a.FILE) as stream:
                stepper.parse(stream, tracefile.decode(case_a.FILE))
            self.assertEqual(str(caught.exception), f"target/bin/stepper {said}")

    def test_whoever_reads_a_stream_may_go(self):
        self.script(self.bin, "stepper", "time.sleep(100)")
        start = time.monotonic()
        with self.assertRaises(KeyboardInterrupt), programs.stepper(case_a.FILE):
            raise KeyboardInterrupt
        self.assertLess(time.monotonic() - start, 10)
        (self.bin / "stepper").chmod(0o644)
        with self.assertRaises(MachineFailure) as caught, programs.stepper(case_a.FILE):
            pass
        self.assertEqual(str(caught.exception), "cannot run target/bin/stepper: Permission denied")

    def test_failure(self):
        self.script(self.bin, "lister", "sys.exit('no memory')")
        self.assertEqual(self.attempt(io.StringIO()), "dipperlock: target/bin/lister ended with status 1: no memory")
        self.script(self.bin, "lister", "os.kill(os.getpid(), 9)")
        self.assertEqual(self.attempt(io.StringIO()), "dipperlock: target/bin/lister was ended by SIGKILL")

    def test_what_a_program_says_is_passed_on(self):
        self.script(self.bin, "lister", "print('out'); sys.stderr.write('cannot write standard output\\n')")
        err = io.StringIO()
        self.assertEqual(self.attempt(err), b"out\n")
        self.assertEqual(err.getvalue(), "dipperlock: target/bin/lister says: cannot write standard output\n")
        self.script(self.bin, "lister", "sys.stderr.write('x' * 100_000)")
        err = io.StringIO()
        self.attempt(err)
        self.assertTrue(err.getvalue().endswith("x... (100,000 characters)\n"))
        self.assertLess(len(err.getvalue()), 2200)

    def test_not_executable(self):
        (self.bin / "lister").write_bytes(b"")
        self.assertEqual(self.attempt(io.StringIO()), "dipperlock: cannot run target/bin/lister: Permission denied")

    def test_not_there(self):
        missing = "dipperlock: cannot run target/bin/lister: No such file or directory"
        self.assertIn(missing, self.attempt(io.StringIO()))  # Python 3.7 says the name once more


class Building(StandIns):
    """Programs that are missing."""

    MAKE = (
        "name = os.path.basename(os.getcwd())\n"
        "os.makedirs('out', exist_ok=True)\n"
        "open(f'out/{name}', 'w').write('#!/bin/sh\\necho 7\\n')\n"
        "os.chmod(f'out/{name}', 0o755)\n"
    )

    def rt(self, *due: str, status: int = 0) -> None:
        """Put an `rt` on the PATH that makes a program and runs it, and wants to be asked for just some."""
        asked = f"assert sys.argv[1:] == ['run'] and os.path.basename(os.getcwd()) in {due!r}, (sys.argv, os.getcwd())\n"
        self.script(self.path, "rt", f"{asked}assert sys.stdin.read() == ''\n{self.MAKE}sys.exit({status})")

    def test_no_rt(self):
        missing = "dipperlock: target/bin/lister is missing, and there is no 'rt' on the PATH to build with; add its directory"
        told = self.attempt(io.StringIO(), "lister")
        self.assertTrue(told.startswith(missing), told)
        commands = "(cd crates/$name && rt run < /dev/null); cp crates/$name/out/$name target/bin"
        self.assertIn(f"or run 'mkdir -p target/bin; for name in lister; do {commands}; done' where it is", told)

    def test_by_hand(self):
        self.rt("lister", "purger")
        self.bin.rmdir()
        path = {**os.environ, "PATH": f"{self.path}:/usr/bin:/bin"}
        subprocess.run(("/bin/sh", "-c", build.by_hand("lister", "purger")), cwd=self.root, env=path, check=True)
        self.assertEqual(sorted(os.listdir(self.bin)), ["lister", "purger"])
        self.assertEqual(programs.lister(b""), b"7\n")

    def test_only_what_is_needed_is_built(self):
        self.rt("lister")
        err = io.StringIO()
        self.assertEqual(self.attempt(err, "lister"), b"7\n")
        notice = "dipperlock: target/bin/lister is missing; building with 'rt run' in crates/lister, which takes some minutes"
        self.assertTrue(err.getvalue().startswith(notice), err.getvalue())
        self.assertEqual(err.getvalue().count("\n"), 1)
        self.assertEqual(os.listdir(self.bin), ["lister"])
        self.rt("purger", "stepper")
        self.assertEqual(self.attempt(io.StringIO(), "lister", "purger", "stepper"), b"7\n")
        self.assertEqual(sorted(os.listdir(self.bin)), ["lister", "purger", "stepper"])
        self.rt()
        err = io.StringIO()
        self.assertEqual(self.attempt(err, "lister", "purger", "stepper"), b"7\n")
        self.assertEqual(err.getvalue(), "")

    def test_what_each_command_needs(self):
        case = str(Path(__file__).resolve().parents[2] / "examples" / "case-a.txt")
        stop = "if not os.path.exists('go on'): sys.exit(' '.join([*sys.argv[1:], os.path.basename(os.getcwd())]))\n"
        self.script(self.path, "rt", stop + self.MAKE)
        for arguments, needed in (
            (("list", case), "lister"),
            (("explain", case), "lister stepper"),
            (("isolate", case, "0"), "lister purger stepper parts"),
        ):
            *before, failed = needed.split()
            for name in before:
                (self.root / "crates" / name / "go on").touch()
            err = io.StringIO()
            with contextlib.redirect_stderr(err):
                self.assertEqual(cli.main(list(arguments)), 3)
            folders = ", ".join(f"crates/{name}" for name in needed.split())
            self.assertIn(f"; building with 'rt run' in {folders}, which takes some minutes", err.getvalue())
            self.assertIn(f"\nrun {failed}\ndipperlock: 'rt run' in crates/{failed} failed with status 1", err.getvalue())
            for name in before:
                (self.bin / name).unlink()

    def test_bad_input_is_told_before_anything_is_built(self):
        self.script(self.path, "rt", "sys.exit('not asked for')")
        path = self.root / "bad.txt"
        path.write_text("0 lod 0\n")
        for arguments in (("list", str(path)), ("explain", str(path)), ("isolate", str(path), "0")):
            err = io.StringIO()
            with contextlib.redirect_stderr(err):
                self.assertEqual(cli.main(list(arguments)), 2)
            self.assertNotIn("building", err.getvalue())

    def test_failure_shows_what_rt_said(self):
        self.script(self.path, "rt", "print('to out', flush=True); sys.exit('to err')")
        err = io.StringIO()
        told = self.attempt(err, "lister")
        self.assertIn("'rt run' in crates/lister failed with status 1; what it said stands above", told)
        self.assertTrue(err.getvalue().endswith("\nto out\nto err\n"), err.getvalue())

    def test_what_counts_is_the_program_and_not_how_it_ended_on_no_input(self):
        self.rt("lister", status=3)
        self.assertEqual(self.attempt(io.StringIO(), "lister"), b"7\n")

    def test_an_older_program_in_the_crate_does_not_count(self):
        self.rt("lister")
        self.attempt(io.StringIO(), "lister")
        (self.bin / "lister").unlink()
        self.assertTrue((self.root / "crates/lister/out/lister").is_file())
        self.script(self.path, "rt", "sys.exit('not proved')")
        self.assertIn("'rt run' in crates/lister failed with status 1", self.attempt(io.StringIO(), "lister"))

    def test_an_rt_that_cannot_run(self):
        (self.path / "rt").write_text("#!/no/such/interpreter\n")
        (self.path / "rt").chmod(0o755)
        self.assertIn("dipperlock: cannot run 'rt run' in crates/lister: No such file", self.attempt(io.StringIO(), "lister"))

    def test_nothing_built(self):
        self.script(self.path, "rt", "")
        told = self.attempt(io.StringIO(), "lister")
        self.assertIn("'rt run' in crates/lister succeeded, but there is still no crates/lister/out/lister", told)

    def test_seconds_on_a_terminal(self):
        self.script(self.path, "rt", "time.sleep(1.2)")
        err = Terminal()
        self.attempt(err, "lister")
        self.assertIn("\r  0 s", err.getvalue())
        self.assertIn("\r  1 s", err.getvalue())

    def test_interrupt_ends_the_build(self):
        job = mock.Mock()
        job.wait.side_effect = KeyboardInterrupt
        with self.assertRaises(KeyboardInterrupt), contextlib.redirect_stderr(io.StringIO()):
            build._wait(job)
        job.terminate.assert_called_once_with()


class UpToDate(StandIns):
    """Programs that are older than a source."""

    LIST = "# Crates\nlow:\nmiddle: low io\nother: low\nlister: middle io\nshared staticlib: middle\n"
    MAKE = "os.makedirs('out', exist_ok=True); import shutil; shutil.copy('../../target/bin/lister', 'out/lister')\n"

    def setUp(self) -> None:
        super().setUp()
        (self.root / "crates.txt").write_text(self.LIST)
        for place, name in enumerate(("low", "middle", "other", "lister")):
            for kind in ("src", "specs"):
                (self.root / "crates" / name / kind / "deep").mkdir(parents=True)
            self.write(f"{name}/src/lib.rt", 1000 + place)
        self.script(self.bin, "lister", "print(1)")
        self.set_time(self.bin / "lister", 2000)

    def write(self, name: str, seconds: int) -> None:
        (self.root / "crates" / name).write_text("")
        self.set_time(self.root / "crates" / name, seconds)

    def set_time(self, path: Path, seconds: int) -> None:
        os.utime(path, (seconds, seconds))

    def test_newest_source(self):
        self.assertEqual(crates.newest_source(self.root, "lister")[1], Path("crates/lister/src/lib.rt"))
        self.assertEqual(crates.newest_source(self.root, "middle")[1], Path("crates/middle/src/lib.rt"))
        self.assertEqual(crates.newest_source(self.root, "shared")[1], Path("crates/middle/src/lib.rt"))
        self.assertIsNone(crates.newest_source(self.root, "nothing"))

    def test_current(self):
        for name, seconds in (
            ("lister/src/lib.rt", 2000),
            ("other/src/lib.rt", 3000),  # not a part of the lister
            ("low/specs/Lib.antt", 3000),  # no source
            ("low/src/lib.rt.swp", 3000),
        ):
            self.write(name, seconds)
            self.assertIsNone(programs.amiss("lister"), name)

    def test_older(self):
        for name in ("lister/src/lib.rt", "middle/src/lib.rt", "low/src/lib.rt", "low/src/deep/new.rt"):
            self.write(name, 2001)
            self.assertEqual(programs.amiss("lister"), f"is older than crates/{name}")
            self.write(name, 1999)
            self.assertIsNone(programs.amiss("lister"))

    def test_programs_without_sources(self):
        (self.root / "crates.txt").unlink()
        self.assertIsNone(programs.amiss("lister"))

    def test_an_older_program_is_built(self):
        self.write("low/src/lib.rt", 3000)
        self.script(self.path, "rt", self.MAKE + "open('out/lister', 'a').write('print(2)\\n')")
        err = io.StringIO()
        self.assertEqual(self.attempt(err, "lister"), b"1\n2\n")
        self.assertIn("target/bin/lister is older than crates/low/src/lib.rt; building with 'rt run' in crates/lister", err.getvalue())

    def test_an_older_program_is_not_run_where_it_cannot_be_built(self):
        self.write("low/src/lib.rt", 3000)
        told = self.attempt(io.StringIO(), "lister")
        self.assertIn("target/bin/lister is older than crates/low/src/lib.rt, and there is no 'rt' on the PATH", told)

    def test_rt_is_asked_once_where_nothing_changed(self):
        self.script(self.path, "rt", f"{self.MAKE}open('../../asked', 'a').write('x')")
        for seconds in (3000, time.time() + 10_000):  # a clock may be wrong
            self.write("low/src/lib.rt", int(seconds))
            self.attempt(io.StringIO(), "lister")
            asked = (self.root / "asked").read_text()
            self.attempt(io.StringIO(), "lister")
            self.assertEqual((self.root / "asked").read_text(), asked)
        self.assertEqual(asked, "xx")

    def test_a_source_that_is_written_during_a_build_is_newer(self):
        self.write("low/src/lib.rt", 3000)
        self.script(self.path, "rt", f"{self.MAKE}time.sleep(0.05); open('../low/src/lib.rt', 'w')")
        self.attempt(io.StringIO(), "lister")
        self.assertEqual(programs.amiss("lister"), "is older than crates/low/src/lib.rt")

    def test_this_repository(self):
        root = Path(__file__).resolve().parents[2]
        for name in programs.NAMES:
            self.assertIsNotNone(crates.newest_source(root, name))
        needed = crates._needed(crates._listed(root), "lister")
        self.assertTrue({"lister", "trace", "cache", "tree", "nru", "lru_rule", "waymap"} <= set(needed), needed)
        self.assertFalse({"purger", "stepper", "cases", "isolation"} & set(needed))


class Version(StandIns):
    """What `--version` says."""

    def test_all_there_is_to_say(self):
        self.script(self.path, "rt", "print('kit-1 logic 2'); print('more')")
        self.script(self.bin, "lister", "")
        status, out, err = call("--version")
        self.assertEqual((status, err), (0, ""))
        lines = out.decode().splitlines()
        self.assertRegex(lines[0], r"^dipperlock +0\.2\.0, with Python 3\.[0-9]+\.[0-9]+")
        self.assertRegex(lines[1], r"^rt +kit-1 logic 2$")
        self.assertEqual(lines[2].split(None, 1), ["lister", f"{self.bin}/lister is up to date"])
        self.assertEqual(lines[3].split(None, 1), ["purger", f"{self.bin}/purger is missing"])
        self.assertEqual(len(lines), 2 + len(programs.NAMES))

    def test_no_toolchain(self):
        self.assertIn(b"\nrt          not found on the PATH\n", call("--version")[1])
        self.script(self.path, "rt", "sys.exit(9)")
        self.assertIn(b"\nrt          'rt version' ended with status 9\n", call("--version")[1])
