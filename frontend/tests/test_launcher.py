"""./dipperlock itself, and what starts Python's part."""
from __future__ import annotations

import os
import subprocess
import sys
from unittest import mock

from frontend import __main__ as entry
from frontend.programs import ROOT
from frontend.tests import case_a
from frontend.tests.helpers import SH, call
from frontend.tests.test_cli import InFolder

TOOL = ROOT / "dipperlock"
STREAMS = {"stdout": subprocess.PIPE, "stderr": subprocess.PIPE}


class Launcher(InFolder):
    """The executable."""

    def test_through_a_link(self):
        link = self.folder / "dl"
        link.symlink_to(TOOL)
        done = subprocess.run((link, "show", "-"), input=case_a.FILE, check=False, **STREAMS)
        self.assertEqual((done.returncode, done.stdout), call("show", "-", stdin=case_a.FILE)[:2])

    def test_arguments_are_passed_as_they_are(self):
        name = str(self.folder / "a  b'$HOME*\n")
        self.file("a  b'$HOME*\n", case_a.FILE)
        done = subprocess.run((TOOL, "show", name), stdin=subprocess.DEVNULL, check=False, **STREAMS)
        self.assertEqual((done.returncode, done.stderr), (0, b""))

    def test_modules_of_others_are_not_taken(self):
        self.file("argparse.py", b"raise SystemExit(99)\n")
        environment = {**os.environ, "PYTHONPATH": str(self.folder), "PYTHONUNBUFFERED": "1", "PYTHONIOENCODING": "no such"}
        done = subprocess.run((TOOL, "--help"), cwd=self.folder, env=environment, check=False, **STREAMS)
        self.assertEqual((done.returncode, done.stderr), (0, b""))

    def test_a_directory_as_standard_input(self):
        for command in ("list", "show -", "isolate - 0", "--help"):
            line = f"exec {TOOL} {command} <{self.folder}"
            done = subprocess.run((SH, "-c", line), check=False, **STREAMS)
            self.assertEqual((done.returncode, done.stdout), (3, b""))
            self.assertIn(b"dipperlock: cannot read standard input: it is a directory; give the name of a file", done.stderr)

    def test_no_python(self):
        done = subprocess.run((SH, TOOL), env={"PATH": str(self.folder)}, stdin=subprocess.DEVNULL, check=False, **STREAMS)
        self.assertEqual((done.returncode, done.stdout), (3, b""))
        self.assertIn(b"there is no 'python3' on the PATH; Python 3.7 or later is needed", done.stderr)


class Entry(InFolder):
    """The start of Python's part."""

    def test_an_old_python(self):
        read, write = os.pipe()
        kept = os.dup(2)
        os.dup2(write, 2)
        try:
            with mock.patch.object(sys, "version_info", (3, 6, 15)):
                self.assertEqual(entry.start(), 3)
        finally:
            os.dup2(kept, 2)
            os.close(kept)
            os.close(write)
        with os.fdopen(read, "rb") as pipe:
            self.assertEqual(pipe.read(), b"dipperlock: Python 3.7 or later is needed; this is 3.6\n")

    def test_as_a_module_and_by_its_path(self):
        for command in (("-m", "frontend"), ("frontend/__main__.py",)):
            line = (sys.executable, *command, "show", "-")
            done = subprocess.run(line, input=case_a.FILE, cwd=ROOT, check=False, **STREAMS)
            self.assertEqual((done.returncode, done.stderr), (0, b""))

    def test_interrupt_at_the_start(self):
        with mock.patch("frontend.cli.main", side_effect=KeyboardInterrupt), mock.patch.object(sys, "path", list(sys.path)):
            self.assertEqual(entry.start(), 130)

    def test_a_failure_at_the_start(self):
        with mock.patch("frontend.cli.main", side_effect=ImportError), mock.patch.object(entry, "tell"):
            with mock.patch.object(sys, "path", list(sys.path)):
                self.assertEqual(entry.start(), 4)
