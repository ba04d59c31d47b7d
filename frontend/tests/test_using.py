"""What docs/USING.md says: its commands are all there, and its worked session runs as it is printed."""
from __future__ import annotations

import os
import re
import subprocess
import tempfile
import unittest
from pathlib import Path

from frontend import helptext
from frontend.errors import MEANINGS
from frontend.programs import ROOT
from frontend.tests.helpers import needs_programs

USING = (ROOT / "docs" / "USING.md").read_text(encoding="utf-8")
LINK = re.compile(r"\]\(([^)]+)\)")


def blocks(text: str) -> list[tuple[str, str]]:
    """Give each command that is typed in a text, and what is printed after it."""
    found: list[tuple[str, list[str]]] = []
    inside = False
    for line in text.split("\n"):
        inside = line.startswith("    ") or inside and not line
        if line.startswith("    $ "):
            found.append((line[6:], []))
        elif inside and found:
            found[-1][1].append(line[4:])
    return [(command, "\n".join(lines).strip("\n")) for command, lines in found]


class Page(unittest.TestCase):
    """The page as a text."""

    def test_every_command_has_a_paragraph_and_an_example(self):
        for name in helptext.EXAMPLES:
            self.assertRegex(USING, rf"\n### .*\b{name}\b")
            self.assertIn(f"\n    ./dipperlock {name} ", USING)
            self.assertRegex(USING, rf"\n\| \[.*`{name}`.*\]\(#")

    def test_statuses(self):
        for status, meaning in MEANINGS.items():
            self.assertIn(f"\n| {status} | {meaning} |\n", USING)

    def test_links_lead_somewhere(self):
        headings = {self.anchor(line) for line in re.findall("^#+ (.*)$", USING, re.MULTILINE)}
        for link in LINK.findall(USING):
            name, _, anchor = link.partition("#")
            if name:
                path = (ROOT / "docs" / name).resolve()
                self.assertTrue(path.exists(), link)
                text = path.read_text(encoding="utf-8") if anchor else ""
                there = {self.anchor(line) for line in re.findall("^#+ (.*)$", text, re.MULTILINE)}
            else:
                there = headings
            self.assertTrue(not anchor or anchor in there, link)

    def anchor(self, heading: str) -> str:
        """Give the anchor of a heading."""
        return re.sub(r"[^a-z0-9 -]", "", heading.lower()).replace(" ", "-")


@needs_programs
class Session(unittest.TestCase):
    """The commands, run in a folder of their own."""

    def setUp(self) -> None:
        folder = tempfile.TemporaryDirectory()
        self.addCleanup(folder.cleanup)
        self.folder = Path(folder.name)
        for name in ("dipperlock", "examples"):
            os.symlink(ROOT / name, self.folder / name)

    def run_line(self, line: str) -> tuple[int, str]:
        """Run a line as a shell does; give its status, and what it printed on both streams."""
        streams = {"stdin": subprocess.DEVNULL, "stdout": subprocess.PIPE, "stderr": subprocess.STDOUT}
        done = subprocess.run(line, shell=True, cwd=self.folder, check=False, **streams)
        return done.returncode, done.stdout.decode().rstrip("\n")

    def test_what_is_printed(self):
        commands = blocks(USING)
        self.assertGreater(len(commands), 15)
        for line, printed in commands:
            status, said = self.run_line(line)
            self.assertEqual("\n".join(map(str.rstrip, said.split("\n"))), printed, line)
            self.assertEqual(status, 1 if "does not agree" in printed else 0, line)

    def test_the_other_examples_work(self):
        (self.folder / "target").mkdir()
        lines = re.findall(r"^    (\./dipperlock (?!COMMAND).*)$", USING, re.MULTILINE)
        self.assertGreater(len(lines), 10)
        for line in lines:
            self.assertEqual(self.run_line(line)[0], 0, line)
