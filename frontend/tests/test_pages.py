"""What the pages link to and name is there; and the checks of it, which tools/verify runs too, find what is not."""
from __future__ import annotations

import sys
import tempfile
import unittest
from pathlib import Path

from frontend.programs import ROOT

sys.path.insert(0, str(ROOT / "tools"))
import names  # noqa: E402 (the path is needed first)
import pages  # noqa: E402
sys.path.remove(str(ROOT / "tools"))

CHECKS = {**pages.CHECKS, **names.CHECKS}
FILES = {
    "README.md": """\
# Top

See [claims](docs/CLAIMS.md#the-step), [layers](docs/ARCHITECTURE.md), [changes](docs/changes) and `tools/run`.

    tools/run docs/CLAIMS.md
""",
    "docs/ARCHITECTURE.md": """\
# Layers

    row       one set
    map       ways

`row` is above `map`, and asks `map::count`.
""",
    "docs/CLAIMS.md": """\
# Claims

## The `step`

`step`, `row_law` in `crates/row/specs/Row.antt` and `touch_nothing` in `crates/row/must-fail`.

| said | definition | file under `crates/` |
|---|---|---|
| a | `step`; `count` | `row/specs/Row.antt`; `map/src/lib.rt` |
| b | `row_law` | `row/specs/Row.antt` |
| c | `Row` | the same |
""",
    "docs/changes/01.md": "# Then\n\nThere was `crates/gone/specs/Gone.antt`.\n",
    "crates.txt": "# crates\nmap:\nrow staticlib: map\n",
    "crates/map/src/lib.rt": """\
ghost use Rattle.other.specs.Other.{
  other,
};
pub fn count(x: u16) -> u8
    ensures { result ≡ bits x }
""",
    "crates/row/specs/Row.antt": """\
-- told : here
use Rattle.std.specs.Prelude.{used}
abbrev pub step : ℕ → ℕ
step x = x

pub record Row : Type 0 where
  pub row_law : (x : ℕ) → step x ≡ x
""",
    "crates/row/must-fail/touch_nothing.edit": "file: specs/Row.antt\n",
    "crates/row/out/rlib/Kept.antt": "kept : ℕ\n",
    "tools/run": "#!/bin/sh\n",
}


class Repository(unittest.TestCase):
    """The pages as they are."""

    LEAST = {"links": 50, "reach": 10, "paths": 100, "crates": 30, "commands": 3, "names": 500, "calls": 10,
             "beside": 100, "tables": 100}

    def test_nothing_is_amiss_and_much_is_looked_at(self):
        self.assertEqual(list(self.LEAST), list(CHECKS))
        for name, check in CHECKS.items():
            with self.subTest(check=name):
                said, faults = check(pages.pages_of(ROOT))
                self.assertEqual(faults, [])
                self.assertGreater(int(said.split()[0]), self.LEAST[name])


class Made(unittest.TestCase):
    """A repository made for this: nothing is amiss in it, until something is changed."""

    def setUp(self) -> None:
        folder = tempfile.TemporaryDirectory()
        self.addCleanup(folder.cleanup)
        self.root = Path(folder.name).resolve()
        for name, text in FILES.items():
            self.write(name, text)
        (self.root / "tools" / "run").chmod(0o755)

    def write(self, name: str, text: str) -> None:
        """Write a file of the repository."""
        path = self.root / name
        path.parent.mkdir(parents=True, exist_ok=True)
        path.write_text(text, encoding="utf-8")

    def replace(self, name: str, old: str, new: str) -> None:
        """Change a file of the repository in one place."""
        text = (self.root / name).read_text(encoding="utf-8")
        self.assertEqual(text.count(old), 1)
        self.write(name, text.replace(old, new))

    def faults(self) -> dict[str, list[str]]:
        """Give what each check finds, of those that find something."""
        found = {name: check(pages.pages_of(self.root))[1] for name, check in CHECKS.items()}
        return {name: faults for name, faults in found.items() if faults}

    def test_good(self):
        self.assertEqual(self.faults(), {})

    def test_dead_links(self):
        self.replace("README.md", "docs/CLAIMS.md#the-step", "docs/CLAIMS.md#the-steps")
        said = "README.md:3: a link to docs/CLAIMS.md#the-steps, and no heading there has that anchor"
        self.assertEqual(self.faults(), {"links": [said]})
        links = "[there](../gone.md), [elsewhere](https://example.org/x), `[no](link)`\n\n    [nor](this)\n"
        self.write("docs/changes/01.md", links)
        more = "docs/changes/01.md:1: a link to ../gone.md, and there is no such file"
        self.assertEqual(self.faults(), {"links": [said, more]})

    def test_a_page_that_nothing_leads_to(self):
        self.write("docs/LOST.md", "# Lost\n")
        self.assertEqual(self.faults(), {"reach": ["docs/LOST.md:1: no chain of links leads here from README.md"]})

    def test_paths(self):
        self.replace("README.md", "    tools/run docs/CLAIMS.md", "    tools/run docs/GONE.md target/made")
        self.replace("docs/ARCHITECTURE.md", "`row` is", "`crates/row/specs/Gone.antt`, `specs/Row.antt`, `Kept.antt`; `row` is")
        said = ["README.md:5: `docs/GONE.md`, and there is no such file",
                "docs/ARCHITECTURE.md:6: `crates/row/specs/Gone.antt`, and there is no such file",
                "docs/ARCHITECTURE.md:6: `Kept.antt`, and there is no such file"]
        self.assertEqual(self.faults(), {"paths": said})

    def test_crates(self):
        self.replace("crates.txt", "map:\n", "map:\nnew: map\n")
        self.assertEqual(len(self.faults()["crates"]), 2)
        self.replace("crates.txt", "new: map\nrow staticlib: map\n", "")
        said = "docs/ARCHITECTURE.md:1: row is in the drawing, and crates.txt has no such crate"
        self.assertEqual(self.faults()["crates"], [said])

    def test_a_command_that_is_not_named(self):
        self.write("tools/more", "")
        (self.root / "tools" / "more").chmod(0o755)
        self.assertEqual(self.faults(), {"commands": ["tools/more:1: no page names this command"]})

    def test_names(self):
        self.replace("docs/CLAIMS.md", "## The", "`told`, `used`, `other`, `kept`, `ensures`.\n\n## The")
        self.assertEqual([fault.split("`")[1] for fault in self.faults()["names"]], ["told", "used", "other", "kept"])

    def test_calls(self):
        self.replace("docs/ARCHITECTURE.md", "map::count", "map::counts")
        said = "docs/ARCHITECTURE.md:6: `map::counts`, and crates/map/src has no counts"
        self.assertEqual(self.faults(), {"calls": [said]})

    def test_a_name_beside_another_file(self):
        self.replace("docs/CLAIMS.md", "`step`, `row_law` in", "`step`, `count` in")
        said = "docs/CLAIMS.md:5: `count` in `crates/row/specs/Row.antt`, and it is not defined there"
        self.assertEqual(self.faults(), {"beside": [said]})

    def test_rows_of_a_table(self):
        self.replace("docs/CLAIMS.md", "`step`; `count`", "`count`; `step`")
        amiss = ["count", "row/specs/Row.antt", "step", "map/src/lib.rt"]
        self.assertEqual([fault.split("`")[1] for fault in self.faults()["tables"]], amiss)
        self.replace("docs/CLAIMS.md", "`count`; `step`", "`step`, over `count`; the contract that cites `bits`")
        said = "docs/CLAIMS.md:9: `bits`, and nothing under crates/ has that name"
        self.assertEqual(self.faults(), {"names": [said]})
        self.replace("docs/CLAIMS.md", "| `Row` |", "| `count` |")
        self.assertEqual([fault.split("`")[1] for fault in self.faults()["tables"]], ["count", "row/specs/Row.antt"])
