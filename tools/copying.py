"""The copy that tools/mutate works on: the definitions and what is computed with them, as one crate without functions.

It is made of all files of specs/, of src/ the structs and enums alone, and of proofs/ what is computed: the files named
in COMPUTED whole, and from other files of laws each closed equation that holds by `refl`. Each crate's files become
modules of the one crate `model`: specs/Bits.antt of `waymap` is specs/WaymapBits.antt there, and `use` lines are turned
to match. The one theorem over all worked cases becomes a theorem for each of their lists, which opens what its file can
name and no more. A check has some computed modules and those that they name, so that a refusal is quick.
"""

import dataclasses
import functools
import pathlib
import re

CRATE = "model"
COMPUTED = ("Computing", "WorkedCases", "Witness")
SKIPPED = ("stepper",)

ITEM = re.compile(r"^(?:pub )?(?:struct|enum)\b[^{(;]*(?:\{.*?^\}|\(.*?\);)", re.S | re.M)
USE = re.compile(r"^use ((?:\w+::)+)(\w+|\{[^{}]*\});$", re.M)
PLACE = re.compile(r"Rattle\.(?!std\.)(\w+)\.(specs|proofs)\.([\w-]+(?:\.[\w-]+)*)")
LIST = re.compile(r"^(abbrev|unfoldable) (?:pub )?(\w+) : (ℕ → )?List Case$", re.M)
JOINED = re.compile(r"(?:[\w\s()]|\+\+)*")
USED = re.compile(r"^use ([\w.]+?)(?:\.\{([^}]*)\}| as (\w+))$", re.M)
NAMED = re.compile(rf"Rattle\.{CRATE}\.(specs|proofs)\.(\w+)")
OWN_PROOFS = re.compile(r"use Rattle\.(?!std\.)\w+\.proofs\.|use borrow")
CLOSED = re.compile(r"(?:pub )?([\w-]+) : ([^→]*?)\n(unfolding [^=]*?\n)?\1 = [\s(),]*refl(?:[\s(),]|refl)*\Z")

HEAD = f"""use Rattle.std.specs.Prelude.{{◌≡◌, ℕ, map, refl}}
use Rattle.{CRATE}.specs.CasesCase.{{Case}}
"""


def module_name(crate: str, name: str) -> str:
    """The name in the copy of a crate's module."""
    return "".join(word.capitalize() for word in crate.split("_")) + name


class Source:
    """The repository, as the copy is made of it."""

    def __init__(self, root: pathlib.Path):
        self.root = root
        self.crates = self._listed()

    def _listed(self) -> list[str]:
        names = []
        for line in (self.root / "crates.txt").read_text().splitlines():
            name = line.split("#")[0].partition(":")[0].strip().partition(" ")[0]  # `staticlib` may stand behind it
            if name and name not in SKIPPED and (self.root / "crates" / name / "specs").is_dir():
                names.append(name)
        return names

    def specs(self, crate: str) -> list[pathlib.Path]:
        """A crate's files of definitions."""
        return [f for f in sorted((self.root / "crates" / crate / "specs").glob("*.antt")) if f.stem != "Lib"]

    def proofs(self, crate: str) -> list[pathlib.Path]:
        """The files in a crate's proofs/, without those of its functions."""
        return [f for f in sorted((self.root / "crates" / crate / "proofs").glob("*.antt")) if f.stem != "Lib"]


def turned(text: str) -> str:
    """A file's text with the modules that it names called as they are in the copy."""
    return PLACE.sub(_turned_place, text)


def _turned_place(found: re.Match) -> str:
    crate, side, path = found[1], found[2], found[3]
    if path.startswith("declared."):
        parts = path.split(".")
        inner = [p for p in parts[1:] if p[0].islower()]
        module = "_".join([crate] + inner)
        rest = ".".join(p for p in parts[1:] if p not in inner)
        return f"Rattle.{CRATE}.specs.declared.{module}.{rest}"
    return f"Rattle.{CRATE}.{side}.{module_name(crate, path)}"


def computed_in(text: str) -> str:
    """What a file of laws has that is computed: its closed equations by `refl`, and the names that they may need."""
    blocks = [re.sub(r"^--.*\n", "", b, flags=re.M).rstrip() for b in re.split(r"\n\n+", text)]
    own = {m[1] for b in blocks if (m := re.match(r"(?:\w+ )*([\w-]+) :", b))}
    kept = [b for b in blocks if (m := CLOSED.match(b)) and not own & set(re.findall(r"[\w-]+", m[2]))]
    if not kept:
        return ""
    uses = re.findall(r"^use (?:[^{\n]*|[^{\n]*\{[^}]*\})$", text, re.M)
    uses = [u for u in uses if not OWN_PROOFS.match(u)]
    return "\n\n".join(["-- Computed.\n" + "\n".join("use " + u.removeprefix("use ") for u in uses)] + kept) + "\n"


def declared(crate: str, folder: pathlib.Path) -> dict[str, str]:
    """The modules of src/ in the copy: a crate's structs and enums, by module, with the `use` lines that they need."""
    modules = {}
    for file in sorted(folder.glob("*.rt")):
        text = file.read_text()
        items = [m[0] for m in ITEM.finditer(text)]
        if not items:
            continue
        body = "\n\n".join(i if i.startswith("pub") else "pub " + i for i in items)
        brought = [(m[1], n) for m in USE.finditer(text) for n in re.findall(r"\w+", m[2])]
        uses = [_use_line(crate, path, n) for path, n in brought if re.search(rf"\b{n}\b", body)]
        name = crate if file.stem in ("lib", "main") else f"{crate}_{file.stem}"
        modules[name] = "\n".join(uses + [""] + [body]) + "\n"
    return modules


def _use_line(crate: str, path: str, name: str) -> str:
    parts = path.strip(":").split("::")
    if parts[0] == "crate":
        parts[0] = crate
    return f"use crate::{'_'.join(parts)}::{name};"


def with_lists_open(text: str) -> str:
    """A file of cases whose lists can be named from outside, and none of which ends in other lists joined to it."""
    open_text = LIST.sub(lambda m: f"{m[1]} pub {m[2]} : {m[3] or ''}List Case", text)
    return re.sub(r"\n    ∷ \((?:[\w\s()]|\+\+)*\)\s*\Z", "\n    ∷ []\n", open_text)


def opened(text: str, computing: dict[str, str]) -> list[tuple[str, str]]:
    """What a module `Computing` opens, itself or through another one: the place and the name of each definition."""
    places: dict[str, tuple[str, str]] = {}
    for place, names, alias in USED.findall(text):
        for name, _, new in (n.strip().partition(" as ") for n in names.split(",") if n.strip()):
            places[new or name] = (place, name)
        if alias:
            places[alias] = (place, "")
    found = []
    for word in re.search(r"^unfolding (.*(?:\n    .*)*)", text, re.M)[1].split():
        first, _, rest = word.partition(".")
        place, name = places[first]
        inner = computing.get(place.rpartition(".")[2])
        found += opened(inner, computing) if inner else [(place, rest or name)]
    return found


def case_theorems(made: "Made", module: str, opening: list[tuple[str, str]]) -> dict[str, str]:
    """For each list of a file of cases the theorem over it, which opens what the file can name, by its module."""
    text = made.specs[module]
    named = made.near([], [module])[0]
    lines = {}
    for place, name in opening:
        last = place.rpartition(".")[2]
        if last in named or CRATE not in place:
            lines.setdefault(place, []).append(f"{last}.{name}")
    uses = "".join(f"use {place} as {place.rpartition('.')[2]}\n" for place in lines)
    names = " ".join(name for names in lines.values() for name in names)
    found = {}
    for kind, name, number in LIST.findall(text):
        body = re.search(rf"^{name}(?: u)? =((?:\n? .*|\n)*)", text, re.M)
        if not body or JOINED.fullmatch(body[1]):
            continue
        given = f"({name} u)" if number else name
        sides = (f"map (λ (c : Case). c.{side}) {given}" for side in ("given", "printed"))
        found[f"{module}{name.capitalize()}"] = (
            f"{HEAD}{uses}use Rattle.{CRATE}.specs.{module}.{{{name}}}\n\n"
            f"pub worked : (u : ℕ) → {' ≡ '.join(sides)}\n"
            f"unfolding {names}{' ' + name if kind == 'unfoldable' else ''}\nworked u = refl\n"
        )
    return found


@dataclasses.dataclass
class Made:
    """What a copy is made of, by the modules in it: the repository's files of specs/, their texts there, the texts of what
    is computed, and of src/."""

    files: dict[str, pathlib.Path]
    specs: dict[str, str]
    proofs: dict[str, str]
    rust: dict[str, str]

    def near(self, proofs: list[str], specs: list[str]) -> tuple[dict[str, str], dict[str, str]]:
        """These modules and all that they name, of specs/ and of what is computed, in their order."""
        found: set[tuple[str, str]] = set()
        left = [("proofs", name) for name in proofs] + [("specs", name) for name in specs]
        while left:
            part, name = left.pop()
            texts = self.proofs if part == "proofs" else self.specs
            if (part, name) not in found and name in texts:
                found.add((part, name))
                left += _named(texts[name])
        return (
            {name: text for name, text in self.specs.items() if ("specs", name) in found},
            {name: text for name, text in self.proofs.items() if ("proofs", name) in found},
        )


@functools.lru_cache(maxsize=None)
def _named(text: str) -> list[tuple[str, str]]:
    """The modules of the copy that a text names: of specs/ or of what is computed, and which."""
    return NAMED.findall(text)


def make(root: pathlib.Path) -> Made:
    """Reads the repository."""
    source = Source(root)
    made = Made({}, {}, {}, {})
    for crate in source.crates:
        made.rust |= declared(crate, root / "crates" / crate / "src")
        for file in source.specs(crate):
            made.files[module_name(crate, file.stem)] = file
        made.proofs |= computed(source, crate)
    made.specs |= {name: definitions(file) for name, file in made.files.items()}
    computing = {name: text for name, text in made.proofs.items() if name.endswith("Computing")}
    opening = list(dict.fromkeys(opened(computing["CasesComputing"], computing)))
    for file in source.specs("cases"):
        made.proofs |= case_theorems(made, module_name("cases", file.stem), opening)
    return made


def put(folder: pathlib.Path, texts: dict[str, str], ending: str = "antt") -> None:
    """Has a folder of a copy hold these modules, and no others."""
    folder.mkdir(parents=True, exist_ok=True)
    lib, end = ("Lib", "") if ending == "antt" else ("lib", ";")
    texts = texts | {lib: "".join(f"pub mod {name}{end}\n" for name in texts)}
    for path in folder.glob(f"*.{ending}"):
        if path.stem not in texts:
            path.unlink()
    for name, text in texts.items():
        path = folder / f"{name}.{ending}"
        if not path.is_file() or path.read_text() != text:
            path.write_text(text)


def definitions(file: pathlib.Path) -> str:
    """A file of specs/ as it stands in the copy."""
    text = turned(file.read_text())
    return with_lists_open(text) if file.parts[-3] == "cases" else text


def computed(source: Source, crate: str) -> dict[str, str]:
    """What is computed in a crate, by its modules in the copy; but for the worked cases in lists."""
    found = {}
    for file in source.proofs(crate):
        text = file.read_text()
        text = text if file.stem in COMPUTED else computed_in(text)
        if text and file.stem != "Worked":
            found[module_name(crate, file.stem)] = turned(text)
    return found
