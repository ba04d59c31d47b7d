"""Respells the repository's own names as today's Rattle has them: run once, at the top, right after the kit's port.py.

Definitions in camel case and lemmas with dashes become snake case, in specs/, in proofs/, in the clauses of src/, in the must-fail
edits, and between backticks in comments and pages. Types, modules, functions of src/ and the names that Rattle makes stay. Where two names
fall together, or a lemma's with a name that a file imports, the lemma's gets `_lem`; a local name gets `_here`.
"""

import collections
import pathlib
import re
import sys

ROOT = pathlib.Path(sys.argv[1] if len(sys.argv) > 1 else ".")
WORD = r"[^\s(){}\[\],;.\"`]+"
TOKEN = re.compile(WORD)
HEADS = r"(?:(?:abbrev|unfoldable|pub|data|record)\s+)*"
TOP = re.compile(rf"^{HEADS}({WORD})\s+(?:\{{[^}}]*\}}\s+|\([^)]*\)\s+)*:(?:\s|$)")
MEMBER = re.compile(rf"^\s+(?:pub )?({WORD}) : ")
BLOCK = re.compile(r"^(?:abbrev |pub )*(?:record|data) ")
USE = re.compile(r"^(?:pub )?(?:ghost )?use ([\w.◌-]+?)(?:\.\{([^}]*)\}| as (\S+?))?;?$", re.M)
TICKED = re.compile(r"`([^`\n]+)`")
LIBRARY = "lru"  # a crate of ours that the kit has a library of the same name of
CRATE = "lru_rule"
GARBLED = {"claims": {"field_own": "own_at", "ownAt": "own_at"}}  # names of ours that port.py takes for the kit's, by crate
RESULTS = {"row": "effect_of", "replacement": "outcome_of"}  # `result` is a word of clauses now
RESERVED = {"open", "data", "record", "use", "search", "grind", "simp", "omega", "rw", "cc", "in", "as", "where"}


def snake(name: str) -> str:
    if name[0].islower():
        name = re.sub(r"([a-z0-9])([A-Z])(?=([A-Z]?))", lambda m: f"{m[1]}_{m[2].lower()}" + ("_" if m[3] else ""), name)
        name = re.sub(r"_([A-Z])", lambda m: "_" + m[1].lower(), name)
    return name.replace("-", "_")


def odd(name: str) -> bool:
    return name[0].islower() and re.fullmatch(r"[\w'₀-₉-]+", name) is not None and snake(name) != name


def camel(name: str) -> bool:
    return re.search(r"[a-z0-9][A-Z]", name) is not None


def law_files() -> list[pathlib.Path]:
    """Definitions and lemmas; not the proofs of functions, whose names Rattle makes."""
    return sorted([*ROOT.glob("crates/*/specs/*.antt"), *ROOT.glob("crates/*/proofs/*.antt")])


def declared(path: pathlib.Path) -> tuple[set[str], set[str]]:
    """What a file declares at its top or in a module, and the fields and constructors of its records and data."""
    tops, members = set(), set()
    inside = False
    section = 0
    for line in path.read_text().split("\n"):
        if line.startswith("--") or USE.match(line) or not line.strip():
            continue
        if re.match(r"^\s*module _ .*", line):
            section = len(line) - len(line.lstrip()) + 2
            continue
        indent = len(line) - len(line.lstrip())
        if indent == 0:
            section = 0
            inside = bool(BLOCK.match(line)) and line.rstrip().endswith("where")
        if section and indent == section:
            inside = bool(BLOCK.match(line.strip())) and line.rstrip().endswith("where")
            if m := TOP.match(line.strip()):
                tops.add(m[1])
            continue
        if indent == 0 and (m := TOP.match(line)):
            tops.add(m[1])
        elif inside and (m := MEMBER.match(line)):
            members.add(m[1])
    return tops, members


def imported(text: str, crates: set[str]) -> tuple[set[str], set[str]]:
    """The names that a file imports from Rattle, and those from this repository."""
    kit, own = set(), set()
    for place, names, alias in USE.findall(text):
        parts = place.split(".")
        ours = parts[0] == "Rattle" and len(parts) > 1 and parts[1] in crates
        for item in (names or "").split(","):
            for name in item.strip().split(" as "):
                (own if ours else kit).add(name.strip())
    return kit - {""}, own - {""}


def plan() -> tuple[dict[str, str], dict[pathlib.Path, set[str]]]:
    crates = {p.name for p in ROOT.glob("crates/*")}
    tops, members = collections.defaultdict(set), set()
    kit = {}
    for path in law_files():
        t, m = declared(path)
        for name in t:
            tops[name].add(path)
        members |= m
        kit[path] = imported(path.read_text(), crates)[0]
    for path in ROOT.glob("crates/*/proofs/**/*.antt"):
        kit.setdefault(path, imported(path.read_text(), crates)[0])
    for path in ROOT.glob("crates/*/src/**/*.rt"):
        kit.setdefault(path, imported(path.read_text(), crates)[0])
    used = {p: set(TOKEN.findall(p.read_text())) for p in kit}
    names = set(tops) | members
    turned = {}
    plain = {n for n in names if not odd(n)}
    taken = collections.defaultdict(set)
    for name in names:
        taken[snake(name)].add(name)
    for name in sorted(names):
        if not odd(name) and name not in RESERVED:
            continue
        new = snake(name)
        rivals = {r for r in taken[new] if r != name}
        if name in members and name not in tops:
            rivals = {r for r in rivals if r in members}
        loses = not camel(name) and (new in plain or any(camel(r) for r in rivals)) and bool(rivals)
        clash = any(new in kit[p] for p in kit if name in used[p])
        if loses or clash or new in RESERVED:
            new += "_lem"
        turned[name] = new
    return turned, kit


def locals_of(text: str, turned: dict[str, str], kit: set[str]) -> dict[str, str]:
    """The other names of a file that are bound in it."""
    found = {}
    tokens = set(TOKEN.findall(text))
    after = {turned.get(t, t) for t in tokens}
    for name in sorted(tokens):
        if odd(name) and name not in turned and name not in kit:
            new = snake(name)
            found[name] = new + "_here" if new in after else new
            after.add(found[name])
    return found


def results(path: pathlib.Path) -> None:
    """`result`, the definition, by a name of its own; a clause of src/ that cites it loses its λ, which port.py leaves."""
    text = path.read_text()
    for crate, name in RESULTS.items():
        place = rf"Rattle\.{crate}\.specs\.Calls\.\{{[^}}]*\bresult\b"
        here = path.match(f"crates/{crate}/specs/Calls.antt")
        if not here and not re.search(place, text):
            continue
        lines = text.split("\n")
        for i, line in enumerate(lines):
            if m := re.match(r"^(\s*)ensures\*( \w+)? \{ λ (\w+)\. ⌜ (.*) ⌝ \}$", line):
                body = TOKEN.sub(lambda t: name if t[0] == "result" else t[0], m[4])
                lines[i] = f"{m[1]}ensures{m[2] or ''} {{ " + re.sub(rf"(?<![\w.]){m[3]}(?!\w)", "result", body) + " }"
            elif not line.lstrip().startswith("--"):
                lines[i] = re.sub(r"(?<![\w.'-])result(?![\w'-])(?! =)", name, line) if path.suffix == ".antt" else line
                if USE.match(line) and f"{crate}.specs.Calls" in line:
                    lines[i] = re.sub(r"\bresult\b", name, line)
        text = "\n".join(lines)
    lines = text.split("\n")
    for i, line in enumerate(lines):
        if m := re.match(r"^(\s*)ensures\*( \w+)? \{ λ (\w+)\. ⌜ (.*) ⌝ \}$", line):
            lines[i] = f"{m[1]}ensures{m[2] or ''} {{ " + re.sub(rf"(?<![\w.]){m[3]}(?!\w)", "result", m[4]) + " }"
    path.write_text("\n".join(lines))


def last_camels() -> None:
    """What is left in camel case: aliases, and names inside one proof or clause."""
    for path in [*ROOT.glob("crates/*/**/*.antt"), *ROOT.glob("crates/*/src/**/*.rt")]:
        lines = path.read_text().split("\n")
        words = {w for l in lines for w in TOKEN.findall(l)}
        names = {w: snake(w) for w in words if re.fullmatch(r"[a-z]+[a-z0-9]*[A-Z]\w*", w) and snake(w) not in words}
        for i, line in enumerate(lines):
            if not line.lstrip().startswith(("--", "//")) and '"' not in line:
                lines[i] = TOKEN.sub(lambda t: names.get(t[0], t[0]), line)
        path.write_text("\n".join(lines))


def mend_garbled() -> None:
    """Names of ours that port.py took for names of the kit."""
    for crate, names in GARBLED.items():
        for path in [*ROOT.glob(f"crates/{crate}/**/*.antt"), *ROOT.glob(f"crates/{crate}/must-fail/*.edit")]:
            text = path.read_text()
            new = re.sub("|".join(rf"\b{n}\b" for n in names), lambda m: names[m[0]], text)
            if new != text:
                path.write_text(new)


def move_crate() -> None:
    """The crate that the kit has a library of the same name of, under another name."""
    (ROOT / "crates" / LIBRARY).rename(ROOT / "crates" / CRATE)
    listed = ROOT / "crates.txt"
    listed.write_text(re.sub(rf"(?<![\w]){LIBRARY}(?![\w])", CRATE, listed.read_text()))
    for path in [*ROOT.glob("crates/*/**/*.antt"), *ROOT.glob("crates/*/src/**/*.rt"), *ROOT.glob("crates/*/must-fail/*.edit")]:
        text = path.read_text()
        new = re.sub(rf"Rattle\.{LIBRARY}\.", f"Rattle.{CRATE}.", text)
        new = re.sub(rf"(?<![\w.]){LIBRARY}::", f"{CRATE}::", new)
        if new != text:
            path.write_text(new)


def known(word: str, turned: dict[str, str], final: set[str]) -> str:
    """A name in a page or an edit, which port.py doesn't turn."""
    return turned.get(word) or (snake(word) if odd(word) and snake(word) in final else word)


def by_ticks(comment: str, turned: dict[str, str], final: set[str] = frozenset()) -> str:
    return TICKED.sub(lambda m: "`" + TOKEN.sub(lambda t: known(t[0], turned, final), m[1]) + "`", comment)


def respell_law(path: pathlib.Path, turned: dict[str, str], kit: set[str]) -> None:
    text = path.read_text()
    body = "\n".join(l for l in text.split("\n") if not l.lstrip().startswith("--"))
    names = {k: v for k, v in turned.items() if k not in kit}
    names |= locals_of(body, names, kit)
    out = []
    for line in text.split("\n"):
        if line.lstrip().startswith("--"):
            out.append(by_ticks(line, names))
        elif (m := USE.match(line)) and not line.startswith(("use Rattle.", "pub use Rattle.")):
            out.append(line)
        else:
            out.append(TOKEN.sub(lambda t: names.get(t[0], t[0]), line))
    path.write_text("\n".join(out))


def respell_function(path: pathlib.Path, turned: dict[str, str], crates: set[str]) -> None:
    """The proof of a function: what it imports from specs/ and proofs/, and fields of records."""
    text = path.read_text()
    own = imported(text, crates)[1]
    names = {n: turned[n] for n in own if n in turned}
    fields = {n: v for n, v in turned.items()}
    out = []
    for line in text.split("\n"):
        if line.lstrip().startswith("--"):
            out.append(by_ticks(line, names))
            continue
        aliased = re.findall(r"([A-Z]\w*)\.(" + WORD + ")", line)
        line = re.sub(WORD, lambda t: names.get(t[0], t[0]), line)
        for module, name in aliased:
            if name in fields:
                line = line.replace(f"{module}.{name}", f"{module}.{fields[name]}")
        out.append(line)
    path.write_text("\n".join(out))


def respell_source(path: pathlib.Path, turned: dict[str, str], crates: set[str]) -> None:
    text = path.read_text()
    own = imported(text, crates)[1]
    camels = {n: v for n, v in turned.items() if camel(n)}
    names = camels | {n: turned[n] for n in own if n in turned}
    out = []
    for line in text.split("\n"):
        stripped = line.lstrip()
        if stripped.startswith("//"):
            out.append(by_ticks(line, turned))
        elif stripped.startswith(("ghost", "requires", "ensures")) or "≡" in line or "λ" in line or any(c in line for c in camels):
            parts = re.split(r'("(?:[^"\\]|\\.)*")', line)
            out.append("".join(p if p.startswith('"') else TOKEN.sub(lambda t: names.get(t[0], t[0]), p) for p in parts))
        else:
            out.append(line)
    path.write_text("\n".join(out))


def respell_edit(path: pathlib.Path, turned: dict[str, str], final: set[str]) -> None:
    text = path.read_text()
    camels = {n: v for n, v in turned.items() if camel(n)}
    law = re.search(r"^file: (specs|proofs)/", text, re.M)
    out = []
    for line in text.split("\n"):
        if line.startswith("#"):
            out.append(by_ticks(line, turned, final))
        elif line.startswith(("old:", "new:")):
            words = re.sub(r"(?<=[\w)]) \.(?=[a-z0-9])", ".", line[5:]) if law else line[5:]
            names = turned if law else camels
            out.append(line[:5] + TOKEN.sub(lambda t: known(t[0], names, final if law or camel(t[0]) else frozenset()), words))
        else:
            out.append(line)
    path.write_text("\n".join(out))


def main() -> None:
    crates = {p.name for p in ROOT.glob("crates/*")}
    turned, kit = plan()
    final = {turned.get(n, n) for p in law_files() for s in declared(p) for n in s}
    for path in [*law_files(), *ROOT.glob("crates/*/proofs/*/**/*.antt"), *ROOT.glob("crates/*/src/**/*.rt")]:
        results(path)
    for path in law_files():
        respell_law(path, turned, kit[path])
    for path in sorted(ROOT.glob("crates/*/proofs/*/**/*.antt")):
        respell_function(path, turned, crates)
    for path in sorted(ROOT.glob("crates/*/src/**/*.rt")):
        respell_source(path, turned, crates)
    for path in sorted(ROOT.glob("crates/*/must-fail/*.edit")):
        respell_edit(path, turned, final)
    for path in [ROOT / "README.md", *sorted(ROOT.glob("docs/*.md")), *sorted(ROOT.glob("docs/changes/*.md"))]:
        path.write_text(by_ticks(path.read_text(), turned, final))
    last_camels()
    mend_garbled()
    move_crate()
    for name, new in sorted(turned.items()):
        if new.endswith("_lem"):
            print(f"{name} -> {new}")


main()
