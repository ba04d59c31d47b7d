"""The names that pages cite, for tools/verify: that they are defined, and in the file named beside them.

In docs/CLAIMS.md every name in a code span is to be defined somewhere under crates/, in a specification, a proof or a
source, or to be a must-fail edit, a crate, or a word of WORDS. On every page but the notes in
docs/changes, docs/PORT.md, docs/DESIGN-PASS.md and docs/LOOK-BACK.md:

  `a`, `b` in `file`        both are defined in that file; so too with a comma or a bracket before the file, and with
                            more files behind it, `a` in `file` and in `other`
  `crate::call`             the crate has a function of that name
  | `a`; `b` | `f`; `g` |   in a table with a column for definitions and one for files: `a` is defined in f, and `b`
                            in g; where one column has more parts than the other, each name is defined in one of the
                            files; "the same" is the file of the row above. Each file has one of its row's names. What
                            a definition is said to be over, or to go by, is defined anywhere

A source has the names that its contracts cite too, and a crate is in its own files.
"""

import re

from pages import Paths, SPAN, below, listed_crates

NAME = re.compile(r"[A-Za-z][\w-]*")
CALL = re.compile(r"([a-z_]\w*)::([A-Za-z_]\w*)")
LIST = re.compile(r"(?:,|\s+and|\s+or|\s+\(with|,\s+with)\s+")  # between two names of one list
INTO = re.compile(r"\)?(?:,?\s+in\s+\[?|,\s+\[?|\s+\(\[?)")  # between names and their file
MORE = re.compile(r"(?:\]\([^)]*\))?,?(?:\s+and)?\s+in\s+\[?")  # between that file and a further one
ELSE = re.compile(r"(?:\]\([^)]*\))?(?:,|\s+and|\s+or)\s+\[?")  # between two files one of which has the name
DECLARED = re.compile(r"\s*(?:(?:abbrev|unfoldable|opaque|pub|record|data)\s+)*([^\s(){}:;,=]+)"
                      r"(?:\s+[^:=]*|\s*[({].*)?:(?:\s|$)")
IMPORT = re.compile(r"^\s*(?:pub\s+)?(?:ghost\s+)?use\s[^;]*;", re.MULTILINE)
FUNCTION = re.compile(r"\b(?:fn|struct|enum|trait|const|static)\s+([A-Za-z_]\w*)")
FIELD = re.compile(r"\s+(?:pub\s+)?([A-Za-z_]\w*)(?:\(.*\)|\s*:.*)?,\s*(?://.*)?$")
RESTS = re.compile(r"\bgo(?:es)? by\b")  # a cell that says what definitions rest on, and not where each stands
OVER = re.compile(r"\bover\s+(?=`)")  # a name behind it is what the one before stands on
CLAIMS = "docs/CLAIMS.md"

WORDS = {  # what stands in code spans there and is no definition, and why
    **dict.fromkeys(("ensures", "requires"), "a word of the language"),
    **dict.fromkeys(("and", "or"), "an operation of the machine"),
    **dict.fromkeys(("assemble", "check", "convert", "explain", "isolate", "list", "plot", "show", "state"),
                    "a command of ./dipperlock"),
    **dict.fromkeys(("hit", "fill", "evict", "pass", "flush", "absent", "policy", "select", "refused"),
                    "a word of the listing"),
}


def declared_in(path):
    """The names that a specification, a proof or a source declares, fields and variants too."""
    text = path.read_text(encoding="utf-8")
    if path.suffix == ".rt":
        lines = IMPORT.sub("", text).splitlines()
        return {name for line in lines for name in (*FUNCTION.findall(line), *FIELD.findall(line))}
    lines = (line for line in text.splitlines() if not line.lstrip().startswith(("--", "use ")))
    return {found[1] for found in map(DECLARED.match, lines) if found}


class Names:
    """Which names are defined in which files, each file being read when it is first asked for."""

    def __init__(self, root):
        self.root, self.paths, self.read = root, Paths(root), {}
        self.crates = set(listed_crates(root))

    def inside(self, path):
        """The names defined in a file; of one in another language, every word; of a directory, those of its files."""
        if path not in self.read:
            if path.is_dir():
                files = list(below(path))
                texts = [file for file in files if file.suffix in (".antt", ".rt")]
                self.read[path] = {file.stem for file in files if file.suffix == ".edit"}.union(*map(self.inside, texts))
            elif path.suffix in (".antt", ".rt"):
                self.read[path] = declared_in(path)
            else:
                self.read[path] = set(NAME.findall(path.read_text(encoding="utf-8", errors="replace")))
        return self.read[path]

    def all(self):
        """Every name defined under crates/, every must-fail edit and every crate."""
        return self.inside(self.root / "crates") | self.crates

    def has(self, path, name):
        """Whether a file has a name, `crate::call` as the call. A crate is in its own files."""
        if name in self.crates and self.root / "crates" / name in path.parents:
            return True
        name = name.rpartition("::")[2]
        return name in self.inside(path) or path.suffix == ".rt" and self.cites(path, name)

    def cites(self, path, name):
        """Whether a source has a name in a contract, or anywhere else but its imports and comments."""
        text = re.sub(r"//.*", "", IMPORT.sub("", path.read_text(encoding="utf-8")))
        return re.search(rf"(?<![\w-]){re.escape(name)}(?![\w-])", text) is not None

    def missing(self, names, paths):
        """The names that none of some files has."""
        return [name for name in names if not any(self.has(path, name) for path in paths)]


# Names alone.

def names(pages):
    """Every name in a code span of docs/CLAIMS.md is defined under crates/, or a word that is known."""
    page = next((page for page in pages if page.name == CLAIMS), None)
    if page is None:
        return "no page", [f"{CLAIMS}:1: there is no such page"]
    known = Names(page.root).all()
    spoken = [(start, content) for start, _, content in page.spans() if NAME.fullmatch(content)]
    faults = [f"{page.at(start)}: `{name}`, and nothing under crates/ has that name"
              for start, name in spoken if name not in known and name not in WORDS]
    return f"{len(spoken)} names", faults


def calls(pages):
    """Of every `crate::call` the crate has such a function, on pages that tell how things are now."""
    known = Names(pages[0].root)
    count, faults = 0, []
    for page in pages:
        for start, _, content in page.spans() if page.told else ():
            found = CALL.fullmatch(content)
            if not found or found[1] not in known.crates:
                continue
            count += 1
            if found[2] not in known.inside(page.root / "crates" / found[1] / "src"):
                faults.append(f"{page.at(start)}: `{content}`, and crates/{found[1]}/src has no {found[2]}")
    return f"{count} calls", faults


# Names with a file beside them.

class Beside:
    """Reads the code spans of a page one after another, and gives names with the files that are named beside them."""

    def __init__(self, page, known):
        self.page, self.known = page, known
        self.found = []  # (place, names, files as they are written)
        self.names, self.inside = [], False  # the list of names that is open; whether a file of it came last

    def is_file(self, word):
        """Whether a word is a file that may define something, or a directory of such in a crate."""
        return self.known.paths.looks(word) and ("." in word or word.startswith("crates/"))

    def read(self):
        last = None
        for start, end, content in self.page.spans():
            between = self.page.prose[last:start] if last is not None else None
            if self.is_file(content):
                self.file(start, content, between)
            elif NAME.fullmatch(content) or CALL.fullmatch(content):
                joined = between is not None and not self.inside and LIST.fullmatch(between)
                self.names = [*self.names, content] if joined else [content]
                self.inside = False
            else:
                self.names, self.inside = [], False
            last = end
        return self.found

    def file(self, start, content, between):
        """A file: of the names before it, a further one, another one for the same names, or of none."""
        if self.names and between is not None:
            if MORE.fullmatch(between) if self.inside else INTO.fullmatch(between):
                self.found.append((start, self.names, [content]))
                self.inside = True
                return
            if self.inside and ELSE.fullmatch(between):
                self.found[-1][2].append(content)
                return
        self.names, self.inside = [], False


def beside(pages):
    """Names are defined in the file that is named beside them, on pages that tell how things are now."""
    known = Names(pages[0].root)
    count, faults = 0, []
    for page in pages:
        for start, cited, files in Beside(page, known).read() if page.told else ():
            count += len(cited)
            paths = [path for word in files for path in known.paths.found(page, start, word)]
            for name in known.missing(cited, paths):
                faults.append(f"{page.at(start)}: `{name}` in `{'`, `'.join(files)}`, and it is not defined there")
    return f"{count} names", faults


# Tables of definitions and files.

def rows_of(page):
    """The rows of tables that have a column of definitions and one of files: where each stands, and both cells."""
    columns, place = None, 0
    for line in page.prose.split("\n"):
        cells = [cell.strip() for cell in line.strip().strip("|").split("|")] if line.startswith("|") else None
        if cells is None:
            columns = None
        elif columns is None:
            columns = [next((at for at, cell in enumerate(cells) if cell.startswith(head)), None)
                       for head in ("definition", "file")]
        elif None not in columns and len(cells) > max(columns) and not set(line) <= set("|-: "):
            yield place, cells[columns[0]], cells[columns[1]]
        place += len(line) + 1


def parts_of(cell):
    """The parts of a cell, between semicolons: the code spans of each, and its text."""
    return [([" ".join(found[2].split()) for found in SPAN.finditer(part)], part) for part in cell.split(";")]


def is_name(word):
    return NAME.fullmatch(word) or CALL.fullmatch(word)


def groups_of(definitions, files, above):
    """The names of a row with the files that they are to be in; and all its files, for a row below that says the same.
    """
    named = [list(filter(is_name, spans)) for spans, _ in parts_of(definitions)]
    where = [[*(above if "the same" in part else []), *spans] for spans, part in parts_of(files)]
    every = [file for group in where for file in group]
    if len(named) == len(where) and all(named):
        return list(zip(named, where)), every
    return [([name for group in named for name in group], every)], every


def row_faults(known, page, place, definitions, group):
    """What is amiss with some names of a row and their files."""
    cited, words = group
    over = [SPAN.match(definitions, found.end())[2] for found in OVER.finditer(definitions)]
    found = {word: known.paths.found(page, place, word) for word in words}
    paths = [path for there in found.values() for path in there]
    lost = [] if RESTS.search(definitions) else known.missing([name for name in cited if name not in over], paths)
    faults = [f"`{name}` beside `{'`, `'.join(words)}`, and it is not defined there" for name in lost]
    for word, there in found.items():
        if cited and not any(known.has(path, name) for path in there for name in cited):
            faults.append(f"`{word}`, and it has none of the names beside it")
    return [f"{page.at(place)}: {fault}" for fault in faults]


def tables(pages):
    """In tables of definitions and files each name is defined in the file of its row."""
    known = Names(pages[0].root)
    count, faults = 0, []
    for page in pages:
        above = []
        for place, definitions, files in rows_of(page) if page.told else ():
            groups, above = groups_of(definitions, files, above)
            for group in groups:
                count += len(group[0])
                faults += row_faults(known, page, place, definitions, group)
    return f"{count} names", faults


CHECKS = {"names": names, "calls": calls, "beside": beside, "tables": tables}
