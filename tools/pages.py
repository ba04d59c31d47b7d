"""The pages' links, paths and lists, for tools/verify: that what they lead to and name is there.

A page is README.md, a Markdown file under docs/, or a README.md under examples/. Each check is given the pages, and
gives how many things it looked at and a line for each fault. Notes in docs/changes, docs/PORT.md,
docs/DESIGN-PASS.md and docs/LOOK-BACK.md tell of a time, and may name what is gone: of them the links are checked, and
nothing else.
"""

import os
import pathlib
import re

CODE = re.compile(r"(?:\A|\n[ \t]*(?=\n))(?:\n(?: {4}|\t)[^\n]*|\n[ \t]*(?=\n))+")  # indented, behind a blank line
FENCE = re.compile(r"^(```|~~~).*?^\1[ \t]*$", re.MULTILINE | re.DOTALL)
SPAN = re.compile(r"(`+)(?!`)((?:[^`]|(?!\1(?!`))`)+?)\1(?!`)")
LINK = re.compile(r"\]\(\s*<?([^()<>\s]*)>?(?:\s+\"[^\"]*\")?\s*\)|^\[[^\]]+\]:\s+(\S+)", re.MULTILINE)
HEADING = re.compile(r"^(#{1,6})[ \t]+(.*?)[ \t]*#*[ \t]*$", re.MULTILINE)
ELSEWHERE = re.compile(r"[a-z][a-z0-9+.-]*:", re.IGNORECASE)  # http:, https:, mailto:
PATH = re.compile(r"[\w.*-]+(?:/[\w.*-]+)*/?")
FILE_NAME = re.compile(r"[\w-]+\.(?:antt|rt|edit|md|py|rs|sv|txt|json|svg|supp|toml|log)")
COMMAND = re.compile(r"(?<![\w/-])tools/([\w-]+)(?![\w-]|\.\w)")
IN_A_CRATE = ("specs", "src", "proofs", "must-fail", "stdin", "stdout")
OF_A_TIME = ("docs/changes/", "docs/PORT.md", "docs/DESIGN-PASS.md", "docs/LOOK-BACK.md")
MADE = "target"  # what is built is there only after a build
OUT = "out"  # and so is what `rt` makes in a crate's folder, with copies of its files


def blanked(found):
    """As many characters, all blank but for the line ends, so that places stay what they are."""
    return re.sub(r"[^\n]", " ", found[0])


class Page:
    """A page's text, and the same text without code blocks."""

    def __init__(self, root, path):
        self.root, self.path = root, path
        self.name = path.relative_to(root).as_posix()
        self.text = path.read_text(encoding="utf-8")
        self.unfenced = FENCE.sub(blanked, self.text)
        self.prose = CODE.sub(blanked, self.unfenced)
        self.told = not self.name.startswith(OF_A_TIME)  # of how things are now

    def at(self, place):
        """A place in the text as whoever edits the page would find it."""
        return f"{self.name}:{self.text.count(chr(10), 0, place) + 1}"

    def spans(self):
        """The code spans outside code blocks: where each begins and ends, and what it has in it."""
        return [(found.start(), found.end(), " ".join(found[2].split())) for found in SPAN.finditer(self.prose)]

    def links(self):
        """Where each link stands, and where it leads. What only looks like one inside a code span is none."""
        plain = SPAN.sub(lambda found: blanked(found) if "](" in found[0] else found[0], self.prose)
        return [(found.start(), found[1] or found[2] or "") for found in LINK.finditer(plain)]

    def anchors(self):
        """The anchors of the headings, as the forges that show Markdown make them."""
        seen, anchors = {}, set()
        for _, heading in HEADING.findall(self.prose):
            words = re.sub(r"!?\[([^\]]*)\]\([^)]*\)", r"\1", heading)
            anchor = re.sub(r"[^\w\- ]", "", words.lower()).replace(" ", "-")
            anchors.add(f"{anchor}-{seen[anchor]}" if anchor in seen else anchor)
            seen[anchor] = seen.get(anchor, 0) + 1
        return anchors

    def section(self, place):
        """The section, down to the next heading of any level, that a place is in."""
        starts = [found.start() for found in HEADING.finditer(self.prose)]
        begin = max((start for start in starts if start <= place), default=0)
        end = min((start for start in starts if start > place), default=len(self.prose))
        return self.prose[begin:end]


def pages_of(root):
    """The pages of a repository."""
    root = pathlib.Path(root).resolve()
    paths = [root / "README.md", *sorted((root / "docs").rglob("*.md")), *sorted((root / "examples").rglob("README*"))]
    return [Page(root, path) for path in paths if path.is_file()]


def below(folder):
    """The files and directories in a directory and in those in it, but for what `rt` makes."""
    for at, folders, files in os.walk(str(folder)):
        folders[:] = sorted(name for name in folders if name != OUT)
        for name in (*folders, *sorted(files)):
            yield pathlib.Path(at, name)


# Links.

def target_of(page, link):
    """The file or directory that a relative link leads to, and its anchor; None for one that leads elsewhere."""
    if ELSEWHERE.match(link):
        return None
    name, _, anchor = link.partition("#")
    return pathlib.Path(os.path.normpath(page.path.parent / name)) if name else page.path, anchor


def links(pages):
    """Every relative link leads to a file that is there, and its anchor to a heading of it."""
    known = {page.path: page for page in pages}
    count, faults = 0, []
    for page in pages:
        for place, link in page.links():
            target = target_of(page, link)
            if target is None:
                continue
            count += 1
            path, anchor = target
            if not path.exists():
                faults.append(f"{page.at(place)}: a link to {link}, and there is no such file")
            elif anchor and path in known and anchor not in known[path].anchors():
                faults.append(f"{page.at(place)}: a link to {link}, and no heading there has that anchor")
    return f"{count} links", faults


def reach(pages):
    """Every page is reached from README.md by links. A link to a directory leads to all pages in it."""
    known = {page.path: page for page in pages}
    waiting, reached = [pages[0].path], set()
    while waiting:
        path = waiting.pop()
        if path in reached:
            continue
        reached.add(path)
        if path.is_dir():
            waiting += [other for other in known if other.parent == path]
        elif path in known:
            targets = (target_of(known[path], link) for _, link in known[path].links())
            waiting += [target[0] for target in targets if target]
    lost = [page for page in pages if page.path not in reached]
    return f"{len(pages)} pages", [f"{page.name}:1: no chain of links leads here from README.md" for page in lost]


# Paths.

class Paths:
    """What a page may mean by a path: one from the root, from beside the page or, in docs/, from crates/."""

    def __init__(self, root):
        self.root = root
        self.tops = {path.name for path in root.iterdir() if path.is_dir() and path.name not in (MADE, ".git")}
        self.crates = {path.name for path in (root / "crates").glob("*") if path.is_dir()}
        self.below = {}  # of a directory, what is below it, and the paths from there

    def looks(self, word):
        """Whether a word is a path, and one that is to be there."""
        if not PATH.fullmatch(word) or ".." in word:
            return False
        first, *rest = word.split("/")
        return bool(rest) and (first in self.tops or first in IN_A_CRATE or
                               first in self.crates and rest[0] in IN_A_CRATE) or bool(FILE_NAME.fullmatch(word))

    def found(self, page, place, word):
        """The files and directories that a path may mean. One without a crate means that of a crate in its section."""
        word = word.rstrip("/")
        for base in (self.root, page.path.parent, self.root / "crates"):
            there = sorted(base.glob(word)) if "*" in word else [base / word] if (base / word).exists() else []
            if there:
                return there
        section = set(re.findall(r"[\w-]+", page.section(place)))
        near = [self.root / "crates" / crate for crate in sorted(self.crates & section)]
        there = [path for base in near for path in self.named(base, word)]
        return there or [path for top in sorted(self.tops) for path in self.named(self.root / top, word)]

    def named(self, base, word):
        """What is below a directory and has a path that ends so."""
        if base not in self.below:
            self.below[base] = [(path, path.relative_to(base)) for path in below(base)]
        return [path for path, inner in self.below[base] if inner.match(word)]


def words_of(page):
    """The words in the code spans and in the code blocks of a page, each with its place."""
    for start, _, content in page.spans():
        for word in content.split():
            if "/" in word or word == content:  # a file without a directory may be the reader's in a command
                yield start, word
    for block in (*CODE.finditer(page.unfenced), *FENCE.finditer(page.text)):
        for found in re.finditer(r"\S+", block[0]):
            if "/" in found[0]:
                yield block.start() + found.start(), found[0]


def paths(pages):
    """Every path in a code span or a code block, of those that are in the repository and not built, is there."""
    known = Paths(pages[0].root)
    count, faults = 0, []
    for page in pages:
        for place, word in words_of(page) if page.told else ():
            word = word.strip("'\"(),;:").rstrip(".")
            if not known.looks(word):
                continue
            count += 1
            if not known.found(page, place, word):
                faults.append(f"{page.at(place)}: `{word}`, and there is no such file")
    return f"{count} paths", faults


# Lists that have to be whole.

def listed_crates(root):
    """The crates of crates.txt."""
    text = (root / "crates.txt").read_text(encoding="utf-8")
    lines = (line.partition("#")[0].partition(":") for line in text.splitlines())
    return [head.strip().partition(" ")[0] for head, colon, _ in lines if colon]  # `staticlib` may stand behind a name


def crates(pages):
    """Each crate of crates.txt is in the drawing of docs/ARCHITECTURE.md and described below it; and no other is."""
    page = next((page for page in pages if page.name == "docs/ARCHITECTURE.md"), None)
    if page is None:
        return "no page", ["docs/ARCHITECTURE.md:1: there is no such page"]
    drawing = CODE.search(page.unfenced)
    lines = drawing[0].splitlines() if drawing else []
    drawn = {name for line in lines for name in re.split(r" {4,}", line.strip())[0].split()}  # what is behind explains
    spoken = {content for _, _, content in page.spans()}
    names = listed_crates(page.root)
    faults = [f"crate {name} of crates.txt is not in the drawing" for name in names if name not in drawn]
    faults += [f"crate {name} of crates.txt is not described" for name in names if name not in spoken]
    faults += [f"{name} is in the drawing, and crates.txt has no such crate" for name in sorted(drawn - set(names))]
    return f"{len(names)} crates", [f"{page.name}:1: {fault}" for fault in faults]


def commands(pages):
    """Each command in tools/ is named in README.md or in docs/."""
    files = sorted((pages[0].root / "tools").iterdir())
    tools = [path.name for path in files if path.is_file() and os.access(str(path), os.X_OK)]
    told = {word for page in pages if page.told for word in COMMAND.findall(page.text)}
    faults = [f"tools/{name}:1: no page names this command" for name in tools if name not in told]
    return f"{len(tools)} commands", faults


CHECKS = {"links": links, "reach": reach, "paths": paths, "crates": crates, "commands": commands}
