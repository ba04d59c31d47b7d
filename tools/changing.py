"""The small changes that tools/mutate makes in definitions: what may be written in the place of what."""

import dataclasses
import re

import reading
from reading import Clause, Node

WORDS = {"ltb": "leb", "leb": "ltb", "true": "false", "false": "true", "take": "drop", "drop": "take"}
WORDS |= {"nat_lt": "nat_le", "nat_le": "nat_lt"}
WORDS |= {"left": "right", "right": "left", "old": "new", "new": "old"}
SIGNS = {"&&": "||", "||": "&&", "+": "-", "-": "+", "*": "+", "/": "%", "%": "/", "^": "*"}
SIBLINGS = (
    ("hit", "fill"),
    ("valid", "dirty", "words", "tags"),
    ("dirty", "word", "valid"),
    ("hits", "misses", "evicted", "written", "flushed", "fills", "dropped"),
    ("cs", "ds", "es"),
    ("sets", "ways", "rule"),
    ("domain", "kind", "argument"),
    ("0", "1"),
    ("set", "tag"),
    ("dropped", "dirty"),
    ("own", "writes"),
    ("codes", "arguments"),
)
HOME = "Rattle.std.specs.Prelude"  # where the names are had from that a change may bring
BROUGHT = ("not", "true", "false", "◌&&◌", "◌||◌", "◌+◌", "◌-◌", "◌*◌", "◌/◌", "◌%◌", "leb", "ltb", "nat_le", "nat_lt", "take", "drop")


@dataclasses.dataclass(frozen=True)
class Change:
    """One change in a file: a piece of its text, what stands there instead, in which definition, and of what kind."""

    start: int
    end: int
    new: str
    name: str
    kind: str

    def applied(self, text: str) -> str:
        """The file's text with the change, and with the names that it needs brought in."""
        changed = text[: self.start] + self.new + text[self.end :]
        names = _missing(text, self.new)
        uses = f"use {HOME}.{{{', '.join(names)}}}\n" if names else ""
        at = re.search(r"^use ", changed, re.M)
        return changed if not uses or not at else changed[: at.start()] + uses + changed[at.start() :]

    def told(self, text: str) -> str:
        """The change in one line: the definition, and what stood there and stands there, with a little around it."""
        before = re.search(r"[^\n]{0,24}\Z", text[: self.start])[0].lstrip()
        after = re.match(r"[^\n]{0,24}", text[self.end :])[0].rstrip()
        pieces = (before + middle + after for middle in (text[self.start : self.end], self.new))
        old, new = (re.sub(r"\s+", " ", p) for p in pieces)
        return f"{self.name}: `{_cut(old)}` to `{_cut(new)}`"


def _cut(text: str) -> str:
    return text if len(text) <= 160 else text[:78] + " … " + text[-78:]


def _missing(text: str, new: str) -> list[str]:
    """The names that a change brings and its file does not."""
    lists = re.findall(r"^use [^{\n]*\{([^}]*)\}", text, re.M)
    there = {item.split()[-1] for names in lists for item in names.split(",") if item.strip()}
    found = []
    for name in BROUGHT:
        plain = re.escape(name.strip("◌"))
        pattern = rf"(?<!\S){plain}(?!\S)" if name.startswith("◌") else rf"(?<![\w.'-]){plain}(?![\w'-])"
        if name not in there and re.search(pattern, new):
            found.append(name)
    return found


class Changes:
    """The changes of one file."""

    def __init__(self, text: str):
        self.text = text
        self.found: dict[tuple[int, int, str], Change] = {}
        self.name = ""

    def add(self, node: Node, new: str, kind: str) -> None:
        old = self.text[node.start : node.end]
        if re.sub(r"\s", "", new) != re.sub(r"\s", "", old):
            self.found.setdefault((node.start, node.end, new), Change(node.start, node.end, new, self.name, kind))

    def of(self, node: Node) -> str:
        return self.text[node.start : node.end]

    def argument(self, node: Node) -> str:
        """A part as it may stand as an argument."""
        return f"({self.of(node)})" if node.kind in ("call", "binary", "lambda", "let", "record") else self.of(node)

    def clause(self, clause: Clause) -> None:
        self.name = clause.name
        self.visit(clause.body)

    def visit(self, node: Node) -> None:
        getattr(self, "_" + node.kind, lambda n: None)(node)
        for part in node.parts:
            self.visit(part)

    def _name(self, node: Node) -> None:
        if node.token.text in WORDS:
            self.add(node, WORDS[node.token.text], "word")

    def _number(self, node: Node) -> None:
        value = int(node.token.text, 0)
        self.add(node, str(value + 1), "number")
        if value:
            self.add(node, str(value - 1), "number")

    def _field(self, node: Node) -> None:
        field = node.token.text[1:]
        for group in SIBLINGS:
            if field in group:
                self.add(node, "." + group[(group.index(field) + 1) % len(group)], "field")

    def _record(self, node: Node) -> None:
        for one, two in zip(node.parts, node.parts[1:]):
            self.add(one.parts[0], self.of(two.parts[0]), "sibling")
            self.add(two.parts[0], self.of(one.parts[0]), "sibling")

    def _binary(self, node: Node) -> None:
        sign, (left, right) = node.token.text, node.parts
        if sign in SIGNS:
            token = Node("sign", node.token.start, node.token.end)
            self.add(token, SIGNS[sign], "operator")
        if sign in ("&&", "||", "++"):
            self.add(node, self.of(left), "dropped")
            self.add(node, self.of(right), "dropped")
        if sign == "∷":
            self.add(node, self.of(right), "dropped")
        if sign in ("-", "/", "%", "++"):
            self.add(node, f"{self.of(right)} {sign} {self.of(left)}", "exchanged")
        if sign == "==":
            self._equal(node, f"{self.of(left)} == {self.of(right)}", left, right)

    def _call(self, node: Node) -> None:
        head, rest = node.parts[0], node.parts[1:]
        name = head.token.text if head.kind == "name" else ""
        if name == "cond" and len(rest) == 3:
            self._cond(node, rest)
        elif name in ("eqb", "not", "xor", "suc"):
            self._test(node, name, rest)
        else:
            self._exchange(rest)

    def _cond(self, node: Node, args: list[Node]) -> None:
        test, yes, no = (self.of(a) for a in args)
        self.add(node, f"cond {test} {no} {yes}", "arms")
        self.add(node, yes, "arm")
        self.add(node, no, "arm")

    def _test(self, node: Node, name: str, args: list[Node]) -> None:
        of = [self.of(a) for a in args]
        if name == "eqb" and len(of) == 2:
            self._equal(node, f"eqb {of[0]} {of[1]}", *args)
        elif name in ("not", "suc") and len(of) == 1:
            self.add(node, of[0], "dropped")
        elif name == "xor" and len(of) == 2:
            self.add(node, f"({of[0]} || {of[1]})", "operator")
            self.add(node, f"({of[0]} && {of[1]})", "operator")

    def _equal(self, node: Node, test: str, left: Node, right: Node) -> None:
        self.add(node, f"not ({test})", "negated")
        of = [self.argument(left), self.argument(right)]
        for one, two in (of, of[::-1]):
            if two != "0":  # a number that is at most 0 is 0
                self.add(node, f"leb {one} {two}", "word")

    def _exchange(self, args: list[Node]) -> None:
        for one, two in zip(args, args[1:]):
            if self._plain(one) and self._plain(two):
                both = Node("both", one.start, two.end)
                between = self.text[one.end : two.start]
                self.add(both, self.of(two) + between + self.of(one), "exchanged")

    @staticmethod
    def _plain(node: Node) -> bool:
        if node.kind == "paren":
            return node.parts[0].kind not in ("lambda", "record")
        return node.kind in ("name", "number", "empty", "projection")


def changes(text: str) -> list[Change]:
    """All changes of a file's definitions, in the order of their places."""
    made = Changes(text)
    clauses = reading.clauses(text)
    for clause in clauses:
        made.clause(clause)
    for one, two in zip(clauses, clauses[1:]):
        if one.name == two.name:
            made.name = one.name
            made.add(one.body, made.of(two.body), "clause")
            made.add(two.body, made.of(one.body), "clause")
    return sorted(made.found.values(), key=lambda c: (c.start, c.end, c.new))
