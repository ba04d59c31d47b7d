"""Reads the definitions of an .antt file for tools/mutate: where each clause's body stands, and what it is made of.

Only as much of the language is read as specs/ uses: names, numbers, calls, fields, operators, `λ`, `let`, records and
lists. A field stands right behind what it is of, as in `x.hit`; `Tree.victim` is a name of the module `Tree`. A body that is not of these is passed over whole.
"""

import dataclasses
import re

TOKEN = re.compile(
    r"(?P<skip>\s+|--[^\n]*)|(?P<field>(?<=[\w')])\.[\w'-]+)|(?P<number>0x[0-9a-f]+|\d+)"
    r"|(?P<name>(?:[A-Z]\w+\.)?[^\W\d][\w'-]*)|(?P<mark>&&|\|\||\+\+|==|\[\]|[-+*/%^∷≡×→=:;,(){}._])"
)
POWER = {"×": 1, "≡": 2, "||": 3, "&&": 4, "==": 5, "++": 6, "+": 6, "-": 6, "∷": 7, "*": 8, "/": 8, "%": 8, "^": 9}
RIGHT = {"×", "∷", "^"}
SIGNATURE = re.compile(r"\s*(?:(?:abbrev|unfoldable)\s+)?(?:pub\s+)?([^\W\d][\w'-]*)\s*:\s(.*)", re.S)
CLAUSE = re.compile(r"\s*([^\W\d][\w'-]*)\s")


class Unread(Exception):
    """A body that is not of the forms that are read."""


@dataclasses.dataclass
class Token:
    kind: str
    text: str
    start: int
    end: int


@dataclasses.dataclass
class Node:
    """A part of a body: its kind, its place in the file's text, its own token if it has one, and its parts."""

    kind: str  # name number empty field projection paren record call binary lambda let
    start: int
    end: int
    token: Token | None = None
    parts: list["Node"] = dataclasses.field(default_factory=list)


@dataclasses.dataclass
class Clause:
    """A clause of a definition: the definition's name, and the place and the parts of its body."""

    name: str
    start: int
    end: int
    body: Node


def tokens(text: str, start: int, end: int) -> list[Token]:
    """The tokens of a piece of a file's text, without comments."""
    found, at = [], start
    while at < end:
        match = TOKEN.match(text, at, end)
        if not match:
            raise Unread(text[at : at + 20])
        if match.lastgroup != "skip":
            found.append(Token(match.lastgroup, match[0], at, match.end()))
        at = match.end()
    return found


class Parser:
    """Reads one body from its tokens."""

    def __init__(self, found: list[Token]):
        self.found = found
        self.at = 0

    def peek(self) -> str:
        return self.found[self.at].text if self.at < len(self.found) else ""

    def take(self, text: str = "") -> Token:
        if self.at >= len(self.found) or (text and self.peek() != text):
            raise Unread(f"{text or 'more'} is missing")
        self.at += 1
        return self.found[self.at - 1]

    def skip_to(self, text: str) -> None:
        """Past the next such token that stands in no parentheses."""
        depth = 0
        while depth or self.peek() != text:
            depth += {"(": 1, ")": -1}.get(self.take().text, 0)
        self.take(text)

    def whole(self) -> Node:
        node = self.expression()
        if self.at < len(self.found):
            raise Unread(self.peek())
        return node

    def expression(self) -> Node:
        if self.peek() == "λ":
            start = self.take().start
            self.skip_to(".")
            body = self.expression()
            return Node("lambda", start, body.end, None, [body])
        if self.peek() == "let":
            start = self.take().start
            self.skip_to("=")
            value = self.expression()
            self.take("in")
            body = self.expression()
            return Node("let", start, body.end, None, [value, body])
        return self.operation(1)

    def operation(self, least: int) -> Node:
        left = self.call()
        while POWER.get(self.peek(), 0) >= least:
            sign = self.take()
            power = POWER[sign.text]
            right = self.operation(power if sign.text in RIGHT else power + 1)
            left = Node("binary", left.start, right.end, sign, [left, right])
        return left

    def call(self) -> Node:
        parts = []
        while self.at < len(self.found) and self._begins(self.found[self.at]):
            parts.append(self.atom())
        if not parts:
            raise Unread(self.peek())
        return parts[0] if len(parts) == 1 else Node("call", parts[0].start, parts[-1].end, None, parts)

    @staticmethod
    def _begins(token: Token) -> bool:
        if token.kind == "name":
            return token.text not in ("in", "λ")
        return token.kind == "number" or token.text in ("(", "[]", "_")

    def atom(self) -> Node:
        node = self.bare()
        while self.at < len(self.found) and self.found[self.at].kind == "field":
            token = self.take()
            field = Node("field", token.start, token.end, token)
            node = Node("projection", node.start, token.end, None, [node, field])
        return node

    def bare(self) -> Node:
        token = self.take()
        if token.text == "(":
            parts = [self.expression()]
            while self.peek() == ",":
                self.take()
                parts.append(self.expression())
            return Node("paren", token.start, self.take(")").end, None, parts)
        if token.text == "record":
            return self.record(token)
        kind = "empty" if token.text in ("[]", "_") else token.kind
        return Node(kind, token.start, token.end, token)

    def record(self, token: Token) -> Node:
        self.take("{")
        parts = []
        while self.peek() != "}":
            field = self.take()
            self.take("=")
            value = self.expression()
            parts.append(Node("set", field.start, value.end, field, [value]))
            if self.peek() == ";":
                self.take()
        return Node("record", token.start, self.take("}").end, None, parts)


def _items(text: str) -> list[tuple[int, int]]:
    """The places of the signatures and clauses of a file, also those in a module without a name."""
    found: list[list[int]] = []
    at, column, closed = 0, 0, True
    for line in text.splitlines(keepends=True):
        indent = len(line) - len(line.lstrip())
        bare = line.strip()
        if bare and not bare.startswith("--"):
            if indent == 0 and bare[0] not in "})":
                column = 2 if bare.startswith("module ") else 0
                closed = bool(re.match(r"(?:pub )?(?:record|data|use|mod|module)\b", bare))
                if not closed:
                    found.append([at, at + len(line)])
            elif column and indent == column and bare[0] not in "})":
                closed = False
                found.append([at, at + len(line)])
            elif not closed:
                found[-1][1] = at + len(line)
        at += len(line)
    return [(a, b) for a, b in found]


def clauses(text: str) -> list[Clause]:
    """The clauses of a file's definitions, but of those that give types."""
    types: dict[str, str] = {}
    found = []
    for start, end in _items(text):
        item = text[start:end]
        signature = SIGNATURE.match(item)
        if signature and not re.match(r"\s*[\w'-]+ [^:=]*=", item):
            types[signature[1]] = signature[2].strip()
            continue
        name = CLAUSE.match(item)
        if name and name[1] in types and not re.search(r"Type \d$", types[name[1]]):
            clause = _clause(text, name[1], start, end)
            if clause:
                found.append(clause)
    return found


def _clause(text: str, name: str, start: int, end: int) -> Clause | None:
    try:
        found = tokens(text, start, end)
        depth, at = 0, 0
        while depth or found[at].text != "=":
            depth += {"(": 1, "{": 1, ")": -1, "}": -1}.get(found[at].text, 0)
            at += 1
        body = Parser(found[at + 1 :]).whole()
    except (Unread, IndexError):
        return None
    return Clause(name, body.start, body.end, body)
