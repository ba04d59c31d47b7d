"""Lines of a source text, and problems told with file, line, column, the line itself and a caret."""
from __future__ import annotations

import codecs
import difflib
import re
from collections.abc import Iterable
from dataclasses import dataclass

from frontend import numbers
from frontend.errors import BadInput
from frontend.quote import cut, quoted

MOST_SHOWN = 20
MOST_FOUND = 1000  # errors after which no more are looked for: such a text is no trace text at all
_LONGEST_KNOWN = 20  # characters; a longer word was not meant to be one of ours
_WINDOW = 100  # characters of a source line that are shown with an error
_LONGEST_LINE = 400  # characters of a source line that are shown with its step
_WORD = re.compile(r"\S+")
_BYTE_ORDER = b"\xef\xbb\xbf"
_CONTROLS = bytes(set(range(32)) - set(b"\t\n\v\f\r")) + b"\x7f"


@dataclass(frozen=True)
class Token:
    """A word of a line and its column, counted from 1."""

    text: str
    column: int


@dataclass(frozen=True)
class Problem:
    """What is wrong at a place of a text."""

    line: int
    column: int
    width: int
    message: str


class SourceErrors(BadInput):
    """All problems of one text, laid out for standard error."""

    def report(self) -> str:
        """Give the problems as they are; each names its file."""
        return str(self)


class Source:
    """A text under its file's name, and the problems found in it so far."""

    def __init__(self, name: str, data: bytes) -> None:
        self.name = name
        self.problems: list[Problem] = []
        self.lines = [self._decode(number, raw) for number, raw in enumerate(_raw_lines(data), 1)]

    def _decode(self, number: int, raw: bytes) -> str:
        """Decode one line; a byte that is not UTF-8 is a problem at its column."""
        try:
            return raw.decode("utf-8")
        except UnicodeDecodeError as error:
            column = len(raw[: error.start].decode("utf-8")) + 1
            self.add(number, column, 1, f"byte {raw[error.start]:#04x} is not UTF-8 text; save the file as UTF-8")
            return raw.decode("utf-8", "replace")

    def line(self, number: int) -> str:
        """Give a line as it is written, but for what a terminal would not show as it is, and for what is beyond any sense."""
        return _shown(cut(self.lines[number - 1].strip(), _LONGEST_LINE))

    def warn(self, line: int, message: str) -> str:
        """Lay out a warning about a whole line, which is told and does not make the text wrong."""
        text = self.lines[line - 1]
        code = text.partition("#")[0].rstrip()
        column = len(code) - len(code.lstrip()) + 1
        return self._tell(Problem(line, column, max(1, len(code.strip())), f"warning: {message}"))

    def refuse_binary(self) -> None:
        """Raise a single error for a file that is no text."""
        for number, text in enumerate(self.lines, 1):
            if "\0" in text:
                hint = "'dipperlock show FILE' prints a trace file as a text"
                message = f"a zero byte: this is not a trace text; {hint}"
                self.problems = [Problem(number, text.index("\0") + 1, 1, message)]
                self.fail()

    def add(self, line: int, column: int, width: int, message: str) -> None:
        """Note a problem, unless there are too many already."""
        if not self.is_hopeless():
            self.problems.append(Problem(line, column, width, message))

    def is_hopeless(self) -> bool:
        """Tell whether so much is wrong that no more is looked for."""
        return len(self.problems) >= MOST_FOUND

    def fail(self) -> None:
        """Raise the problems, if there are any, in the order of their places."""
        if not self.problems:
            return
        found = sorted(self.problems, key=lambda problem: (problem.line, problem.column))
        told = [self._tell(problem) for problem in found[:MOST_SHOWN]]
        count = numbers.counted(len(found), "error") + (" or more" if self.is_hopeless() else "")
        shown = f", the first {MOST_SHOWN} shown" if len(found) > MOST_SHOWN else ""
        told.append(f"{self.name}: {count}{shown}; no trace was made")
        raise SourceErrors("\n".join(told))

    def _tell(self, problem: Problem) -> str:
        """Lay out one problem with its source line and a caret below it."""
        head = f"{self.name}:{problem.line}:{problem.column}: {problem.message}"
        if problem.line > len(self.lines):
            return head
        text = self.lines[problem.line - 1]
        start = max(0, problem.column - 1 - _WINDOW // 2) if len(text) > _WINDOW else 0
        shown = _shown(text[start : start + _WINDOW])
        lead = "".join("\t" if c == "\t" else " " for c in shown[: problem.column - 1 - start])
        width = max(1, min(problem.width, len(shown) - len(lead)))
        return f"{head}\n    {shown}\n    {lead}{'^' * width}"


class Line:
    """One line of a source: its words without the comment, and ways to note what is wrong with them."""

    def __init__(self, source: Source, number: int) -> None:
        self._source = source
        self.number = number
        code = source.lines[number - 1].partition("#")[0].rstrip()
        self.tokens = [Token(match[0], match.start() + 1) for match in _WORD.finditer(code)]
        self._end = len(code) + 1

    def fault(self, token: Token, message: str) -> None:
        """Note a problem with a word."""
        self._source.add(self.number, token.column, len(token.text), message)

    def fault_within(self, token: Token, offset: int, width: int, message: str) -> None:
        """Note a problem with a part of a word."""
        self._source.add(self.number, token.column + offset, width, message)

    def fault_at_end(self, message: str) -> None:
        """Note that something is missing after the last word."""
        self._source.add(self.number, self._end, 1, message)

    def fault_rest(self, used: int, form: str) -> None:
        """Note words that are left over after those used."""
        if len(self.tokens) > used:
            extra = self.tokens[used]
            self.fault(extra, f"unexpected {quoted(extra.text)}; {form}")

    def read_number(self, token: Token, offset: int, largest: int, what: str, limit: str | None = None) -> int | None:
        """Read the number that a word holds from an offset on; note what is wrong with it.

        `limit` says of a number that is too large what would be right, where how far such numbers go is not enough."""
        text = token.text[offset:]
        value = numbers.parse(text)
        if value is None:
            wrong = f"{quoted(text)} is not a number" if text else "a number is missing"
            form = f"{what} is written in decimal, such as 12, or in hexadecimal, such as 0xc"
            self.fault_within(token, offset, len(text) or 1, f"{wrong}; {form}")
        elif value > largest:
            top = str(largest) if largest < 1 << 32 else numbers.hexadecimal(largest)
            right = limit or f"{what} goes from 0 to {top}"
            self.fault_within(token, offset, len(text), f"{quoted(text)} is too large; {right}")
            return None
        return value


def close_to(word: str, known: Iterable[str]) -> str | None:
    """Give the known word that an unknown one was perhaps meant to be."""
    close = difflib.get_close_matches(word.lower(), known, 1) if len(word) <= _LONGEST_KNOWN else []
    return close[0] if close else None


def unknown(what: str, word: str, meant: str | None, known_ones: str) -> str:
    """Say that a word is unknown, which one was perhaps meant, and which ones there are."""
    return f"unknown {what} {quoted(word)}" + (f"; did you mean '{meant}'? " if meant else ". ") + known_ones


def is_text(data: bytes) -> bool:
    """Tell whether bytes, perhaps the first ones of a file, are UTF-8 text without control characters."""
    if not data or data.translate(None, _CONTROLS) != data:
        return False
    try:
        codecs.getincrementaldecoder("utf-8")().decode(data)  # the last character may be cut
    except UnicodeDecodeError:
        return False
    return True


def _shown(text: str) -> str:
    """Put a question mark for each character that a terminal would not show as it is."""
    return "".join(c if c.isprintable() or c == "\t" else "?" for c in text)


def _raw_lines(data: bytes) -> list[bytes]:
    """Split a text into lines, without their ends and without a mark of byte order."""
    body = data[len(_BYTE_ORDER) :] if data.startswith(_BYTE_ORDER) else data
    lines = [line[:-1] if line.endswith(b"\r") else line for line in body.split(b"\n")]
    return lines[:-1] if lines[-1] == b"" else lines
