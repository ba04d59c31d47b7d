"""From the readable form of a trace to the trace: reads a whole text and tells every error in it."""
from __future__ import annotations

from dataclasses import dataclass

from frontend.source import Line, Source, Token, close_to, unknown
from frontend.stepline import is_core, is_kind, read_step, unnamed
from frontend.text import CORE
from frontend.tracefile import LARGEST_BYTE, MAX_SETS, MAX_STEPS, RULE_NUMBERS, SETS_LIMIT, Step, Trace

_DIGITS = "0123456789"
_HEADERS = {"sets": (MAX_SETS, "sets 64"), "ways": (LARGEST_BYTE, "ways 8"), "rule": (LARGEST_BYTE, "rule tree")}
_LIMITS = {"sets": SETS_LIMIT}  # what is told of a number that is too large, if not how far such numbers go
_RULES_ARE = "Rules are tree (or tree-plru), nru, lru, or a number"
_NO_WORD = "domain"  # what somebody may write who writes `core 3`
_LINES_ARE = f"A line is 'sets N', 'ways N', 'rule NAME' or a step, 'DOMAIN KIND ARGUMENT' or '{CORE} N KIND ARGUMENT'"


@dataclass(frozen=True)
class Assembled:
    """A trace, and where its header lines and its steps stand in the text: the numbers of their lines."""

    trace: Trace
    source: Source
    header_lines: dict[str, int]
    step_lines: tuple[int, ...]


def assemble(name: str, data: bytes) -> Trace:
    """Read a trace text; raise SourceErrors with everything that is wrong in it."""
    return read(name, data).trace


def read(name: str, data: bytes) -> Assembled:
    """Read a trace text, and give with the trace where all of it stands."""
    return _Assembler(Source(name, data)).run()


class _Assembler:
    """The header and steps read so far."""

    def __init__(self, source: Source) -> None:
        self.source = source
        self.header: dict[str, int | None] = {}
        self.header_lines: dict[str, int] = {}
        self.misspelt: set[str] = set()
        self.steps: list[Step | None] = []
        self.step_lines: list[int] = []
        self.first_step_line = 0

    def run(self) -> Assembled:
        """Read every line and give the trace."""
        self.source.refuse_binary()
        for number in range(1, len(self.source.lines) + 1):
            line = Line(self.source, number)
            if line.tokens and not self._read(line) or self.source.is_hopeless():
                break
        if not self.source.is_hopeless():  # else a header line may stand in what was not read
            self._check_header()
        self.source.fail()
        sets, ways, rule = (self.header[word] for word in _HEADERS)
        return Assembled(Trace(sets, ways, rule, tuple(self.steps)), self.source, self.header_lines, tuple(self.step_lines))

    def _read(self, line: Line) -> bool:
        """Read a line with something on it; tell whether to go on to the next."""
        first = line.tokens[0]
        if first.text in _HEADERS:
            self._read_header(line)
        elif _starts_step(line.tokens):
            return self._read_step(line)
        else:
            self._fault_first_word(line, first)
        return True

    def _read_header(self, line: Line) -> None:
        """Read `sets`, `ways` or `rule` and its value."""
        token = line.tokens[0]
        word, example = token.text, _HEADERS[token.text][1]
        if word in self.header:
            line.fault(token, f"'{word}' is given twice, first on line {self.header_lines[word]}; keep one")
        elif self.first_step_line:
            where = f"the first step, on line {self.first_step_line}"
            line.fault(token, f"'{word}' stands after {where}; header lines come before the steps")
        self.header_lines.setdefault(word, line.number)
        self.header[word] = _header_value(line, word)
        line.fault_rest(2, f"a header line has one value, as in '{example}'")

    def _read_step(self, line: Line) -> bool:
        """Read a step; tell whether there is room for more."""
        self.first_step_line = self.first_step_line or line.number
        if len(self.steps) == MAX_STEPS:
            line.fault(line.tokens[0], f"this is step {MAX_STEPS + 1:,}; a trace has at most {MAX_STEPS:,} steps")
            return False
        self.steps.append(read_step(line))
        self.step_lines.append(line.number)
        return True

    def _fault_first_word(self, line: Line, first: Token) -> None:
        """Note a line that is neither a header line nor a step."""
        word = first.text.partition("=")[0]
        self.misspelt.add(close_to(word, _HEADERS) or "")
        if is_kind(first.text):
            line.fault(first, unnamed(first.text))
        elif word == _NO_WORD:
            line.fault(first, "a domain is named by its number alone; write it as in '0 load 0x40'")
        elif word in _HEADERS:
            line.fault(first, f"a header line has no '='; write it as in '{_HEADERS[word][1]}'")
        else:
            line.fault(first, unknown("word", first.text, close_to(word, (*_HEADERS, CORE)), _LINES_ARE))

    def _check_header(self) -> None:
        """Note each header line that is missing, at the first step or at the end."""
        line = self.first_step_line or len(self.source.lines) + 1
        for word, (_, example) in _HEADERS.items():
            if word not in self.header and word not in self.misspelt:
                message = f"there is no '{word}' line before the steps; write one such as '{example}'"
                self.source.add(line, 1, 1, message)


def _starts_step(tokens: list[Token]) -> bool:
    """Tell whether a line is meant as a step: its first word is a number or a core's, or its second a kind."""
    first = tokens[0].text
    return first[0] in _DIGITS or is_core(first) or (len(tokens) > 1 and is_kind(tokens[1].text))


def _header_value(line: Line, word: str) -> int | None:
    """Read a header line's value: a number, or a rule's name."""
    largest, example = _HEADERS[word]
    if len(line.tokens) < 2:
        line.fault_at_end(f"'{word}' lacks its value; write it as in '{example}'")
        return None
    token = line.tokens[1]
    if word != "rule":
        return line.read_number(token, 0, largest, f"the number of {word}", _LIMITS.get(word))
    if token.text[0] in _DIGITS:
        return line.read_number(token, 0, largest, "the number of a rule")
    if token.text not in RULE_NUMBERS:
        line.fault(token, unknown("rule", token.text, _rule_meant(token.text), _RULES_ARE))
    return RULE_NUMBERS.get(token.text)


def _rule_meant(word: str) -> str | None:
    """Give the rule whose name a word begins, or is but for case and dashes.

    Likeness is not enough: LRU, PLRU and NRU are three rules, and whoever wants one is not helped by another's name."""
    letters = _letters(word)
    return next((name for name in RULE_NUMBERS if len(letters) > 1 and _letters(name).startswith(letters)), None)


def _letters(word: str) -> str:
    """Give the letters of a word in lower case."""
    return "".join(filter(str.isalpha, word.lower()))
