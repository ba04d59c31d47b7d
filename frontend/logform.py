"""The log of a simulation: the forms that its lines have, and what each line says of a step, a domain or the whole trace."""
from __future__ import annotations

import re
from collections.abc import Iterator
from typing import NamedTuple

from frontend import numbers
from frontend.listing import FIELDS
from frontend.numbers import counted
from frontend.quote import quoted
from frontend.source import Problem, Source, SourceErrors, close_to, unknown

STEP, DOMAIN, HEADER, FILE = "step", "domain", "header", "file"  # what a line is of; FILE says that the whole trace is refused
MOST_SHOWN = 5  # lines that say nothing, each told with its place
LONGEST = 1000  # characters of a line that may fit a form
MOST_ANY = 2  # of {any} between two blanks: with more, a line could be divided in too many ways to try them all
_PLACE, _WORD, _ALL, _ANY, _REST = "place", "word", "fields", "any", "rest"
_NAMED = tuple(dict.fromkeys(name for names in FIELDS.values() for name in names))
_PLACEHOLDERS = (_PLACE, _WORD, _ALL, *_NAMED, _ANY, _REST)
PLACEHOLDERS_ARE = f"Placeholders are {', '.join(map('{{{}}}'.format, _PLACEHOLDERS))}"
_BLANK, _TEXT = " ", ""  # kinds of parts that are no placeholders
_NUMBER = "0[xX][0-9a-fA-F]+|[0-9]+"
_VALUE = "0[xX][0-9a-fA-FxXzZ?]+|-?[0-9]+|[xXzZ?]+|-+"  # a number, or what RTL prints where it has none
_NAME = "[A-Za-z_][A-Za-z_0-9]*"
_ITEM = rf"(?:{_NAME}[=:]\s*)?(?:{_VALUE})"
_ITEMS = rf"{_ITEM}(?:(?:\s*,\s*|\s+){_ITEM})*"
_EACH_ITEM = re.compile(rf"(?:({_NAME})[=:]\s*)?({_VALUE})")
_TOKEN = re.compile(r"(?P<blank>\s+)|(?P<brace>\{\{|\}\})|\{(?P<name>[^{}]*)\}|(?P<stray>[{}])|(?P<text>[^{}\s]+)")
_COMMENT = re.compile(r"(?:^|\s)#.*")


class Reading(NamedTuple):
    """What a line says: a word, and values; None for one that is not said, and a text for one that is no number, such as `x`."""

    word: str
    values: tuple[int | str | None, ...]

    def __str__(self) -> str:
        """Give it as a listing has it, with a dash for what is not said."""
        return " ".join(filter(None, (self.word, *("-" if value is None else str(value) for value in self.values))))

    def agrees(self, due: Reading) -> bool:
        """Tell whether all that is said is what is due."""
        pairs = zip(self.values, due.values)
        return self.word == due.word and all(value is None or value == right for value, right in pairs)


class Entry(NamedTuple):
    """A line of a log: its number, what it is of, the number of its step or domain (None if it does not say), what it says."""

    line: int
    of: str
    number: int | None
    reading: Reading


class BadForm(ValueError):
    """A form that cannot be used: why, and which placeholders there are."""

    def __init__(self, form: str, what: str) -> None:
        super().__init__(f"{quoted(form)}: {what} {PLACEHOLDERS_ARE}")


class _Misfit(Exception):
    """Numbers that are not those of their word, with the reason."""


class _Part(NamedTuple):
    """A part of a form: a blank, a text that stands for itself, or a placeholder; its kind, and how it is written."""

    kind: str
    text: str

    @property
    def is_placeholder(self) -> bool:
        """Tell whether it stands for something else."""
        return self.kind not in (_BLANK, _TEXT)

    @property
    def due(self) -> str:
        """Say what should stand there."""
        if self.kind == _WORD:
            return f"{self.text}, one of {', '.join(FIELDS)}"
        known = {_BLANK: "a blank", _TEXT: quoted(self.text), _ANY: f"{self.text}, which is no blank"}
        return known.get(self.kind, f"{self.text}, a number")


class Form:
    """A form that lines of a log may have, such as `{place} {word} {fields}`; raises a BadForm for one that cannot be used."""

    def __init__(self, text: str) -> None:
        self._parts = _take_apart(text.strip())
        self._names = [part.kind for part in self._parts if part.is_placeholder]
        _check_names(text, self._parts, self._names)
        _check_neighbours(text, self._parts)
        self._patterns = list(_patterns(self._parts))
        self._pattern = re.compile("".join(self._patterns))
        self.has_place = _PLACE in self._names
        self._has_hash = _COMMENT.search(text.strip()) is not None

    def read(self, line: int, written: str, code: str) -> Entry | None:
        """Read a line, given whole and without its comment; None if it is not of this form."""
        match = self._pattern.fullmatch(self._text(written, code))
        if match is None:
            return None
        try:
            return Entry(line, STEP, numbers.parse(match[_PLACE]) if self.has_place else None, self._reading(match))
        except _Misfit:
            return None

    def misfit(self, written: str, code: str) -> tuple[int, int, str]:
        """Say of a line that is not of this form how much of it fits, where the fault lies, and what it is."""
        text = self._text(written, code)
        wrong = self.wrong_numbers(text)
        if wrong is not None:
            return (len(text) + 1, *wrong)
        for count in range(len(self._parts), 0, -1):
            match = re.match("".join(self._patterns[:count]), text)
            if match is not None:
                return match.end(), match.end(), f"here should stand {self._due(count)}"
        return 0, 0, f"here should stand {self._due(0)}"

    def wrong_numbers(self, text: str) -> tuple[int, str] | None:
        """Say where the numbers stand of a line that has not those of its word, and what is wrong; None if it is not that."""
        match = self._pattern.fullmatch(text)
        try:
            if match is not None:
                self._reading(match)
        except _Misfit as misfit:
            return match.start(_ALL) if match[_ALL] else match.end(_WORD), str(misfit)
        return None

    def _text(self, written: str, code: str) -> str:
        """Give what is to fit of a line: all before a comment, or all if the form has such a `#`; nothing of a long line."""
        text = written if self._has_hash else code
        return text if len(text) <= LONGEST else ""

    def _reading(self, match: re.Match) -> Reading:
        """Give what a line says that fits; raise a _Misfit if its numbers are not those of its word."""
        word = match[_WORD].lower()
        if _ALL in self._names:
            return Reading(word, _fields(word, match[_ALL] or ""))
        return Reading(word, tuple(_value(match[name]) if name in self._names else None for name in FIELDS[word]))

    def _due(self, count: int) -> str:
        """Say what should stand behind so many parts."""
        if count < len(self._parts):
            return self._parts[count].due
        return "a number, or the end of the line" if self._parts[-1].kind == _ALL else "the end of the line"


def _fields(word: str, written: str) -> tuple[int | str, ...]:
    """Read the values of a word's fields: in the order of a listing, or each with its name before it.

    Those with names may be in any order, and names that the word does not have are passed over."""
    items = [(name.lower(), _value(value)) for name, value in _EACH_ITEM.findall(written)]
    names, found = FIELDS[word], dict(items)
    has = f"'{word}' has {counted(len(names), 'number')}" + (f" ({', '.join(names)})" if names else "")
    if not any(found):
        if len(items) != len(names):
            raise _Misfit(f"{has}, and here {'is' if len(items) == 1 else 'are'} {len(items)}")
        return tuple(value for _, value in items)
    if "" in found or len(found) < len(items):
        raise _Misfit("either each number has a name before it, and no name stands twice, or none has")
    missing = [name for name in names if name not in found]
    if missing:
        raise _Misfit(f"{has}, and {missing[0]} is not there")
    return tuple(found[name] for name in names)


def _value(written: str) -> int | str:
    """Give the number that is written, or what is written if it is none."""
    number = numbers.parse(written)
    return written if number is None else number


def _take_apart(text: str) -> list[_Part]:
    """Take a form apart; raise a BadForm for a brace that stands alone, and for an unknown placeholder."""
    parts: list[_Part] = []
    for token in _TOKEN.finditer(text):
        name, written = token["name"], token[0]
        if token["stray"]:
            where = f"the '{written}' at character {token.start() + 1}"
            raise BadForm(text, f"{where} stands alone; write '{written * 2}' for a brace.")
        if name is not None and name not in _PLACEHOLDERS:
            meant = close_to(name, _PLACEHOLDERS)
            raise BadForm(text, unknown("placeholder", written, meant and f"{{{meant}}}", "").rstrip())
        if name is not None:
            parts.append(_Part(name, written))
        elif token["blank"]:
            parts.append(_Part(_BLANK, " "))
        else:
            joined = parts.pop().text if parts and parts[-1].kind == _TEXT else ""
            parts.append(_Part(_TEXT, joined + (token["text"] or written[0])))
    return parts


def _check_names(text: str, parts: list[_Part], names: list[str]) -> None:
    """Raise a BadForm for a form whose placeholders do not go together."""
    twice = [name for name in _PLACEHOLDERS if names.count(name) > 1 and name != _ANY]
    single = [name for name in names if name in _NAMED]
    if twice:
        raise BadForm(text, f"{{{twice[0]}}} stands there twice; only {{any}} may.")
    if _WORD not in names:
        raise BadForm(text, "there is no {word}, the word of the answer, without which nothing can be compared.")
    if _ALL in names and single:
        one = f"{{{single[0]}}} for one of them"
        raise BadForm(text, f"{{fields}} stands for all numbers of the answer, and {one}; keep either.")
    if _REST in names and parts[-1].kind != _REST:
        raise BadForm(text, "something stands behind {rest}, which goes to the end of the line.")


def _check_neighbours(text: str, parts: list[_Part]) -> None:
    """Raise a BadForm for a form whose parts could not be told from each other in a line."""
    for left, right in zip(parts, parts[1:]):
        if left.is_placeholder and right.is_placeholder and right.kind != _REST:
            where = f"where {left.text} ends and {right.text} begins"
            raise BadForm(text, f"nothing tells {where}; write what the log has between them.")
        if left.kind == _TEXT and left.text.lower().endswith("0x") and right.kind in (_PLACE, _ALL, *_NAMED):
            raise BadForm(text, f"{right.text} stands for the whole number, its 0x too; leave the 0x before it out.")
    if any(word.count("{any}") > MOST_ANY for word in text.split()):
        often = f"{{any}} stands more than {MOST_ANY} times without a blank"
        raise BadForm(text, f"{often}; one {{any}} takes all that has none.")


def _patterns(parts: list[_Part]) -> Iterator[str]:
    """Give a pattern for each part."""
    end = _Part(_TEXT, "")
    for before, part, after in zip([end, *parts], parts, [*parts[1:], end]):
        yield _pattern(before, part, after.kind) + (r"(?!\w)" if after.kind == _REST and part.is_placeholder else "")


def _pattern(before: _Part, part: _Part, after: str) -> str:
    """Give the pattern of a part. A blank before {fields} and {rest} belongs to what they may leave out."""
    padding = r"\s*" if before.kind == _TEXT and before.text else ""  # a simulator's %d prints blanks before a number
    if part.kind == _BLANK:
        return "" if after in (_ALL, _REST) else r"\s+"
    if part.kind == _TEXT:
        return re.escape(part.text)
    if part.kind == _ANY:
        return r"\S+"
    if part.kind == _REST:
        return r"(?:\s.*)?" if before.kind == _BLANK else ".*"
    if part.kind == _ALL:
        lead = r"\s+" if before.kind == _BLANK else padding
        return f"(?:{lead}(?P<{_ALL}>{_ITEMS}))?"
    if part.kind == _WORD:
        return f"(?P<{_WORD}>(?i:{'|'.join(FIELDS)}))"
    return f"{padding}(?P<{part.kind}>{_NUMBER if part.kind == _PLACE else _VALUE})"


def _line_of(*words: str) -> re.Pattern:
    """Give the pattern of a line of a listing that has these words, with blanks between."""
    return re.compile(r"\s+".join(words))


_STEP_LINE = Form("{place} {word} {fields}")
_OTHER_LINES = (
    (HEADER, "", _line_of(*[f"({_NUMBER})"] * 4)),
    (DOMAIN, "domain", _line_of("domain", *[f"({_NUMBER})"] * 8)),
    (FILE, "refused", _line_of("refused", f"({_NUMBER})")),
)
_LINES_ARE = "lines are 'SETS WAYS RULE STEPS', 'PLACE WORD NUMBERS' and 'domain N' with seven counts"


class Log(Source):
    """A log: what its lines say, in their order, and the numbers of those that say nothing. Without forms it is a listing."""

    def __init__(self, name: str, data: bytes, forms: list[Form]) -> None:
        super().__init__(name, data)
        self._forms = forms
        self.entries: list[Entry] = []
        self.strange: list[int] = []
        for number, text in enumerate(self.lines, 1):
            written, code = _stripped(text)
            entry = self._read(number, written, code) if written else None
            if entry is not None:
                self.entries.append(entry)
            elif code:
                self.strange.append(number)

    def _read(self, number: int, written: str, code: str) -> Entry | None:
        """Read a line by the first form that fits; None if none does."""
        if not self._forms:
            return _read_listed(number, code)
        for form in self._forms:
            entry = form.read(number, written, code)
            if entry is not None:
                return entry
        return None

    def refuse_strange(self) -> None:
        """Raise an error that tells the first of the lines that say nothing, if there is any."""
        if not self.strange:
            return
        told = [self._tell(self._problem(number)) for number in self.strange[:MOST_SHOWN]]
        one, count = len(self.strange) == 1, counted(len(self.strange), "line")
        if self._forms:
            what, hint = f"{count} {'fits' if one else 'fit'} no form", "--format may be given more than once"
        else:
            what, hint = f"{count} {'is' if one else 'are'} not of a listing", "--format describes lines of another form"
        shown = f", the first {MOST_SHOWN} shown" if len(self.strange) > MOST_SHOWN else ""
        told.append(f"{self.name}: {what}{shown}; {hint}, and --skip passes such lines over")
        raise SourceErrors("\n".join(told))

    def _problem(self, number: int) -> Problem:
        """Say what is wrong with a line that says nothing, by the form that fits best."""
        text = self.lines[number - 1]
        written, code = _stripped(text)
        start = len(text) - len(text.lstrip()) + 1
        if len(code) > LONGEST:
            return Problem(number, start, len(code), f"this line has {len(code):,} characters, and the most is {LONGEST:,}")
        if not self._forms:
            _, what = _STEP_LINE.wrong_numbers(code) or (0, _LINES_ARE)
            return Problem(number, start, len(code), f"this is no line of a listing: {what}")
        _, at, what = max((form.misfit(written, code) for form in self._forms), key=lambda misfit: misfit[0])
        return Problem(number, start + at, 1, f"this line fits no form: {what}")


def _stripped(text: str) -> tuple[str, str]:
    """Give a line without the blanks around it, and that without its comment."""
    written = text.strip()
    return written, _COMMENT.sub("", written, 1).rstrip() if "#" in written else written


def _read_listed(line: int, code: str) -> Entry | None:
    """Read a line of a listing; None if it is none."""
    entry = _STEP_LINE.read(line, code, code)
    if entry is not None or len(code) > LONGEST:
        return entry
    for of, word, pattern in _OTHER_LINES:
        match = pattern.fullmatch(code)
        if match is not None:
            values = tuple(map(numbers.parse, match.groups()))
            return Entry(line, of, values[0] if of == DOMAIN else 0, Reading(word, values))
    return None
