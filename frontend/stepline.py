"""One step of a trace text, such as `0 load 0x40`, `1 policy hit=0,1 fill=0,1` or `core 3 select cs=0 ds=1 es=1`."""
from __future__ import annotations

import re
from dataclasses import dataclass

from frontend import fields
from frontend.source import Line, Token, close_to, unknown
from frontend.text import CORE
from frontend.tracefile import CORE_KINDS, KINDS, LARGEST_ARGUMENT, LARGEST_BYTE, Step

_NUMBERED = "kind="
_JOINED = re.compile(f"{CORE}[=:_-]?([0-9]+)")
_FIELDS = {"policy": fields.POLICY, "select": fields.SELECT}


@dataclass(frozen=True)
class _Form:
    """Steps of a domain, or of a core: how an example of one begins, where the kind stands, and the kinds."""

    lead: str
    at: int
    kinds: dict[str, int]
    kinds_are: str


_OF_DOMAIN = _Form(
    "0", 1, {name: number for number, name in KINDS.items()}, f"Kinds are {', '.join(KINDS.values())}, {_NUMBERED}N"
)
_OF_CORE = _Form(
    f"{CORE} 3",
    2,
    {name: number for number, name in CORE_KINDS.items()},
    f"Kinds of a core's step are {', '.join(CORE_KINDS.values())}",
)


def is_kind(word: str) -> bool:
    """Tell whether a word is meant as a kind."""
    return word in _OF_DOMAIN.kinds or word in _OF_CORE.kinds or word.startswith(_NUMBERED)


def is_core(word: str) -> bool:
    """Tell whether a word is meant to begin a step that names a core."""
    return word == CORE or _JOINED.fullmatch(word) is not None


def unnamed(kind: str) -> str:
    """Say what is missing before a kind that stands first on a line."""
    word = fields.repeated(kind, f"{_NUMBERED}N")
    by_core = f"'{_OF_CORE.lead} {word} ...'"
    if kind not in _OF_DOMAIN.kinds and kind in _OF_CORE.kinds:
        return f"the core is missing; the step starts with it, as in {by_core}"
    missing = f"the domain is missing; a step starts with it, as in '{_OF_DOMAIN.lead} {word} ...'"
    return f"{missing}, or with a core, as in {by_core}" if kind in _OF_CORE.kinds else missing


def read_step(line: Line) -> Step | None:
    """Read a step; None if something in it is wrong, which is then noted."""
    first = line.tokens[0]
    if not is_core(first.text):
        return _read_rest(line, line.read_number(first, 0, LARGEST_BYTE, "a domain"), _OF_DOMAIN)
    fault = _wrong_core(line.tokens)
    if fault is None:
        return _read_rest(line, line.read_number(line.tokens[1], 0, LARGEST_BYTE, "a core"), _OF_CORE)
    line.fault(first, fault)
    return None


def _wrong_core(tokens: list[Token]) -> str | None:
    """Say what is wrong with the beginning of a core's step; None if its second word is to be the number."""
    joined = _JOINED.fullmatch(tokens[0].text)
    if joined:
        return f"the core's number stands apart from '{CORE}'; write '{CORE} {fields.repeated(joined[1], 'N')}'"
    if len(tokens) > 1 and not is_kind(tokens[1].text):
        return None
    return f"the core's number is missing; it follows '{CORE}', as in '{_OF_CORE.lead} load 0x40'"


def _read_rest(line: Line, named: int | None, form: _Form) -> Step | None:
    """Read what stands after the domain or the core that a step names, which is None if it could not be read."""
    if len(line.tokens) <= form.at:
        line.fault_at_end(f"the step lacks its kind, as in '{form.lead} load 0x40'. {form.kinds_are}")
        return None
    word = line.tokens[form.at]
    kind = _read_kind(line, word, form)
    if kind is None:
        return None
    if word.text in _FIELDS:
        argument = fields.read(line, line.tokens[form.at + 1 :], _FIELDS[word.text])
    else:
        argument = _read_argument(line, form)
    return None if named is None or argument is None else Step(named, kind, argument)


def _read_kind(line: Line, token: Token, form: _Form) -> int | None:
    """Read a step's kind, by name or, where a domain is named, as `kind=N`."""
    if token.text in form.kinds:
        return form.kinds[token.text]
    if token.text.startswith(_NUMBERED) and form is _OF_DOMAIN:
        return line.read_number(token, len(_NUMBERED), LARGEST_BYTE, "a kind")
    line.fault(token, _wrong_kind(token.text, form))
    return None


def _wrong_kind(word: str, form: _Form) -> str:
    """Say what is wrong with a kind, and what would be right."""
    if word.startswith(_NUMBERED):
        return f"a kind by its number has no '{CORE}' before it; write it as in '3 {_NUMBERED}33 0x40'"
    if word == CORE:
        return f"'{CORE}' stands before the number; write it as in '{_OF_CORE.lead} load 0x40'"
    if word == "select":
        return f"only a core has selectors; write it as in '{_OF_CORE.lead} select cs=0 ds=1 es=1'"
    if word == "policy":
        return f"only a domain has a policy; write it as in '{_OF_DOMAIN.lead} policy hit=0,1 fill=0,1'"
    return unknown("kind", word, close_to(word, form.kinds), form.kinds_are)


def _read_argument(line: Line, form: _Form) -> int | None:
    """Read the address of an access or flush, or the raw argument of a `kind=N` step."""
    kind = fields.repeated(line.tokens[form.at].text, f"{_NUMBERED}N")
    thing = "argument" if kind.startswith(_NUMBERED) else "address"
    place = form.at + 1
    if len(line.tokens) <= place:
        line.fault_at_end(f"the step lacks its {thing}, as in '{form.lead} {kind} 0x40'")
        return None
    line.fault_rest(place + 1, f"a {kind} step has one {thing}")
    return line.read_number(line.tokens[place], 0, LARGEST_ARGUMENT, f"an {thing}")
