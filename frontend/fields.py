"""The argument of a step in named fields, such as `hit=0,1 fill=0,1` or `cs=0 ds=1 es=1`, or whole as `arg=0x3`."""
from __future__ import annotations

from collections.abc import Callable
from dataclasses import dataclass

from frontend import cores, maps, numbers
from frontend.quote import quoted
from frontend.source import Line, Token, close_to, unknown
from frontend.tracefile import LARGEST_ARGUMENT, LARGEST_BYTE

_WHOLE = "arg"
_LONGEST = 24  # characters of a word that an example repeats


@dataclass(frozen=True)
class Form:
    """The fields that an argument is written in: their names, what is said of them, how they are read and joined."""

    names: tuple[str, ...]
    takes: str
    hint: str
    read: Callable[[Line, Token, int], int | None]
    join: Callable[[Line, dict[str, int | None]], int | None]


def repeated(word: str, form: str) -> str:
    """Give a word to be repeated in an example, or its form if it is long."""
    return word if len(word) <= _LONGEST else form


def read(line: Line, tokens: list[Token], form: Form) -> int | None:
    """Read the fields of an argument; None if something in them is wrong, which is then noted."""
    found: dict[str, int | None] = {}
    strange = False
    for token in tokens:
        name, equals, _ = token.text.partition("=")
        if not equals or name not in (*form.names, _WHOLE):
            _fault_field(line, token, form)
            strange = True
        elif name in found:
            line.fault(token, f"'{name}=' is given twice. {form.takes}")
        else:
            found[name] = _read_field(line, token, name, form)
    if strange:
        return None
    if _WHOLE not in found:
        return form.join(line, found)
    if len(found) > 1:
        beside = " or ".join(f"{name}=" for name in form.names)
        line.fault(tokens[0], f"{_WHOLE}= stands beside {beside}. {form.takes}")
    return found[_WHOLE]


def _read_field(line: Line, token: Token, name: str, form: Form) -> int | None:
    """Read the value of one field."""
    offset = len(name) + 1
    if name == _WHOLE:
        return line.read_number(token, offset, LARGEST_ARGUMENT, "an argument")
    return form.read(line, token, offset)


def _fault_field(line: Line, token: Token, form: Form) -> None:
    """Note a word that is no field."""
    names = (*form.names, _WHOLE)
    if numbers.parse(token.text) is not None:
        hint = f"write a whole argument as '{_WHOLE}={repeated(token.text, 'NUMBER')}', and {form.hint}"
        line.fault(token, f"unexpected {quoted(token.text)}; {hint}")
    elif token.text in names:
        line.fault(token, f"'{token.text}' lacks its value; write '{token.text}=' and the value without a space")
    else:
        meant = close_to(token.text.partition("=")[0], names)
        line.fault(token, unknown("field", token.text, meant, form.takes))


def _read_map(line: Line, token: Token, offset: int) -> int | None:
    """Read one of a policy's maps."""
    try:
        return maps.parse(token.text[offset:])
    except maps.BadMap as bad:
        line.fault_within(token, offset + bad.offset, bad.width, str(bad))
        return None


def _join_maps(line: Line, found: dict[str, int | None]) -> int | None:
    """Join a policy's two maps; note one that is missing."""
    for name in POLICY.names:
        if name not in found:
            line.fault_at_end(f"the policy lacks {name}=MAP; for an empty map write {name}=none")
    hit, fill = found.get("hit"), found.get("fill")
    return None if hit is None or fill is None else hit | fill << maps.WAYS


def _read_selector(line: Line, token: Token, offset: int) -> int | None:
    """Read one selector of a core."""
    return line.read_number(token, offset, LARGEST_BYTE, "a selector")


def _join_selectors(line: Line, found: dict[str, int | None]) -> int | None:
    """Join a core's three selectors; note those that are missing."""
    missing = [f"{name}=N" for name in SELECT.names if name not in found]
    if missing:
        example = "as in 'core 3 select cs=0 ds=1 es=1'"
        line.fault_at_end(f"the step lacks {', '.join(missing)}; it writes all three selectors, {example}")
    selectors = tuple(found.get(name) for name in SELECT.names)
    return None if None in selectors else cores.join(selectors)


POLICY = Form(
    ("hit", "fill"),
    "A policy step takes hit=MAP and fill=MAP, or arg=NUMBER",
    "a map without spaces",
    _read_map,
    _join_maps,
)
SELECT = Form(
    tuple(name.lower() for name in cores.SELECTORS),
    "A select step takes cs=N, ds=N and es=N, or arg=NUMBER",
    "a selector with its name, such as cs=0",
    _read_selector,
    _join_selectors,
)
