"""Address traces as other tools write them, in three forms, read line by line into accesses: pairs of a kind and an address."""
from __future__ import annotations

import codecs
import csv
import re
from collections.abc import Callable, Iterable, Iterator
from dataclasses import dataclass

from frontend.numbers import counted, hexadecimal
from frontend.quote import quoted
from frontend.source import MOST_SHOWN, SourceErrors
from frontend.tracefile import KINDS, LARGEST_ARGUMENT, LINE_BYTES

LONGEST = 4096  # bytes of a line with an access
LARGEST_SIZE = 65_536  # bytes that one access may reach over
_NUMBERS = {name: number for number, name in KINDS.items()}
_FETCH, _LOAD, _STORE, _FLUSH = (_NUMBERS[name] for name in ("fetch", "load", "store", "flush"))
_TOO_LARGE = f"has more than 64 bits; the largest address is {hexadecimal(LARGEST_ARGUMENT)}"
_ZERO = b"\0"
_PACKED = "if the file is packed, unpack it first"
_COMMENT = "#"
_MESSAGES = "==", "--"  # how valgrind's own lines begin

_HEX = "(?:0[xX])?0*([0-9a-fA-F]{1,16})"  # of up to 64 bits
_ANY_HEX = re.compile("(?:0[xX])?[0-9a-fA-F]+")

_DIN = re.compile(rf"([012])\s+{_HEX}(?:\s.*)?")
_DIN_KINDS = {"0": _LOAD, "1": _STORE, "2": _FETCH}
_DIN_ESCAPES = {
    "3": "label 3 is an escape record, an unknown access, and no step of a trace is one; leave the line out",
    "4": "label 4 is an escape record that flushes the whole cache, and a step flushes one address; leave the line out",
}

_LACKEY = re.compile(rf"([ILSM])\s+{_HEX},0*([1-9][0-9]{{0,4}})")
_LACKEY_KINDS = {"I": (_FETCH,), "L": (_LOAD,), "S": (_STORE,), "M": (_LOAD, _STORE)}
_LACKEY_FORM = "an access is I, L, S or M, an address in hexadecimal, a comma and a size, as in ' L 04222caf,8'"

_CSV_WORDS = {
    _LOAD: ("load", "read", "r", "l"),
    _STORE: ("store", "write", "w", "s", "rfo"),
    _FETCH: ("fetch", "ifetch", "instruction", "inst", "i"),
    _FLUSH: ("flush", "clflush", "f"),
}
_CSV_KINDS = {word: kind for kind, words in _CSV_WORDS.items() for word in words}
_CSV_KINDS_ARE = "Kinds are " + ", ".join(f"{first} ({', '.join(others)})" for first, *others in _CSV_WORDS.values())
_CSV_ADDRESS = re.compile("0[xX]0*([0-9a-fA-F]{1,16})|0*([0-9]{1,20})")
_CSV_ANY_ADDRESS = re.compile("0[xX][0-9a-fA-F]+|[0-9]+")
_CSV_HEADS = (("kind", "type", "access"), ("address", "addr", "vaddr"))
_CSV_COLUMNS = " and ".join(f"one column {', '.join(names[:-1])} or {names[-1]}" for names in _CSV_HEADS)


class Lines:
    """The lines of an address trace that are to be read, each with its number, and what is wrong with the bad ones."""

    def __init__(self, name: str, pieces: Iterable[bytes], left_out: tuple[str, ...]) -> None:
        self.name = name
        self._pieces, self._left_out = pieces, left_out
        self._bad = 0
        self._told: list[str] = []

    def __iter__(self) -> Iterator[tuple[int, str]]:
        """Give each line, without the spaces around it, that is not blank and not left out; note those that are no text."""
        left_out = self._left_out
        for number, raw in enumerate(_split(self._pieces), 1):
            line = raw[:LONGEST].decode("utf-8", "surrogateescape").strip()
            if line.startswith(left_out):
                continue
            if not line.isascii() or "\r" in line or raw == _ZERO or len(raw) > LONGEST:
                fault = _why_no_text(raw)
                if fault is not None:
                    self.refuse(number, fault)
                    continue
            if line:
                yield number, line

    def refuse(self, number: int, message: str) -> None:
        """Note a bad line."""
        self._bad += 1
        if self._bad <= MOST_SHOWN:
            self._told.append(f"{self.name}:{number}: {message}")

    def fail(self) -> None:
        """Raise the bad lines, if there are any."""
        if self._bad:
            shown = f", the first {MOST_SHOWN} shown" if self._bad > MOST_SHOWN else ""
            end = f"{self.name}: {counted(self._bad, 'bad line')}{shown}; no trace was made"
            raise SourceErrors("\n".join((*self._told, end)))


def _split(pieces: Iterable[bytes]) -> Iterator[bytes]:
    """Split a text into lines, without a mark of byte order; of a line that does not end soon only the beginning is kept.

    A zero byte ends the text: it is given as a line, and nothing after it is read. So a file that is no text is told at once."""
    rest = b""
    for place, piece in enumerate(pieces):
        if place == 0 and piece.startswith(codecs.BOM_UTF8):
            piece = piece[len(codecs.BOM_UTF8) :]
        text, zero, _ = piece.partition(_ZERO)
        lines = (rest + text).split(b"\n")
        rest = lines.pop()[: LONGEST + 1]
        yield from lines
        if zero:
            rest = zero
            break
    if rest:
        yield rest


def _why_no_text(raw: bytes) -> str | None:
    """Say why a line cannot be read in any form; None if it can."""
    if raw == _ZERO:
        return f"a zero byte, and an address trace is UTF-8 text; {_PACKED}; nothing after it was read"
    if len(raw) > LONGEST:
        return f"the line has more than {LONGEST:,} bytes; one access stands on a line"
    if b"\r" in raw.strip():
        return "a carriage return within the line; lines end with a line feed, or with both"
    try:
        raw.decode()
    except UnicodeDecodeError as error:
        return f"byte {raw[error.start]:#04x} is not UTF-8 text; {_PACKED}"
    return None


def _read_din(lines: Lines) -> Iterator[tuple[int, int]]:
    """Read the traditional input of Dinero: a label and an address, and what follows is ignored."""
    match = _DIN.fullmatch
    for number, line in lines:
        found = match(line)
        if found:
            yield _DIN_KINDS[found[1]], int(found[2], 16)
        else:
            lines.refuse(number, _why_not_din(line))


def _why_not_din(line: str) -> str:
    """Say what is wrong with a line that is no access of Dinero's."""
    label, *rest = line.split(None, 2)
    if label in _DIN_ESCAPES:
        return _DIN_ESCAPES[label]
    if label not in _DIN_KINDS:
        return f"unknown label {quoted(label)}; labels are 0 (read), 1 (write) and 2 (instruction fetch)"
    if not rest:
        return "the address is missing; a line is a label and an address, as in '0 1f80'"
    return _why_not_hex(rest[0])


def _why_not_hex(word: str) -> str:
    """Say what is wrong with an address in hexadecimal."""
    if _ANY_HEX.fullmatch(word):
        return f"address {quoted(word)} {_TOO_LARGE}"
    return f"{quoted(word)} is not an address, which is written in hexadecimal, as in 1f80 or 0x1f80"


def _read_lackey(lines: Lines) -> Iterator[tuple[int, int]]:
    """Read what valgrind's lackey writes; of an access that reaches into further lines of the cache, a step for each of them."""
    match = _LACKEY.fullmatch
    for number, line in lines:
        found = match(line)
        if not found:
            lines.refuse(number, _why_not_lackey(line))
            continue
        letter, digits, size = found.groups()
        address = int(digits, 16)
        last = address + int(size) - 1
        touched: Iterable[int] = (address,)
        if last // LINE_BYTES != address // LINE_BYTES:
            if last > LARGEST_ARGUMENT or int(size) > LARGEST_SIZE:
                lines.refuse(number, _why_too_far(address, int(size)))
                continue
            touched = (address, *range((address // LINE_BYTES + 1) * LINE_BYTES, last + 1, LINE_BYTES))
        for kind in _LACKEY_KINDS[letter]:
            for place in touched:
                yield kind, place


def _why_too_far(address: int, size: int) -> str:
    """Say what is wrong with an access that reaches over too much."""
    if size > LARGEST_SIZE:
        return f"size {size:,} is too large; an access has from 1 to {LARGEST_SIZE:,} bytes"
    end = f"the end of the address space, {hexadecimal(LARGEST_ARGUMENT)}"
    return f"{counted(size, 'byte')} at {hexadecimal(address)} pass {end}"


def _why_not_lackey(line: str) -> str:
    """Say what is wrong with a line that is no access of lackey's."""
    letter, *rest = line.split(None, 1)
    address, comma, size = "".join(rest).partition(",")
    if letter not in _LACKEY_KINDS:
        own = "what the traced program itself writes stays out with 'valgrind --log-file=FILE'"
        return f"{quoted(line)} is no access; {_LACKEY_FORM}; {own}"
    if not comma:
        return f"{quoted(line)} lacks its {'size' if address else 'address and its size'}; {_LACKEY_FORM}"
    if not re.fullmatch(_HEX, address):
        return _why_not_hex(address)
    return f"{quoted(size)} is not a size, which is a decimal number from 1 to {LARGEST_SIZE:,}"


def _read_csv(lines: Lines) -> Iterator[tuple[int, int]]:
    """Read cells with commas between, a kind and an address among them; a first line may name the columns."""
    columns, first = (0, 1), True
    for number, line in lines:
        cells = _cells(line)
        access = _access(cells, columns)
        if access:
            yield access
        elif first and _named(cells) != ([], []):
            columns = tuple(places[0] for places in _named(cells) if len(places) == 1)
            if len(columns) != len(_CSV_HEADS):
                lines.refuse(number, _why_not_head(_named(cells)))
                return
        else:
            lines.refuse(number, _why_not_csv(cells, columns) + (f"; a head names {_CSV_COLUMNS}" if first else ""))
        first = False


def _cells(line: str) -> list[str]:
    """Split a line into cells; one in double quotes may have commas in it."""
    return next(csv.reader((line,), skipinitialspace=True)) if '"' in line else line.split(",")


def _named(cells: list[str]) -> tuple[list[int], ...]:
    """List the places of the cells that name a column of kinds, and of those that name one of addresses."""
    words = [cell.strip().lower() for cell in cells]
    return tuple([place for place, word in enumerate(words) if word in names] for names in _CSV_HEADS)


def _why_not_head(named: tuple[list[int], ...]) -> str:
    """Say what is wrong with a first line that names columns, but not one of each."""
    found = " and ".join(f"{len(places)} of the columns {', '.join(names)}" for places, names in zip(named, _CSV_HEADS))
    return f"this head names {found}; it has to name one of each; nothing after it was read"


def _access(cells: list[str], columns: tuple[int, ...]) -> tuple[int, int] | None:
    """Give the access that cells write, or None if they write none."""
    kind_at, address_at = columns
    if len(cells) <= kind_at or len(cells) <= address_at:
        return None
    kind = _CSV_KINDS.get(cells[kind_at].strip().lower())
    found = _CSV_ADDRESS.fullmatch(cells[address_at].strip())
    if kind is None or not found:
        return None
    address = int(found[1], 16) if found[1] else int(found[2])
    return (kind, address) if address <= LARGEST_ARGUMENT else None


def _why_not_csv(cells: list[str], columns: tuple[int, ...]) -> str:
    """Say what is wrong with cells that write no access."""
    kind_at, address_at = columns
    if len(cells) <= max(columns):
        right = f"cell {kind_at + 1} is the kind and cell {address_at + 1} the address"
        return f"the line has {counted(len(cells), 'cell')}; {right}"
    kind, address = cells[kind_at].strip(), cells[address_at].strip()
    if kind.lower() not in _CSV_KINDS:
        return f"unknown kind {quoted(kind)}. {_CSV_KINDS_ARE}"
    if _CSV_ANY_ADDRESS.fullmatch(address):
        return f"address {quoted(address)} {_TOO_LARGE}"
    return f"{quoted(address)} is not an address, which is hexadecimal with 0x, as in 0x1f80, or decimal digits, as in 8064"


@dataclass(frozen=True)
class Form:
    """A form of address traces: its reader, an access as it writes one, and how lines begin that are left out."""

    read: Callable[[Lines], Iterator[tuple[int, int]]]
    example: str
    left_out: tuple[str, ...]


FORMS = {
    "din": Form(_read_din, "0 1f80", (_COMMENT,)),
    "lackey": Form(_read_lackey, " L 04222caf,8", (_COMMENT, *_MESSAGES)),
    "csv": Form(_read_csv, "load,0x1f80", (_COMMENT,)),
}
