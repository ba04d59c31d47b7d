"""The trace file, in the binary form that the proved programs read."""
from __future__ import annotations

import struct
from dataclasses import dataclass

from frontend.errors import BadInput
from frontend.numbers import counted

MAX_STEPS = 4096
MAX_SETS = 256
NUMBERS_OF_WAYS = (2, 4, 8, 16)
SETS_LIMIT = f"a trace file holds at most {MAX_SETS} sets (calls of the proved library take up to 4,096)"
POLICY = 16
KINDS = {0: "fetch", 1: "load", 2: "store", 3: "flush", POLICY: "policy"}
SELECT = 40
CORE_KINDS = {32: "fetch", 33: "load", 34: "store", 35: "flush", SELECT: "select"}  # of steps that name a core
ACCESSES = frozenset((*KINDS, *CORE_KINDS)) - {POLICY, SELECT}  # the kinds of accesses and flushes, whose argument is an address
LINE_BYTES = 64
NRU, LRU = 1, 2
RULES = {0: "tree", NRU: "nru", LRU: "lru"}
RULE_NUMBERS = {**{name: number for number, name in RULES.items()}, "tree-plru": 0}  # by the names that people may give
LARGEST_BYTE = 0xFF
LARGEST_ARGUMENT = 0xFFFF_FFFF_FFFF_FFFF

_HEADER = struct.Struct("<HBBI")
_STEP_SIZE = 10
LARGEST_FILE = _HEADER.size + _STEP_SIZE * MAX_STEPS  # bytes


@dataclass(frozen=True)
class Step:
    """One step: the domain that it names, or the core if its kind is one of a core's, its kind and its argument."""

    named: int
    kind: int
    argument: int

    @property
    def by_core(self) -> bool:
        """Tell whether the step names a core."""
        return self.kind in CORE_KINDS


@dataclass(frozen=True)
class Trace:
    """A geometry and the steps to be run on it."""

    sets: int
    ways: int
    rule: int
    steps: tuple[Step, ...]


class BadTraceFile(BadInput):
    """Bytes that document 01 refuses by 10, with the reason."""


def encode(trace: Trace) -> bytes:
    """Write a trace as a trace file."""
    count = len(trace.steps)
    codes = b"".join(bytes((step.named, step.kind)) for step in trace.steps)
    arguments = struct.pack(f"<{count}Q", *(step.argument for step in trace.steps))
    return _HEADER.pack(trace.sets, trace.ways, trace.rule, count) + codes + arguments


def decode(data: bytes) -> Trace:
    """Read a trace file; raise BadTraceFile for one that document 01 refuses by 10."""
    fault = why_refused(data)
    if fault:
        raise BadTraceFile(fault)
    sets, ways, rule, count = _HEADER.unpack_from(data)
    codes = data[_HEADER.size : _HEADER.size + 2 * count]
    arguments = struct.unpack_from(f"<{count}Q", data, _HEADER.size + 2 * count)
    steps = (Step(named, kind, argument) for named, kind, argument in zip(codes[::2], codes[1::2], arguments))
    return Trace(sets, ways, rule, tuple(steps))


def why_refused(data: bytes) -> str | None:
    """Say which of refusal 10's four reasons holds of a file, or None if none does.

    Of a file that is longer than the longest trace file only the first bytes are known, and not its length."""
    size = len(data)
    if size < _HEADER.size:
        return f"it has {counted(size, 'byte')}, and the header alone has {_HEADER.size}"
    sets, _, _, count = _HEADER.unpack_from(data)
    if size > LARGEST_FILE and count > MAX_STEPS:
        return f"its header says {counted(count, 'step')}, and the most is {MAX_STEPS:,}"
    expected = _HEADER.size + _STEP_SIZE * count
    if size != expected:
        due = f"its header says {counted(count, 'step')}, so its length is to be 8 + 10 x {count} = {expected} bytes"
        return f"{due}; it has " + (f"more than {LARGEST_FILE}" if size > LARGEST_FILE else f"{size}")
    return f"its header says {counted(sets, 'set')}; {SETS_LIMIT}" if sets > MAX_SETS else None
