"""examples/balance.txt, worked out by hand: its bytes, the listing, the stepper's stream and where the lines went."""
from __future__ import annotations

import struct

from frontend.stepper import Row
from frontend.tests.helpers import block, held, with_counts

_STEPS = (
    (0, 16, 0x0007_0007),
    (0, 2, 0),
    (0, 1, 64),
    (0, 1, 128),
    (1, 16, 0x0008_0008),
    (1, 2, 0),
    (0, 1, 192),
    (0, 3, 64),
    (0, 1, 256),
    (0, 16, 0x0003_0003),
    (1, 16, 0),
    (1, 16, 0x0008_0008),
    (1, 1, 64),
)
_CODES = bytes(number for step in _STEPS for number in step[:2])
FILE = struct.pack("<HBBI", 1, 4, 0, 13) + _CODES + struct.pack("<13Q", *(step[2] for step in _STEPS))

LISTING = b"""\
1 4 0 13
0 policy 0 0
1 fill 2
2 fill 1
3 fill 0
4 policy 0 0
5 fill 3
6 evict 2 0 1
7 flush 1 0
8 fill 1
9 policy 1 0
10 policy 1 1
11 policy 0 0
12 fill 3
domain 0 0 5 1 1 1 5 1
domain 1 0 1 0 0 0 1 0
"""


def _set(valid: int, dirty: int, word: int, *tags: int) -> dict[int, Row]:
    """Give the one set."""
    return {0: Row(valid, dirty, word, tags)}


_THREE = {0: (0b0111, 0b0111)}
_FULL = {**_THREE, 1: (0b1000, 0b1000)}
_TWO = {0: (0b0011, 0b0011)}
_LEFT = {**_TWO, 1: (0b1000, 0b1000)}
_FRESH = _set(0, 0, 0, 0, 0, 0, 0)
_FILLED = _set(0b0111, 0b0100, 0b011, 2, 1, 0, 0)
_REMOVED = _set(0b0011, 0, 0, 2, 4, 0, 0)
STREAM = with_counts(
    LISTING,
    block({}, 0, _FRESH),
    block(_THREE, 0, _FRESH, 0, 0),
    block(_THREE, 0, _set(0b0100, 0b0100, 0b000, 0, 0, 0, 0), 3, 0),  # node 2 is not free, and stays
    block(_THREE, 0, _set(0b0110, 0b0100, 0b001, 0, 1, 0, 0), 3, 0),
    block(_THREE, 0, _FILLED, 3, 0),
    block(_FULL, 0, _FILLED, 0, 1),
    block(_FULL, 0, _set(0b1111, 0b1100, 0b011, 2, 1, 0, 0), 1, 1),
    block(_FULL, 0, _set(0b1111, 0b1000, 0b010, 2, 1, 3, 0), 3, 0),
    block(_FULL, 0, _set(0b1101, 0b1000, 0b010, 2, 1, 3, 0), 2, 0),
    block(_FULL, 0, _set(0b1111, 0b1000, 0b001, 2, 4, 3, 0), 3, 0),
    block(_LEFT, 0, _set(0b1011, 0b1000, 0, 2, 4, 0, 0), 0, 0),  # node 0 is free no more, and becomes zero
    block(_TWO, 0, _REMOVED, 0, 1),
    block(_LEFT, 0, _REMOVED, 0, 1),
    block(_LEFT, 0, _set(0b1011, 0, 0, 2, 4, 0, 1), 1, 1),
    held({0: 2, 1: 1}),
)
BALANCES = {
    0: "fills 5 = evicted 1 + flushed 1 + dropped 1 + held 2",
    1: "fills 1 = evicted 0 + flushed 0 + dropped 0 + held 1",
}
