"""examples/core-switch.txt, worked out by hand: bytes, listing and stream, and those of domain 1's struck-out run."""
from __future__ import annotations

import struct

from frontend.stepper import Row
from frontend.tests.helpers import block, held, with_counts

_STEPS = (
    (1, 16, 0x0003_0003),
    (2, 16, 0x000C_000C),
    (3, 33, 64),
    (3, 40, 0x010101),
    (3, 34, 64),
    (3, 33, 64),
    (3, 40, 0x020202),
    (3, 33, 64),
    (3, 34, 64),
    (3, 40, 0x020101),
    (3, 33, 128),
    (3, 34, 128),
    (3, 35, 64),
    (2, 1, 64),
    (3, 32, 128),
    (32, 33, 64),
    (3, 40, 0x011001),
    (3, 34, 192),
)
_CODES = bytes(number for step in _STEPS for number in step[:2])
FILE = struct.pack("<HBBI", 1, 4, 0, 18) + _CODES + struct.pack("<18Q", *(step[2] for step in _STEPS))

LISTING = b"""\
1 4 0 18
0 policy 0 0
1 policy 0 0
2 refused 6
3 select 1 1 1
4 fill 1
5 hit 1
6 select 2 2 2
7 fill 3
8 hit 3
9 select 1 1 2
10 fill 0
11 fill 2
12 flush 1 1
13 hit 3
14 hit 0
15 refused 11
16 refused 3
17 evict 2 2 1
domain 1 2 2 0 1 1 2 0
domain 2 2 3 1 1 0 3 0
"""

_NONE = 65535
_FIRST = {1: (3, 3)}
_BOTH = {1: (3, 3), 2: (12, 12)}
_ONE, _TWO, _SPLIT = {3: (1, 1, 1)}, {3: (2, 2, 2)}, {3: (1, 1, 2)}


def _set(valid: int, dirty: int, word: int, *tags: int) -> dict[int, Row]:
    """Give the one set."""
    return {0: Row(valid, dirty, word, tags)}


_FRESH = _set(0, 0, 0, 0, 0, 0, 0)
_STORED = _set(0b0010, 0b0010, 0b000, 0, 1, 0, 0)
_LATER = _set(0b1101, 0b1100, 0b010, 2, 1, 2, 1)
STREAM = with_counts(
    LISTING,
    block({}, 0, _FRESH),
    block(_FIRST, 0, _FRESH, 0, 1),
    block(_BOTH, 0, _FRESH, 0, 2),
    block(_BOTH, 0, _FRESH, 0, 0),  # refused 6
    block(_BOTH, 0, {}, 0, _NONE, _ONE),
    block(_BOTH, 0, _STORED, 2, 1, _ONE),
    block(_BOTH, 0, _STORED, 2, 1, _ONE),
    block(_BOTH, 0, {}, 0, _NONE, _TWO),
    block(_BOTH, 0, _set(0b1010, 0b0010, 0b000, 0, 1, 0, 1), 2, 2, _TWO),
    block(_BOTH, 0, _set(0b1010, 0b1010, 0b000, 0, 1, 0, 1), 2, 2, _TWO),
    block(_BOTH, 0, {}, 0, _NONE, _SPLIT),
    block(_BOTH, 0, _set(0b1011, 0b1010, 0b010, 2, 1, 0, 1), 2, 1, _SPLIT),
    block(_BOTH, 0, _set(0b1111, 0b1110, 0b110, 2, 1, 2, 1), 2, 2, _SPLIT),
    block(_BOTH, 0, _set(0b1101, 0b1100, 0b110, 2, 1, 2, 1), 2, 1, _SPLIT),
    block(_BOTH, 0, _LATER, 2, 2, _SPLIT),
    block(_BOTH, 0, _LATER, 1, 1, _SPLIT),
    block(_BOTH, 0, _LATER, 0, _NONE, _SPLIT),  # refused 11
    block(_BOTH, 0, {}, 0, _NONE, _SPLIT),  # refused 3
    block(_BOTH, 0, _set(0b1101, 0b1100, 0b110, 2, 1, 3, 1), 2, 2, _SPLIT),
    held({1: 1, 2: 2}),
)

STRUCK_PLACES = (2, 7, 8, 11, 13, 17)
STRUCK_LISTING = b"""\
1 4 0 12
0 policy 0 0
1 policy 0 0
2 select 1 1 1
3 fill 1
4 hit 1
5 select 2 2 2
6 select 1 1 2
7 fill 0
8 flush 1 1
9 hit 0
10 refused 11
11 refused 3
domain 1 2 2 0 1 1 2 0
domain 2 0 0 0 0 0 0 0
"""
_FLUSHED = _set(0b0001, 0, 0b010, 2, 1, 0, 0)
STRUCK_STREAM = with_counts(
    STRUCK_LISTING,
    block({}, 0, _FRESH),
    block(_FIRST, 0, _FRESH, 0, 1),
    block(_BOTH, 0, _FRESH, 0, 2),
    block(_BOTH, 0, {}, 0, _NONE, _ONE),
    block(_BOTH, 0, _STORED, 2, 1, _ONE),
    block(_BOTH, 0, _STORED, 2, 1, _ONE),
    block(_BOTH, 0, {}, 0, _NONE, _TWO),
    block(_BOTH, 0, {}, 0, _NONE, _SPLIT),
    block(_BOTH, 0, _set(0b0011, 0b0010, 0b010, 2, 1, 0, 0), 2, 1, _SPLIT),
    block(_BOTH, 0, _FLUSHED, 2, 1, _SPLIT),
    block(_BOTH, 0, _FLUSHED, 1, 1, _SPLIT),
    block(_BOTH, 0, _FLUSHED, 0, _NONE, _SPLIT),
    block(_BOTH, 0, {}, 0, _NONE, _SPLIT),
    held({1: 1}),
)
WORDS = 0b110, 0b010  # at the end of either run
OWN = b"2\n"  # node 1 is free for domain 1, and points right in either run; node 2 is domain 2's
