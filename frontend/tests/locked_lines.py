"""examples/locked-lines.txt, worked out by hand: its bytes, the listing and the stepper's stream."""
from __future__ import annotations

import struct

from frontend.stepper import Row
from frontend.tests.helpers import block, held, with_counts

_KINDS = (16, 1, 1, 1, 1, 16, 1, 1, 1, 2, 1, 1, 1, 16, 1, 3)
_CODES = bytes(number for place, kind in enumerate(_KINDS) for number in (3 if place < 13 else 4, kind))
_ARGUMENTS = (0x000F_000F, 0, 64, 128, 192, 0x0006_000F, 64, 192, 256, 0, 320, 0, 192, 0x0000_00F0, 0, 0)
FILE = struct.pack("<HBBI", 1, 8, 0, 16) + _CODES + struct.pack("<16Q", *_ARGUMENTS)

LISTING = b"""\
1 8 0 16
0 policy 0 0
1 fill 3
2 fill 2
3 fill 1
4 fill 0
5 policy 0 0
6 hit 2
7 hit 0
8 evict 1 2 0
9 hit 3
10 evict 2 1 0
11 hit 3
12 hit 0
13 policy 0 0
14 pass
15 absent
domain 3 5 6 2 0 0 6 0
domain 4 0 1 0 0 0 0 0
"""


def _set(valid: int, dirty: int, word: int, *tags: int) -> dict[int, Row]:
    """Give the one set, whose ways 4 to 7 stay empty."""
    return {0: Row(valid, dirty, word, (*tags, 0, 0, 0, 0))}


_OPEN = {3: (0b1111, 0b1111)}
_LOCKED = {3: (0b1111, 0b0110)}
_BOTH = {3: (0b1111, 0b0110), 4: (0b1111_0000, 0)}
_FILLED = _set(0b1111, 0, 0b1_1010, 3, 2, 1, 0)
_SHUT = _set(0b1111, 0, 0b0_0010, 3, 2, 1, 0)  # nodes 3 and 4 are free no more, and become zero
_USED = _set(0b1111, 0, 0, 3, 2, 1, 0)  # only way 2 was used since: node 1 points left
_LAST = _set(0b1111, 0b1000, 0, 3, 4, 5, 0)
STREAM = with_counts(
    LISTING,
    block({}, 0, _set(0, 0, 0, 0, 0, 0, 0)),
    block(_OPEN, 0, _set(0, 0, 0, 0, 0, 0, 0), 0, 3),
    block(_OPEN, 0, _set(0b1000, 0, 0b0_0000, 0, 0, 0, 0), 4, 3),
    block(_OPEN, 0, _set(0b1100, 0, 0b1_0000, 0, 0, 1, 0), 4, 3),
    block(_OPEN, 0, _set(0b1110, 0, 0b1_0010, 0, 2, 1, 0), 4, 3),
    block(_OPEN, 0, _FILLED, 4, 3),
    block(_LOCKED, 0, _SHUT, 0, 3),
    block(_LOCKED, 0, _USED, 3, 3),
    block(_LOCKED, 0, _USED, 1, 3),  # a hit in the locked way 0
    block(_LOCKED, 0, _set(0b1111, 0, 0b10, 3, 4, 1, 0), 4, 3),
    block(_LOCKED, 0, _set(0b1111, 0b1000, 0b10, 3, 4, 1, 0), 4, 3),  # a store in the locked way 3
    block(_LOCKED, 0, _LAST, 4, 3),
    block(_LOCKED, 0, _LAST, 4, 3),
    block(_LOCKED, 0, _LAST, 1, 3),
    block(_BOTH, 0, _LAST, 0, 4),
    block(_BOTH, 0, _LAST, 4, 4),
    block(_BOTH, 0, _LAST, 4, 4),
    held({3: 4}),
)
