"""examples/highest-first.txt, worked out by hand: its bytes, the listing and the stepper's stream."""
from __future__ import annotations

import struct

from frontend.stepper import Row
from frontend.tests.helpers import block, held, with_counts

_CODES = bytes((0, 16, 1, 16, 0, 1, 0, 1, 0, 1, 0, 1, 0, 1, 0, 1, 0, 1, 0, 3, 0, 3, 0, 1, 0, 1))
_ARGUMENTS = (0x0007_0007, 0x0008_0008, 0, 64, 128, 192, 256, 128, 320, 128, 256, 384, 448)
FILE = struct.pack("<HBBI", 1, 4, 1, 13) + _CODES + struct.pack("<13Q", *_ARGUMENTS)

LISTING = b"""\
1 4 1 13
0 policy 0 0
1 policy 0 0
2 fill 2
3 fill 1
4 fill 0
5 evict 2 0 0
6 evict 1 1 0
7 hit 0
8 evict 2 3 0
9 flush 0 0
10 flush 1 0
11 fill 1
12 fill 0
domain 0 1 8 3 0 2 8 0
domain 1 0 0 0 0 0 0 0
"""


def _set(valid: int, word: int, *tags: int) -> dict[int, Row]:
    """Give the one set, whose way 3 stays empty and whose lines are not dirty."""
    return {0: Row(valid, 0, word, (*tags, 0))}


_FIRST = {0: (0b0111, 0b0111)}
_BOTH = {0: (0b0111, 0b0111), 1: (0b1000, 0b1000)}
_FRESH = _set(0, 0b1111, 0, 0, 0)
STREAM = with_counts(
    LISTING,
    block({}, 0, _FRESH),
    block(_FIRST, 0, _FRESH, 0, 0),
    block(_BOTH, 0, _FRESH, 0, 1),
    block(_BOTH, 0, _set(0b0100, 0b1011, 0, 0, 0), 3, 0),
    block(_BOTH, 0, _set(0b0110, 0b1001, 0, 1, 0), 3, 0),
    block(_BOTH, 0, _set(0b0111, 0b1000, 2, 1, 0), 3, 0),
    block(_BOTH, 0, _set(0b0111, 0b1011, 2, 1, 3), 3, 0),  # bits 0 to 2 became one, and then that of way 2 zero
    block(_BOTH, 0, _set(0b0111, 0b1001, 2, 4, 3), 3, 0),
    block(_BOTH, 0, _set(0b0111, 0b1000, 2, 4, 3), 1, 0),
    block(_BOTH, 0, _set(0b0111, 0b1011, 2, 4, 5), 3, 0),
    block(_BOTH, 0, _set(0b0110, 0b1011, 2, 4, 5), 1, 0),
    block(_BOTH, 0, _set(0b0100, 0b1011, 2, 4, 5), 2, 0),
    block(_BOTH, 0, _set(0b0110, 0b1001, 2, 6, 5), 3, 0),
    block(_BOTH, 0, _set(0b0111, 0b1000, 7, 6, 5), 3, 0),
    held({0: 3}),
)
