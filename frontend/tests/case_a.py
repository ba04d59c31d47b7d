"""Case A, with the ways of document 02's job 8, written by hand: the text's bytes, the listing and the stepper's stream."""
from __future__ import annotations

import struct

from frontend.stepper import Row
from frontend.tests.helpers import block, held, with_counts

_CODES = bytes((0, 16, 1, 16, 0, 2, 0, 1, 1, 1, 0, 1, 0, 3, 2, 1, 0, 1))
_ARGUMENTS = (0x0003_0003, 0x000C_000C, 0, 64, 0, 128, 64, 0, 128)
FILE = struct.pack("<HBBI", 1, 4, 0, 9) + _CODES + struct.pack("<9Q", *_ARGUMENTS)

LISTING = b"""\
1 4 0 9
0 policy 0 0
1 policy 0 0
2 fill 1
3 fill 0
4 fill 3
5 evict 1 0 1
6 flush 0 0
7 refused 6
8 hit 1
domain 0 1 3 1 1 1 3 0
domain 1 0 1 0 0 0 1 0
"""

_FIRST = {0: (3, 3)}
_BOTH = {0: (3, 3), 1: (12, 12)}
_FRESH = {0: Row(0, 0, 0, (0, 0, 0, 0))}
_LAST = {0: Row(0b1010, 0, 0b000, (1, 2, 0, 0))}
STREAM = with_counts(
    LISTING,
    block({}, 0, _FRESH),
    block(_FIRST, 0, _FRESH, 0, 0),
    block(_BOTH, 0, _FRESH, 0, 1),
    block(_BOTH, 0, {0: Row(0b0010, 0b0010, 0b000, (0, 0, 0, 0))}, 2, 0),
    block(_BOTH, 0, {0: Row(0b0011, 0b0010, 0b010, (1, 0, 0, 0))}, 2, 0),
    block(_BOTH, 0, {0: Row(0b1011, 0b0010, 0b010, (1, 0, 0, 0))}, 2, 1),
    block(_BOTH, 0, {0: Row(0b1011, 0, 0b000, (1, 2, 0, 0))}, 2, 0),
    block(_BOTH, 0, _LAST, 1, 0),
    block(_BOTH, 0, _LAST, 0, 2),
    block(_BOTH, 0, _LAST, 2, 0),
    held({0: 1, 1: 1}),
)
