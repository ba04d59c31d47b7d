"""examples/true-lru.txt, worked out by hand: its bytes, the listing and the stepper's stream, and those of domain 0's struck-out run."""
from __future__ import annotations

import struct

from frontend.stepper import Row
from frontend.tests.helpers import block, held, with_counts

_CODES = bytes((0, 16, 1, 16, 0, 1, 0, 1, 0, 1, 0, 1, 1, 2, 0, 1, 1, 1, 0, 16, 0, 1, 0, 16, 0, 1))
_ARGUMENTS = (0x0007_0007, 0x0008_0008, 0, 64, 128, 0, 0, 192, 0, 0x0001_0007, 192, 0x0007_0007, 256)
FILE = struct.pack("<HBBI", 1, 4, 2, 13) + _CODES + struct.pack("<13Q", *_ARGUMENTS)

LISTING = b"""\
1 4 2 13
0 policy 0 0
1 policy 0 0
2 fill 2
3 fill 1
4 fill 0
5 hit 2
6 fill 3
7 evict 1 1 0
8 hit 3
9 policy 0 0
10 hit 1
11 policy 0 0
12 evict 1 3 0
domain 0 2 5 2 0 0 5 0
domain 1 1 1 0 0 0 1 0
"""

_FIRST = {0: (7, 7)}
_BOTH = {0: (7, 7), 1: (8, 8)}
_LOCKED = {0: (7, 1), 1: (8, 8)}
_FRESH = {0: Row(0, 0, 0x0123, (0, 0, 0, 0))}
_MADE = (  # up to step 5, which both runs have
    block({}, 0, _FRESH),
    block(_FIRST, 0, _FRESH, 0, 0),
    block(_BOTH, 0, {0: Row(0, 0, 0x3012, (0, 0, 0, 0))}, 0, 1),
    block(_BOTH, 0, {0: Row(0b0100, 0, 0x3012, (0, 0, 0, 0))}, 3, 0),
    block(_BOTH, 0, {0: Row(0b0110, 0, 0x3021, (0, 1, 0, 0))}, 3, 0),
    block(_BOTH, 0, {0: Row(0b0111, 0, 0x3210, (2, 1, 0, 0))}, 3, 0),
    block(_BOTH, 0, {0: Row(0b0111, 0, 0x3102, (2, 1, 0, 0))}, 3, 0),
)
_MOVED = {0: Row(0b1111, 0b1000, 0x1203, (2, 3, 0, 0))}
STREAM = with_counts(
    LISTING,
    *_MADE,
    block(_BOTH, 0, {0: Row(0b1111, 0b1000, 0x1023, (2, 1, 0, 0))}, 1, 1),
    block(_BOTH, 0, {0: Row(0b1111, 0b1000, 0x0231, (2, 3, 0, 0))}, 3, 0),
    block(_BOTH, 0, {0: Row(0b1111, 0b1000, 0x0213, (2, 3, 0, 0))}, 1, 1),
    block(_LOCKED, 0, _MOVED, 0, 0),
    block(_LOCKED, 0, _MOVED, 2, 0),
    block(_BOTH, 0, _MOVED, 0, 0),
    block(_BOTH, 0, {0: Row(0b1111, 0b1000, 0x2031, (2, 4, 0, 0))}, 3, 0),
    held({0: 3, 1: 1}),
)

STRUCK_PLACES = (6, 8)
STRUCK_LISTING = b"""\
1 4 2 11
0 policy 0 0
1 policy 0 0
2 fill 2
3 fill 1
4 fill 0
5 hit 2
6 evict 1 1 0
7 policy 0 0
8 hit 1
9 policy 0 0
10 evict 1 3 0
domain 0 2 5 2 0 0 5 0
domain 1 0 0 0 0 0 0 0
"""
_STRUCK_MOVED = {0: Row(0b0111, 0, 0x1230, (2, 3, 0, 0))}
STRUCK_STREAM = with_counts(
    STRUCK_LISTING,
    *_MADE,
    block(_BOTH, 0, {0: Row(0b0111, 0, 0x3021, (2, 3, 0, 0))}, 3, 0),
    block(_LOCKED, 0, _STRUCK_MOVED, 0, 0),
    block(_LOCKED, 0, _STRUCK_MOVED, 2, 0),
    block(_BOTH, 0, _STRUCK_MOVED, 0, 0),
    block(_BOTH, 0, {0: Row(0b0111, 0, 0x2301, (2, 4, 0, 0))}, 3, 0),
    held({0: 3}),
)
WORDS = 0x2031, 0x2301  # at the end of either run
OWN = b"513\n"  # 0x201: of the fill ways of domain 0, in either run way 2 is the oldest and way 1 the most recent
