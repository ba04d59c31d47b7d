"""Why something is refused by a number, and what would be right, whatever the step; `culprits` says what is to blame in one."""
from __future__ import annotations

from dataclasses import dataclass

from frontend import cores
from frontend.tracefile import SETS_LIMIT

LARGEST_COUNT = 4_294_967_295
LAST_CORE = cores.LENT - 1
LAST_DOMAIN = 15


@dataclass(frozen=True)
class Refusal:
    """Why something is refused, and what would be right."""

    why: str
    fix: str

    def __str__(self) -> str:
        """Give both sentences."""
        return f"{self.why} {self.fix}"


REMOVE = "Remove the domain by a policy with two empty maps, which zeroes its counts, and give it its maps anew."

REFUSALS = {
    1: Refusal(
        "The geometry is outside the limits.",
        "Give a number of sets that is a power of two, from 1 to 256 in a trace file; 2, 4, 8 or 16 ways;"
        " and rule 0 (tree), 1 (nru) or 2 (lru).",
    ),
    2: Refusal(
        "A table does not have exactly the length that the geometry gives it.",
        "Lend sets x ways tags, and one valid map, one dirty map and one replacement word for each set.",
    ),
    3: Refusal("The domain is 16 or more.", "Name a domain from 0 to 15."),
    4: Refusal(
        "The kind is unknown.",
        "Use 0 (fetch), 1 (load), 2 (store), 3 (flush) or 16 (policy) with a domain;"
        " 32 (fetch), 33 (load), 34 (store), 35 (flush) or 40 (select) with a core.",
    ),
    5: Refusal(
        "The policy's argument has a way that the cache does not have, a fill map that is not part of its hit map,"
        " or a bit above the two maps.",
        "Name only ways below the number of ways, put every way of the fill map into the hit map too,"
        " and leave the upper 32 bits zero.",
    ),
    6: Refusal(
        "The domain's hit map is empty: it has no ways.",
        "Give it ways by a policy step before its first access or flush.",
    ),
    7: Refusal(
        "One of the domain's seven counts is 4,294,967,295 and cannot rise,"
        " or the lines that a policy change would drop would carry its count of dropped lines past that.",
        REMOVE,
    ),
    8: Refusal(
        "The hit map shares a way with another domain's hit map.",
        "Leave what is shared out, or take it from the other domain by a policy step first.",
    ),
    9: Refusal(
        "A node of the tree would be free for this domain and for another one,"
        " so that each could turn a bit that the other's victim depends on.",
        "Choose fill maps such that no node has a way of each domain in its left half and a way of each in its right"
        " half: aligned groups, such as ways 0,1 and ways 2,3, share no node."
        " NRU and true LRU have no nodes to share.",
    ),
    10: Refusal(
        "The trace file is under 8 bytes or not of its length, or has more than 4,096 steps or more than 256 sets.",
        f"A file of n steps has 8 + 10 x n bytes, and n is at most 4,096; {SETS_LIMIT}.",
    ),
    11: Refusal(
        "The core is not in the list, or the list has more than 32 records.",
        f"Lend at most {cores.LENT} records, and name a core that has one: with the lister, 0 to {LAST_CORE}.",
    ),
}


def of_number(number: int) -> str:
    """Say why something is refused by a number, and the fix."""
    return str(REFUSALS.get(number, f"Number {number} is not one of the documents'."))
