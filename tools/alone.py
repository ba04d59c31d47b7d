"""The replacement rules called alone, for tools/compare --rules: files of calls, and what came of them.

A file of calls has the form of a trace file. Its ways and rule are those of the calls; the code of an entry is a fill
map, its argument a word. target/bin/rules and the reference write a first line `fresh`, and then for each entry the
lines `own`, `victim`, `touch` for each way and for W, `change` and `conflict`; the last two are of the map of the entry
before, 0 for the first, and this one. FAMILIES has the families of files, as families.py has those of traces.
"""

import collections
import re
import struct

from comparing import Subject, print_count
from families import Family, bad_geometry, each_length, extended, noise, truncated, wrong_number
from traces import (MOST_STEPS, RULES, SETS, WAYS, under_free_nodes, block, step_of, steps_in, submap,
                    whole_file)

CALLS = [(ways, rule) for ways in WAYS for rule in RULES]
SPREAD_CALLS = [(ways, 0) for ways in WAYS if ways > 2]  # of two ways, none is outside a map with a free node
PLACE_BITS = 4
LAST_LINES = ["change", "conflict"]


# Words.

def order(rng, ways):
    """Each way once, in 4-bit places."""
    return sum(way << PLACE_BITS * place for place, way in enumerate(rng.sample(range(ways), ways)))


def other_place(rng, ways, first, end):
    """An order with another number in one of the places from `first` to before `end`."""
    return order(rng, ways) ^ rng.randint(1, 15) << PLACE_BITS * rng.randrange(first, end)


def twice(rng, ways):
    """An order with another number in one place: a way twice, or no way at all."""
    return other_place(rng, ways, 0, ways)


def higher(rng, ways):
    """An order with a place of W or more that is not zero; with 16 ways there is none."""
    return other_place(rng, ways, ways, 16) if ways < 16 else order(rng, ways)


def bits(rng, ways):
    """Any word, or one of the low bits that the tree and NRU go by."""
    return rng.getrandbits(rng.choice([64, ways]))


def edge(rng, ways):
    """Zero, all ones, the order of a fresh word and its reverse, or one of them with one bit turned."""
    up = sum(way << PLACE_BITS * way for way in range(ways))
    down = sum(way << PLACE_BITS * (ways - 1 - way) for way in range(ways))
    return rng.choice([0, (1 << 64) - 1, down, up]) ^ rng.choice([0, 0, 1 << rng.randrange(64)])


def any_word(rng, ways):
    return rng.choice([order, twice, higher, bits, edge])(rng, ways)


# Maps.

def next_map(rng, ways, before):
    """A map of W ways: any, a subtree's, the one before, that one with one way more or less, or ways outside it."""
    full = (1 << ways) - 1
    return rng.choice([rng.getrandbits(ways), submap(rng, full), block(rng, ways), full, before & full,
                       before & full ^ 1 << rng.randrange(ways), submap(rng, full & ~before)])


def spread_map(rng, ways, _before):
    """A map with a free node above a way outside it, if the first few choices bring one; seldom an empty map."""
    full = (1 << ways) - 1
    choices = (submap(rng, full) for _ in range(4))
    return next((some for some in choices if under_free_nodes(ways, full, some)), 0)


def reaching_map(rng, ways, before):
    """A map that, half of the time, may hold ways of W and more."""
    return rng.getrandbits(16) if rng.random() < 0.5 else next_map(rng, ways, before)


# Files.

def calls_file(rng, index, n, some_word, some_map, calls=CALLS):
    """A file of n calls; each of these numbers of ways and rules, by default every one, has its turn."""
    ways, rule = calls[index % len(calls)]
    entries, ways_map = [], 0
    for _ in range(n):
        ways_map = some_map(rng, ways, ways_map)
        entries.append((ways_map % 256, ways_map // 256, some_word(rng, ways)))
    return whole_file((rng.choice(SETS), ways, rule), entries)


def of_words(some_word, some_map=next_map, calls=CALLS):
    """The maker of files of calls with such words and maps."""
    def maker(rng, index):
        return calls_file(rng, index, rng.randint(0, 40), some_word, some_map, calls)
    return maker


def long(rng, _index):
    return calls_file(rng, rng.randrange(len(CALLS)), MOST_STEPS, any_word, reaching_map)


def refused(rng, index):
    return rng.choice([bad_geometry, each_length, extended, noise, truncated, wrong_number])(rng, index)


FAMILIES = [
    Family("orders", "words that hold each way once", 6, of_words(order)),
    Family("twice", "orders with one place changed: a way twice, or no way", 4, of_words(twice)),
    Family("higher", "orders with a place of W or more that is not zero", 4, of_words(higher)),
    Family("bits", "any words, and words of W bits", 6, of_words(bits)),
    Family("outside", "Tree-PLRU with free nodes above ways outside the map; empty maps", 6,
           of_words(bits, spread_map, SPREAD_CALLS)),
    Family("edges", "zero, all ones, the lowest and the highest order, and words a bit off them", 4, of_words(edge)),
    Family("any", "words of all these sorts in one file", 4, of_words(any_word)),
    Family("reaching", "words of all sorts, and maps that reach W (5)", 3, of_words(any_word, reaching_map)),
    Family("long", "4,096 entries", 0.2, long),
    Family("pieces", "given in pieces, with pauses, as a slow writer would", 0.5, of_words(any_word), True),
    Family("refused", "files that are mostly refused as a whole", 2, refused),
]


# What was seen.

class Census:
    """How often each call was answered, and how often it was refused, by the reference's output; and how many touches
    were of ways outside the map."""

    WORDS = ["fresh", "own", "victim", "touch", "change", "conflict"]
    LINE = re.compile(rb"^([a-z]+) (?:\d+ )?(refused )?(\d+)$", re.MULTILINE)

    def __init__(self):
        self.lines = collections.Counter()
        self.refused = collections.Counter()
        self.numbers = collections.Counter()
        self.outside = 0

    def take(self, data, output):
        self.outside += touches_outside(data) if output.startswith(b"fresh ") else 0
        for word, refused, number in self.LINE.findall(output):
            self.lines[word.decode()] += 1
            self.refused[word.decode()] += bool(refused)
            if word in (b"conflict", b"refused"):
                self.numbers[word.decode(), int(number)] += 1

    def print(self):
        entries = self.lines["own"]
        print(f"census, by the reference's output: {entries:,} entries in {self.lines['fresh']:,} files of calls")
        for word in self.WORDS:
            details = [f"{self.refused[word]:,} refused 5"] if self.refused[word] else []
            details += [f"{self.outside:,} of ways outside the map"] if word == "touch" else []
            print_count(word, self.lines[word], f"  of them {', '.join(details)}" if details else "")
        for number, about in {0: "none", 5: "a map that reaches W", 9: "a shared node"}.items():
            print_count(f"conflict {number}", self.numbers["conflict", number], f"  {about}")
        for number, about in {1: "geometry", 10: "trace file"}.items():
            print_count(f"refused {number}", self.numbers["refused", number], f"  {about}: the whole file")
        print("  (no file can bring about refused 1 of a call: such a file is refused as a whole)")


def touches_outside(data):
    """How many touches of the entries of a file are of ways outside a map that is not refused."""
    maps = [map_and_word(data, place)[0] for place in range(steps_in(data) or 0)]
    return sum(data[2] - ways_map.bit_count() for ways_map in maps if not ways_map >> data[2])


def describe_call(data, line):
    """The call that a line of the output is about, or what else the line is."""
    n = steps_in(data)
    if n is None:
        return f"line {line} of the output; the file has {len(data)} bytes"
    ways, rule = struct.unpack_from("<BB", data, 2)
    calls = f"{n} entries, {ways} ways, rule {rule}"
    names = ["own", "victim"] + [f"touch {way}" for way in range(ways + 1)] + LAST_LINES
    place, call = divmod(line - 1, len(names))
    if not 0 <= place < n:
        return f"line {line} of the output for {calls}"
    (before, _), (ways_map, word) = map_and_word(data, place - 1), map_and_word(data, place)
    return f"{names[call]} of entry {place} of {calls}: map {ways_map:#x}, word {word:#x}, map before {before:#x}"


def map_and_word(data, place):
    """The map and the word of an entry; zeros before the first."""
    low, high, word = step_of(data, place) if place >= 0 else (0, 0, 0)
    return low + 256 * high, word


CALLED_ALONE = Subject(("rules",), " --rules", Census, describe_call)
