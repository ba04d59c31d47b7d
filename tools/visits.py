"""Ways visited and counts, for tools/compare --visits: the stepper's numbers, read out of its stream, and a census.

The reference writes, with the word `visits`, a line of numbers for each step of a trace: how many ways its lookup
visited, 0 where it made none; the domain that the cache took the step for, through a core the one that its selector
names, or 65535 where the step is none of the cache, a selector write or a step of a core not in the list; and, where
that domain is below 16, its seven counts after the step, in the order of the domain line of a listing. The last line is
`held` and how many lines each of the sixteen domains holds at the end. target/bin/stepper writes a block before the
first step and one after each step, and then the lines held; its source says what is in a block. Only these numbers are
read here, and what is needed to find the next block. Of a refused file the reference writes the line `refused`, and the
stepper nothing at all.
"""

import collections
import re
import struct

from comparing import Subject, about_steps, print_count
from traces import HEADER, WAYS

# A block begins with the records of the domains, the core records (96 bytes) and the set of the step's argument (2), of
# which only the counts of one domain are read here, the number of rows, the number of ways visited and that domain.
# Then come the rows.
DOMAINS = 16
COUNTS = ["hits", "misses", "evicted", "written back", "flushed", "fills", "dropped"]
RECORD = struct.Struct(f"<4x{len(COUNTS)}I")  # of a domain: its two maps, which are not read, and its counts
FRONT = struct.Struct(f"<{DOMAINS * RECORD.size}x96x2xHHH")
ROW, TAG = 14, 8  # bytes: a row without its tags, and a tag
HELD = struct.Struct(f"<{DOMAINS}I")  # after the last block: how many lines each domain holds
NO_DOMAIN = 65535
STEP = re.compile(rb"^(\d+) (\d+)((?: \d+){7})?$", re.MULTILINE)
LINES = re.compile(rb"^held((?: \d+){16})$", re.MULTILINE)


def numbers(blocks, ways):
    """The number of ways visited, the domain and, where it is one of the sixteen, its counts, of each block; None of a
    last block that is not whole."""
    place = 0
    while place < len(blocks):
        if len(blocks) - place < FRONT.size:
            yield None
            return
        rows, visited, domain = FRONT.unpack_from(blocks, place)
        counts = RECORD.unpack_from(blocks, place + domain * RECORD.size) if domain < DOMAINS else ()
        place += FRONT.size + rows * (ROW + TAG * ways)
        yield (visited, domain, *counts) if place <= len(blocks) else None


def text_of(data, stream):
    """The stream of a file as the text that the reference would write. What no right stream has becomes a line of
    words, which differs from all numbers: a stream too short for a block and the lines held, a block that is not whole,
    and ways visited, or a domain, before the first step."""
    if not stream:
        return b"refused\n"
    end = len(stream) - HELD.size
    if end < FRONT.size:
        return b"a stream without a block\n"
    before, *after = numbers(stream[:end], data[2] if len(data) >= HEADER else 0)
    first = [] if before == (0, NO_DOMAIN) else [f"before the first step: {in_words(before)}"]
    held = " ".join(map(str, HELD.unpack_from(stream, end)))
    return "".join(f"{line}\n" for line in [*first, *map(in_words, after), f"held {held}"]).encode()


def in_words(found):
    """The line of a block's numbers."""
    return "a block that is not whole" if found is None else " ".join(map(str, found))


# What was seen.

class Census:
    """How often each number of ways was visited, how often each count was above zero after a step, and how many lines
    are held, by the reference's output."""

    def __init__(self):
        self.visited = collections.Counter()
        self.of_no_domain = 0
        self.with_counts = 0
        self.above_zero = collections.Counter()
        self.holding = 0
        self.held = 0
        self.traces = 0
        self.refused_files = 0

    def take(self, _data, output):
        if output == b"refused\n":
            self.refused_files += 1
            return
        self.traces += 1
        for visited, domain, counts in STEP.findall(output):
            self.visited[int(visited)] += 1
            self.of_no_domain += int(domain) == NO_DOMAIN
            self.with_counts += counts != b""
            self.above_zero.update(name for name, count in zip(COUNTS, counts.split()) if count != b"0")
        held = [int(number) for numbers in LINES.findall(output) for number in numbers.split()]
        self.holding += sum(number > 0 for number in held)
        self.held += sum(held)

    def print(self):
        steps = sum(self.visited.values())
        print(f"census, by the reference's output: {steps:,} steps in {self.traces:,} traces")
        print_count("no way", self.visited[0], "  no lookup: a policy change, a selector write, or a refused step")
        for number in range(1, max(WAYS) + 1):
            print_count(f"{number} way{'s' if number > 1 else ''}", self.visited[number])
        print_count("no domain", self.of_no_domain, "  a selector write, or a step of a core not in the list")
        above_zero = ", ".join(f"{name} {self.above_zero[name]:,}" for name in COUNTS)
        print_count("counts", self.with_counts, f"  steps with their domain's; how often above zero: {above_zero}")
        print_count("held", self.held, f"  lines at the ends of the traces, by {self.holding:,} domains")
        print_count("refused", self.refused_files, "  the whole file")
        print("  (no file can bring about a stored hit map with ways of W or more)")


VISITS = Subject(("visits",), " --visits", Census, about_steps("numbers", 0), text_of)
