"""What `--json` writes: an object a line, with the keys that docs/output.schema.json names, in its order.

Addresses, arguments, tags, words and maps are texts in hexadecimal, such as "0x40": many readers of JSON hold numbers in 53 bits.
A key that does not apply is null; none is left out."""
from __future__ import annotations

import json
from collections.abc import Iterable, Iterator

from frontend import cores, maps
from frontend.listing import FIELDS, Answer, Counts, Listing
from frontend.stepper import Block, Row
from frontend.tracefile import CORE_KINDS, KINDS, RULES, Step, Trace

Record = dict  # an object of JSON, its keys in order
_TRUTHS = {"evict": ("dirty",), "flush": ("dirty",)}  # of the answers with these words, the fields that are yes or no
_WIDE = ("tag",)  # fields of answers that may pass 53 bits


def lines(records: Iterable[Record]) -> Iterator[str]:
    """Write objects, one a line."""
    return (json.dumps(record) for record in records)


def hexed(number: int) -> str:
    """Write a number in hexadecimal."""
    return f"{number:#x}"


def head(name: str, trace: Trace) -> Record:
    """Say what cache a trace is run on."""
    return {
        "type": "trace",
        "name": name,
        "sets": trace.sets,
        "ways": trace.ways,
        "rule": RULES.get(trace.rule, str(trace.rule)),
        "steps": len(trace.steps),
    }


def step(taken: Step) -> Record:
    """Say what a step is: who makes it, its kind and its argument."""
    return {
        "by": "core" if taken.by_core else "domain",
        "number": taken.named,
        "kind": (CORE_KINDS if taken.by_core else KINDS).get(taken.kind, "unknown"),
        "kind_number": taken.kind,
        "argument": hexed(taken.argument),
    }


def answer(given: Answer) -> Record:
    """Give an answer with its fields by name; fields of a word that is not known are in a list."""
    if given.word not in FIELDS:
        return {"word": given.word, "fields": list(given.fields)}
    pairs = zip(FIELDS[given.word], given.fields)
    return {"word": given.word, **{name: _field(given.word, name, value) for name, value in pairs}}


def _field(word: str, name: str, value: int) -> bool | int | str:
    """Give a field of an answer."""
    if name in _TRUTHS.get(word, ()):
        return bool(value)
    return hexed(value) if name in _WIDE else value


def counts(values: Counts) -> Record:
    """Give a domain's counts by name."""
    return dict(zip(values._fields, values))


def policy(hit: int, fill: int) -> Record:
    """Give two maps."""
    return {"hit": map_of(hit), "fill": map_of(fill)}


def map_of(word: int) -> Record:
    """Give a map in hexadecimal and as the list of its ways."""
    return {"map": hexed(word), "ways": maps.members(word)}


def row(of_set: Row) -> Record:
    """Give a row."""
    return {
        "valid": hexed(of_set.valid),
        "dirty": hexed(of_set.dirty),
        "word": hexed(of_set.word),
        "tags": [hexed(tag) for tag in of_set.tags],
    }


def selectors(record: tuple[int, ...]) -> Record:
    """Give a core's selectors."""
    return {name.lower(): value for name, value in zip(cores.SELECTORS, record)}


def domain(number: int, block: Block, held: tuple[int, ...]) -> Record:
    """Give the policy, the counts and the lines held of a domain."""
    maps_of = policy(block.hit[number], block.fill[number])
    return {"type": "domain", "domain": number, **maps_of, "counts": counts(block.counts[number]), "held": held[number]}


def listed(name: str, trace: Trace, given: Listing) -> Iterator[Record]:
    """Give a whole listing, line by line."""
    yield head(name, trace)
    for place, told in enumerate(given.answers):
        yield {"type": "answer", "place": place, "answer": answer(told)}
    for number, values in given.counts.items():
        yield {"type": "counts", "domain": number, "counts": counts(values)}


def refused_file(name: str, number: int, why: str) -> Record:
    """Say that a whole file is refused."""
    return {"type": "refused", "name": name, "number": number, "why": why}
