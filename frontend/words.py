"""Steps and answers in plain words."""
from __future__ import annotations

import functools

from frontend import cores, maps
from frontend.listing import Answer, Counts
from frontend.numbers import counted, hexadecimal
from frontend.stepper import Row
from frontend.tracefile import CORE_KINDS, KINDS, LRU, NRU, POLICY, SELECT, Step, Trace

_RULE_TITLES = {0: "Tree-PLRU", NRU: "NRU", LRU: "true LRU"}
_KINDS = {**KINDS, **CORE_KINDS}
_VERBS = {"fetch": "fetches", "load": "loads", "store": "stores", "flush": "flushes"}
_PLACE = 4  # bits of a way's place in an order
_COUNTS = tuple(name.replace("_", " ") for name in Counts._fields)
_ONES = {0: ("right at node", "right at nodes"), NRU: ("one at way", "one at ways")}
_LOCKED = {"hit": "Its line is locked", "flush": "It was locked"}


def geometry(trace: Trace) -> str:
    """Say what cache a trace is run on."""
    rule = f"rule {trace.rule} ({_RULE_TITLES[trace.rule]})" if trace.rule in _RULE_TITLES else f"rule {trace.rule}"
    return f"{counted(trace.sets, 'set')}, {counted(trace.ways, 'way')}, {rule}"


def deed(step: Step) -> str:
    """Say what a step does, to follow the name of its domain or core."""
    if step.kind == POLICY:
        return _policy_deed(step.argument)
    if step.kind == SELECT:
        return _select_deed(step.argument)
    kind, argument = _KINDS.get(step.kind), hexadecimal(step.argument)
    if kind not in _VERBS:
        return f"does kind {step.kind} with argument {argument}"
    return f"{_VERBS[kind]} {argument}" if kind == "flush" else f"{_VERBS[kind]} at {argument}"


def _policy_deed(argument: int) -> str:
    """Say what a policy step wants."""
    if argument == 0:
        return "asks for two empty maps, to be removed"
    if argument >> 2 * maps.WAYS:
        return f"asks for the policy of argument {hexadecimal(argument)}"
    hit, fill = argument & maps.LARGEST, argument >> maps.WAYS
    return f"asks for hit map {maps.both(hit)} and fill map {maps.both(fill)}"


def _select_deed(argument: int) -> str:
    """Say what a select step wants."""
    selectors = cores.split(argument)
    if selectors is None:
        return f"asks for the selectors of argument {hexadecimal(argument)}"
    return f"asks for {cores.write(selectors)}"


def step(taken: Step) -> str:
    """Say which domain or core a step names and what it does."""
    return f"{'core' if taken.by_core else 'domain'} {taken.named} {deed(taken)}"


def located(line_number: int, place: int, tag: int) -> str:
    """Say where an address lies, to follow it."""
    return f"line {line_number}, set {place}, tag {tag}"


def route(taken: Step, domain: int) -> str:
    """Say through which selector a core's access or flush goes, and which domain that names."""
    selector = cores.SELECTORS[cores.place(taken)]
    return f"Core {taken.named} {_VERBS[CORE_KINDS[taken.kind]]} through {selector}, which names domain {domain}."


def selected(before: tuple[int, ...], after: tuple[int, ...]) -> str:
    """Say which selectors of a core were changed by an accepted write, from what to what."""
    pairs = zip(cores.SELECTORS, before, after)
    changed = [f"{name} from {old} to {new}" for name, old, new in pairs if old != new]
    return f"Accepted; changed {', '.join(changed)}." if changed else "Accepted; no selector changed."


def line(row: Row, way: int) -> str:
    """Say what stands in a way: its tag, and whether it is valid and dirty."""
    return _line(row.valid >> way & 1, row.dirty >> way & 1, row.tags[way])


def lines(row: Row) -> list[str]:
    """Say what stands in each way of a set."""
    valid, dirty = row.valid, row.dirty
    return [_line(valid >> way & 1, dirty >> way & 1, tag) for way, tag in enumerate(row.tags)]


@functools.lru_cache(maxsize=1024)
def _line(valid: int, dirty: int, tag: int) -> str:
    """Say what a way holds by its two bits and its tag."""
    if not valid and not dirty and tag == 0:
        return "empty"
    return f"tag {tag}" + (", dirty" if dirty else "") + ("" if valid else ", invalid")


def order(word: int, ways: list[int]) -> str | None:
    """Say the order of some ways, given ascending, that a word holds in its places, the most recent in the lowest.

    Without ways it is `none`. It is None if the word does not hold each of them once and nothing else: how the cache reads such a
    word is not for the front end to say."""
    held = [word >> _PLACE * place & (1 << _PLACE) - 1 for place in reversed(range(len(ways)))]
    if sorted(held) != ways or word >> _PLACE * len(ways):
        return None
    return " ".join(("oldest first", *map(str, held))) if held else maps.NONE


def replacement_word(trace: Trace, word: int) -> str:
    """Write a replacement word, and what it holds by the rule of its trace: an order of the ways, or where its bits are one."""
    if trace.rule == LRU:
        text, held = hexadecimal(word, trace.ways), order(word, list(range(trace.ways)))
    else:
        text, held = hexadecimal(word), _ones(trace.rule, word)
    return f"{text} ({held})" if held else text


def _ones(rule: int, word: int) -> str | None:
    """Say where the bits of a replacement word are one, if any is."""
    if not word or rule not in _ONES:
        return None
    one, more = _ONES[rule]
    return f"{one if len(maps.members(word)) == 1 else more} {maps.places(word)}"


def counts(values: Counts) -> str:
    """Say a domain's counts by name."""
    return ", ".join(f"{name} {value:,}" for name, value in zip(_COUNTS, values))


def balance(values: Counts, held: int) -> str:
    """Write a domain's lines in and lines out as a line of arithmetic; `held` are those now valid in its hit map."""
    out = ("evicted", values.evicted), ("flushed", values.flushed), ("dropped", values.dropped), ("held", held)
    return f"fills {values.fills:,} = " + " + ".join(f"{name} {lines:,}" for name, lines in out)


def answer(given: Answer, locked: int = 0) -> str:
    """Say in a sentence what an answer of the cache means, and in one more that a line hit or flushed is locked.

    `locked` is the map of the ways that are in the domain's hit map and not in its fill map."""
    sentence = _SENTENCES.get(given.word)
    said = sentence(*given.fields) if sentence else "This answer is not one of document 01's."
    if given.word in _LOCKED and given.fields[0] in maps.members(locked):
        said += f" {_LOCKED[given.word]}: the way is not in the domain's fill map."
    return said


def nru_victim(word: int, fill: int) -> str:
    """Say how NRU found a victim, by the set's word and the domain's fill map before the step."""
    if word & fill:
        return "It is the highest way of the fill map whose bit was one."
    return "No bit of the fill map was one: all became one, and its highest way is the victim, whose bit then became zero."


def changed(given: Answer, taken: Step) -> str:
    """Say what an accepted policy change dropped, and what becomes of its domain's counts."""
    said, dropped = answer(given), given.fields[0]
    if taken.kind == POLICY and taken.argument == 0:
        return f"{said} The domain is removed, and its counts are zero."
    if not dropped:
        return said
    return f"{said} {'It counts' if dropped == 1 else 'They count'} as dropped for domain {taken.named}."


def _evict(way: int, tag: int, dirty: int) -> str:
    """Say what an evicting miss did."""
    line = "dirty, so it is written back" if dirty else "not dirty"
    return f"A miss: the line with tag {tag} was evicted from way {way} ({line}), and the way was filled."


def _flush(way: int, dirty: int) -> str:
    """Say what a flush did."""
    line = "dirty, so it is written back" if dirty else "not dirty"
    return f"The line in way {way} was made invalid; it was {line}."


def _policy(dropped: int, dirty: int) -> str:
    """Say what an accepted policy change dropped."""
    if not dropped:
        return "Accepted; no valid line was dropped."
    return f"Accepted; dropped {counted(dropped, 'valid line')}, {dirty:,} dirty."


_SENTENCES = {
    "hit": lambda way: f"A hit in way {way}.",
    "fill": lambda way: f"A miss: way {way}, the highest of the domain's fill map that held no valid line, was filled.",
    "evict": _evict,
    "pass": lambda: "A miss that passed: the domain's fill map is empty, so nothing was filled.",
    "flush": _flush,
    "absent": lambda: "No way of the domain's hit map holds the line; nothing moved.",
    "policy": _policy,
}
