"""The readable form of a trace: a text with a header and one step a line."""
from __future__ import annotations

from frontend import cores, maps
from frontend.numbers import hexadecimal
from frontend.tracefile import CORE_KINDS, KINDS, POLICY, RULES, SELECT, Step, Trace, decode

NAME_END = ".txt"  # of a trace text
CORE = "core"  # what stands before the number of a core; a number alone is a domain


def show(trace: Trace) -> str:
    """Write a trace as its canonical text, which assembles to the same trace."""
    header = (f"sets {trace.sets}", f"ways {trace.ways}", f"rule {RULES.get(trace.rule, trace.rule)}", "")
    lines = (*header, *map(_show_line, trace.steps))
    return "\n".join(lines).rstrip("\n") + "\n"


def _show_line(step: Step) -> str:
    """Write one step as a line of a text, behind a policy's maps the same in hexadecimal."""
    line = show_step(step)
    if step.kind != POLICY or step.argument >> 2 * maps.WAYS:
        return line
    return f"{line}  # {step.argument & maps.LARGEST:#x} {step.argument >> maps.WAYS:#x}"


def contents(name: str, data: bytes, note: str = "") -> bytes:
    """Give what is written under a name for a trace file: a text if the name ends so, with a note as its first line, else the file."""
    if not name.lower().endswith(NAME_END):
        return data
    return (f"# {note}\n" if note else "").encode() + show(decode(data)).encode("ascii")


def show_step(step: Step) -> str:
    """Write one step as a line of a text."""
    return f"{CORE} {step.named} {_show_core(step)}" if step.by_core else f"{step.named} {_show_plain(step)}"


def _show_plain(step: Step) -> str:
    """Write the kind and the argument of a step that names a domain."""
    if step.kind == POLICY:
        return f"policy {_show_policy(step.argument)}"
    kind = KINDS.get(step.kind, f"kind={step.kind}")
    return f"{kind} {hexadecimal(step.argument)}"


def _show_core(step: Step) -> str:
    """Write the kind and the argument of a step that names a core."""
    if step.kind == SELECT:
        return f"select {_show_select(step.argument)}"
    return f"{CORE_KINDS[step.kind]} {hexadecimal(step.argument)}"


def _show_policy(argument: int) -> str:
    """Write a policy's argument as its two maps, or as a number if it has a bit above them."""
    if argument >> 2 * maps.WAYS:
        return _show_whole(argument)
    hit, fill = argument & maps.LARGEST, argument >> maps.WAYS
    return f"hit={maps.write(hit)} fill={maps.write(fill)}"


def _show_select(argument: int) -> str:
    """Write a select step's argument as its three selectors, or as a number if another byte of it is not zero."""
    selectors = cores.split(argument)
    if selectors is None:
        return _show_whole(argument)
    return " ".join(f"{name.lower()}={selector}" for name, selector in zip(cores.SELECTORS, selectors))


def _show_whole(argument: int) -> str:
    """Write an argument as a number, where its parts do not say all of it."""
    return f"arg={hexadecimal(argument)}"
