"""What several tests use: calling the front end, random traces, and streams made by hand."""
from __future__ import annotations

import contextlib
import io
import os
import random
import struct
import subprocess
import sys
import unittest
from collections.abc import Callable
from unittest import mock

from frontend import cli, listing, programs, run, stepper, tracefile
from frontend.build import by_hand
from frontend.errors import MachineFailure
from frontend.listing import Counts
from frontend.stepper import Row
from frontend.tracefile import Step, Trace

SH = "/bin/sh"
NONE_COUNTED = Counts(*[0] * 7)
DOMAIN_AT = 614  # where the domain of a step stands in a block
MAIN = str(programs.ROOT / "frontend" / "__main__.py")


def knows_cores() -> bool:
    """Tell whether the lister in target/bin knows a write of selectors."""
    data = tracefile.encode(Trace(1, 2, 0, (Step(0, tracefile.SELECT, 0),)))
    try:
        return programs.lister(data) == b"1 2 0 1\n0 select 0 0 0\n"
    except MachineFailure:
        return False


needs_programs = unittest.skipIf(
    any(programs.amiss(name) for name in programs.NAMES) or not knows_cores(),
    "the programs are not in target/bin, not up to date, or of a time before the cores;"
    f" '{by_hand(*programs.NAMES)}' builds them",
)
needs_no_rights = unittest.skipIf(hasattr(os, "geteuid") and os.geteuid() == 0, "root may read and write every file")
needs_full = unittest.skipUnless(os.path.exists("/dev/full"), "there is no /dev/full")


def call(*arguments: str, stdin: bytes = b"") -> tuple[int, bytes, str]:
    """Run a command line in this process, never a build; give its status, output and error text."""
    out, err = io.TextIOWrapper(io.BytesIO()), io.StringIO()
    source = io.TextIOWrapper(io.BytesIO(stdin))
    forbidden = mock.Mock(side_effect=AssertionError("a test must not start a build"))
    with mock.patch.multiple(sys, stdin=source, stdout=out, stderr=err):
        with mock.patch.object(programs, "build", forbidden):
            status = cli.main(list(arguments))
        out.flush()
    return status, out.buffer.getvalue(), err.getvalue()


def start(*arguments: str, shell: str = "", flags: tuple[str, ...] = ("-I", "-S"), **options) -> subprocess.Popen:
    """Start the front end in a process of its own, as ./dipperlock does; no `rt` is on its PATH, so it cannot build.

    What a shell does to its streams, such as `>&-`, may be given as `shell`."""
    command = (sys.executable, *flags, MAIN, *arguments)
    if shell:
        command = (SH, "-c", f'exec "$@" {shell}', SH, *command)
    streams = {"stdin": subprocess.DEVNULL, "stdout": subprocess.PIPE, "stderr": subprocess.PIPE}
    return subprocess.Popen(command, env={**os.environ, "PATH": ""}, **{**streams, **options})


def ended(*arguments: str, data: bytes = b"", **options) -> tuple[int, bytes, str]:
    """Run the front end in a process of its own to its end; give its status, output and error text."""
    with start(*arguments, **{"stdin": subprocess.PIPE, **options}) as job:
        out, err = job.communicate(data if job.stdin else None)
    return job.returncode, out or b"", (err or b"").decode()


def by_rote(**said: Callable[..., bytes]) -> contextlib.AbstractContextManager:
    """Let programs answer as they are told, and be there without being built. The stepper's answer is given as a stream."""
    if "stepper" in said:
        answer = said["stepper"]
        said["stepper"] = lambda data: contextlib.nullcontext(io.BytesIO(answer(data)))
    return mock.patch.multiple(programs, need=lambda *names: None, **said)


def streamed(data: bytes) -> bytes:
    """Give the whole stream that the stepper writes for a trace file."""
    with programs.stepper(data) as stream:
        return stream.read()


def parsed(stream: bytes, trace: Trace) -> stepper.Stream:
    """Take a whole stream apart."""
    return stepper.parse(io.BytesIO(stream), trace)


def taken(trace: Trace, listed: bytes, stream: bytes) -> run.Run:
    """Make a run of what programs might have said."""
    return run.fold(trace, listing.parse(listed), io.BytesIO(stream))


def random_bytes(source: random.Random, count: int) -> bytes:
    """Make bytes; the method of that name is younger than the oldest Python that the front end needs."""
    return bytes(source.getrandbits(8) for _ in range(count))


def random_file(source: random.Random, count: int) -> bytes:
    """Make a trace file of any bytes, but of at most 256 sets."""
    header = struct.pack("<HBBI", source.randint(0, 256), *random_bytes(source, 2), count)
    return header + random_bytes(source, 10 * count)


def random_trace(source: random.Random, count: int) -> Trace:
    """Make a trace with any numbers that a trace file can hold, common ones often."""
    def pick(bits: int, common: tuple[int, ...]) -> int:
        return source.choice(common) if source.random() < 0.7 else source.getrandbits(source.randint(1, bits))

    kinds = (0, 1, 2, 3, 16, 32, 33, 34, 35, 40)
    arguments = (0, 64, 0x30003, 0x0F0100, 0x100000, 1 << 24, 1 << 32, (1 << 64) - 1)
    steps = tuple(Step(pick(8, (0, 1, 15, 16, 31, 32)), pick(8, kinds), pick(64, arguments)) for _ in range(count))
    return Trace(pick(8, (1, 64, 256)), pick(8, (2, 4, 8, 16)), pick(8, (0, 1, 2)), steps)


def block(
    maps: dict[int, tuple[int, int]],
    place: int = 0,
    rows: dict[int, Row] | None = None,
    visited: int = 0,
    domain: int = 65535,
    records: dict[int, tuple[int, int, int]] | None = None,
    counts: dict[int, tuple[int, ...]] | None = None,
) -> bytes:
    """Write one block of a stepper stream; without a domain, that of a step which was taken for none."""
    data = b"".join(
        struct.pack("<HH7I", *maps.get(number, (0, 0)), *(counts or {}).get(number, (0,) * 7)) for number in range(16)
    )
    data += bytes(selector for core in range(32) for selector in (records or {}).get(core, (0, 0, 0)))
    data += struct.pack("<HHHH", place, len(rows or {}), visited, domain)
    for number, row in (rows or {}).items():
        data += struct.pack(f"<HHHQ{len(row.tags)}Q", number, row.valid, row.dirty, row.word, *row.tags)
    return data


def with_counts(listed: bytes, *parts: bytes) -> bytes:
    """Join the parts of a stream, blocks made without counts and the lines held: each block with the counts that answers amount to."""
    fresh, *blocks, end = parts
    counts, done = {}, [fresh]
    for answer, data in zip(listing.parse(listed).answers, blocks):
        (domain,) = struct.unpack_from("<H", data, DOMAIN_AT)
        removed = domain < 16 and not any(data[32 * domain : 32 * domain + 4])
        counts[domain] = _tallied(counts.get(domain, NONE_COUNTED), answer, removed)
        each = (data[32 * number : 32 * number + 4] + struct.pack("<7I", *counts.get(number, NONE_COUNTED)) for number in range(16))
        done.append(b"".join(each) + data[512:])
    assert len(done) == len(blocks) + 1
    return b"".join((*done, end))


def _tallied(counts: Counts, answer: listing.Answer, removed: bool) -> Counts:
    """Count an answer to a step of a domain, which has no ways after it if it is removed."""
    if answer.word == "policy":
        return NONE_COUNTED if removed else counts._replace(dropped=counts.dropped + answer.fields[0])
    rises = {"hit": ("hits",), "fill": ("misses", "fills"), "evict": ("misses", "evicted", "fills"), "pass": ("misses",)}
    named = {**rises, "flush": ("flushed",)}.get(answer.word, ())
    dirty = answer.word in ("evict", "flush") and answer.fields[-1] == 1
    return counts._replace(**{name: getattr(counts, name) + 1 for name in (*named, *["written_back"] * dirty)})


def held(lines: dict[int, int]) -> bytes:
    """Write what stands after the last block of a stepper stream: how many valid lines each domain holds."""
    return struct.pack("<16I", *(lines.get(domain, 0) for domain in range(16)))
