"""The timing of tools/compare --time: how long two programs take for the same traces of 4,096 steps."""

import os
import pathlib
import random
import statistics
import tempfile
import time
from dataclasses import dataclass

from comparing import Census, agreed, run, short_path
from traces import MOST_STEPS, Mix, grow, halved

MIXED = Mix(used_sets=40)
HITS = Mix(crowd=(0.5, 0.5), flush=1, policy=0, used_sets=40)
EVICTIONS = Mix(crowd=(4, 4), flush=1, policy=0, used_sets=40)
POLICIES = Mix(access=20, policy=70, used_sets=256)
TRACES = [
    ("mixed", "64 sets, 8 ways, Tree-PLRU, some of everything", (64, 8, 0), MIXED),
    ("hits", "64 sets, 8 ways, Tree-PLRU, mostly hits", (64, 8, 0), HITS),
    ("hits", "64 sets, 8 ways, LRU, mostly hits", (64, 8, 2), HITS),
    ("evictions", "64 sets, 8 ways, NRU, mostly evictions", (64, 8, 1), EVICTIONS),
    ("evictions", "64 sets, 8 ways, LRU, mostly evictions", (64, 8, 2), EVICTIONS),
    ("policies", "256 sets, 16 ways, Tree-PLRU, mostly policy changes", (256, 16, 0), POLICIES),
    ("policies", "256 sets, 16 ways, LRU, mostly policy changes", (256, 16, 2), POLICIES),
]


def trace(seed, name, geometry, mix):
    """A trace of 4,096 steps that begins with two domains, each with half of the ways."""
    made = halved(random.Random(f"{seed} {name}"), geometry)
    made.cast = [0, 1, 2, 3]
    return grow(made, mix, MOST_STEPS).file()


def time_once(program, path):
    """Microseconds from starting a program on a file until it has ended. Its output goes nowhere."""
    actions = [(os.POSIX_SPAWN_OPEN, 0, path, os.O_RDONLY, 0), (os.POSIX_SPAWN_OPEN, 1, os.devnull, os.O_WRONLY, 0)]
    started = time.perf_counter_ns()
    process = os.posix_spawn(program, [program], os.environ, file_actions=actions)
    os.waitpid(process, 0)
    return (time.perf_counter_ns() - started) / 1000


def take_turns(jobs, runs):
    """The times of jobs (program, file), which are run in turn, forwards and backwards, so that whatever else the
    machine does meets all of them alike. One run of each before does not count."""
    for job in jobs:
        time_once(*job)
    times = [[] for _ in jobs]
    for number in range(runs):
        order = range(len(jobs))
        for place in order if number % 2 == 0 else reversed(order):
            times[place].append(time_once(*jobs[place]))
    return [Times.of(of_job) for of_job in times]


@dataclass(frozen=True)
class Times:
    """Of all runs of a program on a file. The spread, which is the noise, is that of the middle four fifths."""

    median: float
    minimum: float
    spread: float

    @staticmethod
    def of(times):
        tenths = statistics.quantiles(times, n=10)
        return Times(statistics.median(times), min(times), tenths[8] - tenths[0])

    def line(self, name):
        return f"  {name:<10} {self.median:>8.0f} {self.minimum:>8.0f} {self.spread:>8.0f}"


def answers(data, listing):
    """What the listing of a file mostly consists of, in a few words."""
    census = Census()
    census.take(data, listing)
    census.answers["refused"] = census.refused_steps.total()
    return ", ".join(f"{number} {word}" for word, number in census.answers.most_common() if number)


def print_times(proved, reference):
    print(proved.line("proved"))
    print(reference.line("reference"))
    print(f"  {'ratio':<10} {proved.median / reference.median:>8.2f} {proved.minimum / reference.minimum:>8.2f}")


def print_above_start(proved, reference, start_proved, start_reference):
    """What the steps cost, without the start of a program: medians, less those on the empty file in the same turns."""
    own_proved, own_reference = proved.median - start_proved.median, reference.median - start_reference.median
    print(f"  above start-up: proved {own_proved:.0f}, reference {own_reference:.0f}", end="")
    print(f", ratio {own_proved / own_reference:.2f}" if min(own_proved, own_reference) > 0 else "", flush=True)


def report(proved, reference, options):
    """Times both programs on every trace and prints the times; the exit status. Where they do not agree on a trace,
    there is nothing to time."""
    print(f"proved     {short_path(proved)}\nreference  {short_path(reference)}")
    print(f"microseconds of {options.runs} runs of each program on each file, seed {options.seed}; both take turns.")
    print("spread: from the lowest tenth of the runs to the highest; ratio: proved / reference.\n")
    print(f"  {'':<10} {'median':>8} {'minimum':>8} {'spread':>8}")
    with tempfile.TemporaryDirectory(prefix="compare-time-") as directory:
        empty, path = pathlib.Path(directory) / "empty", pathlib.Path(directory) / "trace"
        empty.write_bytes(b"")
        print("\nstart-up: an empty file", flush=True)
        print_times(*take_turns([(proved, empty), (reference, empty)], options.runs))
        for name, about, geometry, mix in TRACES:
            data = trace(options.seed, name, geometry, mix)
            path.write_bytes(data)
            outcome = run(reference, data, options.timeout)
            print(f"\n{name}: {about}\n  ({answers(data, outcome.listing)})", flush=True)
            if not agreed(run(proved, data, options.timeout), outcome):
                print("  the programs do not agree on this trace; compare them first")
                return 1
            times = take_turns([(proved, path), (reference, path), (proved, empty), (reference, empty)], options.runs)
            print_times(*times[:2])
            print_above_start(*times)
    return 0
