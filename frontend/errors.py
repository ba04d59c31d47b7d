"""The exit statuses, and what goes wrong for a reason that can be told in a sentence."""
from __future__ import annotations

DONE = 0
DIFFERENCE = 1
BAD_INPUT = 2
MACHINE_FAILED = 3
FAULT = 4
INTERRUPTED = 130  # as a shell reports a program that ended by Ctrl-C
READER_GONE = 141  # as a shell reports a program that ended by SIGPIPE

MEANINGS = {
    DONE: "done",
    DIFFERENCE: "isolate or check found a difference; nothing else gives this status",
    BAD_INPUT: "bad input: the command line, a trace text, a log, an address trace, or a file that is refused as a whole",
    MACHINE_FAILED: "something could not be read, written, run or built, or a program's output is not whole",
    FAULT: "a fault in the front end itself; DIPPERLOCK_DEBUG=1 shows more",
    INTERRUPTED: "interrupted by Ctrl-C",
    READER_GONE: "whoever read standard output went away",
}


class Failure(Exception):
    """Something to be told in a sentence, without a traceback, and the exit status that goes with it."""

    status = FAULT

    def report(self) -> str:
        """Give the text for standard error."""
        return f"dipperlock: {self}"


class BadInput(Failure):
    """What the person gave is wrong, and the person can put it right."""

    status = BAD_INPUT


class MachineFailure(Failure):
    """What was given may be right, but the machine or one of the programs did not do its part."""

    status = MACHINE_FAILED


class ReaderGone(Failure):
    """Nobody reads standard output any more, which is no news to whoever ended the reader."""

    status = READER_GONE

    def report(self) -> str:
        """Give nothing."""
        return ""


def reason(error: OSError) -> str:
    """Say in the system's words why it did not do something."""
    return error.strerror or str(error)
