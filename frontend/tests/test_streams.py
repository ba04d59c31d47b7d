"""Streams that are closed, full, cut or without end, and the exit status of each."""
from __future__ import annotations

import io
import os
import resource
import subprocess
import unittest
from pathlib import Path
from unittest import mock

from frontend import cli, commands, files, programs, source, streams, tracefile
from frontend.errors import FAULT, MEANINGS, MachineFailure
from frontend.tests import case_a
from frontend.tests.helpers import by_rote, call, ended, needs_full, needs_programs, start
from frontend.tests.test_cli import CASE_A, InFolder
from frontend.tracefile import Step, Trace

BIG = Trace(1, 2, 0, (Step(0, 0, 0),) * 4096)
LIMIT = 8192


def small_files(limit: int = LIMIT) -> None:
    """Let this process write no file beyond a size; Python ignores the signal, so that a write is cut there."""
    resource.setrlimit(resource.RLIMIT_FSIZE, (limit, limit))


class Trickle(io.RawIOBase):
    """A stream that takes and gives a few bytes at a time."""

    def __init__(self, data: bytes = b"") -> None:
        self.data, self.taken = data, b""

    def writable(self) -> bool:
        return True

    def write(self, data: bytes) -> int:
        self.taken += bytes(data[:7])
        return min(7, len(data))

    def read(self, size: int = -1) -> bytes:
        piece, self.data = self.data[: min(size, 5)], self.data[min(size, 5) :]
        return piece


class Whole(InFolder):
    """All is written, or the failure is told."""

    def setUp(self) -> None:
        super().setUp()
        self.big = self.file("big.trace", tracefile.encode(BIG))

    def test_little_by_little(self):
        stream = Trickle(b"x" * 100)
        streams.write_all(stream, case_a.FILE)
        self.assertEqual(stream.taken, case_a.FILE)
        self.assertEqual(streams.read_up_to(stream, 23), b"x" * 23)
        self.assertEqual(streams.read_up_to(stream, 1000), b"x" * 77)

    def test_a_write_that_is_cut(self):
        for flags in (("-I", "-S"), ("-I", "-S", "-u")):
            target = self.folder / "out"
            with open(target, "wb") as out:
                status, _, err = ended("show", self.big, flags=flags, stdout=out, preexec_fn=small_files)
            size = len(call("show", self.big)[1])
            said = f"dipperlock: cannot write standard output: File too large; 8,192 of {size:,} bytes were written\n"
            self.assertEqual((status, err, target.stat().st_size), (3, said, LIMIT))

    @needs_programs
    def test_a_story_that_is_cut(self):
        for limit in (8192, 200_000):  # within the first piece, and behind it
            with open(self.folder / "out", "wb") as out:
                status, _, err = ended("explain", self.big, stdout=out, preexec_fn=lambda: small_files(limit))
            said = f"dipperlock: cannot write standard output: File too large; {limit:,} bytes were written\n"
            self.assertEqual((status, err, (self.folder / "out").stat().st_size), (3, said, limit))

    def test_lines_are_written_as_they_come(self):
        lines = [f"{number:05}" for number in range(100_000)]
        with mock.patch.object(streams, "write_out") as written:
            streams.write_out_lines(iter(lines))
        pieces = [call_made[0][0] for call_made in written.call_args_list]
        self.assertEqual(b"".join(pieces).decode().splitlines(), lines)
        self.assertLess(max(map(len, pieces)), 100_000)
        sizes = [sum(map(len, pieces[:number])) for number in range(len(pieces))]
        self.assertEqual([call_made[0][1] for call_made in written.call_args_list], sizes)
        with mock.patch.object(streams, "write_out") as written:
            streams.write_out_lines([])
        written.assert_not_called()

    def test_unbuffered_python_writes_all(self):
        expected = call("show", self.big)[1]
        self.assertGreater(len(expected), 1 << 15)
        for flags in (("-I", "-S"), ("-I", "-S", "-u")):
            self.assertEqual(ended("show", self.big, flags=flags), (0, expected, ""))

    def test_a_pipe_that_does_not_wait(self):
        read, write = os.pipe()
        os.set_blocking(write, False)
        with os.fdopen(write, "wb") as out:
            job = start("show", self.big, stdout=out)
        with os.fdopen(read, "rb") as pipe:
            self.assertEqual(pipe.read(), call("show", self.big)[1])
        self.assertEqual((job.wait(), job.communicate()[1]), (0, b""))


@unittest.skipUnless(hasattr(os, "openpty"), "there are no terminals to be had")
class Terminal(unittest.TestCase):
    """Standard input from a keyboard."""

    def typed(self, *arguments: str) -> tuple[int, str]:
        """Type a line and Ctrl-D once."""
        keyboard, terminal = os.openpty()
        with start(*arguments, stdin=terminal) as job:
            os.close(terminal)
            os.write(keyboard, b"0 lod 0\n\x04")
            _, err = job.communicate(timeout=60)
        os.close(keyboard)
        return job.returncode, err.decode()

    def test_one_end_is_enough(self):
        notice = "dipperlock: reading from standard input; end it with Ctrl-D\n"
        for arguments in (("list",), ("explain", "-"), ("show", "-"), ("assemble", "-", "-o", "-")):
            status, err = self.typed(*arguments)
            self.assertEqual(status, 2)
            self.assertTrue(err.startswith(notice), err)


class Statuses(InFolder):
    """Status 1 is a difference that isolate found, and nothing else."""

    def test_closed_standard_output(self):
        for arguments in (("show", "-"), ("--help",), ("--version",), ("assemble", CASE_A, "-o", "-")):
            status, _, err = ended(*arguments, shell=">&-", data=case_a.FILE)
            self.assertEqual((status, err), (3, "dipperlock: cannot write standard output: it is closed\n"), arguments)

    @needs_full
    def test_full_standard_output(self):
        big = self.file("big.trace", tracefile.encode(BIG))
        for arguments in (("show", big), ("--help",), ("list", "--help"), ("--version",)):
            for flags in (("-I", "-S"), ("-I", "-S", "-u")):
                status, _, err = ended(*arguments, shell=">/dev/full", flags=flags)
                self.assertEqual((status, err), (3, "dipperlock: cannot write standard output: No space left on device\n"))

    @needs_full
    def test_standard_error_that_cannot_be_written(self):
        target = str(self.folder / "x")
        for arguments, due in (
            (("assemble", CASE_A, "-o", target), 3),  # what it did could not be told
            (("show", "-"), 2),
            (("lst",), 2),
            ((), 2),
            (("show", "no such file"), 3),
        ):
            status, out, _ = ended(*arguments, shell="2>/dev/full", data=b"\0")
            self.assertEqual((status, out), (due, b""), arguments)
        self.assertEqual(Path(target).read_bytes(), case_a.FILE)

    def test_closed_standard_error(self):
        target = str(self.folder / "x")
        for arguments, due in ((("assemble", CASE_A, "-o", target), 0), (("show", "-"), 2), (("lst",), 2), ((), 2)):
            status, out, _ = ended(*arguments, shell="2>&-", data=b"\0")
            self.assertEqual((status, out), (due, b""), arguments)

    def test_standard_input_that_cannot_be_read(self):
        for shell, reason in (("<&-", "it is closed; name a file"), ("0>/dev/null", "Bad file descriptor")):
            for command in (("show", "-"), ("list",), ("explain", "-"), ("isolate", "-", "0"), ("assemble", "-", "-o", "-")):
                status, out, err = ended(*command, shell=shell)
                self.assertEqual((status, out), (3, b""))
                self.assertIn(f"dipperlock: cannot read standard input: {reason}", err)

    def test_a_fault_of_ours(self):
        def broken(args: object) -> int:
            raise KeyError("so\nmany lines")

        with mock.patch.object(commands, "show", broken):
            status, out, err = call("show", "-")
            self.assertEqual((status, out), (FAULT, b""))
            self.assertRegex(err, r"^dipperlock: a fault in the front end itself, .*KeyError.*test_streams.py, line [0-9]+.*\n$")
            self.assertNotIn("Traceback", err)
            with mock.patch.dict(os.environ, {cli.DEBUG: "1"}):
                status, out, err = call("show", "-")
        self.assertEqual((status, out), (FAULT, b""))
        self.assertIn("Traceback (most recent call last):", err)

    def test_failures_of_the_machine(self):
        for error, said in (
            (MemoryError(), "there is not enough memory"),
            (OSError(5, "Input/output error"), "Input/output error"),
            (MachineFailure("no"), "no"),
        ):
            with mock.patch.object(commands, "show", mock.Mock(side_effect=error)):
                self.assertEqual(call("show", "-"), (3, b"", f"dipperlock: {said}\n"))

    def test_a_front_end_with_a_part_missing(self):
        folder = self.folder / "frontend"
        folder.mkdir()
        self.file("frontend/__main__.py", (programs.ROOT / "frontend" / "__main__.py").read_bytes())
        with mock.patch("frontend.tests.helpers.MAIN", str(folder / "__main__.py")):
            status, out, err = ended("--help")
        self.assertEqual((status, out), (4, b""))
        self.assertIn("dipperlock: the front end cannot start: ModuleNotFoundError: No module named 'frontend.cli'", err)

    def test_statuses_are_told(self):
        told = call("--help")[1].decode()
        readme = (programs.ROOT / "README.md").read_text(encoding="utf-8")
        self.assertEqual(sorted(MEANINGS), [0, 1, 2, 3, 4, 130, 141])
        for status, meaning in MEANINGS.items():
            self.assertIn(f"\n  {status:<4} {meaning}\n", told)
            self.assertIn(f"\n| {status} | {meaning} |\n", readme)


class Bounds(InFolder):
    """No more is read than there can be."""

    LONG = f"has more than {files.LARGEST_TEXT:,} bytes, the most that a trace text may have (1,024 for each of the 4,096 steps"

    @unittest.skipUnless(os.path.exists("/dev/zero"), "there is no /dev/zero")
    def test_a_file_without_end(self):
        for arguments in (("show", "/dev/zero"), ("explain", "/dev/zero"), ("isolate", "/dev/zero", "0")):
            self.assert_bad(arguments, "/dev/zero is refused by 10: its header says 0 steps", "it has more than 40968.")
        self.assert_bad(("assemble", "/dev/zero", "-o", "-"), self.LONG)
        with by_rote(lister={bytes(40_969): b"refused 10\n"}.__getitem__):
            status, out, err = call("list", "/dev/zero")
        self.assertEqual((status, out), (2, b"refused 10\n"))
        self.assertIn("it has more than 40968.", err)

    def test_a_large_file(self):
        path = str(self.folder / "large")
        with open(path, "wb") as file:
            file.write(b"\1\0\2\0")
            file.truncate(6 << 30)  # with a hole, so that it takes no room
        self.assert_bad(("show", path), f"{path} is refused by 10: its header says 0 steps", "it has more than 40968.")

    def test_a_long_text(self):
        text = Path(CASE_A).read_bytes()
        room = files.LARGEST_TEXT - len(text)
        self.assertEqual(files.LARGEST_TEXT, 4_194_304)
        for name in ("long.txt", "long"):
            fits = self.file(name, text + b"#" * room)
            self.assertEqual(files.read_trace(fits).data, case_a.FILE)
            self.assertEqual(call("assemble", fits, "-o", "-")[:2], (0, case_a.FILE))
            path = self.file(name, text + b"#" * room + b"\n")
            for arguments in (("assemble", path, "-o", "-"), ("list", path), ("explain", path), ("isolate", path, "0")):
                self.assert_bad(arguments, f"dipperlock: {path} {self.LONG}")

    def test_a_writer_without_end(self):
        for arguments in (("show", "-"), ("explain",), ("assemble", "-", "-o", "-")):
            with subprocess.Popen(("cat", "/dev/zero"), stdout=subprocess.PIPE) as writer:
                status, out, _ = ended(*arguments, stdin=writer.stdout)
                writer.stdout.close()
            self.assertEqual((status, out), (2, b""))


class Texts(InFolder):
    """A text is known by its name or by what it holds."""

    def test_what_is_text(self):
        for data in (b"sets 1\n", b"\xef\xbb\xbfsets\r\n\t", "caf\u00e9".encode(), "caf\u00e9".encode()[:-1]):
            self.assertTrue(source.is_text(data), data)
        for data in (b"", b"\0", b"sets\0", b"\x01", b"\x7f", b"\xff", b"caf\xe9 ", case_a.FILE):
            self.assertFalse(source.is_text(data), data)

    def test_no_file_within_the_limits_is_text(self):
        for sets in (1 << power for power in range(9)):
            for rule in (0, 1, 2):
                for steps in ((), (Step(0x20, 0x20, 0x2020_2020_2020_2020),) * 4096):
                    self.assertFalse(source.is_text(tracefile.encode(Trace(sets, 8, rule, steps))))

    def test_texts_are_taken(self):
        text = Path(CASE_A).read_bytes()
        said = {"lister": {case_a.FILE: case_a.LISTING}.__getitem__, "stepper": {case_a.FILE: case_a.STREAM}.__getitem__}
        with by_rote(**said):
            for name in ("a.txt", "A.TXT", "a.Txt", "a", "a.trace"):
                self.assertEqual(call("list", self.file(name, text)), (0, case_a.LISTING, ""))
            self.assertEqual(call("list", stdin=text), (0, case_a.LISTING, ""))
            self.assertEqual(call("explain", stdin=text)[0], 0)
            self.assertEqual(call("list", stdin=case_a.FILE), (0, case_a.LISTING, ""))

    def test_a_bad_text_is_told_as_one(self):
        text = b"sets 1\nways 4\nrule tree\n0 lod 0\n"
        self.assert_bad(
            ("list",),
            "standard input:4:3: unknown kind 'lod'; did you mean 'load'?",
            "\nstandard input: this was taken as a trace text, since it holds text; a trace file is binary\n",
            stdin=text,
        )
        status, _, err = call("list", self.file("BAD.TXT", text))
        self.assertEqual(status, 2)
        self.assertNotIn("taken as", err)
        self.assert_bad(("list", self.file("B.TXT", case_a.FILE)), ":1:2: a zero byte: this is not a trace text")

    def test_hints_for_what_is_no_trace_file(self):
        self.assert_bad(("show", "-"), "It looks like a trace text: 'dipperlock assemble' makes", stdin=b"sets 1\n")
        for data in ("sets 1 # caf\u00e9\n".encode("latin-1"), "sets 1\n".encode("utf-16")):
            self.assert_bad(("explain",), "If it is meant as a trace text, save it as UTF-8.", stdin=data)


@needs_programs
class WithPrograms(unittest.TestCase):
    """The same with the proved programs."""

    def test_long_input_is_refused_by_the_lister(self):
        for data in (bytes(40_969), bytes(400_000), tracefile.encode(BIG) + b"\0"):
            status, out, err = ended("list", data=data)
            self.assertEqual((status, out), (2, b"refused 10\n"))
            self.assertIn("it has more than 40968.", err)

    def test_the_longest_file_is_listed(self):
        status, out, err = ended("list", data=tracefile.encode(BIG), flags=("-I", "-S", "-u"))
        self.assertEqual((status, err, out.count(b"\n")), (0, "", 4097))
