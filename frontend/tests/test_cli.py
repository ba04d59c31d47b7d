"""The command line: statuses, files, help, and errors without a traceback."""
from __future__ import annotations

import os
import random
import shlex
import signal
import subprocess
import tempfile
import time
import unittest
from pathlib import Path

from frontend import helptext, programs, tracefile
from frontend.tests import case_a
from frontend.tests.helpers import by_rote, call, ended, needs_no_rights, random_bytes, random_trace, start
from frontend.tracefile import Step, Trace

COMMANDS = tuple(helptext.EXAMPLES)
CASE_A = str(programs.ROOT / "examples" / "case-a.txt")
TOO_MANY = 257, 512, 4096, 65_535  # sets
HELD = "a trace file holds at most 256 sets (calls of the proved library take up to 4,096)"


class InFolder(unittest.TestCase):
    """A test with a folder for its files."""

    def setUp(self) -> None:
        folder = tempfile.TemporaryDirectory()
        self.addCleanup(folder.cleanup)
        self.folder = Path(folder.name)

    def file(self, name: str, data: bytes) -> str:
        path = self.folder / name
        path.write_bytes(data)
        return str(path)

    def assert_bad(self, arguments: tuple[str, ...], *parts: str, stdin: bytes = b"", due: int = 2) -> None:
        status, out, err = call(*arguments, stdin=stdin)
        self.assertEqual((status, out), (due, b""), err)
        self.assertNotIn("Traceback", err)
        for part in parts:
            self.assertIn(part, err)


class Help(InFolder):
    """Help for the tool and each command, with examples that work."""

    def test_help(self):
        for command in COMMANDS:
            status, out, err = call(command, "--help")
            self.assertEqual((status, err), (0, ""))
            self.assertIn(helptext.examples(command), out.decode())
        status, out, _ = call("--help")
        self.assertEqual(status, 0)
        for command in COMMANDS:
            self.assertIn(f"\n    {command} ", out.decode())
            self.assertEqual(out.decode().count(f"\n  ./dipperlock {command} "), 1)

    def test_explain_says_what_the_number_of_ways_is(self):
        said = " ".join(call("explain", "--help")[1].decode().split())
        number = "the ways of the domain's hit map, lowest first, up to and including the one hit, or all of them without a hit."
        self.assertIn(f"how many ways the hit lookup visited: {number} An invalid way of the map is counted.", said)

    def test_explain_says_which_way_is_taken(self):
        said = " ".join(call("explain", "--help")[1].decode().split())
        self.assertIn("A miss fills the highest way of the domain's fill map that holds no valid line. If all of them", said)
        nru = "it is the highest way of the fill map whose bit was one or, where none was, the highest of the fill map,"
        self.assertIn(f"under NRU it is said how it was found: {nru} whose bits all become one.", said)

    def test_explain_says_which_lines_are_locked(self):
        said = " ".join(call("explain", "--help")[1].decode().split())
        where = "in a way of the domain's hit map that is not in its fill map"
        self.assertIn(f"A line that is hit or flushed {where} is said to be locked: no miss evicts it.", said)

    def test_help_says_what_the_counts_are(self):
        said = " ".join(call("list", "--help")[1].decode().split())
        self.assertIn("its counts: hits, misses, evicted, written back, flushed, fills, dropped.", said)

    def test_explain_says_what_lines_in_and_lines_out_are(self):
        said = " ".join(call("explain", "--help")[1].decode().split())
        line = "domain 0: fills 3 = evicted 1 + flushed 1 + dropped 0 + held 1"
        self.assertIn(f"its lines in and lines out since it was last removed, such as {line} These are the lines", said)
        self.assertIn("that its own policy changes dropped; and those that it holds, which are now valid in its hit map,", said)

    def test_help_says_how_many_sets_a_file_holds(self):
        for command in ("list", "assemble"):
            said = " ".join(call(command, "--help")[1].decode().split())
            self.assertIn("A trace file holds at most 256 sets, and at most 4,096 steps", said)
            self.assertIn("alls of the proved library take up to 4,096 sets.", said)
        self.assertIn("as one of more than 256 sets is,", call("show", "--help")[1].decode())

    def test_examples_that_need_no_program(self):
        os.symlink(programs.ROOT / "examples", self.folder / "examples")
        for line in helptext.EXAMPLES["show"]:
            tool, *arguments = shlex.split(line)
            self.assertEqual(tool, "./dipperlock")
            job = start(*arguments, cwd=self.folder)
            out, err = job.communicate()
            self.assertEqual(job.returncode, 0, err)
        self.assertEqual((self.folder / "case-a.trace").read_bytes(), case_a.FILE)
        self.assertTrue(out.startswith(b"sets 1\nways 4\nrule tree\n"))

    def test_the_text_form_in_help_is_right(self):
        lines = [line for line in helptext.ASSEMBLE.splitlines() if line.startswith("  ")]
        text = "\n".join(line[:30] for line in lines).encode()
        self.assertEqual(call("assemble", "-", "-o", "-", stdin=text)[0], 0)
        self.assertEqual(len(lines), 12)
        self.assertTrue(all(line[30:32] == "  " and line[32] != " " for line in lines), lines)

    def test_help_says_what_cores_are(self):
        for command, part in (
            ("list", "the lister lends records for cores 0 to 31, whose selectors CS, DS and ES are zero at first"),
            ("assemble", "CS is the domain of a core's fetches, DS of its loads and flushes, ES of its stores."),
            ("explain", "by a core it is said first through which selector the step goes, and which domain that"),
            ("isolate", "belongs to the domain that the core's selector names at that moment of the run,"),
            ("isolate", "Where the core is not in the list it belongs to no domain and is kept, and so is every"),
        ):
            self.assertIn(part, " ".join(call(command, "--help")[1].decode().split()))

    def test_no_command(self):
        self.assert_bad((), "usage: dipperlock", "./dipperlock list examples/case-a.txt")

    def test_unknown_command(self):
        self.assert_bad(("lst",), "invalid choice: 'lst'", "list")

    def test_long_arguments_are_cut(self):
        for arguments in (("x" * 9000,), ("isolate", CASE_A, "9" * 9000), ("show", CASE_A, "y" * 9000)):
            self.assert_bad(arguments, " characters)\n", "error: ")
            self.assertLess(len(call(*arguments)[2]), 1200)


class Files(InFolder):
    """Files that cannot be read or written."""

    def test_unreadable(self):
        missing, folder = str(self.folder / "no.trace"), str(self.folder)
        for command, *rest in (("list",), ("explain",), ("isolate", "0"), ("show",), ("assemble", "-o", "x")):
            what = f"dipperlock: cannot read {missing}: No such file or directory"
            self.assert_bad((command, missing, *rest), what, due=3)
            self.assert_bad((command, folder, *rest), f"dipperlock: cannot read {folder}: Is a directory", due=3)

    @needs_no_rights
    def test_forbidden(self):
        path = self.file("x.trace", b"")
        os.chmod(path, 0)
        self.assert_bad(("list", path), f"cannot read {path}: Permission denied", due=3)

    def test_names_that_are_no_names(self):
        self.assert_bad(("show", ""), "cannot read '': No such file", due=3)
        self.assert_bad(("show", "x" * 5000), f"{'x' * 180}...{'x' * 20} (5,000 characters): File name too long", due=3)
        self.assert_bad(("show", "a\x1b[31mb"), "cannot read 'a\\x1b[31mb': No such file", due=3)

    def test_input_is_not_overwritten(self):
        path = self.file("x.txt", b"sets 1\nways 4\nrule nru\n")
        what = "is the input itself, which would be lost; write to another file"
        self.assert_bad(("assemble", path, "-o", path), what)
        path = self.file("x.trace", case_a.FILE)
        self.assert_bad(("show", path, "-o", path), "is the input itself")
        self.assertEqual(Path(path).read_bytes(), case_a.FILE)

    def test_standard_input_is_not_overwritten(self):
        text = Path(CASE_A).read_bytes()
        path = self.file("c.txt", text)
        for arguments, shell in (
            (("assemble", "-", "-o", path), f"<{path}"),
            (("assemble", path, "-o", "-"), f">>{path}"),
            (("assemble", "-", "-o", "-"), f"<{path} >>{path}"),
        ):
            status, out, err = ended(*arguments, shell=shell)
            self.assertEqual((status, out), (2, b""))
            self.assertIn("is the input itself, which would be lost", err)
            self.assertEqual(Path(path).read_bytes(), text)


class AssembleAndShow(InFolder):
    """The two forms, through the commands."""

    def test_there_and_back(self):
        for number in range(5):
            data = tracefile.encode(random_trace(random.Random(number), 50 * number))
            path, text, back = self.file("a", data), str(self.folder / "a.txt"), str(self.folder / "b")
            self.assertEqual(call("show", path, "-o", text), (0, b"", ""))
            status, out, err = call("assemble", text, "-o", back)
            self.assertEqual((status, out), (0, b""))
            self.assertIn(f"{back}: ", err)
            self.assertEqual(Path(back).read_bytes(), data)

    def test_standard_streams(self):
        status, text, _ = call("show", "-", stdin=case_a.FILE)
        self.assertEqual(status, 0)
        self.assertEqual(call("assemble", "-", "-o", "-", stdin=text), (0, case_a.FILE, ""))

    def test_errors_of_a_text(self):
        path, target = self.file("case.txt", b"sets 1\nways 4\nrule tree\n0 lod 0x40\n"), str(self.folder / "out")
        for arguments in (("assemble", path, "-o", target), ("list", path), ("explain", path), ("isolate", path, "0")):
            self.assert_bad(arguments, f"{path}:4:3: unknown kind 'lod'; did you mean 'load'?", "\n      ^^^\n")
        self.assertFalse(Path(target).exists())
        self.assert_bad(("assemble", "-", "-o", target), "standard input:1:1: there is no 'sets' line")

    def test_a_text_of_too_many_sets(self):
        target = str(self.folder / "out")
        for sets in TOO_MANY:
            path = self.file("case.txt", f"sets {sets}\nways 4\nrule tree\n0 load 0x40\n".encode())
            for arguments in (("assemble", path, "-o", target), ("list", path), ("explain", path), ("isolate", path, "0")):
                self.assert_bad(arguments, f"{path}:1:6: '{sets}' is too large; {HELD}\n", "; no trace was made\n")
        self.assertFalse(Path(target).exists())

    def test_a_text_of_sets_that_the_lister_refuses(self):
        for sets in (0, 3, 256):
            data = tracefile.encode(Trace(sets, 4, 0, ()))
            status, out, err = call("assemble", "-", "-o", "-", stdin=f"sets {sets}\nways 4\nrule tree\n".encode())
            self.assertEqual((status, out, "warning" in err), (0, data, sets != 256))
            self.assertEqual(call("show", "-", stdin=data), (0, f"sets {sets}\nways 4\nrule tree\n".encode(), ""))

    def test_output_is_required(self):
        self.assert_bad(("assemble", CASE_A), "the following arguments are required: -o")

    def test_show_says_why_not(self):
        long = tracefile.encode(Trace(1, 2, 0, (Step(0, 0, 0),) * 4097))
        for data, reason in (
            (b"abc", "it has 3 bytes, and the header alone has 8. It looks like a trace text"),
            (case_a.FILE[:-2], "its header says 9 steps, so its length is to be 8 + 10 x 9 = 98 bytes; it has 96.\n"),
            (long, "its header says 4,097 steps, and the most is 4,096.\n"),
            *((tracefile.encode(Trace(sets, 4, 0, ())), f"its header says {sets:,} sets; {HELD}.\n") for sets in TOO_MANY),
        ):
            self.assert_bad(("show", "-"), f"dipperlock: standard input is refused by 10: {reason}", stdin=data)


class Programs(InFolder):
    """Commands that ask the proved programs, which answer by rote here."""

    def test_list_passes_bytes_through(self):
        path = self.file("a.trace", case_a.FILE)
        with by_rote(lister={case_a.FILE: case_a.LISTING}.__getitem__):
            for arguments in (("list", path), ("list", CASE_A), ("list",), ("list", "-")):
                self.assertEqual(call(*arguments, stdin=case_a.FILE), (0, case_a.LISTING, ""))

    def test_a_refused_file_is_bad_input_to_all(self):
        for data, listed, reason in (
            (tracefile.encode(Trace(3, 4, 9, ())), b"refused 1\n", "1: 3 sets, 4 ways, rule 9. The geometry is outside"),
            (tracefile.encode(Trace(3, 4, 0, ())), b"refused 1\n", "1: 3 sets, 4 ways, rule 0 (Tree-PLRU). The geometry"),
            (tracefile.encode(Trace(0, 4, 0, ())), b"refused 1\n", "1: 0 sets, 4 ways, rule 0 (Tree-PLRU). The geometry"),
            (b"\0b", b"refused 10\n", "10: it has 2 bytes, and the header alone has 8."),
            *(
                (tracefile.encode(Trace(sets, 4, 9, ())), b"refused 10\n", f"10: its header says {sets:,} sets; {HELD}.\n")
                for sets in TOO_MANY
            ),
        ):
            with by_rote(lister={data: listed}.__getitem__):
                status, out, err = call("list", stdin=data)
                self.assertEqual((status, out), (2, listed))
                self.assertIn(f"dipperlock: standard input is refused by {reason}", err)
                for arguments in (("explain", "-"), ("isolate", "-", "0")):
                    self.assert_bad(arguments, f"dipperlock: standard input is refused by {reason}", stdin=data)

    def test_what_is_not_whole_is_not_printed(self):
        for listed in (b"", case_a.LISTING[:100], b"Segmentation fault\n", b"refused 10\n", b"1 4 0 0\n"):
            said = {"lister": lambda data, listed=listed: listed, "stepper": lambda data: case_a.STREAM}
            with by_rote(**said):
                for arguments in (("list",), ("explain",), ("isolate", "-", "0")):
                    what = "dipperlock: target/bin/lister did not give a whole listing of this trace: "
                    self.assert_bad(arguments, what, stdin=case_a.FILE, due=3)

    def test_another_answer_to_too_many_sets_is_not_printed(self):
        for sets in TOO_MANY:
            data, fault = tracefile.encode(Trace(sets, 4, 0, ())), f"its header says {sets:,} sets; {HELD}"
            for listed in (b"refused 1\n", f"{sets} 4 0 0\n".encode()):
                with by_rote(lister={data: listed}.__getitem__):
                    what = f": it is not 'refused 10', and the file is refused by 10: {fault}\n"
                    self.assert_bad(("list",), what, stdin=data, due=3)

    def test_domain(self):
        for word in ("x", "16", "-1", "", "0x1", "1.5", "007", "\u0663", "99999999999999999999"):
            self.assert_bad(("isolate", CASE_A, word), "is not a domain; domains are the decimal numbers 0 to 15")
        for arguments in ((), ("0", "--all")):
            self.assert_bad(("isolate", CASE_A, *arguments), "isolate takes either a domain, 0 to 15, or --all, which is each")


class Garbage(InFolder):
    """Bytes without sense never give a traceback."""

    WORDS = b"policy ", b"kind=", b"core ", b"select ", b"9" * 30
    PIECES = (b"", b"=", b"0x", b",", b"-", b"\n", b" ", b"#", b"\xff", b"\xc3\xa9", *WORDS)

    def test_binary(self):
        source = random.Random(5)
        for size in (*range(20), 98, 1000):
            path = self.file("garbage", random_bytes(source, size))
            for arguments in (("show", path), ("explain", path), ("isolate", path, "3"), ("assemble", path, "-o", "-")):
                self.assert_bad(arguments)

    def test_text(self):
        source = random.Random(6)
        good = Path(CASE_A).read_bytes(), (programs.ROOT / "examples" / "core-switch.txt").read_bytes()
        for number in range(400):
            data = bytearray(good[number % 2])
            for _ in range(source.randint(1, 6)):
                place = source.randrange(len(data))
                data[place : place + source.randint(0, 3)] = source.choice(self.PIECES)
            status, out, err = call("assemble", "-", "-o", "-", stdin=bytes(data))
            self.assertIn(status, (0, 2))
            self.assertEqual(bool(out), status == 0)
            self.assertEqual(bool(err.replace("warning", "")), status == 2 or "warning" in err)


class Endings(InFolder):
    """How the executable ends when its output or the person goes away."""

    def setUp(self) -> None:
        super().setUp()
        self.big = self.file("big.trace", tracefile.encode(Trace(1, 2, 0, (Step(0, 0, 0),) * 4096)))

    def test_broken_pipe(self):
        for arguments in (("show", self.big), ("--help",)):
            read, write = os.pipe()
            os.close(read)
            with os.fdopen(write, "wb") as out:
                job = start(*arguments, stdout=out)
            _, err = job.communicate()
            self.assertEqual((job.returncode, err), (141, b""))

    def test_interrupt(self):
        fifo = str(self.folder / "fifo")
        os.mkfifo(fifo)
        job = start("show", fifo)
        with os.fdopen(self.writer(fifo, job), "wb"):
            while job.poll() is None:  # Python does not see a signal that comes right before it starts to wait
                job.send_signal(signal.SIGINT)
                time.sleep(0.1)
            out, err = job.communicate(timeout=20)
        self.assertEqual((job.returncode, out, err), (130, b"", b""))

    def writer(self, fifo: str, job: subprocess.Popen) -> int:
        """Open a pipe for writing as soon as a process reads it; fail if the process ends instead."""
        while job.poll() is None:
            try:
                return os.open(fifo, os.O_WRONLY | os.O_NONBLOCK)
            except OSError:  # nobody reads yet
                time.sleep(0.01)
        self.fail(job.communicate()[1])

    def test_executable_bit(self):
        tool = programs.ROOT / "dipperlock"
        self.assertTrue(os.access(tool, os.X_OK))
        done = subprocess.run((tool, "show", self.big), capture_output=True, check=False)
        self.assertEqual((done.returncode, done.stderr), (0, b""))
