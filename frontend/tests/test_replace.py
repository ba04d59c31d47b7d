"""Files that `-o` names: replaced whole or not at all."""
from __future__ import annotations

import os
import stat
import unittest
from pathlib import Path
from unittest import mock

from frontend import streams, tracefile
from frontend.tests import case_a
from frontend.tests.helpers import call, ended, needs_full, needs_no_rights, start
from frontend.tests.test_cli import CASE_A, InFolder
from frontend.tests.test_streams import BIG, small_files

OLD = b"what stood there before"


class Output(InFolder):
    """A folder with a file to be replaced, and nothing else at the end."""

    def setUp(self) -> None:
        super().setUp()
        self.target = self.file("x.trace", OLD)

    def assemble(self, target: str, due: int = 0) -> str:
        status, out, err = call("assemble", CASE_A, "-o", target)
        self.assertEqual((status, out), (due, b""), err)
        return err

    def contents(self) -> dict[str, bytes]:
        """Give all that the folder has."""
        return {path.name: path.read_bytes() for path in self.folder.iterdir() if path.is_file()}


class Replaced(Output):
    """Writes that succeed."""

    def test_a_new_file(self):
        before = os.umask(0o027)
        self.addCleanup(os.umask, before)
        target = str(self.folder / "new.trace")
        self.assertIn("new.trace: 1 set, 4 ways, rule 0 (Tree-PLRU), 9 steps, 98 bytes", self.assemble(target))
        self.assertEqual(self.contents(), {"x.trace": OLD, "new.trace": case_a.FILE})
        self.assertEqual(stat.S_IMODE(os.stat(target).st_mode), 0o640)

    def test_an_old_file_and_its_permissions(self):
        for mode in (0o600, 0o644, 0o755, 0o666):
            Path(self.target).write_bytes(OLD)
            os.chmod(self.target, mode)
            self.assemble(self.target)
            self.assertEqual(self.contents(), {"x.trace": case_a.FILE})
            self.assertEqual(stat.S_IMODE(os.stat(self.target).st_mode), mode)

    @unittest.skipUnless(hasattr(os, "geteuid") and os.geteuid() == 0, "only root gives files away")
    def test_an_old_file_and_its_owner(self):
        os.chown(self.target, 12345, 23456)
        self.assemble(self.target)
        found = os.stat(self.target)
        self.assertEqual((found.st_uid, found.st_gid), (12345, 23456))

    def test_a_symbolic_link_stays(self):
        (self.folder / "deep").mkdir()
        far = self.folder / "deep" / "far.trace"
        link = self.folder / "link"
        link.symlink_to(Path("deep") / "far.trace")
        for _ in ("to nothing yet", "to a file"):
            self.assemble(str(link))
            self.assertTrue(link.is_symlink())
            self.assertEqual((far.read_bytes(), os.listdir(far.parent)), (case_a.FILE, ["far.trace"]))

    def test_long_names(self):
        target = str(self.folder / ("n" * 255))
        self.assemble(target)
        self.assertEqual(Path(target).read_bytes(), case_a.FILE)

    def test_a_name_without_a_folder(self):
        status, _, err = ended("assemble", CASE_A, "-o", "here.trace", cwd=self.folder)
        self.assertEqual(status, 0, err)
        self.assertEqual((self.folder / "here.trace").read_bytes(), case_a.FILE)


class InPlace(Output):
    """Names that lead to no regular file of its own."""

    def test_devices(self):
        self.assemble("/dev/null")
        self.assertTrue(stat.S_ISCHR(os.stat("/dev/null").st_mode))

    def test_a_named_pipe(self):
        fifo = str(self.folder / "fifo")
        os.mkfifo(fifo)
        job = start("assemble", CASE_A, "-o", fifo)
        self.assertEqual(Path(fifo).read_bytes(), case_a.FILE)
        job.communicate()
        self.assertEqual(job.returncode, 0)
        self.assertTrue(stat.S_ISFIFO(os.stat(fifo).st_mode))

    @unittest.skipUnless(os.path.exists("/dev/stdout"), "there is no /dev/stdout")
    def test_standard_output_by_name(self):
        self.assertEqual(ended("assemble", CASE_A, "-o", "/dev/stdout")[:2], (0, case_a.FILE))
        for name in ("/dev/stdout", self.target):
            Path(self.target).write_bytes(OLD)
            with open(self.target, "ab") as out:
                self.assertEqual(ended("assemble", CASE_A, "-o", name, stdout=out)[0], 0)
            self.assertEqual(self.contents(), {"x.trace": OLD + case_a.FILE})

    @unittest.skipUnless(os.path.exists("/dev/fd"), "there is no /dev/fd")
    def test_a_pipe_by_its_number(self):
        read, write = os.pipe()
        status, _, err = ended("assemble", CASE_A, "-o", f"/dev/fd/{write}", pass_fds=(write,))
        os.close(write)
        with os.fdopen(read, "rb") as pipe:
            self.assertEqual((status, pipe.read()), (0, case_a.FILE), err)

    @needs_full
    def test_a_full_device(self):
        err = self.assemble("/dev/full", due=3)
        self.assertEqual(err, "dipperlock: cannot write /dev/full: No space left on device\n")


class Kept(Output):
    """Whatever goes wrong, the old file stays, and nothing else does."""

    def kept(self, *parts: str, target: str = "", due: int = 3) -> None:
        err = self.assemble(target or self.target, due=due)
        for part in parts:
            self.assertIn(part, err)
        self.assertEqual(self.contents(), {"x.trace": OLD})

    def test_a_write_that_fails(self):
        full = OSError(28, "No space left on device")
        for name in ("frontend.replace.streams.write_all", "os.fsync", "os.replace", "os.fchmod"):
            with mock.patch(name, side_effect=full):
                self.kept(f"dipperlock: cannot write {self.target}: No space left on device; the file is as it was\n")

    def test_a_full_disk(self):
        big = self.file("big", tracefile.encode(BIG))
        status, _, err = ended("show", big, "-o", self.target, preexec_fn=small_files)
        os.unlink(big)
        said = f"dipperlock: cannot write {self.target}: File too large; the file is as it was\n"
        self.assertEqual((status, err, self.contents()), (3, said, {"x.trace": OLD}))

    def test_interrupt(self):
        for name in ("frontend.replace.streams.write_all", "os.fsync", "os.replace"):
            with mock.patch(name, side_effect=KeyboardInterrupt):
                self.kept(due=130)

    def test_a_fault(self):
        with mock.patch.object(streams, "write_all", side_effect=ZeroDivisionError):
            self.kept("a fault in the front end itself", due=4)

    def test_a_bad_text(self):
        bad = self.file("bad.txt", b"0 lod 0\n")
        self.assertEqual(call("assemble", bad, "-o", self.target)[0], 2)
        os.unlink(bad)
        self.assertEqual(self.contents(), {"x.trace": OLD})

    @needs_no_rights
    def test_a_folder_that_takes_no_file(self):
        os.chmod(self.folder, 0o555)
        self.addCleanup(os.chmod, self.folder, 0o755)
        self.kept("Permission denied; the file is as it was. A new one is made beside it first; '-o - > FILE' writes over")

    def test_a_folder_that_takes_no_file_told_to_root_too(self):
        real = open

        def only_reading(name: object, mode: str = "r", *rest: object, **options: object) -> object:
            if "x" in mode:
                raise PermissionError(13, "Permission denied")
            return real(name, mode, *rest, **options)

        with mock.patch("builtins.open", only_reading):
            self.kept("Permission denied; the file is as it was. A new one is made beside it first; '-o - > FILE' writes over")

    def test_a_file_that_is_protected(self):
        os.chmod(self.target, 0o444)
        with mock.patch("os.access", return_value=False):
            self.kept(f"cannot write {self.target}: Permission denied; the file is as it was\n")

    def test_names_that_are_no_names(self):
        (self.folder / "deep").mkdir()
        for name, reason in (
            (str(self.folder / "deep"), "Is a directory"),
            (str(self.folder / "deep") + "/", "Is a directory"),
            (str(self.folder / "new") + "/", "Is a directory"),
            (str(self.folder / "no" / "x.trace"), "No such file or directory"),
            (self.target + "/x", "Not a directory"),
            (str(self.folder / ("n" * 256)), "File name too long"),
        ):
            self.kept(f": {reason}\n", target=name)
        self.assertEqual(call("assemble", CASE_A, "-o", "")[0], 3)
        self.assertEqual(sorted(os.listdir(self.folder)), ["deep", "x.trace"])

    def test_a_link_to_itself(self):
        loop = self.folder / "loop"
        loop.symlink_to("loop")
        err = self.assemble(str(loop), due=3)
        self.assertIn("Too many levels of symbolic links", err)
        self.assertTrue(loop.is_symlink())

    def test_a_reader_that_goes_away(self):
        fifo = str(self.folder / "fifo")
        os.mkfifo(fifo)
        job = start("assemble", CASE_A, "-o", fifo)
        with open(fifo, "rb"):
            pass
        _, err = job.communicate()
        self.assertIn((job.returncode, err), ((0, err), (3, f"dipperlock: cannot write {fifo}: Broken pipe\n".encode())))
