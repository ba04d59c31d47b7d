"""The command `convert`: three forms of address traces, their bad lines, windows, and what is written."""
from __future__ import annotations

import contextlib
import io
import os
import random
import shlex
import subprocess
import tracemalloc
import unittest
from pathlib import Path
from unittest import mock

from frontend import addresses, convert, files, helptext, listing, programs, text, tracefile
from frontend.assembler import assemble
from frontend.errors import MachineFailure
from frontend.source import SourceErrors
from frontend.tests.helpers import call, ended, needs_full, needs_programs, random_bytes, start
from frontend.tests.test_cli import InFolder
from frontend.tracefile import Step, Trace

SAMPLES = programs.ROOT / "examples" / "addresses"
FORMS = "din", "lackey", "csv"
FETCH, LOAD, STORE, FLUSH = range(4)
TOP = (1 << 64) - 1
ROOM = 4095
LOOP = [
    access
    for _ in range(3)
    for access in (
        *(access for row in range(5) for access in ((FETCH, 0x400078), (LOAD, 0x10000 + 0x1000 * row))),
        *((FETCH, 0x40007E), (FETCH, 0x400080), (LOAD, 0x7FF100), (STORE, 0x7FF100)),
    )
]


def lines_of(form: str, data: bytes, size: int = 1 << 18) -> addresses.Lines:
    """Make the lines of an address trace that comes in pieces of a size."""
    pieces = (data[at : at + size] for at in range(0, len(data), size))
    return addresses.Lines("x", pieces, addresses.FORMS[form].left_out)


def read(form: str, data: bytes, size: int = 1 << 18) -> list[tuple[int, int]]:
    """Read the accesses of an address trace without bad lines."""
    lines = lines_of(form, data, size)
    found = list(addresses.FORMS[form].read(lines))
    lines.fail()
    return found


def told(form: str, data: bytes) -> str:
    """Give what is told of an address trace with bad lines; nothing if it has none."""
    lines = lines_of(form, data)
    for _ in addresses.FORMS[form].read(lines):
        pass
    try:
        lines.fail()
    except SourceErrors as errors:
        return errors.report()
    return ""


@contextlib.contextmanager
def little_memory(most: int):
    """See that no more memory is taken at once than so many bytes."""
    tracemalloc.start()
    try:
        yield
        peak = tracemalloc.get_traced_memory()[1]
    finally:
        tracemalloc.stop()
    if peak > most:
        raise AssertionError(f"{peak:,} bytes were taken")


def loads(count: int) -> bytes:
    """Make an address trace for din, each access at an address of its own."""
    return b"".join(b"0 %x\n" % (64 * number) for number in range(count))


def converted(*options: str, stdin: bytes) -> Trace:
    """Convert standard input, and give the trace."""
    status, out, err = call("convert", "-o", "-", *options, stdin=stdin)
    if status:
        raise AssertionError(err)
    return tracefile.decode(out)


class Reading(unittest.TestCase):
    """What a form's lines are read as."""

    def check(self, form: str, data: bytes, *due: tuple[int, int]) -> None:
        self.assertEqual(read(form, data), list(due), data)

    def check_bad(self, form: str, line: bytes, message: str) -> None:
        """Let a line be the only bad one, the second of three."""
        good = addresses.FORMS[form].example.encode()
        end = "\nx: 1 bad line; no trace was made"
        self.assertEqual(told(form, b"%b\n%b\n%b\n" % (good, line, good)), f"x:2: {message}{end}")


class Din(Reading):
    """Dinero's traditional input."""

    def test_labels(self):
        self.check("din", b"0 1f80\n1 1f80\n2 1f80\n", (LOAD, 0x1F80), (STORE, 0x1F80), (FETCH, 0x1F80))

    def test_addresses(self):
        for word, due in (
            (b"0", 0),
            (b"0x0", 0),
            (b"0X1F", 0x1F),
            (b"00000000000000000000000000000abc", 0xABC),
            (b"0x000000000000000000000000000001", 1),
            (b"ffffffffffffffff", TOP),
            (b"0xFFFFFFFFFFFFFFFF", TOP),
            (b"10", 16),
        ):
            self.check("din", b"0 " + word, (LOAD, due))

    def test_the_rest_is_ignored(self):
        for rest in (b" 4", b"\t4 5 # x", b" ,", b" ffffffffffffffffffff", " caf\u00e9".encode(), b" \x1b", b" " * 50):
            self.check("din", b" \t 2 \t 40" + rest + b"\n", (FETCH, 0x40))

    def test_escape_records(self):
        unknown = "label 3 is an escape record, an unknown access, and no step of a trace is one; leave the line out"
        self.check_bad("din", b"3 1f80", unknown)
        flush = "label 4 is an escape record that flushes the whole cache, and a step flushes one address; leave the line out"
        self.check_bad("din", b"4 0", flush)
        self.check_bad("din", b"4", flush)

    def test_labels_that_are_none(self):
        for word in ("5", "00", "r", "-1", "0x0", "1f80", "0,1f80", "\u0660"):
            labels = "labels are 0 (read), 1 (write) and 2 (instruction fetch)"
            self.check_bad("din", f"{word} 1f80".encode(), f"unknown label '{word}'; {labels}")

    def test_addresses_that_are_none(self):
        self.check_bad("din", b"0", "the address is missing; a line is a label and an address, as in '0 1f80'")
        for word in ("0x", "g", "-1", "1f80h", "1_000", "1f80,4", "x1f80", "1.5", "0bz"):
            form = "which is written in hexadecimal, as in 1f80 or 0x1f80"
            self.check_bad("din", f"1 {word} 4".encode(), f"'{word}' is not an address, {form}")
        for word in ("1" + 16 * "0", "0x1" + 16 * "0", "f" * 17, "0x000" + "f" * 17):
            top = "the largest address is 0xffff_ffff_ffff_ffff"
            self.check_bad("din", f"2 {word}".encode(), f"address '{word}' has more than 64 bits; {top}")


class Lackey(Reading):
    """What valgrind's lackey writes."""

    FORM = "an access is I, L, S or M, an address in hexadecimal, a comma and a size, as in ' L 04222caf,8'"

    def test_letters(self):
        self.check("lackey", b"I  04222cab,3\n S 04222ca0,8\n", (FETCH, 0x04222CAB), (STORE, 0x04222CA0))
        self.check("lackey", b" L 0421c7cc,4\n", (LOAD, 0x0421C7CC))
        self.check("lackey", b" M 0421c7cc,4\n", (LOAD, 0x0421C7CC), (STORE, 0x0421C7CC))

    def test_columns_do_not_matter(self):
        self.check("lackey", b"\tS\t1fff000768,008  \r\nL 0x0,1\n", (STORE, 0x1FFF000768), (LOAD, 0))

    def test_messages_are_left_out(self):
        data = b"==12== Lackey\n==12== \n--12-- warning: x\n==12== Command: caf\xe9 " + b"y" * 9000 + b"\n L 40,1\n==12== end"
        self.check("lackey", data, (LOAD, 0x40))

    def test_an_access_within_a_line_is_one_step(self):
        for address, size in ((0x40, 64), (0x7F, 1), (0x41, 63), (TOP, 1), (TOP - 63, 64)):
            self.check("lackey", b"L %x,%d" % (address, size), (LOAD, address))

    def test_an_access_that_reaches_further_is_a_step_for_each_line(self):
        self.check("lackey", b"L 7f,2", (LOAD, 0x7F), (LOAD, 0x80))
        self.check("lackey", b"I 7e,6", (FETCH, 0x7E), (FETCH, 0x80))
        self.check("lackey", b"S 7f,65", (STORE, 0x7F), (STORE, 0x80))
        self.check("lackey", b"S 7f,66", (STORE, 0x7F), (STORE, 0x80), (STORE, 0xC0))
        self.check("lackey", b"L 40,129", (LOAD, 0x40), (LOAD, 0x80), (LOAD, 0xC0))
        self.check("lackey", b"L %x,65" % (TOP - 64), (LOAD, TOP - 64), (LOAD, TOP - 63))
        self.assertEqual(len(read("lackey", b"L 0,65536")), 1024)

    def test_a_modify_loads_each_line_and_then_stores_each(self):
        self.check("lackey", b" M 3f,2", (LOAD, 0x3F), (LOAD, 0x40), (STORE, 0x3F), (STORE, 0x40))
        places = 0x3F, 0x40, 0x80
        self.check("lackey", b" M 3f,66", *((LOAD, place) for place in places), *((STORE, place) for place in places))

    def test_the_end_of_the_address_space(self):
        end = "pass the end of the address space, 0xffff_ffff_ffff_ffff"
        self.check_bad("lackey", b" L ffffffffffffffff,2", f"2 bytes at 0xffff_ffff_ffff_ffff {end}")
        self.check_bad("lackey", b" M ffffffffffffffc0,65", f"65 bytes at 0xffff_ffff_ffff_ffc0 {end}")
        too_large = "has more than 64 bits; the largest address is 0xffff_ffff_ffff_ffff"
        self.check_bad("lackey", b"I  10000000000000000,1", f"address '10000000000000000' {too_large}")

    def test_sizes(self):
        self.check_bad("lackey", b" L 40,65537", "size 65,537 is too large; an access has from 1 to 65,536 bytes")
        self.check_bad("lackey", b" L ffffffffffffffff,99999", "size 99,999 is too large; an access has from 1 to 65,536 bytes")
        for word in ("0", "00", "", "-1", "x", "100000", "9" * 30, "4 5", " 4", "4,4", "0x4", "\u0664"):
            form = "which is a decimal number from 1 to 65,536"
            self.check_bad("lackey", f" L 40,{word}".encode(), f"'{word}' is not a size, {form}")

    def test_lines_that_are_no_access(self):
        own = "what the traced program itself writes stays out with 'valgrind --log-file=FILE'"
        for line in ("hello", "l 40,4", "LL 40,4", "X 40,4", "I40,4", "40,4", "=12= x", "0 1f80", "L40"):
            self.check_bad("lackey", line.encode(), f"'{line}' is no access; {self.FORM}; {own}")
        self.check_bad("lackey", b" L", f"'L' lacks its address and its size; {self.FORM}")
        self.check_bad("lackey", b" L 40", f"'L 40' lacks its size; {self.FORM}")
        for word in ("", "0x", "x", "40 ", "4g"):
            form = "which is written in hexadecimal, as in 1f80 or 0x1f80"
            self.check_bad("lackey", f" S {word},4".encode(), f"'{word}' is not an address, {form}")


class Csv(Reading):
    """Kinds and addresses with commas between."""

    KINDS = {
        LOAD: ("load", "read", "r", "l"),
        STORE: ("store", "write", "w", "s", "rfo"),
        FETCH: ("fetch", "ifetch", "instruction", "inst", "i"),
        FLUSH: ("flush", "clflush", "f"),
    }
    KINDS_ARE = (
        "Kinds are load (read, r, l), store (write, w, s, rfo), fetch (ifetch, instruction, inst, i), flush (clflush, f)"
    )
    HEAD = "one column kind, type or access and one column address, addr or vaddr"

    def test_kinds(self):
        for kind, words in self.KINDS.items():
            for word in words:
                for written in (word, word.upper(), word.title()):
                    self.check("csv", f"{written},0x40\n".encode(), (kind, 0x40))

    def test_addresses(self):
        for word, due in (
            (b"0", 0),
            (b"64", 64),
            (b"0064", 64),
            (b"0x64", 0x64),
            (b"0Xab", 0xAB),
            (b"0x" + b"0" * 40 + b"1", 1),
            (b"0" * 40 + b"1", 1),
            (b"18446744073709551615", TOP),
            (b"0xffffffffffffffff", TOP),
        ):
            self.check("csv", b"load," + word, (LOAD, due))

    def test_cells(self):
        quoted = b'"store","64"', b' "store" , "64" ', b'STORE,"0x40","a,b"'
        for line in (b"store,64,7,x", b" store , 64 ", b"store\t,\t64,", *quoted):
            self.check("csv", line + b"\nload,1\n", (STORE, 64), (LOAD, 1))

    def test_heads(self):
        for head in ("kind,address", "TYPE,ADDR", " Access , VAddr ", '"type","address"', "kind,addr,cycle"):
            self.check("csv", f"{head}\nload,64\n".encode(), (LOAD, 64))
        self.check("csv", b"cycle,addr,ip,type\n12,64,99,RFO\n13,0x41,99,load\n", (STORE, 64), (LOAD, 0x41))
        self.check("csv", b'name,address,kind\n"x, y",64,store\nz,65,load', (STORE, 64), (LOAD, 65))
        self.check("csv", b"# x\n\n \nkind,address\nload,64\n", (LOAD, 64))

    def test_a_first_line_that_is_an_access_is_no_head(self):
        self.check("csv", b"load,64,kind,address\nstore,65,0,0\n", (LOAD, 64), (STORE, 65))

    def test_heads_that_do_not_name_both(self):
        for head, kinds, places in (
            (b"kind,x", 1, 0),
            (b"address", 0, 1),
            (b"cycle,addr,ip", 0, 1),
            (b"kind,type,address", 2, 1),
            (b"kind,address,VADDR", 1, 2),
            (b"kind,kind,addr,addr", 2, 2),
        ):
            named = f"{kinds} of the columns kind, type, access and {places} of the columns address, addr, vaddr"
            due = f"x:1: this head names {named}; it has to name one of each; nothing after it was read\n"
            self.assertEqual(told("csv", head + b"\nload,64\nnonsense\n"), f"{due}x: 1 bad line; no trace was made")

    def test_a_head_is_the_first_line_only(self):
        self.check_bad("csv", b"kind,address", f"unknown kind 'kind'. {self.KINDS_ARE}")
        for line in (b"op,where", b"PREFETCH,64"):
            word = line.partition(b",")[0].decode()
            due = f"x:1: unknown kind '{word}'. {self.KINDS_ARE}; a head names {self.HEAD}\n"
            self.assertTrue(told("csv", line + b"\nload,64\n").startswith(due))

    def test_kinds_that_are_none(self):
        for word in ("PREFETCH", "TRANSLATION", "0", "1", "2", "", "loads", "policy", "ld", "\u0131"):
            self.check_bad("csv", f"{word},64".encode(), f"unknown kind '{word}'. {self.KINDS_ARE}")

    def test_addresses_that_are_none(self):
        for word in ("", "0x", "1f80", "-1", "1.5", "1e3", "0b1", "1_000", "0x1 2", "\u0661"):
            form = "which is hexadecimal with 0x, as in 0x1f80, or decimal digits, as in 8064"
            self.check_bad("csv", f"load,{word},4".encode(), f"'{word}' is not an address, {form}")
        for word in ("18446744073709551616", "99999999999999999999", "1" + "0" * 50, "0x1" + "0" * 16, "0x0f" + "f" * 16):
            top = "the largest address is 0xffff_ffff_ffff_ffff"
            self.check_bad("csv", f"load,{word}".encode(), f"address '{word}' has more than 64 bits; {top}")

    def test_cells_that_are_missing(self):
        self.check_bad("csv", b"load", "the line has 1 cell; cell 1 is the kind and cell 2 the address")
        self.check_bad("csv", b'"load,64', "the line has 1 cell; cell 1 is the kind and cell 2 the address")
        due = "x:3: the line has 3 cells; cell 4 is the kind and cell 2 the address\n"
        self.assertTrue(told("csv", b"cycle,addr,ip,type\n1,2,3,load\n1,2,3\n").startswith(due))


class AllForms(Reading):
    """Lines as all forms have them."""

    EXAMPLES = {form: addresses.FORMS[form].example.encode() for form in FORMS}
    READ = {"din": (LOAD, 0x1F80), "lackey": (LOAD, 0x04222CAF), "csv": (LOAD, 0x1F80)}

    def test_the_samples_tell_one_story(self):
        for form in FORMS:
            data = (SAMPLES / f"loop.{form}").read_bytes()
            self.assertEqual(read(form, data), LOOP)
            self.assertIn(b"\n# A domain with four ways cannot keep them (--hit 0-3)", data)
            self.assertTrue(20 <= data.count(b"\n") <= 60)

    def test_lines_that_are_left_out(self):
        for form, line in self.EXAMPLES.items():
            data = b"\n# x\n \t\r\n   # y\n#\n" + line + b"\n\n#" + b"z" * 9000 + b"\n# caf\xe9\n" + line + b"\n\n"
            self.check(form, data, self.READ[form], self.READ[form])

    def test_ends_of_lines(self):
        for form, line in self.EXAMPLES.items():
            for data in (line, line + b"\r\n", line + b" \r\n", b"\r\n" + line + b"\r"):
                self.check(form, data, self.READ[form])
            due = "a carriage return within the line; lines end with a line feed, or with both"
            self.check_bad(form, line + b"\r" + line, due)

    def test_a_mark_of_byte_order(self):
        for form, line in self.EXAMPLES.items():
            self.check(form, b"\xef\xbb\xbf" + line, self.READ[form])
        self.check("csv", b"\xef\xbb\xbfkind,address\nload,64\n", (LOAD, 64))

    def test_bytes_that_are_not_text(self):
        for form, line in self.EXAMPLES.items():
            for bad in (line + b" \xff", b"\xff", b"\x80" + line, line + b"\xed\xa0\x80"):
                byte = next(byte for byte in bad if byte > 127)
                self.check_bad(form, bad, f"byte {byte:#04x} is not UTF-8 text; if the file is packed, unpack it first")

    def test_a_zero_byte_ends_it(self):
        for form, line in self.EXAMPLES.items():
            why = "a zero byte, and an address trace is UTF-8 text; if the file is packed, unpack it first"
            due = f"x:2: {why}; nothing after it was read\nx: 1 bad line; no trace was made"
            for bad in (b"\0", b"# x\0", line + b"\0", b"y" * 9000 + b"\0"):
                self.assertEqual(told(form, line + b"\n" + bad + b"\nnonsense\n"), due)
            self.assertTrue(told(form, line.decode().encode("utf-16")).startswith("x:1: a zero byte, and "))

    def test_long_lines(self):
        due = "the line has more than 4,096 bytes; one access stands on a line"
        for form, line in self.EXAMPLES.items():
            self.check(form, line + b" " * (4096 - len(line)), self.READ[form])
            padded = line + b" " * (4097 - len(line))
            for bad in (padded, b" " * 9000 + line, b"x" * 9000, b" " * 4097, "\u00e9".encode() * 2049):
                self.check_bad(form, bad, due)
                self.check_bad(form, bad + b"\r", due)
        self.check("din", b"0 40 " + b"x" * 4091, (LOAD, 0x40))

    def test_pieces_make_no_difference(self):
        for form in FORMS:
            data = (SAMPLES / f"loop.{form}").read_bytes()
            for size in (1, 2, 3, 7, 16, 100, 1000):
                self.assertEqual(read(form, data, size), LOOP)
        for size in (1, 100, 4095, 4096, 4097, 5000, 100_000):
            for bad in (b" " * 5000 + b"# x", b" " * 5000, b"x" * 9000, b" " * 4097 + b"0 40"):
                lines = lines_of("din", b"0 40\n" + bad + b"\n0 41", size)
                self.assertEqual(list(addresses.FORMS["din"].read(lines)), [(LOAD, 0x40), (LOAD, 0x41)])
                with self.assertRaisesRegex(SourceErrors, "^x:2: the line has more than 4,096 bytes"):
                    lines.fail()

    def test_memory_does_not_grow(self):
        for piece, count in ((b"x" * 10_000, 300), (b"#" * 10_000, 300), (b"0 40\n" * 1000, 50), (b"x\n" * 1000, 20)):
            lines = addresses.Lines("x", (piece for _ in range(count)), ("#",))
            with little_memory(200_000):
                for _ in addresses.FORMS["din"].read(lines):
                    pass

    def test_many_bad_lines(self):
        report = told("din", b"0 40\n" + b"x 40\n" * 20)
        self.assertEqual((report.count("unknown label"), report.count("\n")), (20, 20))
        self.assertTrue(report.endswith("\nx: 20 bad lines; no trace was made"))
        report = told("din", b"0 40\n" + b"x 40\n" * 21)
        self.assertTrue(report.startswith("x:2: unknown label 'x'; "))
        self.assertIn("\nx:21: unknown label", report)
        self.assertEqual(report.count("unknown label"), 20)
        self.assertTrue(report.endswith("\nx: 21 bad lines, the first 20 shown; no trace was made"))
        self.assertTrue(told("din", b"x 40\n" * 30_000).endswith("\nx: 30,000 bad lines, the first 20 shown; no trace was made"))

    def test_what_is_told_is_short_and_shows_no_control_character(self):
        for form, lead in (("din", "0 "), ("lackey", "L "), ("lackey", "L 40,"), ("csv", "load,")):
            for word in ("x" * 4000, "9" * 4000, "\x1b[31m" + "y" * 500, "0x" + "f" * 4000):
                for line in (lead + word, word):
                    report = told(form, line.encode())
                    self.assertIn("\nx: 1 bad line; no trace was made", report)
                    self.assertLess(max(map(len, report.splitlines())), 400, report)
                    self.assertNotIn("\x1b", report)


class Head(InFolder):
    """The options that say what every window begins with."""

    def first(self, *options: str) -> tuple[Trace, Step]:
        trace = converted("--from", "din", *options, stdin=b"0 40\n")
        self.assertEqual(trace.steps[1].named, trace.steps[0].named)
        return trace, trace.steps[0]

    def test_defaults(self):
        trace, first = self.first()
        self.assertEqual((trace.sets, trace.ways, trace.rule), (64, 8, 0))
        self.assertEqual(trace.steps, (Step(0, 16, 0xFF_00FF), Step(0, 1, 0x40)))
        self.assertEqual(text.show_step(first), "0 policy hit=0-7 fill=0-7")

    def test_geometry(self):
        for sets in (1, 2, 4, 8, 16, 32, 64, 128, 256):
            self.assertEqual(self.first("--sets", str(sets))[0].sets, sets)
        for ways in (2, 4, 8, 16):
            trace, first = self.first("--ways", str(ways))
            self.assertEqual((trace.ways, first.argument), (ways, ((1 << ways) - 1) * 0x1_0001))
        for number, rule in enumerate(("tree", "nru", "lru")):
            self.assertEqual(self.first("--rule", rule)[0].rule, number)
        self.assertEqual(self.first("--rule", "tree-plru")[0].rule, 0)

    def test_domain(self):
        for domain in (0, 1, 9, 15):
            self.assertEqual(self.first("--domain", str(domain))[1].named, domain)

    def test_maps(self):
        for options, due in (
            (("--hit", "0-3"), "hit=0-3 fill=0-3"),
            (("--hit", "way3"), "hit=way3 fill=way3"),
            (("--hit", "0xf0"), "hit=4-7 fill=4-7"),
            (("--fill", "0,1"), "hit=0-7 fill=0,1"),
            (("--fill", "none"), "hit=0-7 fill=none"),
            (("--hit", "0-3", "--fill", "way0"), "hit=0-3 fill=way0"),
            (("--fill", "0-3", "--hit", "0-3"), "hit=0-3 fill=0-3"),
            (("--hit", "0-3", "--fill", "none"), "hit=0-3 fill=none"),
            (("--ways", "16", "--hit", "8-15", "--domain", "15"), "hit=8-15 fill=8-15"),
        ):
            trace, first = self.first(*options)
            self.assertEqual(text.show_step(first), f"{first.named} policy {due}")
            self.assertEqual(assemble("x", text.show(trace).encode()), trace)

    def assert_usage(self, *options: str, said: str) -> None:
        """Convert with wrong options: the usage is told and nothing is read or written."""
        target = str(self.folder / "out.trace")
        for extra in ((), ("--from", "din")):
            with mock.patch.object(files, "pieces", side_effect=AssertionError("it was read")):
                arguments = ("convert", "x.din", "-o", target, *extra, *options)
                self.assert_bad(arguments, "usage: dipperlock convert ", f": error: {said}")
        self.assertEqual(os.listdir(self.folder), [])

    def test_wrong_geometry(self):
        right = "the number of sets is a power of two from 1 to 256, the most that a trace file holds"
        for word in ("0", "3", "255", "257", "512", "4096", "-1", "", "x", "64.0", "0x40", "\u0661"):
            self.assert_usage("--sets", word, said=f"argument --sets: '{word}' will not do; {right}")
        for word in ("0", "1", "3", "6", "32", "x", ""):
            said = f"argument --ways: '{word}' will not do; the number of ways is 2, 4, 8 or 16"
            self.assert_usage("--ways", word, said=said)
        for word in ("plru", "LRU", "0", "", "true-lru"):
            said = f"argument --rule: '{word}' will not do; rules are tree (or tree-plru), nru and lru"
            self.assert_usage("--rule", word, said=said)

    def test_wrong_domain(self):
        for word in ("16", "-1", "x", "0x1", ""):
            right = "domains are the decimal numbers 0 to 15"
            self.assert_usage("--domain", word, said=f"argument --domain: '{word}' is not a domain; {right}")

    def test_wrong_maps(self):
        for option in ("--hit", "--fill"):
            for ways, word, said in (
                ("8", "3", "'3' alone could be a way or a map; write way3 for way 3, or 0x3"),
                ("8", "x", "'x' is not a way; a map is a list of ways such as"),
                ("8", "3-0", "range 3-0 runs downwards; write 0-3"),
                ("8", "0-8", "way 8 is not below --ways 8; ways go from 0 to 7"),
                ("4", "0xc03", "way 10 is not below --ways 4; ways go from 0 to 3"),
                ("2", "0,1,2", "way 2 is not below --ways 2; ways go from 0 to 1"),
            ):
                self.assert_usage(option, word, "--ways", ways, said=f"argument {option}: {said}")
        empty = "the hit map is empty, and a domain without ways makes no accesses; name a way or more"
        for rest in ((), ("--fill", "none"), ("--fill", "0-3")):
            self.assert_usage("--hit", "none", *rest, said=f"argument --hit: {empty}")
        outside = "way 4 is not in the hit map, 0-3 (0xf); a domain fills only where it hits"
        self.assert_usage("--hit", "0-3", "--fill", "3-6", said=f"argument --fill: {outside}")

    def test_wrong_windows(self):
        for word in ("-1", "x", "1.5", "0x1", "", "9" * 5000):
            self.assert_usage("--window", word, said="argument --window: ")
        both = "{window} in the name behind -o writes every window; leave one of the two out"
        self.assert_usage("--window", "0", "-o", str(self.folder / "w{window}"), said=f"argument --window: {both}")

    def test_output_is_required(self):
        self.assert_bad(("convert", "x.din"), "usage: dipperlock convert ", "the following arguments are required: -o")


class Forms(InFolder):
    """Which form it is, by the option or the name."""

    def test_by_the_name(self):
        for form in FORMS:
            data = (SAMPLES / f"loop.{form}").read_bytes()
            for name in (f"a.{form}", f"A.{form.upper()}", f"a.b.{form}"):
                status, out, err = call("convert", self.file(name, data), "-o", "-")
                self.assertEqual((status, len(out)), (0, 8 + 10 * 43), err)

    def test_by_the_option(self):
        for form in FORMS:
            data = (SAMPLES / f"loop.{form}").read_bytes()
            for name in ("a", "a.txt", *(f"a.{other}" for other in FORMS)):
                status, out, err = call("convert", self.file(name, data), "--from", form, "-o", "-")
                self.assertEqual((status, len(out)), (0, 8 + 10 * 43), err)
            for arguments in (("-",), ()):
                status, out, err = call("convert", *arguments, "--from", form, "-o", "-", stdin=data)
                self.assertEqual((status, len(out)), (0, 8 + 10 * 43), err)

    def test_not_known(self):
        give = "is not known by a name that ends in .din, .lackey or .csv; give --from din, lackey or csv\n"
        for arguments in ((), ("-",)):
            self.assert_bad(("convert", *arguments, "-o", "x"), "usage: ", f"argument --from: the form of standard input {give}")
        for name in ("a", "a.txt", "din", "a.din.gz", "a.trace"):
            path = self.file(name, b"0 40\n")
            self.assert_bad(("convert", path, "-o", "x"), "usage: ", f"argument --from: the form of {path} {give}")

    def test_unknown(self):
        self.assert_bad(("convert", "--from", "xes", "-o", "x"), "argument --from: invalid choice: 'xes'", "lackey")


class Windows(InFolder):
    """Windows of 4,095 accesses, each after a policy change."""

    def test_room(self):
        self.assertEqual(convert.ROOM, ROOM)

    def test_how_many_there_are(self):
        for count, windows in ((1, 1), (ROOM - 1, 1), (ROOM, 1), (ROOM + 1, 2), (2 * ROOM, 2), (2 * ROOM + 1, 3)):
            data = loads(count)
            for window in range(windows):
                steps = converted("--from", "din", "--window", str(window), stdin=data).steps
                due = range(window * ROOM, min((window + 1) * ROOM, count))
                self.assertEqual(steps, (Step(0, 16, 0xFF_00FF), *(Step(0, 1, 64 * number) for number in due)))
            there = "there is one window, 0" if windows == 1 else f"there are {windows}, 0 to {windows - 1}"
            for window in (windows, windows + 1, 10**9 - 1):
                what = f"dipperlock: standard input has no window {window:,}; {there}\n"
                self.assert_bad(("convert", "--from", "din", "-o", "-", "--window", str(window)), what, stdin=data)

    def test_the_first_is_the_default(self):
        data = loads(ROOM + 5)
        first = converted("--from", "din", stdin=data)
        self.assertEqual(first, converted("--from", "din", "--window", "0", stdin=data))
        self.assertEqual(len(first.steps), 4096)

    def test_a_modify_over_the_end_of_a_window(self):
        data = b"I 0,1\n" * (ROOM - 1) + b" M 40,4\n L 80,4\n"
        self.assertEqual(converted("--from", "lackey", stdin=data).steps[-1], Step(0, LOAD, 0x40))
        after = converted("--from", "lackey", "--window", "1", "--domain", "7", stdin=data).steps
        self.assertEqual(after, (Step(7, 16, 0xFF_00FF), Step(7, STORE, 0x40), Step(7, LOAD, 0x80)))

    def test_lines_that_are_left_out_are_not_counted(self):
        data = b"# x\n\n" * 5000 + loads(ROOM)
        self.assertEqual(len(converted("--from", "din", stdin=data).steps), 4096)

    def test_bad_lines_after_the_window_are_told(self):
        data = loads(3 * ROOM) + b"9 9\n"
        for options in (("-o", "-"), ("-o", "-", "--window", "1"), ("-o", str(self.folder / "w{window}.trace"))):
            what = f"standard input:{3 * ROOM + 1}: unknown label '9'; "
            count = "\nstandard input: 1 bad line; no trace was made\n"
            self.assert_bad(("convert", "--from", "din", *options), what, count, stdin=data)
        self.assertEqual(os.listdir(self.folder), [])

    def test_bad_lines_come_before_a_window_that_is_not_there(self):
        self.assert_bad(("convert", "--from", "din", "-o", "-", "--window", "5"), ":1: unknown label 'x'; ", stdin=b"x 1\n")

    def test_no_access_at_all(self):
        for form, example in (("din", "0 1f80"), ("lackey", " L 04222caf,8"), ("csv", "load,0x1f80")):
            for data in (b"", b"\n", b"# only\r\n\n", b"\xef\xbb\xbf"):
                what = f"dipperlock: standard input has no access; in the form {form} '{example}' is one\n"
                for output in ("-", str(self.folder / "x"), str(self.folder / "x{window}")):
                    self.assert_bad(("convert", "--from", form, "-o", output), what, stdin=data)
        self.assert_bad(("convert", "--from", "csv", "-o", "-"), " has no access; ", stdin=b"kind,address\n")
        self.assert_bad(("convert", "--from", "lackey", "-o", "-"), " has no access; ", stdin=b"==1== x\n")
        self.assertEqual(os.listdir(self.folder), [])


class Output(InFolder):
    """What is written, and what is told of it."""

    DOMAIN = "64 sets, 8 ways, rule 0 (Tree-PLRU), domain 0 with hit map 0-7 (0xff) and fill map 0-7 (0xff)"

    def contents(self) -> dict[str, bytes]:
        return {path.name: path.read_bytes() for path in self.folder.iterdir()}

    def test_a_file(self):
        path, target = str(SAMPLES / "loop.lackey"), str(self.folder / "loop.trace")
        options = ("--sets", "1", "--ways", "16", "--rule", "lru", "--domain", "3", "--hit", "way0", "--fill", "none")
        head = "1 set, 16 ways, rule 2 (true LRU), domain 3 with hit map way0 (0x1) and fill map none (0x0)"
        said = f"{target}: {head}, window 0 of 1, 42 accesses, 43 steps\n"
        self.assertEqual(call("convert", path, "-o", target, *options), (0, b"", said))
        steps = (Step(3, 16, 1), *(Step(3, kind, address) for kind, address in LOOP))
        self.assertEqual(self.contents(), {"loop.trace": tracefile.encode(Trace(1, 16, 2, steps))})

    def test_the_samples_give_one_file(self):
        made = [call("convert", str(SAMPLES / f"loop.{form}"), "--hit", "0-3", "-o", "-")[1] for form in FORMS]
        self.assertEqual(made, made[:1] * 3)

    def test_standard_output(self):
        status, out, err = call("convert", "--from", "din", "-o", "-", stdin=b"1 40")
        self.assertEqual((status, out), (0, tracefile.encode(Trace(64, 8, 0, (Step(0, 16, 0xFF_00FF), Step(0, 2, 0x40))))))
        self.assertEqual(err, f"standard output: {self.DOMAIN}, window 0 of 1, 1 access, 2 steps\n")

    def test_a_text(self):
        path = self.file("x.din", loads(2 * ROOM + 1))
        for window, held in ((0, "accesses 0 to 4,094"), (1, "accesses 4,095 to 8,189"), (2, "access 8,190")):
            for name in ("x.txt", "x.TXT"):
                target = str(self.folder / name)
                status, out, err = call("convert", path, "-o", target, "--window", str(window))
                self.assertEqual((status, out), (0, b""), err)
                lines = Path(target).read_text(encoding="utf-8").splitlines()
                self.assertEqual(lines[0], f"# window {window} of 3 of {path} (din): {held}")
                self.assertEqual(lines[1:4], ["sets 64", "ways 8", "rule tree"])
                file = call("convert", path, "-o", "-", "--window", str(window))[1]
                self.assertEqual(files.read_trace(target).data, file)

    def test_names_in_the_comment(self):
        for name in ("caf\u00e9.din", "a\nb.din", "a\udcffb.din", "\u202e.din", "x" * 240 + ".din"):
            path, target = self.file(name, b"0 40\n"), str(self.folder / "x.txt")
            self.assertEqual(call("convert", path, "-o", target)[0], 0)
            first = Path(target).read_text(encoding="utf-8").splitlines()[0]
            self.assertEqual(first, f"# window 0 of 1 of {files.title(path)} (din): access 0")
            self.assertEqual(len(files.read_trace(target).data), 28)
        self.assertEqual(call("convert", "--from", "din", "-o", target, stdin=b"0 40\n")[0], 0)
        self.assertEqual(Path(target).read_bytes()[:48], b"# window 0 of 1 of standard input (din): access ")

    def test_what_is_told_of_more_windows(self):
        path, target = self.file("x.din", loads(ROOM + 1)), str(self.folder / "x.trace")
        made = f"{target}: {self.DOMAIN}, window 0 of 2, 4,095 accesses, 4,096 steps"
        more = "; --window N, 0 to 1, picks another, and {window} in the name writes all"
        self.assertEqual(call("convert", path, "-o", target), (0, b"", f"{made}{more}\n"))
        self.assertEqual(call("convert", path, "-o", target, "--window", "0"), (0, b"", f"{made}\n"))
        said = f"{target}: {self.DOMAIN}, window 1 of 2, 1 access, 2 steps\n"
        self.assertEqual(call("convert", path, "-o", target, "--window", "1"), (0, b"", said))

    def test_an_old_file_is_replaced_or_as_it_was(self):
        target = self.file("x.trace", b"old")
        self.assert_bad(("convert", "--from", "din", "-o", target), "no trace was made", stdin=b"x\n")
        self.assertEqual(self.contents(), {"x.trace": b"old"})
        self.assertEqual(call("convert", "--from", "din", "-o", target, stdin=b"0 40\n")[0], 0)
        self.assertEqual(len(self.contents()["x.trace"]), 28)

    def test_the_input_is_not_overwritten(self):
        for name in ("x.din", "x0.din", "x1.din"):
            path = self.file(name, loads(ROOM + 1))
            before = self.contents()
            for output in (path, str(self.folder / "x{window}.din")):
                if output == path or name != "x.din":
                    what = f"dipperlock: {path} is the input itself, which would be lost; write to another file\n"
                    self.assert_bad(("convert", path, "-o", output), what)
                    self.assertEqual(self.contents(), before)
            os.unlink(path)

    def test_standard_input_is_not_overwritten(self):
        path = self.file("x.din", b"0 40\n")
        for arguments, shell in ((("-o", path), f"<{path}"), (("-o", "-"), f"<{path} >>{path}")):
            status, out, err = ended("convert", "--from", "din", *arguments, shell=shell)
            self.assertEqual((status, out), (2, b""))
            self.assertIn("is the input itself, which would be lost", err)
        self.assertEqual(self.contents(), {"x.din": b"0 40\n"})


class EveryWindow(InFolder):
    """`{window}` in the name."""

    def test_files(self):
        data, name = loads(2 * ROOM + 7), str(self.folder / "w{window}.trace")
        status, out, err = call("convert", "--from", "din", "--sets", "4", "-o", name, stdin=data)
        geometry = "4 sets, 8 ways, rule 0 (Tree-PLRU), domain 0 with hit map 0-7 (0xff) and fill map 0-7 (0xff)"
        said = f"{name}: {geometry}, 3 windows, each in its own file, 8,197 accesses, 8,200 steps\n"
        self.assertEqual((status, out, err), (0, b"", said))
        self.assertEqual(sorted(os.listdir(self.folder)), ["w0.trace", "w1.trace", "w2.trace"])
        for window in range(3):
            due = converted("--from", "din", "--sets", "4", "--window", str(window), stdin=data)
            self.assertEqual((self.folder / f"w{window}.trace").read_bytes(), tracefile.encode(due))

    def test_texts(self):
        path, data = self.file("x.din", loads(ROOM + 2)), loads(ROOM + 2)
        self.assertEqual(call("convert", path, "-o", str(self.folder / "{window}-{window}.txt"))[:2], (0, b""))
        self.assertEqual(sorted(os.listdir(self.folder)), ["0-0.txt", "1-1.txt", "x.din"])
        for window, held in ((0, "accesses 0 to 4,094"), (1, "accesses 4,095 to 4,096")):
            written = (self.folder / f"{window}-{window}.txt").read_bytes()
            self.assertTrue(written.startswith(f"# window {window} of 2 of {path} (din): {held}\nsets 64\n".encode()))
            self.assertEqual(assemble("x", written), converted("--from", "din", "--window", str(window), stdin=data))

    def test_one_window(self):
        name = str(self.folder / "w{window}.trace")
        status, _, err = call("convert", str(SAMPLES / "loop.csv"), "-o", name)
        self.assertEqual((status, os.listdir(self.folder)), (0, ["w0.trace"]))
        self.assertTrue(err.endswith(", 1 window, 42 accesses, 43 steps\n"), err)

    def test_in_folders(self):
        for window in range(2):
            (self.folder / f"d{window}").mkdir()
        name = str(self.folder / "d{window}" / "x")
        self.assertEqual(call("convert", "--from", "din", "-o", name, stdin=loads(ROOM + 1))[0], 0)
        self.assertEqual([os.listdir(self.folder / f"d{window}") for window in range(2)], [["x"], ["x"]])

    def test_in_the_folder_where_one_is(self):
        job = start("convert", str(SAMPLES / "loop.din"), "-o", "{window}.trace", cwd=self.folder)
        self.assertEqual((job.communicate()[0], job.returncode, os.listdir(self.folder)), (b"", 0, ["0.trace"]))

    def test_a_folder_that_is_not_there_is_told_before_all_is_read(self):
        with mock.patch.object(files, "pieces", side_effect=AssertionError("it was read")):
            what = f"dipperlock: cannot write {self.folder}/no/w0: No such file or directory\n"
            self.assert_bad(("convert", "--from", "din", "-o", str(self.folder / "no" / "w{window}")), what, due=3)

    def test_a_write_that_fails(self):
        (self.folder / "w1").mkdir()
        what = f"dipperlock: cannot write {self.folder}/w1: Is a directory; 1 of 3 windows were written before\n"
        arguments = ("convert", "--from", "din", "-o", str(self.folder / "w{window}"))
        self.assert_bad(arguments, what, stdin=loads(2 * ROOM + 1), due=3)
        self.assertEqual(sorted(os.listdir(self.folder)), ["w0", "w1"])

    @needs_full
    def test_no_room_for_what_is_kept(self):
        with mock.patch("tempfile.TemporaryFile", lambda dir: open("/dev/full", "r+b", buffering=0)):
            what = "dipperlock: cannot write "
            for count in (1, ROOM + 1):
                arguments = ("convert", "--from", "din", "-o", str(self.folder / "w{window}"))
                self.assert_bad(arguments, what, "w0: No space left on device\n", stdin=loads(count), due=3)
        self.assertEqual(os.listdir(self.folder), [])

    def test_memory_does_not_grow(self):
        for name in ("w.trace", "w{window}.trace"):
            with mock.patch.object(files, "pieces", lambda name, size: (loads(1000) for _ in range(50))), little_memory(3 << 20):
                self.assertEqual(call("convert", "x.din", "-o", str(self.folder / name))[0], 0)
        self.assertEqual(len(os.listdir(self.folder)), 14)


class Streams(InFolder):
    """Files and streams that cannot be read or written, that are cut, or that do not end."""

    def test_unreadable(self):
        missing, target = str(self.folder / "no.din"), str(self.folder / "x")
        for output in (target, target + "{window}", "-"):
            self.assert_bad(("convert", missing, "-o", output), f"cannot read {missing}: No such file or directory\n", due=3)
            what = f"cannot read {self.folder}: Is a directory\n"
            self.assert_bad(("convert", str(self.folder), "--from", "csv", "-o", output), what, due=3)
        self.assertEqual(os.listdir(self.folder), [])

    def test_unwritable(self):
        for target, why in ((str(self.folder), "Is a directory"), (str(self.folder / "no" / "x"), "No such file or directory")):
            what = f"cannot write {target}: {why}\n"
            self.assert_bad(("convert", "--from", "din", "-o", target), what, stdin=b"0 40\n", due=3)

    def test_standard_input_that_cannot_be_read(self):
        for shell, why in (("<&-", "it is closed; name a file"), ("0>/dev/null", "Bad file descriptor")):
            for output in ("-", str(self.folder / "w{window}")):
                status, out, err = ended("convert", "--from", "din", "-o", output, shell=shell)
                self.assertEqual((status, out, err), (3, b"", f"dipperlock: cannot read standard input: {why}\n"))

    def test_closed_standard_output(self):
        status, _, err = ended("convert", "--from", "din", "-o", "-", shell=">&-", data=b"0 40\n")
        self.assertEqual((status, err), (3, "dipperlock: cannot write standard output: it is closed\n"))

    @unittest.skipUnless(os.path.exists("/dev/zero"), "there is no /dev/zero")
    def test_a_file_without_end(self):
        for form in FORMS:
            self.assert_bad(("convert", "/dev/zero", "--from", form, "-o", "-"), "/dev/zero:1: a zero byte, ", "1 bad line; ")

    def test_trace_files_and_texts_are_no_address_traces(self):
        text_file = str(programs.ROOT / "examples" / "case-a.txt")
        status, trace, _ = call("assemble", text_file, "-o", "-")
        self.assertEqual(status, 0)
        for form in FORMS:
            self.assert_bad(("convert", "--from", form, "-o", "-"), ":1: a zero byte, ", stdin=trace)
            self.assert_bad(("convert", text_file, "--from", form, "-o", "-"), f"{text_file}:3: ")

    def test_a_pipe(self):
        data = b"".join(b"I  %08x,4\n S %08x,8\n" % (4 * number, 8 * number) for number in range(50_000))
        with subprocess.Popen(("cat",), stdin=subprocess.PIPE, stdout=subprocess.PIPE) as cat:
            job = start("convert", "--from", "lackey", "-o", "-", "--window", "24", stdin=cat.stdout)
            cat.stdout.close()
            with cat.stdin:
                cat.stdin.write(data)
            out, err = job.communicate()
        self.assertEqual((job.returncode, out[:8]), (0, b"\x40\0\x08\0" + (100_000 - 24 * ROOM + 1).to_bytes(4, "little")), err)

    def test_garbage(self):
        source = random.Random(11)
        letters = b",", b'"', b"\n", b" ", b"#", b"\xff", b"\xc3\xa9", b"\r", b"\x1c"
        pieces = (b"", *letters, b"==", b"kind", b"0x", b"9" * 30, b"M ")
        for number in range(90):
            form = FORMS[number % 3]
            data = bytearray((SAMPLES / f"loop.{form}").read_bytes())
            for _ in range(source.randint(1, 6)):
                place = source.randrange(len(data))
                data[place : place + source.randint(0, 3)] = source.choice(pieces)
            self.check_any(form, bytes(data))
            self.check_any(form, random_bytes(source, source.randrange(200)))
            self.check_any(form, bytes(source.choice(b'\n\n,, "LIMS01248afx=-#\t\r') for _ in range(60)))

    def check_any(self, form: str, data: bytes) -> None:
        status, out, err = call("convert", "--from", form, "-o", "-", stdin=data)
        self.assertIn(status, (0, 2), err)
        self.assertEqual(bool(out), status == 0, err)
        self.assertNotIn("Traceback", err)

    @unittest.skipUnless(hasattr(os, "openpty"), "there are no terminals to be had")
    def test_a_terminal(self):
        keyboard, terminal = os.openpty()
        with start("convert", "--from", "din", "-o", "-", stdin=terminal) as job:
            os.close(terminal)
            os.write(keyboard, b"0 40\n\x04")
            out, err = job.communicate(timeout=60)
        os.close(keyboard)
        self.assertEqual((job.returncode, len(out)), (0, 28))
        self.assertTrue(err.startswith(b"dipperlock: reading from standard input; end it with Ctrl-D\nstandard output: "), err)


class Help(InFolder):
    """What is said of the command."""

    def test_examples_that_need_no_program(self):
        os.symlink(programs.ROOT / "examples", self.folder / "examples")
        lines = [shlex.split(line) for line in helptext.EXAMPLES["convert"]]
        for tool, command, *arguments in lines:
            self.assertEqual(tool, "./dipperlock")
            if command == "convert":
                status, out, err = ended(command, *arguments, cwd=self.folder)
                self.assertEqual((status, out), (0, b""), err)
        written = sorted(path.name for path in self.folder.iterdir() if path.name != "examples")
        self.assertEqual(written, ["loop.trace", "loop0.trace"])

    def test_it_says_what_is_so(self):
        said = " ".join(call("convert", "--help")[1].decode().split())
        for part in (
            f"a line with an access has up to {addresses.LONGEST:,} bytes",
            f"up to {convert.ROOM:,} accesses",
            "window N has accesses 4,095 x N to 4,095 x N + 4,094",
            "kinds are load (read, r, l), store (write, w, s, rfo), fetch (ifetch, instruction, inst, i) and flush (clflush, f)",
            "(kind, type or access; address, addr or vaddr)",
        ):
            self.assertIn(part, said)
        self.assertLess(max(map(len, helptext.CONVERT.splitlines())), 86)

    def test_the_examples_of_forms_are_right(self):
        for form, line in (("din", "0 1f80"), ("lackey", " L 1f80,8"), ("csv", "load,0x1f80")):
            self.assertIn(f"'{line}'", helptext.CONVERT)
            self.assertEqual(read(form, line.encode()), [(LOAD, 0x1F80)])
            self.assertEqual(len(read(form, addresses.FORMS[form].example.encode())), 1)


@needs_programs
class WithPrograms(InFolder):
    """The lister takes what was converted, without a refusal."""

    def listed(self, *arguments: str, stdin: bytes = b"") -> listing.Listing:
        status, out, err = call("convert", "-o", "-", *arguments, stdin=stdin)
        self.assertEqual(status, 0, err)
        found = listing.parse(programs.lister(out))
        listing.check(found, out)
        self.assertIsNone(found.refused)
        self.assertNotIn("refused", {answer.word for answer in found.answers})
        return found

    def test_samples(self):
        for form in FORMS:
            path = str(SAMPLES / f"loop.{form}")
            self.assertEqual(self.listed(path).counts, {0: (34, 8, 0, 0, 0, 8, 0)})
            for rule, least in (("tree", 10), ("lru", 11), ("nru", 8)):
                for domain in ("0", "15"):
                    counts = self.listed(path, "--hit", "0-3", "--rule", rule, "--domain", domain).counts[int(domain)]
                    self.assertGreaterEqual(counts.evicted, least, (form, rule))
                    self.assertEqual(counts.hits + counts.misses, 42)
            self.assertEqual(self.listed(path, "--fill", "none").counts, {0: (0, 42, 0, 0, 0, 0, 0)})

    def test_every_geometry(self):
        source = random.Random(12)
        data = b"".join(b"%d %x\n" % (source.randrange(3), source.getrandbits(64)) for _ in range(300))
        for sets in (1, 16, 256):
            for ways in (2, 4, 8, 16):
                for rule in ("tree", "nru", "lru"):
                    options = ("--sets", str(sets), "--ways", str(ways), "--rule", rule)
                    found = self.listed("--from", "din", *options, stdin=data)
                    self.assertEqual(len(found.answers), 301)

    def test_windows(self):
        source = random.Random(13)
        kinds = ("load", "store", "fetch", "flush")
        rows = (f"{source.choice(kinds)},{source.randrange(1 << 16)}" for _ in range(2 * ROOM + 100))
        data = "\n".join(rows).encode()
        for window, steps in ((0, 4096), (1, 4096), (2, 101)):
            options = ("--window", str(window), "--sets", "16", "--hit", "0-5", "--fill", "1-3")
            found = self.listed("--from", "csv", *options, stdin=data)
            self.assertEqual((len(found.answers), str(found.answers[0])), (steps, "policy 0 0"))

    def test_a_text_is_listed_as_its_file(self):
        path, target = str(SAMPLES / "loop.csv"), str(self.folder / "loop.txt")
        self.assertEqual(call("convert", path, "--hit", "0-3", "-o", target)[0], 0)
        file = call("convert", path, "--hit", "0-3", "-o", "-")[1]
        self.assertEqual(call("list", target), call("list", stdin=file))


class Failing(unittest.TestCase):
    """A file that fails while it is read."""

    def test_an_error_in_the_middle(self):
        def pieces(name: str, size: int):
            yield loads(10)
            raise MachineFailure("cannot read x.din: Input/output error")

        due = 3, b"", "dipperlock: cannot read x.din: Input/output error\n"
        with mock.patch.object(files, "pieces", pieces):
            self.assertEqual(call("convert", "x.din", "-o", "-"), due)

    def test_pieces(self):
        for count in (0, 1, 9, 10, 11, 25, 30):
            with mock.patch("sys.stdin", io.TextIOWrapper(io.BytesIO(b"x" * count))):
                pieces = list(files.pieces("-", 10))
            self.assertEqual((b"".join(pieces), len(pieces)), (b"x" * count, count // 10 + 1))


if __name__ == "__main__":
    unittest.main()
