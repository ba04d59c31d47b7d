"""The forms of a log's lines: which lines fit, what they say, and how forms and lines that are wrong are told."""
from __future__ import annotations

import random
import re
import unittest
from unittest import mock

from frontend import files, listing, logform, programs
from frontend.logform import Entry, Form, Log, Reading
from frontend.tests import case_a
from frontend.tests.helpers import by_rote, call, ended, random_bytes
from frontend.tests.test_cli import CASE_A, InFolder


class Forms(unittest.TestCase):
    """Lines that fit a form, and what they say."""

    def read(self, form: str, line: str) -> Entry | None:
        return Form(form).read(7, line, line)

    def check(self, form: str, line: str, place: int | None, said: str) -> None:
        entry = self.read(form, line)
        self.assertIsNotNone(entry, (form, line))
        self.assertEqual((entry.line, entry.of, entry.number, str(entry.reading)), (7, logform.STEP, place, said), (form, line))

    def assert_unfit(self, form: str, *lines: str) -> None:
        for line in lines:
            self.assertIsNone(self.read(form, line), (form, line))

    def test_all_fields(self):
        for line, said in (
            ("5 evict 1 0 1", "evict 1 0 1"),
            ("5 EVICT 1,0,1", "evict 1 0 1"),
            ("5  Evict\t1 , 0x0  ,0X1", "evict 1 0 1"),
            ("0x5 evict 0x1 0x1f 1", "evict 1 31 1"),
            ("5 pass", "pass"),
            ("5 hit x", "hit x"),
            ("5 hit -1", "hit -1"),
            ("5 evict 1 0xzz ?", "evict 1 0xzz ?"),
            ("05 hit 010", "hit 10"),
        ):
            self.check("{place} {word} {fields}", line, 5, said)
        for line in ("5 hit", "5 hit 1 2", "5 pass 0", "5 evict 1 0", "5 evict 1,,0 1", "5 evict 1 0 1,"):
            self.assert_unfit("{place} {word} {fields}", line)
        for line in ("hit 1", "5 hit 1_0", "5 hit 1f", "x hit 1", "5 miss 1", "5 hits 1", "5 hit1", "-5 hit 1", "5", ""):
            self.assert_unfit("{place} {word} {fields}", line)

    def test_all_fields_by_name(self):
        for line, said in (
            ("5 EVICT way=1 tag=0x0 dirty=1", "evict 1 0 1"),
            ("5 EVICT dirty: 1, TAG: 0x1f, Way:2", "evict 2 31 1"),
            ("5 EVICT way= 1 tag=    9 dirty=0", "evict 1 9 0"),
            ("5 HIT way=1 tag=0 dirty=0 set=3", "hit 1"),
            ("5 PASS way=x tag=- dirty=0", "pass"),
            ("5 EVICT way=x tag=0 dirty=0", "evict x 0 0"),
            ("5 POLICY dropped=2 dirty_dropped=1", "policy 2 1"),
            ("5 SELECT es=3 ds=2 cs=1", "select 1 2 3"),
            ("5 REFUSED number=6", "refused 6"),
        ):
            self.check("{place} {word} {fields}", line, 5, said)
        for line in ("5 EVICT way=1 dirty=1", "5 EVICT way=1 tag=0 dirty=1 way=1", "5 EVICT way=1 tag=0 1"):
            self.assert_unfit("{place} {word} {fields}", line)
        self.assert_unfit("{place} {word} {fields}", "5 HIT tag=0", "5 HIT way=", "5 HIT way", "5 HIT =1")

    def test_fields_within_other_things(self):
        self.check("[{place}] {word}({fields})", "[5] pass()", 5, "pass")
        self.check("[{place}] {word}({fields})", "[5] evict(1, 0, 1)", 5, "evict 1 0 1")
        self.check("{word} {fields} at {any}", "pass at 12ns", None, "pass")
        self.check("{word} {fields} at {any}", "evict 1 0 1  at 12ns", None, "evict 1 0 1")
        self.check("{word} {fields} {rest}", "evict 1 0 1 2ns or so", None, "evict 1 0 1")
        self.check("{word}:{fields}", "hit:1", None, "hit 1")
        self.assert_unfit("{word} {fields} {rest}", "hit 1 2 or so", "hit")

    def test_single_fields(self):
        form = "@{any} cache: step={place} {word} way={way} tag={tag} dirty={dirty}"
        for line, said in (
            ("@12ns cache: step=5 evict way=1 tag=0x1f dirty=1", "evict 1 31 1"),
            ("@12ns cache: step=5 hit way=1 tag=0 dirty=0", "hit 1"),
            ("@12ns  cache:   step=  5 FLUSH  way= 1 tag= 0 dirty= 0", "flush 1 0"),
            ("@12ns cache: step=5 absent way=x tag=z dirty=-", "absent"),
            ("@12ns cache: step=5 fill way=-1 tag=- dirty=-", "fill -1"),
        ):
            self.check(form, line, 5, said)
        for begin in ("@ cache: step=5", "@1 ns cache: step=5", "@1 cache: step=x", "@1 Cache: step=5", "1 cache: step=5"):
            self.assert_unfit(form, f"{begin} hit way=1 tag=0 dirty=0")
        for rest in ("way=1", "way=1f tag=0 dirty=0", "way=1 tag=0 dirty=0 more", "way=1 tag= dirty=0", "way=1tag=0 dirty=0"):
            self.assert_unfit(form, f"@12ns cache: step=5 hit {rest}")

    def test_what_the_form_does_not_have_is_not_said(self):
        self.check("{place} {word} way={way}", "5 evict way=1", 5, "evict 1 - -")
        self.check("{word}", "SELECT", None, "select - - -")
        entry = self.read("{place} {word} {dirty}", "5 evict 1")
        self.assertEqual(entry.reading, Reading("evict", (None, None, 1)))
        self.assertTrue(entry.reading.agrees(Reading("evict", (3, 4, 1))))
        self.assertFalse(entry.reading.agrees(Reading("evict", (3, 4, 0))))
        self.assertFalse(entry.reading.agrees(Reading("flush", (3, 1))))

    def test_every_word_and_field(self):
        for word, names in listing.FIELDS.items():
            values = range(1, len(names) + 1)
            said = " ".join(map(str, (word, *values)))
            single = " ".join(("{word}", *(f"{{{name}}}" for name in names)))
            self.check(single, said.upper(), None, said)
            self.check("{word} {fields}", said, None, said)
            by_name = " ".join((word, *(f"{name}={value}" for name, value in zip(names, values))))
            self.check("{word} {fields}", by_name, None, said)

    def test_rest_and_any(self):
        self.check("{word} {rest}", "hit", None, "hit -")
        self.check("{word} {rest}", "hit and so on", None, "hit -")
        self.check("{word}{rest}", "hit, and so on", None, "hit -")
        self.check("{word} {way}{rest}", "hit 12, and so on", None, "hit 12")
        self.check("{any}:{place}:{any} {word}", "a:b:5:c:d hit", 5, "hit -")
        self.assert_unfit("{word}{rest}", "hits")
        self.assert_unfit("{word} {way}{rest}", "hit 1f", "hit 1_000", "hit 12ns")
        self.assert_unfit("{any} {word}", "hit", "a b hit")

    def test_braces_and_blanks(self):
        self.check("{{{word}}} {{{{", "{hit} {{", None, "hit -")
        self.check("  a \t b   {word}  ", "a   b hit", None, "hit -")
        self.check("a.b*[{word}]", "a.b*[hit]", None, "hit -")
        self.assert_unfit("a.b {word}", "axb hit")

    def test_no_line_takes_long(self):
        for form in ("{any}:{any}x {word}", "{word} {fields} x", "{place} {word} way={way} {rest}", "{any} {any} {any} {word}"):
            for line in (":" * 1000, "hit " + "1 " * 498, "hit 1" + " " * 994 + "y", "5 hit way=" + "1" * 980 + "x", "a " * 500):
                self.assertIsNone(self.read(form, line))
        self.assertIsNone(self.read("{word} {rest}", "hit " + "x" * logform.LONGEST))


class BadForms(InFolder):
    """Forms that cannot be used."""

    def test_each(self):
        for form, what in (
            ("{place} {wrod}", "unknown placeholder '{wrod}'; did you mean '{word}'? "),
            ("{word} {}", "unknown placeholder '{}'. "),
            ("{word} { way }", "unknown placeholder '{ way }'; did you mean '{way}'? "),
            ("{Word}", "unknown placeholder '{Word}'; did you mean '{word}'? "),
            ("{place} {fields}", "there is no {word}, the word of the answer, without which nothing can be compared. "),
            ("", "there is no {word}, the word of the answer, without which nothing can be compared. "),
            ("{{word}}", "there is no {word}, the word of the answer, without which nothing can be compared. "),
            ("{word} {", "the '{' at character 8 stands alone; write '{{' for a brace. "),
            ("{word", "the '{' at character 1 stands alone; write '{{' for a brace. "),
            ("a} {word}", "the '}' at character 2 stands alone; write '}}' for a brace. "),
            ("{wo{word}rd}", "the '{' at character 1 stands alone; write '{{' for a brace. "),
            ("{word} {fields} {tag}", "{fields} stands for all numbers of the answer, and {tag} for one of them; keep either. "),
            ("{word} {way} {way}", "{way} stands there twice; only {any} may. "),
            ("{word} {word}", "{word} stands there twice; only {any} may. "),
            ("{place} {word} {place}", "{place} stands there twice; only {any} may. "),
            ("{rest} {word}", "something stands behind {rest}, which goes to the end of the line. "),
            ("{word} {rest}.", "something stands behind {rest}, which goes to the end of the line. "),
            ("{any}{word}", "nothing tells where {any} ends and {word} begins; write what the log has between them. "),
            ("{word}{fields}", "nothing tells where {word} ends and {fields} begins; write what the log has between them. "),
            ("{word} tag=0x{tag}", "{tag} stands for the whole number, its 0x too; leave the 0x before it out. "),
            ("{any}:{any}:{any}:{word}", "{any} stands more than 2 times without a blank; one {any} takes all that has none. "),
        ):
            told = f"dipperlock check: error: argument --format: {form!r}: {what}{logform.PLACEHOLDERS_ARE}\n"
            self.assert_bad(("check", CASE_A, "-", "--format", form), "usage: dipperlock check ", told)

    def test_placeholders_are_told(self):
        self.assertEqual(
            logform.PLACEHOLDERS_ARE,
            "Placeholders are {place}, {word}, {fields}, {way}, {tag}, {dirty}, {dropped}, {dirty_dropped},"
            " {cs}, {ds}, {es}, {number}, {any}, {rest}",
        )

    def test_a_long_form_is_not_told_whole(self):
        status, out, err = call("check", CASE_A, "-", "--format", "x" * 100_000)
        self.assertEqual((status, out), (2, b""))
        self.assertLess(len(err), 1500)

    def test_forms_that_do_not_go_together(self):
        what = "dipperlock: one --format has {place} and another has not; put it into all, or into none"
        self.assert_bad(("check", CASE_A, "-", "--format", "{word}", "--format", "{place} {word}"), what)

    def test_other_arguments(self):
        both = "dipperlock: FILE and LOG cannot both be standard input; name a file for one of them\n"
        self.assert_bad(("check", "-", "-"), both)
        self.assert_bad(("check", CASE_A), "the following arguments are required: LOG")
        small = "argument --max: '0' is too small; at least one difference is told"
        self.assert_bad(("check", CASE_A, "-", "--max", "0"), small)
        for most in ("-1", "x", "1.5", "1" * 30):
            self.assert_bad(("check", CASE_A, "-", f"--max={most}"), f"argument --max: '{most}' is not a number")


class Lines(InFolder):
    """Logs whose lines are right or wrong, without a program."""

    def log(self, text: str | bytes, *forms: str) -> Log:
        return Log("a.log", text if isinstance(text, bytes) else text.encode(), [Form(form) for form in forms])

    def told(self, text: str | bytes, *forms: str) -> str:
        with self.assertRaises(logform.SourceErrors) as caught:
            self.log(text, *forms).refuse_strange()
        self.assertEqual(caught.exception.status, 2)
        return caught.exception.report()

    def test_a_listing(self):
        log = self.log(case_a.LISTING)
        self.assertEqual([str(entry.reading) for entry in log.entries if entry.of == logform.HEADER], ["1 4 0 9"])
        answers = [f"{entry.number} {entry.reading}" for entry in log.entries if entry.of == logform.STEP]
        self.assertEqual(answers, case_a.LISTING.decode().splitlines()[1:10])
        domains = [str(entry.reading) for entry in log.entries if entry.of == logform.DOMAIN]
        self.assertEqual(domains, case_a.LISTING.decode().splitlines()[10:])
        self.assertEqual(log.strange, [])
        self.assertEqual(self.log("refused 10\n").entries, [Entry(1, logform.FILE, 0, Reading("refused", (10,)))])

    def test_blank_lines_comments_and_ends(self):
        text = "\ufeff\r\n  # a comment: 5 hit 1\r\n\t0 hit 1 # two\r\n\r\n"
        text += "1 pass\t# three #\r\n#\n2 evict 1 0 1   #\n  \n3 hit 0"
        for forms in ((), ("{place} {word} {fields}",)):
            log = self.log(text, *forms)
            said = [(entry.line, entry.number, str(entry.reading)) for entry in log.entries]
            self.assertEqual(said, [(3, 0, "hit 1"), (5, 1, "pass"), (7, 2, "evict 1 0 1"), (9, 3, "hit 0")])
            self.assertEqual(log.strange, [])

    def test_a_hash_within_a_word_is_no_comment(self):
        log = self.log("a#1 hit 1\n", "{any} {word} {fields}")
        self.assertEqual([str(entry.reading) for entry in log.entries], ["hit 1"])

    def test_a_form_with_a_hash(self):
        text = "# 5 hit 1\n# note\n6 hit 1 # note\n"  # some simulators begin each line so
        log = self.log(text, "# {place} {word} {fields}")
        self.assertEqual([(entry.number, str(entry.reading)) for entry in log.entries], [(5, "hit 1")])
        self.assertEqual(log.strange, [3])
        log = self.log(text, "# {place} {word} {fields}", "{place} {word} {fields}")
        self.assertEqual([(entry.number, str(entry.reading)) for entry in log.entries], [(5, "hit 1"), (6, "hit 1")])
        self.assertEqual(log.strange, [])

    def test_the_first_form_that_fits(self):
        forms = "{place} {word} way={way} tag={tag}", "{place} {word} way={way} {rest}", "{place} {word} {fields}"
        log = self.log("0 hit way=1 tag=2\n1 evict way=1 tag=2\n2 evict way=1\n3 pass\n4 hit 1\n", *forms)
        self.assertEqual([str(entry.reading) for entry in log.entries], ["hit 1", "evict 1 2 -", "evict 1 - -", "pass", "hit 1"])

    def test_lines_that_fit_no_form(self):
        forms = "t={any} CACHE step={place} {word} way={way}", "t={any} CACHE step={place} {word} {fields}"
        for line, column, what in (
            ("t=1 CACHE step=5 EVCT way=1", 18, "here should stand {word}, one of hit, fill, evict, "),
            ("t=1 CACH step=5", 5, "here should stand 'CACHE'"),
            ("hello", 1, "here should stand 't='"),
            ("t=1", 4, "here should stand a blank"),
            ("t=", 3, "here should stand {any}, which is no blank"),
            ("t=1 CACHE step=x hit 1", 16, "here should stand {place}, a number"),
            ("t=1 CACHE step=5 hit way=1 for all", 27, "here should stand the end of the line"),
            ("t=1 CACHE step=5 hit 1 for all", 23, "here should stand a number, or the end of the line"),
            ("t=1 CACHE step=5 hit way=y", 26, "here should stand {way}, a number"),
            ("t=1 CACHE step=5 hit", 21, "'hit' has 1 number (way), and here are 0"),
            ("t=1 CACHE step=5 hit 1, 2", 22, "'hit' has 1 number (way), and here are 2"),
            ("t=1 CACHE step=5 absent 1", 25, "'absent' has 0 numbers, and here is 1"),
            ("t=1 CACHE step=5 evict way=1 tag=0", 24, "'evict' has 3 numbers (way, tag, dirty), and dirty is not there"),
            ("t=1 CACHE step=5 flush way=1 0", 24, "either each number has a name before it, and no name stands twice, or none"),
        ):
            told = self.told(f"# a\n  {line} # b\n", *forms)
            self.assertIn(f"a.log:2:{column + 2}: this line fits no form: {what}", told)
            self.assertIn(f"\n      {line} # b\n    {' ' * (column + 1)}^\n", told)
            hint = "--format may be given more than once, and --skip passes such lines over"
            self.assertTrue(told.endswith(f"\na.log: 1 line fits no form; {hint}"), told)

    def test_lines_that_are_not_of_a_listing(self):
        are = "lines are 'SETS WAYS RULE STEPS', 'PLACE WORD NUMBERS' and 'domain N' with seven counts"
        for line, what in (
            ("hello", are),
            ("1 4 0", are),
            ("domain 0 1 2", are),
            ("5 miss 1", are),
            ("refused", are),
            ("5 evict 1 0", "'evict' has 3 numbers (way, tag, dirty), and here are 2"),
            ("5 pass 0", "'pass' has 0 numbers, and here is 1"),
        ):
            told = self.told(f"1 4 0 9\r\n{line}\r\n")
            hint = "--format describes lines of another form, and --skip passes such lines over"
            first = f"a.log:2:1: this is no line of a listing: {what}\n    {line}\n    {'^' * len(line)}\n"
            self.assertEqual(told, f"{first}a.log: 1 line is not of a listing; {hint}")

    def test_the_first_few_are_told(self):
        told = self.told("x\n" * 1000)
        self.assertEqual(re.findall("^a.log:([0-9]+):", told, re.MULTILINE), ["1", "2", "3", "4", "5"])
        self.assertIn("\na.log: 1,000 lines are not of a listing, the first 5 shown; ", told)
        self.assertIn("\na.log: 6 lines fit no form, the first 5 shown; ", self.told("x\n" * 6, "{word}"))
        self.assertIn("\na.log: 5 lines fit no form; ", self.told("x\n" * 5, "{word}"))

    def test_what_is_no_text(self):
        for data in (b"\0\1\2\n", b"\xff\xfe5 hit\n", b"\x1b[31m5 hit 1\n"):
            self.assertTrue(self.told(data).replace("\n", "").isprintable(), data)
        self.assertEqual(len(self.log(b"caf\xe9: hit 1\n", "{any}: {word} {way}").entries), 1)
        self.assertEqual(self.log(b"# caf\xe9\n").strange, [])

    def test_a_long_line(self):
        told = self.told("hit " + "x" * 5000, "{word} {rest}")
        self.assertIn("a.log:1:1: this line has 5,004 characters, and the most is 1,000\n", told)
        self.assertLess(len(told), 1000)
        self.assertEqual(self.log("#" + "x" * 5000).strange, [])
        self.assertEqual(len(self.log("hit # " + "x" * 5000, "{word} {rest}").entries), 1)

    def test_bad_lines_are_bad_input_before_any_program_is_run(self):
        path = self.file("a.log", b"0 policy 0 0\nhello\n")
        with mock.patch.object(programs, "need", mock.Mock(side_effect=AssertionError)):
            self.assert_bad(("check", CASE_A, path), f"{path}:2:1: this is no line of a listing: ")
            self.assert_bad(("check", CASE_A, path, "--json"), f"{path}:2:1: this is no line of a listing: ")
            self.assert_bad(("check", CASE_A, "-"), "standard input:1:1: this is no line", stdin=b"?")

    def test_files_that_cannot_be_read(self):
        self.assert_bad(("check", CASE_A, "no such log"), "dipperlock: cannot read no such log: No such file", due=3)
        self.assert_bad(("check", "no such file", CASE_A), "dipperlock: cannot read no such file: No such file", due=3)
        self.assert_bad(("check", CASE_A, str(self.folder)), "dipperlock: cannot read ", due=3)
        status, out, err = ended("check", CASE_A, "-", shell="<&-")
        self.assertEqual((status, out, err), (3, b"", "dipperlock: cannot read standard input: it is closed; name a file\n"))
        self.assert_bad(("check", self.file("b.txt", b"sets 1\n0 lod 0\n"), "-"), "b.txt:2:3: unknown kind 'lod'")

    def test_a_log_that_is_too_long(self):
        self.assertEqual(files.LARGEST_LOG, 16_777_216)
        with mock.patch.object(files, "LARGEST_LOG", 4096 * 3):
            most = "more than 12,288 bytes, the most that a log may have (3 for each of the 4,096 steps that a trace can have)"
            self.assert_bad(("check", CASE_A, "-"), f"dipperlock: standard input has {most}; keep those ", stdin=b"#" * 12_289)
            self.assertEqual(files.read_log(self.file("a.log", b"#" * 12_288)), b"#" * 12_288)


class Garbage(InFolder):
    """Forms and logs without sense never give a traceback."""

    NAMES = "{place}", "{word}", "{fields}", "{way}", "{any}", "{rest}"
    PIECES = (*NAMES, "{", "}", "{{", "}}", " ", "step=", "0x", "#", "(", "*", "\\", "")
    WORDS = b"hit", b"EVICT", b"way=", b"domain ", b"9" * 500
    BYTES = (*WORDS, b"5", b" ", b"0x", b",", b"-", b"x", b"#", b"\r\n", b"\n", b"\0", b"\xff")
    OPTIONS = (), ("--skip",), ("--json", "--skip", "--max", "99"), ("--format", "{place} {word} {fields}", "--skip")

    def check(self, log: bytes, *options: str) -> int:
        said = {"lister": {case_a.FILE: case_a.LISTING}.__getitem__, "stepper": {case_a.FILE: case_a.STREAM}.__getitem__}
        with by_rote(**said):
            status, out, err = call("check", CASE_A, "-", *options, stdin=log)
        self.assertIn(status, (0, 1, 2), err)
        self.assertNotIn("Traceback", err)
        self.assertEqual((out == b"", err != ""), (status == 2, status == 2))
        return status

    def test_forms(self):
        source, seen = random.Random(41), set()
        for _ in range(600):
            form = "".join(source.choice(self.PIECES) for _ in range(source.randint(1, 7)))
            seen.add(self.check(b"5 hit 1\nstep=5 evict way=1\nhit\n", f"--format={form}", *source.choice(((), ("--skip",)))))
        self.assertEqual(seen, {1, 2})

    def test_logs(self):
        source, seen = random.Random(42), set()
        for _ in range(300):
            log = bytearray(case_a.LISTING)
            for _ in range(source.randint(0, 4)):
                place = source.randrange(len(log))
                log[place : place + source.randint(0, 4)] = source.choice(self.BYTES)
            seen.add(self.check(bytes(log), *source.choice(self.OPTIONS)))
        self.assertEqual(seen, {0, 1, 2})
        for size in (0, 1, 10, 1000, 100_000):
            self.check(random_bytes(source, size), "--skip")
