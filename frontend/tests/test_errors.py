"""Every error of a trace text: its line, its column and its words."""
from __future__ import annotations

import unittest

from frontend.assembler import assemble
from frontend.source import SourceErrors
from frontend.tracefile import Trace

HEADER = "sets 1\nways 4\nrule tree\n"


def report(data: bytes) -> str:
    """Assemble a text that has errors and give what is told of them."""
    try:
        assemble("case.txt", data)
    except SourceErrors as errors:
        return errors.report()
    raise AssertionError("the text was assembled")


class StepErrors(unittest.TestCase):
    """Errors within one step, on line 4."""

    def check(self, line: str, column: int, message: str) -> None:
        told = report((HEADER + line + "\n").encode())
        self.assertIn(f"case.txt:4:{column}: {message}", told)
        self.assertTrue(told.endswith("\ncase.txt: 1 error; no trace was made"), told)

    def test_domain(self):
        self.check("256 load 0", 1, "'256' is too large; a domain goes from 0 to 255")
        self.check("  0x load 0", 3, "'0x' is not a number; a domain is written in decimal")
        self.check("-1 load 0", 1, "'-1' is not a number")
        with_core = "or with a core, as in 'core 3 load ...'"
        self.check("load 0x40", 1, f"the domain is missing; a step starts with it, as in '0 load ...', {with_core}\n")
        self.check("kind=7 0x40", 1, "the domain is missing; a step starts with it, as in '0 kind=7 ...'\n")
        self.check("policy arg=0", 1, "the domain is missing; a step starts with it, as in '0 policy ...'\n")
        self.check("domain 3 load 0x40", 1, "a domain is named by its number alone; write it as in '0 load 0x40'")
        self.check("domain=3", 1, "a domain is named by its number alone; write it as in '0 load 0x40'")

    def test_kind(self):
        kinds = "Kinds are fetch, load, store, flush, policy, kind=N"
        self.check("0 lod 0x40", 3, f"unknown kind 'lod'; did you mean 'load'? {kinds}")
        self.check("0 LOAD 0x40", 3, f"unknown kind 'LOAD'; did you mean 'load'? {kinds}")
        self.check("0 zzz 0x40", 3, f"unknown kind 'zzz'. {kinds}")
        self.check("zzz load 0x40", 1, "'zzz' is not a number; a domain is written in decimal")
        self.check("0", 2, f"the step lacks its kind, as in '0 load 0x40'. {kinds}")
        self.check("0 kind=256 1", 8, "'256' is too large; a kind goes from 0 to 255")
        self.check("0 kind=x 1", 8, "'x' is not a number; a kind is")
        self.check("0 kind= 1", 8, "a number is missing; a kind is")

    def test_core(self):
        self.check("core 256 load 0", 6, "'256' is too large; a core goes from 0 to 255")
        self.check("core x load 0", 6, "'x' is not a number; a core is written in decimal")
        self.check("core -1 load 0", 6, "'-1' is not a number; a core is")
        missing = "the core's number is missing; it follows 'core', as in 'core 3 load 0x40'"
        for rest in ("", " # 3", " load 0x40", " select cs=0 ds=0 es=0", " kind=33 0", " policy arg=0"):
            self.check(f"core{rest}", 1, missing)
        for word in ("core3", "core=3", "core-3", "core:3"):
            self.check(f"{word} load 0x40", 1, "the core's number stands apart from 'core'; write 'core 3'")
            self.check(f"{word}", 1, "the core's number stands apart from 'core'; write 'core 3'")
        self.check("select arg=0", 1, "the core is missing; the step starts with it, as in 'core 3 select ...'")
        self.check("3 core load 0x40", 3, "'core' stands before the number; write it as in 'core 3 load 0x40'")
        lines = "A line is 'sets N', 'ways N', 'rule NAME' or a step, 'DOMAIN KIND ARGUMENT' or 'core N KIND ARGUMENT'"
        for word in ("Core", "cores", "cor", "CORE"):
            self.check(f"{word} 3 load 0x40", 1, f"unknown word '{word}'; did you mean 'core'? {lines}")

    def test_kind_of_a_core(self):
        kinds = "Kinds of a core's step are fetch, load, store, flush, select"
        self.check("core 3", 7, f"the step lacks its kind, as in 'core 3 load 0x40'. {kinds}")
        self.check("core 3 lod 0x40", 8, f"unknown kind 'lod'; did you mean 'load'? {kinds}")
        self.check("core 3 selct cs=0 ds=0 es=0", 8, f"unknown kind 'selct'; did you mean 'select'? {kinds}")
        self.check("core 3 zzz 0x40", 8, f"unknown kind 'zzz'. {kinds}")
        numbered = "a kind by its number has no 'core' before it; write it as in '3 kind=33 0x40'"
        self.check("core 3 kind=33 0x40", 8, numbered)
        policy = "only a domain has a policy; write it as in '0 policy hit=0,1 fill=0,1'"
        self.check("core 3 policy hit=0,1 fill=0,1", 8, policy)
        select = "only a core has selectors; write it as in 'core 3 select cs=0 ds=1 es=1'"
        self.check("3 select cs=0 ds=1 es=1", 3, select)

    def test_argument_of_a_core(self):
        self.check("core 3 load", 12, "the step lacks its address, as in 'core 3 load 0x40'")
        self.check("core 3 flush # 0x40", 13, "the step lacks its address, as in 'core 3 flush 0x40'")
        self.check("core 3 fetch 0xg", 14, "'0xg' is not a number; an address is written in decimal")
        self.check("core 3 store 18446744073709551616", 14, "'18446744073709551616' is too large; an address goes")
        self.check("core 3 load 64 65", 16, "unexpected '65'; a load step has one address")

    def test_selectors(self):
        takes = "A select step takes cs=N, ds=N and es=N, or arg=NUMBER"
        all_three = "it writes all three selectors, as in 'core 3 select cs=0 ds=1 es=1'"
        self.check("core 3 select", 14, f"the step lacks cs=N, ds=N, es=N; {all_three}")
        self.check("core 3 select cs=0 es=1", 24, f"the step lacks ds=N; {all_three}")
        self.check("core 3 select ds=0", 19, f"the step lacks cs=N, es=N; {all_three}")
        self.check("core 3 select cs=0 ds=1 es=1 cs=0", 30, f"'cs=' is given twice. {takes}")
        self.check("core 3 select cs=0 ds=1 fs=1", 25, f"unknown field 'fs=1'. {takes}")
        self.check("core 3 select CS=0 ds=1 es=1", 15, f"unknown field 'CS=0'; did you mean 'cs'? {takes}")
        self.check("core 3 select cs=256 ds=1 es=1", 18, "'256' is too large; a selector goes from 0 to 255")
        self.check("core 3 select cs=0 ds=-1 es=1", 23, "'-1' is not a number; a selector is written in decimal")
        self.check("core 3 select cs=0 ds=1 es=", 28, "a number is missing; a selector is written in decimal")
        self.check("core 3 select cs=0 ds=0,1 es=1", 23, "'0,1' is not a number; a selector is")
        self.check("core 3 select cs ds=1 es=1", 15, "'cs' lacks its value; write 'cs=' and the value without a space")
        whole = "write a whole argument as 'arg=0x1000000', and a selector with its name, such as cs=0"
        self.check("core 3 select 0x1000000", 15, f"unexpected '0x1000000'; {whole}")
        self.check("core 3 select cs=0 ds=1 es=1 arg=3", 15, f"arg= stands beside cs= or ds= or es=. {takes}")
        self.check("core 3 select arg=0x1_0000_0000_0000_0000", 19, "'0x1_0000_0000_0000_0000' is too large")
        self.check("core 3 select hit=0,1", 15, f"unknown field 'hit=0,1'. {takes}")

    def test_every_wrong_selector_is_told(self):
        told = report((HEADER + "core 256 select cs=256 ds=x es=\n").encode())
        for place in ("6: '256' is too large; a core", "20: '256' is too large", "27: 'x' is not", "32: a number is"):
            self.assertIn(f"case.txt:4:{place}", told)
        self.assertTrue(told.endswith("\ncase.txt: 4 errors; no trace was made"), told)

    def test_argument(self):
        self.check("0 load", 7, "the step lacks its address, as in '0 load 0x40'")
        self.check("0 load # 0x40", 7, "the step lacks its address")
        self.check("0 kind=9", 9, "the step lacks its argument, as in '0 kind=9 0x40'")
        self.check("0 load 0xg", 8, "'0xg' is not a number; an address is written in decimal")
        self.check("0 store 18446744073709551616", 9, "'18446744073709551616' is too large; an address goes from 0 to")
        self.check("0 load 64 65", 11, "unexpected '65'; a load step has one address")
        self.check("0 kind=9 1 2", 12, "unexpected '2'; a kind=9 step has one argument")

    def test_policy_fields(self):
        takes = "A policy step takes hit=MAP and fill=MAP, or arg=NUMBER"
        self.check("0 policy hit=way0", 18, "the policy lacks fill=MAP; for an empty map write fill=none")
        self.check("0 policy fill=way0", 19, "the policy lacks hit=MAP; for an empty map write hit=none")
        self.check("0 policy 0x30003", 10, "unexpected '0x30003'; write a whole argument as 'arg=0x30003'")
        self.check("0 policy hat=way0 fill=way0", 10, f"unknown field 'hat=way0'; did you mean 'hit'? {takes}")
        self.check("0 policy hit=way0 fill=none hit=way1", 29, f"'hit=' is given twice. {takes}")
        self.check("0 policy hit=way0 fill=none arg=1", 10, f"arg= stands beside hit= or fill=. {takes}")
        self.check("0 policy hit fill=none", 10, "'hit' lacks its value; write 'hit=' and the value without a space")
        self.check("0 policy arg=-1", 14, "'-1' is not a number; an argument is")
        self.check("0 policy arg=0x1_0000_0000_0000_0000", 14, "'0x1_0000_0000_0000_0000' is too large")

    def test_maps(self):
        form = "a map is a list of ways such as 0,1 or 0-3, one way such as way3, a mask such as 0x3, or none"
        for written, offset, message in (
            ("0,16", 2, "way 16 is above 15, the highest that a map can hold"),
            ("0-99", 2, "way 99 is above 15"),
            ("x", 0, f"'x' is not a way; {form}"),
            ("0,1-", 3, "'1-' is not a way"),
            ("-1", 0, "'-1' is not a way"),
            ("0,0x1", 2, "'0x1' is not a way"),
            ("3-1", 0, "range 3-1 runs downwards; write 1-3"),
            ("0-3,2", 4, "way 2 is named twice; name each way once"),
            ("", 0, "a way is missing; for an empty map write none"),
            ("0,,1", 1, "a way is missing; write ways with one comma between and no space"),
            ("3,", 1, "a way is missing; write ways with one comma between and no space"),
            ("0x1ffff", 0, "mask 0x1ffff has a way above 15; the largest mask is 0xffff"),
            ("0xg", 0, f"'0xg' is not a mask; {form}"),
            ("way", 2, f"'way' is not a way; {form}"),
            ("way16", 3, "way 16 is above 15"),
            ("way0,1", 3, "'way0,1' is not a way"),
            ("way0x1", 3, "'way0x1' is not a way"),
        ):
            self.check(f"0 policy hit={written} fill=none", 14 + offset, message)
            self.check(f"0 policy hit=none fill={written}", 24 + offset, message)

    def test_a_number_alone_is_no_map(self):
        for written, message in (
            ("3", "'3' alone could be a way or a map; write way3 for way 3, or 0x3 for the map 3, which is ways 0,1"),
            ("4", "'4' alone could be a way or a map; write way4 for way 4, or 0x4 for the map 4, which is way 2"),
            ("0", "'0' alone could be a way or a map; write way0 for way 0, or none for the map 0, which is empty"),
            ("007", "'007' alone could be a way or a map; write way7 for way 7, or 0x7 for the map 7, which is ways 0-2"),
            ("255", "'255' alone is neither a way nor a mask; write 0xff for the map 255, which is ways 0-7"),
            ("65536", "'65536' is no map; a map is a list of ways"),
        ):
            self.check(f"0 policy hit={written} fill=none", 14, message)
            self.check(f"0 policy hit=0-15 fill={written}", 24, message)


class TextErrors(unittest.TestCase):
    """Errors of the header and of the text as a whole."""

    def check(self, data: str, *places: str) -> None:
        told = report(data.encode())
        for place in places:
            self.assertIn(f"case.txt:{place}", told)
        count = len(places)
        self.assertIn(f"\ncase.txt: {count} error{'s' if count > 1 else ''}; no trace was made", told)

    def test_header_values(self):
        self.check("sets x\nways 4\nrule nru", "1:6: 'x' is not a number; the number of sets is written")
        self.check("sets 1\nways 256\nrule nru", "2:6: '256' is too large; the number of ways goes from 0 to 255")
        self.check("sets 1\nways four\nrule nru", "2:6: 'four' is not a number; the number of ways is written")
        self.check("sets 1\nways 4\nrule 256", "3:6: '256' is too large; the number of a rule goes from 0 to 255")
        rules = "Rules are tree (or tree-plru), nru, lru, or a number"
        self.check("sets 1\nways 4\nrule tre", f"3:6: unknown rule 'tre'; did you mean 'tree'? {rules}")
        spellings = {"NRU": "nru", "LRU": "lru", "Tree": "tree", "TREE_PLRU": "tree-plru", "treeplru": "tree-plru"}
        for word, meant in spellings.items():
            self.check(f"sets 1\nways 4\nrule {word}", f"3:6: unknown rule '{word}'; did you mean '{meant}'? {rules}")
        for word in ("xyz", "plru", "true-lru", "bit-plru", "nmru", "mru", "n", "l"):
            self.check(f"sets 1\nways 4\nrule {word}", f"3:6: unknown rule '{word}'. {rules}")
        self.check("sets\nways 4\nrule nru", "1:5: 'sets' lacks its value; write it as in 'sets 64'")
        self.check("sets 1 2\nways 4\nrule nru", "1:8: unexpected '2'; a header line has one value, as in 'sets 64'")

    def test_too_many_sets(self):
        held = "a trace file holds at most 256 sets (calls of the proved library take up to 4,096)"
        for written in ("257", "512", "4096", "8192", "65535", "65536", "0x200", "9" * 50):
            self.check(f"sets {written}\nways 4\nrule nru\n0 load 0", f"1:6: '{written}' is too large; {held}\n    sets {written}\n")
        told = report(b"sets 512 # half\nways 4\nrule nru\n")
        self.assertIn("\n    sets 512 # half\n         ^^^\ncase.txt: 1 error; no trace was made", told)
        self.check("sets 512\nways 256\nrule nru", f"1:6: '512' is too large; {held}", "2:6: '256' is too large; the number of ways")
        for sets in (0, 1, 3, 255, 256):  # 0, 3 and 255 are for the lister to refuse
            self.assertEqual(assemble("case.txt", f"sets {sets}\nways 4\nrule nru\n".encode()), Trace(sets, 4, 1, ()))

    def test_header_lines(self):
        self.check(HEADER + "ways 8", "4:1: 'ways' is given twice, first on line 2; keep one")
        self.check(
            "sets 1\nways 4\n\n0 load 0\nrule nru",
            "5:1: 'rule' stands after the first step, on line 4; header lines come before the steps",
        )
        missing = "3:1: there is no 'ways' line before the steps; write one such as 'ways 8'"
        self.check("sets 1\nrule nru\n0 load 0", missing)
        self.check("", "1:1: there is no 'sets' line", "1:1: there is no 'ways' line", "1:1: there is no 'rule' line")
        self.check("# only\n", "2:1: there is no 'sets'", "2:1: there is no 'ways'", "2:1: there is no 'rule'")

    def test_unknown_words(self):
        lines = "A line is 'sets N', 'ways N', 'rule NAME' or a step, 'DOMAIN KIND ARGUMENT'"
        self.check("set 1\nways 4\nrule nru", f"1:1: unknown word 'set'; did you mean 'sets'? {lines}")
        self.check("sets=1\nways 4\nrule nru", "1:1: a header line has no '='; write it as in 'sets 64'")
        self.check(HEADER + "hello", f"4:1: unknown word 'hello'. {lines}")

    def test_too_many_steps(self):
        text = HEADER + "0 load 0\n" * 4097 + "0 lod 0\n"
        self.check(text, "4100:1: this is step 4,097; a trace has at most 4,096 steps")
        assemble("case.txt", (HEADER + "0 load 0\n" * 4096).encode())

    def test_not_text(self):
        told = report(HEADER.encode() + b"0 load 0x4\xff0\n")
        self.assertIn("case.txt:4:11: byte 0xff is not UTF-8 text; save the file as UTF-8", told)
        told = report(b"sets 1\nw\0ys 4\n\xff")
        self.assertIn("case.txt:2:2: a zero byte: this is not a trace text; 'dipperlock show FILE' prints", told)
        self.assertIn("case.txt: 1 error;", told)


class Layout(unittest.TestCase):
    """How errors are laid out."""

    def test_caret_under_the_word(self):
        told = report((HEADER + "0 lod 0x40\n").encode())
        self.assertIn("\n    0 lod 0x40\n      ^^^\n", told)

    def test_caret_after_tabs_and_wide_lines(self):
        told = report((HEADER + "\t0\tlod 0x40\n" + "#" + "x" * 10 + "\n").encode())
        self.assertIn("\n    \t0\tlod 0x40\n    \t \t^^^\n", told)
        told = report((HEADER + " " * 300 + "0 lod 0x40\n").encode())
        source, caret = told.splitlines()[1:3]
        self.assertEqual(source.index("lod"), caret.index("^"))
        self.assertLess(len(source), 110)

    def test_control_characters_are_not_printed(self):
        told = report((HEADER + "0 lo\x1b[31md 0\n").encode())
        self.assertNotIn("\x1b", told)
        self.assertIn("case.txt:4:3: unknown kind 'lo\\x1b[31md'", told)

    def test_all_errors_in_order(self):
        told = report(b"sets x\nways 4\nrule nru\n0 lod 0\n999 load y\n")
        heads = [line.split(": ")[0] for line in told.splitlines() if line.startswith("case.txt:")]
        self.assertEqual(heads[:-1], ["case.txt:1:6", "case.txt:4:3", "case.txt:5:1", "case.txt:5:10"])
        self.assertIn("case.txt: 4 errors; no trace was made", told)

    def test_long_words_are_cut(self):
        long = 5000
        digits, letters = "9" * long, "x" * long
        for line in (
            f"{digits} load 0",
            f"0 {letters} 0",
            f"0 load {letters}",
            f"0 load 0 {letters}",
            f"0 kind={digits} 0",
            f"0 kind={'0' * long}9",
            f"kind={digits} 0",
            letters,
            f"sets={letters}",
            f"sets {digits}",
            f"0 policy {letters}",
            f"0 policy {digits}",
            f"0 policy {letters}=1",
            *(f"0 policy hit={word} fill=none" for word in (letters, digits, f"0x{digits}", f"0,{digits}", f"{'0' * long}3-1")),
            f"0 policy hit=way{digits} fill=none",
            f"core{digits} load 0",
            f"core {digits} load 0",
            f"core {letters} load 0",
            f"core 3 {letters} 0",
            f"core 3 load {digits}",
            f"core 3 kind={digits} 0",
            f"core 3 select {letters}",
            f"core 3 select {digits}",
            f"core 3 select cs={digits} ds={letters} es=0x{digits}",
        ):
            told = report((HEADER + line + "\n").encode())
            self.assertLess(max(map(len, told.splitlines())), 320, told)
        told = report((HEADER + f"0 {letters} 0\n").encode())
        self.assertIn(f"unknown kind '{'x' * 60}'... (5,000 characters). Kinds are", told)

    def test_a_text_that_is_none_is_not_read_to_its_end(self):
        told = report(b"lorem ipsum\n" * 300_000)
        self.assertTrue(told.endswith("case.txt: 1,000 errors or more, the first 20 shown; no trace was made"), told[-200:])
        self.assertNotIn("there is no 'sets' line", told)
        told = report(b"\xff\n" * 300_000)
        self.assertTrue(told.endswith("case.txt: 1,000 errors or more, the first 20 shown; no trace was made"), told[-200:])

    def test_many_errors_are_counted(self):
        told = report((HEADER + "0 lod 0\n" * 50).encode())
        self.assertEqual(told.count("unknown kind"), 20)
        self.assertTrue(told.endswith("case.txt: 50 errors, the first 20 shown; no trace was made"))
