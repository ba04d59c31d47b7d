"""What the programs say, taken apart: listings and stepper streams; and answers and refusals in words."""
from __future__ import annotations

import random
import unittest

from frontend import listing, refusals, stepper, text, tracefile, words
from frontend.errors import MachineFailure
from frontend.listing import Answer, Counts
from frontend.stepper import Row
from frontend.tests import balance, case_a, core_switch
from frontend.tests.helpers import block, held, parsed
from frontend.tracefile import Step, Trace


class Listings(unittest.TestCase):
    """The lister's text."""

    def test_case_a(self):
        listed = listing.parse(case_a.LISTING)
        self.assertIsNone(listed.refused)
        self.assertEqual(listed.answers[5], Answer("evict", (1, 0, 1)))
        self.assertEqual(" | ".join(map(str, listed.answers[6:])), "flush 0 0 | refused 6 | hit 1")
        self.assertEqual(listed.counts, {0: (1, 3, 1, 1, 1, 3, 0), 1: (0, 1, 0, 0, 0, 1, 0)})

    def test_core_switch(self):
        listed = listing.parse(core_switch.LISTING)
        listing.check(listed, core_switch.FILE)
        self.assertEqual(listed.answers[9], Answer("select", (1, 1, 2)))
        self.assertEqual(" | ".join(map(str, listed.answers[14:])), "hit 0 | refused 11 | refused 3 | evict 2 2 1")
        self.assertEqual(listed.counts, {1: (2, 2, 0, 1, 1, 2, 0), 2: (2, 3, 1, 1, 0, 3, 0)})

    def test_the_order_of_counts(self):
        (counts,) = listing.parse(b"1 4 0 0\ndomain 15 1 2 3 4 5 6 7\n").counts.values()
        named = {"hits": 1, "misses": 2, "evicted": 3, "written_back": 4, "flushed": 5, "fills": 6, "dropped": 7}
        self.assertEqual(counts, Counts(**named))

    def test_a_core_is_no_domain_with_ways(self):
        steps = Step(0, 16, 0x1_0001), Step(3, 40, 0x0F_0F0F), Step(7, 33, 0x1_0001)
        data = tracefile.encode(Trace(1, 4, 0, steps))
        listing.check(listing.parse(b"1 4 0 3\n0 policy 0 0\n1 select 15 15 15\n2 hit 0\ndomain 0 0 0 0 0 0 0 0\n"), data)

    def test_refused_files(self):
        for number in (1, 10):
            self.assertEqual(listing.parse(b"refused %d\n" % number).refused, number)

    def test_what_is_no_listing(self):
        for data in (
            b"",
            b"\n",
            b"refused\n",
            b"1 4 0 x\n",
            b"1 4 0 2\n0 hit 0\n",
            b"1 4 0 1\n1 hit 0\n",
            b"1 4 0 1\n0 hit\n",
            b"1 4 0 1\n0 evict 0 0\n",
            b"1 4 0 1\n0  pass\n",
            b"1 4 0 1\n0 look 0\n",
            b"1 4 0 1\n0 select\n",
            b"1 4 0 1\n0 select 1 1\n",
            b"1 4 0 1\n0 select 1 1 1 1\n",
            b"1 4 0 1\n0 select cs=1 ds=1 es=1\n",
            b"1 4 0 1\n0 hit 00\n",
            b"1 4 0 0\nrealm 0 1 2 3 4 5 6 7\n",
            b"1 4 0 0\ndomain 0 1 2 3 4 5\n",
            b"1 4 0 0\ndomain 0 1 2 3 4 5 6\n",
            b"1 4 0 0\ndomain 0 1 2 3 4 5 6 7 8\n",
            b"1 4 0 0\ndomain 16 1 2 3 4 5 6 7\n",
            b"1 4 0 0\ndomain 1 1 2 3 4 5 6 7\ndomain 0 1 2 3 4 5 6 7\n",
            b"1 4 0 0\ndomain 1 1 2 3 4 5 6 7\ndomain 1 1 2 3 4 5 6 7\n",
            b"1 4 0 0\n\n",
            b"1 4 0 0\r\n",
            b"1 4 0 99999999999999999999\n",
            b"refused 7\n",
            b"refused 10\nrefused 10\n",
            b"refused 10 \n",
            b"\xff\xfe",
            b"\xff\xfe\n",
        ):
            with self.assertRaises(MachineFailure, msg=data):
                listing.parse(data)

    def test_no_beginning_of_a_listing_is_whole(self):
        listing.check(listing.parse(case_a.LISTING), case_a.FILE)
        for size in range(len(case_a.LISTING)):
            with self.assertRaises(MachineFailure, msg=size):
                listing.check(listing.parse(case_a.LISTING[:size]), case_a.FILE)

    def test_where_it_is_not_whole(self):
        for data, what in (
            (b"", "it is empty"),
            (case_a.LISTING[:-1], "it breaks off within line 12, 'domain 1 0 1 0 0 0 1 0'"),
            (case_a.LISTING[:34], "it says 9 steps, and ends after the lines of 2"),
            (case_a.LISTING.replace(b"4 fill", b"4 fil"), "line 6 is '4 fil 3', and should be the answer to step 4"),
            (case_a.LISTING.replace(b"1 4 0 9", b"2 4 0 9"), "its first line is '2 4 0 9', and the file's numbers are '1 4 0 9'"),
            (case_a.LISTING[:-23], "its domain lines are those of 0, and by its own answers 0, 1 have ways at the end"),
            (case_a.LISTING + b"x\n", "line 13 is 'x', and should be a domain and its seven counts, or the end"),
            (
                case_a.LISTING.replace(b"1 1 1 3 0\n", b"1 1 1\n"),
                "line 11 is 'domain 0 1 3 1 1 1', and should be a domain and its seven counts, or the end",
            ),
            (b"refused 10\n", "it is 'refused 10', and the file has the length, steps and sets of a trace file"),
        ):
            with self.assertRaises(MachineFailure, msg=data) as caught:
                listing.check(listing.parse(data), case_a.FILE)
            self.assertIn(f"target/bin/lister did not give a whole listing of this trace: {what}", str(caught.exception))

    def test_a_file_that_is_no_trace_is_refused_by_ten(self):
        for file, reason in (
            (case_a.FILE[:7], "it has 7 bytes"),
            (case_a.FILE[:-1], "its header says 9 steps, so its length is to be"),
            (tracefile.encode(Trace(1, 4, 0, (Step(0, 0, 0),) * 4097)), "its header says 4,097 steps"),
            (tracefile.encode(Trace(257, 4, 0, ())), "its header says 257 sets"),
            (tracefile.encode(Trace(512, 4, 0, ())), "its header says 512 sets"),
        ):
            listing.check(listing.parse(b"refused 10\n"), file)
            for data in (b"refused 1\n", case_a.LISTING):
                with self.assertRaises(MachineFailure) as caught:
                    listing.check(listing.parse(data), file)
                self.assertIn(f": it is not 'refused 10', and the file is refused by 10: {reason}", str(caught.exception))

    def test_a_geometry_is_refused_by_one(self):
        for sets in (0, 3):
            listing.check(listing.parse(b"refused 1\n"), tracefile.encode(Trace(sets, 4, 0, ())))
        for sets in (0, 3, 256):
            with self.assertRaises(MachineFailure):
                listing.check(listing.parse(b"refused 10\n"), tracefile.encode(Trace(sets, 4, 0, ())))


class Streams(unittest.TestCase):
    """The stepper's bytes."""

    def test_case_a(self):
        stream = parsed(case_a.STREAM, tracefile.decode(case_a.FILE))
        blocks = stream.blocks
        self.assertEqual((len(blocks), stream.held), (10, (1, 1, *[0] * 14)))
        self.assertEqual(blocks[1].hit[:3], (3, 0, 0))
        self.assertEqual(blocks[2].fill[:3], (3, 12, 0))
        self.assertEqual([block.visited for block in blocks], [0, 0, 0, 2, 2, 2, 2, 1, 0, 2])
        self.assertEqual([block.domain for block in blocks], [None, 0, 1, 0, 0, 1, 0, 0, 2, 0])
        self.assertEqual({block.records for block in blocks}, {((0, 0, 0),) * 32})
        self.assertEqual(blocks[6].rows, {0: Row(11, 0, 0, (1, 2, 0, 0))})
        self.assertEqual(stepper.rows_at_end(blocks), {0: Row(10, 0, 0, (1, 2, 0, 0))})

    def test_core_switch(self):
        blocks = parsed(core_switch.STREAM, tracefile.decode(core_switch.FILE)).blocks
        domains = [None, 1, 2, 0, None, 1, 1, None, 2, 2, None, 1, 2, 1, 2, 1, None, None, 2]
        self.assertEqual([block.domain for block in blocks], domains)
        none, first, second, split = (0, 0, 0), (1, 1, 1), (2, 2, 2), (1, 1, 2)
        due = [*[none] * 4, *[first] * 3, *[second] * 3, *[split] * 9]
        self.assertEqual([block.records[3] for block in blocks], due)
        self.assertEqual({block.records[core] for block in blocks for core in range(32) if core != 3}, {none})
        visited = [0, 0, 0, 0, 0, 2, 2, 0, 2, 2, 0, 2, 2, 2, 2, 1, 0, 0, 2]
        self.assertEqual([block.visited for block in blocks], visited)

    def test_the_order_of_records(self):
        selectors = {core: (3 * core, 3 * core + 1, 3 * core + 2) for core in range(32)}
        data = block({15: (0xFFFF, 0xABCD)}, 0, {0: Row(0, 0, 0, (0, 0))}, records=selectors)
        self.assertEqual(len(data), 512 + 96 + 8 + 14 + 16)
        (fresh,) = parsed(data + held({}), Trace(1, 2, 0, ())).blocks
        self.assertEqual((fresh.hit[15], fresh.fill[15], fresh.hit[14]), (0xFFFF, 0xABCD, 0))
        self.assertEqual(fresh.records, tuple(selectors.values()))

    def test_streams_that_do_not_fit(self):
        trace = Trace(2, 2, 0, (Step(0, 1, 0),))
        rows = {0: Row(0, 0, 0, (0, 0)), 1: Row(0, 0, 0, (0, 0))}
        fresh, after = block({}, 0, rows), block({}, 1, {1: Row(1, 0, 0, (9, (1 << 64) - 1))}, domain=0)
        end = held({})
        self.assertEqual(len(parsed(fresh + after + end, trace).blocks), 2)
        self.assertEqual(parsed(fresh + block({}, visited=2, domain=0) + end, trace).blocks[1].visited, 2)
        for data, reason in (
            (b"", "breaks off within block 0 of 2"),
            (fresh, "breaks off within block 1 of 2"),
            (fresh + after[:-1], "breaks off within block 1 of 2"),
            (fresh + end, "breaks off within block 1 of 2"),
        ):
            self.assert_misfit(data, trace, reason)
        for data, reason in (
            (after + fresh, "not those of 2 sets"),
            (fresh + block({}, 2), "not those of 2 sets"),
            (fresh + block({}, 0, {7: rows[0]}), "not those of 2 sets"),
            (fresh + block({}, visited=3), "a lookup visited 3 ways, and the trace has 2 ways"),
            (block({}, 0, rows, 65535) + after, "a lookup visited 65,535 ways"),
            (fresh + block({}), "step 0, '0 load 0x0', was taken for no domain, and should be for domain 0"),
            (fresh + block({}, domain=1), "step 0, '0 load 0x0', was taken for domain 1, and should be for domain 0"),
            (block({}, 0, rows, domain=0) + after, "it has domain 0 before the first step"),
        ):
            self.assert_misfit(data + end, trace, reason)

    def test_which_rows_changed(self):
        source, sets = random.Random(33), 70
        rows = {number: Row(0, 0, number, (number, 0)) for number in range(sets)}
        parts, due = [block({}, 0, rows)], [rows]
        for place in range(60):
            many = source.choice((0, 1, 1, 2, 15, sets)) if place % 3 else 1
            changed = {number: Row(1, 0, place + 100, (number, place)) for number in source.sample(range(sets), many)}
            rows = {**rows, **changed}
            shown = rows if place % 3 else {number: rows[number] for number in changed}
            parts.append(block({}, 0, shown, domain=0))
            due.append(changed)
        stream = parsed(b"".join((*parts, held({}))), Trace(sets, 2, 0, (Step(0, 16, 0),) * 60))
        self.assertEqual([dict(each.rows) for each in stream.blocks], due)
        self.assertEqual(stepper.rows_at_end(stream.blocks), rows)

    def test_the_order_of_lines_held(self):
        rows = {number: Row(0, 0, 0, (0,) * 16) for number in range(256)}
        fresh = block({domain: (0xFFFF, 0) for domain in range(16)}, 0, rows)
        lines = {domain: 256 * domain + 15 - domain for domain in range(16)}
        stream = parsed(fresh + held(lines), Trace(256, 16, 0, ()))
        self.assertEqual(stream.held, tuple(lines.values()))
        stream = parsed(fresh + bytes((*[0] * 60, 0x02, 0x01, 0, 0)), Trace(256, 16, 0, ()))
        self.assertEqual(stream.held, (*[0] * 15, 0x0102))

    def test_an_end_that_is_missing_cut_or_too_long(self):
        trace, whole = tracefile.decode(case_a.FILE), case_a.STREAM[:-64]
        self.assertEqual(whole + held({0: 1, 1: 1}), case_a.STREAM)
        due = "and should have the 64 that say how many lines each domain holds"
        for end, has in (
            (b"", "0 bytes"),
            (bytes(1), "1 byte"),
            (bytes(60), "60 bytes"),
            (held({})[:-1], "63 bytes"),
            (held({}) + b"\0", "more than 64 bytes"),
            (held({}) * 2, "more than 64 bytes"),
            (case_a.STREAM, "more than 64 bytes"),
        ):
            self.assert_misfit(whole + end, trace, f": after its 10 blocks it has {has}, {due}")
        fresh = block({}, 0, {0: Row(0, 0, 0, (0, 0))})
        self.assert_misfit(fresh, Trace(1, 2, 0, ()), f": after its 1 block it has 0 bytes, {due}")

    def test_no_beginning_of_a_stream_is_whole(self):
        trace = tracefile.decode(balance.FILE)
        for size in range(len(balance.STREAM)):
            self.assert_misfit(balance.STREAM[:size], trace, " it ")

    def test_more_lines_than_there_is_room_for(self):
        maps, rows = {0: (0b11, 0), 3: (0b10, 0b10)}, {number: Row(0, 0, 0, (0, 0)) for number in range(4)}
        fresh, trace = block(maps, 0, rows), Trace(4, 2, 0, ())
        self.assertEqual(parsed(fresh + held({0: 8, 3: 4}), trace).held, (8, 0, 0, 4, *[0] * 12))
        for lines, reason in (
            ({0: 9}, "domain 0 holds 9 lines, and its hit map has room for 8"),
            ({0: 8, 3: 5}, "domain 3 holds 5 lines, and its hit map has room for 4"),
            ({1: 1}, "domain 1 holds 1 line, and its hit map has room for 0"),
            ({3: (1 << 32) - 1}, "domain 3 holds 4,294,967,295 lines, and its hit map has room for 4"),
        ):
            self.assert_misfit(fresh + held(lines), trace, reason)

    def test_a_stream_of_before_the_cores(self):
        before = core_switch.STREAM[:64] + core_switch.STREAM[160:166]  # no records, and no domain
        self.assert_misfit(before + bytes(14 + 8 * 4), Trace(1, 4, 0, ()), "it breaks off within block 0 of 1")

    def assert_misfit(self, data: bytes, trace: Trace, reason: str) -> None:
        with self.assertRaises(MachineFailure, msg=reason) as caught:
            parsed(data, trace)
        self.assertIn("target/bin/stepper did not give a whole stream of this trace: ", str(caught.exception))
        self.assertIn(reason, str(caught.exception))


class Domains(unittest.TestCase):
    """The domain that a step was taken for: the one that it names, or that its core's selector names."""

    ROWS = {0: Row(0, 0, 0, (0, 0))}
    HELD = {0: (4, 5, 6), 31: (7, 8, 9), 2: (77, 16, 255)}

    def domain(self, step: Step, said: int, **changed: tuple[int, int, int]) -> int | None:
        """Give the domain of a step after which a block says it; cores are changed by name, as `core31`."""
        after = {**self.HELD, **{int(name[4:]): record for name, record in changed.items()}}
        stream = block({}, 0, self.ROWS, records=self.HELD) + block({}, domain=said, records=after) + held({})
        return parsed(stream, Trace(1, 2, 0, (step,))).blocks[1].domain

    def assert_refused(self, step: Step, said: int, reason: str, **changed: tuple[int, int, int]) -> None:
        with self.assertRaises(MachineFailure, msg=(step, said)) as caught:
            self.domain(step, said, **changed)
        self.assertIn(f"this trace: step 0, '{text.show_step(step)}', {reason}", str(caught.exception))

    def test_by_selector(self):
        for core, selectors in ((0, (4, 5, 6)), (31, (7, 8, 9)), (1, (0, 0, 0)), (2, (77, 16, 255))):
            cs, ds, es = selectors
            for kind, due in ((32, cs), (33, ds), (34, es), (35, ds)):
                self.assertEqual(self.domain(Step(core, kind, 0), due), due)
        self.assert_refused(Step(0, 33, 0), 4, "was taken for domain 4, and should be for domain 5")
        self.assert_refused(Step(0, 34, 0), 5, "was taken for domain 5, and should be for domain 6")
        self.assert_refused(Step(31, 35, 0), 65535, "was taken for no domain, and should be for domain 8")

    def test_by_number(self):
        for domain in (0, 3, 15, 16, 31, 32, 255):
            for kind in (0, 1, 2, 3, 4, 16, 31, 36, 39, 41, 255):
                self.assertEqual(self.domain(Step(domain, kind, 0), domain), domain)
        self.assert_refused(Step(31, 36, 7), 8, "was taken for domain 8, and should be for domain 31")

    def test_of_no_domain(self):
        for core, kind in ((32, 32), (32, 33), (255, 34), (255, 35), (0, 40), (31, 40), (32, 40)):
            self.assertIsNone(self.domain(Step(core, kind, 0), 65535))
        self.assert_refused(Step(32, 33, 0), 32, "was taken for domain 32, and should be for no domain")
        self.assert_refused(Step(0, 40, 0), 0, "was taken for domain 0, and should be for no domain")

    def test_who_changes_a_record(self):
        record = (1, 2, 3)
        self.assertIsNone(self.domain(Step(31, 40, 0x030201), 65535, core31=record))
        for named, kind, said in ((30, 40, 65535), (31, 33, 8), (31, 1, 31), (31, 16, 31), (32, 40, 65535)):
            self.assert_refused(Step(named, kind, 0x030201), said, "changed the record of core 31", core31=record)
        reason = "changed the record of core 0"
        self.assert_refused(Step(31, 40, 0x030201), 65535, reason, core0=record, core31=record)


class Words(unittest.TestCase):
    """Sentences for steps, answers and refusals."""

    def test_words_of_no_document(self):
        self.assertIn("not one of document 01's", words.answer(Answer("look", (1, 2, 3))))

    def test_answers(self):
        for answer, part in (
            (Answer("hit", (3,)), "A hit in way 3."),
            (Answer("fill", (2,)), "way 2, the highest of the domain's fill map that held no valid line, was filled"),
            (Answer("evict", (0, 9, 1)), "tag 9 was evicted from way 0 (dirty, so it is written back)"),
            (Answer("evict", (0, 9, 0)), "(not dirty)"),
            (Answer("pass", ()), "fill map is empty"),
            (Answer("flush", (1, 1)), "way 1 was made invalid; it was dirty"),
            (Answer("absent", ()), "No way of the domain's hit map"),
            (Answer("policy", (0, 0)), "no valid line was dropped"),
            (Answer("policy", (2, 1)), "dropped 2 valid lines, 1 dirty"),
        ):
            self.assertIn(part, words.answer(answer))

    def test_victims_of_nru(self):
        some, none = "It is the highest way of the fill map whose bit was one.", "No bit of the fill map was one: all became one"
        for word, fill, said in ((0b0100, 0b0110, some), (0b0110, 0b0110, some), (0, 0b0110, none), (0b1001, 0b0110, none)):
            self.assertTrue(words.nru_victim(word, fill).startswith(said), (word, fill))

    def test_policy_changes(self):
        remove, change = Step(3, 16, 0), Step(3, 16, 0x1_0003)
        removed = "The domain is removed, and its counts are zero."
        for step, fields, said in (
            (change, (0, 0), "no valid line was dropped."),
            (change, (1, 0), "dropped 1 valid line, 0 dirty. It counts as dropped for domain 3."),
            (change, (2, 1), "dropped 2 valid lines, 1 dirty. They count as dropped for domain 3."),
            (remove, (0, 0), f"no valid line was dropped. {removed}"),
            (remove, (1, 1), f"dropped 1 valid line, 1 dirty. {removed}"),
            (remove, (4096, 0), f"dropped 4,096 valid lines, 0 dirty. {removed}"),
        ):
            self.assertEqual(words.changed(Answer("policy", fields), step), f"Accepted; {said}")

    def test_counts(self):
        named = "hits 1, misses 2, evicted 3, written back 4, flushed 5, fills 6, dropped 7,000"
        self.assertEqual(words.counts(Counts(1, 2, 3, 4, 5, 6, 7000)), named)

    def test_balances(self):
        for counts, lines, said in (
            (Counts(1, 3, 1, 1, 1, 3, 0), 1, "fills 3 = evicted 1 + flushed 1 + dropped 0 + held 1"),
            (Counts(9, 9, 2, 9, 3, 10, 4), 1, "fills 10 = evicted 2 + flushed 3 + dropped 4 + held 1"),
            (Counts(0, 0, 0, 0, 0, 0, 0), 0, "fills 0 = evicted 0 + flushed 0 + dropped 0 + held 0"),
            (Counts(0, 0, 0, 0, 0, 4096, 0), 4096, "fills 4,096 = evicted 0 + flushed 0 + dropped 0 + held 4,096"),
        ):
            self.assertEqual(words.balance(counts, lines), said)

    def test_answers_in_locked_ways(self):
        for answer in (Answer("hit", (3,)), Answer("flush", (3, 0)), Answer("flush", (3, 1))):
            plain, locked = words.answer(answer), words.answer(answer, 0b1001)
            self.assertTrue(locked.startswith(f"{plain} I") and "locked" in locked, locked)
            self.assertEqual((words.answer(answer, 0b0111), words.answer(answer, 0)), (plain, plain))
        for word, count in (("fill", 1), ("evict", 3), ("pass", 0), ("absent", 0), ("policy", 2)):
            answer = Answer(word, (3,) * count)
            self.assertEqual(words.answer(answer, 0xFFFF), words.answer(answer))

    def test_steps(self):
        for step, said in (
            (Step(0, 0, 0), "domain 0 fetches at 0x0"),
            (Step(1, 1, 64), "domain 1 loads at 0x40"),
            (Step(2, 2, 1 << 32), "domain 2 stores at 0x1_0000_0000"),
            (Step(3, 3, 64), "domain 3 flushes 0x40"),
            (Step(4, 16, 0x1_0003), "domain 4 asks for hit map 0,1 (0x3) and fill map way0 (0x1)"),
            (Step(5, 16, 0), "domain 5 asks for two empty maps, to be removed"),
            (Step(6, 16, 1 << 40), "domain 6 asks for the policy of argument 0x100_0000_0000"),
            (Step(99, 7, 5), "domain 99 does kind 7 with argument 0x5"),
            (Step(3, 32, 0), "core 3 fetches at 0x0"),
            (Step(31, 33, 64), "core 31 loads at 0x40"),
            (Step(32, 34, 64), "core 32 stores at 0x40"),
            (Step(255, 35, 64), "core 255 flushes 0x40"),
            (Step(3, 40, 0x020101), "core 3 asks for CS 1, DS 1, ES 2"),
            (Step(3, 40, 0xFF0010), "core 3 asks for CS 16, DS 0, ES 255"),
            (Step(3, 40, 0x100_0000), "core 3 asks for the selectors of argument 0x100_0000"),
            (Step(9, 36, 5), "domain 9 does kind 36 with argument 0x5"),
        ):
            self.assertEqual(words.step(step), said)

    def test_routes(self):
        routes = "fetches through CS", "loads through DS", "stores through ES", "flushes through DS"
        for kind, said in enumerate(routes, 32):
            self.assertEqual(words.route(Step(3, kind, 64), 1), f"Core 3 {said}, which names domain 1.")

    def test_which_selectors_changed(self):
        for before, after, said in (
            ((0, 0, 0), (0, 1, 1), "changed DS from 0 to 1, ES from 0 to 1."),
            ((2, 3, 4), (5, 3, 4), "changed CS from 2 to 5."),
            ((1, 2, 3), (15, 0, 2), "changed CS from 1 to 15, DS from 2 to 0, ES from 3 to 2."),
            ((1, 1, 1), (1, 1, 1), "no selector changed."),
            ((), (), "no selector changed."),
        ):
            self.assertEqual(words.selected(before, after), f"Accepted; {said}")

    def test_geometry(self):
        for rule, said in ((0, "rule 0 (Tree-PLRU)"), (1, "rule 1 (NRU)"), (2, "rule 2 (true LRU)"), (3, "rule 3")):
            self.assertEqual(words.geometry(Trace(1, 4, rule, ())), f"1 set, 4 ways, {said}")
    def test_orders(self):
        for word, ways, said in (
            (0x2013, [0, 1, 2, 3], "oldest first 2 0 1 3"),
            (0x0123, [0, 1, 2, 3], "oldest first 0 1 2 3"),
            (0x10, [0, 1], "oldest first 1 0"),
            (0xFEDC_BA98_7654_3210, list(range(16)), "oldest first 15 14 13 12 11 10 9 8 7 6 5 4 3 2 1 0"),
            (0x2F7, [2, 7, 15], "oldest first 2 15 7"),
            (0x9, [9], "oldest first 9"),
            (0, [], "none"),
        ):
            self.assertEqual(words.order(word, ways), said)

    def test_words_that_are_no_order(self):
        for word, ways in (
            (0, [0, 1, 2, 3]),
            (0x3211, [0, 1, 2, 3]),
            (0x4210, [0, 1, 2, 3]),
            (0x1_0123, [0, 1, 2, 3]),
            (0x0123, [0, 1, 2]),
            (0x12, [1, 3]),
            (1, []),
        ):
            self.assertIsNone(words.order(word, ways), word)

    def test_lines(self):
        row = Row(0b0011, 0b0010, 0, (5, 6, 7, 0))
        said = [words.line(row, way) for way in range(4)]
        self.assertEqual(said, ["tag 5", "tag 6, dirty", "tag 7, invalid", "empty"])


class Refusals(unittest.TestCase):
    """Why something is refused, and the fix."""

    REMOVE = "Remove the domain by a policy with two empty maps, which zeroes its counts, and give it its maps anew."

    def test_every_refusal_has_a_reason_and_a_fix(self):
        self.assertEqual(sorted(refusals.REFUSALS), list(range(1, 12)))
        for number, refusal in refusals.REFUSALS.items():
            self.assertTrue(refusal.why.endswith(".") and refusal.fix.endswith("."), number)
            self.assertEqual(refusals.of_number(number), f"{refusal.why} {refusal.fix}")

    def test_geometry(self):
        self.assertIn("rule 0 (tree), 1 (nru) or 2 (lru).", refusals.of_number(1))

    def test_counts_that_are_full(self):
        full = "One of the domain's seven counts is 4,294,967,295 and cannot rise, or the lines that a policy change would"
        said = f"{full} drop would carry its count of dropped lines past that. {self.REMOVE}"
        self.assertEqual(refusals.of_number(7), said)

    def test_how_many_sets(self):
        self.assertIn("a number of sets that is a power of two, from 1 to 256 in a trace file;", refusals.of_number(1))
        held = "a trace file holds at most 256 sets (calls of the proved library take up to 4,096)."
        for part in ("more than 4,096 steps or more than 256 sets. ", held):
            self.assertIn(part, refusals.of_number(10))

    def test_kinds(self):
        for number, name in (*tracefile.KINDS.items(), *tracefile.CORE_KINDS.items()):
            self.assertIn(f" {number} ({name})", refusals.of_number(4))
