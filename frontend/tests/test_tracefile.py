"""The binary form."""
from __future__ import annotations

import random
import unittest

from frontend import tracefile
from frontend.tests import case_a
from frontend.tests.helpers import random_file, random_trace
from frontend.tracefile import BadTraceFile, Step, Trace


class TraceFile(unittest.TestCase):
    """Reading and writing trace files."""

    def test_case_a(self):
        trace = tracefile.decode(case_a.FILE)
        self.assertEqual((trace.sets, trace.ways, trace.rule, len(trace.steps)), (1, 4, 0, 9))
        self.assertEqual(trace.steps[0], Step(0, 16, 0x30003))
        self.assertEqual(trace.steps[5], Step(0, 1, 128))
        self.assertEqual(tracefile.encode(trace), case_a.FILE)

    def test_round_trip_of_random_bytes(self):
        source = random.Random(1)
        for count in (0, 1, 2, 17, 300):
            data = random_file(source, count)
            self.assertEqual(tracefile.encode(tracefile.decode(data)), data)

    def test_round_trip_of_traces(self):
        source = random.Random(2)
        for count in range(40):
            trace = random_trace(source, count)
            self.assertEqual(tracefile.decode(tracefile.encode(trace)), trace)

    def test_most_steps(self):
        data = tracefile.encode(Trace(1, 2, 0, (Step(0, 0, 0),) * 4096))
        self.assertEqual(len(tracefile.decode(data).steps), 4096)

    def test_too_many_steps(self):
        data = tracefile.encode(Trace(1, 2, 0, (Step(0, 0, 0),) * 4097))
        self.assert_refused(data, "its header says 4,097 steps, and the most is 4,096")
        self.assert_refused(data[:40_969], "its header says 4,097 steps, and the most is 4,096")

    def test_as_many_sets_as_a_file_holds(self):
        for sets in (0, 1, 3, 255, 256):  # 0, 3 and 255 are for the lister to refuse
            self.assertEqual(tracefile.decode(tracefile.encode(Trace(sets, 2, 0, ()))).sets, sets)

    def test_too_many_sets(self):
        held = "a trace file holds at most 256 sets (calls of the proved library take up to 4,096)"
        for sets, said in ((257, "257"), (512, "512"), (4096, "4,096"), (65_535, "65,535")):
            for steps in ((), (Step(0, 0, 0),) * 4096):
                self.assert_refused(tracefile.encode(Trace(sets, 2, 0, steps)), f"its header says {said} sets; {held}")

    def test_the_number_of_sets_is_the_last_reason(self):
        data = tracefile.encode(Trace(512, 2, 0, (Step(0, 0, 0),) * 4097))
        self.assert_refused(data[:7], "it has 7 bytes, and the header alone has 8")
        self.assert_refused(data[:8], "its header says 4,097 steps, so its length is to be 8 + 10 x 4097 = 40978 bytes; it has 8")
        self.assert_refused(data, "its header says 4,097 steps, and the most is 4,096")
        data = tracefile.encode(Trace(512, 2, 0, ()))
        self.assert_refused(data + b"\0", "its header says 0 steps, so its length is to be 8 + 10 x 0 = 8 bytes; it has 9")
        self.assert_refused(data, "its header says 512 sets")

    def test_under_eight_bytes(self):
        self.assert_refused(b"", "0 bytes, and the header alone has 8")
        self.assert_refused(case_a.FILE[:1], "1 byte, and")
        self.assert_refused(case_a.FILE[:7], "7 bytes")

    def test_wrong_length(self):
        self.assert_refused(case_a.FILE[:-1], "8 + 10 x 9 = 98 bytes; it has 97")
        self.assert_refused(case_a.FILE + b"x", "= 98 bytes; it has 99")
        self.assert_refused(case_a.FILE + bytes(50_000), "8 + 10 x 9 = 98 bytes; it has more than 40968")
        self.assert_refused(b"\xff" * 8, "4,294,967,295 steps, so its length is to be 8 + 10 x 4294967295")

    def assert_refused(self, data: bytes, reason: str) -> None:
        with self.assertRaises(BadTraceFile) as caught:
            tracefile.decode(data)
        self.assertIn(reason, str(caught.exception))
