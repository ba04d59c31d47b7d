"""What `--json` writes, held against docs/output.schema.json."""
from __future__ import annotations

import json
import os
import random
import tempfile
import unittest

from frontend import listing, programs, tracefile
from frontend.tests import case_a, schema
from frontend.tests.helpers import by_rote, call, needs_programs
from frontend.tests.test_cli import CASE_A
from frontend.tests.test_with_programs import EXAMPLES, busy_trace
from frontend.tracefile import Step, Trace

try:
    import jsonschema
except ImportError:
    jsonschema = None


def by_case_a() -> object:
    """Let programs answer case A."""
    return by_rote(lister=lambda data: case_a.LISTING, stepper=lambda data: case_a.STREAM)


class Schema(unittest.TestCase):
    """The schema itself."""

    def test_every_line_belongs_to_a_command(self):
        commands = {name: schema.SCHEMA["$defs"][name]["oneOf"] for name in ("list", "explain", "state", "isolate", "check")}
        used = {each["$ref"] for lines in commands.values() for each in lines}
        self.assertEqual(used, {f"#/$defs/{name}" for name in schema.SCHEMA["$defs"] if name.endswith("_line")})
        self.assertEqual(used, {each["$ref"] for each in schema.SCHEMA["oneOf"]})

    def test_a_line_is_named_by_its_type(self):
        for name, each in schema.SCHEMA["$defs"].items():
            if name.endswith("_line"):
                self.assertEqual(each["properties"]["type"], {"const": name[: -len("_line")]})
                self.assertTrue(each["description"].endswith("."))

    def test_every_word_and_its_fields(self):
        due = {each["properties"]["word"]["const"]: tuple(each["required"][1:]) for each in schema.SCHEMA["$defs"]["answer"]["oneOf"]}
        self.assertEqual(due, listing.FIELDS)

    def test_the_counts(self):
        self.assertEqual(tuple(schema.SCHEMA["$defs"]["counts"]["required"]), listing.Counts._fields)

    def test_what_does_not_fit_is_found(self):
        good = {"type": "answer", "place": 3, "answer": {"word": "evict", "way": 1, "tag": "0x0", "dirty": True}}
        self.assertIsNone(schema.why_not(good, "answer_line"))
        for bad in (
            {**good, "place": -1},
            {**good, "place": "3"},
            {**good, "place": True},
            {**good, "more": 1},
            {"place": 3, "type": "answer", "answer": good["answer"]},
            {**good, "answer": {**good["answer"], "tag": 0}},
            {**good, "answer": {**good["answer"], "tag": "0x00"}},
            {**good, "answer": {**good["answer"], "dirty": 1}},
            {**good, "answer": {"word": "evict", "way": 1}},
            {**good, "answer": {"word": "hit"}},
            {"type": "answer", "place": 3},
        ):
            self.assertIsNotNone(schema.why_not(bad, "answer_line"), bad)

    @unittest.skipIf(jsonschema is None, "the package jsonschema is not installed")
    def test_it_is_a_schema_to_others_too(self):
        jsonschema.Draft202012Validator.check_schema(schema.SCHEMA)
        with by_case_a():
            lines = call("explain", "-", "--json", stdin=case_a.FILE)[1].splitlines()
        for line in lines:
            jsonschema.validate(json.loads(line), schema.SCHEMA)


class CaseA(unittest.TestCase):
    """Case A, from a listing and a stream made by hand."""

    def test_list(self):
        with by_case_a():
            status, out, err = call("list", "-", "--json", stdin=case_a.FILE)
        records = schema.lines(out, "list")
        self.assertEqual((status, err, len(records)), (0, "", 1 + 9 + 2))
        head = {"type": "trace", "name": "standard input", "sets": 1, "ways": 4, "rule": "tree", "steps": 9}
        self.assertEqual(records[0], head)
        evict = {"word": "evict", "way": 1, "tag": "0x0", "dirty": True}
        self.assertEqual(records[6], {"type": "answer", "place": 5, "answer": evict})
        self.assertEqual([record["place"] for record in records[1:10]], list(range(9)))
        counts = dict(zip(listing.Counts._fields, (1, 3, 1, 1, 1, 3, 0)))
        self.assertEqual(records[10], {"type": "counts", "domain": 0, "counts": counts})

    def test_explain(self):
        with by_case_a():
            status, out, err = call("explain", CASE_A, "--json")
        records = schema.lines(out, "explain")
        self.assertEqual((status, err, len(records)), (0, "", 1 + 9 + 2))
        step = records[6]
        self.assertEqual((step["place"], step["domain"], step["visited"]), (5, 0, 2))
        self.assertEqual(step["step"], {"by": "domain", "number": 0, "kind": "load", "kind_number": 1, "argument": "0x80"})
        self.assertEqual(step["address"], {"line": "0x2", "set": 0, "tag": "0x2"})
        self.assertRegex(step["source"]["text"], "^0 load 0x80")
        self.assertTrue(step["said"].startswith("A miss: the line with tag 0 was evicted from way 1 (dirty, so it is "))
        before = {"valid": "0xb", "dirty": "0x2", "word": "0x2", "tags": ["0x1", "0x0", "0x0", "0x0"]}
        after = {"valid": "0xb", "dirty": "0x0", "word": "0x0", "tags": ["0x1", "0x2", "0x0", "0x0"]}
        self.assertEqual(step["sets"], [{"set": 0, "before": before, "after": after}])
        empty, both = {"map": "0x0", "ways": []}, {"map": "0x3", "ways": [0, 1]}
        self.assertEqual(
            records[1]["policies"],
            [{"domain": 0, "before": {"hit": empty, "fill": empty}, "after": {"hit": both, "fill": both}}],
        )
        self.assertEqual((records[1]["sets"], records[1]["address"]), ([], None))
        self.assertEqual((records[8]["answer"], records[8]["sets"]), ({"word": "refused", "number": 6}, []))
        self.assertEqual([(record["domain"], record["held"]) for record in records[-2:]], [(0, 1), (1, 1)])

    def test_explain_of_a_file_has_no_source(self):
        with by_case_a():
            out = call("explain", "-", "--json", "--step", "5", stdin=case_a.FILE)[1]
        _, step = schema.lines(out, "explain")
        self.assertIsNone(step["source"])

    def test_a_refused_file(self):
        for data, number in ((b"\1\2\3", 10), (tracefile.encode(Trace(3, 4, 0, ())), 1)):
            with by_rote(lister=lambda data, number=number: b"refused %d\n" % number):
                status, out, err = call("list", "-", "--json", stdin=data)
            (record,) = schema.lines(out, "list")
            self.assertEqual((status, record["number"]), (2, number))
            self.assertEqual(err, f"dipperlock: {record['why']}\n")

    def test_a_name_of_any_letters(self):
        with tempfile.TemporaryDirectory() as folder, by_case_a():
            name = os.path.join(folder, 'tr\u00e4ce "1"\udcff.trace')
            with open(name, "wb") as file:
                file.write(case_a.FILE)
            out = call("list", name, "--json")[1]
        self.assertIn("tr\u00e4ce", schema.lines(out, "list")[0]["name"])


@needs_programs
class Programs(unittest.TestCase):
    """Whatever the programs say is written as the schema has it."""

    def assert_lines(self, name: str, *arguments: str, stdin: bytes = b"") -> list[dict]:
        status, out, err = call(name, *arguments, "--json", stdin=stdin)
        self.assertEqual((status, err), (0, ""))
        return schema.lines(out, name)

    def test_examples(self):
        for path in map(str, EXAMPLES):
            for name in ("list", "explain", "state"):
                self.assert_lines(name, path)
            self.assertTrue(all(record["same"] for record in self.assert_lines("isolate", path, "--all")[1:]))
            self.assertEqual(self.assert_lines("isolate", path, "1")[-1]["type"], "verdict")

    def test_random_traces(self):
        source = random.Random(22)
        for _ in range(6):
            data = tracefile.encode(busy_trace(source, 120))
            for name in ("list", "explain", "state"):
                self.assert_lines(name, "-", stdin=data)

    def checked(self, trace: Trace, log: bytes, *options: str) -> list[dict]:
        """Check a log with the programs; give the lines."""
        with tempfile.TemporaryDirectory() as folder:
            path = os.path.join(folder, "t.trace")
            with open(path, "wb") as file:
                file.write(tracefile.encode(trace))
            status, out, err = call("check", path, "-", "--json", "--max", "10000", *options, stdin=log)
        self.assertIn(status, (0, 1), err)
        records = schema.lines(out, "check")
        self.assertEqual(records[-1]["same"], status == 0)
        self.assertEqual(len(records) - 2, records[-1]["differences"])
        return records

    def test_logs(self):
        source, hows, ofs = random.Random(24), set(), set()
        for _ in range(6):
            trace = busy_trace(source, 60)
            lines = programs.lister(tracefile.encode(trace)).splitlines()
            self.assertTrue(self.checked(trace, b"\n".join(lines))[-1]["same"])
            for _ in range(6):
                changed = list(lines)
                place = source.randrange(len(changed))
                changed[place : place + 1] = source.choice(([], [lines[place]] * 2, [lines[place][:-1] + b"9"], [b"4095 hit 3"]))
                for record in self.checked(trace, b"\n".join(changed))[1:-1]:
                    hows.add(record["how"])
                    ofs.add(record["of"])
        self.assertEqual((hows, ofs >= {"step", "domain"}), ({"other", "missing", "extra", "second"}, True))

    def test_logs_that_say_less_or_something_strange(self):
        trace = tracefile.decode(case_a.FILE)
        log = case_a.LISTING.replace(b"5 evict 1 0 1", b"5 evict 1 x z").replace(b"2 fill 1", b"2 fill 0")
        evict = next(record for record in self.checked(trace, log)[1:-1] if record["place"] == 5)
        self.assertEqual(evict["found"], {"word": "evict", "way": 1, "tag": "x", "dirty": "z"})
        words = b"\n".join(b" ".join(line.split()[:2]) for line in log.splitlines()[1:10])
        self.assertTrue(self.checked(trace, words, "--format", "{place} {word}")[-1]["same"])

    def test_the_listing_can_be_written_from_it(self):
        data = tracefile.encode(busy_trace(random.Random(23), 200))
        head, *records = self.assert_lines("list", "-", stdin=data)
        rule = list(tracefile.RULES.values()).index(head["rule"])
        written = [f"{head['sets']} {head['ways']} {rule} {head['steps']}"]
        for record in records:
            if record["type"] == "answer":
                word, *fields = record["answer"].values()
                numbers = (int(field, 16) if isinstance(field, str) else int(field) for field in fields)
                written.append(" ".join(map(str, (record["place"], word, *numbers))))
            else:
                written.append(" ".join(map(str, ("domain", record["domain"], *record["counts"].values()))))
        self.assertEqual("\n".join(written) + "\n", programs.lister(data).decode())

    def test_the_largest_numbers(self):
        top = (1 << 64) - 1
        trace = Trace(1, 2, 0, (Step(0, 16, 0x3_0003), *(Step(0, 2, top - 64 * line) for line in range(3)), Step(255, 255, top)))
        steps = self.assert_lines("explain", "-", stdin=tracefile.encode(trace))[1:-1]
        self.assertEqual(steps[3]["answer"], {"word": "evict", "way": 1, "tag": "0x3ffffffffffffff", "dirty": True})
        self.assertEqual((steps[1]["address"]["tag"], steps[4]["step"]["kind"]), ("0x3ffffffffffffff", "unknown"))
