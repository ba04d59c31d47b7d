"""Holding objects against docs/output.schema.json, with as much of JSON Schema as that file uses, and the order of keys too."""
from __future__ import annotations

import json
import re

from frontend.programs import ROOT

SCHEMA = json.loads((ROOT / "docs" / "output.schema.json").read_text(encoding="utf-8"))
_TYPES = {"object": dict, "array": list, "string": str, "integer": int, "boolean": bool, "null": type(None)}
_KNOWN = {
    *("$ref", "description", "type", "const", "enum", "pattern", "minimum", "maximum"),
    *("properties", "required", "additionalProperties", "items", "oneOf", "anyOf"),
}


def why_not(value: object, name: str) -> str | None:
    """Say why an object is not one of a definition of the schema; None if it is."""
    return _why_not(value, {"$ref": f"#/$defs/{name}"}, "")


def lines(out: bytes, name: str) -> list[dict]:
    """Read the lines of an output; raise AssertionError if one is not a line of a command."""
    records = [json.loads(line) for line in out.decode("ascii").splitlines()]
    for record in records:
        wrong = why_not(record, name)
        assert wrong is None, (wrong, record)
    return records


def _why_not(value: object, schema: dict, where: str) -> str | None:
    """Say why a value does not fit a schema."""
    unknown = set(schema) - _KNOWN
    assert not unknown, unknown
    if "$ref" in schema:
        return _why_not(value, SCHEMA["$defs"][schema["$ref"].rpartition("/")[2]], where)
    for key, most in (("oneOf", 1), ("anyOf", len(schema.get("anyOf", ())))):
        if key in schema:
            wrong = [_why_not(value, each, where) for each in schema[key]]
            return None if 1 <= wrong.count(None) <= most else f"{where}: {wrong.count(None)} of {key} fit: {wrong}"
    checks = (_wrong_type, _wrong_value, _wrong_object, _wrong_items)
    return next((found for found in (check(value, schema, where) for check in checks) if found), None)


def _wrong_type(value: object, schema: dict, where: str) -> str | None:
    """Say that a value has another type; a truth value is no number."""
    if "type" not in schema:
        return None
    due = _TYPES[schema["type"]]
    fits = isinstance(value, due) and (due is not int or not isinstance(value, bool))
    return None if fits else f"{where}: {value!r} is no {schema['type']}"


def _wrong_value(value: object, schema: dict, where: str) -> str | None:
    """Say that a value is not one that is allowed."""
    fits = (
        ("const" not in schema or value == schema["const"])
        and ("enum" not in schema or value in schema["enum"])
        and ("pattern" not in schema or re.search(schema["pattern"], value) is not None)
        and ("minimum" not in schema or value >= schema["minimum"])
        and ("maximum" not in schema or value <= schema["maximum"])
    )
    return None if fits else f"{where}: {value!r} does not fit {schema}"


def _wrong_object(value: object, schema: dict, where: str) -> str | None:
    """Say that an object has other keys, or the same in another order, or what is wrong with one of its values."""
    if "properties" not in schema:
        return None
    assert schema["required"] == list(schema["properties"]) and schema["additionalProperties"] is False
    if list(value) != schema["required"]:
        return f"{where}: the keys are {list(value)}, and should be {schema['required']}"
    found = (_why_not(value[key], each, f"{where}.{key}") for key, each in schema["properties"].items())
    return next((wrong for wrong in found if wrong), None)


def _wrong_items(value: object, schema: dict, where: str) -> str | None:
    """Say what is wrong with an item of a list."""
    if "items" not in schema:
        return None
    found = (_why_not(item, schema["items"], f"{where}[{place}]") for place, item in enumerate(value))
    return next((wrong for wrong in found if wrong), None)
