"""Holds JSON against a schema of JSON Schema 2020-12, as far as docs/report.schema.json uses it.

A keyword that is not known here raises KeyError, so that no part of a schema counts for nothing.
"""

from __future__ import annotations

import re
from collections.abc import Callable, Iterator
from typing import Any

Schema = dict[str, Any]  # by keywords; a value and what a keyword wants of it are any JSON
TYPES: dict[str, tuple[type, ...]] = {
    "object": (dict,), "array": (list, tuple), "string": (str,), "integer": (int,), "number": (int, float), "boolean": (bool,), "null": (type(None),),
}
SAID = {"$schema", "$id", "$defs", "title", "description", "required"}


def is_of(value: Any, name: str) -> bool:
    return isinstance(value, TYPES[name]) and (name == "boolean" or not isinstance(value, bool))


def of_type(value: Any, wanted: Any) -> bool:
    return any(is_of(value, name) for name in ([wanted] if isinstance(wanted, str) else wanted))


# Each says whether a value is as a keyword wants it; of a value of another type a keyword says nothing.
TESTS: dict[str, Callable[[Any, Any], bool]] = {
    "type": of_type,
    "const": lambda value, wanted: value == wanted and isinstance(value, bool) == isinstance(wanted, bool),
    "enum": lambda value, wanted: value in wanted,
    "minimum": lambda value, wanted: not of_type(value, "number") or value >= wanted,
    "minItems": lambda value, wanted: not of_type(value, "array") or len(value) >= wanted,
    "maxItems": lambda value, wanted: not of_type(value, "array") or len(value) <= wanted,
    "pattern": lambda value, wanted: not isinstance(value, str) or re.search(wanted, value) is not None,
}


def inner(value: Any, schema: Schema, key: str) -> Iterator[tuple[str, Any, Schema]]:
    """The parts of a value that a keyword gives a schema to, as (where, part, schema)."""
    wanted = schema[key]
    if key == "properties" and isinstance(value, dict):
        yield from ((".%s" % name, value[name], wanted[name]) for name in wanted if name in value)
    elif key == "additionalProperties" and isinstance(value, dict):
        yield from ((".%s" % name, value[name], wanted) for name in value if name not in schema.get("properties", ()))
    elif key == "prefixItems" and isinstance(value, (list, tuple)):
        yield from (("[%d]" % place, part, one) for place, (part, one) in enumerate(zip(value, wanted)))
    elif key == "items" and isinstance(value, (list, tuple)):
        start = len(schema.get("prefixItems", ()))
        yield from (("[%d]" % place, value[place], wanted) for place in range(start, len(value)))


INNER = {"properties", "additionalProperties", "prefixItems", "items"}


def faults(value: Any, schema: Schema, root: Schema | None = None, where: str = "") -> Iterator[str]:
    """What of a value is not as the schema wants it, with its place."""
    root = root or schema
    for key, wanted in schema.items():
        if key == "$ref":
            yield from faults(value, root["$defs"][wanted.removeprefix("#/$defs/")], root, where)
        elif key == "anyOf":
            if all(next(faults(value, one, root, where), None) for one in wanted):
                yield "%s: none of %d forms" % (where or "all", len(wanted))
        elif key in INNER:
            for place, part, one in inner(value, schema, key):
                yield from faults(part, one, root, where + place)
        elif key == "required" and isinstance(value, dict):
            yield from ("%s: no %s" % (where.lstrip(".") or "all", name) for name in wanted if name not in value)
        elif key not in SAID and not TESTS[key](value, wanted):
            yield "%s: not as `%s` wants it" % (where.lstrip(".") or "all", key)
