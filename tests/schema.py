#!/usr/bin/env python3
"""Holds each line of standard input, an object of JSON, against a schema, and says how many there are and which do not fit.

It knows the words of JSON Schema that the schemas of docs/ use, and refuses a schema with another one.
"""
import json
import re
import sys

TYPES = {"object": dict, "string": str, "null": type(None)}
KNOWN = {"$schema", "$defs", "$ref", "title", "oneOf", "type", "enum", "minimum", "pattern", "properties", "required", "additionalProperties"}


def is_of(value, name):
    """The value is of the type with this name."""
    return type(value) is int if name == "integer" else isinstance(value, TYPES[name])


def fits(value, schema, whole):
    """The value is one of the schema, which is a part of the whole one."""
    if not set(schema) <= KNOWN:
        raise SystemExit(f"words that are not known: {sorted(set(schema) - KNOWN)}")
    if "$ref" in schema:
        return fits(value, whole["$defs"][schema["$ref"].removeprefix("#/$defs/")], whole)
    if "oneOf" in schema and sum(fits(value, one, whole) for one in schema["oneOf"]) != 1:
        return False
    names = schema.get("type", [])
    if names and not any(is_of(value, name) for name in ([names] if isinstance(names, str) else names)):
        return False
    if "enum" in schema and value not in schema["enum"]:
        return False
    if isinstance(value, int) and value < schema.get("minimum", value):
        return False
    if isinstance(value, str) and not re.search(schema.get("pattern", ""), value):
        return False
    if isinstance(value, dict):
        members = schema.get("properties", {})
        if not set(schema.get("required", [])) <= set(value) or not schema.get("additionalProperties", True) and not set(value) <= set(members):
            return False
        return all(fits(part, members.get(name, {}), whole) for name, part in value.items())
    return True


def main():
    with open(sys.argv[1], encoding="utf-8") as file:
        schema = json.load(file)
    lines = sys.stdin.read().splitlines()
    others = [line for line in lines if not fits(json.loads(line), schema, schema)]
    for line in others:
        print("does not fit:", line)
    print(f"{len(lines) - len(others)} of {len(lines)} objects fit")


if __name__ == "__main__":
    main()
