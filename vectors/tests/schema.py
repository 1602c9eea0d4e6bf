#!/usr/bin/env python3
"""Checks that the files of json/ fit their schema, with the keywords of JSON Schema that schema.json uses, and that
README.md has the numbers of their tests and of the captures that break a rule."""
import json
import pathlib
import re
import sys

TOP = pathlib.Path(__file__).parent.parent
SCHEMA = json.loads((TOP / "schema.json").read_text(encoding="utf-8"))
TYPES = {"object": dict, "array": list, "string": str, "integer": int}
KNOWN = set(
    "$schema $defs $ref title description type required additionalProperties properties items prefixItems minItems "
    "maxItems enum const pattern".split()
)


def faults_of_object(value, schema, where):
    properties = schema.get("properties", {})
    yield from (f"{where}: no {name}" for name in schema.get("required", ()) if name not in value)
    for name, one in value.items():
        if name in properties:
            yield from faults(one, properties[name], f"{where}.{name}")
        elif schema.get("additionalProperties") is False:
            yield f"{where}: {name} isn't in the schema"


def faults_of_array(value, schema, where):
    if not schema.get("minItems", 0) <= len(value) <= schema.get("maxItems", len(value)):
        yield f"{where}: {len(value)} items"
    first = schema.get("prefixItems", [])
    for index, one in enumerate(value):
        of = first[index] if index < len(first) else schema.get("items", {})
        yield from faults(one, of, f"{where}[{index}]")


def faults(value, schema, where):
    """What doesn't fit in a value."""
    if "$ref" in schema:
        schema = SCHEMA["$defs"][schema["$ref"].removeprefix("#/$defs/")]
    if unknown := schema.keys() - KNOWN:
        yield f"{where}: the schema has {unknown}, which isn't compared"
    if "type" in schema and not isinstance(value, TYPES[schema["type"]]):
        yield f"{where}: no {schema['type']}"
    elif "const" in schema and value != schema["const"] or "enum" in schema and value not in schema["enum"]:
        yield f"{where}: {value}"
    elif "pattern" in schema and not re.search(schema["pattern"], value):
        yield f"{where}: {value} doesn't fit {schema['pattern']}"
    elif isinstance(value, dict):
        yield from faults_of_object(value, schema, where)
    elif isinstance(value, list):
        yield from faults_of_array(value, schema, where)


def faults_of_counts(counts):
    """Where README.md differs in how many tests there are."""
    text = (TOP / "README.md").read_text(encoding="utf-8")
    told = {name: int(count) for name, count in re.findall(r"^\| `(\w+)\.json` \| (\d+) \|", text, re.M)}
    if told != counts:
        yield f"vectors/README.md: {dict(told.items() - counts.items())}, not {dict(counts.items() - told.items())}"
    if f"\n{sum(counts.values())} tests " not in text:
        yield f"vectors/README.md doesn't begin with {sum(counts.values())} tests"


def faults_of_captures():
    """Where README.md differs in how many captures break a rule, and how many nearly do."""
    text = (TOP / "README.md").read_text(encoding="utf-8")
    captures = json.loads((TOP / "captures" / "broken.json").read_text(encoding="utf-8"))["captures"]
    lawful = sum(one["lawful"] for one in captures)
    told = f"has {len(captures)} captures", f"In {len(captures) - lawful} of them", f"in {lawful} it nearly does"
    yield from (f"vectors/README.md doesn't say, of captures/broken: {one}" for one in told if one not in text)


def main():
    files = sorted((TOP / "json").glob("*.json"))
    found, counts = [], {}
    for path in files:
        file = json.loads(path.read_text(encoding="utf-8"))
        counts[path.stem] = file["numberOfTests"]
        found += faults(file, SCHEMA, path.stem)
    found += [*faults_of_counts(counts), *faults_of_captures()]
    print("\n".join(found), end="\n" if found else "")
    print(f"schema.py: {len(files)} files, {len(found)} faults")
    return 1 if found else 0


if __name__ == "__main__":
    sys.exit(main())
