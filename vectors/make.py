#!/usr/bin/env python3
"""Makes json/ from tables/. With --check it writes nothing, and ends with status 1 if json/ isn't what tables/ say.

make.py [--check]

An id stays: one that json/ has may leave the tables only for tables/withdrawn.txt, and none from there is used again.
"""
import json
import pathlib
import sys
from collections import Counter

from making import kinds

HERE = pathlib.Path(__file__).parent
# Each table with its format and what makes tests from its rows.
FILES = {
    "frames": ("payload", kinds.structured),
    "payloads": ("payload", kinds.structured),
    "permitted": ("payload", kinds.structured),
    "packets": ("datagram", kinds.structured),
    "params": ("params", kinds.structured),
    "varints": ("varint", kinds.varints),
    "numbers": ("number", kinds.numbers),
    "shortest": ("shortest", kinds.shortest_payloads),
    "protection": ("protection", kinds.protection),
    "headers": ("header", kinds.headers),
    "layer": ("layer", kinds.layer),
    "ciphers": ("cipher", kinds.ciphers),
}


def grouped(name):
    """The tests of a table by their groups, in the order of the table."""
    form, tests_of = FILES[name]
    groups = {}
    for group, test in tests_of(form, name):
        groups.setdefault(group, []).append(test)
    return groups


def text_of(name, groups):
    """A file of tests: JSON with a test a line."""
    head = {"schema": "schema.json", "format": FILES[name][0], "title": name}
    head["numberOfTests"] = sum(map(len, groups.values()))
    parts = []
    for group, tests in groups.items():
        lines = ",\n".join(json.dumps(test) for test in tests)
        about = json.dumps({"title": group.title, "rfc": group.rfc})[:-1]
        parts.append(f'{about}, "tests": [\n{lines}\n]}}')
    return json.dumps(head)[:-1] + ', "testGroups": [\n' + ",\n".join(parts) + "\n]}\n"


def ids_in(text):
    return [test["id"] for group in json.loads(text)["testGroups"] for test in group["tests"]]


def faults_of_ids(made, there):
    """What is wrong with the ids of the tests that were made, compared with the existing ones."""
    withdrawn = set((HERE / "tables" / "withdrawn.txt").read_text(encoding="utf-8").split("\n"))
    ids = Counter(ident for text in made.values() for ident in ids_in(text))
    yield from (f"{ident}: {count} tests have this id" for ident, count in ids.items() if count > 1)
    yield from (f"{ident}: withdrawn, and given again" for ident in ids if ident in withdrawn)
    for ident in (ident for text in there.values() for ident in ids_in(text)):
        if ident not in ids and ident not in withdrawn:
            yield f"{ident}: has no row any more, and isn't in tables/withdrawn.txt"


def main():
    words = sys.argv[1:]
    if words not in ([], ["--check"]):
        print("usage: make.py [--check]", file=sys.stderr)
        return 2
    made = {name: text_of(name, grouped(name)) for name in FILES}
    paths = {name: HERE / "json" / f"{name}.json" for name in FILES}
    there = {name: path.read_text(encoding="utf-8") for name, path in paths.items() if path.exists()}
    faults = list(faults_of_ids(made, there))
    if words:
        differ = [name for name in FILES if made[name] != there.get(name)]
        faults += [f"json/{name}.json isn't what tables/{name}.txt says" for name in differ]
    if faults:
        print("\n".join(faults))
        return 1
    for name, path in paths.items() if not words else ():
        path.parent.mkdir(exist_ok=True)
        path.write_text(made[name], encoding="utf-8")
    tests = [json.loads(text) for text in made.values()]
    results = Counter(test["result"] for file in tests for group in file["testGroups"] for test in group["tests"])
    told = ", ".join(f"{results[result]} {result}" for result in ("valid", "invalid", "choice"))
    print(f"make.py: {sum(results.values())} tests: {told}" + ("; json/ is what tables/ say" if words else ""))
    return 0


if __name__ == "__main__":
    sys.exit(main())
