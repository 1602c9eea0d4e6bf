#!/usr/bin/env python3
"""Checks that a document names each test at which quinn-proto and quic-wire depart from the RFC in the last column of
its tables, and otherwise only those that leave a choice.

departures.py DOCUMENT"""
import fnmatch
import pathlib
import re
import sys

sys.path.insert(0, str(pathlib.Path(__file__).parent.parent))
import run  # noqa: E402


def patterns(text):
    """The patterns in the last column of tables whose head is `tests`, and whether each is in italics."""
    is_tests = False
    for line in text.splitlines():
        cells = [cell.strip() for cell in line.strip("|").split("|")] if line.startswith("|") else []
        is_tests = bool(cells) and (is_tests or cells[-1] == "tests")
        for star, pattern in re.findall(r"(\*?)`([\w.*-]+)`", cells[-1] if is_tests else ""):
            yield pattern, bool(star)


def main():
    if len(sys.argv) != 2:
        print("usage: departures.py DOCUMENT", file=sys.stderr)
        return 2
    choices = {entry.test["id"]: entry.test for entry in run.tests() if entry.test["result"] == "choice"}
    departing = {ident for ident, test in choices.items() if not test["answers"][1]["by"].startswith(("RFC", "ACK"))}
    named, faults = set(), []
    for pattern, is_open in patterns(pathlib.Path(sys.argv[1]).read_text(encoding="utf-8")):
        found = set(fnmatch.filter(choices if is_open else departing, pattern))
        named |= found
        if not found:
            faults.append(f"{pattern}: fits no test with a choice" if is_open else f"{pattern}: fits no departing test")
    faults += [f"{ident}: a test at which the library departs, and not named" for ident in sorted(departing - named)]
    print("\n".join(faults), end="\n" if faults else "")
    print(f"departures.py: {len(departing)} tests at which the library departs; {len(faults)} faults")
    return 1 if faults else 0


if __name__ == "__main__":
    sys.exit(main())
