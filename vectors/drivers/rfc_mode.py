#!/usr/bin/env python3
"""Checks that drivers that read and write by the flags for RFC 9000 fail the tests of rfc.txt by the RFCs, and no others.
Without a driver it checks only that these are tests that the library may answer otherwise, each with a reason.

rfc_mode.py [STACK COMMAND.. [-- STACK COMMAND..]]

A COMMAND is as in run.py; such drivers have an argument of their own, as `driver.py --rfc`. Status 1: there are
differences, which are printed."""
import pathlib
import sys

sys.path.insert(0, str(pathlib.Path(__file__).parent.parent))
import run  # noqa: E402

TABLE = pathlib.Path(__file__).parent / "rfc.txt"
RFC = "RFC"


def rows():
    """The ids of the table with their reasons."""
    for line in TABLE.read_text(encoding="utf-8").splitlines():
        if not line.startswith("#"):
            ident, _, reason = line.partition(" | ")
            yield ident, reason


def faults_of_table(named, tests):
    """Ids that are there twice or fit no test at which the library departs, and those without a reason."""
    seen = set()
    for ident, reason in named:
        answers = tests[ident]["answers"] if ident in tests else []
        if len({run.is_by(answer, RFC) for answer in answers}) != 2:
            yield f"{ident}: no test whose RFC the library departs from"
        if ident in seen or not reason.strip():
            yield f"{ident}: there twice, or without a reason"
        seen.add(ident)


def faults_of_stack(stack, command, named, every):
    """Tests that the driver fails by the RFC and aren't named, and the reverse."""
    answers = run.answers(command, [run.line(form, test) for form, _, test in every])
    failed = {}
    for (_, _, test), answer in zip(every, answers):
        kind, why = run.judge(test, answer, RFC)
        if kind in run.FAILURES:
            failed[test["id"]] = why
    for ident in sorted(failed.keys() - named):
        yield f"{stack}: {ident}: {failed[ident]}: not in {TABLE.name}"
    for ident in sorted(named - failed.keys()):
        yield f"{stack}: {ident}: answered as the RFC has it, but in {TABLE.name}"


def main():
    words = sys.argv[1:]
    stacks = run.stacks_of(words) if words else []
    if stacks is None:
        print(__doc__, file=sys.stderr)
        return 2
    every = list(run.tests())
    every += run.writers(every)
    named = list(rows())
    found = list(faults_of_table(named, {test["id"]: test for _, _, test in every}))
    for stack, command in stacks:
        found += faults_of_stack(stack, command, {ident for ident, _ in named}, every)
    print("\n".join(found), end="\n" if found else "")
    told = f"{len(named)} tests not answered by the flags for RFC 9000"
    print(f"rfc_mode.py: {told}; {len(stacks)} drivers; {len(found)} faults")
    return 1 if found else 0


if __name__ == "__main__":
    sys.exit(main())
