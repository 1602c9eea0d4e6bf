#!/usr/bin/env python3
"""Checks that a right reader notices wrong tests: each test is changed in its result, its code, the offset of its error
or one digit of what is read, and must then fail. Also checks that the bytes after `known_at` don't matter: with others
there a reader must reject the input too.

wrong_tables.py [COMMAND ..]

COMMAND is a driver that passes the tests; plain.py if none is given. Status 1: a change isn't noticed."""
import json
import pathlib
import re
import sys
from collections import Counter

HERE = pathlib.Path(__file__).parent
sys.path.insert(0, str(HERE.parent))
import run  # noqa: E402

# Changes that no reader can notice: PADDING in two bytes has no count, and so has a run with it.
UNSEEN = {"payload.zero-two-bytes: another reading"}
FILLS = (0x00, 0x01, 0x08, 0x40, 0xFF)
VALUE = re.compile(r'"([0-9a-f]+)"(?!:)')


def accepted(test, answer):
    """The index of the allowed answer that the driver gave, or None."""
    for index, allowed in enumerate(test["answers"]):
        if run.judge(test | {"answers": [allowed]}, answer)[0] in ("pass", "as RFC"):
            return index
    return None


def other_result(allowed):
    result = "invalid" if allowed["result"] == "valid" else "valid"
    return {"by": allowed["by"], "result": result, "errors": ["NO_ERROR"]}


def other_code(allowed, answer):
    """The answer with a code that no reader returns; None if it has no code or the driver returned none."""
    if allowed["result"] == "valid" or answer.split(" ")[1:2] in ([], ["?"]):
        return None
    return allowed | {"errors": ["NO_ERROR"]}


def other_readings(read):
    """What is read, with one value after the other changed in its first digit."""
    text = json.dumps(read)
    for found in VALUE.finditer(text):
        digit = "1" if found[1][0] != "1" else "2"
        yield json.loads(text[: found.start(1)] + digit + text[found.start(1) + 1 :])


def wrong_tests(test, allowed, answer):
    """A test with one answer in all wrong ways, each with what is wrong."""
    yield "result", test | {"answers": [other_result(allowed)]}
    if wrong := other_code(allowed, answer):
        yield "code", test | {"answers": [wrong]}
    for read in other_readings(allowed["read"]) if allowed["result"] == "valid" else ():
        yield "reading", test | {"answers": [allowed | {"read": read}]}
    if allowed["result"] == "invalid" and '"at"' in answer:
        yield "offset", test | {"answers": [allowed], "error_begin": test["error_begin"] + 1}
        for read in other_readings(test["read_before"]):
            yield "reading", test | {"answers": [allowed], "read_before": read}


def changes(entries, answers):
    """Each wrong test with the answer for it, and what is wrong."""
    for (_, _, test), answer in zip(entries, answers):
        index = accepted(test, answer)
        if index is not None:
            for what, wrong in wrong_tests(test, test["answers"][index], answer):
                yield what, wrong, answer


def other_tails(entries):
    """Tests in which the bytes after known_at are others."""
    for form, group, test in entries:
        known, size = test.get("known_at"), len(test["input"]) // 2
        if test["result"] == "invalid" and known is not None and known < size:
            for fill in FILLS:
                text = test["input"][: 2 * known] + f"{fill:02x}" * (size - known)
                yield run.Entry(form, group, test | {"input": text})


def main():
    command = sys.argv[1:] or [sys.executable, str(HERE / "plain.py")]
    entries = list(run.tests())
    answers = run.answers(command, [run.line(form, test) for form, _, test in entries])
    counts, unseen = Counter(), []
    for what, test, answer in changes(entries, answers):
        counts[what] += 1
        if run.judge(test, answer)[0] not in run.FAILURES:
            unseen.append(f"{test['id']}: another {what}")
    tails = list(other_tails(entries))
    told = run.answers(command, [run.line(form, test) for form, _, test in tails])
    read = [test["id"] for (_, _, test), answer in zip(tails, told) if not answer.startswith("invalid")]
    unseen += [f"{ident}: read with other bytes after known_at" for ident in dict.fromkeys(read)]
    faults = [text for text in dict.fromkeys(unseen) if text not in UNSEEN]
    print("\n".join(faults), end="\n" if faults else "")
    changed = ", ".join(f"{count} {what}s" for what, count in counts.items())
    print(f"wrong_tables.py: {changed} changed, {len(tails)} tails; {len(faults)} faults")
    return 1 if faults else 0


if __name__ == "__main__":
    sys.exit(main())
