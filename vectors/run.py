#!/usr/bin/env python3
"""Runs the tests of json/ through decoders and encoders, and prints each failure and a table of groups.

run.py [-v] [--only PATTERN] [--as NAME] [--by-file] STACK COMMAND.. [-- STACK COMMAND..]

STACK is what the table calls it, COMMAND a driver: a program that reads lines `FORMAT CONTEXT HEX` and writes a line
for each, without waiting for the next:

  valid [JSON]           what was read, as `read` in the tests; what it leaves out isn't compared
  invalid [CODE [JSON]]  the code to close with, DROP for a packet that is discarded, `?` for none; JSON is
                         {"at": OFFSET, "before": [..]}: where the rejected item begins, and the items before it
  skip                   the stack has no such thing

CONTEXT is `-` or `name=value,..`; HEX is `-` for no bytes. A driver that ends early is started again after the line
that it didn't answer, which counts as a crash.

-v              prints every test, with what the driver answered
--only PATTERN  only tests whose ids fit PATTERN, such as 'ack.*'
--as NAME       of a choice, only answers whose `by` begins with NAME are allowed, if there are any: `--as RFC` fails what
                departs from an RFC
--by-file       the table has a line for each file of tests, not for each group

Status 0: no test failed; 1: one did; 2: a wrong call, or no driver."""
import argparse
import fnmatch
import json
import pathlib
import subprocess
import sys
from collections import Counter
from typing import NamedTuple

HERE = pathlib.Path(__file__).parent
DEFAULTS = json.loads((HERE / "defaults.json").read_text(encoding="utf-8"))  # of transport parameters
SECONDS = 120  # for a driver, without an answer to all lines
MOST_IN_VAIN = 5  # starts of a driver
FAILURES = ("fail", "code", "crash")
# Transport parameters whose meaning is compared in lists: integers with their defaults, and others by their bytes.
INTEGER_DEFAULTS = {0x01: 0, 0x03: 65527, **dict.fromkeys(range(0x04, 0x0A), 0), 0x0A: 3, 0x0B: 25, 0x0E: 2, 0x20: 0}
MIN_ACK_DELAY = 0xFF04DE1B
OTHER_PARAMETERS = {0x00, 0x02, 0x0C, 0x0D, 0x0F, 0x10, 0x2AB2}
# The letter before a count in a cell of the table, by the kind of result.
LETTERS = {"pass": "", "code": "c", "fail": "F", "crash": "X", "as RFC": "r", "otherwise": "o", "skip": "s"}
LEGEND = (
    "passed, c with another code, F failed, X crashed; of choices r as the RFC, o otherwise; s skipped by the driver"
)


class Entry(NamedTuple):
    """A test, with the format of its file, and its file and group as the table has them."""

    form: str
    group: str
    test: dict


def tests(folder=HERE / "json"):
    for path in sorted(folder.glob("*.json")):
        file = json.loads(path.read_text(encoding="utf-8"))
        for group in file["testGroups"]:
            for test in group["tests"]:
                yield Entry(file["format"], f"{file['title']}: {group['title']}", test)


def list_writers(every):
    """For each list of transport parameters that is read, a test for writers: read and written, it says the same."""
    for form, _, test in every:
        if form == "params" and test["result"] == "valid":
            answer = {"by": test["rfc"], "result": "valid", "list": test["input"]}
            more = {"id": f"{test['id']}.written", "comment": "The list, read and written again.", "answers": [answer]}
            yield Entry("params-write", "params: written lists", test | more)


def payload_writers(every):
    """For each payload that is read, a test for writers: the shortest payload of its frames, made from it and from
    itself."""
    for _, group, test in every:
        if "shortest" not in test:
            continue
        rejected = [answer for answer in test["answers"] if answer["result"] == "invalid"]
        written = {"by": test["answers"][-1 if rejected else 0]["by"], "result": "valid", "read": test["shortest"]}
        about = {"comment": "The shortest payload of these frames.", "rfc": test["rfc"], "result": test["result"]}
        for mark, text in (("", test["input"]), ("-again", test["shortest"])):
            more = {"id": f"{test['id']}.shortest{mark}", "input": text, "answers": [written] + rejected}
            yield Entry("shortest", f"{group.split(':')[0]}: shortest payloads", about | more)


def writers(every):
    """The tests of writers that the tests of readers stand for."""
    return [*list_writers(every), *payload_writers(every)]


def line(form, test):
    """A test as a line for a driver."""
    context = ",".join(f"{name}={value}" for name, value in sorted(test.get("context", {}).items()))
    return f"{test.get('call', form)} {context or '-'} {test['input'] or '-'}\n"


class DriverEnded(Exception):
    """A driver ended too often without an answer."""


def answers(command, lines):
    """What a driver answers for each line."""
    out, starts_in_vain = [], 0
    while len(out) < len(lines):
        had = len(out)
        text = "".join(lines[len(out) :])
        try:
            done = subprocess.run(command, input=text, capture_output=True, text=True, timeout=SECONDS)
            told, why = done.stdout, done.stderr.strip().split("\n")[-1] or f"status {done.returncode}"
        except subprocess.TimeoutExpired as late:
            told, why = (late.stdout or b"").decode(), f"no answer within {SECONDS} s"
        out += told.split("\n")[:-1]
        starts_in_vain = starts_in_vain + 1 if len(out) == had else 0
        if starts_in_vain == MOST_IN_VAIN:
            raise DriverEnded(f"run.py: {' '.join(command)}: no answer to {MOST_IN_VAIN} lines in a row: {why}")
        if len(out) < len(lines):
            out.append(f"crash {why[:100]}")
    return out[: len(lines)]


def merged(items):
    """Items with each run of PADDING as one, since some readers count frames, others bytes or runs."""
    out = []
    for item in items:
        if out and item.get("type") == out[-1].get("type") == "PADDING":
            both = [frame.get("count") for frame in (out[-1], item)]
            out[-1] = {"type": "PADDING"} | ({"count": str(sum(map(int, both)))} if all(both) else {})
        else:
            out.append(dict(item))
    return out


def difference_of_parameters(want, got):
    """Where parameters differ, or None. `?` in |got|: a parameter that it lacks isn't compared."""
    is_partial = "?" in got
    want = DEFAULTS | want
    got = got if is_partial else DEFAULTS | got
    for name in want.keys() & got.keys() if is_partial else want.keys() | got.keys():
        if got.get(name, "") is not None and got.get(name) != want.get(name):
            return f"{name}: {got.get(name)}, not {want.get(name)}"
    return None


def integer_at(data, at):
    """An integer of variable length, and where it ends."""
    end = at + (1 << (data[at] >> 6))
    if end > len(data):
        raise ValueError("an integer is cut off")
    return int.from_bytes(data[at:end], "big") & ((1 << 8 * (end - at) - 2) - 1), end


def meaning_of_list(text):
    """What a list of transport parameters says: its parameters without those that have their defaults."""
    data, at, out = bytes.fromhex(text), 0, {}
    while at < len(data):
        ident, at = integer_at(data, at)
        size, at = integer_at(data, at)
        value, at = data[at : at + size], at + size
        if ident in out or at > len(data):
            raise ValueError(f"parameter {ident:#x} is cut off or there twice")
        if ident in INTEGER_DEFAULTS or ident == MIN_ACK_DELAY:
            out[ident], end = integer_at(value, 0)
            if end < size:
                raise ValueError(f"parameter {ident:#x} has more bytes than its integer")
        elif ident in OTHER_PARAMETERS:
            out[ident] = value.hex()
    return {ident: value for ident, value in out.items() if INTEGER_DEFAULTS.get(ident) != value}


def difference_of_lists(want, got):
    """Where a list that was written differs in meaning from the one that was read, or None."""
    want, got = meaning_of_list(want), meaning_of_list(got)
    for ident in want.keys() | got.keys():
        if want.get(ident) != got.get(ident):
            return f"parameter {ident:#x}: {got.get(ident)}, not {want.get(ident)}"
    return None


def difference(want, got):
    """Where a reading differs from the expected one, or None."""
    if isinstance(want, dict) and isinstance(got, dict):
        return difference_of_parameters(want, got)
    if not isinstance(want, list) or not isinstance(got, list):
        return None if want == got else f"{got}, not {want}"
    want, got = merged(want), merged(got)
    for wanted, item in zip(want, got):
        for name, value in item.items():
            is_open = name == "count" and wanted["type"] == "PADDING" and "count" not in wanted
            if value is not None and wanted.get(name) != value and not is_open:
                return f"{wanted['type']} {name}: {value}, not {wanted.get(name)}"
    return None if len(want) == len(got) else f"{len(got)} items, not {len(want)}"


def difference_before(test, more):
    """Where the offset of a rejected item or the items before it differ, or None."""
    if "at" in more and more["at"] not in (None, test.get("error_begin")):
        return f"rejected at {more['at']}, not {test.get('error_begin')}"
    if "before" in more and "read_before" in test:
        return difference(test["read_before"], more["before"])
    return None


def unlike(test, allowed, verdict, code, read):
    """Why an answer isn't an allowed one, or None; `code ..` if only the code differs."""
    codes = " or ".join(allowed.get("errors", []))
    if verdict != allowed["result"]:
        return f"{verdict} {code or ''}".strip() + f", not {allowed['result']} {codes}".rstrip()
    if verdict == "valid" and "list" in allowed:
        return difference_of_lists(allowed["list"], read)
    if verdict == "valid":
        return difference(allowed["read"], read) if read is not None and "read" in allowed else None
    if code not in (None, "?") and code not in allowed["errors"]:
        return f"code {code}, not {codes}"
    return difference_before(test, read) if isinstance(read, dict) else None


def parsed(answer):
    """The verdict, code and reading of an answer."""
    verdict, _, rest = answer.partition(" ")
    code = None
    if verdict == "invalid":
        code, _, rest = rest.partition(" ")
    elif verdict != "valid":
        raise ValueError("no answer")
    return verdict, code or None, json.loads(rest) if rest.strip() else None


def is_by(answer, name):
    """Whether it is an answer of |name|, the first words of who gives it."""
    return f"{answer['by']} ".startswith(f"{name} ")


def judge(test, answer, name=None):
    """The kind of result, a key of LETTERS, and why."""
    word, _, why = answer.partition(" ")
    if word in ("skip", "crash"):
        return word, why
    allowed = [one for one in test["answers"] if is_by(one, name)] or test["answers"]
    try:
        verdict, code, read = parsed(answer)
        found = [unlike(test, one, verdict, code, read) for one in allowed]
    except (ValueError, TypeError, AttributeError, KeyError, IndexError) as fault:
        return "fail", f"{fault} in {answer[:100]}"
    if None in found:
        if len(test["answers"]) == 1:
            return "pass", ""
        by = allowed[found.index(None)]["by"]
        return ("as RFC" if by.startswith(("RFC", "ACK")) else "otherwise"), by
    best = min(found, key=lambda one: not one.startswith("code"))
    return ("code" if best.startswith("code") else "fail"), best


def told(stack, form, test, kind, why, answer, is_whole):
    """The lines that are printed for a test."""
    head = f"{stack}: {kind}: {test['id']} ({test['rfc']}): {why or answer[:100]}"
    return f"{head}\n    {test['comment']}\n    {line(form, test).strip()[:200]}" if is_whole else head


def table(stacks, counts):
    """The table, groups of tests by stacks."""
    groups = dict.fromkeys(key for count in counts for key in count)
    keys = [key for key in groups if any(set(count.get(key, ())) - {"skip"} for count in counts)]
    key_width = max(map(len, keys), default=0)

    def cell(count):
        return " ".join(f"{letter}{count[kind]}" for kind, letter in LETTERS.items() if count[kind]) or "-"

    rows = [(key, [cell(count.get(key, Counter())) for count in counts]) for key in keys]
    rows.append(("all", [cell(sum(count.values(), Counter())) for count in counts]))
    widths = [max(len(stack), *(len(row[1][i]) for row in rows)) for i, stack in enumerate(stacks)]
    for key, cells in [("", stacks), *rows]:
        yield f"{key:{key_width}}  " + "  ".join(f"{one:{width}}" for one, width in zip(cells, widths)).rstrip()
    if len(keys) < len(groups):
        yield f"and {len(groups) - len(keys)} groups that are skipped"


def by_file(count):
    """The counts of a stack by the files of the groups."""
    out = {}
    for group, kinds in count.items():
        out.setdefault(group.split(":")[0], Counter()).update(kinds)
    return out


def run(stacks, every, name, is_verbose):
    """Runs the tests through each stack; returns its counts by group for each."""
    counts = []
    for stack, command in stacks:
        count = {}
        said = answers(command, [line(form, test) for form, _, test in every])
        for (form, group, test), answer in zip(every, said):
            kind, why = judge(test, answer, name)
            count.setdefault(group, Counter())[kind] += 1
            if is_verbose or kind in FAILURES:
                print(told(stack, form, test, kind, why, answer, kind in FAILURES))
        counts.append(count)
    return counts


def stacks_of(words):
    """The stacks and commands of the command line, or None if it is wrong."""
    parts = [[]]
    for word in words:
        if word == "--":
            parts.append([])
        else:
            parts[-1].append(word)
    return [(part[0], part[1:]) for part in parts] if all(len(part) >= 2 for part in parts) else None


def main():
    parser = argparse.ArgumentParser(usage=__doc__)
    parser.add_argument("-v", action="store_true")
    parser.add_argument("--only", default="*")
    parser.add_argument("--as", dest="name")
    parser.add_argument("--by-file", action="store_true")
    parser.add_argument("stacks", nargs=argparse.REMAINDER)
    words = parser.parse_args()
    stacks = stacks_of(words.stacks)
    every = list(tests())
    every += writers(every)
    every = [entry for entry in every if fnmatch.fnmatchcase(entry.test["id"], words.only)]
    if not stacks or not every:
        print(__doc__ if every else f"run.py: no test is called {words.only}", file=sys.stderr)
        return 2
    if words.name and not any(is_by(answer, words.name) for entry in every for answer in entry.test["answers"]):
        print(f"run.py: no answer is by {words.name}", file=sys.stderr)
        return 2
    try:
        counts = run(stacks, every, words.name, words.v)
        counts = list(map(by_file, counts)) if words.by_file else counts
    except BrokenPipeError:
        raise
    except (DriverEnded, OSError) as fault:
        print(fault, file=sys.stderr)
        return 2
    print("\n".join(["", *table([stack for stack, _ in stacks], counts), "", LEGEND]), flush=True)
    totals = sum((sum(count.values(), Counter()) for count in counts), Counter())
    return 1 if any(totals[kind] for kind in FAILURES) else 0


if __name__ == "__main__":
    try:
        sys.exit(main())
    except BrokenPipeError:  # nobody reads on
        sys.stdout = None
        sys.exit(1)
