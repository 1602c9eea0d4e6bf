"""differences.py STACK LINES OURS THEIRS: how a stack's driver answers differently from the library's, line by line.

Each difference has a key; reasons.txt says for keys which kind of difference they are, and why. Prints a line `STACK
FORMAT COUNT..` of tab-separated fields, the counts of KINDS, and then each reason with its count and its shortest line.
The status is 1 if a key has no reason.
"""

import collections
import fnmatch
import json
import pathlib
import sys
from typing import NamedTuple

from lists import entries, integer_at

# The same; both reject, with another code or none; a choice that the RFC leaves open, or one of the stack; a defect of
# the stack; a departure of the library; not in reasons.txt.
KINDS = ("agree", "code", "choice", "defect", "ours", "unexplained")
GREATEST_STREAMS = 1 << 60
GREATEST = (1 << 62) - 1
INTEGERS = {0x01, 0x03, 0x04, 0x05, 0x06, 0x07, 0x08, 0x09, 0x0A, 0x0B, 0x0E}
RANGES = {0x03: (1200, 65527), 0x0A: (0, 20), 0x0B: (0, (1 << 14) - 1), 0x0E: (2, GREATEST)}
RANGES |= {0x08: (0, GREATEST_STREAMS), 0x09: (0, GREATEST_STREAMS)}
IDS = {0x00, 0x0F, 0x10}
ONCE = INTEGERS | IDS | {0x02, 0x0C, 0x0D}
FLAGS = {0x0C, 0x2AB2}
MAX_DATAGRAM, MIN_ACK_DELAY = 0x20, 0xFF04DE1B
# For other parameters, what a value has to be: a reset token, two flags, a preferred address, version_information.
LAWFUL = {
    0x02: lambda value: len(value) == 16,
    0x0C: lambda value: not value,
    0x0D: lambda value: len(value) > 25 and 0 < value[24] <= 20 and len(value) == 41 + value[24],
    0x11: lambda value: len(value) % 4 == 0 and value and all(map(any, zip(*[iter(value)] * 4))),
    0x2AB2: lambda value: not value,
}


class Reason(NamedTuple):
    """A row of reasons.txt: patterns for the format, the stack and the key; the kind; why."""

    form: str
    stack: str
    key: str
    kind: str
    why: str


def reasons():
    lines = (pathlib.Path(__file__).parent / "reasons.txt").read_text(encoding="utf-8").splitlines()
    return [Reason(*map(str.strip, line.split("|"))) for line in lines if line and not line.startswith("#")]


def parsed(answer):
    """The verdict, code and reading in an answer."""
    verdict, _, rest = answer.partition(" ")
    code = ""
    if verdict == "invalid":
        code, _, rest = rest.partition(" ")
    return verdict, code, json.loads(rest) if rest.strip() else {}


def merged(items):
    """Items with each run of PADDING as one, without its length, which some count in frames and others in bytes."""
    out = []
    for item in items:
        is_padding = item["type"] == "PADDING"
        if not (is_padding and out and out[-1]["type"] == "PADDING"):
            out.append({"type": "PADDING"} if is_padding else item)
    return out


def items_of(answer, digits):
    """The frames that were read, and after them the end, or the error's code with the first byte of the frame."""
    verdict, code, read = parsed(answer)
    if verdict == "valid":
        return [*merged(read), {"type": "end"}]
    at = 2 * read.get("at", 0)
    return [*merged(read.get("before", [])), {"type": f"!{code}", "of": digits[at : at + 2]}]


def name_of(frame):
    """The type of a frame, and what is special in it."""
    name = frame["type"] + (f" {frame['of']}" if "of" in frame else "")
    data = frame.get("crypto_data", frame.get("stream_data"))
    if frame.get("token") == "":
        return f"{name} empty"
    if data is not None and int(frame["offset"]) + len(data) // 2 > GREATEST:
        return f"{name} beyond 2^62"
    if int(frame.get("maximum_streams", 0)) > GREATEST_STREAMS:
        return f"{name} above 2^60"
    return name


def keys_of_payloads(digits, ours, theirs):
    """How the first frames that differ do so, or in which fields; nothing if all are alike."""
    has_counts = False
    for mine, its in zip(items_of(ours, digits), items_of(theirs, digits)):
        has_counts |= "ect0_count" in mine or mine.get("of") == "03"
        names = [name for name, value in its.items() if name in mine and mine[name] != value]
        behind = "behind ECN counts: " * has_counts
        if "type" in names or len(names) > 2:
            return [f"{behind}{name_of(mine)} > {its['type']}"]
        if names:
            return [f"{behind}{name_of(mine)}: {' '.join(names)}"]
    return []


def of_integer(ident, value):
    """What is special in an integer's value, or None."""
    if not value:
        return "no integer"
    try:
        number, end = integer_at(value, 0)
    except IndexError:
        return "cut integer"
    if end < len(value):
        return "bytes behind an integer"
    least, most = RANGES.get(ident, (0, GREATEST))
    if not least <= number <= most:
        return f"{ident:#x} {'below' if number < least else 'above'} its range"
    is_longer = end > 1 and number < {2: 1 << 6, 4: 1 << 14, 8: 1 << 30}[end]
    return "longer integer" if is_longer else None


def special(ident, value):
    """What is special in an entry of a list of parameters, or None."""
    if ident in INTEGERS:
        return of_integer(ident, value)
    if ident in (MAX_DATAGRAM, MIN_ACK_DELAY):
        found = of_integer(ident, value) or ("any" if ident == MIN_ACK_DELAY else None)
        return f"{ident:#x} {found}" if found else None
    if ident in IDS:
        return "long id" if len(value) > 20 else None
    if ident > 0xFFFF and ident & 0xFFFF in ONCE:
        return "16 bits of a known one"
    is_lawful = LAWFUL.get(ident)
    if ident == 0x0D and is_lawful(value) and not any(value[:24]):
        return "0xd without an address"
    return None if is_lawful is None or is_lawful(value) else f"{ident:#x} unlawful"


def specials(digits):
    """All that is special in a list of parameters."""
    found, is_cut = entries(bytes.fromhex(digits))
    counts = collections.Counter(ident for ident, _, _ in found)
    names = [special(ident, value) for ident, value, _ in found]
    names += ["a flag's longer length" for ident, _, size in found if ident in FLAGS and size > 1]
    if any(ident == 0x0F and not value for ident, value, _ in found) and 0x0D in counts:
        names.append("preferred address beside an empty id")
    names += ["repeat" if ident in ONCE else "unknown repeat" for ident, count in counts.items() if count > 1]
    return sorted({name for name in names if name} | ({"cut"} if is_cut else set()))


def keys_of_parameters(digits, ours, theirs):
    (mine, _, read), (its, _, told) = parsed(ours), parsed(theirs)
    if mine == its == "invalid":
        return []
    if mine != its:
        return [f"{mine} > {its}: {name}" for name in specials(digits) or ["nothing special"]]
    names = [name for name, value in told.items() if name in read and read[name] != value]
    return [f"values: {name}" for name in names]


KEYS = {"payload": keys_of_payloads, "params": keys_of_parameters}


def compared(stack, form, triples, rows):
    """How many lines there are of each kind, and for each reason its lines."""
    rows = [row for row in rows if fnmatch.fnmatchcase(form, row.form) and fnmatch.fnmatchcase(stack, row.stack)]
    counts, lines = collections.Counter(), collections.defaultdict(list)
    for digits, ours, theirs in triples:
        keys = KEYS[form](digits.replace("-", ""), ours, theirs)
        found = next((row for row in rows for key in keys if fnmatch.fnmatchcase(key, row.key)), None)
        kind = found.kind if found else "unexplained" if keys else "agree"
        counts[kind] += 1
        if keys:
            lines[kind, found.why if found else " / ".join(keys)].append(digits)
    return counts, lines


def main():
    stack, *files = sys.argv[1:]
    texts = (pathlib.Path(file).read_text(encoding="utf-8").splitlines() for file in files)
    by_form = collections.defaultdict(list)
    for line, ours, theirs in zip(*texts, strict=True):
        form, _, digits = line.split()
        if "skip" not in (ours, theirs):
            by_form[form].append((digits, ours, theirs))
    status = 0
    for form, triples in by_form.items():
        counts, lines = compared(stack, form, triples, reasons())
        print(stack, form, len(triples), *(counts[kind] for kind in KINDS), sep="\t")
        for (kind, why), found in sorted(lines.items(), key=lambda it: -len(it[1])):
            print(f"  {len(found):6} {kind}: {why}: {min(found, key=len)[:100]}")
        status |= counts["unexplained"] > 0
    return status


if __name__ == "__main__":
    sys.exit(main())
