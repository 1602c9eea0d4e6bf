"""wireshark.py payloads | compare: the test vectors as payloads, a line of hexadecimal each, and the comparison of what
the plugin c/examples/wireshark.c said of them, read from standard input, with their results.

1: something differs, which is printed."""
import json
import pathlib
import sys

JSON = pathlib.Path(__file__).parents[2] / "vectors" / "json"
CODES = {"FRAME_ENCODING_ERROR": 0x07, "PROTOCOL_VIOLATION": 0x0A}


def tests():
    """The tests of payloads that have one result, with all extensions. Wireshark decrypts no packet without a frame."""
    for name in ("frames", "payloads"):
        file = json.loads((JSON / f"{name}.json").read_text(encoding="utf-8"))
        for group in file["testGroups"]:
            for test in group["tests"]:
                if test["input"] and test["result"] != "choice" and "without" not in test.get("context", {}):
                    yield test


def wanted(test):
    """Verdict, offset, code and length of the shortest form, as tshark prints them, that a test requires."""
    if test["result"] == "valid":
        length = str(len(test["shortest"]) // 2) if "shortest" in test else None
        return [["ok", "", "", length]]
    errors = [error for answer in test["answers"] for error in answer["errors"]]
    return [["refused", str(test["error_begin"]), f"0x{CODES[error]:08x}", ""] for error in errors if error in CODES]


def fits(found, want):
    return len(found) == len(want) and all(part is None or part == one for one, part in zip(found, want))


def compare():
    every = list(tests())
    lines = [line.rstrip("\n").split("\t") for line in sys.stdin]
    if len(lines) != len(every):
        sys.exit(f"{len(lines)} packets and not {len(every)}")
    wrong = 0
    for test, found in zip(every, lines):
        if not any(fits(found, want) for want in wanted(test)):
            wrong += 1
            print(f"{test['id']} {test['input']}: {found} and not {wanted(test)}")
    refused = sum(line[0] == "refused" for line in lines)
    print(f"{len(lines)} payloads, of which {refused} are refused: {wrong} otherwise than the vectors say")
    return 1 if wrong or not refused else 0


if __name__ == "__main__":
    if sys.argv[1:] == ["payloads"]:
        for one in tests():
            print(one["input"])
    elif sys.argv[1:] == ["compare"]:
        sys.exit(compare())
    else:
        sys.exit(__doc__)
