#!/usr/bin/env python3
"""Prints the inputs of the tests of a format, each once, as lines of hexadecimal: for programs that read such lines, or
as a fuzzer's seeds.

inputs.py payload|datagram|params"""
import sys

import run

FORMATS = ("payload", "datagram", "params")


def inputs(form):
    """The inputs in the order of the tests; for payloads the shortest ones too."""
    for entry in run.tests():
        if entry.form == form or form == "payload" and entry.form == "shortest":
            yield entry.test["input"]
            if "shortest" in entry.test:
                yield entry.test["shortest"]


def main():
    if sys.argv[1:] not in [[form] for form in FORMATS]:
        print("usage: inputs.py payload|datagram|params", file=sys.stderr)
        return 2
    print("\n".join(dict.fromkeys(inputs(sys.argv[1]))), flush=True)
    return 0


if __name__ == "__main__":
    try:
        sys.exit(main())
    except BrokenPipeError:  # nobody reads on
        sys.stdout = None
        sys.exit(1)
