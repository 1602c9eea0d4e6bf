"""compare.py OWN OVER: compares the lines of two readers, in which `refused` at the end says that no more is read.

Prints how many lines there are; in how many the first panics and the second doesn't; in how many the second rejects
what the first reads; the reverse; and in how many both read different values.
"""

import sys


def read(path):
    with open(path) as lines:
        return [line.rstrip("\n") for line in lines]


def is_stop(short, long):
    """Whether one line is the beginning of the other, up to where it is rejected."""
    return short.endswith("refused") and long.startswith(short.removesuffix("refused"))


def main():
    own, over = (read(path) for path in sys.argv[1:])
    if len(own) != len(over):
        sys.exit("compare: not as many lines")
    pairs = [(a, b) for a, b in zip(own, over) if a != b]
    panics = sum(a == "panic" for a, _ in pairs)
    pairs = [(a, b) for a, b in pairs if a != "panic"]
    refused = sum(is_stop(b, a) for a, b in pairs)
    read_on = sum(is_stop(a, b) and not is_stop(b, a) for a, b in pairs)
    print(len(own), panics, refused, read_on, len(pairs) - refused - read_on)


if __name__ == "__main__":
    main()
