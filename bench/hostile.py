#!/usr/bin/env python3
"""Writes the hostile payloads of docs/SPEED.md into files of a folder, a line of hexadecimal each, as scripts/bench
reads them: ACKs of 10,000 ranges whose numbers have one width, or several in random order; 1,150 bytes of frames with
numbers of 8 bytes; 64 KiB of PADDING; and 1,200 bytes of PADDING after a PING that isn't in its shortest form. They are
the same each time.

bench/hostile.py FOLDER
"""
import pathlib
import random
import sys

TOP = {1: 0, 2: 1, 4: 2, 8: 3}


def varint(n, width):
    """The number as a varint of this width (RFC 9000, section 16)."""
    return (n | TOP[width] << 8 * width - 2).to_bytes(width, "big")


def ack(widths):
    """An ACK (section 19.3) whose gaps and range lengths have these widths, in random order."""
    numbers = [(random.randrange(min(2 ** (8 * width - 2), 2**46)), width) for width in random.choices(widths, k=20001)]
    largest = sum(n for n, _ in numbers) + 2 * 10000
    blocks = b"".join(varint(*number) for number in numbers)
    return b"\x02" + varint(largest, 8) + varint(7, 2) + varint(10000, 2) + blocks


def frames():
    """Frames that only have numbers, each in 8 bytes (sections 19.4 to 19.16), then PING."""
    payload = b""
    while len(payload) < 1120:
        kind, count = random.choice([(0x04, 3), (0x05, 2), (0x10, 1), (0x11, 2), (0x14, 1), (0x15, 2), (0x19, 1)])
        payload += bytes([kind]) + b"".join(varint(random.randrange(2**60), 8) for _ in range(count))
    return payload.ljust(1150, b"\x01")


def main():
    if len(sys.argv) != 2:
        sys.exit("usage: bench/hostile.py FOLDER")
    folder = pathlib.Path(sys.argv[1])
    folder.mkdir(parents=True, exist_ok=True)
    random.seed(7)
    widths = {"1": [1], "2": [2], "4": [4], "8": [8], "any": [1, 2, 4, 8], "few-2": [1, 1, 1, 2]}
    payloads = {f"ack-{name}": ack(of) for name, of in widths.items()}
    payloads["frames-8"] = frames()
    payloads["padding-64k"] = bytes(65536)
    payloads["padding-changing"] = b"\x40\x01" + bytes(1200)
    for name, payload in payloads.items():
        (folder / f"{name}.hex").write_text(payload.hex() + "\n")


main()
