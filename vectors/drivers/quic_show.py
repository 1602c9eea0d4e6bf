#!/usr/bin/env python3
"""A driver for `quic-show`, and for programs with its modes: verdicts; for frames and packets also kinds and offsets.

quic_show.py PROGRAM [WORD ..]"""
import json
import subprocess
import sys
from collections import defaultdict

PACKETS = {
    "initial": "Initial",
    "0rtt": "0-RTT",
    "handshake": "Handshake",
    "retry": "Retry",
    "short": "1-RTT",
    "version-negotiation": "Version Negotiation",
}
# An input that isn't hexadecimal, and the output for it, which separates the outputs of other lines.
MARK, MARKED = "x", "error not hexadecimal"


def mode_of(form, context):
    """The arguments for a mode, or None if there is none."""
    words = dict(word.split("=") for word in context.split(",")) if context != "-" else {}
    if words.keys() & {"without", "grease", "versions"}:
        return None
    modes = {
        "payload": ("strict" if "strict" in words else "frames",),
        "datagram": ("datagram", words.get("cid_len", "8")),
        "params": ("params", "server" if words.get("from") == "client" else "client"),
        "shortest": ("canon",),
    }
    return modes.get(form)


def printed(program, mode, inputs):
    """What a program prints for each input, as lists of lines."""
    text = "".join(f"{MARK}\n{line}\n" for line in inputs)
    done = subprocess.run([*program, *mode], input=text, capture_output=True, text=True)
    if done.returncode not in (0, 1):
        sys.exit(f"{' '.join([*program, *mode])} ended with {done.returncode}: {done.stderr.strip()}")
    answers = []
    for line in done.stdout.splitlines():
        if line == MARKED:
            answers.append([])
        else:
            answers[-1].append(line)
    return answers


def packet(line):
    place, kind, *words = line.split()
    fields = dict(zip(words[::2], words[1::2]))
    out = {"type": PACKETS[kind], "end": place.split("..")[1], "dcid": fields["dst"].replace("-", "")}
    if "src" in fields:
        out |= {"scid": fields["src"].replace("-", ""), "version": fields["version"]}
    return out


def frame(line):
    place, kind = line.split()
    begin, end = map(int, place.split(".."))
    if kind == "PADDING":
        return {"type": kind, "count": str(end - begin)}
    return {"type": "CONNECTION_CLOSE" if "CLOSE" in kind else kind.removesuffix("_BIDI").removesuffix("_UNI")}


def code_of(form, error):
    if form == "params":
        return "TRANSPORT_PARAMETER_ERROR"
    if form == "datagram":
        return "DROP"
    return "PROTOCOL_VIOLATION" if "empty" in error or "shortest" in error else "FRAME_ENCODING_ERROR"


def answer(form, lines):
    """The answer for what was printed."""
    error = lines[-1].removeprefix("error ") if lines[-1].startswith("error ") else None
    if form == "shortest":
        return "invalid" if error else f'valid "{lines[0]}"'
    if form == "params":
        return f"invalid {code_of(form, error)}" if error else "valid"
    if form == "datagram" and error and error.startswith("unsupported version"):
        return "valid"  # its ids aren't printed
    read = [(packet if form == "datagram" else frame)(line) for line in (lines[:-1] if error else lines)]
    if error:
        return f"invalid {code_of(form, error)} {json.dumps({'before': read})}"
    return "valid " + json.dumps(read)


def main():
    program = sys.argv[1:]
    if not program:
        sys.exit("usage: quic_show.py PROGRAM [WORD ..]")
    lines = [line.split() for line in sys.stdin]
    answers = ["skip"] * len(lines)
    modes = defaultdict(list)
    for index, (form, context, _) in enumerate(lines):
        if mode := mode_of(form, context):
            modes[mode].append(index)
    for mode, indices in modes.items():
        inputs = [lines[index][2].replace("-", "") for index in indices]
        for index, told in zip(indices, printed(program, mode, inputs)):
            answers[index] = answer(lines[index][0], told)
    print("\n".join(answers))


main()
