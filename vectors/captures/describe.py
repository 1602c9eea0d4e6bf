#!/usr/bin/env python3
"""Describes the captures of a folder by what tshark reads in them.

describe.py [--check] FOLDER [NAME ..]

Writes NAME.json for each capture, or those that are named, or with --check compares it with what tshark reads now.
scenes.py says what each capture is of. Exit status: 0 nothing differs, 1 something does, 2 usage error.
"""

import json
import subprocess
import sys
import tempfile
from pathlib import Path

import dissect
from scenes import SCENES
from segments import cut

KNOWN = (1, 0x6B3343CF)
UNKNOWN = "tshark reads it as version 1's; only its version and ids have a meaning (RFC 8999, section 5.1)"
LATE = "tshark takes this second Retry, which clients discard (RFC 9000, section 17.2.5.2); it read the rest without it"
ANEW = "tshark takes only the first ClientHello's secrets; it read this without the records up to the Retry"
CUT = "tshark reads the record as one datagram; the kernel cuts it every {} bytes, and tshark read it cut"


def version():
    words = subprocess.run(["tshark", "--version"], check=True, capture_output=True, text=True).stdout.split()
    return " ".join(words[:1] + words[2:3]).strip(".")


def amended(packets):
    """What tshark reads in a datagram, and why that isn't what there is, if it isn't."""
    why = None
    for packet in packets:
        if packet.get("version", 1) not in KNOWN:
            why = UNKNOWN
            packet |= {"type": "unknown version"}
            for name in ("number", "frames"):
                packet.pop(name, None)
    return packets, why


def late_retries(capture, keys):
    """The records with a Retry after the first one of a capture."""
    kinds = ((record, [one["type"] for one in packets]) for record, packets in dissect.datagrams(capture, keys))
    return [record for record, kinds in kinds if kinds == ["Retry"]][1:]


def before_retry(capture, keys):
    """The records of a capture up to its first Retry."""
    kinds = ((record, [one["type"] for one in packets]) for record, packets in dissect.datagrams(capture, keys))
    return list(range(1, 1 + next(record for record, kinds in kinds if kinds == ["Retry"])))


def readable(capture, keys, scene, path):
    """A capture that tshark can read, and for each of its records the number of the record that it is of, and why it
    is there instead, if it is."""
    if scene.segment:
        why = CUT.format(scene.segment)
        pieces = cut(capture, scene.segment, scene.uncut, path)
        return path, [(record, why if is_cut else None) for record, is_cut in pieces]
    left_out = before_retry(capture, keys) if scene.anew else late_retries(capture, keys)
    if not left_out:
        return capture, None
    subprocess.run(["editcap", capture, path, *map(str, left_out)], check=True)
    count = len(dissect.run("tshark", "-r", capture, "-T", "fields", "-e", "frame.number").split())
    why = ANEW if scene.anew else None
    return path, [(record, why) for record in range(1, count + 1) if record not in left_out]


def rows_of(capture, keys, scene):
    """A row for each datagram. A record of several has several."""
    rows = []
    with tempfile.TemporaryDirectory() as folder:
        path, numbers = readable(capture, keys, scene, Path(folder) / "capture.pcap")
        for record, packets in dissect.datagrams(path, keys):
            packets, why = amended(packets)
            record, instead = numbers[record - 1] if numbers else (record, None)
            why = instead or why
            rows.append({"record": record, "packets": packets} | ({"differs": why} if why else {}))
    there = {row["record"] for row in rows}
    left_out = [one for one in dissect.datagrams(capture, keys) if one[0] not in there]
    why = {} if scene.anew else {"differs": LATE}
    rows += [{"record": record, "packets": packets} | why for record, packets in left_out]
    return sorted(rows, key=lambda row: row["record"])


def description(capture, keys, scene):
    """What there is to say of a capture: a line for each datagram."""
    head = {"capture": capture.name} | ({"keys": keys.name} if keys else {})
    head |= {"says": scene.says, "stacks": scene.stacks(), "by": version()}
    lines = ",\n".join("  " + json.dumps(row) for row in rows_of(capture, keys, scene))
    return json.dumps(head, indent=1)[:-2] + ',\n "datagrams": [\n' + lines + "\n]}\n"


def keys_of(capture):
    keys = capture.parent / (capture.name.split(".")[0] + ".keys")
    return keys if keys.exists() else None


def write(capture, scene):
    """Writes the description of a capture next to it."""
    text = description(capture, keys_of(capture), scene)
    (capture.parent / f"{capture.name.split('.')[0]}.json").write_text(text)


def faults(capture, scene):
    """What is wrong with the description of a capture."""
    path = capture.parent / f"{capture.name.split('.')[0]}.json"
    if not path.exists():
        return [f"{path} isn't there"]
    there, now = path.read_text().split("\n"), description(capture, keys_of(capture), scene).split("\n")
    lines = [(one, two) for one, two in zip(there, now) if one != two and not one.startswith(' "by"')]
    said = [f"{path}: {one.strip()}\n  now {two.strip()}" for one, two in lines]
    return said + ([f"{path}: {len(there)} lines, now {len(now)}"] if len(there) != len(now) else [])


def main(arguments):
    is_check = arguments[:1] == ["--check"]
    if is_check:
        del arguments[0]
    if not arguments:
        print(__doc__, file=sys.stderr)
        return 2
    captures = [path for kind in ("pcap", "pcapng", "pcap.gz") for path in Path(arguments[0]).glob(f"*.{kind}")]
    failed = False
    for capture in sorted(captures):
        name = capture.name.split(".")[0]
        if arguments[1:] and name not in arguments[1:]:
            continue
        if not is_check:
            write(capture, SCENES[name])
            continue
        for fault in faults(capture, SCENES[name]):
            failed = True
            print(fault)
    return 1 if failed else 0


if __name__ == "__main__":
    sys.exit(main(sys.argv[1:]))
