#!/usr/bin/env python3
"""Compares captures/broken.json with what tshark reads: in each capture, the record that is meant has a packet of that
type and number, from that side, and the secrets open all packets. UNREAD has the captures of which tshark can't read
a packet, and why.

captures.py [TSHARK]

It prints what differs in other captures. Exit status: 0 all are the same, 1 one differs, 127 there is no tshark.
"""
import json
import pathlib
import shutil
import subprocess
import sys

CAPTURES = pathlib.Path(__file__).resolve().parent.parent / "captures"
FIELDS = [
    "frame.number", "udp.srcport", "quic.header_form", "quic.long.packet_type", "quic.long.packet_type_v2",
    "quic.packet_number", "quic.decryption_failed",
]
SERVER = "443"
# Numbers of long headers' types in version 1 (RFC 9000, section 17.2).
TYPES = {"Initial": "0", "0-RTT": "1", "Handshake": "2", "Retry": "3"}
# In version 2 (RFC 9369, section 3.2).
TYPES_2 = {"Initial": "1", "0-RTT": "2", "Handshake": "3", "Retry": "0"}
# Of tshark 4.0.17.
UNREAD = {
    "broken/coalesced-ids.new-id.pcapng": "it ends a datagram at a packet to another id",
    "broken/empty-payload.none.pcapng": "it can't open a payload of 0 bytes",
    "broken/zero-rtt-late.number.pcapng": "it opens no 0-RTT packet after the handshake",
    "broken/old-keys.greater-number.pcapng": "it has no keys from before an update",
    "broken/old-keys.lawful-reordered.pcapng": "it has no keys from before an update",
    "broken/initial-token.lawful-late.pcapng": "it opens nothing after an Initial packet to the client's first id",
    "broken/retry-version.other.pcapng": "it opens Initial packets of only the first version",
    "broken/destination-id.elsewhere.pcapng": "it knows no connection of the id",
    "broken/source-after-retry.other.pcapng": "it opens nothing after an Initial packet from another id",
    "broken/early-version.negotiated.pcapng": "it doesn't open a 0-RTT packet behind the server's answer in version 2",
    "broken/early-version.lawful-first.pcapng": "it doesn't open a 0-RTT packet behind the server's answer in version 2",
    "broken/frame-fields.lawful-retire-prior-to.pcapng": "it takes the client's ids to have 4 bytes, not 20",
}


def records(tshark, file):
    """The fields of each record, by its number. A field has a list of values."""
    command = [tshark, "-r", file, "-T", "fields", *(word for field in FIELDS for word in ("-e", field))]
    text = subprocess.run(command, check=True, capture_output=True, text=True).stdout
    rows = (line.split("\t") for line in text.splitlines())
    return {int(row[0]): dict(zip(FIELDS, (value.split(",") if value else [] for value in row))) for row in rows}


def complaints(tshark, one):
    """What differs in a capture."""
    found = records(tshark, CAPTURES / one["file"])
    record = found.get(one["frame"])
    if record is None:
        yield f"there is no record {one['frame']}"
        return
    if (record["udp.srcport"] == [SERVER]) != (one["sender"] == "server"):
        yield f"record {one['frame']} isn't the {one['sender']}'s"
    is_short = one["packet"] == "1-RTT"
    if is_short:
        has_type = "0" in record["quic.header_form"]
    else:
        has_type = TYPES[one["packet"]] in record["quic.long.packet_type"]
        has_type |= TYPES_2[one["packet"]] in record["quic.long.packet_type_v2"]
    if not has_type:
        yield f"record {one['frame']} has no {one['packet']} packet"
    if "number" in one and str(one["number"]) not in record["quic.packet_number"]:
        yield f"record {one['frame']} has the numbers {record['quic.packet_number']}, not {one['number']}"
    unopened = [number for number, record in found.items() if record["quic.decryption_failed"]]
    if unopened:
        yield f"records {unopened} aren't opened"


def main():
    tshark = shutil.which(sys.argv[1] if len(sys.argv) > 1 else "tshark")
    if not tshark:
        print("there is no tshark", file=sys.stderr)
        return 127
    captures = json.loads((CAPTURES / "broken.json").read_text(encoding="utf-8"))["captures"]
    compared = [one for one in captures if one["file"] not in UNREAD]
    wrong = [f"{one['file']}: {what}" for one in compared for what in complaints(tshark, one)]
    print("\n".join([*wrong, f"{len(compared)} of {len(captures)} captures compared, {len(wrong)} differences"]))
    return 1 if wrong else 0


if __name__ == "__main__":
    sys.exit(main())
