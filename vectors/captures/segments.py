"""Datagrams that a network card or the kernel would cut into several, cut in a capture."""

import struct
from pathlib import Path

FILE, RECORD = 24, 16
# Ethernet, IPv4 without options, UDP.
HEADERS = 14 + 20 + 8


def records(data):
    """The headers and bytes of a pcap file's records, in the order of this machine."""
    at = FILE
    while at < len(data):
        header = struct.unpack("=IIII", data[at : at + RECORD])
        at += RECORD + header[2]
        yield header, data[at - header[2] : at]


def with_payload(frame, payload):
    """A record with another payload. The checksums are no longer right, which tshark doesn't check."""
    ethernet, ip, udp = bytearray(frame[:14]), bytearray(frame[14:34]), bytearray(frame[34:42])
    ip[2:4] = struct.pack(">H", 28 + len(payload))
    udp[4:6] = struct.pack(">H", 8 + len(payload))
    return bytes(ethernet + ip + udp) + payload


def cut(capture, size, uncut, path):
    """Writes a file whose datagrams have at most so many bytes, or as many as aren't cut. Returns for each of its
    records the number of the record that it is of, and whether that was cut."""
    data, numbers = Path(capture).read_bytes(), []
    with open(path, "wb") as file:
        file.write(data[:FILE])
        for number, ((seconds, parts, _, _), frame) in enumerate(records(data), 1):
            payload = frame[HEADERS:]
            most = size if len(payload) > uncut else uncut
            pieces = [payload[at : at + most] for at in range(0, len(payload), most)]
            for piece in pieces:
                made = with_payload(frame, piece)
                file.write(struct.pack("=IIII", seconds, parts, len(made), len(made)) + made)
                numbers.append((number, len(pieces) > 1))
    return numbers
