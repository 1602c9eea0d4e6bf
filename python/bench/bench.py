#!/usr/bin/env python3
"""Compares how fast this package, aioquic and scapy read, side by side in one process: payloads and datagrams a second.

bench.py --aioquic SOURCE [--rounds N] LIST ..

SOURCE is the folder `src` of aioquic's source with its module _buffer built (stacks/aioquic/build of the repository). A
LIST is a file of lines of hexadecimal: payloads without protection, or in datagrams*.hex datagrams whose short headers
have ids of 8 bytes, in params*.hex transport parameters that a server sent. Only lines that both sides read are timed.
scapy is compared on datagrams if it is installed.

For aioquic this times what its handlers in connection.py read from their buffer, literally, without the connection's
state, and the numbers of the two frames of the ACK frequency extension, which it doesn't know. For this package it
times the objects alone, and the objects with all of their fields read. A figure is the best of N rounds.
"""

import argparse
import operator
import pathlib
import sys
import time
from unittest.mock import MagicMock

import quic_wire as q

SECONDS = 0.2  # of a round, at least
CID_LEN = 8


def numbers(count):
    return lambda buf, kind: tuple(buf.pull_uint_var() for _ in range(count))


THREE_NUMBERS = numbers(3)


def counted(buf, kind):
    return buf.pull_bytes(buf.pull_uint_var())


def new_connection_id(buf, kind):
    sequence = buf.pull_uint_var()
    retire_prior_to = buf.pull_uint_var()
    length = buf.pull_uint8()
    return sequence, retire_prior_to, buf.pull_bytes(length), buf.pull_bytes(16)


def path(buf, kind):
    return buf.pull_bytes(8)


def close(buf, kind):
    code = buf.pull_uint_var()
    frame_type = buf.pull_uint_var() if kind == 0x1C else None
    return code, frame_type, buf.pull_bytes(buf.pull_uint_var())


def datagram(buf, kind):
    length = buf.pull_uint_var() if kind == 0x31 else buf.capacity - buf.tell()
    return buf.pull_bytes(length)


class Aioquic:
    """What aioquic reads."""

    def __init__(self, source):
        for name in ("aioquic._crypto", "certifi", "OpenSSL", "OpenSSL.crypto", "pylsqpack", "service_identity"):
            sys.modules[name] = MagicMock()
        sys.modules["service_identity.cryptography"] = MagicMock()
        sys.path.insert(0, source)
        from aioquic.buffer import Buffer
        from aioquic.quic import packet

        self.buffer, self.packet = Buffer, packet
        self.handlers = self.make_handlers()

    def make_handlers(self):
        return {
            0x00: self.padding, 0x01: numbers(0), 0x02: self.ack, 0x03: self.ack, 0x04: numbers(3), 0x05: numbers(2),
            0x06: self.crypto, 0x07: counted, **{kind: self.stream for kind in range(0x08, 0x10)},
            **{kind: numbers(2 if kind in (0x11, 0x15) else 1) for kind in range(0x10, 0x18)},
            0x18: new_connection_id, 0x19: numbers(1), 0x1A: path, 0x1B: path, 0x1C: close, 0x1D: close,
            0x1E: numbers(0), 0x30: datagram, 0x31: datagram, 0x1F: numbers(0), 0xAF: numbers(4),
        }  # fmt: skip

    def padding(self, buf, kind):
        pos = buf.tell()
        for byte in buf.data_slice(pos, buf.capacity):
            if byte:
                break
            pos += 1
        buf.seek(pos)

    def ack(self, buf, kind):
        ranges, delay = self.packet.pull_ack_frame(buf)
        if kind == 0x03:
            THREE_NUMBERS(buf, kind)
        return ranges, delay

    def crypto(self, buf, kind):
        offset = buf.pull_uint_var()
        length = buf.pull_uint_var()
        return self.packet.QuicStreamFrame(offset=offset, data=buf.pull_bytes(length))

    def stream(self, buf, kind):
        stream_id = buf.pull_uint_var()
        offset = buf.pull_uint_var() if kind & 4 else 0
        length = buf.pull_uint_var() if kind & 2 else buf.capacity - buf.tell()
        frame = self.packet.QuicStreamFrame(offset=offset, data=buf.pull_bytes(length), fin=bool(kind & 1))
        return stream_id, frame

    def frames(self, payload):
        buf = self.buffer(data=payload)
        out = []
        while not buf.eof():
            kind = buf.pull_uint_var()
            out.append((kind, self.handlers[kind](buf, kind)))
        return out

    def packets(self, datagram):
        buf = self.buffer(data=datagram)
        out = []
        while not buf.eof():
            start = buf.tell()
            header = self.packet.pull_quic_header(buf, host_cid_length=CID_LEN)
            out.append(header)
            buf.seek(start + header.packet_length)
        return out

    def parameters(self, data):
        return self.packet.pull_quic_transport_parameters(self.buffer(data=data))


GETTERS = {
    kind: operator.attrgetter(*kind.__match_args__)
    for kind in vars(q).values()
    if isinstance(kind, type) and getattr(kind, "__match_args__", None)
}


def no_fields(item):
    return None


def fields_of(items):
    """Every field of each item, as a value of Python."""
    return [GETTERS.get(type(item), no_fields)(item) for item in items]


def read_frames_and_fields(payload):
    return fields_of(q.read_frames(payload))


def read_packets(datagram):
    return q.read_packets(datagram, CID_LEN)


def read_packets_and_fields(datagram):
    return fields_of(read_packets(datagram))


def read_parameters(data):
    return q.TransportParameters.read(q.Side.CLIENT, data)


def read_parameters_and_fields(data):
    return fields_of([read_parameters(data)])


def scapy_reader():
    try:
        from scapy.layers.quic import QUIC
    except ImportError:
        return None
    return QUIC


def seconds(read, items, rounds):
    """The least time that an item takes."""
    best = float("inf")
    for _ in range(rounds):
        count, begin = 0, time.perf_counter()
        while (spent := time.perf_counter() - begin) < SECONDS:
            for item in items:
                read(item)
            count += len(items)
        best = min(best, spent / count)
    return best


def is_read(read, item):
    try:
        read(item)
    except Exception:
        return False
    return True


def compare(name, items, readers, rounds):
    items = [item for item in items if all(is_read(read, item) for read in readers.values())]
    if not items:
        return
    times = {who: seconds(read, items, rounds) for who, read in readers.items()}
    base = times.pop(next(iter(times)))
    cells = [f"{1 / base:11,.0f}"] + [f"{1 / one:11,.0f} {base / one:6.1f}" for one in times.values()]
    print(f"{name:28} {len(items):5} " + " ".join(cells), flush=True)


def main():
    parser = argparse.ArgumentParser(usage=__doc__)
    parser.add_argument("--aioquic", required=True)
    parser.add_argument("--rounds", type=int, default=5)
    parser.add_argument("lists", nargs="+", type=pathlib.Path)
    words = parser.parse_args()
    aioquic, scapy = Aioquic(words.aioquic), scapy_reader()
    print(f"{'list':28} {'lines':>5} {'other/s':>11} {'objects/s':>11} {'ratio':>6} {'fields/s':>11} {'ratio':>6}")
    for path in words.lists:
        items = [bytes.fromhex(line) for line in path.read_text().split()]
        if path.name.startswith("datagrams"):
            ours = {"objects": read_packets, "fields": read_packets_and_fields}
            compare(path.stem, items, {"aioquic": aioquic.packets} | ours, words.rounds)
            if scapy:
                compare(f"{path.stem}, scapy", items, {"scapy": scapy} | ours, words.rounds)
        elif path.name.startswith("params"):
            ours = {"objects": read_parameters, "fields": read_parameters_and_fields}
            compare(path.stem, items, {"aioquic": aioquic.parameters} | ours, words.rounds)
        else:
            ours = {"objects": q.read_frames, "fields": read_frames_and_fields}
            compare(path.stem, items, {"aioquic": aioquic.frames} | ours, words.rounds)


main()
