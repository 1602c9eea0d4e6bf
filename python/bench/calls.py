#!/usr/bin/env python3
"""What single calls of the package take, in microseconds of processor time: the least of rounds, in turn for each
build of it.

calls.py [--rounds N] FOLDER ..

A FOLDER has the package quic_wire with its module built, as python/src of a tree. A build that lacks a call has no
figure for it.
"""

import argparse
import json
import subprocess
import sys
import time
import timeit

SECONDS = 0.01  # of a timing, at least
SETUP = """
import pickle, quic_wire as q
RFC = q.Checks.RFC
short = bytes([0x41]) + bytes(8) + bytes(1191)
initial = bytes.fromhex("c100000001088394c8f03e51570808010203040506070800449e") + bytes(1182)
stream = bytes.fromhex("0e0150004480") + bytes(0x480)
ack1, ack21 = bytes.fromhex("0250640a0005"), bytes.fromhex("0270000a1405") + bytes([1, 3]) * 20
parameters = bytes.fromhex(
    "01048000ea60" "040480100000" "050480100000" "060480100000" "070480100000" "08024080" "09024080" "0f0401020304")
packet, long, close = q.read_packet(short, 8), q.read_packet(initial, 8), bytes.fromhex("1c00000474657874")
f, a, c = (q.read_frames(one)[0] for one in (stream, ack21, close))
made, numbers, data, mask, sealed = q.Stream(4, 9, True, b"abc"), q.RangeSet(), bytes(1152), bytes(5), bytearray(1200)
ranges21 = [range(10 * i, 10 * i + 4) for i in range(21)]
many = pickle.dumps(q.Ack(ranges=[range(2 * i, 2 * i + 1) for i in range(3000)]))
cid = bytes(8)
"""
CALLS = {
    "read_packet, 1-RTT": "q.read_packet(short, 8)",
    "the same with checks": "q.read_packet(short, 8, checks=RFC)",
    "read_packet, Initial, with checks": "q.read_packet(initial, 8, checks=RFC)",
    "read_packets, with checks": "q.read_packets(short, 8, checks=RFC)",
    "Checks.RFC": "q.Checks.RFC",
    "bytes(packet.dcid)": "bytes(packet.dcid)",
    "bytes(packet.scid)": "bytes(long.scid)",
    "frames, one STREAM": "next(q.frames(stream, checks=RFC))",
    "read_frames, one STREAM": "q.read_frames(stream, checks=RFC)",
    "stream.data": "f.data",
    "bytes(stream.data)": "bytes(f.data)",
    "close.reason as bytes": "bytes(c.reason)",
    "read_frames, ACK of 21 ranges": "q.read_frames(ack21, checks=RFC)",
    "ack.ranges, 21": "a.ranges",
    "RangeSet(ack), 21": "q.RangeSet(a)",
    "frame.check_permitted": "f.check_permitted(4, 0, checks=RFC)",
    "check_type": "q.check_type(8, 4, 0, checks=RFC)",
    "Stream(..), by position": "q.Stream(4, 9, True, data)",
    "Stream(..), by name": "q.Stream(stream_id=4, offset=9, data=data)",
    "stream.encode()": "made.encode()",
    "Stream(..).encode(), 1,152 bytes": "q.Stream(4, 9, True, data).encode()",
    "Ack(..).encode(), 1 range": "q.Ack(0, 9, ranges21[:1]).encode()",
    "Ack(..).encode(), 21 ranges": "q.Ack(0, 9, ranges21).encode()",
    "an ACK of 3,000 ranges unpickled": "pickle.loads(many)",
    "write_header, 1-RTT": "q.write_header(4, cid, number=9, number_len=2)",
    "unprotect": "q.unprotect(short, 9, mask, 5)",
    "protect": "q.protect(sealed, 9, mask)",
    "expand_packet_number": "q.expand_packet_number(5, 2, 100000)",
    "packet_number_len": "q.packet_number_len(9, 5)",
    "read_varint": "q.read_varint(stream, 2)",
    "write_varint": "q.write_varint(500)",
    "RangeSet.insert": "numbers.insert(5)",
    "TransportParameters.read": "q.TransportParameters.read(0, parameters, checks=RFC)",
    "the same, those that are present": "q.TransportParameters.read(0, parameters).as_dict(present=True)",
    "a list of parameters(..)": "list(q.parameters(parameters))",
}


def times():
    """The time of each call, of this process's package."""
    names, found = {}, {}
    exec(SETUP, names)
    for name, call in CALLS.items():
        timer = timeit.Timer(call, timer=time.process_time, globals=names)
        try:
            once = timer.timeit(20) / 20
        except Exception:
            continue
        count = max(1, int(SECONDS / max(once, 1e-8)))
        found[name] = timer.timeit(count) / count * 1e6
    return found


def times_of(folder):
    run = [sys.executable, __file__, "--child", folder]
    return json.loads(subprocess.run(run, stdout=subprocess.PIPE, check=True, text=True).stdout)


def main():
    if sys.argv[1:2] == ["--child"]:
        sys.path.insert(0, sys.argv[2])
        print(json.dumps(times()))
        return
    parser = argparse.ArgumentParser(usage=__doc__)
    parser.add_argument("--rounds", type=int, default=20)
    parser.add_argument("folders", nargs="+")
    words = parser.parse_args()
    least = [dict.fromkeys(CALLS, float("inf")) for _ in words.folders]
    for _ in range(words.rounds):
        for best, folder in zip(least, words.folders):
            for name, spent in times_of(folder).items():
                best[name] = min(best[name], spent)
    for name in CALLS:
        cells = (f"{best[name]:9.2f}" if best[name] < float("inf") else " " * 9 for best in least)
        print(f"{name:36}" + "".join(cells))


main()
