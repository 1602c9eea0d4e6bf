"""measure.py TREE [BYTES]: what aioquic's wire layer takes in a tree, in microseconds of processor time.

Prints a line for each piece of work, a name, a tab and the least of several rounds: headers, payloads and transport
parameters read, ACKs written, and a datagram of a transfer of BYTES with both ends in this process, with all that it
takes, the ciphers too.
"""

import os
import sys
import time
import timeit
import types

tree = os.path.abspath(sys.argv[1])
size = int(sys.argv[2]) if len(sys.argv) > 2 else 1_000_000
os.chdir(tree)
sys.path[:0] = [os.path.join(tree, "src"), tree]
from aioquic.buffer import Buffer  # noqa: E402
from aioquic.quic import events, packet  # noqa: E402
from aioquic.quic.rangeset import RangeSet  # noqa: E402
from tests.test_connection import client_and_server, client_receive_context  # noqa: E402

ROUNDS, SECONDS, TRANSFERS = 5, 0.02, 4
SHORT = bytes([0x41]) + bytes(8) + bytes(1191)
INITIAL = bytes.fromhex("c100000001088394c8f03e51570808010203040506070800449e") + bytes(1182)
PAYLOADS = {
    "a payload with a STREAM of 1,152 bytes": bytes.fromhex("0e0150004480") + bytes(0x480),
    "an ACK of 1 range": bytes.fromhex("0250640a0005"),
    "an ACK of 21 ranges": bytes.fromhex("0270000a1405") + bytes([1, 3]) * 20,
    "MAX_DATA": bytes.fromhex("1080100000"),
    "1,000 PADDING and a PING": bytes(1000) + b"\1",
}
PARAMETERS = packet.QuicTransportParameters(
    max_idle_timeout=60000, initial_max_data=1 << 20, initial_max_stream_data_bidi_local=1 << 20,
    initial_max_stream_data_bidi_remote=1 << 20, initial_max_stream_data_uni=1 << 20, initial_max_streams_bidi=128,
    initial_max_streams_uni=128, ack_delay_exponent=3, max_ack_delay=25, active_connection_id_limit=8,
    initial_source_connection_id=bytes(8), version_information=packet.QuicVersionInformation(1, [1, 0x6B3343CF]),
)  # fmt: skip


def least(call):
    """The least time of a call."""
    timer = timeit.Timer(call, timer=time.process_time)
    count = max(1, int(SECONDS / max(timer.timeit(100) / 100, 1e-7)))
    return min(timer.repeat(ROUNDS, count)) / count


def show(name, seconds):
    print(f"{name}\t{seconds * 1e6:.2f}", flush=True)


def read_header(data):
    """As receive_datagram reads it."""
    if hasattr(packet, "header_at"):
        return lambda: packet.header_at(data, 0, 8)
    return lambda: packet.pull_quic_header(Buffer(data=data), host_cid_length=8)


def for_payloads(client):
    """A client that reads any payload again and again: its streams and its recovery do nothing."""
    stream = types.SimpleNamespace(max_stream_data_local=1 << 61)
    stream.receiver = types.SimpleNamespace(highest_offset=1 << 60, handle_frame=lambda frame: None)
    client._get_or_create_stream = lambda *_: stream
    client._assert_stream_can_receive = lambda *_: None
    client._loss.on_ack_received = lambda **_: None
    return client_receive_context(client)


def write_ack(count):
    ranges = RangeSet([range(10 * i, 10 * i + 4) for i in range(count)])

    def write():
        buf = Buffer(capacity=1280)
        packet.push_ack_frame(buf, ranges, 10)

    return write


def write_parameters():
    buf = Buffer(capacity=1024)
    packet.push_quic_transport_parameters(buf, PARAMETERS)
    return buf.data


def transfer(client, server):
    """Moves the bytes to the server; how many datagrams that took."""
    client.send_stream_data(client.get_next_available_stream_id(), bytes(size), end_stream=True)
    received = count = 0
    is_done, now = False, time.time()
    while not is_done:
        for sender, receiver in ((client, server), (server, client)):
            for data, address in sender.datagrams_to_send(now=now):
                count += 1
                receiver.receive_datagram(data, address, now=now)
        now += 0.01
        for side in (client, server):
            timer = side.get_timer()
            if timer is not None and now >= timer:
                side.handle_timer(now)
        while (event := server.next_event()) is not None:
            if isinstance(event, events.StreamDataReceived):
                received += len(event.data)
                is_done = event.end_stream
    assert received == size
    return count


def datagram_of_transfer():
    """The least time of one, of several transfers."""
    best = float("inf")
    for _ in range(TRANSFERS):
        with client_and_server() as (client, server):
            begin = time.process_time()
            count = transfer(client, server)
            best = min(best, (time.process_time() - begin) / count)
    return best


def main():
    show("a 1-RTT header read", least(read_header(SHORT)))
    show("an Initial header read", least(read_header(INITIAL)))
    with client_and_server() as (client, _):
        context = for_payloads(client)
        for name, payload in PAYLOADS.items():
            show(f"{name}, read", least(lambda: client._payload_received(context, payload)))
    show("an ACK of 1 range, written", least(write_ack(1)))
    show("an ACK of 21 ranges, written", least(write_ack(21)))
    listed = write_parameters()
    show("transport parameters read", least(lambda: packet.pull_quic_transport_parameters(Buffer(data=listed))))
    show("transport parameters written", least(write_parameters))
    show("a datagram of a transfer, both ends", datagram_of_transfer())


main()
