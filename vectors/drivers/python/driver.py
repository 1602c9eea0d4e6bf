#!/usr/bin/env python3
"""A driver for the Python package quic_wire, which must be importable; the tests of ciphers need `cryptography` too.

driver.py [--rfc]

With --rfc it reads and writes by Checks.RFC, and asks what a packet may carry."""
import json
import sys

import quic_wire as q

try:
    from quic_wire import ciphers
except ImportError:
    ciphers = None

IS_RFC = "--rfc" in sys.argv[1:]
SIDES = {"": (q.Side.CLIENT, q.Side.SERVER), "client": (q.Side.SERVER, q.Side.CLIENT)}  # reader, sender
SAMPLE_AFTER, SAMPLE = 4, 16
RESERVED_LONG, RESERVED_SHORT = 0x0C, 0x18
LONG = 0x80
PACKETS = {
    q.Initial: "Initial", q.ZeroRtt: "0-RTT", q.Handshake: "Handshake", q.Retry: "Retry", q.OneRtt: "1-RTT",
    q.VersionNegotiation: "Version Negotiation", q.UnknownVersion: "unknown version",
}  # fmt: skip
# Who may have sent a payload, by who reads it.
SENDERS = {"": tuple(q.Side), "client": (q.Side.SERVER,), "server": (q.Side.CLIENT,)}
KINDS = {"initial": 0, "0rtt": 1, "handshake": 2, "retry": 3, "1rtt": 4}
# For each class of frames the RFC's names of its fields, in the order of the class.
CODE = "application_protocol_error_code"
FRAMES = {
    q.Padding: ("PADDING", "count"),
    q.Ping: ("PING",),
    q.Ack: ("ACK", "largest_acknowledged", "ack_delay", "ranges", "ect0_count", "ect1_count", "ecn_ce_count"),
    q.ResetStream: ("RESET_STREAM", "stream_id", CODE, "final_size"),
    q.StopSending: ("STOP_SENDING", "stream_id", CODE),
    q.Crypto: ("CRYPTO", "offset", "crypto_data"),
    q.NewToken: ("NEW_TOKEN", "token"),
    q.Stream: ("STREAM", "stream_id", "offset", "fin", "stream_data"),
    q.MaxData: ("MAX_DATA", "maximum_data"),
    q.MaxStreamData: ("MAX_STREAM_DATA", "stream_id", "maximum_stream_data"),
    q.MaxStreamsBidi: ("MAX_STREAMS", "maximum_streams"),
    q.MaxStreamsUni: ("MAX_STREAMS", "maximum_streams"),
    q.DataBlocked: ("DATA_BLOCKED", "maximum_data"),
    q.StreamDataBlocked: ("STREAM_DATA_BLOCKED", "stream_id", "maximum_stream_data"),
    q.StreamsBlockedBidi: ("STREAMS_BLOCKED", "maximum_streams"),
    q.StreamsBlockedUni: ("STREAMS_BLOCKED", "maximum_streams"),
    q.NewConnectionId: (
        "NEW_CONNECTION_ID", "sequence_number", "retire_prior_to", "connection_id", "stateless_reset_token",
    ),
    q.RetireConnectionId: ("RETIRE_CONNECTION_ID", "sequence_number"),
    q.PathChallenge: ("PATH_CHALLENGE", "data"),
    q.PathResponse: ("PATH_RESPONSE", "data"),
    q.ConnectionClose: ("CONNECTION_CLOSE", "error_code", "frame_type", "reason_phrase"),
    q.ApplicationClose: ("CONNECTION_CLOSE", "error_code", "reason_phrase"),
    q.HandshakeDone: ("HANDSHAKE_DONE",),
    q.ImmediateAck: ("IMMEDIATE_ACK",),
    q.Datagram: ("DATAGRAM", "datagram_data"),
    q.AckFrequency: (
        "ACK_FREQUENCY", "sequence_number", "ack_eliciting_threshold", "requested_max_ack_delay",
        "reordering_threshold",
    ),
}  # fmt: skip
DIRECTIONS = {
    q.MaxStreamsBidi: "bidirectional", q.StreamsBlockedBidi: "bidirectional",
    q.MaxStreamsUni: "unidirectional", q.StreamsBlockedUni: "unidirectional",
}  # fmt: skip
LAYERS = {q.ConnectionClose: "transport", q.ApplicationClose: "application"}


def text(value):
    """A value as the tests have it."""
    if isinstance(value, (bytes, memoryview)):
        return value.hex()
    if isinstance(value, tuple):
        return [[str(one.start), str(one.stop - 1)] for one in value]
    return str(int(value))


def frame(read):
    kind, *names = FRAMES[type(read)]
    values = [getattr(read, name) for name in read.__match_args__]
    out = {"type": kind} | {name: text(value) for name, value in zip(names, values) if value is not None}
    if type(read) in DIRECTIONS:
        out["direction"] = DIRECTIONS[type(read)]
    if type(read) in LAYERS:
        out["layer"] = LAYERS[type(read)]
    return out


def payload_checks(context):
    """Whether types may be longer than necessary, and ACK frequency is known, only the test says."""
    by_test = q.Checks.SHORT_TYPES | q.Checks.NO_ACK_FREQUENCY
    checks = q.Checks.RFC & ~by_test if IS_RFC else q.Checks.QUINN
    if "strict" in context:
        checks |= q.Checks.SHORT_TYPES
    if "without" in context:
        checks |= q.Checks.NO_ACK_FREQUENCY
    return checks


def check_permitted(check, context):
    """Raises FrameError if no sender is permitted."""
    senders = SENDERS[context.get("side", "")]
    for sender in senders:
        try:
            return check(KINDS[context.get("packet", "1rtt")], sender, checks=payload_checks(context))
        except q.FrameError:
            if sender == senders[-1]:
                raise


def check_type(payload, at, context):
    """The type of the next frame, if it can be read."""
    try:
        number, _ = q.read_varint(payload, at)
    except q.Error:
        return
    check_permitted(lambda *words, **checks: q.check_type(number, *words, **checks), context)


def permitted_frames(payload, context, found):
    """Adds the frames that may be there to |found|, up to one that may not be; raises FrameError."""
    frames = q.frames(payload, checks=payload_checks(context))
    while frames.offset < len(payload):
        check_type(payload, frames.offset, context)
        one = next(frames)
        check_permitted(one.check_permitted, context)
        found.append(one)


def answer_payload(payload, context):
    found = []
    try:
        if not IS_RFC:
            return valid([frame(one) for one in q.read_frames(payload, checks=payload_checks(context))])
        permitted_frames(payload, context, found)
        return valid([frame(one) for one in found])
    except q.FrameError as error:
        read = error.frames or found
        at = read[-1].end if read else 0
        return f"invalid {error.code.name} {json.dumps({'at': at, 'before': [frame(one) for one in read]})}"


def packet(read):
    out = {"type": PACKETS[type(read)], "dcid": read.dcid.hex()}
    if isinstance(read, q.OneRtt):
        out["spin"] = text(read.spin)
    else:
        out |= {"scid": read.scid.hex(), "version": f"{read.version:08x}"}
    if isinstance(read, q.Initial):
        out["token"] = read.token.hex()
    if isinstance(read, (q.Initial, q.ZeroRtt, q.Handshake)):
        out["length"] = str(read.length)
    if isinstance(read, q.Retry) and read.integrity_tag is not None:
        out |= {"retry_token": read.token.hex(), "retry_integrity_tag": read.integrity_tag.hex()}
    if isinstance(read, q.VersionNegotiation):
        out["supported_versions"] = [f"{version:08x}" for version in read.versions]
    if read.number_at is not None:
        out["packet_number_at"] = str(read.number_at)
    if not isinstance(read, q.UnknownVersion):
        out["end"] = str(read.end)
    return out


def answer_datagram(datagram, context):
    versions = [q.Version.V1] if "versions" in context else list(q.Version)
    checks = q.Checks.RFC if IS_RFC else q.Checks.ANY_VERSION
    if "grease" in context:
        checks |= q.Checks.GREASED_BIT
    try:
        read = q.read_packets(datagram, int(context.get("cid_len", 8)), versions, checks=checks)
        return valid([packet(one) for one in read])
    except q.PacketError as error:
        return f"invalid DROP {json.dumps({'at': error.offset, 'before': [packet(one) for one in error.packets]})}"


def parameters(read):
    out = {}
    for name, value in read.as_dict().items():
        if isinstance(value, q.PreferredAddress):
            v4, v6 = value.v4, value.v6
            out |= {
                "preferred_ipv4_address": v4[0].packed.hex() if v4 else "00" * 4,
                "preferred_ipv4_port": str(v4[1] if v4 else 0),
                "preferred_ipv6_address": v6[0].packed.hex() if v6 else "00" * 16,
                "preferred_ipv6_port": str(v6[1] if v6 else 0),
                "preferred_connection_id": value.connection_id.hex(),
                "preferred_stateless_reset_token": value.reset_token.hex(),
            }
        elif value is not None and value is not False:
            out[name] = text(value)
    return out


def answer_parameters(data, context, is_written):
    reader, sender = SIDES[context.get("from", "")]
    try:
        read = q.TransportParameters.read(reader, data, checks=q.Checks.RFC if IS_RFC else q.Checks.QUINN)
    except q.ParameterError as error:
        return f"invalid {error.code.name}"
    return valid(read.write(sender).hex() if is_written else parameters(read))


def shortest(payload, context):
    """The shortest payload, as a whole; written frame by frame it must be the same, or rejected too."""
    checks = payload_checks(context) if IS_RFC else q.Checks.QUINN
    ways = [
        lambda: q.canonical(payload, checks=checks).hex(),
        lambda: q.write_frames(q.read_frames(payload), checks=checks & ~q.Checks.SHORT_TYPES).hex(),
    ]
    whole, by_frames = (either(way) for way in ways)
    if whole != by_frames:
        return valid(f"{whole}, frame by frame {by_frames}")
    return whole


def either(way):
    """What a call returns as an answer, or how it rejects its argument."""
    try:
        return valid(way())
    except q.FrameError as error:
        return f"invalid {error.code.name}"


def expected(context):
    return 0 if context.get("largest", "-") == "-" else int(context["largest"]) + 1


def unprotected(data, context):
    at = int(context["place"])
    if len(data) < at + SAMPLE_AFTER + SAMPLE:
        return "invalid DROP"
    number, header = q.unprotect(data, at, bytes.fromhex(context["mask"]), expected(context))
    if header[0] & (RESERVED_LONG if header[0] & LONG else RESERVED_SHORT):
        return "invalid PROTOCOL_VIOLATION"
    return valid(f"{header[0]:02x} {header[at:].hex()} {number}")


def protected(data, at, mask):
    packet = bytearray(data)
    q.protect(packet, at, mask)
    return bytes(packet)


def header(context):
    given = {name: bytes.fromhex(context.get(name, "").replace("-", "")) for name in ("dcid", "scid", "token")}
    if context["kind"] == "vn":
        versions = [int(version, 16) for version in context["supported"].split("+") if version != "-"]
        return q.write_version_negotiation(given["dcid"], given["scid"], versions, int(context["unused"], 16)).hex()
    number_len = int(context.get("number_length", 1))
    out = q.write_header(
        KINDS[context["kind"]], **given, version=int(context.get("version", "0"), 16),
        number=int(context.get("number", 0)), number_len=number_len, spin=context.get("spin") == "1",
        key_phase=context.get("key_phase") == "1", fixed_bit="grease" not in context,
    )  # fmt: skip
    if "length" in context:
        at = len(out) - number_len
        packet = bytearray(out.ljust(at + int(context["length"]), b"\x00"))[: at + int(context["length"])]
        q.set_length(packet, at)
        out = bytes(packet[: len(out)])
    return out.hex()


def keys_of(context):
    suite = ciphers.SUITES[0x1303 if context.get("cipher") == "chacha20" else 0x1301]
    return ciphers.PacketKeys.of(bytes.fromhex(context["secret"]), suite, int(context["version"], 16))


def mask(data, context):
    suite = ciphers.SUITES[0x1303 if context["cipher"] == "chacha20" else 0x1301]
    hp = bytes.fromhex(context["hp"])
    return ciphers.PacketKeys(b"", suite, 1, b"", b"", hp, None).mask(data)[:5].hex()


def sealed(data, context):
    keys, front = keys_of(context), bytes.fromhex(context["header"])
    packet = front + keys.seal(int(context["number"]), front, data)
    at = len(front) - (front[0] & 3) - 1
    return protected(packet, at, keys.mask(packet[at + SAMPLE_AFTER :][:SAMPLE])).hex()


def opened(data, context):
    keys, at, number = keys_of(context), int(context["place"]), int(context["number"])
    found, front = q.unprotect(data, at, keys.mask(data[at + SAMPLE_AFTER :][:SAMPLE]), number)
    return f"{front.hex()} {keys.open(found, front, data[len(front):]).hex()}"


def initial_keys(context):
    both = ciphers.initial_keys(int(context["version"], 16), bytes.fromhex(context["dcid"]))
    keys = both[context["side"] == "server"]
    return " ".join(one.hex() for one in (keys.secret, keys.key, keys.iv, keys.hp))


def all_keys(context):
    keys = keys_of(context)
    return " ".join(one.hex() for one in (keys.key, keys.iv, keys.hp, keys.updated().secret))


def retry_tag(data, context):
    odcid = bytes.fromhex(context["odcid"].replace("-", ""))
    return ciphers.retry_integrity_tag(int(context["version"], 16), odcid, data).hex()


CALLS = {
    "varint-read": lambda data, context: "{} {}".format(*q.read_varint(data)),
    "varint-write": lambda data, context: q.write_varint(int(data)).hex(),
    "number-expand": lambda data, context: str(
        q.expand_packet_number(int(context["written"]), int(context["bits"]) // 8, expected(context))
    ),
    "number-length": lambda data, context: str(
        q.packet_number_len(int(context["number"]), None if context["acked"] == "-" else int(context["acked"]))
    ),
    "protect": lambda data, context: protected(data, int(context["place"]), bytes.fromhex(context["mask"])).hex(),
    "header-write": lambda data, context: header(context),
}
CIPHERS = {
    "mask": mask, "packet-seal": sealed, "packet-open": opened, "retry-tag": retry_tag,
    "initial-keys": lambda data, context: initial_keys(context), "keys": lambda data, context: all_keys(context),
}  # fmt: skip


def valid(value):
    return f"valid {json.dumps(value)}"


def answer_call(form, data, context):
    calls = CALLS | (CIPHERS if ciphers else {})
    if form not in calls:
        return "skip"
    try:
        return valid(calls[form](data, context))
    except ValueError:
        return "invalid DROP" if form in ("protect", "packet-open") else "invalid"


def answer(line):
    form, words, digits = line.split()
    context = dict(word.split("=") for word in words.split(",")) if words != "-" else {}
    data = digits if form == "varint-write" else bytes.fromhex(digits.replace("-", ""))
    if form == "payload":
        return answer_payload(data, context)
    if form == "datagram":
        return answer_datagram(data, context)
    if form in ("params", "params-write"):
        return answer_parameters(data, context, form == "params-write")
    if form == "unprotect":
        return unprotected(data, context)
    if form == "shortest":
        return shortest(data, context)
    return answer_call(form, data, context)


def main():
    for line in sys.stdin:
        print(answer(line), flush=True)


if __name__ == "__main__":
    main()
