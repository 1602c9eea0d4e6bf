"""The shortest payload of what was read, written by the RFC's figures: what an encoder that wastes nothing writes."""
from making.readings import FRAMES

TYPES = {name: kind for kind, name in reversed(FRAMES.items())}
# The fields of a frame after its type: `+` before bytes that a length counts, `.` before bytes of a fixed number.
FIELDS = {
    "RESET_STREAM": "stream_id application_protocol_error_code final_size",
    "STOP_SENDING": "stream_id application_protocol_error_code",
    "CRYPTO": "offset +crypto_data",
    "NEW_TOKEN": "+token",
    "MAX_DATA": "maximum_data",
    "MAX_STREAM_DATA": "stream_id maximum_stream_data",
    "MAX_STREAMS": "maximum_streams",
    "DATA_BLOCKED": "maximum_data",
    "STREAM_DATA_BLOCKED": "stream_id maximum_stream_data",
    "STREAMS_BLOCKED": "maximum_streams",
    "NEW_CONNECTION_ID": "sequence_number retire_prior_to +connection_id .stateless_reset_token",
    "RETIRE_CONNECTION_ID": "sequence_number",
    "PATH_CHALLENGE": ".data",
    "PATH_RESPONSE": ".data",
    "ACK_FREQUENCY": "sequence_number ack_eliciting_threshold requested_max_ack_delay reordering_threshold",
}
ECN_COUNTS = ("ect0_count", "ect1_count", "ecn_ce_count")


def varint(number):
    """The shortest encoding of an integer (RFC 9000, section 16)."""
    for power, bits in enumerate((6, 14, 30, 62)):
        if number < 1 << bits:
            return (number | power << (8 << power) - 2).to_bytes(1 << power, "big")
    raise ValueError(f"{number} has no encoding")


def integer(frame, name):
    return varint(int(frame[name]))


def data(frame, name):
    return bytes.fromhex(frame[name])


def counted(frame, name):
    return varint(len(data(frame, name))) + data(frame, name)


def ack(frame):
    ranges = [(int(low), int(high)) for low, high in frame["ranges"]]
    has_ecn = "ect0_count" in frame
    out = bytes([2 + has_ecn]) + integer(frame, "largest_acknowledged") + integer(frame, "ack_delay")
    out += varint(len(ranges) - 1) + varint(ranges[0][1] - ranges[0][0])
    for (low, _), (least, greatest) in zip(ranges, ranges[1:]):
        out += varint(low - greatest - 2) + varint(greatest - least)
    return out + b"".join(integer(frame, name) for name in ECN_COUNTS if has_ecn)


def stream(frame, is_last):
    has_offset = frame["offset"] != "0"
    out = bytes([0x08 | has_offset << 2 | (not is_last) << 1 | int(frame["fin"])]) + integer(frame, "stream_id")
    out += integer(frame, "offset") if has_offset else b""
    return out + (data if is_last else counted)(frame, "stream_data")


def datagram(frame, is_last):
    return b"\x30" + data(frame, "datagram_data") if is_last else b"\x31" + counted(frame, "datagram_data")


def close(frame):
    is_transport = frame["layer"] == "transport"
    out = (b"\x1c" if is_transport else b"\x1d") + integer(frame, "error_code")
    return out + (integer(frame, "frame_type") if is_transport else b"") + counted(frame, "reason_phrase")


def other(frame):
    out = varint(TYPES[frame["type"]] + (frame.get("direction") == "unidirectional"))
    for field in FIELDS.get(frame["type"], "").split():
        write = {"+": counted, ".": data}.get(field[0], integer)
        out += write(frame, field.lstrip("+."))
    return out


def frame_bytes(frame, is_last):
    kind = frame["type"]
    if kind == "PADDING":
        return bytes(int(frame.get("count", 1)))
    if kind in ("STREAM", "DATAGRAM"):
        return (stream if kind == "STREAM" else datagram)(frame, is_last)
    return {"ACK": ack, "CONNECTION_CLOSE": close}.get(kind, other)(frame)


def payload(frames):
    """The shortest payload of these frames, in this order."""
    return b"".join(frame_bytes(frame, index == len(frames) - 1) for index, frame in enumerate(frames)).hex()
