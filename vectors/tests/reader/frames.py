"""Frames (RFC 9000, section 19; RFC 9221; the ACK frequency draft), and the shortest payload of them."""

from reader.input import FEE, MOST, MOST_STREAMS, PV, Input, Rejected, varint

# The fields of a frame after its type: integers, `+` data with a length, `.` eight bytes.
FRAMES = {
    0x00: ("PADDING", ""),
    0x01: ("PING", ""),
    0x04: ("RESET_STREAM", "stream_id application_protocol_error_code final_size"),
    0x05: ("STOP_SENDING", "stream_id application_protocol_error_code"),
    0x06: ("CRYPTO", "offset +crypto_data"),
    0x07: ("NEW_TOKEN", "+token"),
    0x10: ("MAX_DATA", "maximum_data"),
    0x11: ("MAX_STREAM_DATA", "stream_id maximum_stream_data"),
    0x12: ("MAX_STREAMS", "maximum_streams"),
    0x13: ("MAX_STREAMS", "maximum_streams"),
    0x14: ("DATA_BLOCKED", "maximum_data"),
    0x15: ("STREAM_DATA_BLOCKED", "stream_id maximum_stream_data"),
    0x16: ("STREAMS_BLOCKED", "maximum_streams"),
    0x17: ("STREAMS_BLOCKED", "maximum_streams"),
    0x19: ("RETIRE_CONNECTION_ID", "sequence_number"),
    0x1A: ("PATH_CHALLENGE", ".data"),
    0x1B: ("PATH_RESPONSE", ".data"),
    0x1C: ("CONNECTION_CLOSE", "error_code frame_type +reason_phrase"),
    0x1D: ("CONNECTION_CLOSE", "error_code +reason_phrase"),
    0x1E: ("HANDSHAKE_DONE", ""),
    0x1F: ("IMMEDIATE_ACK", ""),
    0x30: ("DATAGRAM", "*datagram_data"),
    0x31: ("DATAGRAM", "+datagram_data"),
    0xAF: ("ACK_FREQUENCY", "sequence_number ack_eliciting_threshold requested_max_ack_delay reordering_threshold"),
}
OTHER_FRAMES = {0x02, 0x03, *range(0x08, 0x10), 0x18}
ACK_FREQUENCY = {0x1F, 0xAF}
# What packets of other kinds than 1-RTT may carry (RFC 9000, table 3).
HANDSHAKE_TYPES = {0x00, 0x01, 0x02, 0x03, 0x06, 0x1C}
NOT_IN_0RTT = {0x02, 0x03, 0x06, 0x07, 0x1B, 0x1E}
BY_SERVERS = {0x07, 0x1E}
BY_READERS = {0x05, 0x11}  # of frames with a stream, those that the side sends which reads the stream


def read_ack(data, has_ecn):
    largest, delay, count, first = (data.integer() for _ in range(4))
    if first > largest:
        raise Rejected(FEE)
    low = largest - first
    ranges = [[str(low), str(largest)]]
    for _ in range(count):
        high = low - data.integer() - 2
        low = high - data.integer()
        if low < 0:
            raise Rejected(FEE)
        ranges.append([str(low), str(high)])
    out = {"type": "ACK", "largest_acknowledged": largest, "ack_delay": delay, "ranges": ranges}
    if has_ecn:
        out |= {name: data.integer() for name in ("ect0_count", "ect1_count", "ecn_ce_count")}
    return out


def read_stream(data, kind):
    out = {"type": "STREAM", "stream_id": data.integer(), "offset": data.integer() if kind & 4 else 0, "fin": kind & 1}
    out["stream_data"] = data.counted() if kind & 2 else data.rest()
    return out


def read_new_connection_id(data):
    out = {"type": "NEW_CONNECTION_ID", "sequence_number": data.integer(), "retire_prior_to": data.integer()}
    if out["retire_prior_to"] > out["sequence_number"]:
        raise Rejected(FEE)
    length = data.byte()
    if not 1 <= length <= 20:
        raise Rejected(FEE)
    return out | {"connection_id": data.take(length), "stateless_reset_token": data.take(16)}


def read_fields(data, kind):
    name, fields = FRAMES[kind]
    out = {"type": name}
    for field in fields.split():
        read = {"+": data.counted, "*": data.rest, ".": lambda: data.take(8)}.get(field[0], data.integer)
        out[field.lstrip("+*.")] = read()
    if name in ("MAX_STREAMS", "STREAMS_BLOCKED"):
        out["direction"] = "unidirectional" if kind & 1 else "bidirectional"
    elif name == "CONNECTION_CLOSE":
        out["layer"] = "application" if kind & 1 else "transport"
    elif name == "PADDING":
        out["count"] = 1
    return out


def check_values(frame):
    """The rules for values of fields."""
    end = frame.get("offset", 0) + len(frame.get("stream_data", frame.get("crypto_data", b"")))
    if end > MOST or frame.get("maximum_streams", 0) > MOST_STREAMS:
        raise Rejected(FEE)
    if frame["type"] == "NEW_TOKEN" and not frame["token"]:
        raise Rejected(FEE)


def check_permitted(kind, context):
    packet = context.get("packet")
    if packet in ("initial", "handshake") and kind not in HANDSHAKE_TYPES:
        raise Rejected(PV)
    if packet == "0rtt" and kind in NOT_IN_0RTT:
        raise Rejected(PV)
    if context.get("side") == "server" and kind in BY_SERVERS:
        raise Rejected(PV)


def check_stream(kind, frame, context):
    """Only the side that opened a unidirectional stream sends data on it, and only the other limits and stops them."""
    if "side" not in context or "stream_id" not in frame or not frame["stream_id"] & 2:
        return
    is_own = bool(frame["stream_id"] & 1) == (context["side"] == "client")  # the sender's
    if is_own == (kind in BY_READERS):
        raise Rejected("STREAM_STATE_ERROR")


def read_frame(data, context):
    begin = data.at
    kind = data.integer()
    is_known = kind in FRAMES or kind in OTHER_FRAMES
    if not is_known or "without" in context and kind in ACK_FREQUENCY:
        raise Rejected(FEE)
    if "strict" in context and data.at - begin != len(varint(kind)):
        raise Rejected(PV)
    check_permitted(kind, context)
    if kind in (0x02, 0x03):
        return read_ack(data, kind == 0x03)
    if 0x08 <= kind <= 0x0F:
        frame = read_stream(data, kind)
    elif kind == 0x18:
        return read_new_connection_id(data)
    else:
        frame = read_fields(data, kind)
    check_values(frame)
    check_stream(kind, frame, context)
    return frame


def read_frames(payload, context):
    """The frames, where the last whole one ends, and the code with which the rest is rejected, or None."""
    data, frames = Input(payload, FEE), []
    if not payload:
        return frames, 0, PV
    while data.left():
        begin = data.at
        try:
            frames.append(read_frame(data, context))
        except Rejected as fault:
            return frames, begin, fault.args[0]
    return frames, data.at, None


def write_ack(frame):
    ranges = [(int(low), int(high)) for low, high in frame["ranges"]]
    out = bytes([0x03 if "ect0_count" in frame else 0x02])
    out += varint(frame["largest_acknowledged"]) + varint(frame["ack_delay"]) + varint(len(ranges) - 1)
    out += varint(ranges[0][1] - ranges[0][0])
    for (low, _), (least, greatest) in zip(ranges, ranges[1:]):
        out += varint(low - greatest - 2) + varint(greatest - least)
    return out + b"".join(varint(frame[n]) for n in ("ect0_count", "ect1_count", "ecn_ce_count") if n in frame)


def write_stream(frame, is_last):
    offset, data = frame["offset"], frame["stream_data"]
    kind = 0x08 | (4 if offset else 0) | (0 if is_last else 2) | frame["fin"]
    out = bytes([kind]) + varint(frame["stream_id"]) + (varint(offset) if offset else b"")
    return out + (b"" if is_last else varint(len(data))) + data


def write_fields(frame, kind):
    out = varint(kind)
    for field in FRAMES[kind][1].split():
        value = frame[field.lstrip("+*.")]
        if field[0] == "+":
            out += varint(len(value)) + value
        else:
            out += value if field[0] in "*." else varint(value)
    return out


def kind_of(frame, is_last):
    """The type of a frame, of those with two the one that fits."""
    if frame["type"] == "DATAGRAM":
        return 0x30 if is_last else 0x31
    is_second = frame.get("direction") == "unidirectional" or frame.get("layer") == "application"
    return [kind for kind, (name, _) in FRAMES.items() if name == frame["type"]][is_second]


def write_frame(frame, is_last):
    if frame["type"] == "ACK":
        return write_ack(frame)
    if frame["type"] == "STREAM":
        return write_stream(frame, is_last)
    if frame["type"] == "NEW_CONNECTION_ID":
        cid = frame["connection_id"]
        out = b"\x18" + varint(frame["sequence_number"]) + varint(frame["retire_prior_to"])
        return out + bytes([len(cid)]) + cid + frame["stateless_reset_token"]
    return write_fields(frame, kind_of(frame, is_last))


def shortest(payload, context):
    frames, _, code = read_frames(payload, context)
    if code:
        raise Rejected(code)
    return b"".join(write_frame(frame, i == len(frames) - 1) for i, frame in enumerate(frames)).hex()
