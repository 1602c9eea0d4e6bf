"""What is read from the fields of a row, with the RFC's names. Integers are decimal strings, bytes hexadecimal."""
from making.fields import BYTES

FRAMES = {
    0x00: "PADDING", 0x01: "PING", 0x02: "ACK", 0x03: "ACK", 0x04: "RESET_STREAM", 0x05: "STOP_SENDING", 0x06: "CRYPTO",
    0x07: "NEW_TOKEN", 0x10: "MAX_DATA", 0x11: "MAX_STREAM_DATA", 0x12: "MAX_STREAMS", 0x13: "MAX_STREAMS",
    0x14: "DATA_BLOCKED", 0x15: "STREAM_DATA_BLOCKED", 0x16: "STREAMS_BLOCKED", 0x17: "STREAMS_BLOCKED",
    0x18: "NEW_CONNECTION_ID", 0x19: "RETIRE_CONNECTION_ID", 0x1a: "PATH_CHALLENGE", 0x1b: "PATH_RESPONSE",
    0x1c: "CONNECTION_CLOSE", 0x1d: "CONNECTION_CLOSE", 0x1e: "HANDSHAKE_DONE", 0x1f: "IMMEDIATE_ACK", 0x30: "DATAGRAM",
    0x31: "DATAGRAM", 0xaf: "ACK_FREQUENCY",
} | dict.fromkeys(range(0x08, 0x10), "STREAM")  # fmt: skip
# Fields that say where others end, which show what these say.
LENGTHS = set(
    "type length token_length reason_phrase_length ack_range_count first_ack_range gap ack_range_length "
    "connection_id_length".split()
)
LONG_TYPES = ["Initial", "0-RTT", "Handshake", "Retry"]
VERSION_1, VERSION_2, NEGOTIATION = "00000001", "6b3343cf", "00000000"
PREFERRED_ADDRESS = 0x0d


def value(field):
    return field.bytes.hex() if field.name in BYTES else str(field.number())


def ranges_of(item):
    """The ranges of an ACK, greatest first."""
    high, ranges = item[1].number(), []
    for field in item:
        if field.name == "gap":
            high = ranges[-1][0] - field.number() - 2
        elif field.name in ("first_ack_range", "ack_range_length"):
            ranges.append([high - field.number(), high])
    return [[str(low), str(high)] for low, high in ranges]


def padding(item):
    """A PADDING frame. It has no count if its type isn't in one byte: some readers count bytes, others frames."""
    return {"type": "PADDING"} | ({"count": str(len(item[0].bytes))} if item[0].bytes[0] == 0 else {})


def frame(item):
    kind = item[0].number() if item[0].name == "type" and item[0].bytes[0] else 0
    name = FRAMES[kind]
    if name == "PADDING":
        return padding(item)
    out = {"type": name} | {field.name: value(field) for field in item if field.name not in LENGTHS}
    if name == "STREAM":
        out = {"type": name, "offset": "0"} | out | {"fin": str(kind & 1)}
    elif name in ("MAX_STREAMS", "STREAMS_BLOCKED"):
        out["direction"] = ["bidirectional", "unidirectional"][kind & 1]
    elif name == "CONNECTION_CLOSE":
        out["layer"] = ["transport", "application"][kind & 1]
    elif name == "ACK":
        out["ranges"] = ranges_of(item)
    return out


def retry(fields):
    """The token and tag of a Retry; nothing if the tag isn't whole."""
    tag = fields.get("retry_integrity_tag")
    if not tag or len(tag.bytes) != 16:
        return {}
    return {"retry_token": fields["retry_token"].bytes.hex(), "retry_integrity_tag": tag.bytes.hex()}


def short_packet(fields, begin, end):
    return {
        "type": "1-RTT",
        "dcid": fields["dcid"].bytes.hex(),
        "spin": str(fields["first"].bytes[0] >> 5 & 1),
        "packet_number_at": str(begin + 1 + len(fields["dcid"].bytes)),
        "end": str(end),
    }


def packet(item, begin, context):
    """A packet that begins at an offset of its datagram."""
    fields = {field.name: field for field in item}
    end = begin + sum(len(field.bytes) for field in item)
    first, version = fields["first"].bytes[0], value(fields["version"]) if "version" in fields else None
    if not first & 0x80:
        return short_packet(fields, begin, end)
    ids = {"version": version, "dcid": fields["dcid"].bytes.hex(), "scid": fields["scid"].bytes.hex()}
    if version == NEGOTIATION:
        versions = [value(field) for field in item if field.name == "supported_version" and len(field.bytes) == 4]
        return {"type": "Version Negotiation"} | ids | {"supported_versions": versions, "end": str(end)}
    if version not in (VERSION_1, VERSION_2) or version == VERSION_2 and context.get("versions") == "1":
        return {"type": "unknown version"} | ids
    kind = LONG_TYPES[(first >> 4 & 3) - (version == VERSION_2) & 3]
    if kind == "Retry":
        return {"type": kind} | ids | retry(fields) | {"end": str(end)}
    token = {"token": fields["token"].bytes.hex()} if kind == "Initial" else {}
    number_at = {"packet_number_at": str(end - len(fields["protected"].bytes)), "end": str(end)}
    return {"type": kind} | ids | token | {"length": str(fields["length"].number())} | number_at


def packets(items, context):
    out, at = [], 0
    for item in items:
        out.append(packet(item, at, context))
        at += sum(len(field.bytes) for field in item)
    return out


def parameter_value(field):
    if field.name in ("disable_active_migration", "grease_quic_bit"):
        return "1"
    if field.name.endswith("_port"):
        return str(int.from_bytes(field.bytes, "big"))
    if field.name in BYTES:
        return field.bytes.hex()
    return str(field.number()) if field.is_whole() else ""


def parameters(items):
    """A list of transport parameters; what is unknown or has no value of its own is left out."""
    out = {}
    for item in items:
        prefix = "preferred_" if item[0].number() == PREFERRED_ADDRESS else ""
        for field in item[2:]:
            if field.name not in ("value", "connection_id_length", "junk", "version_information"):
                out[prefix + field.name] = parameter_value(field)
    return out


def reading(form, items, context):
    if form == "payload":
        return [frame(item) for item in items]
    if form == "params":
        return parameters(items)
    return packets(items, context)
