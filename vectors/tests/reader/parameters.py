"""Transport parameters (RFC 9000, section 18; RFC 9221; RFC 9287; the ACK frequency draft)."""

from reader.input import MOST, MOST_STREAMS, TPE, Input, Rejected, varint

INTEGERS = {
    0x01: ("max_idle_timeout", 0, MOST),
    0x03: ("max_udp_payload_size", 1200, MOST),
    0x04: ("initial_max_data", 0, MOST),
    0x05: ("initial_max_stream_data_bidi_local", 0, MOST),
    0x06: ("initial_max_stream_data_bidi_remote", 0, MOST),
    0x07: ("initial_max_stream_data_uni", 0, MOST),
    0x08: ("initial_max_streams_bidi", 0, MOST_STREAMS),
    0x09: ("initial_max_streams_uni", 0, MOST_STREAMS),
    0x0A: ("ack_delay_exponent", 0, 20),
    0x0B: ("max_ack_delay", 0, (1 << 14) - 1),
    0x0E: ("active_connection_id_limit", 2, MOST),
    0x20: ("max_datagram_frame_size", 0, MOST),
    0xFF04DE1B: ("min_ack_delay", 0, MOST),
}
# The least and the greatest length of values that are bytes.
BYTES = {
    0x00: ("original_destination_connection_id", 0, 20),
    0x02: ("stateless_reset_token", 16, 16),
    0x0C: ("disable_active_migration", 0, 0),
    0x0F: ("initial_source_connection_id", 0, 20),
    0x10: ("retry_source_connection_id", 0, 20),
    0x2AB2: ("grease_quic_bit", 0, 0),
}
SERVER_ONLY = {0x00, 0x02, 0x0D, 0x10}
DEFAULT_MAX_ACK_DELAY = 25


def read_preferred_address(value):
    out = {"ipv4_address": value.take(4), "ipv4_port": int.from_bytes(value.take(2), "big")}
    out |= {"ipv6_address": value.take(16), "ipv6_port": int.from_bytes(value.take(2), "big")}
    length = value.byte()
    if not 1 <= length <= 20:
        raise Rejected(TPE)
    out |= {"connection_id": value.take(length), "stateless_reset_token": value.take(16)}
    return {f"preferred_{name}": field for name, field in out.items()}


def read_value(ident, value):
    """What a parameter says; nothing for an unknown one."""
    if ident in INTEGERS:
        name, least, greatest = INTEGERS[ident]
        number = value.integer()
        out, is_good = {name: number}, least <= number <= greatest
    elif ident in BYTES:
        name, least, greatest = BYTES[ident]
        data = value.rest()
        out, is_good = {name: data if greatest else 1}, least <= len(data) <= greatest
    elif ident == 0x0D:
        out, is_good = read_preferred_address(value), True
    else:
        return {}
    if not is_good or value.left():
        raise Rejected(TPE)
    return out


def write_parameters(out):
    """The shortest list of what was read."""
    values = {ident: varint(out[name]) for ident, (name, _, _) in INTEGERS.items() if name in out}
    values |= {ident: out[name] or b"" for ident, (name, _, most) in BYTES.items() if name in out and most}
    values |= {ident: b"" for ident, (name, _, most) in BYTES.items() if name in out and not most}
    if "preferred_connection_id" in out:
        cid = out["preferred_connection_id"]
        values[0x0D] = b"".join(
            (out["preferred_ipv4_address"], out["preferred_ipv4_port"].to_bytes(2, "big"))
            + (out["preferred_ipv6_address"], out["preferred_ipv6_port"].to_bytes(2, "big"))
            + (bytes([len(cid)]), cid, out["preferred_stateless_reset_token"])
        )
    return b"".join(varint(ident) + varint(len(value)) + value for ident, value in values.items()).hex()


def check_together(out, is_client):
    """The rules for more than one parameter."""
    if "initial_source_connection_id" not in out:
        raise Rejected(TPE)
    if not is_client and "original_destination_connection_id" not in out:
        raise Rejected(TPE)
    if "preferred_connection_id" in out and not out["initial_source_connection_id"]:
        raise Rejected(TPE)
    if out.get("min_ack_delay", 0) > 1000 * out.get("max_ack_delay", DEFAULT_MAX_ACK_DELAY):
        raise Rejected(TPE)


def read_parameters(given, context):
    data, out, is_client = Input(given, TPE), {}, context.get("from") == "client"
    while data.left():
        ident = data.integer()
        value = Input(data.counted(), TPE)
        if is_client and ident in SERVER_ONLY:
            raise Rejected(TPE)
        out |= read_value(ident, value)
    check_together(out, is_client)
    return out
