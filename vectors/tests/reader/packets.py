"""Packets (RFC 9000, section 17; RFC 8999; RFC 9369) and their headers, packet numbers (RFC 9000, A.3) and header
protection (RFC 9001, section 5.4)."""

from reader.input import DROP, MOST, PV, Input, Rejected, varint

KINDS = ["Initial", "0-RTT", "Handshake", "Retry"]
VERSIONS = {1: 0, 0x6B3343CF: 1}  # how far the types of long headers are moved
LEAST_DATAGRAM = 1200
TAG = 16


def read_negotiation(data, out):
    if not data.left() or data.left() % 4:
        raise Rejected(DROP)
    versions = []
    while data.left():
        versions.append(data.take(4))
    return out | {"type": "Version Negotiation", "supported_versions": versions}


def read_retry(data, out):
    if data.left() <= TAG:
        raise Rejected(DROP)
    return out | {"type": "Retry", "retry_token": data.take(data.left() - TAG), "retry_integrity_tag": data.take(TAG)}


def read_protected(data, out, kind, begin, context):
    out |= {"type": kind}
    if kind == "Initial":
        out["token"] = data.counted()
        if out["token"] and context.get("side") == "client":
            raise Rejected(DROP)
    out["length"] = data.integer()
    out["packet_number_at"] = begin + data.at
    data.take(out["length"])
    return out


def read_long(data, begin, size, context):
    first = data.byte()
    version = int.from_bytes(data.take(4), "big")
    is_known = version in VERSIONS and (version == 1 or "versions" not in context)
    out = {"version": version.to_bytes(4, "big")}
    for name in ("dcid", "scid"):
        length = data.byte()
        if is_known and length > 20:
            raise Rejected(DROP)
        out[name] = data.take(length)
    if version == 0:
        return read_negotiation(data, out)
    is_small = context.get("side") == "server" and size < LEAST_DATAGRAM
    if not is_known:
        if is_small:
            raise Rejected(DROP)
        data.rest()
        return out | {"type": "unknown version"}
    if not first & 0x40 and "grease" not in context:
        raise Rejected(DROP)
    kind = KINDS[(first >> 4) - VERSIONS[version] & 3]
    if kind == "Retry":
        return read_retry(data, out)
    if kind == "Initial" and is_small:
        raise Rejected(DROP)
    return read_protected(data, out, kind, begin, context)


def read_short(data, begin, context):
    first = data.byte()
    if not first & 0x40 and "grease" not in context:
        raise Rejected(DROP)
    out = {"type": "1-RTT", "spin": first >> 5 & 1, "dcid": data.take(int(context.get("cid_len", 8)))}
    out["packet_number_at"] = begin + data.at
    data.rest()
    return out


def read_datagram(datagram, context):
    """The packets, where the last whole one ends, and DROP if the rest isn't a packet."""
    packets, at = [], 0
    while at < len(datagram):
        data = Input(datagram[at:], DROP)
        try:
            if datagram[at] & 0x80:
                packet = read_long(data, at, len(datagram), context)
            else:
                packet = read_short(data, at, context)
        except Rejected as fault:
            return packets, at, fault.args[0]
        at += data.at
        packets.append(packet | ({"end": at} if packet["type"] != "unknown version" else {}))
    return packets, at, None



def expand(written, bits, largest):
    """The packet number closest to the expected one."""
    expected, window = largest + 1, 1 << bits
    candidate = expected & -window | written
    if candidate <= expected - window // 2 and candidate < (1 << 62) - window:
        return candidate + window
    return candidate - window if candidate > expected + window // 2 and candidate >= window else candidate


def number_length(number, acked):
    """The fewest bytes that hold more than twice as many numbers as are unacknowledged."""
    for length in range(1, 5):
        if 1 << 8 * length > 2 * (number - acked):
            return length
    raise Rejected(DROP)


def masked(packet, place, length, mask):
    """A packet with header protection removed or applied."""
    out = bytearray(packet)
    out[0] ^= mask[0] & (0x0F if packet[0] & 0x80 else 0x1F)
    for i in range(length):
        out[place + i] ^= mask[1 + i]
    return out


def unprotect(packet, context):
    place, mask = int(context["place"]), bytes.fromhex(context["mask"])
    sample = packet[place + 4 : place + 20]
    if len(sample) < 16 or sample.hex() != context["sample"]:
        raise Rejected(DROP)
    first = packet[0] ^ mask[0] & (0x0F if packet[0] & 0x80 else 0x1F)
    length = (first & 3) + 1
    out = masked(packet, place, length, mask)
    if first & (0x0C if first & 0x80 else 0x18):
        raise Rejected(PV)
    number = out[place : place + length]
    largest = -1 if context["largest"] == "-" else int(context["largest"])
    return f"{first:02x} {number.hex()} {expand(int.from_bytes(number, 'big'), 8 * length, largest)}"


def protect(packet, context):
    return masked(packet, int(context["place"]), (packet[0] & 3) + 1, bytes.fromhex(context["mask"])).hex()


def write_negotiation(context, ids):
    first = 0x80 | int(context["unused"], 16)
    versions = b"".join(bytes.fromhex(version) for version in context["supported"].split("+"))
    return (bytes([first]) + bytes(4) + b"".join(bytes([len(cid)]) + cid for cid in ids) + versions).hex()


def write_header(context):
    """A header without protection, up to the end of its packet number."""
    ids = [bytes.fromhex(context.get(name, "-").replace("-", "")) for name in ("dcid", "scid")]
    if context["kind"] == "vn":
        return write_negotiation(context, ids)
    number, length = int(context.get("number", 0)), int(context.get("number_length", 1))
    if max(map(len, ids)) > 20 or not 1 <= length <= 4 or number > MOST:
        raise Rejected(DROP)
    number_bytes = number.to_bytes(8, "big")[-length:]
    fixed = 0 if "grease" in context else 0x40
    if context["kind"] == "1rtt":
        first = fixed | ("spin" in context) << 5 | ("key_phase" in context) << 2 | length - 1
        return (bytes([first]) + ids[0] + number_bytes).hex()
    version = bytes.fromhex(context["version"])
    if version == bytes(4):
        raise Rejected(DROP)
    kind = ["initial", "0rtt", "handshake", "retry"].index(context["kind"])
    kind = kind + VERSIONS[int.from_bytes(version, "big")] & 3
    is_retry = context["kind"] == "retry"
    out = bytes([0x80 | fixed | kind << 4 | (0 if is_retry else length - 1)]) + version
    out += b"".join(bytes([len(cid)]) + cid for cid in ids)
    if context["kind"] == "initial":
        token = bytes.fromhex(context["token"].replace("-", ""))
        out += varint(len(token)) + token
    if not is_retry:
        out += (int(context["length"]) | 0x4000).to_bytes(2, "big") + number_bytes
    return out.hex()
