"""What stands beside frames, headers and parameters: nonces (RFC 9001, section 5.3), what a Retry's tag protects (5.8),
version_information (RFC 9368), stateless resets (RFC 9000, section 10.3), and the answer to a packet of another version
(RFC 8999, section 6)."""

from reader.input import DROP, Input, Rejected

TAG = 16
LEAST = 21  # bytes of a packet with a short header


def items(text):
    return [bytes.fromhex(one) for one in text.split("+")] if text != "-" else []


def nonce(context):
    iv = bytes.fromhex(context["iv"])
    number = int(context["number"]).to_bytes(len(iv), "big")
    return bytes(a ^ b for a, b in zip(iv, number)).hex()


def retry_pseudo(retry, context):
    odcid = bytes.fromhex(context["odcid"])
    if len(odcid) > 20 or len(retry) < TAG:
        raise Rejected(DROP)
    return (bytes([len(odcid)]) + odcid + retry[:-TAG]).hex()


def write_information(context):
    versions = items(context["chosen"]) + items(context["available"])
    if bytes(4) in versions:
        raise Rejected(DROP)
    return b"".join(versions).hex()


def write_reset(context):
    made = bytearray.fromhex(context["unpredictable"] + context["token"])
    if len(made) < LEAST:
        raise Rejected(DROP)
    made[0] = made[0] & 0x3F | 0x40
    return made.hex()


def is_reset(datagram, context):
    return int(len(datagram) >= LEAST and datagram.endswith(bytes.fromhex(context["token"])))


def answer_negotiation(received, context):
    data, versions = Input(received, DROP), items(context["supported"])
    first, version = data.byte(), data.take(4)
    ids = [data.take(data.byte()) for _ in range(2)]
    if first < 0x80 or version == bytes(4) or not versions or bytes(4) in versions:
        raise Rejected(DROP)
    out = bytes([0x80 | int(context["unused"], 16)]) + bytes(4)
    return (out + b"".join(bytes([len(cid)]) + cid for cid in reversed(ids)) + b"".join(versions)).hex()
