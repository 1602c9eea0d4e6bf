"""The ciphers and key schedule of RFC 9001, in plain and therefore slow Python: enough to work its examples.

AES-128 by FIPS 197, GCM by NIST SP 800-38D, ChaCha20 and Poly1305 by RFC 8439, HKDF by RFC 5869."""
import hashlib
import hmac

SALTS = {"00000001": "38762cf7f55934b34d179ae6a4c80cadccbb7f0a", "6b3343cf": "0dede3def700a6db819381be6e269dcbf9bd2ed9"}
LABELS = {"00000001": "quic ", "6b3343cf": "quicv2 "}
RETRY_KEYS = {
    "00000001": ("be0c690b9f66575a1d766b54e368c84e", "461599d35d632bf2239825bb"),
    "6b3343cf": ("8fb4b01b56ac48e260fbcbcead7ccc92", "d86969bc2d7c6d9990efb04a"),
}
KEY_SIZES = {"aes128": 16, "chacha20": 32}
TAG = 16
SAMPLE_AFTER = 4
PRIME = (1 << 130) - 5
GCM_POLYNOMIAL = 0xE1 << 120


class NotAuthentic(Exception):
    """The tag of a packet doesn't fit its bytes."""


def doubled(byte):
    return (byte << 1) ^ (0x11B if byte & 0x80 else 0)


def substitutions():
    """The S-box of AES: inverses in the field, then an affine map."""
    box, p, q = [0x63] * 256, 1, 1
    while True:
        p ^= doubled(p)
        q ^= q << 1
        q ^= q << 2
        q ^= q << 4
        q = (q ^ (0x09 if q & 0x80 else 0)) & 0xFF
        turned = q
        for shift in range(1, 5):
            turned ^= (q << shift | q >> 8 - shift) & 0xFF
        box[p] = turned ^ 0x63
        if p == 1:
            return box


BOX = substitutions()


def round_keys(key):
    words, constant = [list(key[i : i + 4]) for i in range(0, 16, 4)], 1
    for i in range(4, 44):
        word = words[-1]
        if i % 4 == 0:
            word = [BOX[byte] for byte in word[1:] + word[:1]]
            word[0] ^= constant
            constant = doubled(constant)
        words.append([a ^ b for a, b in zip(words[i - 4], word)])
    return [sum(words[i : i + 4], []) for i in range(0, 44, 4)]


def mixed(column):
    every = column[0] ^ column[1] ^ column[2] ^ column[3]
    return [column[i] ^ every ^ doubled(column[i] ^ column[(i + 1) % 4]) for i in range(4)]


def aes(key, block):
    """A block under AES-128."""
    keys = round_keys(key)
    state = [a ^ b for a, b in zip(block, keys[0])]
    for number in range(1, 11):
        state = [BOX[state[(i + 4 * (i % 4)) % 16]] for i in range(16)]
        if number < 10:
            state = sum((mixed(state[i : i + 4]) for i in range(0, 16, 4)), [])
        state = [a ^ b for a, b in zip(state, keys[number])]
    return bytes(state)


def xored(data, stream):
    return bytes(a ^ b for a, b in zip(data, stream))


def padded(data):
    return data + bytes(-len(data) % 16)


def field_product(x, y):
    """The product in the field of GCM."""
    product = 0
    for bit in range(127, -1, -1):
        product ^= y if x >> bit & 1 else 0
        y = y >> 1 ^ (GCM_POLYNOMIAL if y & 1 else 0)
    return product


def gcm(key, nonce, data, associated, is_sealed):
    """Data under AES-128-GCM, or what is under it, and their tag."""
    blocks = range(2, len(data) // 16 + 3)
    out = xored(data, b"".join(aes(key, nonce + i.to_bytes(4, "big")) for i in blocks))
    hashed = padded(associated) + padded(data if is_sealed else out)
    hashed += (8 * len(associated)).to_bytes(8, "big") + (8 * len(data)).to_bytes(8, "big")
    hash_key, value = int.from_bytes(aes(key, bytes(16)), "big"), 0
    for i in range(0, len(hashed), 16):
        value = field_product(value ^ int.from_bytes(hashed[i : i + 16], "big"), hash_key)
    return out, xored(value.to_bytes(16, "big"), aes(key, nonce + (1).to_bytes(4, "big")))


def quarter_round(x, a, b, c, d):
    for one, two, three, shift in ((a, b, d, 16), (c, d, b, 12), (a, b, d, 8), (c, d, b, 7)):
        x[one] = x[one] + x[two] & 0xFFFFFFFF
        turned = x[three] ^ x[one]
        x[three] = (turned << shift | turned >> 32 - shift) & 0xFFFFFFFF


def chacha20(key, counter, nonce):
    """A block of the key stream; |counter| has four bytes."""
    text = b"expand 32-byte k" + key + counter + nonce
    start = [int.from_bytes(text[i : i + 4], "little") for i in range(0, 64, 4)]
    x = list(start)
    for _ in range(10):
        for i in range(4):
            quarter_round(x, i, 4 + i, 8 + i, 12 + i)
        for i in range(4):
            quarter_round(x, i, 4 + (i + 1) % 4, 8 + (i + 2) % 4, 12 + (i + 3) % 4)
    return b"".join((a + b & 0xFFFFFFFF).to_bytes(4, "little") for a, b in zip(x, start))


def poly1305(key, data):
    clamp = 0x0FFFFFFC0FFFFFFC0FFFFFFC0FFFFFFF
    factor, value = int.from_bytes(key[:16], "little") & clamp, 0
    for i in range(0, len(data), 16):
        value = (value + int.from_bytes(data[i : i + 16] + b"\x01", "little")) * factor % PRIME
    return (value + int.from_bytes(key[16:], "little") & (1 << 128) - 1).to_bytes(16, "little")


def chacha20_poly1305(key, nonce, data, associated, is_sealed):
    blocks = range(1, len(data) // 64 + 2)
    out = xored(data, b"".join(chacha20(key, i.to_bytes(4, "little"), nonce) for i in blocks))
    hashed = padded(associated) + padded(data if is_sealed else out)
    hashed += len(associated).to_bytes(8, "little") + len(data).to_bytes(8, "little")
    return out, poly1305(chacha20(key, bytes(4), nonce)[:32], hashed)


AEADS = {"aes128": gcm, "chacha20": chacha20_poly1305}


def expanded(secret, label, size):
    """HKDF-Expand-Label with an empty context (RFC 8446, section 7.1), of at most 32 bytes."""
    label = b"tls13 " + label.encode()
    info = size.to_bytes(2, "big") + bytes([len(label)]) + label + b"\x00\x01"
    return hmac.new(secret, info, hashlib.sha256).digest()[:size]


def keys(secret, version, cipher):
    """Key, IV and header protection key (RFC 9001, section 5.1)."""
    size = KEY_SIZES[cipher]
    return [expanded(secret, LABELS[version] + name, n) for name, n in (("key", size), ("iv", 12), ("hp", size))]


def initial_secret(version, dcid, side):
    """The secret of Initial packets from a side (RFC 9001, section 5.2)."""
    extracted = hmac.new(bytes.fromhex(SALTS[version]), dcid, hashlib.sha256).digest()
    return expanded(extracted, f"{side} in", 32)


def header_mask(cipher, key, sample):
    """The five bytes of mask (RFC 9001, sections 5.4.3 and 5.4.4)."""
    return (aes(key, sample) if cipher == "aes128" else chacha20(key, sample[:4], sample[4:]))[:5]


def sealed(cipher, key, nonce, data, associated):
    out, tag = AEADS[cipher](key, nonce, data, associated, False)
    return out + tag


def opened(cipher, key, nonce, data, associated):
    out, tag = AEADS[cipher](key, nonce, data[:-TAG], associated, True)
    if tag != data[-TAG:]:
        raise NotAuthentic
    return out


def nonce_of(iv, number):
    return xored(iv, number.to_bytes(12, "big"))


def protected(packet, place, length, mask):
    """A packet with the bits of its header flipped that the mask hides."""
    out = bytearray(packet)
    out[0] ^= mask[0] & (0x0F if packet[0] & 0x80 else 0x1F)
    for i in range(length):
        out[place + i] ^= mask[1 + i]
    return bytes(out)


def seal_packet(header, number, payload, secret, version, cipher):
    """A packet, protected; |header| ends with its packet number."""
    key, iv, hp = keys(secret, version, cipher)
    length = (header[0] & 3) + 1
    packet = header + sealed(cipher, key, nonce_of(iv, number), payload, header)
    place = len(header) - length
    sample = packet[place + SAMPLE_AFTER :][:16]
    return protected(packet, place, length, header_mask(cipher, hp, sample))


def open_packet(packet, place, number, secret, version, cipher):
    """The header and payload of a packet whose number begins at |place|; |number| is what it must be."""
    key, iv, hp = keys(secret, version, cipher)
    mask = header_mask(cipher, hp, packet[place + SAMPLE_AFTER :][:16])
    first = packet[0] ^ mask[0] & (0x0F if packet[0] & 0x80 else 0x1F)
    length = (first & 3) + 1
    packet = protected(packet, place, length, mask)
    header = packet[: place + length]
    return header, opened(cipher, key, nonce_of(iv, number), packet[place + length :], header)


def retry_tag(version, odcid, packet):
    """The integrity tag of a Retry without it (RFC 9001, section 5.8)."""
    key, nonce = (bytes.fromhex(text) for text in RETRY_KEYS[version])
    return sealed("aes128", key, nonce, b"", bytes([len(odcid)]) + odcid + packet)


def call(form, context, data):
    """The answer for a line of tests."""
    given = {name: bytes.fromhex(context.get(name, "")) for name in ("dcid", "secret", "hp", "header", "odcid")}
    version, cipher = context.get("version"), context.get("cipher")
    number, place = int(context.get("number", 0)), int(context.get("place", 0))
    if form == "initial-keys":
        secret = initial_secret(version, given["dcid"], context["side"])
        return " ".join(one.hex() for one in [secret, *keys(secret, version, "aes128")])
    if form == "keys":
        update = expanded(given["secret"], LABELS[version] + "ku", 32)
        return " ".join(one.hex() for one in [*keys(given["secret"], version, cipher), update])
    if form == "mask":
        return header_mask(cipher, given["hp"], data).hex()
    if form == "packet-seal":
        return seal_packet(given["header"], number, data, given["secret"], version, cipher).hex()
    if form == "packet-open":
        return " ".join(one.hex() for one in open_packet(data, place, number, given["secret"], version, cipher))
    return retry_tag(version, given["odcid"], data).hex()


CALLS = {"initial-keys", "keys", "mask", "packet-seal", "packet-open", "retry-tag"}
