"""The ciphers of QUIC by the package `cryptography`, which must be installed (RFC 9001, section 5).

>>> client, server = initial_keys(1, bytes.fromhex("8394c8f03e515708"))
>>> client.key.hex(), client.iv.hex()
('1f369613dd76d5467730efcbe3b1a22d', 'fa044b2f42a3fd3b46fb255c')
"""

from __future__ import annotations

import hashlib
import hmac
from dataclasses import dataclass, field
from typing import Union

from cryptography.exceptions import InvalidTag
from cryptography.hazmat.primitives.ciphers import Cipher, algorithms, modes
from cryptography.hazmat.primitives.ciphers.aead import AESGCM, ChaCha20Poly1305

from ._types import Buffer
from .packets import Version

__all__ = ["NotAuthentic", "PacketKeys", "SUITES", "Suite", "initial_keys", "retry_integrity_tag"]

_SALTS = {
    Version.V1: bytes.fromhex("38762cf7f55934b34d179ae6a4c80cadccbb7f0a"),
    Version.V2: bytes.fromhex("0dede3def700a6db819381be6e269dcbf9bd2ed9"),
}
_LABELS = {Version.V1: "quic ", Version.V2: "quicv2 "}
_RETRY_KEYS = {
    Version.V1: ("be0c690b9f66575a1d766b54e368c84e", "461599d35d632bf2239825bb"),
    Version.V2: ("8fb4b01b56ac48e260fbcbcead7ccc92", "d86969bc2d7c6d9990efb04a"),
}
_IV_LEN = 12


class NotAuthentic(ValueError):
    """The tag of a packet doesn't fit its bytes."""


@dataclass(frozen=True, slots=True)
class Suite:
    """A cipher suite of TLS 1.3, by the algorithms that protect its packets."""

    name: str
    aead: Union[type[AESGCM], type[ChaCha20Poly1305]]
    key_len: int
    hash: str


SUITES = {
    0x1301: Suite("TLS_AES_128_GCM_SHA256", AESGCM, 16, "sha256"),
    0x1302: Suite("TLS_AES_256_GCM_SHA384", AESGCM, 32, "sha384"),
    0x1303: Suite("TLS_CHACHA20_POLY1305_SHA256", ChaCha20Poly1305, 32, "sha256"),
}
_INITIAL_SUITE = SUITES[0x1301]


def expand_label(secret: bytes, label: str, length: int, hash_name: str) -> bytes:
    """HKDF-Expand-Label with an empty context (RFC 8446, section 7.1), of one block of the hash."""
    name = b"tls13 " + label.encode("ascii")
    info = length.to_bytes(2, "big") + bytes([len(name)]) + name + b"\x00\x01"
    return hmac.new(secret, info, hash_name).digest()[:length]


@dataclass(frozen=True, slots=True)
class PacketKeys:
    """The keys of the packets that a side sends, made from its secret, for quic_wire.protection."""

    secret: bytes = field(repr=False)
    suite: Suite
    version: int
    key: bytes = field(repr=False)
    iv: bytes = field(repr=False)
    hp: bytes = field(repr=False)
    _aead: Union[AESGCM, ChaCha20Poly1305] = field(repr=False, compare=False)
    tag_len: int = 16

    @classmethod
    def of(cls, secret: bytes, suite: Suite, version: int = Version.V1) -> PacketKeys:
        """The keys from a secret (RFC 9001, section 5.1)."""
        label = _LABELS[Version(version)]
        hp = expand_label(secret, label + "hp", suite.key_len, suite.hash)
        return cls._with(secret, suite, version, hp)

    @classmethod
    def _with(cls, secret: bytes, suite: Suite, version: int, hp: bytes) -> PacketKeys:
        label = _LABELS[Version(version)]
        key = expand_label(secret, label + "key", suite.key_len, suite.hash)
        iv = expand_label(secret, label + "iv", _IV_LEN, suite.hash)
        return cls(secret, suite, version, key, iv, hp, suite.aead(key))

    def updated(self) -> PacketKeys:
        """The keys after a key update (RFC 9001, section 6.1), which keep the key of header protection."""
        label = _LABELS[Version(self.version)] + "ku"
        secret = expand_label(self.secret, label, len(self.secret), self.suite.hash)
        return PacketKeys._with(secret, self.suite, self.version, self.hp)

    def mask(self, sample: bytes) -> bytes:
        """The mask of a header (RFC 9001, sections 5.4.3 and 5.4.4)."""
        if self.suite.aead is AESGCM:
            return Cipher(algorithms.AES(self.hp), modes.ECB()).encryptor().update(sample)
        return Cipher(algorithms.ChaCha20(self.hp, sample), None).encryptor().update(bytes(5))

    def _nonce(self, number: int) -> bytes:
        return (int.from_bytes(self.iv, "big") ^ number).to_bytes(_IV_LEN, "big")

    def open(self, number: int, header: bytes, payload: bytes) -> bytes:
        """The plaintext of a payload. Raises NotAuthentic."""
        try:
            return self._aead.decrypt(self._nonce(number), payload, header)
        except InvalidTag:
            raise NotAuthentic("the tag is wrong") from None

    def seal(self, number: int, header: bytes, payload: bytes) -> bytes:
        """The payload, sealed, with its tag."""
        return self._aead.encrypt(self._nonce(number), payload, header)


def initial_keys(version: int, dcid: Buffer) -> tuple[PacketKeys, PacketKeys]:
    """The keys of Initial packets of the client and of the server.

    They are made from the Destination Connection ID of the client's first Initial packet (RFC 9001, section 5.2;
    RFC 9369, section 3.3.1). Raises ValueError for a version that isn't 1 or 2, also for a draft that is read.
    """
    initial = hmac.new(_SALTS[Version(version)], bytes(memoryview(dcid)), hashlib.sha256).digest()
    secrets = (expand_label(initial, f"{side} in", 32, "sha256") for side in ("client", "server"))
    client, server = (PacketKeys.of(secret, _INITIAL_SUITE, version) for secret in secrets)
    return client, server


def retry_integrity_tag(version: int, original_dcid: Buffer, retry: Buffer) -> bytes:
    """The tag of a Retry packet, which is passed without one (RFC 9001, section 5.8). Raises ValueError for a version
    that isn't 1 or 2."""
    key, nonce = (bytes.fromhex(text) for text in _RETRY_KEYS[Version(version)])
    original = bytes(memoryview(original_dcid))
    pseudo = bytes([len(original)]) + original + bytes(memoryview(retry))
    return AESGCM(key).encrypt(nonce, b"", pseudo)
