"""Packets opened and sealed with a cipher that the caller hands in (RFC 9001, sections 5.3 and 5.4).

>>> from quic_wire import PacketType, read_packet
>>> class NoCipher:
...     tag_len = 16
...     def mask(self, sample: bytes) -> bytes:
...         return bytes(5)
...     def open(self, number: int, header: bytes, payload: bytes) -> bytes:
...         return payload[:-16]
...     def seal(self, number: int, header: bytes, payload: bytes) -> bytes:
...         return payload + bytes(16)
>>> sealed = seal_packet(PacketType.HANDSHAKE, b"\\x01", NoCipher(), dcid=b"12", number=7, number_len=1)
>>> opened = open_packet(read_packet(sealed, 0), NoCipher())
>>> opened.number, opened.payload
(7, b'\\x01\\x00\\x00')
"""

from __future__ import annotations

from dataclasses import dataclass
from typing import Protocol

from ._types import Buffer
from ._wire import Packet, protect, set_length, unprotect, write_header
from .errors import _packet_small
from .packets import PacketType

__all__ = ["Keys", "Opened", "open_packet", "seal_packet"]

_SAMPLE_LEN = 16
_SAMPLE_AFTER = 4  # bytes from where the packet number begins
_LONG = 0x80
_RESERVED_LONG, _RESERVED_SHORT = 0x0C, 0x18
_KEY_PHASE = 0x04


class Keys(Protocol):
    """What protects the packets that a side sends at one encryption level."""

    @property
    def tag_len(self) -> int:
        """How many bytes longer than its payload a sealed one is."""

    def mask(self, sample: bytes) -> bytes:
        """The mask of a header, 5 bytes or more, from a sample of 16."""

    def open(self, number: int, header: bytes, payload: bytes) -> bytes:
        """The plaintext of a payload. Raises an exception if it isn't authentic."""

    def seal(self, number: int, header: bytes, payload: bytes) -> bytes:
        """The payload, sealed, with its tag."""


@dataclass(frozen=True, slots=True)
class Opened:
    """A packet without its protection.

    - packet: the packet with its protection. Its offsets count from its datagram.
    - number: its packet number.
    - header: the header without its protection, up to the end of the packet number.
    - payload: the plaintext. Offsets of what is read from it count from it.
    """

    packet: Packet
    number: int
    header: bytes
    payload: bytes

    @property
    def payload_at(self) -> int:
        """Where the protected payload begins in the datagram, behind the header."""
        return self.packet.begin + len(self.header)

    @property
    def key_phase(self) -> bool:
        """The key phase of a 1-RTT packet."""
        return not self.header[0] & _LONG and bool(self.header[0] & _KEY_PHASE)

    @property
    def reserved_bits_are_zero(self) -> bool:
        """Whether the reserved bits are 0; if not, it is a PROTOCOL_VIOLATION (RFC 9000, sections 17.2 and 17.3.1)."""
        return not self.header[0] & (_RESERVED_LONG if self.header[0] & _LONG else _RESERVED_SHORT)


def open_header(packet: Packet, mask: Buffer, expected: int = 0) -> tuple[int, bytes]:
    """The packet number and the header without its protection."""
    if packet.number_at is None:
        raise ValueError("a packet of this type has no protection")
    return unprotect(packet.data, packet.number_at - packet.begin, mask, expected)


def open_packet(packet: Packet, keys: Keys, expected: int = 0) -> Opened:
    """An opened packet. expected is the packet number that comes next in its number space (RFC 9000, appendix A.3).

    Raises PacketError if the packet is too short. If it isn't authentic, the exception of `keys.open` passes through.
    The packet itself doesn't change.
    """
    sample = packet.sample(_SAMPLE_LEN)
    if sample is None:
        raise _packet_small(packet.begin)
    number, header = open_header(packet, keys.mask(bytes(sample)), expected)
    payload = keys.open(number, header, bytes(packet.data[len(header) :]))
    return Opened(packet, number, header, payload)


def seal_packet(
    packet_type: PacketType,
    payload: Buffer,
    keys: Keys,
    *,
    dcid: Buffer = b"",
    scid: Buffer = b"",
    token: Buffer = b"",
    version: int = 1,
    number: int = 0,
    number_len: int = 4,
    length_len: int = 2,
    spin: bool = False,
    key_phase: bool = False,
    fixed_bit: bool = True,
) -> bytes:
    """A packet sealed with keys. A payload that is too short for a sample is padded (RFC 9001, section 5.4.2).

    The arguments after keys are those of write_header. Raises ValueError for a Retry or Version Negotiation, which have
    no protection, and for a token of a packet that has none.
    """
    if packet_type in (PacketType.RETRY, PacketType.VERSION_NEGOTIATION):
        raise ValueError("packet_type must be INITIAL, ZERO_RTT, HANDSHAKE or ONE_RTT: others have no protection")
    if packet_type != PacketType.INITIAL and len(memoryview(token)):
        raise ValueError("token: only an Initial packet has one")
    header = write_header(
        packet_type, dcid, scid, token, version=version, number=number, number_len=number_len, length_len=length_len,
        spin=spin, key_phase=key_phase, fixed_bit=fixed_bit,
    )  # fmt: skip
    number_at = len(header) - number_len
    plain = bytes(memoryview(payload))
    plain += bytes(max(0, _SAMPLE_AFTER + _SAMPLE_LEN - number_len - keys.tag_len - len(plain)))
    packet = bytearray(header + bytes(len(plain) + keys.tag_len))
    if packet_type != PacketType.ONE_RTT:
        set_length(packet, number_at, length_len)
    packet[len(header) :] = keys.seal(number, bytes(packet[: len(header)]), plain)
    sample_at = number_at + _SAMPLE_AFTER
    protect(packet, number_at, keys.mask(bytes(packet[sample_at : sample_at + _SAMPLE_LEN])))
    return bytes(packet)
