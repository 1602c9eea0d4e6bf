"""The QUIC packets of a capture file, opened with the keys that there are, with their frames.

Initial packets are opened with keys from the ids that they carry, others with the secrets of a key log file; both need
the package `cryptography`. A flow counts as QUIC from its first datagram on that begins with a long header of version
0, 1, 2 or a reserved one (RFC 9000, section 15).

    for captured in packets("file.pcap", KeyLog.open("keys.log")):
        print(captured.packet, captured.frames)
"""

from __future__ import annotations

from collections.abc import Iterator
from dataclasses import dataclass
from typing import BinaryIO, Optional, Union

from . import pcap
from ._tls import Handshake as TlsHandshake
from ._wire import Crypto, Frame, Packet, read_frames, read_packet
from .checks import Checks
from .errors import Error, FrameError, PacketError
from .keylog import KeyLog, Label
from .packets import PacketType, Version
from .parameters import Side
from .pcap import CaptureError, Datagram
from .protection import Opened, open_packet

try:
    from . import ciphers
except ImportError:  # without the package cryptography no packet is opened
    ciphers = None  # type: ignore[assignment]

__all__ = ["CaptureError", "Captured", "KeyLog", "packets"]

_VERSIONS = (Version.V1, Version.V2)
_RESERVED_MASK, _RESERVED = 0x0F0F0F0F, 0x0A0A0A0A
_LONG, _KEY_PHASE = 0x80, 0x04
_LEAST_LONG = 7  # bytes of a long header
_NUMBER_END = 1 << 62
# The number space of each type of packet that has one (RFC 9000, section 12.3), and the secrets that it needs.
_SPACES = {PacketType.INITIAL: 0, PacketType.HANDSHAKE: 1, PacketType.ZERO_RTT: 2, PacketType.ONE_RTT: 2}
_LABELS = {
    (PacketType.ZERO_RTT, Side.CLIENT): Label.CLIENT_EARLY,
    (PacketType.HANDSHAKE, Side.CLIENT): Label.CLIENT_HANDSHAKE,
    (PacketType.HANDSHAKE, Side.SERVER): Label.SERVER_HANDSHAKE,
    (PacketType.ONE_RTT, Side.CLIENT): Label.CLIENT_1RTT,
    (PacketType.ONE_RTT, Side.SERVER): Label.SERVER_1RTT,
}


@dataclass(frozen=True, slots=True)
class Captured:
    """A packet of a capture, or the rest of a datagram that can't be cut into packets.

    - datagram: the UDP datagram.
    - sender: the side that sent it.
    - packet: the packet with its protection; None for a rest.
    - opened: the packet without its protection; None if it has none or no keys open it.
    - frames: the frames of an opened packet, up to an invalid one; None if it isn't opened.
    - error: the first rule that the packet breaks, by the argument `checks` of `packets`.
    - why: why the packet isn't read or opened, or that its reserved bits are set, in English.
    - rest: how many bytes a rest has.
    """

    datagram: Datagram
    sender: Side
    packet: Optional[Packet]
    opened: Optional[Opened] = None
    frames: Optional[tuple[Frame, ...]] = None
    error: Optional[Error] = None
    why: Optional[str] = None
    rest: int = 0


class _PhaseKeys:
    """The keys of 1-RTT packets from a side, which change with the key phase (RFC 9001, section 6)."""

    tag_len = 16

    def __init__(self, keys: ciphers.PacketKeys) -> None:
        self.keys, self.phase = keys, 0
        self.before: Optional[ciphers.PacketKeys] = None

    def mask(self, sample: bytes) -> bytes:
        return self.keys.mask(sample)

    def open(self, number: int, header: bytes, payload: bytes) -> bytes:
        if header[0] & _KEY_PHASE == self.phase:
            return self.keys.open(number, header, payload)
        if self.before is not None:
            try:
                return self.before.open(number, header, payload)
            except ciphers.NotAuthentic:
                pass
        after = self.keys.updated()
        opened = after.open(number, header, payload)
        self.before, self.keys, self.phase = self.keys, after, header[0] & _KEY_PHASE
        return opened

    def seal(self, number: int, header: bytes, payload: bytes) -> bytes:
        raise NotImplementedError("packets of captures are opened only")


class _Endpoint:
    """What is kept about a side."""

    __slots__ = ("address", "cid_len", "expected", "keys", "tls")

    def __init__(self, address: pcap.Endpoint) -> None:
        self.address = address
        self.cid_len: Optional[int] = None  # once a long header gave the length of its ids
        self.expected = [0, 0, 0]  # the next packet number of each space
        self.keys: dict[tuple[PacketType, int], Union[_PhaseKeys, ciphers.PacketKeys]] = {}
        self.tls = TlsHandshake()


class _Flow:
    """The datagrams between two endpoints."""

    __slots__ = ("ends", "initial_id", "version", "keylog", "checks")

    def __init__(self, first: Datagram, keylog: Optional[KeyLog], checks: Checks) -> None:
        self.ends = [_Endpoint(first.source), _Endpoint(first.destination)]
        self.initial_id: Optional[bytes] = None  # the keys of Initial packets come from this id
        self.version: int = Version.V1
        self.keylog = keylog
        self.checks = checks

    def sender(self, datagram: Datagram) -> Side:
        return Side.CLIENT if datagram.source == self.ends[Side.CLIENT].address else Side.SERVER

    def open(self, packet: Packet, sender: Side) -> tuple[Optional[Opened], Side, Optional[str]]:
        """An opened packet; the side that sent it, which its keys may show; why it isn't opened."""
        kind = PacketType(packet.kind)
        if ciphers is None:
            return None, sender, "the package cryptography isn't there"
        if kind == PacketType.INITIAL:
            return self._open_initial(packet, sender)
        opened, why = self._open_by_keylog(packet, kind, sender)
        return opened, sender, why

    def _open_by(self, keys: Union[_PhaseKeys, ciphers.PacketKeys], packet: Packet, sender: Side) -> Opened:
        space = _SPACES[PacketType(packet.kind)]
        end = self.ends[sender]
        opened = open_packet(packet, keys, end.expected[space])
        if opened.number >= _NUMBER_END:
            raise ciphers.NotAuthentic("the tag is wrong")
        if end.expected[space] <= opened.number < _NUMBER_END - 1:
            end.expected[space] = opened.number + 1
        return opened

    def _open_initial(self, packet: Packet, sender: Side) -> tuple[Optional[Opened], Side, Optional[str]]:
        """With the keys of the flow, or else with those of its own id: then it is a client's first one, or its first
        one after a Retry, and the keys are the flow's from there on."""
        why = "no first Initial packet of the client"
        if self.initial_id is not None:
            try:
                keys = ciphers.initial_keys(packet.version, self.initial_id)[sender]
                return self._open_by(keys, packet, sender), sender, None
            except (ciphers.NotAuthentic, PacketError) as fault:
                why = fault.reason if isinstance(fault, PacketError) else str(fault)
        expected, self.ends[sender].expected = self.ends[sender].expected, [0, 0, 0]
        try:
            opened = self._open_by(ciphers.initial_keys(packet.version, packet.dcid)[Side.CLIENT], packet, sender)
        except (ciphers.NotAuthentic, PacketError):
            self.ends[sender].expected = expected
            return None, sender, why
        self.ends = [self.ends[sender], self.ends[1 - sender]]
        self.ends[Side.SERVER].expected = [0, 0, 0]
        self.initial_id = packet.dcid
        return opened, Side.CLIENT, None

    def _open_by_keylog(self, packet: Packet, kind: PacketType, sender: Side) -> tuple[Optional[Opened], Optional[str]]:
        if self.keylog is None:
            return None, None
        for keys in self._candidates(packet, kind, sender):
            try:
                opened = self._open_by(keys, packet, sender)
            except (ciphers.NotAuthentic, PacketError):
                continue
            self.ends[sender].keys[kind, self._version_of(packet)] = keys
            return opened, None
        return None, "no keys open it"

    def _version_of(self, packet: Packet) -> int:
        return self.version if packet.kind == PacketType.ONE_RTT else packet.version

    def _candidates(
        self, packet: Packet, kind: PacketType, sender: Side
    ) -> Iterator[Union[_PhaseKeys, ciphers.PacketKeys]]:
        """The keys that may open a packet: those that opened earlier ones, else those of the key log."""
        version = self._version_of(packet)
        known = self.ends[sender].keys.get((kind, version))
        if known is not None:
            yield known
            return
        random, label = self.ends[Side.CLIENT].tls.client_random, _LABELS.get((kind, sender))
        secret = self.keylog.secret(random, label) if self.keylog and random and label else None
        chosen = self.ends[Side.SERVER].tls.suite
        for number, suite in ciphers.SUITES.items():
            fits = secret is not None and len(secret) == (48 if suite.hash == "sha384" else 32)
            if secret is not None and fits and chosen in (None, number):
                keys = ciphers.PacketKeys.of(secret, suite, version)
                yield _PhaseKeys(keys) if kind == PacketType.ONE_RTT else keys

    def learn(self, packet: Packet, sender: Side, frames: tuple[Frame, ...]) -> None:
        """Keeps what later packets are opened with."""
        if packet.kind <= PacketType.RETRY:  # a long header, which has its sender's id
            self.ends[sender].cid_len = len(packet.scid)
            if packet.kind != PacketType.RETRY:
                self.version = packet.version
        if packet.kind == PacketType.INITIAL:
            if sender == Side.CLIENT and self.initial_id is None:
                self.initial_id = packet.dcid
            for frame in frames:
                if isinstance(frame, Crypto):
                    self.ends[sender].tls.take(frame)


def _is_first(data: memoryview) -> bool:
    """Whether a datagram begins a QUIC flow."""
    if len(data) < _LEAST_LONG or not data[0] & _LONG:
        return False
    version = int.from_bytes(data[1:5], "big")
    return version in (0, *_VERSIONS) or version & _RESERVED_MASK == _RESERVED


def _frames(payload: bytes, checks: Checks) -> tuple[tuple[Frame, ...], Optional[FrameError]]:
    try:
        return tuple(read_frames(payload, checks=checks)), None
    except FrameError as error:
        return tuple(error.frames or ()), error


def _read(
    data: memoryview, at: int, cid_len: Optional[int], checks: Checks
) -> tuple[Optional[Packet], Optional[Error], Optional[str]]:
    """The packet that begins there, what is wrong with it, and why there is none or it isn't opened."""
    if cid_len is None and not data[at] & _LONG:
        return None, None, "the length of its id isn't known"
    try:
        packet = read_packet(data, cid_len or 0, at, _VERSIONS, checks=checks | Checks.GREASED_BIT)
    except PacketError as error:
        return error.packet, error, error.reason
    return packet, None, "unsupported version" if packet.kind == PacketType.UNKNOWN_VERSION else None


def _captured(flow: _Flow, datagram: Datagram, sender: Side, packet: Packet) -> Captured:
    """A whole packet, opened if there are keys."""
    if packet.number_at is None:
        return Captured(datagram, sender, packet)
    opened, sender, why = flow.open(packet, sender)
    if opened is None:
        return Captured(datagram, sender, packet, why=why)
    frames, error = _frames(opened.payload, flow.checks)
    why = None if opened.reserved_bits_are_zero else "reserved bits are set"
    return Captured(datagram, sender, packet, opened, frames, error, why)


def _packets(flow: _Flow, datagram: Datagram, sender: Side) -> Iterator[Captured]:
    """The packets of a datagram, which have one id (RFC 9000, section 12.2)."""
    data, at = datagram.data, 0
    cid_len = flow.ends[1 - sender].cid_len
    first_id: Optional[bytes] = None
    while at < len(data):
        packet, error, why = _read(data, at, cid_len, flow.checks)
        if packet is not None and first_id is not None and packet.dcid != first_id:
            packet, error, why = None, None, "no packet with the id of the first one"
        if packet is None:
            yield Captured(datagram, sender, None, error=error, why=why, rest=len(data) - at)
            return
        if why is None:
            captured = _captured(flow, datagram, sender, packet)
        else:
            captured = Captured(datagram, sender, packet, error=error, why=why)
        sender = captured.sender
        yield captured
        flow.learn(packet, sender, captured.frames or ())
        first_id, cid_len, at = packet.dcid, len(packet.dcid), packet.end


def packets(
    file: Union[pcap.Path, BinaryIO], keylog: Optional[KeyLog] = None, *, checks: Checks = Checks.QUINN
) -> Iterator[Captured]:
    """The QUIC packets of a capture file, pcap or pcapng, in its order.

    checks says by which rules packets and frames are read. The fixed bit may be clear in any case, since a capture
    needn't show whether that was negotiated. Not checked are which packets may carry a frame, which side may send it
    (`check_permitted`), and transport parameters.

    Raises CaptureError if the file isn't a capture, and, after the packets before it, at a record that is invalid or
    within which the file is cut off; and OSError.
    """
    flows: dict[frozenset[pcap.Endpoint], _Flow] = {}
    for datagram in pcap.datagrams(file):
        key = frozenset((datagram.source, datagram.destination))
        if key not in flows:
            if not _is_first(datagram.data):
                continue
            flows[key] = _Flow(datagram, keylog, checks)
        flow = flows[key]
        yield from _packets(flow, datagram, flow.sender(datagram))
