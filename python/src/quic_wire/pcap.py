"""The UDP datagrams of capture files, pcap and pcapng.

Links are Ethernet with its VLAN tags, Linux cooked captures, raw IP and loopback; with IPv4, and IPv6 without extension
headers. Of a fragmented datagram only the first fragment is returned.
"""

from __future__ import annotations

import ipaddress
import os
import struct
from collections.abc import Iterator
from dataclasses import dataclass
from typing import BinaryIO, NamedTuple, Optional, Union

__all__ = ["CaptureError", "Datagram", "Endpoint", "datagrams"]

Path = Union[str, os.PathLike[str]]


class CaptureError(ValueError):
    """A file isn't a capture that can be read here, or is cut off within a record."""


class Endpoint(NamedTuple):
    """An address with its port."""

    address: bytes
    port: int

    def __str__(self) -> str:
        host = ipaddress.ip_address(self.address)
        return f"[{host}]:{self.port}" if host.version == 6 else f"{host}:{self.port}"


@dataclass(frozen=True, slots=True)
class Datagram:
    """A UDP datagram of a capture.

    - frame: its number in the capture, from 1 on.
    - time: when it was captured, in seconds since 1970; 0 if the file doesn't say.
    - source, destination: the addresses with their ports.
    - data: its bytes.
    - lost: how many bytes the capture lacks.
    """

    frame: int
    time: float
    source: Endpoint
    destination: Endpoint
    data: memoryview
    lost: int = 0


class _Record(NamedTuple):
    link: int
    time: float
    data: memoryview


# For each kind of link where the EtherType is, None if there is none, and where the IP packet begins.
_LINKS: dict[int, tuple[Optional[int], int]] = {
    0: (None, 4), 1: (12, 14), 12: (None, 0), 101: (None, 0), 108: (None, 4), 113: (14, 16), 228: (None, 0),
    229: (None, 0), 276: (0, 20),
}  # fmt: skip
_IP_TYPES = (0x0800, 0x86DD)
_VLAN_TYPES = (0x8100, 0x88A8)
_UDP = 17
_PCAP_ORDERS = {b"\xd4\xc3\xb2\xa1": ("<", 1e-6), b"\x4d\x3c\xb2\xa1": ("<", 1e-9),
                b"\xa1\xb2\xc3\xd4": (">", 1e-6), b"\xa1\xb2\x3c\x4d": (">", 1e-9)}  # fmt: skip
_SECTION, _INTERFACE, _SIMPLE, _ENHANCED = 0x0A0D0D0A, 1, 3, 6
_PIECE = 1 << 20  # bytes
_TIME_RESOLUTION = 9  # an option of an interface


def _exactly(file: BinaryIO, count: int) -> Optional[bytes]:
    """The next bytes, or None at the end of the file. It asks for a piece at a time, as a file may promise any count."""
    pieces: list[bytes] = []
    while count and (piece := file.read(min(count, _PIECE))):
        pieces.append(piece)
        count -= len(piece)
    if pieces and count:
        raise CaptureError("the file is cut off")
    return b"".join(pieces) or None


def _rest(file: BinaryIO, count: int) -> bytes:
    """The next bytes of what has begun."""
    data = _exactly(file, count) if count else b""
    if data is None:
        raise CaptureError("the file is cut off")
    return data


def _pcap(file: BinaryIO, magic: bytes) -> Iterator[_Record]:
    order, unit = _PCAP_ORDERS[magic]
    header = _rest(file, 20)
    link = struct.unpack(order + "I", header[16:])[0] & 0xFFFF
    while (record := _exactly(file, 16)) is not None:
        seconds, parts, count, _ = struct.unpack(order + "IIII", record)
        yield _Record(link, seconds + parts * unit, memoryview(_rest(file, count)))


def _options(order: str, data: bytes) -> Iterator[tuple[int, bytes]]:
    at = 0
    while at + 4 <= len(data):
        code, count = struct.unpack_from(order + "HH", data, at)
        if code == 0:
            return
        yield code, data[at + 4 : at + 4 + count]
        at += 4 + (count + 3) // 4 * 4


def _time_unit(order: str, options: bytes) -> float:
    for code, value in _options(order, options):
        if code == _TIME_RESOLUTION and value:
            return 2.0 ** -(value[0] & 0x7F) if value[0] & 0x80 else 10.0 ** -value[0]
    return 1e-6


def _pcapng(file: BinaryIO) -> Iterator[_Record]:
    """The records of the blocks; the four bytes before are those of a section header's type."""
    order = "<"
    interfaces: list[tuple[int, float]] = []
    first = struct.pack("<I", _SECTION)
    while (head := first or _exactly(file, 4)) is not None:
        first = b""
        size_bytes = _rest(file, 4)
        kind = struct.unpack(order + "I", head)[0]
        if kind == _SECTION:
            magic = _rest(file, 4)
            order, interfaces = "<" if magic == b"\x4d\x3c\x2b\x1a" else ">", []
        size = struct.unpack(order + "I", size_bytes)[0] - (16 if kind == _SECTION else 12)
        if size < 0:
            raise CaptureError("a block has no such length")
        body = _rest(file, size)
        _rest(file, 4)
        if kind == _INTERFACE:
            interfaces.append((struct.unpack_from(order + "H", body)[0], _time_unit(order, body[8:])))
        elif kind == _ENHANCED:
            index, high, low, count = struct.unpack_from(order + "IIII", body)
            link, unit = interfaces[index]
            yield _Record(link, (high << 32 | low) * unit, memoryview(body)[20 : 20 + count])
        elif kind == _SIMPLE:
            yield _Record(interfaces[0][0], 0.0, memoryview(body)[4 : 4 + struct.unpack_from(order + "I", body)[0]])


def _records(file: BinaryIO) -> Iterator[_Record]:
    magic = file.read(4)
    if magic in _PCAP_ORDERS:
        yield from _pcap(file, magic)
    elif magic == struct.pack("<I", _SECTION):
        yield from _pcapng(file)
    else:
        raise CaptureError("the file is neither pcap nor pcapng")


def _two(data: memoryview, at: int) -> int:
    return data[at] << 8 | data[at + 1]


def _ip_at(link: int, data: memoryview) -> Optional[int]:
    """Where the IP packet begins after the header of a link and VLAN tags."""
    if link not in _LINKS:
        raise CaptureError(f"links of type {link} aren't read")
    kind, end = _LINKS[link]
    if kind is None or end > len(data):
        return end if end <= len(data) else None
    while end + 4 <= len(data) and _two(data, kind) in _VLAN_TYPES:
        kind, end = end + 2, end + 4
    return end if _two(data, kind) in _IP_TYPES else None


def _datagram(number: int, time: float, ip: memoryview) -> Optional[Datagram]:
    """The UDP datagram in an IP packet, if it is one, and not a later fragment."""
    version = ip[0] >> 4 if len(ip) else 0
    if version == 4 and len(ip) >= 20:
        header, protocol, address, size = (ip[0] & 15) * 4, ip[9], 12, 4
        is_first = _two(ip, 6) & 0x1FFF == 0
    elif version == 6 and len(ip) >= 40:
        header, protocol, address, size, is_first = 40, ip[6], 8, 16, True
    else:
        return None
    udp = ip[header:]
    if protocol != _UDP or not is_first or header < 20 or len(udp) < 8 or _two(udp, 4) <= 8:
        return None
    count = _two(udp, 4)
    source = Endpoint(bytes(ip[address : address + size]), _two(udp, 0))
    destination = Endpoint(bytes(ip[address + size : address + 2 * size]), _two(udp, 2))
    return Datagram(number, time, source, destination, udp[8:count], max(0, count - len(udp)))


def datagrams(file: Union[Path, BinaryIO]) -> Iterator[Datagram]:
    """The UDP datagrams of a capture file, in its order.

    Raises CaptureError if the file isn't a capture, and, after the datagrams before it, at a record that is invalid or
    within which the file is cut off; and OSError.
    """
    if isinstance(file, (str, os.PathLike)):
        with open(file, "rb") as opened:
            yield from datagrams(opened)
        return
    try:
        for number, record in enumerate(_records(file), 1):
            at = _ip_at(record.link, record.data)
            found = None if at is None else _datagram(number, record.time, record.data[at:])
            if found is not None:
                yield found
    except (struct.error, IndexError) as fault:
        raise CaptureError(f"a block lacks what its type has: {fault}") from fault
