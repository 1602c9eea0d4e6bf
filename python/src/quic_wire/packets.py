"""Packets of datagrams (RFC 9000, sections 12.2 and 17)."""

from __future__ import annotations

import enum
from collections.abc import Iterator, Sequence
from typing import Optional

from ._formats import PacketType as PacketType
from ._types import Buffer
from ._wire import Packet, read_packet
from .checks import Checks

__all__ = ["PacketType", "Version", "packets"]


class Version(enum.IntEnum):
    """Versions of QUIC that are read: RFC 9000, RFC 9369.

    By default the drafts 29 to 34 of version 1, 0xff00001d to 0xff000022, are read too, as quinn-proto does. They have
    no member here, and their salts aren't in this package: Version, `constants` and what makes keys raise ValueError for
    them.
    """

    V1 = 0x00000001
    V2 = 0x6B3343CF


def packets(
    datagram: Buffer, cid_len: int, versions: Optional[Sequence[int]] = None, *, checks: Checks = Checks.QUINN
) -> Iterator[Packet]:
    """The packets of a datagram, each read when it is asked for. Raises PacketError if none begins.

    Ids in short headers have cid_len bytes. versions are those that are read, by default 1, its drafts 29 to 34, and 2;
    a packet of another one is an UnknownVersion.
    """
    at, end = 0, len(memoryview(datagram).cast("B"))
    while at < end or at == 0:
        packet = read_packet(datagram, cid_len, at, versions, checks=checks)
        yield packet
        at = packet.end
