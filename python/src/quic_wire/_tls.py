"""What opening packets needs from a TLS handshake: the client's random bytes and the cipher suite (RFC 8446, section
4.1).
"""

from __future__ import annotations

import heapq
from typing import Optional

from ._wire import Crypto

_CLIENT_HELLO, _SERVER_HELLO = 1, 2
_RANDOM_AT, _RANDOM_LEN = 6, 32  # after the type, the length and the version
_MOST = 1 << 16  # bytes of a handshake that are kept, and of what arrives before its turn


class Handshake:
    """The messages that a side sends in Initial packets, put together as far as they have arrived."""

    __slots__ = ("_data", "_kept", "_later", "_offsets")

    def __init__(self) -> None:
        self._data = bytearray()
        self._later: dict[int, bytes] = {}  # what arrived before its turn, by its offset
        self._offsets: list[int] = []  # a heap of these offsets
        self._kept = 0  # how many bytes these are

    def take(self, frame: Crypto) -> None:
        """Takes the data of a frame, in any order. Of bytes that arrive twice the first ones count."""
        offset, data = frame.offset, bytes(frame.data)
        if offset + len(data) > _MOST:
            return
        if offset > len(self._data):
            self._keep(offset, data)
            return
        self._data += data[len(self._data) - offset :]
        while self._offsets and self._offsets[0] <= len(self._data):
            offset = heapq.heappop(self._offsets)
            data = self._later.pop(offset)
            self._kept -= len(data)
            self._data += data[len(self._data) - offset :]

    def _keep(self, offset: int, data: bytes) -> None:
        """Keeps data for later, if they are more than those from there on, and if not too many are kept."""
        more = len(data) - len(self._later.get(offset, b""))
        if more <= 0 or self._kept + more > _MOST:
            return
        if offset not in self._later:
            heapq.heappush(self._offsets, offset)
        self._later[offset] = data
        self._kept += more

    def _message(self, kind: int) -> Optional[bytes]:
        """The first message, if it is of this kind."""
        is_it = self._data[:1] == bytes([kind]) and len(self._data) > _RANDOM_AT + _RANDOM_LEN
        return bytes(self._data) if is_it else None

    @property
    def client_random(self) -> Optional[bytes]:
        """The random bytes of a ClientHello."""
        message = self._message(_CLIENT_HELLO)
        return message[_RANDOM_AT : _RANDOM_AT + _RANDOM_LEN] if message else None

    @property
    def suite(self) -> Optional[int]:
        """The cipher suite of a ServerHello."""
        message = self._message(_SERVER_HELLO)
        if message is None:
            return None
        at = _RANDOM_AT + _RANDOM_LEN + 1 + message[_RANDOM_AT + _RANDOM_LEN]
        return int.from_bytes(message[at : at + 2], "big") if at + 2 <= len(message) else None
