"""Secrets from a key log file, as browsers write it if SSLKEYLOGFILE is set (RFC 9850)."""

from __future__ import annotations

import enum
import os
from collections import defaultdict
from collections.abc import Iterable
from typing import Optional, Union

__all__ = ["KeyLog", "Label"]


class Label(enum.Enum):
    """Which packets a secret is for, by the label in the file."""

    CLIENT_EARLY = "CLIENT_EARLY_TRAFFIC_SECRET"
    CLIENT_HANDSHAKE = "CLIENT_HANDSHAKE_TRAFFIC_SECRET"
    SERVER_HANDSHAKE = "SERVER_HANDSHAKE_TRAFFIC_SECRET"
    CLIENT_1RTT = "CLIENT_TRAFFIC_SECRET_0"
    SERVER_1RTT = "SERVER_TRAFFIC_SECRET_0"


class KeyLog:
    """The secrets by the random bytes of the ClientHello.

    >>> log = KeyLog(["# a comment", "CLIENT_TRAFFIC_SECRET_0 " + "00" * 32 + " 0102"])
    >>> log.secret(bytes(32), Label.CLIENT_1RTT)
    b'\\x01\\x02'
    """

    __slots__ = ("_secrets",)

    def __init__(self, lines: Iterable[str]) -> None:
        self._secrets: defaultdict[bytes, dict[Label, bytes]] = defaultdict(dict)
        labels = {label.value: label for label in Label}
        for line in lines:
            words = line.split()
            if len(words) == 3 and words[0] in labels:
                self._secrets[bytes.fromhex(words[1])][labels[words[0]]] = bytes.fromhex(words[2])

    @classmethod
    def open(cls, path: Union[str, os.PathLike[str]]) -> KeyLog:
        """The secrets in a file. Raises OSError, and ValueError if a line isn't hexadecimal."""
        with open(path, encoding="ascii") as lines:
            return cls(lines)

    def secret(self, client_random: bytes, label: Label) -> Optional[bytes]:
        """The secret for one kind of packet, or None."""
        return self._secrets[client_random].get(label) if client_random in self._secrets else None
