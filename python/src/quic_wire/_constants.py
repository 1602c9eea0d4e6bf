"""What a version has of its own."""

from __future__ import annotations

from typing import NamedTuple

from . import _wire


class Constants(NamedTuple):
    """The constants of a version (RFC 9001, sections 5.1, 5.2, 5.8 and 6.1; RFC 9369, section 3.3). The labels are for
    HKDF-Expand-Label, without "tls13 "."""

    initial_salt: bytes
    retry_key: bytes
    retry_nonce: bytes
    key_label: bytes
    iv_label: bytes
    hp_label: bytes
    ku_label: bytes


def constants(version: int) -> Constants:
    """The constants of version 1 or 2; ValueError for others, also for drafts that are read."""
    return Constants(*_wire.version_constants(version))
