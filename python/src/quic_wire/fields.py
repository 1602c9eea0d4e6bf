"""Where each field is (RFC 9000, sections 16 to 19)."""

from __future__ import annotations

from collections.abc import Sequence
from typing import Optional

from . import _fields
from ._fields import Field, Read
from ._formats import REASONS
from ._types import Buffer
from ._wire import PACKET_VERSION, _frame_fields, _packet_fields, _parameter_fields, varint_at
from .checks import Checks
from .errors import _entry_cut_off, _frame_error, _packet_error

__all__ = ["Field", "frame_fields", "packet_fields", "parameter_fields"]


def frame_fields(payload: Buffer, at: int = 0, *, checks: Checks = Checks.QUINN) -> list[Field]:
    """The fields of the frame that begins at an offset of a payload, its type first.

    Each PADDING frame is one. Raises FrameError if no frame is there, or if it breaks a rule of checks.
    """
    read = Read(*_frame_fields(payload, at, checks))
    if read.result >= 0:
        return _fields.of_frame(read)
    reason, frame_type = REASONS[read.result], varint_at(payload, at)
    raise _frame_error(
        read.result, reason.text, reason.close_code, at, frame_type[0] if frame_type else None, None, read
    )


def packet_fields(
    datagram: Buffer,
    cid_len: int,
    at: int = 0,
    versions: Optional[Sequence[int]] = None,
    *,
    checks: Checks = Checks.QUINN,
) -> list[Field]:
    """The fields of the header that begins at an offset of a datagram, the first byte first.

    The arguments are those of read_packet. In a Version Negotiation the versions follow, in a Retry the token and the
    integrity tag, as far as they are whole; of a version that isn't read there are only the ids. Raises PacketError
    where read_packet does, and for a Version Negotiation with an id of more than 20 bytes.
    """
    read = Read(*_packet_fields(datagram, cid_len, at, versions, checks))
    if read.result >= 0 or read.result == PACKET_VERSION:
        return _fields.of_header(read)
    view = memoryview(datagram).cast("B")
    first = view[at] if at < len(view) else -1
    raise _packet_error(read.result, REASONS[read.result].text, at, len(view), first, None, None, read)


def parameter_fields(data: Buffer, at: int = 0) -> list[Field]:
    """The fields of the entry that begins at an offset of a list of transport parameters: its id, and its value with
    the value's length.

    Raises ParameterError if it is cut off.
    """
    read = Read(*_parameter_fields(data, at))
    if read.result >= 0:
        return _fields.of_entry(read)
    number = varint_at(data, at)
    raise _entry_cut_off(at, number[0] if number else None, read)
