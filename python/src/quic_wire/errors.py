"""What is rejected, as exceptions: why, where, at which field, with which code, and by which section of the RFC."""

from __future__ import annotations

from typing import TYPE_CHECKING, Any, NoReturn, Optional

from . import _parameters
from ._fields import (
    FRAME_TYPE_FIELD, Field, Place, Raw, Read, in_entry, in_frame, in_header, of_entry, of_frame, of_header,
)  # fmt: skip
from ._formats import FRAMES, REASONS, Code as Code, ErrorKind as ErrorKind
from ._wire import (
    FRAME_LIMIT, FRAME_LONG_TYPE, FRAME_MALFORMED, FRAME_PACKET, FRAME_SENDER, FRAME_STREAM, FRAME_TYPE,
    PACKET_FIXED_BIT, PACKET_RETRY, PAYLOAD_EMPTY, type_name,
)  # fmt: skip
from .checks import Checks

if TYPE_CHECKING:
    from ._types import Buffer
    from ._wire import Frame, Packet

_OF_TYPES = (FRAME_TYPE, FRAME_LONG_TYPE)  # results for a type that was read
_LONG_FORM = 0x80  # of a first byte
_PERMISSIONS = (FRAME_PACKET, FRAME_SENDER, FRAME_STREAM)


class Error(ValueError):
    """Bytes that a peer must not send.

    - kind: why they are rejected, to compare with; None if a variable-length integer is cut off.
    - reason: the library's text for that.
    - why: what is wrong with them, or None if no more is known.
    - offset: where what is rejected begins in the bytes that were read.
    - field, field_offset: the RFC's name of the field at fault, and where it begins; None if it isn't known.
    - fields: the fields before it in the same frame, packet or entry; None if they aren't known.
    - code: the code to close the connection with; only those of frames and parameters have one.
    - section: the document and section that say so.
    """

    kind: Optional[ErrorKind] = None
    reason: str
    why: Optional[str] = None
    offset: Optional[int]
    field: Optional[str]
    field_offset: Optional[int]
    fields: Optional[list[Field]] = None
    code: Optional[Code]
    section: str

    def __init__(
        self,
        reason: str,
        offset: Optional[int] = None,
        place: Optional[Place] = None,
        code: Optional[Code] = None,
        section: str = "",
    ) -> None:
        super().__init__(reason, offset, place, code, section)
        self.reason, self.offset, self.code, self.section = reason, offset, code, section
        self.field, self.field_offset = place or (None, None)

    def _what(self) -> str:
        return self.reason

    def _detail(self) -> Optional[str]:
        return self.why

    def __str__(self) -> str:
        at = "" if self.offset is None else f" at {self.offset}"
        field = "" if self.field is None else f", {self.field} at {self.field_offset}"
        detail = self._detail()
        why = "" if detail is None else f": {detail}"
        return f"{self._what()}{at}{field}{why} ({self.section})"


class FrameError(Error):
    """A payload has an invalid frame, or is empty; or a frame isn't permitted, or isn't written, by a rule.

    - frame_type: the type of the invalid frame, as its attribute type; None if it couldn't be read.
    - frames: the frames before it; None if they were read one by one.
    - kind, reason, why, offset, field, field_offset, fields, code, section: as in Error. offset is None if the frame wasn't
      read.
    """

    kind: ErrorKind
    code: Code
    frame_type: Optional[int] = None
    frames: Optional[list[Frame]] = None
    # The last type that was read, which quinn-proto and quic-show print; tests/show.py of the repository does.
    _last_type: Optional[int] = None
    _is_permission = False

    def _what(self) -> str:
        if self.frame_type is None:
            return self.reason
        name = type_name(self.frame_type) or f"<unknown {self.frame_type:#x}>"
        return f"{name} {self.reason}" if self._is_permission else f"{self.reason} in {name}"


class PacketError(Error):
    """The bytes of a datagram aren't a packet, and are dropped.

    - packets: the packets before it; None if they were read one by one.
    - packet: what was read from a packet that is cut off, or None.
    - kind, reason, offset, field, field_offset, fields, section: as in Error. code is None.

    Packets can't be pickled. So in a copy, also one that was pickled, packets and packet are None.
    """

    kind: ErrorKind
    packets: Optional[list[Packet]] = None
    packet: Optional[Packet] = None

    def __reduce__(self) -> tuple[Any, ...]:
        return type(self), self.args, vars(self) | {"packets": None, "packet": None}


class ParameterError(Error):
    """A list of transport parameters is rejected.

    - id, name, value: those of the parameter at fault; each is None if it isn't known.
    - why: what is wrong with it.
    - wanted: what its value must be; None if that isn't what is wrong.
    - kind, reason, offset, code, section: as in Error. Only parameter_fields sets field, field_offset and fields.
    """

    kind: ErrorKind
    id: Optional[int] = None
    name: Optional[str] = None
    value: Optional[bytes] = None
    wanted: Optional[str] = None

    def _what(self) -> str:
        if self.id is None:
            return f"{self.reason} parameter"
        name = self.name or f"parameter {self.id:#x}"
        return f"{self.reason} {name}" if self.reason == "malformed" else f"{self.reason} of {name}"

    def _detail(self) -> Optional[str]:
        return self.why if self.wanted is None else f"expected {self.wanted}"


def _frame_section(result: int, frame_type: Optional[int]) -> str:
    if result in (PAYLOAD_EMPTY, FRAME_PACKET, *_OF_TYPES):
        return "RFC 9000, section 12.4"
    known = FRAMES.get(frame_type or 0)
    own = known.section if known else ""
    if result in (FRAME_LIMIT, FRAME_STREAM):
        return own
    if result == FRAME_MALFORMED:
        return f"{own}.1" if known and known.name == "ACK" else own
    if result == FRAME_SENDER:
        return own if known and "client" not in known.senders else "RFC 9000, section 17.2.3"
    return "RFC 9000, section 20.1"


def _why_unknown(result: int, frame_type: Optional[int]) -> Optional[str]:
    known = FRAMES.get(frame_type or 0)
    is_of_extension = result == FRAME_TYPE and known is not None and known.section.startswith("draft-")
    return "the ACK frequency extension wasn't negotiated" if is_of_extension else None


def _frame_error(
    result: int,
    reason: str,
    code: int,
    begin: int,
    frame_type: Optional[int],
    before: Optional[list[Frame]],
    read: Raw,
) -> FrameError:
    found = Read(*read)
    place, why = (None, None) if result == PAYLOAD_EMPTY else in_frame(found)
    error = FrameError(reason, begin, place, Code(code), _frame_section(result, frame_type))
    error.kind = ErrorKind(result)
    is_cut_off = result not in _OF_TYPES and place == Place(FRAME_TYPE_FIELD, begin)
    error.frame_type = None if is_cut_off else frame_type
    error._last_type, error.why, error.frames = frame_type, why or _why_unknown(result, frame_type), before
    error.fields = of_frame(found)
    return error


def _rule_error(result: int, reason: str, code: int, frame_type: int, begin: Optional[int]) -> FrameError:
    """For a frame that isn't permitted, or isn't written."""
    error = FrameError(reason, begin, None, Code(code), _frame_section(result, frame_type))
    error.kind = ErrorKind(result)
    error.frame_type, error._is_permission = frame_type, result in _PERMISSIONS
    error.why = _why_unknown(result, frame_type)
    if result == FRAME_MALFORMED:
        error.why = "the token is empty"
    elif result == FRAME_LIMIT:
        is_of_streams = FRAMES[frame_type].fields[-1].most is not None
        error.why = "it is greater than 2^60" if is_of_streams else "the data end past 2^62 - 1"
    return error


def _header_section(result: int, place: Optional[Place], first: int, end: int) -> str:
    """By which a packet is dropped, given its first byte or -1, and where the datagram ends."""
    section = "12.2"
    if result == PACKET_FIXED_BIT:
        section = "17.2" if first >= _LONG_FORM else "17.3.1"
    elif place is not None and result == PACKET_RETRY:
        section = "17.2.5.2"
    elif place is not None and place.field.endswith("ID Length") and place.at < end:
        section = "17.2"
    return f"RFC 9000, section {section}"


def _packet_error(
    result: int,
    reason: str,
    begin: int,
    end: int,
    first: int,
    before: Optional[list[Packet]],
    packet: Optional[Packet],
    read: Raw,
) -> PacketError:
    found = Read(*read)
    place = in_header(found, begin)
    error = PacketError(reason, begin, place, None, _header_section(result, place, first, end))
    error.kind = ErrorKind(result)
    error.packets, error.packet, error.fields = before, packet, of_header(found)
    return error


def _parameter_error(
    result: int, reason: str, code: int, side: int, flags: int, data: Buffer, begin: int, number: Optional[int]
) -> ParameterError:
    found = _parameters.fault_of(side, Checks(flags), memoryview(bytes(data)), begin, number)
    return _parameter_fault(ErrorKind(result), reason, Code(code), found)


def _parameter_fault(kind: ErrorKind, reason: str, code: Code, found: _parameters.Fault) -> ParameterError:
    error = ParameterError(reason, found.offset, None, code, found.section)
    error.kind = kind
    error.id, error.name, error.value = found.id, found.name, found.value
    error.why, error.wanted = found.why, found.wanted
    return error


def _parameter_cut_off(begin: int, number: Optional[int]) -> ParameterError:
    kind, found = ErrorKind.PARAMS_MALFORMED, _parameters.cut_off(begin, number)
    return _parameter_fault(kind, REASONS[kind].text, Code.TRANSPORT_PARAMETER_ERROR, found)


def _raise_cut_off(begin: int, number: Optional[int]) -> NoReturn:
    raise _parameter_cut_off(begin, number)


def _entry_cut_off(begin: int, number: Optional[int], read: Read) -> ParameterError:
    error = _parameter_cut_off(begin, number)
    (error.field, error.field_offset), error.fields = in_entry(read), of_entry(read)
    return error


def _packet_small(begin: int) -> PacketError:
    """For a packet that has no sample (RFC 9001, section 5.4.2)."""
    kind = ErrorKind.PACKET_SMALL
    error = PacketError(REASONS[kind].text, begin, None, None, "RFC 9001, section 5.4.2")
    error.kind = kind
    return error


def _raise_varint(at: int) -> NoReturn:
    raise Error("unexpected end in a varint", at, None, None, "RFC 9000, section 16")
