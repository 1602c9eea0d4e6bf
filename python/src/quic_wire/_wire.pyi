# Made by scripts/make/tables from _wire.pyi.in and docs/formats.json: change nothing here.
from collections.abc import Iterable, Iterator, Sequence
from typing import Any, ClassVar, Optional, TypeVar, Union, final, overload

from ._fields import Raw
from ._types import Buffer
from .checks import Checks
from .parameters import PreferredAddress

_Ranges = Union[Iterable[Union[range, tuple[int, int]]], "Ack"]
_Self = TypeVar("_Self", bound="_Parameters")

LIBRARY_VERSION: str
PAYLOAD_EMPTY: int
FRAME_END: int
FRAME_TYPE: int
FRAME_MALFORMED: int
FRAME_LONG_TYPE: int
FRAME_LIMIT: int
FRAME_PACKET: int
FRAME_SENDER: int
FRAME_STREAM: int
PACKET_END: int
PACKET_FIXED_BIT: int
PACKET_SMALL: int
PACKET_CID: int
PACKET_TOKEN: int
PACKET_VERSION: int
PACKET_CUT: int
PACKET_RETRY: int
PARAMS_MALFORMED: int
PARAMS_ILLEGAL: int
READ_SHORT_TYPES: int
READ_DATA_LIMIT: int
READ_STREAM_LIMIT: int
READ_NO_ACK_FREQUENCY: int
READ_TOKENS: int
READ_GREASED_BIT: int
READ_ANY_VERSION: int
READ_WHOLE_RETRY: int
READ_ANY_WIDTH: int
READ_NO_REPEATS: int
READ_RFC: int
FAULT_LOW: int
FAULT_HIGH: int
FAULT_DELAY: int
FAULT_SENDER: int

# ---- Frames

class Frame:
    __match_args__: ClassVar[tuple[str, ...]]
    @property
    def begin(self) -> int: ...
    @property
    def end(self) -> int: ...
    @property
    def type(self) -> int: ...
    @property
    def kind(self) -> int: ...
    @property
    def name(self) -> str: ...
    @property
    def is_ack_eliciting(self) -> bool: ...
    @property
    def is_counted_in_flight(self) -> bool: ...
    @property
    def is_probing(self) -> bool: ...
    @property
    def is_flow_controlled(self) -> bool: ...
    def is_permitted_in(self, packet_type: int, /) -> bool:
        """Whether packets of this type may carry it (RFC 9000, section 12.4, table 3). False for
        numbers other than INITIAL, ZERO_RTT, HANDSHAKE and ONE_RTT of PacketType, which
        check_permitted rejects."""
    def check_permitted(self, packet_type: int, sender: int, *, checks: Checks = ...) -> None:
        """Raises FrameError if packets of this type may not carry the frame (RFC 9000, section
        12.4, table 3), or if that side may not send it (sections 19.7, 19.20) or not on
        this stream (sections 19.4, 19.5, 19.8, 19.10, 19.13). Of checks only
        NO_ACK_FREQUENCY counts."""
    def encode(self, last: bool = False, *, checks: Checks = ...) -> bytes:
        """The frame in its shortest form. As the last one of its payload it needs no length. Raises
        FrameError if it breaks a rule of checks."""
    def as_dict(self) -> dict[str, Any]:
        """The fields by name, data as bytes."""
    def __hash__(self) -> int: ...

@final
class Padding(Frame):
    KIND: ClassVar[int]
    __match_args__ = ("count",)
    def __init__(self, count: int = 1) -> None: ...
    @property
    def count(self) -> int: ...

@final
class Ping(Frame):
    KIND: ClassVar[int]
    def __init__(self) -> None: ...

@final
class Ack(Frame):
    KIND: ClassVar[int]
    __match_args__ = ("largest", "delay", "ranges", "ect0", "ect1", "ce")
    def __init__(
        self,
        largest: int = 0,
        delay: int = 0,
        ranges: Optional[_Ranges] = None,
        ect0: Optional[int] = None,
        ect1: Optional[int] = None,
        ce: Optional[int] = None,
    ) -> None: ...
    @property
    def largest(self) -> int: ...
    @property
    def delay(self) -> int: ...
    @property
    def ranges(self) -> tuple[range, ...]: ...
    @property
    def ect0(self) -> Optional[int]: ...
    @property
    def ect1(self) -> Optional[int]: ...
    @property
    def ce(self) -> Optional[int]: ...

@final
class ResetStream(Frame):
    KIND: ClassVar[int]
    __match_args__ = ("stream_id", "error_code", "final_size")
    def __init__(self, stream_id: int = 0, error_code: int = 0, final_size: int = 0) -> None: ...
    @property
    def stream_id(self) -> int: ...
    @property
    def error_code(self) -> int: ...
    @property
    def final_size(self) -> int: ...

@final
class StopSending(Frame):
    KIND: ClassVar[int]
    __match_args__ = ("stream_id", "error_code")
    def __init__(self, stream_id: int = 0, error_code: int = 0) -> None: ...
    @property
    def stream_id(self) -> int: ...
    @property
    def error_code(self) -> int: ...

@final
class Crypto(Frame):
    KIND: ClassVar[int]
    __match_args__ = ("offset", "data")
    def __init__(self, offset: int = 0, data: Buffer = b"") -> None: ...
    @property
    def offset(self) -> int: ...
    @property
    def data(self) -> memoryview: ...

@final
class NewToken(Frame):
    KIND: ClassVar[int]
    __match_args__ = ("token",)
    def __init__(self, token: Buffer = b"") -> None: ...
    @property
    def token(self) -> bytes: ...

@final
class Stream(Frame):
    KIND: ClassVar[int]
    __match_args__ = ("stream_id", "offset", "fin", "data")
    def __init__(self, stream_id: int = 0, offset: int = 0, fin: bool = False, data: Buffer = b"") -> None: ...
    @property
    def stream_id(self) -> int: ...
    @property
    def offset(self) -> int: ...
    @property
    def fin(self) -> bool: ...
    @property
    def data(self) -> memoryview: ...

@final
class MaxData(Frame):
    KIND: ClassVar[int]
    __match_args__ = ("limit",)
    def __init__(self, limit: int = 0) -> None: ...
    @property
    def limit(self) -> int: ...

@final
class MaxStreamData(Frame):
    KIND: ClassVar[int]
    __match_args__ = ("stream_id", "limit")
    def __init__(self, stream_id: int = 0, limit: int = 0) -> None: ...
    @property
    def stream_id(self) -> int: ...
    @property
    def limit(self) -> int: ...

@final
class MaxStreamsBidi(Frame):
    KIND: ClassVar[int]
    __match_args__ = ("limit",)
    def __init__(self, limit: int = 0) -> None: ...
    @property
    def limit(self) -> int: ...

@final
class MaxStreamsUni(Frame):
    KIND: ClassVar[int]
    __match_args__ = ("limit",)
    def __init__(self, limit: int = 0) -> None: ...
    @property
    def limit(self) -> int: ...

@final
class DataBlocked(Frame):
    KIND: ClassVar[int]
    __match_args__ = ("limit",)
    def __init__(self, limit: int = 0) -> None: ...
    @property
    def limit(self) -> int: ...

@final
class StreamDataBlocked(Frame):
    KIND: ClassVar[int]
    __match_args__ = ("stream_id", "limit")
    def __init__(self, stream_id: int = 0, limit: int = 0) -> None: ...
    @property
    def stream_id(self) -> int: ...
    @property
    def limit(self) -> int: ...

@final
class StreamsBlockedBidi(Frame):
    KIND: ClassVar[int]
    __match_args__ = ("limit",)
    def __init__(self, limit: int = 0) -> None: ...
    @property
    def limit(self) -> int: ...

@final
class StreamsBlockedUni(Frame):
    KIND: ClassVar[int]
    __match_args__ = ("limit",)
    def __init__(self, limit: int = 0) -> None: ...
    @property
    def limit(self) -> int: ...

@final
class NewConnectionId(Frame):
    KIND: ClassVar[int]
    __match_args__ = ("sequence", "retire_prior_to", "connection_id", "reset_token")
    @overload
    def __init__(self, sequence: int, retire_prior_to: int, connection_id: Buffer, reset_token: Buffer) -> None: ...
    @overload
    def __init__(
        self, sequence: int = 0, retire_prior_to: int = 0, *, connection_id: Buffer, reset_token: Buffer
    ) -> None: ...
    @property
    def sequence(self) -> int: ...
    @property
    def retire_prior_to(self) -> int: ...
    @property
    def connection_id(self) -> bytes: ...
    @property
    def reset_token(self) -> bytes: ...

@final
class RetireConnectionId(Frame):
    KIND: ClassVar[int]
    __match_args__ = ("sequence",)
    def __init__(self, sequence: int = 0) -> None: ...
    @property
    def sequence(self) -> int: ...

@final
class PathChallenge(Frame):
    KIND: ClassVar[int]
    __match_args__ = ("data",)
    def __init__(self, data: Buffer = b"\0\0\0\0\0\0\0\0") -> None: ...
    @property
    def data(self) -> bytes: ...

@final
class PathResponse(Frame):
    KIND: ClassVar[int]
    __match_args__ = ("data",)
    def __init__(self, data: Buffer = b"\0\0\0\0\0\0\0\0") -> None: ...
    @property
    def data(self) -> bytes: ...

@final
class ConnectionClose(Frame):
    KIND: ClassVar[int]
    __match_args__ = ("error_code", "frame_type", "reason")
    def __init__(self, error_code: int = 0, frame_type: int = 0, reason: Buffer = b"") -> None: ...
    @property
    def error_code(self) -> int: ...
    @property
    def frame_type(self) -> int: ...
    @property
    def reason(self) -> bytes: ...

@final
class ApplicationClose(Frame):
    KIND: ClassVar[int]
    __match_args__ = ("error_code", "reason")
    def __init__(self, error_code: int = 0, reason: Buffer = b"") -> None: ...
    @property
    def error_code(self) -> int: ...
    @property
    def reason(self) -> bytes: ...

@final
class HandshakeDone(Frame):
    KIND: ClassVar[int]
    def __init__(self) -> None: ...

@final
class ImmediateAck(Frame):
    KIND: ClassVar[int]
    def __init__(self) -> None: ...

@final
class Datagram(Frame):
    KIND: ClassVar[int]
    __match_args__ = ("data",)
    def __init__(self, data: Buffer = b"") -> None: ...
    @property
    def data(self) -> memoryview: ...

@final
class AckFrequency(Frame):
    KIND: ClassVar[int]
    __match_args__ = ("sequence", "ack_eliciting_threshold", "max_ack_delay", "reordering_threshold")
    def __init__(
        self, sequence: int = 0, ack_eliciting_threshold: int = 0, max_ack_delay: int = 0, reordering_threshold: int = 0
    ) -> None: ...
    @property
    def sequence(self) -> int: ...
    @property
    def ack_eliciting_threshold(self) -> int: ...
    @property
    def max_ack_delay(self) -> int: ...
    @property
    def reordering_threshold(self) -> int: ...

@final
class FrameIterator(Iterator[Frame]):
    @property
    def offset(self) -> int: ...
    def skip(self, end: int, type: int, /) -> None:
        """Passes over a frame of this type, which the library doesn't know and the caller read:
        the next frame is the one at end, an offset in the payload. Use it after the
        FrameError that the frame raised; the frame begins at offset. The type isn't compared
        with the bytes, and may be one that the library knows."""
    def __next__(self) -> Frame: ...

def frames(payload: Buffer, /, *, at: int = 0, checks: Checks = ...) -> FrameIterator:
    """The frames of a payload from an offset on, each read when it is asked for. Offsets
    count from the payload. Consecutive PADDING frames are one. Raises FrameError if the
    payload is empty, or if a frame is invalid or breaks a rule of checks."""
def read_frames(payload: Buffer, /, *, at: int = 0, checks: Checks = ...) -> list[Frame]:
    """The frames of a payload from an offset on, as a list. Raises FrameError, with the
    frames before an invalid one in its attribute frames."""
def canonical(payload: Buffer, /, *, checks: Checks = ...) -> bytes:
    """The one shortest payload with the same frames in the same order. Raises FrameError, also
    if a frame breaks a rule of checks."""
def check_type(type: int, packet_type: int, sender: int, *, checks: Checks = ...) -> None:
    """Raises FrameError if a frame of this type is unknown, may not be in packets of
    this type, or not come from that side (RFC 9000, section 12.4), before it is read.
    With NO_ACK_FREQUENCY in checks that extension's types are unknown."""
def type_name(type: int, /) -> Optional[str]:
    """The name of a frame type, or None."""

# ---- Packets

class Packet:
    __match_args__: ClassVar[tuple[str, ...]]
    @property
    def begin(self) -> int: ...
    @property
    def end(self) -> int: ...
    @property
    def first(self) -> int: ...
    @property
    def kind(self) -> int: ...
    @property
    def number_at(self) -> Optional[int]: ...
    @property
    def data(self) -> memoryview: ...
    @property
    def version(self) -> int: ...
    @property
    def dcid(self) -> bytes: ...
    @property
    def scid(self) -> bytes: ...
    def sample(self, length: int = 16, /) -> Optional[memoryview]:
        """The bytes from which the mask of the header is made (RFC 9001, section 5.4.2), or None
        if the packet is too short or has no packet number."""
    def __hash__(self) -> int: ...

@final
class Initial(Packet):
    __match_args__ = ("version", "dcid", "scid", "token", "length", "token_at")
    @property
    def token(self) -> bytes: ...
    @property
    def length(self) -> int: ...
    @property
    def token_at(self) -> int: ...

@final
class ZeroRtt(Packet):
    __match_args__ = ("version", "dcid", "scid", "length")
    @property
    def length(self) -> int: ...

@final
class Handshake(Packet):
    __match_args__ = ("version", "dcid", "scid", "length")
    @property
    def length(self) -> int: ...

@final
class Retry(Packet):
    __match_args__ = ("version", "dcid", "scid", "token", "integrity_tag")
    @property
    def token(self) -> bytes: ...
    @property
    def integrity_tag(self) -> Optional[bytes]: ...

@final
class OneRtt(Packet):
    __match_args__ = ("dcid", "spin")
    @property
    def spin(self) -> bool: ...

@final
class VersionNegotiation(Packet):
    __match_args__ = ("dcid", "scid", "versions")
    @property
    def versions(self) -> tuple[int, ...]: ...

@final
class UnknownVersion(Packet):
    __match_args__ = ("version", "dcid", "scid")

def read_packets(
    datagram: Buffer, cid_len: int, versions: Optional[Sequence[int]] = None, *, checks: Checks = ...
) -> list[Packet]:
    """The packets of a datagram as a list. Ids in short headers have cid_len bytes. versions
    are as in read_packet. Raises PacketError, with the packets before it in its attribute
    packets."""
def read_packet(
    datagram: Buffer, cid_len: int, at: int = 0, versions: Optional[Sequence[int]] = None, *, checks: Checks = ...
) -> Packet:
    """The packet that begins at an offset of a datagram. versions are those that are read, by
    default 1, its drafts 29 to 34 (0xff00001d to 0xff000022) and 2; a packet of another one
    is an UnknownVersion. Raises PacketError."""
def unprotect(packet: Buffer, number_at: int, mask: Buffer, expected: int = 0) -> tuple[int, bytes]:
    """The packet number, relative to the one that is expected next, and a copy of the header
    without its protection, up to the end of that number (RFC 9001, section 5.4.1)."""
def protect(packet: Union[bytearray, memoryview], number_at: int, mask: Buffer) -> int:
    """Applies header protection to a packet, in place; returns how many bytes the
    packet number has."""
def set_length(packet: Union[bytearray, memoryview], number_at: int, length_len: int = 2) -> None:
    """Sets the length in a long header to what follows it in the packet, in place."""
def write_header(
    packet_type: int,
    dcid: Buffer = b"",
    scid: Buffer = b"",
    token: Buffer = b"",
    *,
    version: int = 1,
    number: int = 0,
    number_len: int = 4,
    length_len: int = 2,
    spin: bool = False,
    key_phase: bool = False,
    fixed_bit: bool = True,
) -> bytes:
    """A header without protection. The packet number is its end, and begins at
    len(header) - number_len. Its length is 0 until set_length. A Retry has no number; its
    token and integrity tag follow the header. Raises ValueError for a token of RETRY or
    ONE_RTT, and for a scid of ONE_RTT. Other arguments that a packet_type doesn't have are
    ignored, also a token of ZERO_RTT and HANDSHAKE: a stack may pass the same ones for all
    its long headers."""
def write_version_negotiation(dcid: Buffer, scid: Buffer, versions: Iterable[int], unused: int = 0x40) -> bytes:
    """A Version Negotiation packet (RFC 9000, section 17.2.1), with the unused bits of its
    first byte."""

# ---- What stacks write beside these

def nonce(iv: Buffer, number: int, /) -> bytes:
    """The nonce of a packet, by the iv of its keys, of 12 bytes, and its whole number
    (RFC 9001, section 5.3)."""
def retry_pseudo_packet(original: Buffer, retry: Buffer, /) -> bytes:
    """What a Retry's tag protects: original is the id to which the client sent its first
    Initial packet, retry the whole packet (RFC 9001, section 5.8)."""
def version_constants(version: int, /) -> tuple[bytes, bytes, bytes, bytes, bytes, bytes, bytes]: ...
def write_version_information(chosen: int, available: Iterable[int], /) -> bytes:
    """The value of the transport parameter version_information, 0x11, with the preferred
    versions first (RFC 9368, section 3)."""
def read_version_information(value: Buffer, /) -> tuple[int, tuple[int, ...]]:
    """The chosen version and the available ones of that parameter's value. Raises ValueError
    if it isn't one: the connection is closed (RFC 9368, section 4)."""
def write_stateless_reset(unpredictable: Buffer, token: Buffer, /) -> bytes:
    """A stateless reset with this token of 16 bytes, behind bytes that the caller makes at
    random, 5 or more (RFC 9000, section 10.3)."""
def is_stateless_reset(datagram: Buffer, token: Buffer, /) -> bool:
    """Whether a datagram is a stateless reset with this token, compared in constant time
    (RFC 9000, section 10.3.1)."""
def answer_version(received: Buffer, versions: Iterable[int], unused: int = 0x40) -> bytes:
    """The Version Negotiation packet that answers a packet of a version that isn't supported:
    with its ids exchanged, and the unused bits of the first byte (RFC 8999, section 6)."""

# ---- Numbers

def read_varint(data: Buffer, at: int = 0, /) -> tuple[int, int]:
    """The variable-length integer at an offset, and where it ends (RFC 9000, section 16)."""
def varint_at(data: Buffer, at: int, /) -> Optional[tuple[int, int]]: ...
def write_varint(value: int, width: int = 0, /) -> bytes:
    """A variable-length integer in 1, 2, 4 or 8 bytes; with 0 in as few as possible."""
def varint_len(value: int, /) -> int:
    """How many bytes the shortest encoding of an integer has: 1, 2, 4 or 8."""
def packet_number_len(number: int, largest_acknowledged: Optional[int] = None, /) -> int:
    """How many bytes of a packet number are written (RFC 9000, appendix A.2)."""
def expand_packet_number(truncated: int, length: int, expected: int, /) -> int:
    """The packet number with these low bytes, relative to the one that is expected next
    (RFC 9000, appendix A.3)."""
def read_packet_number(data: Buffer, length: int, /) -> int:
    """The truncated packet number in the first bytes of data."""
def write_packet_number(number: int, length: int, /) -> bytes:
    """The low bytes of a packet number, 1 to 4 of them."""

# ---- Transport parameters

class _Parameters:
    __match_args__: ClassVar[tuple[str, ...]]
    def __init__(
        self,
        *,
        max_idle_timeout: int = 0,
        max_udp_payload_size: int = 65527,
        initial_max_data: int = 0,
        initial_max_stream_data_bidi_local: int = 0,
        initial_max_stream_data_bidi_remote: int = 0,
        initial_max_stream_data_uni: int = 0,
        initial_max_streams_bidi: int = 0,
        initial_max_streams_uni: int = 0,
        ack_delay_exponent: int = 3,
        max_ack_delay: int = 25,
        active_connection_id_limit: int = 2,
        stateless_reset_token: Optional[Buffer] = None,
        disable_active_migration: bool = False,
        max_datagram_frame_size: Optional[int] = None,
        preferred_address: Optional[PreferredAddress] = None,
        original_destination_connection_id: Optional[Buffer] = None,
        initial_source_connection_id: Optional[Buffer] = None,
        retry_source_connection_id: Optional[Buffer] = None,
        grease_quic_bit: bool = False,
        min_ack_delay: Optional[int] = None,
    ) -> None: ...
    @property
    def max_idle_timeout(self) -> int: ...
    @property
    def max_udp_payload_size(self) -> int: ...
    @property
    def initial_max_data(self) -> int: ...
    @property
    def initial_max_stream_data_bidi_local(self) -> int: ...
    @property
    def initial_max_stream_data_bidi_remote(self) -> int: ...
    @property
    def initial_max_stream_data_uni(self) -> int: ...
    @property
    def initial_max_streams_bidi(self) -> int: ...
    @property
    def initial_max_streams_uni(self) -> int: ...
    @property
    def ack_delay_exponent(self) -> int: ...
    @property
    def max_ack_delay(self) -> int: ...
    @property
    def active_connection_id_limit(self) -> int: ...
    @property
    def stateless_reset_token(self) -> Optional[bytes]: ...
    @property
    def disable_active_migration(self) -> bool: ...
    @property
    def max_datagram_frame_size(self) -> Optional[int]: ...
    @property
    def preferred_address(self) -> Optional[PreferredAddress]: ...
    @property
    def original_destination_connection_id(self) -> Optional[bytes]: ...
    @property
    def initial_source_connection_id(self) -> Optional[bytes]: ...
    @property
    def retry_source_connection_id(self) -> Optional[bytes]: ...
    @property
    def grease_quic_bit(self) -> bool: ...
    @property
    def min_ack_delay(self) -> Optional[int]: ...
    @classmethod
    def read(cls: type[_Self], side: int, data: Buffer, /, *, checks: Checks = ...) -> _Self:
        """The parameters in a list. `side` is the side that reads: pass Side.CLIENT for a server's list.
        Raises ParameterError."""
    def _write(self, side: int, further: bytes = b"", order: bytes = b"", /) -> bytes: ...
    def _write_fault(self, side: int, /) -> Optional[tuple[int, int]]: ...
    def as_dict(self, *, present: bool = False) -> dict[str, Any]:
        """All parameters by name, or only those that were in the list, or given."""
    def __hash__(self) -> int: ...

def _entry_at(data: Buffer, at: int, /) -> Optional[tuple[int, int, int]]: ...
def write_parameter(id: int, value: Buffer, /) -> bytes:
    """An entry of a list of transport parameters."""
def find_parameter(data: Buffer, id: int, /) -> Optional[bytes]:
    """The value of the first entry of this id in a list of transport parameters, or None.
    Raises ParameterError at one before it that is cut off."""
def is_known_parameter(id: int, /) -> bool:
    """Whether TransportParameters has the parameter of this id."""

# ---- Fields, as quic_wire._fields.Read has them

def _frame_fields(payload: Buffer, at: int, checks: int, /) -> Raw: ...
def _packet_fields(
    datagram: Buffer, cid_len: int, at: int, versions: Optional[Sequence[int]], checks: int, /
) -> Raw: ...
def _parameter_fields(data: Buffer, at: int, /) -> Raw: ...

# ---- Sets of packet numbers

@final
class RangeSet:
    __hash__: ClassVar[None]  # type: ignore[assignment]
    def __init__(self, ranges: _Ranges = ()) -> None: ...
    @property
    def smallest(self) -> Optional[int]: ...
    @property
    def largest(self) -> Optional[int]: ...
    def insert(self, start: int, stop: Optional[int] = None, /) -> bool:
        """Inserts a number, or those from start to below stop; returns whether the set
        changed."""
    def remove(self, start: int, stop: Optional[int] = None, /) -> bool:
        """Removes a number, or those from start to below stop; returns whether the set
        changed."""
    def clear(self) -> None:
        """Removes all numbers."""
    def __contains__(self, number: object) -> bool: ...
    def __iter__(self) -> Iterator[range]: ...
    def __len__(self) -> int: ...
