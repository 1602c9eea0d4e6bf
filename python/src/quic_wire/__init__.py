"""The wire layer of QUIC, versions 1 and 2: frames, packets, transport parameters and sets of packet numbers.

>>> from quic_wire import read_frames
>>> read_frames(bytes.fromhex("010a000161"))
[Ping(), Stream(stream_id=0, offset=0, fin=False, data=b'a')]
>>> read_frames(b"\\x06\\x00\\x05a")
Traceback (most recent call last):
...
quic_wire.errors.FrameError: unexpected end in CRYPTO at 0, Crypto Data at 3 (RFC 9000, section 20.1)

Bytes are read and written by a library that is proved for every input. Data of frames are memoryviews of the bytes that
were read: nothing is copied. While objects that were read from a bytearray live, it can't be resized; its bytes must
not change while a call reads them.
"""

from __future__ import annotations

from collections.abc import Iterable

# Made by scripts/make/tables:
from ._wire import (
    LIBRARY_VERSION, Ack, AckFrequency, ApplicationClose, ConnectionClose, Crypto, DataBlocked, Datagram, Frame,
    FrameIterator, Handshake, HandshakeDone, ImmediateAck, Initial, MaxData, MaxStreamData, MaxStreamsBidi,
    MaxStreamsUni, NewConnectionId, NewToken, OneRtt, Packet, Padding, PathChallenge, PathResponse, Ping, RangeSet,
    ResetStream, RetireConnectionId, Retry, StopSending, Stream, StreamDataBlocked, StreamsBlockedBidi,
    StreamsBlockedUni, UnknownVersion, VersionNegotiation, ZeroRtt, answer_version, canonical, check_type,
    expand_packet_number, find_parameter, frames, is_known_parameter, is_stateless_reset, nonce, packet_number_len,
    protect, read_frames, read_packet, read_packet_number, read_packets, read_varint, read_version_information,
    retry_pseudo_packet, set_length, type_name, unprotect, varint_len, write_header, write_packet_number,
    write_parameter, write_stateless_reset, write_varint, write_version_information, write_version_negotiation,
)  # fmt: skip
# End of what is made.
from . import _own
from ._acks import acknowledged
from ._constants import Constants, constants
from ._own import Encodes, read_frame_body, write_frame_body
from ._version import VERSION
from .checks import Checks
from .errors import Code, Error, ErrorKind, FrameError, PacketError, ParameterError
from .fields import Field, frame_fields, packet_fields, parameter_fields
from .packets import PacketType, Version, packets
from .parameters import Parameter, PreferredAddress, Side, TransportParameters, parameters

__version__ = VERSION

# Made by scripts/make/tables:
__all__ = [
    "LIBRARY_VERSION", "Ack", "AckFrequency", "ApplicationClose", "Checks", "Code", "ConnectionClose", "Constants",
    "Crypto", "DataBlocked", "Datagram", "Encodes", "Error", "ErrorKind", "Field", "Frame", "FrameError",
    "FrameIterator", "Handshake", "HandshakeDone", "ImmediateAck", "Initial", "MaxData", "MaxStreamData",
    "MaxStreamsBidi", "MaxStreamsUni", "NewConnectionId", "NewToken", "OneRtt", "Packet", "PacketError",
    "PacketType", "Padding", "Parameter", "ParameterError", "PathChallenge", "PathResponse", "Ping",
    "PreferredAddress", "RangeSet", "ResetStream", "RetireConnectionId", "Retry", "Side", "StopSending", "Stream",
    "StreamDataBlocked", "StreamsBlockedBidi", "StreamsBlockedUni", "TransportParameters", "UnknownVersion",
    "Version", "VersionNegotiation", "ZeroRtt", "acknowledged", "answer_version", "canonical", "check_type",
    "constants", "expand_packet_number", "find_parameter", "frame_fields", "frames", "is_known_parameter",
    "is_stateless_reset", "nonce", "packet_fields", "packet_number_len", "packets", "parameter_fields",
    "parameters", "protect", "read_frame_body", "read_frames", "read_packet", "read_packet_number", "read_packets",
    "read_varint", "read_version_information", "retry_pseudo_packet", "set_length", "type_name", "unprotect",
    "varint_len", "write_frame_body", "write_frames", "write_header", "write_packet_number", "write_parameter",
    "write_stateless_reset", "write_varint", "write_version_information", "write_version_negotiation",
]  # fmt: skip
# End of what is made.


def write_frames(payload: Iterable[Frame | Encodes], *, checks: Checks = Checks.QUINN) -> bytes:
    """A payload of frames, each in its shortest form; the last one without a length that it doesn't need.

    Frames that the library doesn't know are objects with a method encode, which returns their bytes.

    Raises FrameError if a frame breaks a rule of checks: what is written can be read with them, unless there is no
    frame, as a payload must not be empty (RFC 9000, section 12.4).
    """
    all_frames = list(payload)
    last = len(all_frames) - 1
    return b"".join(
        Frame.encode(frame, last=i == last, checks=checks) if isinstance(frame, Frame) else _own.encoded(i, frame)
        for i, frame in enumerate(all_frames)
    )
