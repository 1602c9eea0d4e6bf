"""The formats of QUIC as data: the fields of frames and headers, transport parameters, error codes.

Made by scripts/make/tables from docs/formats.json: change nothing here.
docs/formats.schema.json explains the members.
"""

from __future__ import annotations

import enum
from typing import NamedTuple, Optional


class Field(NamedTuple):
    """A field of a frame, a header or a preferred address."""

    position: int
    """The index of its span; 0 is the type or the first byte. In a preferred address the number of the field."""
    kind: str
    name: str
    """The RFC's; empty for a rule, which has no bytes."""
    unit: str = ""
    length: str = ""
    """The name of the length before its bytes, if that is written."""
    numbers: tuple[str, ...] = ()
    """Of the ranges of an ACK: the names of the count, the first range, a gap and a length."""
    size: Optional[tuple[int, int]] = None
    """The least and the most bytes, without those of a length."""
    most: Optional[int] = None
    """The greatest number, if it is less than 2^62 - 1."""
    value: Optional[int] = None
    """The number that the frame's type implies."""
    at_most: Optional[tuple[int, int]] = None
    """Of a rule: two indices; the number of the first field is at most that of the second."""


class Frame(NamedTuple):
    """A type of frame."""

    type: int
    name: str
    section: str
    fields: tuple[Field, ...]
    senders: tuple[str, ...]


class Bits(NamedTuple):
    """Bits of a first byte, the highest first."""

    name: str
    bits: int
    value: Optional[int] = None
    """If it is always the same."""


class Header(NamedTuple):
    """A header of a version and a kind of packet."""

    version: int
    kind: int
    name: str
    section: str
    fields: tuple[Field, ...]
    first_byte: tuple[Bits, ...]
    after: tuple[str, ...]
    """The names of what follows the header."""


class Readings(NamedTuple):
    """Whether something is accepted, by both readings."""

    quinn_proto: bool
    rfc: bool


class Parameter(NamedTuple):
    """A transport parameter."""

    id: int
    name: str
    kind: str
    wanted: str
    """What its value must be."""
    section: str
    senders: tuple[str, ...]
    repeat: Readings
    order: int
    """Its number among those that are written."""
    unit: str = ""
    default: Optional[int] = None
    bounds: tuple[Optional[int], Optional[int]] = (None, None)
    """The least and the greatest number, if these are bounded."""
    max_of: Optional[tuple[int, str]] = None
    """The greatest number: so many times that of another parameter."""
    size: Optional[tuple[int, int]] = None
    """The least and the most bytes."""
    any_width: Optional[Readings] = None
    """Of a number: whether it may be in any encoding."""


class ErrorCode(NamedTuple):
    """A code to close with."""

    code: int
    last: int
    """The last code of this name."""
    name: str
    section: str
    text: str
    """quinn-proto's; empty for the codes of TLS alerts."""


class Reason(NamedTuple):
    """Why something is rejected."""

    number: int
    about: str
    """A call, a frame, a header or a list of parameters."""
    name: str
    close_code: int
    section: str
    text: str
    """What the library says of it."""


# fmt: off
class Code(enum.IntEnum):
    """The codes of a CONNECTION_CLOSE (RFC 9000, section 20.1). A TLS alert is added to CRYPTO_ERROR."""

    __module__ = "quic_wire.errors"

    NO_ERROR = 0x00
    INTERNAL_ERROR = 0x01
    CONNECTION_REFUSED = 0x02
    FLOW_CONTROL_ERROR = 0x03
    STREAM_LIMIT_ERROR = 0x04
    STREAM_STATE_ERROR = 0x05
    FINAL_SIZE_ERROR = 0x06
    FRAME_ENCODING_ERROR = 0x07
    TRANSPORT_PARAMETER_ERROR = 0x08
    CONNECTION_ID_LIMIT_ERROR = 0x09
    PROTOCOL_VIOLATION = 0x0a
    INVALID_TOKEN = 0x0b
    APPLICATION_ERROR = 0x0c
    CRYPTO_BUFFER_EXCEEDED = 0x0d
    KEY_UPDATE_ERROR = 0x0e
    AEAD_LIMIT_REACHED = 0x0f
    NO_VIABLE_PATH = 0x10
    CRYPTO_ERROR = 0x100


class ErrorKind(enum.IntEnum):
    """Why something is rejected: the results of the library for C, by their names and numbers."""

    __module__ = "quic_wire.errors"

    PAYLOAD_EMPTY = -20
    FRAME_END = -21
    FRAME_TYPE = -22
    FRAME_MALFORMED = -23
    FRAME_LONG_TYPE = -24
    FRAME_LIMIT = -25
    FRAME_PACKET = -26
    FRAME_SENDER = -27
    FRAME_STREAM = -28
    PACKET_END = -40
    PACKET_FIXED_BIT = -41
    PACKET_SMALL = -42
    PACKET_CID = -43
    PACKET_TOKEN = -44
    PACKET_VERSION = -45
    PACKET_CUT = -46
    PACKET_RETRY = -47
    PARAMS_MALFORMED = -60
    PARAMS_ILLEGAL = -61


class PacketType(enum.IntEnum):
    """The types of packets in Packet.kind."""

    __module__ = "quic_wire.packets"

    INITIAL = 0
    ZERO_RTT = 1
    HANDSHAKE = 2
    RETRY = 3
    ONE_RTT = 4
    VERSION_NEGOTIATION = 5
    UNKNOWN_VERSION = 6


FRAMES: dict[int, Frame] = {
    0x00: Frame(0x00, "PADDING", "RFC 9000, section 19.1", (
        Field(0, "number", "Type", unit="frame type"),
    ), ("client", "server")),
    0x01: Frame(0x01, "PING", "RFC 9000, section 19.2", (
        Field(0, "number", "Type", unit="frame type"),
    ), ("client", "server")),
    0x02: Frame(0x02, "ACK", "RFC 9000, section 19.3", (
        Field(0, "number", "Type", unit="frame type"),
        Field(1, "number", "Largest Acknowledged", unit="packet number"),
        Field(2, "number", "ACK Delay", unit="2^ack_delay_exponent microseconds"),
        Field(
            3, "ranges", "ACK Ranges", unit="packet numbers",
            numbers=("ACK Range Count", "First ACK Range", "Gap", "ACK Range Length"),
        ),
    ), ("client", "server")),
    0x03: Frame(0x03, "ACK", "RFC 9000, section 19.3", (
        Field(0, "number", "Type", unit="frame type"),
        Field(1, "number", "Largest Acknowledged", unit="packet number"),
        Field(2, "number", "ACK Delay", unit="2^ack_delay_exponent microseconds"),
        Field(
            3, "ranges", "ACK Ranges", unit="packet numbers",
            numbers=("ACK Range Count", "First ACK Range", "Gap", "ACK Range Length"),
        ),
        Field(4, "number", "ECT0 Count", unit="packets"),
        Field(5, "number", "ECT1 Count", unit="packets"),
        Field(6, "number", "ECN-CE Count", unit="packets"),
    ), ("client", "server")),
    0x04: Frame(0x04, "RESET_STREAM", "RFC 9000, section 19.4", (
        Field(0, "number", "Type", unit="frame type"),
        Field(1, "number", "Stream ID", unit="stream id"),
        Field(2, "number", "Application Protocol Error Code", unit="application error code"),
        Field(3, "number", "Final Size", unit="bytes"),
    ), ("client", "server")),
    0x05: Frame(0x05, "STOP_SENDING", "RFC 9000, section 19.5", (
        Field(0, "number", "Type", unit="frame type"),
        Field(1, "number", "Stream ID", unit="stream id"),
        Field(2, "number", "Application Protocol Error Code", unit="application error code"),
    ), ("client", "server")),
    0x06: Frame(0x06, "CRYPTO", "RFC 9000, section 19.6", (
        Field(0, "number", "Type", unit="frame type"),
        Field(1, "number", "Offset", unit="bytes"),
        Field(2, "counted", "Crypto Data", length="Length"),
    ), ("client", "server")),
    0x07: Frame(0x07, "NEW_TOKEN", "RFC 9000, section 19.7", (
        Field(0, "number", "Type", unit="frame type"),
        Field(1, "counted", "Token", length="Token Length"),
    ), ("server",)),
    0x08: Frame(0x08, "STREAM", "RFC 9000, section 19.8", (
        Field(0, "number", "Type", unit="frame type"),
        Field(1, "implied", "FIN", unit="1 at the end of the stream", value=0),
        Field(2, "number", "Stream ID", unit="stream id"),
        Field(3, "implied", "Offset", unit="bytes", value=0),
        Field(4, "rest", "Stream Data"),
    ), ("client", "server")),
    0x09: Frame(0x09, "STREAM", "RFC 9000, section 19.8", (
        Field(0, "number", "Type", unit="frame type"),
        Field(1, "implied", "FIN", unit="1 at the end of the stream", value=1),
        Field(2, "number", "Stream ID", unit="stream id"),
        Field(3, "implied", "Offset", unit="bytes", value=0),
        Field(4, "rest", "Stream Data"),
    ), ("client", "server")),
    0x0a: Frame(0x0a, "STREAM", "RFC 9000, section 19.8", (
        Field(0, "number", "Type", unit="frame type"),
        Field(1, "implied", "FIN", unit="1 at the end of the stream", value=0),
        Field(2, "number", "Stream ID", unit="stream id"),
        Field(3, "implied", "Offset", unit="bytes", value=0),
        Field(4, "counted", "Stream Data", length="Length"),
    ), ("client", "server")),
    0x0b: Frame(0x0b, "STREAM", "RFC 9000, section 19.8", (
        Field(0, "number", "Type", unit="frame type"),
        Field(1, "implied", "FIN", unit="1 at the end of the stream", value=1),
        Field(2, "number", "Stream ID", unit="stream id"),
        Field(3, "implied", "Offset", unit="bytes", value=0),
        Field(4, "counted", "Stream Data", length="Length"),
    ), ("client", "server")),
    0x0c: Frame(0x0c, "STREAM", "RFC 9000, section 19.8", (
        Field(0, "number", "Type", unit="frame type"),
        Field(1, "implied", "FIN", unit="1 at the end of the stream", value=0),
        Field(2, "number", "Stream ID", unit="stream id"),
        Field(3, "number", "Offset", unit="bytes"),
        Field(4, "rest", "Stream Data"),
    ), ("client", "server")),
    0x0d: Frame(0x0d, "STREAM", "RFC 9000, section 19.8", (
        Field(0, "number", "Type", unit="frame type"),
        Field(1, "implied", "FIN", unit="1 at the end of the stream", value=1),
        Field(2, "number", "Stream ID", unit="stream id"),
        Field(3, "number", "Offset", unit="bytes"),
        Field(4, "rest", "Stream Data"),
    ), ("client", "server")),
    0x0e: Frame(0x0e, "STREAM", "RFC 9000, section 19.8", (
        Field(0, "number", "Type", unit="frame type"),
        Field(1, "implied", "FIN", unit="1 at the end of the stream", value=0),
        Field(2, "number", "Stream ID", unit="stream id"),
        Field(3, "number", "Offset", unit="bytes"),
        Field(4, "counted", "Stream Data", length="Length"),
    ), ("client", "server")),
    0x0f: Frame(0x0f, "STREAM", "RFC 9000, section 19.8", (
        Field(0, "number", "Type", unit="frame type"),
        Field(1, "implied", "FIN", unit="1 at the end of the stream", value=1),
        Field(2, "number", "Stream ID", unit="stream id"),
        Field(3, "number", "Offset", unit="bytes"),
        Field(4, "counted", "Stream Data", length="Length"),
    ), ("client", "server")),
    0x10: Frame(0x10, "MAX_DATA", "RFC 9000, section 19.9", (
        Field(0, "number", "Type", unit="frame type"),
        Field(1, "number", "Maximum Data", unit="bytes"),
    ), ("client", "server")),
    0x11: Frame(0x11, "MAX_STREAM_DATA", "RFC 9000, section 19.10", (
        Field(0, "number", "Type", unit="frame type"),
        Field(1, "number", "Stream ID", unit="stream id"),
        Field(2, "number", "Maximum Stream Data", unit="bytes"),
    ), ("client", "server")),
    0x12: Frame(0x12, "MAX_STREAMS", "RFC 9000, section 19.11", (
        Field(0, "number", "Type", unit="frame type"),
        Field(1, "implied", "Direction", unit="0 bidirectional, 1 unidirectional", value=0),
        Field(2, "number", "Maximum Streams", unit="streams", most=1152921504606846976),
    ), ("client", "server")),
    0x13: Frame(0x13, "MAX_STREAMS", "RFC 9000, section 19.11", (
        Field(0, "number", "Type", unit="frame type"),
        Field(1, "implied", "Direction", unit="0 bidirectional, 1 unidirectional", value=1),
        Field(2, "number", "Maximum Streams", unit="streams", most=1152921504606846976),
    ), ("client", "server")),
    0x14: Frame(0x14, "DATA_BLOCKED", "RFC 9000, section 19.12", (
        Field(0, "number", "Type", unit="frame type"),
        Field(1, "number", "Maximum Data", unit="bytes"),
    ), ("client", "server")),
    0x15: Frame(0x15, "STREAM_DATA_BLOCKED", "RFC 9000, section 19.13", (
        Field(0, "number", "Type", unit="frame type"),
        Field(1, "number", "Stream ID", unit="stream id"),
        Field(2, "number", "Maximum Stream Data", unit="bytes"),
    ), ("client", "server")),
    0x16: Frame(0x16, "STREAMS_BLOCKED", "RFC 9000, section 19.14", (
        Field(0, "number", "Type", unit="frame type"),
        Field(1, "implied", "Direction", unit="0 bidirectional, 1 unidirectional", value=0),
        Field(2, "number", "Maximum Streams", unit="streams", most=1152921504606846976),
    ), ("client", "server")),
    0x17: Frame(0x17, "STREAMS_BLOCKED", "RFC 9000, section 19.14", (
        Field(0, "number", "Type", unit="frame type"),
        Field(1, "implied", "Direction", unit="0 bidirectional, 1 unidirectional", value=1),
        Field(2, "number", "Maximum Streams", unit="streams", most=1152921504606846976),
    ), ("client", "server")),
    0x18: Frame(0x18, "NEW_CONNECTION_ID", "RFC 9000, section 19.15", (
        Field(0, "number", "Type", unit="frame type"),
        Field(1, "number", "Sequence Number", unit="sequence number"),
        Field(2, "number", "Retire Prior To", unit="sequence number"),
        Field(3, "ordered", "", at_most=(2, 1)),
        Field(4, "id", "Connection ID", length="Length", size=(1, 20)),
        Field(5, "bytes", "Stateless Reset Token", size=(16, 16)),
    ), ("client", "server")),
    0x19: Frame(0x19, "RETIRE_CONNECTION_ID", "RFC 9000, section 19.16", (
        Field(0, "number", "Type", unit="frame type"),
        Field(1, "number", "Sequence Number", unit="sequence number"),
    ), ("client", "server")),
    0x1a: Frame(0x1a, "PATH_CHALLENGE", "RFC 9000, section 19.17", (
        Field(0, "number", "Type", unit="frame type"),
        Field(1, "uint64", "Data", size=(8, 8)),
    ), ("client", "server")),
    0x1b: Frame(0x1b, "PATH_RESPONSE", "RFC 9000, section 19.18", (
        Field(0, "number", "Type", unit="frame type"),
        Field(1, "uint64", "Data", size=(8, 8)),
    ), ("client", "server")),
    0x1c: Frame(0x1c, "CONNECTION_CLOSE", "RFC 9000, section 19.19", (
        Field(0, "number", "Type", unit="frame type"),
        Field(1, "number", "Error Code", unit="error code"),
        Field(2, "number", "Frame Type", unit="frame type, 0 if unknown"),
        Field(3, "counted", "Reason Phrase", unit="UTF-8", length="Reason Phrase Length"),
    ), ("client", "server")),
    0x1d: Frame(0x1d, "CONNECTION_CLOSE", "RFC 9000, section 19.19", (
        Field(0, "number", "Type", unit="frame type"),
        Field(1, "number", "Error Code", unit="application error code"),
        Field(2, "counted", "Reason Phrase", unit="UTF-8", length="Reason Phrase Length"),
    ), ("client", "server")),
    0x1e: Frame(0x1e, "HANDSHAKE_DONE", "RFC 9000, section 19.20", (
        Field(0, "number", "Type", unit="frame type"),
    ), ("server",)),
    0x1f: Frame(0x1f, "IMMEDIATE_ACK", "draft-ietf-quic-ack-frequency, section 5", (
        Field(0, "number", "Type", unit="frame type"),
    ), ("client", "server")),
    0x30: Frame(0x30, "DATAGRAM", "RFC 9221, section 4", (
        Field(0, "number", "Type", unit="frame type"),
        Field(1, "rest", "Datagram Data"),
    ), ("client", "server")),
    0x31: Frame(0x31, "DATAGRAM", "RFC 9221, section 4", (
        Field(0, "number", "Type", unit="frame type"),
        Field(1, "counted", "Datagram Data", length="Length"),
    ), ("client", "server")),
    0xaf: Frame(0xaf, "ACK_FREQUENCY", "draft-ietf-quic-ack-frequency, section 4", (
        Field(0, "number", "Type", unit="frame type"),
        Field(1, "number", "Sequence Number", unit="sequence number"),
        Field(2, "number", "Ack-Eliciting Threshold", unit="packets"),
        Field(3, "number", "Requested Max Ack Delay", unit="microseconds"),
        Field(4, "number", "Reordering Threshold", unit="packets"),
    ), ("client", "server")),
}
# By their versions and kinds of packets; those without a version of their own have version 0.
HEADERS: dict[tuple[int, int], Header] = {
    (0x0, 4): Header(0x0, 4, "1-RTT", "RFC 9000, section 17.3.1", (
        Field(0, "first_byte", "", size=(1, 1)),
        Field(1, "short_id", "Destination Connection ID", size=(0, 20)),
    ), (
        Bits("Header Form", 1, value=0), Bits("Fixed Bit", 1, value=1), Bits("Spin Bit", 1), Bits("Reserved Bits", 2),
        Bits("Key Phase", 1), Bits("Packet Number Length", 2),
    ), ("Packet Number", "Packet Payload")),
    (0x0, 5): Header(0x0, 5, "Version Negotiation", "RFC 9000, section 17.2.1", (
        Field(0, "first_byte", "", size=(1, 1)),
        Field(1, "uint32", "Version", size=(4, 4), value=0),
        Field(
            2, "id", "Destination Connection ID", length="Destination Connection ID Length", size=(0, 20),
        ),
        Field(3, "id", "Source Connection ID", length="Source Connection ID Length", size=(0, 20)),
    ), (Bits("Header Form", 1, value=1), Bits("Unused", 7)), ("Supported Version",)),
    (0x1, 0): Header(0x1, 0, "Initial", "RFC 9000, section 17.2.2", (
        Field(0, "first_byte", "", size=(1, 1)),
        Field(1, "uint32", "Version", size=(4, 4)),
        Field(
            2, "id", "Destination Connection ID", length="Destination Connection ID Length", size=(0, 20),
        ),
        Field(3, "id", "Source Connection ID", length="Source Connection ID Length", size=(0, 20)),
        Field(4, "supported", "Version"),
        Field(5, "number", "Token Length"),
        Field(6, "token", "Token"),
        Field(7, "number", "Length"),
    ), (
        Bits("Header Form", 1, value=1), Bits("Fixed Bit", 1, value=1), Bits("Long Packet Type", 2, value=0),
        Bits("Reserved Bits", 2), Bits("Packet Number Length", 2),
    ), ("Packet Number", "Packet Payload")),
    (0x1, 1): Header(0x1, 1, "0-RTT", "RFC 9000, section 17.2.3", (
        Field(0, "first_byte", "", size=(1, 1)),
        Field(1, "uint32", "Version", size=(4, 4)),
        Field(
            2, "id", "Destination Connection ID", length="Destination Connection ID Length", size=(0, 20),
        ),
        Field(3, "id", "Source Connection ID", length="Source Connection ID Length", size=(0, 20)),
        Field(4, "supported", "Version"),
        Field(5, "number", "Length"),
    ), (
        Bits("Header Form", 1, value=1), Bits("Fixed Bit", 1, value=1), Bits("Long Packet Type", 2, value=1),
        Bits("Reserved Bits", 2), Bits("Packet Number Length", 2),
    ), ("Packet Number", "Packet Payload")),
    (0x1, 2): Header(0x1, 2, "Handshake", "RFC 9000, section 17.2.4", (
        Field(0, "first_byte", "", size=(1, 1)),
        Field(1, "uint32", "Version", size=(4, 4)),
        Field(
            2, "id", "Destination Connection ID", length="Destination Connection ID Length", size=(0, 20),
        ),
        Field(3, "id", "Source Connection ID", length="Source Connection ID Length", size=(0, 20)),
        Field(4, "supported", "Version"),
        Field(5, "number", "Length"),
    ), (
        Bits("Header Form", 1, value=1), Bits("Fixed Bit", 1, value=1), Bits("Long Packet Type", 2, value=2),
        Bits("Reserved Bits", 2), Bits("Packet Number Length", 2),
    ), ("Packet Number", "Packet Payload")),
    (0x1, 3): Header(0x1, 3, "Retry", "RFC 9000, section 17.2.5", (
        Field(0, "first_byte", "", size=(1, 1)),
        Field(1, "uint32", "Version", size=(4, 4)),
        Field(
            2, "id", "Destination Connection ID", length="Destination Connection ID Length", size=(0, 20),
        ),
        Field(3, "id", "Source Connection ID", length="Source Connection ID Length", size=(0, 20)),
        Field(4, "supported", "Version"),
    ), (
        Bits("Header Form", 1, value=1), Bits("Fixed Bit", 1, value=1), Bits("Long Packet Type", 2, value=3),
        Bits("Unused", 4),
    ), ("Retry Token", "Retry Integrity Tag")),
    (0x6b3343cf, 0): Header(0x6b3343cf, 0, "Initial", "RFC 9000, section 17.2.2", (
        Field(0, "first_byte", "", size=(1, 1)),
        Field(1, "uint32", "Version", size=(4, 4)),
        Field(
            2, "id", "Destination Connection ID", length="Destination Connection ID Length", size=(0, 20),
        ),
        Field(3, "id", "Source Connection ID", length="Source Connection ID Length", size=(0, 20)),
        Field(4, "supported", "Version"),
        Field(5, "number", "Token Length"),
        Field(6, "token", "Token"),
        Field(7, "number", "Length"),
    ), (
        Bits("Header Form", 1, value=1), Bits("Fixed Bit", 1, value=1), Bits("Long Packet Type", 2, value=1),
        Bits("Reserved Bits", 2), Bits("Packet Number Length", 2),
    ), ("Packet Number", "Packet Payload")),
    (0x6b3343cf, 1): Header(0x6b3343cf, 1, "0-RTT", "RFC 9000, section 17.2.3", (
        Field(0, "first_byte", "", size=(1, 1)),
        Field(1, "uint32", "Version", size=(4, 4)),
        Field(
            2, "id", "Destination Connection ID", length="Destination Connection ID Length", size=(0, 20),
        ),
        Field(3, "id", "Source Connection ID", length="Source Connection ID Length", size=(0, 20)),
        Field(4, "supported", "Version"),
        Field(5, "number", "Length"),
    ), (
        Bits("Header Form", 1, value=1), Bits("Fixed Bit", 1, value=1), Bits("Long Packet Type", 2, value=2),
        Bits("Reserved Bits", 2), Bits("Packet Number Length", 2),
    ), ("Packet Number", "Packet Payload")),
    (0x6b3343cf, 2): Header(0x6b3343cf, 2, "Handshake", "RFC 9000, section 17.2.4", (
        Field(0, "first_byte", "", size=(1, 1)),
        Field(1, "uint32", "Version", size=(4, 4)),
        Field(
            2, "id", "Destination Connection ID", length="Destination Connection ID Length", size=(0, 20),
        ),
        Field(3, "id", "Source Connection ID", length="Source Connection ID Length", size=(0, 20)),
        Field(4, "supported", "Version"),
        Field(5, "number", "Length"),
    ), (
        Bits("Header Form", 1, value=1), Bits("Fixed Bit", 1, value=1), Bits("Long Packet Type", 2, value=3),
        Bits("Reserved Bits", 2), Bits("Packet Number Length", 2),
    ), ("Packet Number", "Packet Payload")),
    (0x6b3343cf, 3): Header(0x6b3343cf, 3, "Retry", "RFC 9000, section 17.2.5", (
        Field(0, "first_byte", "", size=(1, 1)),
        Field(1, "uint32", "Version", size=(4, 4)),
        Field(
            2, "id", "Destination Connection ID", length="Destination Connection ID Length", size=(0, 20),
        ),
        Field(3, "id", "Source Connection ID", length="Source Connection ID Length", size=(0, 20)),
        Field(4, "supported", "Version"),
    ), (
        Bits("Header Form", 1, value=1), Bits("Fixed Bit", 1, value=1), Bits("Long Packet Type", 2, value=0),
        Bits("Unused", 4),
    ), ("Retry Token", "Retry Integrity Tag")),
}
PARAMETERS: dict[int, Parameter] = {
    0x0: Parameter(
        0, "original_destination_connection_id", "id", "an id of at most 20 bytes", "RFC 9000, section 18.2",
        ("server",), Readings(False, False), 16, size=(0, 20),
    ),
    0x1: Parameter(
        1, "max_idle_timeout", "number", "one variable-length integer and nothing after it", "RFC 9000, section 18.2",
        ("client", "server"), Readings(False, False), 0, unit="milliseconds, 0 for none", default=0,
        any_width=Readings(False, True),
    ),
    0x2: Parameter(
        2, "stateless_reset_token", "bytes", "16 bytes", "RFC 9000, section 18.2", ("server",), Readings(False, False),
        12, size=(16, 16),
    ),
    0x3: Parameter(
        3, "max_udp_payload_size", "number", "a number of 1200 or more", "RFC 9000, section 18.2",
        ("client", "server"), Readings(False, False), 1, unit="bytes", default=65527, bounds=(1200, None),
        any_width=Readings(False, True),
    ),
    0x4: Parameter(
        4, "initial_max_data", "number", "one variable-length integer and nothing after it", "RFC 9000, section 18.2",
        ("client", "server"), Readings(False, False), 2, unit="bytes", default=0, any_width=Readings(False, True),
    ),
    0x5: Parameter(
        5, "initial_max_stream_data_bidi_local", "number", "one variable-length integer and nothing after it",
        "RFC 9000, section 18.2", ("client", "server"), Readings(False, False), 3, unit="bytes", default=0,
        any_width=Readings(False, True),
    ),
    0x6: Parameter(
        6, "initial_max_stream_data_bidi_remote", "number", "one variable-length integer and nothing after it",
        "RFC 9000, section 18.2", ("client", "server"), Readings(False, False), 4, unit="bytes", default=0,
        any_width=Readings(False, True),
    ),
    0x7: Parameter(
        7, "initial_max_stream_data_uni", "number", "one variable-length integer and nothing after it",
        "RFC 9000, section 18.2", ("client", "server"), Readings(False, False), 5, unit="bytes", default=0,
        any_width=Readings(False, True),
    ),
    0x8: Parameter(
        8, "initial_max_streams_bidi", "number", "a number of at most 2^60", "RFC 9000, section 18.2",
        ("client", "server"), Readings(False, False), 6, unit="streams", default=0, bounds=(None, 1152921504606846976),
        any_width=Readings(False, True),
    ),
    0x9: Parameter(
        9, "initial_max_streams_uni", "number", "a number of at most 2^60", "RFC 9000, section 18.2",
        ("client", "server"), Readings(False, False), 7, unit="streams", default=0, bounds=(None, 1152921504606846976),
        any_width=Readings(False, True),
    ),
    0xa: Parameter(
        10, "ack_delay_exponent", "number", "a number of at most 20", "RFC 9000, section 18.2", ("client", "server"),
        Readings(False, False), 8, unit="power of 2", default=3, bounds=(None, 20), any_width=Readings(False, True),
    ),
    0xb: Parameter(
        11, "max_ack_delay", "number", "a number below 2^14", "RFC 9000, section 18.2", ("client", "server"),
        Readings(False, False), 9, unit="milliseconds", default=25, bounds=(None, 16383),
        any_width=Readings(False, True),
    ),
    0xc: Parameter(
        12, "disable_active_migration", "flag", "no bytes", "RFC 9000, section 18.2", ("client", "server"),
        Readings(False, False), 13, size=(0, 0),
    ),
    0xd: Parameter(
        13, "preferred_address", "preferred_address", "an address, an id that isn't empty, a token",
        "RFC 9000, section 18.2", ("server",), Readings(False, False), 15,
    ),
    0xe: Parameter(
        14, "active_connection_id_limit", "number", "a number of 2 or more", "RFC 9000, section 18.2",
        ("client", "server"), Readings(False, False), 10, unit="connection ids", default=2, bounds=(2, None),
        any_width=Readings(False, True),
    ),
    0xf: Parameter(
        15, "initial_source_connection_id", "id", "an id of at most 20 bytes", "RFC 9000, section 18.2",
        ("client", "server"), Readings(False, False), 17, size=(0, 20),
    ),
    0x10: Parameter(
        16, "retry_source_connection_id", "id", "an id of at most 20 bytes", "RFC 9000, section 18.2", ("server",),
        Readings(False, False), 18, size=(0, 20),
    ),
    0x1b: Parameter(
        27, "reserved", "skipped", "any bytes", "RFC 9000, section 18.1", ("client", "server"), Readings(True, True),
        11,
    ),
    0x20: Parameter(
        32, "max_datagram_frame_size", "number", "one variable-length integer and nothing after it",
        "RFC 9221, section 3", ("client", "server"), Readings(False, False), 14, unit="bytes",
        any_width=Readings(True, True),
    ),
    0x2ab2: Parameter(
        10930, "grease_quic_bit", "flag", "no bytes", "RFC 9287, section 3", ("client", "server"),
        Readings(True, False), 19, size=(0, 0),
    ),
    0xff04de1b: Parameter(
        4278509083, "min_ack_delay", "number", "a number of microseconds, at most max_ack_delay",
        "draft-ietf-quic-ack-frequency, section 3", ("client", "server"), Readings(True, False), 20,
        unit="microseconds", max_of=(1000, "max_ack_delay"), any_width=Readings(True, True),
    ),
}
ERROR_CODES: dict[int, ErrorCode] = {
    0x0: ErrorCode(
        0, 0, "NO_ERROR", "RFC 9000, section 20.1",
        "the connection is being closed abruptly in the absence of any error",
    ),
    0x1: ErrorCode(
        1, 1, "INTERNAL_ERROR", "RFC 9000, section 20.1",
        "the endpoint encountered an internal error and cannot continue with the connection",
    ),
    0x2: ErrorCode(
        2, 2, "CONNECTION_REFUSED", "RFC 9000, section 20.1", "the server refused to accept a new connection",
    ),
    0x3: ErrorCode(
        3, 3, "FLOW_CONTROL_ERROR", "RFC 9000, section 20.1",
        "received more data than permitted in advertised data limits",
    ),
    0x4: ErrorCode(
        4, 4, "STREAM_LIMIT_ERROR", "RFC 9000, section 20.1",
        "received a frame for a stream identifier that exceeded advertised the stream limit for the corresponding stream type",
    ),
    0x5: ErrorCode(
        5, 5, "STREAM_STATE_ERROR", "RFC 9000, section 20.1",
        "received a frame for a stream that was not in a state that permitted that frame",
    ),
    0x6: ErrorCode(
        6, 6, "FINAL_SIZE_ERROR", "RFC 9000, section 20.1",
        "received a STREAM frame or a RESET_STREAM frame containing a different final size to the one already established",
    ),
    0x7: ErrorCode(
        7, 7, "FRAME_ENCODING_ERROR", "RFC 9000, section 20.1", "received a frame that was badly formatted",
    ),
    0x8: ErrorCode(
        8, 8, "TRANSPORT_PARAMETER_ERROR", "RFC 9000, section 20.1",
        "received transport parameters that were badly formatted, included an invalid value, was absent even though it is mandatory, was present though it is forbidden, or is otherwise in error",
    ),
    0x9: ErrorCode(
        9, 9, "CONNECTION_ID_LIMIT_ERROR", "RFC 9000, section 20.1",
        "the number of connection IDs provided by the peer exceeds the advertised active_connection_id_limit",
    ),
    0xa: ErrorCode(
        10, 10, "PROTOCOL_VIOLATION", "RFC 9000, section 20.1",
        "detected an error with protocol compliance that was not covered by more specific error codes",
    ),
    0xb: ErrorCode(
        11, 11, "INVALID_TOKEN", "RFC 9000, section 20.1", "received an invalid Retry Token in a client Initial",
    ),
    0xc: ErrorCode(
        12, 12, "APPLICATION_ERROR", "RFC 9000, section 20.1",
        "the application or application protocol caused the connection to be closed during the handshake",
    ),
    0xd: ErrorCode(
        13, 13, "CRYPTO_BUFFER_EXCEEDED", "RFC 9000, section 20.1",
        "received more data in CRYPTO frames than can be buffered",
    ),
    0xe: ErrorCode(14, 14, "KEY_UPDATE_ERROR", "RFC 9000, section 20.1", "key update error"),
    0xf: ErrorCode(
        15, 15, "AEAD_LIMIT_REACHED", "RFC 9000, section 20.1",
        "the endpoint has reached the confidentiality or integrity limit for the AEAD algorithm",
    ),
    0x10: ErrorCode(16, 16, "NO_VIABLE_PATH", "RFC 9000, section 20.1", "no viable network path exists"),
    0x100: ErrorCode(256, 511, "CRYPTO_ERROR", "RFC 9001, section 4.8", ""),
}
REASONS: dict[int, Reason] = {
    -1: Reason(-1, "call", "ARGUMENT", 1, "", "invalid argument"),
    -2: Reason(-2, "call", "PLACE", 1, "", "place outside of the bytes"),
    -3: Reason(-3, "call", "KIND", 1, "", "no such kind"),
    -5: Reason(-5, "call", "NUMBER", 1, "", "number out of range"),
    -6: Reason(-6, "call", "LENGTH", 1, "", "length out of range"),
    -7: Reason(-7, "call", "RANGES", 1, "", "ranges not sorted or touching"),
    -8: Reason(-8, "call", "PARAM", 1, "", "parameters that the peer would refuse"),
    -9: Reason(-9, "call", "NOBUF", 1, "", "buffer too small"),
    -20: Reason(-20, "frame", "PAYLOAD_EMPTY", 10, "RFC 9000, section 12.4", "packet payload is empty"),
    -21: Reason(-21, "frame", "FRAME_END", 7, "RFC 9000, section 20.1", "unexpected end"),
    -22: Reason(-22, "frame", "FRAME_TYPE", 7, "RFC 9000, section 12.4", "invalid frame ID"),
    -23: Reason(
        -23, "frame", "FRAME_MALFORMED", 7, "RFC 9000, sections 19.3.1, 19.7, 19.15", "malformed",
    ),
    -24: Reason(
        -24, "frame", "FRAME_LONG_TYPE", 10, "RFC 9000, section 12.4", "frame type not in shortest form",
    ),
    -25: Reason(
        -25, "frame", "FRAME_LIMIT", 7, "RFC 9000, sections 19.6, 19.8, 19.11, 19.14", "limit exceeded",
    ),
    -26: Reason(
        -26, "frame", "FRAME_PACKET", 10, "RFC 9000, section 12.4", "not permitted in this packet",
    ),
    -27: Reason(
        -27, "frame", "FRAME_SENDER", 10, "RFC 9000, sections 19.7, 19.20", "not permitted from this side",
    ),
    -28: Reason(
        -28, "frame", "FRAME_STREAM", 5, "RFC 9000, sections 19.4, 19.5, 19.8, 19.10, 19.13",
        "not permitted on this stream",
    ),
    -40: Reason(-40, "header", "PACKET_END", 0, "RFC 9000, section 17", "unexpected end of packet"),
    -41: Reason(
        -41, "header", "PACKET_FIXED_BIT", 0, "RFC 9000, sections 17.2, 17.3.1", "fixed bit unset",
    ),
    -42: Reason(-42, "header", "PACKET_SMALL", 0, "RFC 9001, section 5.4.2", "packet too small"),
    -43: Reason(-43, "header", "PACKET_CID", 0, "RFC 9000, section 17.2", "malformed cid"),
    -44: Reason(-44, "header", "PACKET_TOKEN", 0, "RFC 9000, section 17.2.2", "token out of bounds"),
    -45: Reason(-45, "header", "PACKET_VERSION", 0, "RFC 9000, section 6.1", "unsupported version"),
    -46: Reason(
        -46, "header", "PACKET_CUT", 0, "RFC 9000, section 12.2", "packet too short to contain payload length",
    ),
    -47: Reason(
        -47, "header", "PACKET_RETRY", 0, "RFC 9000, section 17.2.5", "Retry without a token or a tag",
    ),
    -60: Reason(-60, "list", "PARAMS_MALFORMED", 8, "RFC 9000, section 7.4", "malformed"),
    -61: Reason(-61, "list", "PARAMS_ILLEGAL", 8, "RFC 9000, sections 7.4, 18.2", "illegal value"),
}
PREFERRED_ADDRESS: tuple[Field, ...] = (
    Field(0, "bytes", "IPv4 Address", size=(4, 4)),
    Field(1, "bytes", "IPv4 Port", size=(2, 2)),
    Field(2, "bytes", "IPv6 Address", size=(16, 16)),
    Field(3, "bytes", "IPv6 Port", size=(2, 2)),
    Field(4, "id", "Connection ID", length="Connection ID Length", size=(1, 20)),
    Field(5, "bytes", "Stateless Reset Token", size=(16, 16)),
)
