"""python/src/quic_wire/_formats.py."""
import json

from lib.tables import proved
from lib.tables.formats import MADE, filled, headers, wanted

PATH = "python/src/quic_wire/_formats.py"
BEGIN = f'''"""The formats of QUIC as data: the fields of frames and headers, transport parameters, error codes.

{MADE}
docs/formats.schema.json explains the members.
"""

from __future__ import annotations

import enum
from typing import NamedTuple, Optional


class Field(NamedTuple):
    """A field of a frame, a header or a preferred address."""

    position: int
    """The index of its span; 0 is the type or the first byte. In a preferred address the number of the field."""
    kind: str
    name: str
    """The RFC's; empty for a rule, which has no bytes."""
    unit: str = ""
    length: str = ""
    """The name of the length before its bytes, if that is written."""
    numbers: tuple[str, ...] = ()
    """Of the ranges of an ACK: the names of the count, the first range, a gap and a length."""
    size: Optional[tuple[int, int]] = None
    """The least and the most bytes, without those of a length."""
    most: Optional[int] = None
    """The greatest number, if it is less than 2^62 - 1."""
    value: Optional[int] = None
    """The number that the frame's type implies."""
    at_most: Optional[tuple[int, int]] = None
    """Of a rule: two indices; the number of the first field is at most that of the second."""


class Frame(NamedTuple):
    """A type of frame."""

    type: int
    name: str
    section: str
    fields: tuple[Field, ...]
    senders: tuple[str, ...]


class Bits(NamedTuple):
    """Bits of a first byte, the highest first."""

    name: str
    bits: int
    value: Optional[int] = None
    """If it is always the same."""


class Header(NamedTuple):
    """A header of a version and a kind of packet."""

    version: int
    kind: int
    name: str
    section: str
    fields: tuple[Field, ...]
    first_byte: tuple[Bits, ...]
    after: tuple[str, ...]
    """The names of what follows the header."""


class Readings(NamedTuple):
    """Whether something is accepted, by both readings."""

    quinn_proto: bool
    rfc: bool


class Parameter(NamedTuple):
    """A transport parameter."""

    id: int
    name: str
    kind: str
    wanted: str
    """What its value must be."""
    section: str
    senders: tuple[str, ...]
    repeat: Readings
    order: int
    """Its number among those that are written."""
    unit: str = ""
    default: Optional[int] = None
    bounds: tuple[Optional[int], Optional[int]] = (None, None)
    """The least and the greatest number, if these are bounded."""
    max_of: Optional[tuple[int, str]] = None
    """The greatest number: so many times that of another parameter."""
    size: Optional[tuple[int, int]] = None
    """The least and the most bytes."""
    any_width: Optional[Readings] = None
    """Of a number: whether it may be in any encoding."""


class ErrorCode(NamedTuple):
    """A code to close with."""

    code: int
    last: int
    """The last code of this name."""
    name: str
    section: str
    text: str
    """quinn-proto's; empty for the codes of TLS alerts."""


class Reason(NamedTuple):
    """Why something is rejected."""

    number: int
    about: str
    """A call, a frame, a header or a list of parameters."""
    name: str
    close_code: int
    section: str
    text: str
    """What the library says of it."""


# fmt: off
'''
# The types of packets that have another name than in C.
PACKETS = {"0RTT": "ZERO_RTT", "1RTT": "ONE_RTT"}
# The enumerations of other modules, with what they are.
PACKET_TYPES = ("PacketType", "packets", "The types of packets in Packet.kind.")
KINDS = (
    "ErrorKind", "errors",
    "Why something is rejected: the results of the library for C, by their names and numbers.")
CODES = (
    "Code", "errors", "The codes of a CONNECTION_CLOSE (RFC 9000, section 20.1). A TLS alert is added to CRYPTO_ERROR.")


def text(value):
    """A value as Python has it; an object is what both readings accept."""
    if isinstance(value, dict):
        return f"Readings({value['quinn_proto']}, {value['rfc']})"
    if isinstance(value, (list, tuple)):
        return "(" + ", ".join(map(text, value)) + "," * (len(value) == 1) + ")"
    return json.dumps(value) if isinstance(value, str) else repr(value)


def call(name, needed, optional, indent):
    """A call of a class, its optional members by name."""
    given = [f"{word}={text(value)}" for word, value in optional.items() if value not in (None, "", (), (None, None))]
    return filled(f"{name}(", [*map(text, needed), *given], ")", indent)


def field(one, indent, index=0):
    name = one.get("name", "")
    assert one.get("key", "") == name.lower().replace(" ", "_").replace("-", "_"), name
    return indent + call("Field", [one.get("index", index), one["kind"], name], {
        "unit": one.get("unit"), "length": one.get("length", {}).get("name"),
        "numbers": tuple(number["name"] for number in one.get("numbers", ())),
        "size": one.get("bytes"), "most": one.get("max"), "value": one.get("value"),
        "at_most": tuple(one.get("at_most", {}).values()),
    }, indent) + ",\n"


def rows(fields):
    return "".join(field(one, " " * 8) for one in fields)


def frame(one):
    number = f"{one['type']:#04x}"
    return (
        f"    {number}: Frame({number}, {text(one['name'])}, {text(one['section'])}, (\n"
        f"{rows(one['fields'])}    ), {text(one['senders'])}),\n")


def header(version, kind, one):
    bits = [call("Bits", [it["name"], it["bits"]], {"value": it.get("value")}, "") for it in one["first_byte"]]
    return (
        f"    ({version:#x}, {kind}): Header({version:#x}, {kind}, {text(one['name'])}, {text(one['section'])}, (\n"
        f"{rows(one['fields'])}    ), {filled('(', bits, ')', '    ')},"
        f" {text([part['name'] for part in one['after']])}),\n")


def parameter(one):
    needed = [
        one["id"], one["name"], one["kind"], wanted(one), one["section"], one["senders"], one["repeat"], one["order"]]
    return f"    {one['id']:#x}: " + call("Parameter", needed, {
        "unit": one.get("unit"), "default": one.get("default"), "bounds": (one.get("min"), one.get("max")),
        "max_of": tuple(one.get("max_of", {}).values()), "size": one.get("bytes"),
        "any_width": one.get("any_width"),
    }, "    ") + ",\n"


def error_code(one):
    needed = [one["code"], one.get("last", one["code"]), one["name"], one["section"], one.get("text", "")]
    return f"    {one['code']:#x}: {call('ErrorCode', needed, {}, '    ')},\n"


def reason(one):
    needed = [one["number"], one["about"], one["name"], one["close_code"], one.get("section", ""), one.get("text", "")]
    return f"    {one['number']}: {call('Reason', needed, {}, '    ')},\n"


def enumeration(name, module, doc, members):
    lines = "".join(f"    {word} = {number}\n" for word, number in members)
    return f'class {name}(enum.IntEnum):\n    """{doc}"""\n\n    __module__ = "quic_wire.{module}"\n\n{lines}\n\n'


def made(formats):
    packets = ((PACKETS.get(name, name), number) for name, number in proved.packet_kinds().items())
    codes = ((one["name"], f"{one['code']:#04x}") for one in formats["error_codes"])
    kinds = ((one["name"], one["number"]) for one in formats["reasons"] if one["about"] != "call")
    tables = {
        "FRAMES: dict[int, Frame] = {": map(frame, formats["frames"]),
        "# By their versions and kinds of packets; those without a version of their own have version 0.\n"
        "HEADERS: dict[tuple[int, int], Header] = {": (header(*one) for one in headers(formats)),
        "PARAMETERS: dict[int, Parameter] = {": map(parameter, formats["parameters"]),
        "ERROR_CODES: dict[int, ErrorCode] = {": map(error_code, formats["error_codes"]),
        "REASONS: dict[int, Reason] = {": map(reason, formats["reasons"]),
    }
    address = "".join(field(one, "    ", index) for index, one in enumerate(formats["preferred_address"]))
    parts = [f"{begin}\n{''.join(some)}}}\n" for begin, some in tables.items()]
    return (
        f"{BEGIN}{enumeration(*CODES, codes)}{enumeration(*KINDS, kinds)}{enumeration(*PACKET_TYPES, packets)}"
        f"{''.join(parts)}"
        f"PREFERRED_ADDRESS: tuple[Field, ...] = (\n{address})\n")
