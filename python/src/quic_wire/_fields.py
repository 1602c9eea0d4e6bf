"""Fields, where the library says that they are, with the RFC's names; and the one at fault."""

from __future__ import annotations

from collections.abc import Sequence
from typing import NamedTuple, Optional

from . import _formats
from ._formats import FRAMES, HEADERS, Header
from ._wire import FRAME_LIMIT, FRAME_MALFORMED, PACKET_FIXED_BIT

FRAME_TYPE_FIELD = FRAMES[0].fields[0].name
_FIRST_BYTE = "First Byte"
_ID, _LENGTH, _VALUE = "Parameter ID", "Parameter Length", "Parameter Value"
_RULE = "supported"  # whether the version is read
_LONG, _V1 = 0x80, 1
_BELOW_0 = "a packet number would be below 0"
_PAST_MOST = "the data end past 2^62 - 1"
# What is wrong with the value of a field, for the library's results.
_WHY = {
    (FRAME_MALFORMED, "First ACK Range"): _BELOW_0,
    (FRAME_MALFORMED, "Gap"): _BELOW_0,
    (FRAME_MALFORMED, "ACK Range Length"): _BELOW_0,
    (FRAME_MALFORMED, "Retire Prior To"): "Retire Prior To is greater than Sequence Number",
    (FRAME_MALFORMED, "Length"): "Length must be from 1 to 20",
    (FRAME_MALFORMED, "Token Length"): "the token is empty",
    (FRAME_LIMIT, "Maximum Streams"): "it is greater than 2^60",
    (FRAME_LIMIT, "Length"): _PAST_MOST,
    (FRAME_LIMIT, "Offset"): _PAST_MOST,
}


class Place(NamedTuple):
    """A field, by its name in the RFC, and where it begins."""

    field: str
    at: int


# What the library returns of fields: see Read.
Raw = tuple[int, Sequence[tuple[int, int, int]], int, int, int]


class Field(NamedTuple):
    """A field of what was read.

    - name: its name in the RFC.
    - begin, end: where it begins and ends in the bytes that were read; equal for one that the frame's type implies.
    - number: its value. Of bytes how many they are, without a length before them in the field: they begin at
      end - number. Of an ACK's ranges how many are below the first one; of versions how many they are.
    """

    name: str
    begin: int
    end: int
    number: int


class Read(NamedTuple):
    """What the library read: the fields before the one at fault, which begins at `end`.

    `numbers` numbers in `inside` bytes of that one could be read.
    """

    result: int
    spans: Sequence[tuple[int, int, int]]
    """Where each begins and ends, and its number."""
    end: int
    inside: int
    numbers: int


def _place(row: _formats.Field, read: Read) -> Place:
    """What is at fault in the field of a row: one of its numbers, or the bytes after them."""
    index, at = read.numbers, read.end + read.inside
    if row.numbers:
        return Place(row.numbers[index if index < 2 else 2 + index % 2], at)
    return Place(row.length if row.length and index == 0 else row.name, at)


def of_frame(read: Read) -> list[Field]:
    """The fields of a frame that were read."""
    if not read.spans:
        return []
    rows = FRAMES[read.spans[0][2]].fields
    # A rule has no name.
    return [Field(row.name, *span) for row, span in zip(rows, read.spans) if row.name]


def in_frame(read: Read) -> tuple[Place, Optional[str]]:
    """The field at fault in a frame, and what is wrong with its value, if it is there."""
    if not read.spans or read.result >= 0:
        # Bytes that another thread changed may be a frame by now.
        return Place(FRAME_TYPE_FIELD, read.spans[0][0] if read.spans else read.end), None
    fields = FRAMES[read.spans[0][2]].fields
    row = fields[len(read.spans)]
    place = _place(row, read)
    if row.at_most:
        # A rule, which the first of two fields breaks.
        index, _ = row.at_most
        place = Place(fields[index].name, read.spans[index][0])
    return place, _WHY.get((read.result, place.field))


def header_of(first: int, version: int) -> Header:
    """The header of a packet, by its first byte; a version that isn't known has those of version 1."""
    if not first & _LONG:
        return HEADERS[0, 4]
    if version == 0:
        return HEADERS[0, 5]
    of = version if (version, 0) in HEADERS else _V1
    headers = (header for (number, _), header in HEADERS.items() if number == of)
    return next(header for header in headers if header.first_byte[2].value == first >> 4 & 3)


def _header(read: Read) -> Header:
    """The header of which at least the first byte was read."""
    return header_of(read.spans[0][2], read.spans[1][2] if len(read.spans) > 1 else 0)


def of_header(read: Read) -> list[Field]:
    """The fields of a header that were read, and of what follows it in a packet without a number."""
    if not read.spans:
        return []
    header = _header(read)
    names = [row.name if row.kind != _RULE else "" for row in header.fields]
    names = [_FIRST_BYTE, *names[1:], *header.after]
    return [Field(name, *span) for name, span in zip(names, read.spans) if name]


def in_header(read: Read, begin: int) -> Optional[Place]:
    """The field at fault in a packet that begins there, if one is."""
    if read.result == PACKET_FIXED_BIT:
        return Place("Fixed Bit", begin)
    if read.result >= 0:
        return None
    count = len(read.spans)
    if count == 0:
        return Place(_FIRST_BYTE, begin)
    header = _header(read)
    if count >= len(header.fields):
        return Place(header.after[count - len(header.fields)], read.end)
    return _place(header.fields[count], read)


def of_entry(read: Read) -> list[Field]:
    """The fields of an entry of a list of transport parameters that were read."""
    return [Field(name, *span) for name, span in zip((_ID, _VALUE), read.spans)]


def in_entry(read: Read) -> Place:
    """The field at fault in an entry that is cut off."""
    name = _VALUE if read.numbers else _LENGTH if read.spans else _ID
    return Place(name, read.end + read.inside)
