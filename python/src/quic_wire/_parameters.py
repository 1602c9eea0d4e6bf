"""What is wrong with the transport parameter at fault (RFC 9000, sections 7.4 and 18)."""

from __future__ import annotations

from collections.abc import Iterator
from typing import NamedTuple, Optional

from ._formats import PARAMETERS, Parameter
from ._wire import _entry_at, varint_at, varint_len
from .checks import Checks

SERVER = 1
KNOWN: dict[int, Parameter] = {number: known for number, known in PARAMETERS.items() if known.kind != "skipped"}
# Those that a client must not send.
OF_SERVERS = [number for number, known in KNOWN.items() if "client" not in known.senders]
_LONG = "its integer isn't in its shortest encoding, which RFC 9000, section 16, allows and quinn-proto rejects"


class Fault(NamedTuple):
    """The parameter at fault, and what is wrong with it."""

    offset: Optional[int] = None
    id: Optional[int] = None
    value: Optional[bytes] = None
    why: Optional[str] = None
    wanted: Optional[str] = None
    section: str = "RFC 9000, section 7.4"

    @property
    def name(self) -> Optional[str]:
        """The parameter's name, if it is known."""
        known = KNOWN.get(self.id) if self.id is not None else None
        return known.name if known else None


class Entry(NamedTuple):
    """An entry of a list of transport parameters, by its offsets in the list."""

    id: int
    begin: int
    value: int
    end: int


def entries(data: memoryview) -> Iterator[Entry]:
    """The entries up to the first one that is cut off."""
    at = 0
    while at < len(data):
        read = _entry_at(data, at)
        if read is None:
            return
        number, value, end = read
        yield Entry(number, at, value, end)
        at = end


def _is_repeat(checks: Checks, before: memoryview, number: int) -> bool:
    if KNOWN[number].repeat.quinn_proto and Checks.NO_REPEATS not in checks:
        return False
    return any(entry.id == number for entry in entries(before))


def _is_long(checks: Checks, number: int, value: memoryview) -> bool:
    """Whether the encoding of a number isn't accepted as it isn't the shortest."""
    width = KNOWN[number].any_width
    if width is None or width.quinn_proto or Checks.ANY_WIDTH in checks:
        return False
    read = varint_at(value, 0)
    return read is not None and read[1] == len(value) and varint_len(read[0]) != len(value)


def cut_off(begin: int, number: Optional[int]) -> Fault:
    """An entry that isn't whole, with its id if that is there."""
    return Fault(begin, number, None, "it is cut off", None, "RFC 9000, section 18")


def fault_of(side: int, checks: Checks, data: memoryview, begin: int, number: Optional[int]) -> Fault:
    """What is wrong with the entry of a list that begins there, with the parameter's id if that is there."""
    entry = next(entries(data[begin:]), None)
    known = KNOWN.get(entry.id) if entry else None
    if entry is None or known is None:
        return cut_off(begin, number)
    value = data[begin + entry.value : begin + entry.end]
    found = Fault(begin, entry.id, bytes(value), section=known.section)
    if _is_repeat(checks, data[:begin], entry.id):
        return found._replace(why="it occurs twice", section="RFC 9000, section 7.4")
    if side == SERVER and entry.id in OF_SERVERS:
        return found._replace(why="a client must not send it")
    if _is_long(checks, entry.id, value):
        return found._replace(why=_LONG)
    return found._replace(why="its value is invalid", wanted=known.wanted)
