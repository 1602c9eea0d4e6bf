"""Transport parameters (RFC 9000, section 18)."""

from __future__ import annotations

import enum
import ipaddress
import operator
from collections.abc import Iterable, Iterator
from dataclasses import dataclass
from typing import Any, NamedTuple, Optional

from ._formats import PARAMETERS
from ._parameters import KNOWN, entries
from ._types import Buffer
from ._wire import (
    FAULT_DELAY,
    FAULT_HIGH,
    FAULT_LOW,
    FAULT_SENDER,
    _Parameters,
    is_known_parameter,
    varint_at,
    write_parameter,
)
from .errors import _parameter_cut_off

__all__ = ["Parameter", "PreferredAddress", "Side", "TransportParameters", "parameters"]

_ROWS = {number: known.order for number, known in KNOWN.items()}
_FURTHER_ROW = len(PARAMETERS)
_MOST_FURTHER = 256 - _FURTHER_ROW  # a row is a byte
_SMALL = 1000  # greater bounds are written as powers of 2
_MAX_CID_LEN = 20
_RESET_TOKEN_LEN = 16


class Side(enum.IntEnum):
    """A side of a connection.

    The argument `side` is the one that reads or writes: a client reads what a server sent. `sender` is the one that
    sends a packet and the frames in it.
    """

    CLIENT = 0
    SERVER = 1


_SIDES = tuple(Side)
# The attributes of an object, if its class has some; mypy 1.0 doesn't know that objects have the method.
_state_of = operator.methodcaller("__getstate__")


@dataclass(frozen=True, slots=True)
class PreferredAddress:
    """The address to which a server asks its client to move (RFC 9000, section 9.6), each with its port."""

    connection_id: bytes
    reset_token: bytes
    v4: Optional[tuple[ipaddress.IPv4Address, int]] = None
    v6: Optional[tuple[ipaddress.IPv6Address, int]] = None


class TransportParameters(_Parameters):
    """Transport parameters, each named as in the RFC; those that aren't given have their defaults, or are absent.

    They are equal if their values are, whether these were given or not. Compare a stateless_reset_token with received bytes by hmac.compare_digest (RFC 9000, section 10.3.1).
    """

    __slots__ = ()

    @property
    def present(self) -> frozenset[str]:
        """The names of those that were in the list that was read, or were given."""
        return frozenset(self.as_dict(present=True))

    def __reduce__(self) -> tuple[Any, ...]:
        # By the names that were given, so that they are given again.
        made = _of_dict, (_Parameters.as_dict(self, present=True), type(self))
        state = _state_of(self)
        return made if state is None else (*made, state)

    def write(self, side: Side, further: Iterable[tuple[int, Buffer]] = (), order: Iterable[int] = ()) -> bytes:
        """The shortest list of these parameters, as `side` sends them.

        further has parameters that this class doesn't have, as ids and values: at most 235, each id once. order has the
        ids that come first, each once, in their order; the others follow. Raises ValueError if the peer would reject
        the list.
        """
        if side not in _SIDES:
            raise ValueError("side must be Side.CLIENT or Side.SERVER")
        more, first = list(further), list(order)
        ids = [number for number, _ in more]
        _check_ids(ids, first)
        listed = b"".join([write_parameter(number, value) for number, value in more])
        try:
            return self._write(side, listed, _rows(ids, first) if first else b"")
        except ValueError:
            fault = self._write_fault(side)
            if fault is None:
                raise
            raise ValueError(_why_rejected(self, *fault)) from None


def _rows(further: list[int], first: list[int]) -> bytes:
    """The rows of all parameters, those of these ids first, as _write is given them."""
    rows = _ROWS | {number: _FURTHER_ROW + i for i, number in enumerate(further)}
    begin = [rows[number] for number in first]
    return bytes(begin + sorted({*range(_FURTHER_ROW), *rows.values()}.difference(begin)))


def _shown(number: int) -> str:
    return str(number) if number < 10 else hex(number)


def _check_ids(further: list[int], order: list[int]) -> None:
    """Raises ValueError or TypeError if TransportParameters.write can't be given these ids."""
    for name, ids in (("further", further), ("order", order)):
        for i, number in enumerate(ids):
            if not isinstance(number, int):
                raise TypeError(f"the ids in {name} must be int")
            if number in ids[:i]:
                raise ValueError(f"{name} has {_shown(number)} twice")
    for number in further:
        if number in KNOWN:
            raise ValueError(f"{_shown(number)} in further is a known parameter")
    for number in order:
        if number not in KNOWN and number not in further:
            raise ValueError(f"{_shown(number)} in order is neither a known parameter nor in further")
    if len(further) > _MOST_FURTHER:
        raise ValueError(f"further must have at most {_MOST_FURTHER} parameters")


def _bound(number: int) -> str:
    """A number as it is written in messages."""
    if number < _SMALL:
        return str(number)
    return f"2^{number.bit_length() - 1}" if number & 1 == 0 else f"2^{number.bit_length()} - 1"


def _why_rejected(values: TransportParameters, fault: int, number: int) -> str:
    """Why the peer would reject the value of the parameter with this id."""
    known = KNOWN[number]
    least, most = known.bounds
    if fault == FAULT_LOW and least is not None:
        return f"{known.name} must be at least {least}"
    if fault == FAULT_HIGH and most is not None:
        return f"{known.name} must be at most {_bound(most)}"
    if fault == FAULT_DELAY and known.max_of:
        times, other = known.max_of
        return f"{known.name} must be at most {other}, {times * getattr(values, other)} {known.unit}"
    if fault == FAULT_SENDER:
        return f"a client must not send {known.name}"
    return f"{known.name} must be {known.wanted}"


class Parameter(NamedTuple):
    """An entry of a list, whether TransportParameters has it or not.

    begin and end are its offsets in the list. value is a view of the bytes that were read.
    """

    id: int
    value: memoryview
    begin: int
    end: int

    @property
    def is_known(self) -> bool:
        """Whether TransportParameters has it."""
        return is_known_parameter(self.id)

    @property
    def name(self) -> Optional[str]:
        """Its name in the RFC, if it is known."""
        return KNOWN[self.id].name if self.id in KNOWN else None

    def __repr__(self) -> str:
        return f"Parameter(id={self.id}, value={bytes(self.value)!r}, begin={self.begin}, end={self.end})"

    def __hash__(self) -> int:
        return hash((self.id, bytes(self.value), self.begin, self.end))

    def __reduce__(self) -> tuple[Any, ...]:
        return _of_entry, (self.id, bytes(self.value), self.begin, self.end)


def _of_entry(number: int, value: bytes, begin: int, end: int) -> Parameter:
    return Parameter(number, memoryview(value), begin, end)


def parameters(data: Buffer) -> Iterator[Parameter]:
    """The entries of a list, one by one, whatever their values. Raises ParameterError at one that is cut off."""
    view = memoryview(data).cast("B").toreadonly()
    end = 0
    for entry in entries(view):
        end = entry.end
        yield Parameter(entry.id, view[entry.value : end], entry.begin, end)
    if end != len(view):
        number = varint_at(view, end)
        raise _parameter_cut_off(end, number[0] if number else None)


def _of_dict(values: dict[str, Any], kind: type[TransportParameters] = TransportParameters) -> TransportParameters:
    return kind.__new__(kind, **values)


def _address_read(
    cid: bytes, token: bytes, v4: Optional[bytes], v4_port: int, v6: Optional[bytes], v6_port: int
) -> PreferredAddress:
    """A preferred address as an object, from its parts."""
    ipv4 = None if v4 is None else (ipaddress.IPv4Address(v4), v4_port)
    ipv6 = None if v6 is None else (ipaddress.IPv6Address(v6), v6_port)
    return PreferredAddress(cid, token, ipv4, ipv6)


def _address_parts(a: PreferredAddress) -> tuple[bytes, bytes, Optional[bytes], int, Optional[bytes], int]:
    """The parts of a preferred address, checked."""
    if not isinstance(a, PreferredAddress):
        raise TypeError("preferred_address must be a PreferredAddress")
    for name, address, kind in (("v4", a.v4, ipaddress.IPv4Address), ("v6", a.v6, ipaddress.IPv6Address)):
        if address and not (len(address) == 2 and isinstance(address[0], kind)):
            raise TypeError(f"{name} of a PreferredAddress must be an ipaddress.{kind.__name__} and a port")
    cid, token = bytes(memoryview(a.connection_id)), bytes(memoryview(a.reset_token))
    if not 1 <= len(cid) <= _MAX_CID_LEN or len(token) != _RESET_TOKEN_LEN:
        raise ValueError("a preferred address has an id of 1 to 20 bytes and a token of 16")
    v4, v4_port = (a.v4[0].packed, a.v4[1]) if a.v4 else (None, 0)
    v6, v6_port = (a.v6[0].packed, a.v6[1]) if a.v6 else (None, 0)
    if not all(0 <= port < 1 << 16 for port in (v4_port, v6_port)):
        raise ValueError("a port must be below 2^16")
    return cid, token, v4, v4_port, v6, v6_port
