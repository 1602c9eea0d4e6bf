"""Frames that the library doesn't know: they encode themselves, and may have the body of one that it knows."""

from __future__ import annotations

from typing import Protocol, runtime_checkable

from ._wire import Frame, frames, read_varint, write_varint
from .checks import Checks


@runtime_checkable
class Encodes(Protocol):
    """A frame that the library doesn't know."""

    def encode(self) -> bytes:
        """All its bytes, with its type."""


def encoded(i: int, frame: Encodes) -> bytes:
    """The bytes of an object at a place of a payload."""
    if isinstance(frame, str | type) or not isinstance(frame, Encodes):
        raise TypeError(f"payload[{i}] must be a Frame or have a method encode, not {type(frame).__name__}")
    own = frame.encode()
    if not isinstance(own, bytes):
        raise TypeError(f"payload[{i}].encode() must return bytes, not {type(own).__name__}")
    if not own:
        raise ValueError(f"payload[{i}].encode() must return at least a frame's type")
    return own


def read_frame_body(
    frame_type: int, body: bytes | bytearray | memoryview, *, checks: Checks = Checks.QUINN
) -> tuple[Frame, int]:
    """The frame of this type whose body, the fields behind the type, is at the front, and where that body ends.

    An extension's frame may have such a body too, as PATH_ACK of multipath has that of an ACK behind a path's id. The
    bytes are copied: the frame's own places, and those of an error, count from the type, as if it stood before them.

    Raises FrameError if the bytes don't begin with a body of this type, or the frame breaks a rule of checks.
    """
    front = write_varint(frame_type)
    # The body of PADDING is empty: what follows is PADDING of its own.
    frame = next(frames(front if frame_type == 0 else front + bytes(memoryview(body)), checks=checks))
    return frame, frame.end - len(front)


def write_frame_body(frame: Frame, *, last: bool = False, checks: Checks = Checks.QUINN) -> tuple[int, bytes]:
    """The type with which a frame is written, and its body, in the shortest form: what Frame.encode writes.

    Raises FrameError if the frame breaks a rule of checks.
    """
    whole = Frame.encode(frame, last=last, checks=checks)
    frame_type, end = read_varint(whole)
    return frame_type, whole[end:]
