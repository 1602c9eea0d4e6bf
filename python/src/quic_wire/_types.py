"""Types of arguments."""

from __future__ import annotations

from typing import Union

Buffer = Union[bytes, bytearray, memoryview]
