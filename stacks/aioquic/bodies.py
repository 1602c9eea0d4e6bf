"""Runs aioquic's own tests on a tree whose handlers are given frames.

bodies.py TREE [ARGUMENT ..]: python -m unittest with these arguments, in TREE

aioquic's handlers read the body of a frame from a Buffer, and its tests hand them such buffers. The changed handlers
are given frames that were read; here they also take a Buffer, whose frame is read first, as _payload_received would.
"""

import functools
import os
import sys
import unittest

tree = os.path.abspath(sys.argv[1])
os.chdir(tree)
sys.path[:0] = [os.path.join(tree, "src"), tree]
from aioquic.buffer import Buffer  # noqa: E402
from aioquic.quic import connection  # noqa: E402
from quic_wire import Checks, FrameError, read_frame_body  # noqa: E402


def with_bodies(handle):
    """A handler that also takes a Buffer."""

    @functools.wraps(handle)
    def handle_either(self, context, frame_type, frame):
        if isinstance(frame, Buffer):
            begin = frame.tell()
            body = frame.data_slice(begin, frame.capacity)
            try:
                read, length = read_frame_body(frame_type, body, checks=Checks.RFC)
            except FrameError as error:
                raise connection.rejected(error) from error
            frame.seek(begin + length)
            frame = read
        return handle(self, context, frame_type, frame)

    return handle_either


for name, handle in list(vars(connection.QuicConnection).items()):
    if name.startswith("_handle_") and name.endswith("_frame"):
        setattr(connection.QuicConnection, name, with_bodies(handle))
unittest.main(module=None, argv=["python -m unittest", *sys.argv[2:]])
