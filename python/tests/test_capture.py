"""What is read from a capture, compared with what c/examples/capture.c prints of it."""

import io
import pathlib
import unittest

import quic_wire as q
from quic_wire import capture

try:
    import quic_wire.ciphers  # noqa: F401
except ImportError:
    raise unittest.SkipTest("the package cryptography isn't there") from None

FOLDER = pathlib.Path(__file__).parents[2] / "c" / "tests"
NAMES = ("initial", "0rtt", "handshake", "retry", "short", "version-negotiation", "unknown")


def frame_line(frame):
    """The line of a frame: its name and fields; for data, how many bytes."""
    if isinstance(frame, q.Padding):
        return f"  PADDING {frame.count}"
    if isinstance(frame, q.Ack):
        ranges = "".join(f" {one.start}..{one.stop - 1}" for one in frame.ranges)
        counts = "" if frame.ect0 is None else f" ect0 {frame.ect0} ect1 {frame.ect1} ce {frame.ce}"
        return f"  {frame.name} largest {frame.largest} delay {frame.delay} ranges{ranges}{counts}"
    if isinstance(frame, q.Crypto):
        return f"  CRYPTO offset {frame.offset} length {len(frame.data)}"
    return f"  {frame.name}"


def lines(captured):
    packet, sender = captured.packet, "cs"[captured.sender]
    line = f"{captured.datagram.frame} {sender} {NAMES[packet.kind]}"
    if isinstance(packet, q.OneRtt):
        line += f" dst {packet.dcid.hex() or '-'}"
    else:
        line += f" version {packet.version:08x} dst {packet.dcid.hex() or '-'} src {packet.scid.hex() or '-'}"
    if captured.opened is not None:
        line += f" number {captured.opened.number}"
    yield f"{line} length {packet.end - packet.begin}" + (f": {captured.why}" if captured.why else "")
    yield from map(frame_line, captured.frames or ())


@unittest.skipUnless(FOLDER.is_dir(), "the capture isn't here")
class Capture(unittest.TestCase):
    def test_packets_and_frames_are_those_that_c_prints(self):
        found = list(capture.packets(FOLDER / "capture.pcap"))
        printed = [line for one in found for line in lines(one)]
        self.assertEqual(printed, (FOLDER / "capture.txt").read_text().splitlines())
        self.assertEqual([one.error for one in found], [None] * len(found))

    def test_packets_before_a_cut_are_read(self):
        file, found = FOLDER / "capture.pcap", []
        with self.assertRaisesRegex(capture.CaptureError, "cut off"):
            for one in capture.packets(io.BytesIO(file.read_bytes()[:-5])):
                found.append(one)
        every = list(capture.packets(file))
        last = every[-1].datagram.frame
        self.assertEqual(found, [one for one in every if one.datagram.frame < last])


if __name__ == "__main__":
    unittest.main()
