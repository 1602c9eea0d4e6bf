"""Frames that the library doesn't know: the caller reads them, and passes over them."""

import sys
import threading
import unittest

import quic_wire as q

RESET_STREAM_AT = 0x24
PATH_ACK = 0x3e
UNKNOWN = "invalid frame ID"


def frames(payload):
    """The names of a payload's frames, also of RESET_STREAM_AT (draft-ietf-quic-reliable-stream-reset, section 4).

    It has a type of one byte and four numbers.
    """
    found = q.frames(payload, checks=q.Checks.RFC)
    while True:
        try:
            for frame in found:
                yield type(frame).__name__
            return
        except q.FrameError as error:
            if (error.frame_type, error.kind) != (RESET_STREAM_AT, q.ErrorKind.FRAME_TYPE):
                raise
        end = found.offset + 1
        for _ in range(4):
            _, end = q.read_varint(payload, end)
        yield "RESET_STREAM_AT"
        found.skip(end, RESET_STREAM_AT)


class Extension(unittest.TestCase):
    def test_frames_around_are_read(self):
        rows = [
            ("2404010805", ["RESET_STREAM_AT"]),
            ("01" + "2404010805" * 2 + "01", ["Ping", "RESET_STREAM_AT", "RESET_STREAM_AT", "Ping"]),
            ("01" * 40 + "2404010805" + "01" * 40, ["Ping"] * 40 + ["RESET_STREAM_AT"] + ["Ping"] * 40),
            ("000024040108050000", ["Padding", "RESET_STREAM_AT", "Padding"]),
        ]
        for payload, names in rows:
            with self.subTest(payload):
                self.assertEqual(list(frames(bytes.fromhex(payload))), names)

    def test_errors_behind(self):
        rows = [("240401080525", 0x25, UNKNOWN), ("240401080540", None, "unexpected end")]
        for payload, frame_type, reason in rows:
            with self.subTest(payload), self.assertRaises(q.FrameError) as raised:
                list(frames(bytes.fromhex(payload)))
            self.assertEqual((raised.exception.frame_type, raised.exception.reason), (frame_type, reason))
            self.assertEqual(raised.exception.offset, 5)

    def test_places_count_from_the_payload(self):
        found = q.frames(bytes.fromhex("2404010805" + "0801"))
        with self.assertRaises(q.FrameError):
            next(found)
        found.skip(5, RESET_STREAM_AT)
        frame = next(found)
        self.assertEqual((frame.begin, frame.end, found.offset), (5, 7, 7))

    def test_from_the_next_frame(self):
        # Frames that were read ahead aren't lost, and the next one may be passed over alone.
        for end in 2, 3:
            with self.subTest(end):
                found = q.frames(b"\x01" * 6)
                next(found)
                found.skip(end, 0x01)
                self.assertEqual([frame.begin for frame in found], list(range(end, 6)))

    def test_the_type_is_not_compared(self):
        for frame_type in (RESET_STREAM_AT, 0x01, 0x06):
            with self.subTest(frame_type):
                found = q.frames(bytes.fromhex("01" + "2404010805" + "01" + "06"))
                next(found)
                with self.assertRaises(q.FrameError):
                    next(found)
                found.skip(6, frame_type)
                self.assertEqual(next(found).begin, 6)
                with self.assertRaisesRegex(q.FrameError, "^unexpected end in CRYPTO at 7, Offset at 8"):
                    next(found)

    def test_another_iterator_goes_on(self):
        payload = bytes.fromhex("01" + "2404010805" + "0801")
        for read, end in ((q.read_frames, 6), (lambda data, at: list(q.frames(data, at=at)), 6)):
            with self.assertRaises(q.FrameError) as raised:
                q.read_frames(payload)
            self.assertEqual((raised.exception.offset, raised.exception.frames), (1, [q.Ping()]))
            (frame,) = read(payload, at=end)
            self.assertEqual((frame.begin, frame.end), (6, 8))

    def test_rejected(self):
        found = q.frames(b"\x01\x01\x01")
        next(found)
        above = "end must be above"
        rows = [
            (ValueError, above, (1, 0x24)),
            (ValueError, above, (0, 0x24)),
            (ValueError, above, (4, 0x24)),
            (ValueError, above, (2**64 - 1, 0x24)),
            (ValueError, "end must be from 0", (2**64, 0x24)),
            (ValueError, "end must be from 0", (-1, 0x24)),
            (ValueError, "type must be from 0 to 2\\^62 - 1", (2, 2**62)),
            (TypeError, "end must be an int", ("2", 0x24)),
            (TypeError, "type must be an int", (2, None)),
            (TypeError, "2 arguments", (2,)),
        ]
        for kind, text, arguments in rows:
            with self.subTest(arguments), self.assertRaisesRegex(kind, text):
                found.skip(*arguments)
        self.assertEqual(found.offset, 1)
        self.assertEqual(len(list(found)), 2)
        with self.assertRaisesRegex(ValueError, above):
            found.skip(3, 0x24)

    def test_no_reference_is_lost(self):
        payload = b"\x24" * 3
        before = sys.getrefcount(payload)
        found = q.frames(payload)
        for end in (1, 2, 3):
            found.skip(end, RESET_STREAM_AT)
        del found
        self.assertEqual(sys.getrefcount(payload), before)

    def test_threads(self):
        found = q.frames(b"\x01" * 2000)

        def work():
            for end in range(1, 2000, 3):
                try:
                    found.skip(end, 0x01)
                    next(found, None)
                except ValueError:
                    pass

        threads = [threading.Thread(target=work) for _ in range(4)]
        for thread in threads:
            thread.start()
        for thread in threads:
            thread.join()
        self.assertLessEqual(found.offset, 2000)


class PathAck:
    """PATH_ACK (draft-ietf-quic-multipath): its type, a path's id, and the body of an ACK."""

    def __init__(self, path, ack):
        self.path, self.ack = path, ack

    def encode(self):
        return q.write_varint(PATH_ACK) + q.write_varint(self.path) + q.write_frame_body(self.ack)[1]

    @staticmethod
    def read(payload, begin):
        frame_type, at = q.read_varint(payload, begin)
        path, at = q.read_varint(payload, at)
        ack, end = q.read_frame_body(0x02, payload[at:], checks=q.Checks.RFC)
        return PathAck(path, ack), at + end


class Bodies(unittest.TestCase):
    def test_path_ack(self):
        # Path 7: 9, 8 and 7, and 5 to 2; then PING.
        payload = bytes.fromhex("3e07090001020003" + "01")
        found = q.frames(payload, checks=q.Checks.RFC)
        with self.assertRaises(q.FrameError) as raised:
            next(found)
        self.assertEqual((raised.exception.frame_type, raised.exception.reason), (PATH_ACK, UNKNOWN))
        read, end = PathAck.read(payload, found.offset)
        self.assertEqual((read.path, read.ack.ranges), (7, (range(7, 10), range(2, 6))))
        found.skip(end, PATH_ACK)
        self.assertEqual(list(found), [q.Ping()])
        self.assertEqual(q.write_frames([read, q.Ping()]), payload)

    # RFC 9000, sections 19.1, 19.8, 19.21.
    def test_read(self):
        rows = [
            (0x0a, "04026869" + "01", q.Stream(stream_id=4, data=b"hi"), 4),
            (0x08, "046869", q.Stream(stream_id=4, data=b"hi"), 3),
            (0x1a, "0102030405060708" + "00", q.PathChallenge(bytes(range(1, 9))), 8),
            (0x01, "01", q.Ping(), 0),
            (0x00, "0000", q.Padding(1), 0),
            (0x00, "", q.Padding(1), 0),
        ]
        for frame_type, body, frame, end in rows:
            with self.subTest(frame_type=frame_type, body=body):
                self.assertEqual(q.read_frame_body(frame_type, bytes.fromhex(body)), (frame, end))

    def test_written(self):
        rows = [
            (q.Stream(stream_id=4, data=b"hi"), False, 0x0a, "04026869"),
            (q.Stream(stream_id=4, data=b"hi"), True, 0x08, "046869"),
            (q.Ack(ranges=[range(7, 10)]), False, 0x02, "09000002"),
            (q.HandshakeDone(), False, 0x1e, ""),
        ]
        for frame, last, frame_type, body in rows:
            with self.subTest(frame, last=last):
                self.assertEqual(q.write_frame_body(frame, last=last), (frame_type, bytes.fromhex(body)))

    def test_rejected(self):
        rows = [
            (q.FrameError, "unexpected end", 0x02, b"\x09"),
            (q.FrameError, "malformed", 0x02, bytes.fromhex("02000003")),
            (q.FrameError, UNKNOWN, 0x24, b"\x04"),
            (ValueError, "", 2**62, b""),
            (TypeError, "", "2", b""),
            (TypeError, "", 0x02, "09000002"),
        ]
        for kind, text, frame_type, body in rows:
            with self.subTest(frame_type=frame_type, body=body), self.assertRaisesRegex(kind, text):
                q.read_frame_body(frame_type, body)


class ResetStreamAt:
    """RESET_STREAM_AT, with numbers below 64."""

    def __init__(self, *numbers):
        self.numbers = numbers

    def encode(self):
        return bytes([RESET_STREAM_AT, *self.numbers])


class Returns:
    def __init__(self, encoded):
        self.encode = lambda: encoded


class Written(unittest.TestCase):
    def test_between_frames(self):
        one, data = ResetStreamAt(4, 1, 8, 5), q.Stream(stream_id=0, data=b"a")
        rows = [
            ([one], "2404010805"),
            ([q.Ping(), one, q.Ping()], "01240401080501"),
            # A STREAM in front of another frame has a length, the last one hasn't.
            ([data, one], "0a0001612404010805"),
            ([one, data], "2404010805080061"),
        ]
        for payload, encoded in rows:
            with self.subTest(encoded):
                self.assertEqual(q.write_frames(payload).hex(), encoded)

    def test_checks_are_those_of_the_library_alone(self):
        token = q.NewToken(token=b"")
        with self.assertRaises(q.FrameError):
            q.write_frames([ResetStreamAt(0, 0, 0, 1), token], checks=q.Checks.RFC)

    def test_rejected(self):
        rows = [
            (TypeError, "payload\\[1\\] must be a Frame or have a method encode, not str", "ping"),
            (TypeError, "payload\\[1\\] must be a Frame or have a method encode, not int", 1),
            (TypeError, "payload\\[1\\].encode\\(\\) must return bytes, not bytearray", Returns(bytearray(1))),
            (ValueError, "payload\\[1\\].encode\\(\\) must return at least a frame's type", Returns(b"")),
        ]
        for kind, text, frame in rows:
            with self.subTest(text), self.assertRaisesRegex(kind, text):
                q.write_frames([q.Ping(), frame])


if __name__ == "__main__":
    unittest.main()
