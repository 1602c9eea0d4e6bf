"""Frames: what no test vector covers about the objects that are read and made."""

import copy
import inspect
import pickle
import unittest

import quic_wire as q

# A frame of each kind with its bytes as the last one of a payload (RFC 9000, section 19), and its repr.
ROWS = [
    (q.Padding(3), "000000", "Padding(count=3)"),
    (q.Ping(), "01", "Ping()"),
    (q.Ack(largest=9, delay=5, ranges=[range(9, 10), range(4, 8)]), "02090501000003", None),
    (q.Ack(ranges=[(1, 3)], ect0=1, ect1=2, ce=3), "030200000101" + "0203", None),
    (q.ResetStream(4, 1, 2), "04040102", "ResetStream(stream_id=4, error_code=1, final_size=2)"),
    (q.StopSending(4, 1), "050401", "StopSending(stream_id=4, error_code=1)"),
    (q.Crypto(0, b"hi"), "0600026869", "Crypto(offset=0, data=b'hi')"),
    (q.NewToken(b"\xab\xcd"), "0702abcd", "NewToken(token=b'\\xab\\xcd')"),
    (q.Stream(4, 0, False, b"hi"), "08046869", "Stream(stream_id=4, offset=0, fin=False, data=b'hi')"),
    (q.Stream(4, 16, True, b"hi"), "0d04106869", "Stream(stream_id=4, offset=16, fin=True, data=b'hi')"),
    (q.MaxData(5), "1005", "MaxData(limit=5)"),
    (q.MaxStreamData(4, 5), "110405", "MaxStreamData(stream_id=4, limit=5)"),
    (q.MaxStreamsBidi(5), "1205", "MaxStreamsBidi(limit=5)"),
    (q.MaxStreamsUni(5), "1305", "MaxStreamsUni(limit=5)"),
    (q.DataBlocked(5), "1405", "DataBlocked(limit=5)"),
    (q.StreamDataBlocked(4, 5), "150405", "StreamDataBlocked(stream_id=4, limit=5)"),
    (q.StreamsBlockedBidi(5), "1605", "StreamsBlockedBidi(limit=5)"),
    (q.StreamsBlockedUni(5), "1705", "StreamsBlockedUni(limit=5)"),
    (q.NewConnectionId(5, 2, b"\xaa\xbb", bytes(16)), "18050202aabb" + "00" * 16, None),
    (q.RetireConnectionId(5), "1905", "RetireConnectionId(sequence=5)"),
    (q.PathChallenge(b"12345678"), "1a3132333435363738", "PathChallenge(data=b'12345678')"),
    (q.PathResponse(b"12345678"), "1b3132333435363738", "PathResponse(data=b'12345678')"),
    (q.ConnectionClose(7, 6, b"a"), "1c07060161", "ConnectionClose(error_code=7, frame_type=6, reason=b'a')"),
    (q.ApplicationClose(5, b"a"), "1d050161", "ApplicationClose(error_code=5, reason=b'a')"),
    (q.HandshakeDone(), "1e", "HandshakeDone()"),
    (q.ImmediateAck(), "1f", "ImmediateAck()"),
    (q.Datagram(b"hi"), "306869", "Datagram(data=b'hi')"),
    (q.AckFrequency(42, 20, 50000, 1), "40af2a148000c35001", None),
]


class Frames(unittest.TestCase):
    def test_a_frame_is_written_and_read(self):
        for frame, digits, _ in ROWS:
            with self.subTest(digits):
                self.assertEqual(frame.encode(last=True).hex(), digits)
                self.assertEqual(q.read_frames(bytes.fromhex(digits)), [frame])
                self.assertEqual(q.canonical(bytes.fromhex(digits)).hex(), digits)
        self.assertEqual({type(frame) for frame, _, _ in ROWS}, set(q.Frame.__subclasses__()))

    def test_a_frame_before_others_has_its_length(self):
        self.assertEqual(q.Stream(4, 0, False, b"hi").encode().hex(), "0a04026869")
        self.assertEqual(q.Datagram(b"hi").encode().hex(), "31026869")
        self.assertEqual(q.write_frames([q.Datagram(b"hi"), q.Stream(0, 0, True)]).hex(), "31026869" + "0900")

    def test_a_payload_of_no_frames_is_written_but_not_read(self):
        self.assertEqual(q.write_frames([], checks=q.Checks.RFC), b"")
        with self.assertRaisesRegex(q.FrameError, "^packet payload is empty"):
            q.read_frames(q.write_frames([]))

    def test_a_frame_is_a_value(self):
        for frame, digits, text in ROWS:
            with self.subTest(digits):
                self.assertEqual(repr(frame), text or repr(frame))
                self.assertEqual(eval(repr(frame), vars(q)), frame)
                self.assertEqual(pickle.loads(pickle.dumps(frame)), frame)
                self.assertEqual(copy.deepcopy(frame), frame)
                self.assertEqual(hash(copy.copy(frame)), hash(frame))
                self.assertEqual(type(frame)(**frame.as_dict()), frame)
                self.assertEqual(list(frame.as_dict()), list(frame.__match_args__))
                self.assertEqual(frame, q.read_frames(b"\x01" + bytes.fromhex(digits))[1])
                self.assertNotEqual(frame, digits)
        self.assertEqual(len({frame for frame, _, _ in ROWS}), len(ROWS))

    def test_a_frame_has_no_other_attributes(self):
        frame = q.Stream(1)
        for change in (lambda: setattr(frame, "stream_id", 2), lambda: setattr(frame, "other", 2)):
            with self.assertRaises(AttributeError):
                change()

    def test_a_class_does_not_change(self):
        for kind in (q.Frame, q.Stream, q.Packet, q.OneRtt, q.FrameIterator, q.RangeSet):
            for name in ("KIND", "__match_args__", "other", "__repr__"):
                with self.subTest(kind.__name__, name=name), self.assertRaisesRegex(TypeError, "immutable"):
                    setattr(kind, name, 2)
        with self.assertRaises(TypeError):
            q.Ping().__class__ = q.Stream
        self.assertEqual({kind.KIND for kind in q.Frame.__subclasses__()}, {frame.kind for frame, _, _ in ROWS})

    def test_a_class_says_how_it_is_called(self):
        rows = [
            (q.Stream, "(stream_id=0, offset=0, fin=False, data=b'')"),
            (q.Ack, "(largest=0, delay=0, ranges=None, ect0=None, ect1=None, ce=None)"),
            (q.Padding, "(count=1)"),
            (q.Ping, "()"),
            (q.RangeSet, "(ranges=())"),
            (q.frames, "(payload, /, *, at=0, checks=0)"),
            (q.Ping().encode, "(last=False, *, checks=0)"),
        ]
        for call, text in rows:
            with self.subTest(call):
                self.assertEqual(str(inspect.signature(call)), text)
        for frame, _, _ in ROWS:
            self.assertEqual(list(inspect.signature(type(frame)).parameters), list(frame.__match_args__))
            self.assertTrue(type(frame).__doc__.strip())
        for kind in (q.PathChallenge, q.PathResponse):
            default = inspect.signature(kind).parameters["data"].default
            self.assertEqual((default, kind().data), (bytes(8), bytes(8)), kind)
        # Python has no signature for fields that must be given after others that needn't.
        self.assertIn("connection_id and reset_token must be given", q.NewConnectionId.__doc__)
        for given in ({}, {"connection_id": b"a"}, {"reset_token": bytes(16)}):
            with self.subTest(given=given), self.assertRaisesRegex(TypeError, "needs connection_id and reset_token"):
                q.NewConnectionId(**given)
        self.assertEqual(tuple(inspect.signature(q.TransportParameters).parameters), q.TransportParameters.__match_args__)

    def test_ids_tokens_and_reasons_are_bytes(self):
        payload = q.write_frames([
            q.NewConnectionId(5, 2, b"ab", b"t" * 16), q.NewToken(b"cd"), q.ConnectionClose(1, 2, b"why"),
            q.ApplicationClose(1, b""),
        ])  # fmt: skip
        for data in (payload, bytearray(payload)):
            given, token, close, of_application = q.read_frames(data)
            found = (given.connection_id, given.reset_token, token.token, close.reason, of_application.reason)
            self.assertEqual(found, (b"ab", b"t" * 16, b"cd", b"why", b""))
            self.assertEqual({type(one) for one in found}, {bytes})

    def test_views_are_of_the_callers_bytes(self):
        for data in (b"\x06\x00\x03abc", bytearray(b"\x06\x00\x03abc"), memoryview(b"\x06\x00\x03abc")):
            view = q.read_frames(data)[0].data
            self.assertEqual((view.tobytes(), view.format, view.shape, view.strides), (b"abc", "B", (3,), (1,)))
            self.assertEqual((view[1], bytes(view[1:]), view.readonly, view.contiguous), (98, b"bc", True, True))
            self.assertIs(view.obj, data.obj if isinstance(data, memoryview) else data)
        self.assertEqual(bytes(q.Crypto().data), b"")

    def test_from_an_offset(self):
        payload = bytes.fromhex("01" "0a040161" "1005" "01")
        for read in (q.read_frames, lambda payload, **how: list(q.frames(payload, **how))):
            self.assertEqual([(it.begin, it.end) for it in read(payload, at=1)], [(1, 5), (5, 7), (7, 8)])
            self.assertEqual([(it.begin, it.end) for it in read(payload, at=7)], [(7, 8)])
            # What is behind the last frame isn't an empty payload.
            self.assertEqual(read(payload, at=8), [])
            for at in (9, 1 << 40, -1, 1 << 70):
                with self.subTest(at), self.assertRaises(ValueError):
                    read(payload, at=at)
            with self.assertRaises(TypeError):
                read(payload, at="1")
            with self.assertRaisesRegex(q.FrameError, "empty"):
                read(b"", at=0)
            with self.assertRaises(q.FrameError) as caught:
                read(payload + b"\x10", at=7)
            self.assertEqual((caught.exception.offset, caught.exception.field_offset), (8, 9))
        self.assertEqual(q.frames(payload, at=5).offset, 5)

    def test_patterns_match_by_position_and_name(self):
        match q.read_frames(bytes.fromhex("0d04106869"))[0]:
            case q.Stream(stream_id, 16, fin=True, data=data):
                self.assertEqual((stream_id, bytes(data)), (4, b"hi"))
            case other:
                self.fail(other)

    def test_places_and_types_are_those_of_the_payload(self):
        padding, stream = q.read_frames(bytes.fromhex("40000a000161"))
        self.assertEqual(
            (padding.begin, padding.end, padding.type, padding.kind, padding.name), (0, 2, 0, 0, "PADDING")
        )
        self.assertEqual((stream.begin, stream.end, stream.type, stream.kind, stream.name), (2, 6, 0x0A, 8, "STREAM"))
        self.assertEqual((q.Stream.KIND, q.Ack.KIND, q.type_name(0x31), q.type_name(0x40)), (8, 2, "DATAGRAM", None))

    # RFC 9000, section 12.4, table 3.
    def test_rules_are_those_of_the_table(self):
        initial, one_rtt = q.PacketType.INITIAL, q.PacketType.ONE_RTT
        self.assertTrue(q.Crypto().is_permitted_in(initial) and q.Crypto().is_ack_eliciting)
        self.assertFalse(q.Stream().is_permitted_in(initial) or q.Ping().is_probing)
        self.assertTrue(q.Stream().is_permitted_in(one_rtt) and q.Stream().is_flow_controlled)
        self.assertTrue(q.PathChallenge(bytes(8)).is_probing and q.Padding().is_counted_in_flight)
        self.assertFalse(q.Ack().is_ack_eliciting or q.Ack().is_counted_in_flight or q.Padding().is_ack_eliciting)

    def test_nothing_is_copied(self):
        payload = bytearray(b"\x0a\x00\x01a")
        frame = q.read_frames(payload)[0]
        payload[3] = ord("b")
        self.assertEqual(bytes(frame.data), b"b")
        self.assertTrue(frame.data.readonly)
        with self.assertRaises(BufferError):
            payload.append(0)
        del frame
        payload.append(0)
        data = b"hello"
        self.assertIs(q.Crypto(0, data).data.obj, data)

    def test_any_bytes_like_object_is_read(self):
        import array

        wanted = [q.Ping(), q.MaxData(5)]
        for payload in (
            b"\x01\x10\x05",
            bytearray(b"\x01\x10\x05"),
            memoryview(b"\x01\x10\x05"),
            memoryview(b"\x02\x01\x10\x05")[1:],
            array.array("B", [1, 16, 5]),
        ):
            self.assertEqual(q.read_frames(payload), wanted)
            self.assertEqual(list(q.frames(payload)), wanted)
            self.assertEqual(q.canonical(payload), b"\x01\x10\x05")
        for payload in ("01", 1, None, memoryview(b"\x01\x02\x03\x04")[::2]):
            with self.assertRaises((TypeError, BufferError)):
                q.read_frames(payload)

    def test_frames_are_read_when_asked_for(self):
        frames = q.frames(b"\x01" * 100 + b"\x10")
        self.assertEqual((frames.offset, next(frames).begin, frames.offset), (0, 0, 1))
        self.assertEqual(sum(1 for _ in zip(range(99), frames)), 99)
        with self.assertRaises(q.FrameError) as caught:
            next(frames)
        self.assertEqual((caught.exception.offset, caught.exception.frames, frames.offset), (100, None, 100))
        self.assertEqual(list(frames), [])

    def test_types_may_have_to_be_shortest_or_known(self):
        self.assertEqual(q.read_frames(b"\x40\x01"), [q.Ping()])
        for read in (q.read_frames, lambda payload, **how: list(q.frames(payload, **how))):
            with self.assertRaisesRegex(q.FrameError, "not in shortest form in PING at 0, Type at 0"):
                read(b"\x40\x01", checks=q.Checks.SHORT_TYPES)
            with self.assertRaisesRegex(q.FrameError, "invalid frame ID in IMMEDIATE_ACK at 0"):
                read(b"\x1f", checks=q.Checks.NO_ACK_FREQUENCY)
            with self.assertRaises(TypeError):
                read(b"\x01", other=True)

    def test_an_ack_holds_a_set(self):
        ack = q.Ack(ranges=q.RangeSet([range(1, 4), range(7, 8)]))
        self.assertEqual((ack.largest, ack.ranges), (7, (range(7, 8), range(1, 4))))
        self.assertEqual(q.Ack(largest=7).ranges, (range(7, 8),))
        self.assertEqual((ack.ect0, q.Ack(ect0=1).ce), (None, 0))

    def test_what_is_no_frame_is_not_made(self):
        most = 1 << 62
        rows = [
            (ValueError, "limit must be from 0 to 2\\^62 - 1", lambda: q.MaxData(most)),
            (ValueError, "limit must be from 0 to 2\\^62 - 1", lambda: q.MaxData(-1)),
            (TypeError, "limit must be an int", lambda: q.MaxData("1")),
            (ValueError, "NewConnectionId: its fields", lambda: q.NewConnectionId(1, 2, b"a", bytes(16))),
            (ValueError, "NewConnectionId: its fields", lambda: q.NewConnectionId(1, 1, bytes(21), bytes(16))),
            (ValueError, "reset_token must have 16 bytes", lambda: q.NewConnectionId(1, 1, b"a", bytes(15))),
            (TypeError, "needs connection_id", lambda: q.NewConnectionId(1, 1)),
            (TypeError, "Ping has 0 fields", lambda: q.Ping(1)),
            (TypeError, "Stream has 4 fields", lambda: q.Stream(nothing=1)),
            (TypeError, "stream_id is given twice", lambda: q.Stream(1, stream_id=1)),
            (ValueError, "data must have 8 bytes", lambda: q.PathChallenge(b"1")),
            (ValueError, "ranges", lambda: q.Ack(ranges=[])),
            (ValueError, "range of step 1", lambda: q.Ack(ranges=[range(0, 30, 3)])),
            (ValueError, "range of step 1", lambda: q.Ack(ranges=[range(9, 0, -1), range(20, 30)])),
            (ValueError, "range of step 1", lambda: q.Ack(ranges=[range(0, 9, 1 << 70)])),
            (TypeError, "range of step 1 or a pair", lambda: q.Ack(ranges="abc")),
            (TypeError, "range of step 1 or a pair", lambda: q.Ack(ranges=[(1, 2, 3)])),
            (TypeError, "range of step 1 or a pair", lambda: q.Ack(ranges=[{1: 2, 3: 4}])),
            (TypeError, "the start of a range must be an int", lambda: q.Ack(ranges=["ab"])),
            (TypeError, "not iterable", lambda: q.Ack(ranges=1)),
            (ValueError, "largest must be the greatest", lambda: q.Ack(largest=9, ranges=[range(3)])),
            (TypeError, "bytes-like", lambda: q.NewConnectionId(1, 1, b"a", [0] * 16)),
            (TypeError, "bytes-like", lambda: q.NewConnectionId(1, 1, b"a", 16)),
            (ValueError, "count must be from 1 to", lambda: q.Padding(0)),
            (ValueError, "count must be from 1 to", lambda: q.Padding(1 << 63)),
            (TypeError, "instances", q.Frame),
            (TypeError, "^payload\\[0\\] must be a Frame or have .* not NoneType$", lambda: q.write_frames([None])),
            (TypeError, "^payload\\[1\\] must be a Frame or have .* not str$", lambda: q.write_frames([q.Ping(), "1"])),
            (TypeError, "^payload\\[0\\] must be a Frame or have .* not type$", lambda: q.write_frames([q.Ping])),
            (TypeError, "not iterable", lambda: q.write_frames(q.Ping())),
        ]
        for kind, text, make in rows:
            with self.subTest(text), self.assertRaisesRegex(kind, text):
                make()


if __name__ == "__main__":
    unittest.main()
