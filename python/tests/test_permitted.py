"""Which packets may carry a frame, which side may send it and on which streams (RFC 9000, section 12.4 and others)."""

import unittest

import quic_wire as q

CLIENT, SERVER = q.Side.CLIENT, q.Side.SERVER
PV, STREAM_STATE = q.Code.PROTOCOL_VIOLATION, q.Code.STREAM_STATE_ERROR
P = q.PacketType
LETTERS = {P.INITIAL: "I", P.HANDSHAKE: "H", P.ZERO_RTT: "0", P.ONE_RTT: "1"}
# Table 3: each frame, and the packets that may carry it.
TABLE = [
    (q.Padding(), "IH01"), (q.Ping(), "IH01"), (q.Ack(1), "IH1"), (q.ResetStream(), "01"), (q.StopSending(), "01"),
    (q.Crypto(), "IH1"), (q.NewToken(b"a"), "1"), (q.Stream(), "01"), (q.MaxData(), "01"), (q.MaxStreamData(), "01"),
    (q.MaxStreamsBidi(), "01"), (q.MaxStreamsUni(), "01"), (q.DataBlocked(), "01"), (q.StreamDataBlocked(), "01"),
    (q.StreamsBlockedBidi(), "01"), (q.StreamsBlockedUni(), "01"), (q.NewConnectionId(1, 0, b"a", bytes(16)), "01"),
    (q.RetireConnectionId(), "01"), (q.PathChallenge(bytes(8)), "01"), (q.PathResponse(bytes(8)), "1"),
    (q.ConnectionClose(), "IH01"), (q.ApplicationClose(), "01"), (q.HandshakeDone(), "1"), (q.ImmediateAck(), "01"),
    (q.Datagram(), "01"), (q.AckFrequency(), "01"),
]  # fmt: skip
# Frames of streams: the section, and the streams on which a client may not send it.
STREAMS = [
    (q.ResetStream, "19.4", {3}),
    (q.StopSending, "19.5", {2}),
    (q.Stream, "19.8", {3}),
    (q.MaxStreamData, "19.10", {2}),
    (q.StreamDataBlocked, "19.13", {3}),
]


class Permitted(unittest.TestCase):
    def rejected(self, call, *row):
        with self.assertRaises(q.FrameError) as caught:
            call()
        error = caught.exception
        code, section, kind = row
        self.assertEqual((error.code, error.section, error.frame_type), (code, f"RFC 9000, section {section}", kind))
        self.assertEqual((error.field, error.frames), (None, None))
        if code != q.Code.FRAME_ENCODING_ERROR:
            self.assertIsNone(error.why)
        return error

    def test_packets_carry_what_table_3_says(self):
        self.assertEqual(len({frame.kind for frame, _ in TABLE}), 26)
        for frame, letters in TABLE:
            for packet, letter in LETTERS.items():
                sender = CLIENT if packet == P.ZERO_RTT else SERVER
                calls = [
                    lambda: frame.check_permitted(packet, sender),
                    lambda: q.check_type(frame.type, packet, sender),
                    lambda: q.check_type(frame.type, packet_type=packet, sender=sender, checks=q.Checks.QUINN),
                ]
                for call in calls:
                    with self.subTest(frame.name), self.subTest(packet):
                        self.assertEqual(frame.is_permitted_in(packet), letter in letters)
                        if letter in letters:
                            self.assertIsNone(call())
                        else:
                            error = self.rejected(call, PV, "12.4", frame.type)
                            self.assertEqual(error.reason, "not permitted in this packet")

    def test_numbers_that_are_no_type_of_packet(self):
        for number in (-5, P.RETRY, P.VERSION_NEGOTIATION, P.UNKNOWN_VERSION, 7, 99, 1 << 70):
            with self.subTest(number):
                self.assertIs(q.Ping().is_permitted_in(number), False)
                with self.assertRaisesRegex(ValueError, "^packet_type must be INITIAL, .* of PacketType$"):
                    q.Ping().check_permitted(number, CLIENT)

    def test_only_servers_send_two_frames(self):
        for frame, _ in TABLE:
            section = {q.NewToken: "19.7", q.HandshakeDone: "19.20"}.get(type(frame))
            for call in (
                lambda: frame.check_permitted(P.ONE_RTT, CLIENT),
                lambda: q.check_type(frame.type, P.ONE_RTT, CLIENT),
            ):
                if section:
                    error = self.rejected(call, PV, section, frame.type)
                    self.assertEqual(error.reason, "not permitted from this side")
                else:
                    self.assertIsNone(call())

    def test_servers_send_no_0rtt_packets(self):
        for frame, letters in TABLE:
            with self.subTest(frame.name):
                section = "17.2.3" if "0" in letters else "12.4"
                self.rejected(lambda: frame.check_permitted(P.ZERO_RTT, SERVER), PV, section, frame.type)
                self.rejected(lambda: q.check_type(frame.type, P.ZERO_RTT, SERVER), PV, section, frame.type)

    def test_streams_have_directions(self):
        for kind, section, not_of_clients in STREAMS:
            for number in range(8):
                frame = kind(stream_id=number)
                for sender in q.Side:
                    # A server may not do on its own streams what a client may not do on its own.
                    with self.subTest(kind), self.subTest(number), self.subTest(sender):
                        if (number & 3) ^ sender in not_of_clients:
                            call = lambda: frame.check_permitted(P.ONE_RTT, sender)  # noqa: E731
                            error = self.rejected(call, STREAM_STATE, section, frame.type)
                            self.assertEqual(error.reason, "not permitted on this stream")
                        else:
                            self.assertIsNone(frame.check_permitted(P.ONE_RTT, sender))

    def test_frames_that_were_read_say_where(self):
        stream = q.read_frames(bytes.fromhex("010f020000"))[1]
        with self.assertRaises(q.FrameError) as caught:
            stream.check_permitted(P.ONE_RTT, SERVER)
        shown = "STREAM not permitted on this stream at 1 (RFC 9000, section 19.8)"
        self.assertEqual((str(caught.exception), caught.exception.offset), (shown, 1))
        self.assertEqual(caught.exception.frame_type, 0x0F)
        self.assertEqual(q.Stream(3).begin, 0)
        with self.assertRaises(q.FrameError) as caught:
            q.Stream(3).check_permitted(P.ONE_RTT, CLIENT)
        shown = "STREAM not permitted on this stream (RFC 9000, section 19.8)"
        self.assertEqual((str(caught.exception), caught.exception.offset), (shown, None))
        # An ACK that is made is read from its own bytes.
        self.assertIsNone(self.rejected(lambda: q.Ack(1).check_permitted(P.ZERO_RTT, CLIENT), PV, "12.4", 2).offset)
        with self.assertRaises(q.FrameError) as caught:
            q.check_type(0x1E, P.ONE_RTT, CLIENT)
        shown = "HANDSHAKE_DONE not permitted from this side (RFC 9000, section 19.20)"
        self.assertEqual((str(caught.exception), caught.exception.offset), (shown, None))

    def test_unknown_types(self):
        fee = q.Code.FRAME_ENCODING_ERROR
        for number in (0x20, 0x32, 0xAE, 0x100, 1 << 62, (1 << 64) - 1):
            with self.subTest(number):
                error = self.rejected(lambda: q.check_type(number, 4, SERVER), fee, "12.4", number)
                self.assertEqual(error.reason, "invalid frame ID")
        for frame in (q.ImmediateAck(), q.AckFrequency()):
            self.assertIsNone(frame.check_permitted(4, SERVER, checks=~q.Checks.NO_ACK_FREQUENCY))
            for checks in (q.Checks.NO_ACK_FREQUENCY, q.Checks.RFC):
                for packet in LETTERS:
                    for call in (
                        lambda: frame.check_permitted(packet, CLIENT, checks=checks),
                        lambda: q.check_type(frame.type, packet, CLIENT, checks=checks),
                    ):
                        self.rejected(call, fee, "12.4", frame.type)

    def test_arguments(self):
        for call in (q.Ping().check_permitted, lambda *words, **more: q.check_type(1, *words, **more)):
            wrong = [(ValueError, (3, 5, 6, -1, 1 << 70), (2, -1, 1 << 70)), (TypeError, ("4", None), ("0", None))]
            for kind, types, sides in wrong:
                for packet in types:
                    with self.assertRaisesRegex(kind, "^packet_type must be INITIAL, "):
                        call(packet, 0)
                for side in sides:
                    with self.assertRaisesRegex(kind, "^sender must be Side.CLIENT or Side.SERVER$"):
                        call(4, side)
            for words in ((), (4,), (4, 0, 0)):
                with self.assertRaises(TypeError):
                    call(*words)
            for checks in (-1, 1 << 32):
                with self.assertRaisesRegex(ValueError, r"^checks must be from 0 to 2\^32 - 1$"):
                    call(4, 0, checks=checks)
        self.assertRegex(q.Side.__doc__, r"`side`[^`]*`sender`")
        for number, kind in (("1", TypeError), (-1, ValueError), (1 << 64, ValueError)):
            with self.assertRaisesRegex(kind, "^type must be"):
                q.check_type(number, 4, 0)


if __name__ == "__main__":
    unittest.main()
