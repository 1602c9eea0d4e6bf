"""What readers and writers check: for each flag what is accepted without it and rejected with it, or the reverse."""

import copy
import functools
import operator
import unittest

import quic_wire as q

FLAGS = list(q.Checks)
FEE, PV, TPE = q.Code.FRAME_ENCODING_ERROR, q.Code.PROTOCOL_VIOLATION, q.Code.TRANSPORT_PARAMETER_ERROR
RETRY = "f0000000010000"
# What is rejected only with a flag: the flag, bytes, reason, field and offset, code, section of RFC 9000.
FRAMES = [
    ("SHORT_TYPES", "4001", "frame type not in shortest form", "Type", 0, PV, "12.4"),
    ("SHORT_TYPES", "80000001", "frame type not in shortest form", "Type", 0, PV, "12.4"),
    ("DATA_LIMIT", "06ffffffffffffffff01aa", "limit exceeded", "Length", 9, FEE, "19.6"),
    ("DATA_LIMIT", "0e00ffffffffffffffff0161", "limit exceeded", "Length", 10, FEE, "19.8"),
    ("DATA_LIMIT", "0c00ffffffffffffffff61", "limit exceeded", "Offset", 2, FEE, "19.8"),
    ("STREAM_LIMIT", "12d000000000000001", "limit exceeded", "Maximum Streams", 1, FEE, "19.11"),
    ("STREAM_LIMIT", "13ffffffffffffffff", "limit exceeded", "Maximum Streams", 1, FEE, "19.11"),
    ("STREAM_LIMIT", "16d000000000000001", "limit exceeded", "Maximum Streams", 1, FEE, "19.14"),
    ("STREAM_LIMIT", "17ffffffffffffffff", "limit exceeded", "Maximum Streams", 1, FEE, "19.14"),
    ("NO_ACK_FREQUENCY", "1f", "invalid frame ID", "Type", 0, FEE, "12.4"),
    ("NO_ACK_FREQUENCY", "40af00000000", "invalid frame ID", "Type", 0, FEE, "12.4"),
    ("TOKENS", "0700", "malformed", "Token Length", 1, FEE, "19.7"),
    ("TOKENS", "074000", "malformed", "Token Length", 1, FEE, "19.7"),
]
# A type that wasn't negotiated is unknown whether its fields are there or not, but rejected for its length first.
UNKNOWN = [("40af", "40af00000000"), ("40af01", "40af01020304")]
TOO_LONG = ["800000af", "800000af00000000", "401f"]
# Bytes with a clear fixed bit, whose ids can't be read: ANY_VERSION or not.
CUT = [("b6", "Version", 1), ("80000000", "Version", 1), ("80000000ff05aabb", "Destination Connection ID", 6)]
# What no flag rejects: the greatest of each, and a field that could be shorter.
ALLOWED = ["06ffffffffffffffff00", "0e00fffffffffffffffe0161", "0c00fffffffffffffffe61", "12d000000000000000",
           "16d000000000000000", "074001aa", "104001"]  # fmt: skip
PACKETS = [
    ("WHOLE_RETRY", RETRY, "Retry without a token or a tag", "Retry Integrity Tag", 7, None, "17.2.5.2"),
    ("WHOLE_RETRY", RETRY + "00" * 15, "Retry without a token or a tag", "Retry Integrity Tag", 7, None, "17.2.5.2"),
    ("WHOLE_RETRY", RETRY + "00" * 16, "Retry without a token or a tag", "Retry Token", 7, None, "17.2.5.2"),
]
# What is rejected only without a flag, and with which flags it is read.
UNSET = "fixed bit unset"
GREASED = [
    (["GREASED_BIT"], "0011223344", UNSET, "Fixed Bit", 0, None, "17.3.1"),
    (["GREASED_BIT"], "80000000010000000100", UNSET, "Fixed Bit", 0, None, "17.2"),
    (["GREASED_BIT", "ANY_VERSION"], "8000000000016100" + "00000001", UNSET, "Fixed Bit", 0, None, "17.2"),
    (["GREASED_BIT", "ANY_VERSION"], "8000000009016100", UNSET, "Fixed Bit", 0, None, "17.2"),
]
GREASE, DELAY = "6ab200", "c0000000ff04de1b0107"
LONG = "its integer isn't in its shortest encoding, which RFC 9000, section 16, allows and quinn-proto rejects"
# Lists that have a parameter twice, and the offset of the second.
REPEATS = [("0f00" + GREASE + "040105" + GREASE, "grease_quic_bit", 8), (DELAY * 2, "min_ack_delay", 10)]
# Lists with an integer that could be shorter, and what it is.
WIDE = [("01024001", "max_idle_timeout", 1), ("030244b0" + "0408c000000000000005", "initial_max_data", 5)]


class Flags(unittest.TestCase):
    def test_the_flags_are_these(self):
        names = "SHORT_TYPES DATA_LIMIT STREAM_LIMIT NO_ACK_FREQUENCY TOKENS GREASED_BIT ANY_VERSION WHOLE_RETRY"
        self.assertEqual([one.name for one in FLAGS], [*names.split(), "ANY_WIDTH", "NO_REPEATS"])
        self.assertEqual(q.Checks.QUINN, 0)
        self.assertEqual(set(q.Checks.RFC), {*FLAGS} - {q.Checks.GREASED_BIT})
        self.assertEqual(sorted(one.bit_length() for one in FLAGS), list(range(1, 11)))

    def rejected(self, call, flags, row):
        reason, field, field_at, code, section = row
        with self.assertRaises(q.Error) as caught:
            call(flags)
        error = caught.exception
        found = (error.reason, error.field, error.field_offset, error.code, error.section)
        self.assertEqual(found, (reason, field, field_at, code, f"RFC 9000, section {section}"))

    def test_frames_are_read_without_a_flag_and_rejected_with_it(self):
        for name, digits, *row in FRAMES:
            flag, payload = q.Checks[name], bytes.fromhex(digits)
            reads = [
                lambda checks: q.read_frames(payload, checks=checks),
                lambda checks: list(q.frames(payload, checks=checks)),
            ]
            for read in reads:
                with self.subTest(name), self.subTest(digits):
                    self.assertEqual((len(read(q.Checks.QUINN)), len(read(~flag))), (1, 1))
                    for flags in (flag, q.Checks.RFC):
                        self.rejected(read, flags, row)

    def test_a_type_that_was_not_negotiated_is_unknown_before_its_fields(self):
        row = ("invalid frame ID", "Type", 0, FEE, "12.4")
        for cut, whole in UNKNOWN:
            for flags in (q.Checks.NO_ACK_FREQUENCY, q.Checks.RFC):
                for digits in (cut, whole):
                    for call in (q.read_frames, q.canonical):
                        self.rejected(lambda checks: call(bytes.fromhex(digits), checks=checks), flags, row)
            for flags in (q.Checks.QUINN, ~q.Checks.NO_ACK_FREQUENCY):
                with self.assertRaisesRegex(q.FrameError, "^unexpected end in ACK_FREQUENCY at 0"):
                    q.read_frames(bytes.fromhex(cut), checks=flags)
        row = ("frame type not in shortest form", "Type", 0, PV, "12.4")
        for digits in TOO_LONG:
            self.rejected(lambda checks: q.read_frames(bytes.fromhex(digits), checks=checks), q.Checks.RFC, row)

    def test_what_breaks_a_rule_is_not_written(self):
        for name, digits, reason, _, _, code, section in FRAMES:
            if name == "SHORT_TYPES":
                continue
            (frame,) = q.read_frames(bytes.fromhex(digits))
            flag = q.Checks[name]
            for last in (False, True):
                for write in (
                    lambda checks: frame.encode(last, checks=checks),
                    lambda checks: q.write_frames([q.Ping(), frame], checks=checks),
                ):
                    with self.subTest(digits):
                        written = write(q.Checks.QUINN)
                        self.assertEqual(write(~flag), written)
                        for flags in (flag, q.Checks.RFC):
                            with self.assertRaises(q.FrameError) as caught:
                                write(flags)
                            error = caught.exception
                            found = (error.reason, error.code, error.section)
                            self.assertEqual(found, (reason, code, f"RFC 9000, section {section}"))
                            self.assertEqual((error.offset, error.field, error.frame_type), (0, None, frame.type))
        with self.assertRaises(q.FrameError) as caught:
            q.MaxStreamsUni(1 << 61).encode(checks=q.Checks.RFC)
        shown = "limit exceeded in MAX_STREAMS_UNI: it is greater than 2^60 (RFC 9000, section 19.11)"
        self.assertEqual(str(caught.exception), shown)

    def test_what_is_not_written_says_where_it_was_read(self):
        for digits, at, kind in (("010700", 1, 0x07), ("010f00ffffffffffffffff0161", 1, 0x0F), ("40011f", 2, 0x1F)):
            payload = bytes.fromhex(digits)
            frame = q.read_frames(payload)[1]
            calls = [
                lambda: frame.encode(checks=q.Checks.RFC),
                lambda: q.write_frames([q.Ping(), q.Ping(), frame], checks=q.Checks.RFC),
                lambda: next(one for one in q.frames(payload) if one == frame).encode(checks=q.Checks.RFC),
                lambda: q.canonical(payload, checks=q.Checks.RFC & ~q.Checks.SHORT_TYPES),
            ]
            for call in calls:
                with self.subTest(digits), self.assertRaises(q.FrameError) as caught:
                    call()
                self.assertEqual((caught.exception.offset, caught.exception.frame_type), (at, kind))
            # A copy has only the fields.
            for made in (copy.copy(frame), type(frame)(**frame.as_dict())):
                with self.subTest(digits), self.assertRaises(q.FrameError) as caught:
                    made.encode(checks=q.Checks.RFC)
                self.assertEqual((caught.exception.offset, caught.exception.frame_type), (None, made.type))

    def test_the_greatest_of_each_is_written(self):
        for digits in ALLOWED:
            (frame,) = q.read_frames(bytes.fromhex(digits))
            written = q.write_frames([frame], checks=q.Checks.RFC)
            self.assertEqual(q.read_frames(written, checks=q.Checks.RFC), [frame])
            # The flag for short types isn't one of writers: no length is left out.
            self.assertEqual(frame.encode(checks=q.Checks.SHORT_TYPES), frame.encode())

    def test_canonical_with_a_flag(self):
        for name, digits, *row in FRAMES:
            flag, payload = q.Checks[name], bytes.fromhex("01" + digits)
            with self.subTest(name), self.subTest(digits):
                self.assertEqual(q.canonical(payload, checks=~flag), q.canonical(payload))
                row[2] += 1
                for flags in (flag, q.Checks.RFC):
                    self.rejected(lambda checks: q.canonical(payload, checks=checks), flags, row)
                with self.assertRaises(q.FrameError) as caught:
                    q.canonical(payload, checks=flag)
                self.assertEqual(caught.exception.offset, 1)
        for digits in ALLOWED:
            payload = bytes.fromhex(digits)
            shortest = q.canonical(payload, checks=q.Checks.RFC)
            self.assertEqual(shortest, q.canonical(payload))
            self.assertEqual(q.canonical(shortest, checks=q.Checks.RFC), shortest)

    def test_frames_up_to_the_limits_are_read(self):
        for digits in ALLOWED:
            with self.subTest(digits):
                self.assertEqual(len(q.read_frames(bytes.fromhex(digits), checks=q.Checks.RFC)), 1)

    def test_the_frames_before_are_in_the_error(self):
        with self.assertRaises(q.FrameError) as caught:
            q.read_frames(bytes.fromhex("01" + "12d000000000000001"), checks=q.Checks.RFC)
        self.assertEqual((caught.exception.frames, caught.exception.offset), ([q.Ping()], 1))
        self.assertEqual((caught.exception.field_offset, caught.exception.frame_type), (2, 0x12))

    def test_packets_are_read_without_a_flag_and_rejected_with_it(self):
        for name, digits, *row in PACKETS:
            flag, datagram = q.Checks[name], bytes.fromhex(digits)
            for read in self.readers(datagram):
                with self.subTest(name), self.subTest(digits):
                    self.assertEqual((len(read(q.Checks.QUINN)), len(read(~flag))), (1, 1))
                    for flags in (flag, q.Checks.RFC):
                        self.rejected(read, flags, row)
        whole = bytes.fromhex(RETRY + "aa" + "00" * 16)
        self.assertEqual(bytes(q.read_packet(whole, 0, checks=q.Checks.RFC).token), b"\xaa")

    def readers(self, datagram):
        return [
            lambda checks: q.read_packets(datagram, 0, checks=checks),
            lambda checks: list(q.packets(datagram, 0, checks=checks)),
            lambda checks: [q.read_packet(datagram, 0, checks=checks)],
        ]

    def test_the_fixed_bit_may_be_clear_with_a_flag(self):
        for names, digits, *row in GREASED:
            for read in self.readers(bytes.fromhex(digits)):
                with self.subTest(digits):
                    allowed = [q.Checks[name] for name in names]
                    self.rejected(read, q.Checks.QUINN, row)
                    self.rejected(read, ~functools.reduce(operator.or_, allowed), row)
                    for flag in allowed:
                        self.assertEqual(len(read(flag)), 1)
                    if "ANY_VERSION" in names:
                        self.assertEqual(len(read(q.Checks.RFC)), 1)
                    else:
                        self.rejected(read, q.Checks.RFC, row)

    def test_a_header_that_is_cut_off_has_no_fixed_bit(self):
        for digits, field, at in CUT:
            for read in self.readers(bytes.fromhex(digits)):
                with self.subTest(digits):
                    self.rejected(read, q.Checks.QUINN, (UNSET, "Fixed Bit", 0, None, "17.2"))
                    for flags in (q.Checks.ANY_VERSION, q.Checks.GREASED_BIT, q.Checks.RFC, ~q.Checks.QUINN):
                        with self.assertRaises(q.PacketError) as caught:
                            read(flags)
                        error = caught.exception
                        self.assertIn(error.reason, ("unexpected end of packet", "malformed cid"))
                        self.assertEqual((error.field, error.field_offset), (field, at))
                        self.assertEqual(error.section, "RFC 9000, section 12.2")

    def parameters(self, digits, checks):
        return q.TransportParameters.read(q.Side.CLIENT, bytes.fromhex(digits), checks=checks)

    def test_an_integer_may_have_any_width_with_a_flag(self):
        for digits, name, value in WIDE:
            for flags in (q.Checks.QUINN, ~q.Checks.ANY_WIDTH):
                with self.subTest(name), self.assertRaises(q.ParameterError) as caught:
                    self.parameters(digits, flags)
                error = caught.exception
                self.assertEqual((error.name, error.why, error.code), (name, LONG, TPE))
                self.assertEqual((error.reason, error.section), ("malformed", "RFC 9000, section 18.2"))
            for flags in (q.Checks.ANY_WIDTH, q.Checks.RFC):
                self.assertEqual(getattr(self.parameters(digits, flags), name), value)
        with self.assertRaises(q.ParameterError) as caught:
            self.parameters("0304800000ff", q.Checks.RFC)
        shown = ("its value is invalid", "illegal value")
        self.assertEqual((caught.exception.why, caught.exception.reason), shown)

    def test_a_repeat_is_rejected_with_a_flag(self):
        for digits, name, at in REPEATS:
            for flags in (q.Checks.QUINN, ~q.Checks.NO_REPEATS):
                self.assertTrue(getattr(self.parameters(digits, flags), name))
            for flags in (q.Checks.NO_REPEATS, q.Checks.RFC):
                with self.subTest(name), self.assertRaises(q.ParameterError) as caught:
                    self.parameters(digits, flags)
                error = caught.exception
                self.assertEqual((error.name, error.why, error.code), (name, "it occurs twice", TPE))
                self.assertEqual((error.reason, error.offset), ("malformed", at))
                self.assertEqual(error.section, "RFC 9000, section 7.4")
        self.assertEqual(self.parameters("1b00" * 2, q.Checks.RFC), q.TransportParameters())

    def test_a_flag_by_position_is_named(self):
        for read in (q.read_frames, q.frames, q.canonical):
            with self.assertRaisesRegex(TypeError, "^one payload is expected; checks is a keyword argument"):
                read(b"\x01", q.Checks.RFC)
            with self.assertRaisesRegex(TypeError, "^a payload is expected"):
                read()

    def test_what_is_no_flag_is_not_taken(self):
        for call in (
            lambda **how: q.read_frames(b"\x01", **how),
            lambda **how: q.frames(b"\x01", **how),
            lambda **how: q.canonical(b"\x01", **how),
            lambda **how: q.Ping().encode(**how),
            lambda **how: q.read_packets(b"\x40", 0, **how),
            lambda **how: q.read_packet(b"\x40", 0, **how),
            lambda **how: q.TransportParameters.read(q.Side.CLIENT, b"", **how),
        ):
            for value in ("1", None):
                with self.assertRaisesRegex(TypeError, "^checks must be an int$"):
                    call(checks=value)
            for value in (-1, 1 << 32, 1 << 64):
                with self.assertRaisesRegex(ValueError, r"^checks must be from 0 to 2\^32 - 1$"):
                    call(checks=value)
            with self.assertRaises(TypeError):
                call(check=q.Checks.RFC)


if __name__ == "__main__":
    unittest.main()
