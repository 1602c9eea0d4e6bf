"""Rejections: their reasons, offsets, fields, codes and sections."""

import copy
import dataclasses
import pickle
import unittest

import quic_wire as q
from quic_wire import _fields, capture, pcap, protection


def rejected(call, *args, **keywords):
    try:
        call(*args, **keywords)
    except q.Error as error:
        return error
    raise AssertionError("nothing was rejected")


class Errors(unittest.TestCase):
    # A payload, its reason, offset, the field at fault and its offset, the code, the section, the type that was read.
    def test_of_payloads(self):
        rows = [
            ("", "packet payload is empty", 0, None, None, 0x0A, "12.4", None),
            ("0106000561", "unexpected end", 1, "Crypto Data", 4, 0x07, "20.1", 0x06),
            ("0110", "unexpected end", 1, "Maximum Data", 2, 0x07, "20.1", 0x10),
            ("0140", "unexpected end", 1, "Type", 1, 0x07, "20.1", None),
            ("1c0040", "unexpected end", 0, "Frame Type", 2, 0x07, "20.1", 0x1C),
            ("0121", "invalid frame ID", 1, "Type", 1, 0x07, "12.4", 0x21),
            ("02030000" + "04", "malformed", 0, "First ACK Range", 4, 0x07, "19.3.1", 0x02),
            ("180102", "malformed", 0, "Retire Prior To", 2, 0x07, "19.15", 0x18),
            ("18010015", "malformed", 0, "Length", 3, 0x07, "19.15", 0x18),
        ]
        for digits, reason, at, field, field_at, code, section, kind in rows:
            with self.subTest(digits):
                error = rejected(q.read_frames, bytes.fromhex(digits))
                found = (error.reason, error.offset, error.field, error.field_offset, error.code, error.frame_type)
                self.assertIsInstance(error, q.FrameError)
                self.assertEqual(found, (reason, at, field, field_at, code, kind))
                self.assertEqual(error.section, f"RFC 9000, section {section}")
                self.assertEqual(error.frames, [q.Ping()] if at else [])
                for call in (q.canonical, lambda payload: list(q.frames(payload))):
                    self.assertEqual(str(rejected(call, bytes.fromhex(digits))), str(error))

    # By the names of c/include/quic_wire.h.
    def test_kinds(self):
        kind, frames, packets = q.ErrorKind, q.read_frames, lambda data: q.read_packets(data, 0, checks=q.Checks.RFC)
        by_rfc = lambda data: q.read_frames(data, checks=q.Checks.RFC)  # noqa: E731
        parameters = lambda data: q.TransportParameters.read(q.Side.SERVER, data)  # noqa: E731
        rows = [
            (frames, "", kind.PAYLOAD_EMPTY),
            (frames, "10", kind.FRAME_END),
            (frames, "24", kind.FRAME_TYPE),
            (frames, "180102", kind.FRAME_MALFORMED),
            (by_rfc, "4001", kind.FRAME_LONG_TYPE),
            (by_rfc, "12d000000000000001", kind.FRAME_LIMIT),
            (lambda data: frames(data)[0].check_permitted(0, 0), "0800", kind.FRAME_PACKET),
            (lambda data: frames(data)[0].check_permitted(4, 0), "1e", kind.FRAME_SENDER),
            (lambda data: frames(data)[0].check_permitted(4, 1), "0802", kind.FRAME_STREAM),
            (packets, "", kind.PACKET_END),
            (packets, "00", kind.PACKET_FIXED_BIT),
            (packets, "c00000000115", kind.PACKET_CID),
            (packets, "c0000000010000" + "00" + "4004", kind.PACKET_CUT),
            (packets, "f0000000010000" + "00" * 16, kind.PACKET_RETRY),
            (lambda data: q.unprotect(data, 8, bytes(5)), "00" * 9, kind.PACKET_SMALL),
            (parameters, "0401", kind.PARAMS_MALFORMED),
            (parameters, "0000", kind.PARAMS_ILLEGAL),
            (lambda data: list(q.parameters(data)), "0401", kind.PARAMS_MALFORMED),
            (q.parameter_fields, "0401", kind.PARAMS_MALFORMED),
            (q.frame_fields, "10", kind.FRAME_END),
            (q.read_varint, "", None),
        ]
        for call, digits, wanted in rows:
            with self.subTest(digits, wanted=wanted):
                error = rejected(call, bytes.fromhex(digits))
                self.assertIs(error.kind, wanted)
                self.assertIs(copy.copy(error).kind, wanted)
                self.assertIs(type(error.kind), type(None) if wanted is None else q.ErrorKind)

    def test_messages_of_payloads(self):
        rows = [
            ("0140", "unexpected end at 1, Type at 1 (RFC 9000, section 20.1)"),
            ("0121", "invalid frame ID in <unknown 0x21> at 1, Type at 1 (RFC 9000, section 12.4)"),
            (
                "180102",
                "malformed in NEW_CONNECTION_ID at 0, Retire Prior To at 2: "
                "Retire Prior To is greater than Sequence Number (RFC 9000, section 19.15)",
            ),
        ]
        for digits, message in rows:
            self.assertEqual(str(rejected(q.read_frames, bytes.fromhex(digits))), message)

    def test_why_a_frame_is_malformed_or_exceeds_a_limit(self):
        below, past = "a packet number would be below 0", "the data end past 2^62 - 1"
        rows = [
            ("0203000004", below),
            ("02030001000200", below),
            ("02030001000002", below),
            ("180102", "Retire Prior To is greater than Sequence Number"),
            ("18010015", "Length must be from 1 to 20"),
            ("18010000", "Length must be from 1 to 20"),
            ("0700", "the token is empty"),
            ("06ffffffffffffffff01aa", past),
            ("0c00ffffffffffffffff61", past),
            ("12d000000000000001", "it is greater than 2^60"),
            ("1f", "the ACK frequency extension wasn't negotiated"),
            ("40af00000000", "the ACK frequency extension wasn't negotiated"),
            ("20", None),
            ("0110", None),
            ("4001", None),
        ]
        for digits, why in rows:
            with self.subTest(digits):
                payload = bytes.fromhex(digits)
                self.assertEqual(rejected(q.read_frames, payload, checks=q.Checks.RFC).why, why)
                self.assertEqual(rejected(q.canonical, payload, checks=q.Checks.RFC).why, why)

    def test_why_a_type_is_unknown(self):
        why = "the ACK frequency extension wasn't negotiated"
        for frame in (q.ImmediateAck(), q.AckFrequency()):
            calls = [
                lambda: frame.encode(checks=q.Checks.RFC),
                lambda: q.write_frames([frame], checks=q.Checks.NO_ACK_FREQUENCY),
                lambda: frame.check_permitted(4, 0, checks=q.Checks.RFC),
                lambda: q.check_type(frame.type, 4, 0, checks=q.Checks.RFC),
            ]
            for call in calls:
                error = rejected(call)
                self.assertEqual((error.reason, error.why, error.frame_type), ("invalid frame ID", why, frame.type))
        self.assertEqual(
            str(rejected(q.ImmediateAck().encode, checks=q.Checks.RFC)),
            f"invalid frame ID in IMMEDIATE_ACK: {why} (RFC 9000, section 12.4)",
        )
        self.assertIsNone(rejected(q.check_type, 0x20, 4, 0, checks=q.Checks.RFC).why)

    def test_of_packets(self):
        initial = "c00000000108" + "aa" * 8 + "00" + "00" + "4004" + "00000000"
        rows = [
            ("", 0, "unexpected end of packet", "First Byte", 0, "12.2"),
            ("00", 0, "fixed bit unset", "Fixed Bit", 0, "17.3.1"),
            ("80" + initial[2:], 0, "fixed bit unset", "Fixed Bit", 0, "17.2"),
            ("c000000001" + "15", 0, "malformed cid", "Destination Connection ID Length", 5, "17.2"),
            (initial[:-2], 0, "packet too short to contain payload length", "Length", 16, "12.2"),
            ("41", 8, "packet too small", "Destination Connection ID", 1, "12.2"),
        ]
        for digits, cid_len, reason, field, field_at, section in rows:
            with self.subTest(digits):
                error = rejected(q.read_packets, bytes.fromhex(digits), cid_len)
                self.assertEqual((error.reason, error.field, error.field_offset), (reason, field, field_at))
                self.assertEqual((error.code, error.packets), (None, []))
                self.assertEqual(error.section, f"RFC 9000, section {section}")
        cut = rejected(q.read_packets, bytes.fromhex(initial + initial[:-2]), 0)
        self.assertEqual((len(cut.packets), cut.offset, cut.packet.length), (1, 22, 4))
        self.assertIsNone(rejected(q.read_packet, b"", 0).packets)

    def test_of_parameters(self):
        rows = [
            ("0401010302" + "4064" + "050101", q.Side.CLIENT, 3, "max_udp_payload_size", "illegal value", None),
            ("040101" + "040101", q.Side.CLIENT, 3, "initial_max_data", "malformed", "it occurs twice"),
            (
                "0f00" + "0210" + "00" * 16,
                q.Side.SERVER,
                2,
                "stateless_reset_token",
                "illegal value",
                "a client must not send it",
            ),
            ("04024001", q.Side.CLIENT, 0, "initial_max_data", "malformed", None),
            ("040101" + "05", q.Side.CLIENT, 3, "initial_max_stream_data_bidi_local", "malformed", "it is cut off"),
            ("040101" + "0a", q.Side.CLIENT, 3, "ack_delay_exponent", "malformed", "it is cut off"),
            ("040101" + "1bff", q.Side.CLIENT, 3, None, "malformed", "it is cut off"),
            ("040101" + "40", q.Side.CLIENT, 3, None, "malformed", "it is cut off"),
            ("0f00" + "0c0100", q.Side.SERVER, 2, "disable_active_migration", "malformed", None),
            ("0f00" + "1000", q.Side.SERVER, 2, "retry_source_connection_id", "illegal value", None),
            # min_ack_delay of 25,001 µs, and max_ack_delay of 25 ms after it.
            ("c0000000ff04de1b04800061a9" + "0b0119", q.Side.CLIENT, 0, "min_ack_delay", "illegal value", None),
            ("0e0101", q.Side.CLIENT, 0, "active_connection_id_limit", "illegal value", None),
        ]
        for digits, side, at, name, reason, why in rows:
            with self.subTest(digits):
                error = rejected(q.TransportParameters.read, side, bytes.fromhex(digits))
                found = (error.reason, error.offset, error.name, error.code)
                self.assertEqual(found, (reason, at, name, q.Code.TRANSPORT_PARAMETER_ERROR))
                self.assertIn(why, (None, error.why))
        shown = "its value is invalid"
        error = rejected(q.TransportParameters.read, q.Side.CLIENT, bytes.fromhex("03024064"))
        self.assertEqual((error.why, error.wanted, error.value.hex()), (shown, "a number of 1200 or more", "4064"))
        self.assertEqual(error.section, "RFC 9000, section 18.2")
        error = rejected(list, q.parameters(bytes.fromhex("04010105")))
        self.assertEqual((error.offset, error.why, error.section), (3, "it is cut off", "RFC 9000, section 18"))

    def test_messages_of_parameters(self):
        client, server = q.Side.CLIENT, q.Side.SERVER
        rows = [
            (
                server,
                "040105" + "0000",
                "illegal value of original_destination_connection_id at 3: a client must not send it "
                "(RFC 9000, section 18.2)",
            ),
            (client, "040101040101", "malformed initial_max_data at 3: it occurs twice (RFC 9000, section 7.4)"),
            (
                client,
                "04020505",
                "malformed initial_max_data at 0: expected one variable-length integer and nothing after it "
                "(RFC 9000, section 18.2)",
            ),
            (
                client,
                "03024064",
                "illegal value of max_udp_payload_size at 0: expected a number of 1200 or more "
                "(RFC 9000, section 18.2)",
            ),
            (client, "1bff", "malformed parameter 0x1b at 0: it is cut off (RFC 9000, section 18)"),
            (client, "40", "malformed parameter at 0: it is cut off (RFC 9000, section 18)"),
        ]
        for side, digits, message in rows:
            self.assertEqual(str(rejected(q.TransportParameters.read, side, bytes.fromhex(digits))), message)

    def test_classes_list_their_attributes(self):
        common = ["reason", "why", "offset", "field", "field_offset", "code", "section"]
        rows = [
            (capture.Captured, [field.name for field in dataclasses.fields(capture.Captured)]),
            (pcap.Datagram, [field.name for field in dataclasses.fields(pcap.Datagram)]),
            (protection.Opened, [field.name for field in dataclasses.fields(protection.Opened)]),
            (q.Error, common),
            (q.FrameError, ["frame_type", "frames", *common]),
            (q.PacketError, ["packets", "packet"]),
            (q.ParameterError, ["id", "name", "value", "why", "wanted"]),
            (q.Checks, ["QUINN", "RFC", *(flag.name for flag in q.Checks)]),
        ]
        for kind, names in rows:
            for name in names:
                with self.subTest(f"{kind.__name__}.{name}"):
                    self.assertRegex(kind.__doc__, rf"\b{name}\b")

    def test_of_numbers(self):
        error = rejected(q.read_varint, b"\x01\x40", 1)
        self.assertEqual(str(error), "unexpected end in a varint at 1 (RFC 9000, section 16)")

    def test_an_error_is_a_value_error_that_can_be_copied(self):
        error = rejected(q.read_frames, b"\x01\x10")
        self.assertIsInstance(error, ValueError)
        for other in (copy.copy(error), pickle.loads(pickle.dumps(error))):
            self.assertEqual((str(other), other.frame_type), (str(error), 0x10))

    def test_a_copied_error_has_no_packets(self):
        one_rtt = q.write_header(q.PacketType.ONE_RTT, b"ab")
        handshake = q.write_header(q.PacketType.HANDSHAKE, b"ab") + bytes(16)
        cut_off = bytearray(handshake)
        q.set_length(cut_off, len(handshake) - 20)
        rows = [
            (bytes(cut_off) + b"\xc0\0\0\0\1\xff", [q.Handshake], type(None)),
            (bytes(cut_off[:-1]), [], q.Handshake),
            (b"\x00", [], type(None)),
            (one_rtt[:2], [], type(None)),
        ]
        kept = ["kind", "reason", "why", "offset", "field", "field_offset", "fields", "code", "section"]
        for datagram, before, last in rows:
            error = rejected(q.read_packets, datagram, 2)
            self.assertEqual(([type(one) for one in error.packets], type(error.packet)), (before, last))
            for make in (copy.copy, copy.deepcopy, lambda one: pickle.loads(pickle.dumps(one))):
                with self.subTest(datagram, make=make):
                    other = make(error)
                    self.assertEqual((type(other), str(other), other.packets, other.packet),
                                     (q.PacketError, str(error), None, None))  # fmt: skip
                    for name in kept:
                        self.assertEqual(getattr(other, name), getattr(error, name), name)

    def test_every_error_can_be_pickled(self):
        calls = [
            (q.read_frames, b""),
            (q.read_frames, bytes.fromhex("0106000561")),
            (q.read_frames, bytes.fromhex("06000161" + "180102")),
            (q.frame_fields, bytes.fromhex("10")),
            (q.packet_fields, b"\xc0\0\0\0\1\xff", 0),
            (q.TransportParameters.read, q.Side.SERVER, b"\0\0"),
            (q.TransportParameters.read, q.Side.CLIENT, memoryview(bytes.fromhex("03024064"))),
            (q.find_parameter, bytes.fromhex("0401"), 5),
            (q.parameter_fields, bytes.fromhex("0401")),
            (q.read_varint, b""),
        ]
        for call, *arguments in calls:
            with self.subTest(call, arguments=arguments):
                error = rejected(call, *arguments)
                for other in (copy.deepcopy(error), pickle.loads(pickle.dumps(error))):
                    self.assertEqual((type(other), str(other)), (type(error), str(error)))
                    self.assertEqual(vars(other), vars(error))

    def test_a_frame_that_is_valid_by_now_has_its_type_at_fault(self):
        # Between reading and the message another thread may change the bytes: here to a PING at 3.
        read = _fields.Read(1, [(3, 4, 0x01)], 4, 0, 0)
        self.assertEqual(_fields.in_frame(read), (("Type", 3), None))

    def test_codes_have_names(self):
        self.assertEqual(rejected(q.read_frames, b"").code, q.Code.PROTOCOL_VIOLATION)
        self.assertEqual(q.Code.CRYPTO_ERROR, 0x100)


if __name__ == "__main__":
    unittest.main()
