"""Packets, their protection, and numbers."""

import unittest

import quic_wire as q
from quic_wire.protection import open_packet, seal_packet

CID = bytes.fromhex("8394c8f03e515708")


class NoCipher:
    """Keys that only append a tag."""

    tag_len = 16

    def mask(self, sample):
        return bytes(5)

    def open(self, number, header, payload):
        return payload[:-16]

    def seal(self, number, header, payload):
        return payload + bytes(16)


class Packets(unittest.TestCase):
    def test_each_packet_of_a_datagram_is_read(self):
        initial = q.write_header(q.PacketType.INITIAL, CID, b"ab", b"token", number=5, number_len=2)
        datagram = bytearray(initial + bytes(18))
        q.set_length(datagram, len(initial) - 2)
        handshake = bytearray(q.write_header(q.PacketType.HANDSHAKE, CID, b"ab", number_len=1) + bytes(19))
        q.set_length(handshake, len(handshake) - 20)
        datagram += handshake + q.write_header(q.PacketType.ONE_RTT, CID, spin=True, number_len=1)
        found = q.read_packets(bytes(datagram), 8)
        self.assertEqual([type(packet) for packet in found], [q.Initial, q.Handshake, q.OneRtt])
        self.assertEqual(list(q.packets(bytes(datagram), 8)), found)
        match found[0]:
            case q.Initial(version=1, dcid=dcid, scid=scid, token=token, length=length):
                self.assertEqual((dcid, scid, token, length), (CID, b"ab", b"token", 20))
        self.assertEqual(found[0].token_at, datagram.index(b"token"))
        self.assertEqual([packet.begin for packet in found], [0, found[0].end, found[1].end])
        self.assertEqual(found[2].number_at, found[2].begin + 9)
        self.assertEqual((found[2].spin, found[2].dcid, found[2].scid, found[2].version), (True, CID, b"", 0))
        self.assertEqual(b"".join(packet.data for packet in found), datagram)
        self.assertEqual(len(found[0].sample()), 16)
        self.assertIsNone(found[2].sample())

    def test_packets_without_a_number(self):
        retry = q.write_header(q.PacketType.RETRY, CID, b"ab") + b"token" + bytes(range(16))
        packet = q.read_packet(retry, 0)
        self.assertEqual((bytes(packet.token), bytes(packet.integrity_tag)), (b"token", bytes(range(16))))
        self.assertEqual((packet.number_at, packet.sample()), (None, None))
        negotiation = q.write_version_negotiation(bytes(21), bytes(30), [q.Version.V1, q.Version.V2])
        packet = q.read_packet(negotiation, 0)
        self.assertEqual((packet.versions, len(packet.dcid), packet.version), ((1, 0x6B3343CF), 21, 0))
        unknown = q.read_packet(bytes.fromhex("c000000009") + b"\x01a\x00rest", 0)
        self.assertIsInstance(unknown, q.UnknownVersion)
        self.assertEqual((unknown.version, bytes(unknown.dcid), unknown.end), (9, b"a", 12))

    def test_ids_and_tokens_are_bytes(self):
        initial = bytearray(q.write_header(q.PacketType.INITIAL, CID, b"ab", b"token", number_len=1) + bytes(19))
        q.set_length(initial, len(initial) - 20)
        retry = q.write_header(q.PacketType.RETRY, CID, b"ab") + b"token" + bytes(16)
        for data in (bytes(initial), initial, retry, bytearray(retry)):
            packet = q.read_packet(data, 0)
            self.assertEqual((packet.dcid, packet.scid, packet.token), (CID, b"ab", b"token"))
            self.assertEqual({type(one) for one in (packet.dcid, packet.scid, packet.token)}, {bytes})
            self.assertIs(type(packet.data), memoryview)
        self.assertIs(type(packet.integrity_tag), bytes)

    def test_a_packet_is_a_value(self):
        data = q.write_header(q.PacketType.ONE_RTT, CID)
        packet, other = q.read_packet(data, 8), q.read_packet(bytearray(data), 8)
        self.assertEqual(packet, other)
        self.assertEqual(hash(packet), hash(other))
        self.assertNotEqual(packet, q.read_packet(data, 7))
        self.assertEqual(repr(q.read_packet(data[:6], 2)), "OneRtt(0..6, dcid=b'\\x83\\x94', spin=False)")

    def test_versions_are_shown_in_hexadecimal(self):
        handshake = q.write_header(q.PacketType.HANDSHAKE, b"a", version=q.Version.V2) + bytes(4)
        data = bytearray(handshake)
        q.set_length(data, len(data) - 8)
        shown = "Handshake(0..18, version=0x6b3343cf, dcid=b'a', scid=b'', length=8)"
        self.assertEqual(repr(q.read_packet(data, 0)), shown)
        for versions, text in (([], "()"), ([1], "(0x00000001,)"), ([1, 0xFF00001D], "(0x00000001, 0xff00001d)")):
            packet = q.read_packet(q.write_version_negotiation(b"a", b"b", versions), 0)
            shown = f"VersionNegotiation(0..{packet.end}, dcid=b'a', scid=b'b', versions={text})"
            self.assertEqual(repr(packet), shown)

    def test_versions_and_the_fixed_bit_are_the_callers(self):
        header = q.write_header(q.PacketType.HANDSHAKE, CID, version=q.Version.V2, fixed_bit=False) + bytes(4)
        data = bytearray(header)
        q.set_length(data, len(data) - 8)
        self.assertIsInstance(q.read_packet(data, 0, checks=q.Checks.GREASED_BIT), q.Handshake)
        self.assertIsInstance(q.read_packet(data, 0, versions=[1], checks=q.Checks.ANY_VERSION), q.UnknownVersion)
        with self.assertRaisesRegex(q.PacketError, "fixed bit unset"):
            q.read_packet(data, 0)

    def test_wrong_arguments_are_rejected(self):
        rows = [
            (ValueError, lambda: q.read_packets(b"\x40", 21)),
            (ValueError, lambda: q.read_packets(b"\x00", 21)),
            (ValueError, lambda: q.read_packets(b"\x40", 1 << 32)),
            (ValueError, lambda: q.write_header(256)),
            (ValueError, lambda: q.write_header(q.PacketType.INITIAL, CID, version=1 << 32)),
            (ValueError, lambda: q.read_packet(b"\x40", 0, 2)),
            (ValueError, lambda: q.read_packet(b"\x40", 0, -1)),
            (ValueError, lambda: q.read_packet(b"\x40", 0, 1 << 70)),
            (TypeError, lambda: q.read_packet(b"\x40", 0, "1")),
            (TypeError, lambda: q.read_packet(b"\x40")),
            (TypeError, lambda: q.read_packet(b"\x40", cid_length=0)),
            (TypeError, lambda: q.read_packet(b"\x40", 0, datagram=b"\x40")),
            (TypeError, lambda: q.read_packet(b"\x40", 0, 0, None, 0)),
            (ValueError, lambda: q.read_packets(b"\x40", 0, [1 << 32])),
            (ValueError, lambda: q.read_packets(b"\x40", 0, [1] * 33)),
            (ValueError, lambda: q.write_header(q.PacketType.INITIAL, bytes(21))),
            (ValueError, lambda: q.write_header(q.PacketType.INITIAL, CID, number_len=5)),
            (ValueError, lambda: q.write_header(q.PacketType.INITIAL, CID, version=0)),
            (ValueError, lambda: q.write_header(q.PacketType.VERSION_NEGOTIATION, CID)),
            (ValueError, lambda: q.write_header(q.PacketType.INITIAL, CID, number=1 << 62)),
            (ValueError, lambda: q.write_version_negotiation(bytes(256), b"", [])),
            (ValueError, lambda: q.set_length(bytearray(9), 1, 3)),
            (ValueError, lambda: q.protect(bytearray(9), 1, bytes(4))),
            (ValueError, lambda: q.unprotect(bytes(9), -1, bytes(5))),
            (ValueError, lambda: q.unprotect(bytes(9), 1, bytes(5), 1 << 62)),
            (q.PacketError, lambda: q.unprotect(bytes(9), 6, bytes(5))),
            (q.PacketError, lambda: q.protect(bytearray(9), 0, bytes(5))),
            ((TypeError, BufferError), lambda: q.protect(bytes(9), 1, bytes(5))),
        ]
        for i, (kind, call) in enumerate(rows):
            with self.subTest(i), self.assertRaises(kind):
                call()

    def test_bytes_that_are_not_contiguous_are_rejected(self):
        data = memoryview(bytes(64))[::2]
        calls = [
            lambda: q.read_frames(data),
            lambda: q.read_packets(data, 0),
            lambda: list(q.packets(data, 0)),
            lambda: list(q.parameters(data)),
            lambda: q.TransportParameters.read(q.Side.CLIENT, data),
            lambda: q.Stream(data=data),
            lambda: q.write_header(q.PacketType.INITIAL, data),
        ]
        for i, call in enumerate(calls):
            with self.subTest(i), self.assertRaises((BufferError, TypeError)):
                call()

    def test_a_header_without_a_packet_type_is_named(self):
        for kind in (q.PacketType.VERSION_NEGOTIATION, q.PacketType.UNKNOWN_VERSION, 9):
            with self.subTest(kind), self.assertRaisesRegex(ValueError, "^packet_type must be INITIAL, .* or ONE_RTT$"):
                q.write_header(kind, CID)

    def test_bytes_that_a_header_would_lose_are_rejected(self):
        kind = q.PacketType
        rows = [
            ("^token: a Retry's token and integrity tag follow its header", kind.RETRY, {"token": b"token"}),
            ("^token: a short header has none$", kind.ONE_RTT, {"token": b"token"}),
            ("^scid: a short header has none$", kind.ONE_RTT, {"scid": b"ab"}),
        ]
        for text, packet_type, given in rows:
            with self.subTest(packet_type, given=given):
                with self.assertRaisesRegex(ValueError, text):
                    q.write_header(packet_type, CID, **given)
                empty = {name: b"" for name in given}
                self.assertEqual(q.write_header(packet_type, CID, **empty), q.write_header(packet_type, CID))
        # aioquic passes a token for each of its long headers.
        for packet_type in (kind.ZERO_RTT, kind.HANDSHAKE):
            header = q.write_header(packet_type, CID, b"ab", b"token")
            self.assertEqual(header, q.write_header(packet_type, CID, b"ab"), packet_type)

    def test_what_has_no_protection_is_not_sealed(self):
        kind, unprotected, token = q.PacketType, "^packet_type must be .* no protection$", "^token: only an Initial"
        for packet_type in (kind.RETRY, kind.VERSION_NEGOTIATION):
            with self.subTest(packet_type), self.assertRaisesRegex(ValueError, unprotected):
                seal_packet(packet_type, b"\x01", NoCipher(), dcid=b"abcd", scid=b"efgh")
        for packet_type in (kind.ZERO_RTT, kind.HANDSHAKE, kind.ONE_RTT):
            with self.subTest(packet_type), self.assertRaisesRegex(ValueError, token):
                seal_packet(packet_type, b"\x01", NoCipher(), dcid=CID, token=b"token")
        sealed = seal_packet(kind.INITIAL, b"\x01", NoCipher(), dcid=CID, token=b"token")
        self.assertEqual(q.read_packet(sealed, 0).token, b"token")

    def test_a_wrong_length_is_named(self):
        initial, one_rtt = q.PacketType.INITIAL, q.PacketType.ONE_RTT
        rows = [
            ("dcid must have at most 20 bytes", lambda: q.write_header(initial, bytes(21))),
            ("scid must have at most 20 bytes", lambda: q.write_header(initial, CID, bytes(21), b"token")),
            ("dcid must have at most 20 bytes", lambda: q.write_header(one_rtt, bytes(21))),
            ("number_len must be from 1 to 4", lambda: q.write_header(initial, CID, number_len=0)),
            ("number_len must be from 1 to 4", lambda: q.write_header(one_rtt, CID, number_len=5)),
            ("length_len must be 1, 2, 4 or 8", lambda: q.write_header(initial, CID, length_len=3)),
            ("version must not be 0", lambda: q.write_header(initial, CID, version=0)),
            ("length_len must be 1, 2, 4 or 8", lambda: q.set_length(bytearray(9), 4, 3)),
            ("number_at must be from 0 to 9", lambda: q.set_length(bytearray(9), 10)),
            ("number_at must be from 0 to 9", lambda: q.set_length(bytearray(9), -1)),
            ("length_len of 2 doesn't fit before number_at of 1", lambda: q.set_length(bytearray(9), 1)),
            ("length_len of 1 is too small for a length of 64", lambda: q.set_length(bytearray(65), 1, 1)),
            ("length_len of 2 is too small for a length of 16404",
             lambda: seal_packet(initial, bytes(16384), NoCipher(), dcid=CID)),
            ("dcid must have at most 255 bytes", lambda: q.write_version_negotiation(bytes(256), b"", [])),
            ("scid must have at most 255 bytes", lambda: q.write_version_negotiation(b"", bytes(256), [])),
            ("cid_len must be at most 20", lambda: q.read_packets(b"\x40", 21)),
            ("cid_len must be at most 20", lambda: q.packet_fields(b"\x40", 21)),
            ("length must be from 1 to 4", lambda: q.write_packet_number(1, 5)),
            ("length must be from 1 to 4", lambda: q.read_packet_number(bytes(9), 5)),
            ("length must be from 1 to 4", lambda: q.expand_packet_number(1, 0, 1)),
        ]  # fmt: skip
        for text, call in rows:
            with self.subTest(text):
                with self.assertRaises(ValueError) as caught:
                    call()
                self.assertEqual(str(caught.exception), text)

    # RFC 9001, appendix A.5: the header of a short packet, with its sample and mask.
    def test_protection_is_removed_and_applied(self):
        packet = bytearray.fromhex("4cfe4189655e5cd55c41f69080575d7999c25a5bfb")
        mask = bytes.fromhex("aefefe7d03")
        self.assertEqual(q.read_packet(packet, 0).sample().hex(), "5e5cd55c41f69080575d7999c25a5bfb")
        number, header = q.unprotect(packet, 1, mask, 654360564)
        self.assertEqual((number, header.hex()), (654360564, "4200bff4"))
        bare = bytearray(header + packet[4:])
        self.assertEqual(q.protect(bare, 1, mask), 3)
        self.assertEqual(bare, packet)

    def test_a_mask_may_be_a_part_of_the_packet(self):
        packet, other = bytearray(range(0x43, 0x63)), bytearray(range(0x43, 0x63))
        q.protect(other, 1, bytes(other[:5]))
        q.protect(packet, 1, memoryview(packet)[:5])
        self.assertEqual(packet, other)

    def test_a_cipher_of_the_callers_opens_and_seals(self):
        calls = []

        class Keys:
            tag_len = 16

            def mask(self, sample):
                calls.append(len(sample))
                return bytes([0xFF] * 5)

            def open(self, number, header, payload):
                calls.append((number, header))
                if payload[-16:] != bytes(16):
                    raise KeyError("not authentic")
                return payload[:-16]

            def seal(self, number, header, payload):
                return payload + bytes(16)

        sealed = seal_packet(q.PacketType.ONE_RTT, b"\x01", Keys(), dcid=CID, number=7, number_len=2, key_phase=True)
        opened = open_packet(q.read_packet(sealed, 8), Keys(), 5)
        self.assertEqual((opened.number, opened.payload), (7, b"\x01\x00"))
        self.assertEqual((opened.key_phase, opened.reserved_bits_are_zero), (True, True))
        self.assertEqual((opened.payload_at, opened.packet.number_at), (11, 9))
        behind = open_packet(q.read_packet(b"\xff" * 5 + sealed, 8, 5), Keys(), 5)
        self.assertEqual((behind.payload_at, behind.packet.number_at, behind.header), (16, 14, opened.header))
        self.assertEqual(calls[-1], (7, b"\x45" + CID + b"\x00\x07"))
        with self.assertRaises(KeyError):
            open_packet(q.read_packet(sealed[:-1] + b"\x01", 8), Keys())
        with self.assertRaisesRegex(q.PacketError, "too small"):
            open_packet(q.read_packet(sealed[:20], 8), Keys())


class Numbers(unittest.TestCase):
    # RFC 9000, appendices A.1 to A.3.
    def test_numbers_are_those_of_the_rfc(self):
        rows = [("c2197c5eff14e88c", 151288809941952652), ("9d7f3e7d", 494878333), ("7bbd", 15293), ("25", 37)]
        for digits, value in rows:
            data = bytes.fromhex(digits)
            self.assertEqual(q.read_varint(data), (value, len(data)))
            self.assertEqual(q.read_varint(b"\x00" + data, 1), (value, 1 + len(data)))
            self.assertEqual((q.write_varint(value), q.varint_len(value)), (data, len(data)))
        self.assertEqual(q.read_varint(bytes.fromhex("4025")), (37, 2))
        self.assertEqual(q.write_varint(37, 2).hex(), "4025")
        self.assertEqual(q.expand_packet_number(0x9B32, 2, 0xA82F30EA + 1), 0xA82F9B32)
        self.assertEqual(q.packet_number_len(0xAC5C02, 0xABE8B3), 2)
        self.assertEqual(q.packet_number_len(0xACE8FE, 0xABE8B3), 3)
        self.assertEqual(
            (q.write_packet_number(0xAC5C02, 2), q.read_packet_number(b"\x5c\x02", 2)), (b"\x5c\x02", 0x5C02)
        )

    def test_wrong_numbers_are_rejected(self):
        rows = [
            (ValueError, lambda: q.write_varint(1 << 62)),
            (ValueError, lambda: q.write_varint(64, 1)),
            (ValueError, lambda: q.write_varint(1, 3)),
            (ValueError, lambda: q.varint_len(-1)),
            (TypeError, lambda: q.varint_len("1")),
            (q.Error, lambda: q.read_varint(b"", 0)),
            (q.Error, lambda: q.read_varint(b"\x01", -1)),
            (ValueError, lambda: q.packet_number_len(5, 6)),
            (ValueError, lambda: q.expand_packet_number(256, 1, 0)),
            (ValueError, lambda: q.expand_packet_number(0, 5, 0)),
            (q.PacketError, lambda: q.read_packet_number(b"\x01", 2)),
            (ValueError, lambda: q.read_packet_number(b"\x01", 5)),
            (ValueError, lambda: q.write_packet_number(1, 0)),
        ]
        for i, (kind, call) in enumerate(rows):
            with self.subTest(i), self.assertRaises(kind):
                call()


if __name__ == "__main__":
    unittest.main()
