"""Packets opened and sealed with the package cryptography: the examples of RFC 9001, appendix A, and captures."""

import io
import random
import struct
import unittest

import quic_wire as q
from quic_wire import capture, pcap
from quic_wire.keylog import KeyLog
from quic_wire.protection import open_packet, seal_packet

try:
    from quic_wire import ciphers
except ImportError:
    raise unittest.SkipTest("the package cryptography isn't there") from None

DCID = bytes.fromhex("8394c8f03e515708")
CRYPTO = bytes.fromhex(
    "060040f1010000ed0303ebf8fa56f12939b9584a3896472ec40bb863cfd3e86804fe3a47f06a2b69484c00000413011302010000c00000"
    "0010000e00000b6578616d706c652e636f6dff01000100000a00080006001d0017001800100007000504616c706e000500050100000000"
    "003300260024001d00209370b2c9caa47fbabaf4559fedba753de171fa71f50f1ce15d43e994ec74d748002b0003020304000d0010000e"
    "0403050306030203080408050806002d00020101001c00024001003900320408ffffffffffffffff05048000ffff07048000ffff080110"
    "0104800075300901100f088394c8f03e51570806048000ffff"
)


class Examples(unittest.TestCase):
    # RFC 9001, appendix A.1.
    def test_initial_keys(self):
        client, server = ciphers.initial_keys(q.Version.V1, DCID)
        self.assertEqual(client.secret.hex(), "c00cf151ca5be075ed0ebfb5c80323c42d6b7db67881289af4008f1f6c357aea")
        self.assertEqual(
            (client.key.hex(), client.iv.hex(), client.hp.hex()),
            ("1f369613dd76d5467730efcbe3b1a22d", "fa044b2f42a3fd3b46fb255c", "9f50449e04a0e810283a1e9933adedd2"),
        )
        self.assertEqual(
            (server.key.hex(), server.iv.hex(), server.hp.hex()),
            ("cf3a5331653c364c88f0f379b6067e37", "0ac1493ca1905853b0bba03e", "c206b8d9b9f0f37644430b490eeaa314"),
        )
        self.assertNotIn(client.key.hex(), repr(client))

    def test_drafts_that_are_read_have_no_keys(self):
        for draft in range(29, 35):
            version = 0xFF000000 + draft
            initial = bytearray(q.write_header(q.PacketType.INITIAL, DCID, version=version) + bytes(20))
            q.set_length(initial, len(initial) - 24)
            packet = q.read_packet(initial, 0)
            calls = [
                lambda: q.Version(packet.version),
                lambda: q.constants(packet.version),
                lambda: ciphers.initial_keys(packet.version, packet.dcid),
                lambda: ciphers.retry_integrity_tag(packet.version, DCID, b""),
            ]
            for i, call in enumerate(calls):
                with self.subTest(draft, call=i):
                    self.assertEqual((type(packet), packet.version), (q.Initial, version))
                    with self.assertRaises(ValueError):
                        call()
        for version in (0xFF00001C, 0xFF000023):
            other = initial[:1] + version.to_bytes(4, "big") + initial[5:]
            self.assertIsInstance(q.read_packet(other, 0), q.UnknownVersion)

    def test_numbers_are_no_bytes(self):
        client, _ = ciphers.initial_keys(q.Version.V1, DCID)
        calls = [
            lambda: ciphers.initial_keys(q.Version.V1, 8),
            lambda: seal_packet(q.PacketType.INITIAL, 5, client),
            lambda: ciphers.retry_integrity_tag(q.Version.V1, DCID, 5),
        ]
        for call in calls:
            with self.assertRaises(TypeError):
                call()

    # Appendix A.2: the header, the mask and the ends of the packet.
    def test_a_client_initial_is_sealed_and_opened(self):
        client, _ = ciphers.initial_keys(q.Version.V1, DCID)
        payload = CRYPTO + bytes(1162 - len(CRYPTO))
        sealed = seal_packet(q.PacketType.INITIAL, payload, client, dcid=DCID, number=2, number_len=4)
        self.assertEqual(sealed[:22].hex(), "c000000001088394c8f03e5157080000449e7b9aec34")
        self.assertEqual((len(sealed), sealed[-16:].hex()), (1200, "e221af44860018ab0856972e194cd934"))
        opened = open_packet(q.read_packet(sealed, 0), client)
        self.assertEqual((opened.number, opened.header.hex()), (2, "c300000001088394c8f03e5157080000449e00000002"))
        self.assertEqual(opened.payload, payload)
        with self.assertRaises(ciphers.NotAuthentic):
            open_packet(q.read_packet(sealed[:-1] + b"\x00", 0), client)

    # Appendix A.3.
    def test_a_server_initial_is_opened(self):
        _, server = ciphers.initial_keys(q.Version.V1, DCID)
        sealed = bytes.fromhex(
            "cf000000010008f067a5502a4262b5004075c0d95a482cd0991cd25b0aac406a5816b6394100f37a1c69797554780bb38cc5"
            "a99f5ede4cf73c3ec2493a1839b3dbcba3f6ea46c5b7684df3548e7ddeb9c3bf9c73cc3f3bded74b562bfb19fb84022f8ef4"
            "cdd93795d77d06edbb7aaf2f58891850abbdca3d20398c276456cbc42158407dd074ee"
        )
        opened = open_packet(q.read_packet(sealed, 0), server)
        self.assertEqual((opened.number, opened.header.hex()), (1, "c1000000010008f067a5502a4262b50040750001"))
        ack, crypto = q.read_frames(opened.payload)
        self.assertEqual((ack, crypto.offset, len(crypto.data)), (q.Ack(ranges=[range(1)]), 0, 90))

    # Appendix A.4.
    def test_a_retry_has_a_tag(self):
        retry = bytes.fromhex("ff000000010008f067a5502a4262b5746f6b656e04a265ba2eff4d829058fb3f0f2496ba")
        packet = q.read_packet(retry, 0)
        self.assertEqual((packet.token, packet.scid.hex()), (b"token", "f067a5502a4262b5"))
        self.assertEqual(ciphers.retry_integrity_tag(packet.version, DCID, retry[:-16]), packet.integrity_tag)

    # Appendix A.5.
    def test_a_chacha20_packet(self):
        secret = bytes.fromhex("9ac312a7f877468ebe69422748ad00a15443f18203a07d6060f688f30f21632b")
        keys = ciphers.PacketKeys.of(secret, ciphers.SUITES[0x1303])
        self.assertEqual(keys.key.hex(), "c6d98ff3441c3fe1b2182094f69caa2ed4b716b65488960a7a984979fb23e1c8")
        after = "1223504755036d556342ee9361d253421a826c9ecdf3c7148684b36b714881f9"
        self.assertEqual(keys.updated().secret.hex(), after)
        self.assertEqual(keys.updated().hp, keys.hp)
        sealed = seal_packet(q.PacketType.ONE_RTT, b"\x01", keys, number=654360564, number_len=3)
        self.assertEqual(sealed.hex(), "4cfe4189655e5cd55c41f69080575d7999c25a5bfb")
        opened = open_packet(q.read_packet(sealed, 0), keys, 654360564)
        self.assertEqual((opened.number, q.read_frames(opened.payload)), (654360564, [q.Ping()]))


def handshake_message(kind, body):
    return bytes([kind]) + len(body).to_bytes(3, "big") + body


class Connection:
    """Datagrams of a connection with our own secrets, as in a capture and its key log."""

    def __init__(self, suite=0x1302, version=q.Version.V1):
        self.random, size = bytes(range(32)), 48 if suite == 0x1302 else 32
        labels = (
            "CLIENT_HANDSHAKE_TRAFFIC_SECRET",
            "SERVER_HANDSHAKE_TRAFFIC_SECRET",
            "CLIENT_TRAFFIC_SECRET_0",
            "SERVER_TRAFFIC_SECRET_0",
        )
        self.secrets = {label: bytes([i + 1] * size) for i, label in enumerate(labels)}
        self.suite, self.version = suite, version
        self.keys = {
            label: ciphers.PacketKeys.of(secret, ciphers.SUITES[suite], version)
            for label, secret in self.secrets.items()
        }
        self.initial = ciphers.initial_keys(version, DCID)

    def keylog(self):
        return [f"{label} {self.random.hex()} {secret.hex()}" for label, secret in self.secrets.items()]

    def datagrams(self):
        """Whether the client sends it, and its bytes."""
        common = {"version": self.version}
        client_hello = handshake_message(1, b"\x03\x03" + self.random + b"\x00" + bytes(40))
        server_hello = handshake_message(2, b"\x03\x03" + bytes(32) + b"\x00" + self.suite.to_bytes(2, "big") + b"\x00")
        client, server = {"dcid": b"server", "scid": b"cl"}, {"dcid": b"cl", "scid": b"server"}
        initial, handshake, one_rtt = q.PacketType.INITIAL, q.PacketType.HANDSHAKE, q.PacketType.ONE_RTT
        keys = self.keys
        yield True, seal_packet(
            initial, q.Crypto(30, client_hello[30:]).encode(), self.initial[0], dcid=DCID, scid=b"cl", **common
        )
        yield True, seal_packet(
            initial, q.Crypto(0, client_hello[:30]).encode(), self.initial[0], dcid=DCID, scid=b"cl", number=1, **common
        )
        yield False, seal_packet(
            initial, q.Crypto(0, server_hello).encode(), self.initial[1], **server, **common
        ) + seal_packet(
            handshake, q.Crypto(0, b"x").encode(), keys["SERVER_HANDSHAKE_TRAFFIC_SECRET"], **server, **common
        )
        yield True, seal_packet(handshake, b"\x01\x01", keys["CLIENT_HANDSHAKE_TRAFFIC_SECRET"], **client, **common)
        one = keys["CLIENT_TRAFFIC_SECRET_0"]
        for number, (phase, sealing) in enumerate(
            [(False, one), (True, one.updated()), (False, one), (True, one.updated()), (False, one.updated().updated())]
        ):
            yield True, seal_packet(
                one_rtt,
                q.Stream(4, number).encode(True) + b"x",
                sealing,
                dcid=b"server",
                number=number,
                number_len=1,
                key_phase=phase,
            )
        yield False, seal_packet(one_rtt, b"\x1e\x21", keys["SERVER_TRAFFIC_SECRET_0"], dcid=b"cl")


def udp(is_client, data):
    """A datagram in an IPv4 packet."""
    ports = (50000, 443) if is_client else (443, 50000)
    ends = (b"\x0a\x00\x00\x01", b"\x0a\x00\x00\x02")
    source, destination = ends if is_client else ends[::-1]
    header = struct.pack(">BBHHHBBH", 0x45, 0, 28 + len(data), 0, 0, 64, 17, 0)
    return header + source + destination + struct.pack(">HHHH", *ports, 8 + len(data), 0) + data


def pcap_file(packets, order="<", link=101):
    out = struct.pack(order + "IHHIIII", 0xA1B2C3D4, 2, 4, 0, 0, 65535, link)
    for i, packet in enumerate(packets):
        out += struct.pack(order + "IIII", 100 + i, 500000, len(packet), len(packet)) + packet
    return io.BytesIO(out)


def block(kind, body, order):
    body += bytes(-len(body) % 4)
    return struct.pack(order + "II", kind, 12 + len(body)) + body + struct.pack(order + "I", 12 + len(body))


def pcapng_file(packets, order="<", link=101):
    out = block(0x0A0D0D0A, struct.pack(order + "IHHq", 0x1A2B3C4D, 1, 0, -1), order)
    resolution = struct.pack(order + "HHBxxxHH", 9, 1, 3, 0, 0)  # milliseconds
    out += block(1, struct.pack(order + "HHI", link, 0, 65535) + resolution, order) + block(99, b"other", order)
    for i, packet in enumerate(packets):
        head = struct.pack(order + "IIIII", 0, 0, 100500 + 1000 * i, len(packet), len(packet))
        out += block(6, head + packet, order)
    return io.BytesIO(out)


class Captures(unittest.TestCase):
    def connection(self, **how):
        made = Connection(**how)
        return [udp(*one) for one in made.datagrams()], KeyLog(made.keylog())

    def test_files_of_every_kind_are_read(self):
        packets, _ = self.connection()
        for make in (pcap_file, pcapng_file):
            for order in "<>":
                with self.subTest(f"{make.__name__} {order}"):
                    read = list(pcap.datagrams(make(packets, order)))
                    self.assertEqual([bytes(one.data) for one in read], [one[28:] for one in packets])
                    self.assertEqual([one.time for one in read], [100.5 + i for i in range(len(packets))])
                    self.assertEqual(str(read[0].source), "10.0.0.1:50000")
        ethernet = bytes(12) + b"\x81\x00\x00\x01\x08\x00"
        self.assertEqual(
            len(list(pcap.datagrams(pcap_file([ethernet + one for one in packets], link=1)))), len(packets)
        )
        for wrong in (b"", b"text", pcap_file(packets).getvalue()[:-1], pcapng_file(packets).getvalue()[:-1]):
            with self.assertRaises(pcap.CaptureError):
                list(pcap.datagrams(io.BytesIO(wrong)))
        with self.assertRaisesRegex(pcap.CaptureError, "links of type 9"):
            list(pcap.datagrams(pcap_file(packets, link=9)))

    def test_packets_are_opened_by_a_key_log(self):
        for suite in ciphers.SUITES:
            for version in q.Version:
                with self.subTest(f"{suite:x} {version}"):
                    packets, keylog = self.connection(suite=suite, version=version)
                    self.check_opened(list(capture.packets(pcap_file(packets), keylog)))

    def check_opened(self, read):
        self.assertTrue(all(one.opened for one in read), [one.why for one in read])
        self.assertEqual(
            [type(one.packet).__name__ for one in read], ["Initial"] * 3 + ["Handshake"] * 2 + ["OneRtt"] * 6
        )
        self.assertEqual([one.frames[0].offset for one in read[5:10]], [0, 1, 2, 3, 4])
        self.assertEqual([one.opened.number for one in read[5:10]], [0, 1, 2, 3, 4])
        last = read[-1]
        self.assertEqual((last.sender, last.frames, last.error.frame_type), (q.Side.SERVER, (q.HandshakeDone(),), 0x21))

    def test_without_a_key_log_initials_are_opened(self):
        packets, _ = self.connection()
        read = list(capture.packets(pcap_file(packets)))
        self.assertEqual([one.opened is not None for one in read], [True] * 3 + [False] * 8)
        read = list(capture.packets(pcap_file(packets), KeyLog([])))
        self.assertEqual({one.why for one in read if one.opened is None}, {"no keys open it"})

    def test_checks_say_which_rules_a_capture_is_read_by(self):
        def frames_and_error(payload, **how):
            client, _ = ciphers.initial_keys(q.Version.V1, DCID)
            sealed = seal_packet(q.PacketType.INITIAL, payload, client, dcid=DCID)
            (one,) = capture.packets(pcap_file([udp(True, sealed)]), **how)
            return one.frames, one.error and one.error.reason

        long_ping = b"\x01\x40\x01" + bytes(20)
        self.assertEqual(frames_and_error(long_ping), ((q.Ping(), q.Ping(), q.Padding(20)), None))
        for checks in (q.Checks.RFC, q.Checks.SHORT_TYPES):
            found = frames_and_error(long_ping, checks=checks)
            self.assertEqual(found, ((q.Ping(),), "frame type not in shortest form"))
        # What isn't checked: STREAM in an Initial packet.
        self.assertIsNone(frames_and_error(b"\x08\x00" + bytes(20), checks=q.Checks.RFC)[1])
        retry = q.write_header(q.PacketType.RETRY, b"cl", b"server") + b"short"
        for checks, error in ((q.Checks.QUINN, None), (q.Checks.RFC, "Retry without a token or a tag")):
            (one,) = capture.packets(pcap_file([udp(False, retry)]), checks=checks)
            self.assertEqual(one.error and one.error.reason, error)
        # The fixed bit may be clear with any checks.
        clear = bytes([retry[0] & ~0x40]) + retry[1:] + bytes(16)
        (one,) = capture.packets(pcap_file([udp(False, clear)]), checks=q.Checks.RFC)
        self.assertEqual((type(one.packet), one.error), (q.Retry, None))

    def test_what_is_no_packet_is_told(self):
        packets, _ = self.connection()
        broken = packets[0][28:]
        inputs = [udp(True, b"no QUIC"), udp(True, broken + b"\x40" + bytes(20)), udp(True, b"\x40short")]
        read = list(capture.packets(pcap_file(inputs)))
        self.assertEqual(
            [(one.why, one.rest) for one in read[1:]],
            [("no packet with the id of the first one", 21), ("the length of its id isn't known", 6)],
        )

    def test_changed_files_are_read_or_rejected(self):
        packets, keylog = self.connection()
        files = [make(packets).getvalue() for make in (pcap_file, pcapng_file)]
        choice, read, rejected = random.Random(1), 0, 0
        for _ in range(100):
            changed = bytearray(choice.choice(files))
            for _ in range(choice.choice((1, 3, 20))):
                changed[choice.randrange(len(changed))] = choice.randrange(256)
            try:
                for one in capture.packets(io.BytesIO(changed), keylog):
                    for read_object in (one.packet, one.opened, *(one.frames or ()), one.error):
                        self.assertIsInstance(repr(read_object), str)
                    read += 1
            except pcap.CaptureError:
                rejected += 1
        self.assertTrue(read > 300 and rejected > 5, (read, rejected))

    def test_a_key_log_is_a_file_of_lines(self):
        made = Connection()
        log = KeyLog(["# comment", "OTHER 00 00", ""] + made.keylog())
        label = capture.Label.SERVER_1RTT
        self.assertEqual(log.secret(made.random, label), made.secrets[label.value])
        self.assertIsNone(log.secret(bytes(32), label))
        with self.assertRaises(ValueError):
            KeyLog(["CLIENT_TRAFFIC_SECRET_0 xx 00"])


if __name__ == "__main__":
    unittest.main()
