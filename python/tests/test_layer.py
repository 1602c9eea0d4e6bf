"""What stacks write beside frames, headers and parameters. Values are those of the RFCs."""

import random
import unittest

import quic_wire as q

TOKEN = bytes(range(16))


class Tls(unittest.TestCase):
    # RFC 9001, appendix A.1 and A.2; the number 2 changes the last byte, 0x5c, to 0x5e.
    def test_nonce(self):
        iv = bytes.fromhex("fa044b2f42a3fd3b46fb255c")
        self.assertEqual(q.nonce(iv, 0), iv)
        self.assertEqual(q.nonce(iv, 2).hex(), "fa044b2f42a3fd3b46fb255e")
        self.assertEqual(q.nonce(bytes(12), 2**62 - 1).hex(), "00000000" + "3fffffffffffffff")

    # RFC 9001, appendix A.4.
    def test_retry(self):
        retry = bytes.fromhex("ff000000010008f067a5502a4262b5746f6b656e04a265ba2eff4d829058fb3f0f2496ba")
        original = bytes.fromhex("8394c8f03e515708")
        self.assertEqual(q.retry_pseudo_packet(original, retry), b"\x08" + original + retry[:-16])
        self.assertEqual(q.retry_pseudo_packet(b"", bytes(16)), b"\0")

    # RFC 9001, sections 5.1, 5.2, 5.8 and 6.1; RFC 9369, section 3.3.
    def test_constants(self):
        one = q.constants(1)
        self.assertEqual(one.initial_salt.hex(), "38762cf7f55934b34d179ae6a4c80cadccbb7f0a")
        self.assertEqual(one.retry_key.hex(), "be0c690b9f66575a1d766b54e368c84e")
        self.assertEqual(one.retry_nonce.hex(), "461599d35d632bf2239825bb")
        self.assertEqual(one[3:], (b"quic key", b"quic iv", b"quic hp", b"quic ku"))
        two = q.constants(0x6B3343CF)
        self.assertEqual(two.initial_salt.hex(), "0dede3def700a6db819381be6e269dcbf9bd2ed9")
        self.assertEqual(two.retry_key.hex(), "8fb4b01b56ac48e260fbcbcead7ccc92")
        self.assertEqual(two.retry_nonce.hex(), "d86969bc2d7c6d9990efb04a")
        self.assertEqual(two[3:], (b"quicv2 key", b"quicv2 iv", b"quicv2 hp", b"quicv2 ku"))

    def test_rejected(self):
        rows = [
            (ValueError, "12 bytes", q.nonce, (bytes(11), 0)),
            (ValueError, "number", q.nonce, (bytes(12), 2**62)),
            (TypeError, "", q.nonce, ("a" * 12, 0)),
            (ValueError, "at most 20", q.retry_pseudo_packet, (bytes(21), bytes(20))),
            (ValueError, "tag of 16", q.retry_pseudo_packet, (b"", bytes(15))),
            (ValueError, "version", q.constants, (2,)),
            (ValueError, "version", q.constants, (2**32,)),
        ]
        for kind, text, call, arguments in rows:
            with self.subTest(call, arguments=arguments), self.assertRaisesRegex(kind, text):
                call(*arguments)


class Versions(unittest.TestCase):
    # RFC 9368, sections 3 and 4.
    def test_information(self):
        rows = [
            ("00000001", (1, ())),
            ("000000016b3343cf00000001", (1, (0x6B3343CF, 1))),
        ]
        for value, read in rows:
            with self.subTest(value):
                self.assertEqual(q.read_version_information(bytes.fromhex(value)), read)
                self.assertEqual(q.write_version_information(*read).hex(), value)
        for wrong in ["", "000001", "0000000100", "00000000", "0000000100000000"]:
            with self.subTest(wrong), self.assertRaisesRegex(ValueError, "version_information"):
                q.read_version_information(bytes.fromhex(wrong))
        for chosen, available in [(0, [1]), (1, [1, 0]), (2**32, []), (1, [-1])]:
            with self.subTest(chosen=chosen, available=available), self.assertRaises(ValueError):
                q.write_version_information(chosen, available)

    # RFC 8999, section 6: the ids are exchanged; seven bits of the first byte are free.
    def test_answer(self):
        received = bytes.fromhex("c0000000050107010900")
        self.assertEqual(q.answer_version(received, [1]).hex(), "c000000000" + "0109" + "0107" + "00000001")
        self.assertEqual(q.answer_version(received, [1], 0xFF)[0], 0xFF)
        negotiation = q.answer_version(received, [1, 0x6B3343CF])
        self.assertEqual(q.read_packets(negotiation, 0)[0].versions, (1, 0x6B3343CF))
        long = bytes.fromhex("c000000005") + b"\xff" + bytes(255) + b"\xff" + b"\x01" * 255
        self.assertEqual(q.answer_version(long, [1])[5:7].hex(), "ff01")
        rows = [(negotiation, [1]), (received, []), (received, [0]), (received[:7], [1]), (b"\x40", [1])]
        for wrong, versions in rows:
            with self.subTest(wrong, versions=versions), self.assertRaisesRegex(ValueError, "long header"):
                q.answer_version(wrong, versions)


class Resets(unittest.TestCase):
    # RFC 9000, section 10.3.
    def test_written(self):
        reset = q.write_stateless_reset(b"\xff" * 5, TOKEN)
        self.assertEqual(reset, b"\x7f" + b"\xff" * 4 + TOKEN)
        self.assertTrue(q.is_stateless_reset(reset, TOKEN))
        self.assertEqual(q.write_stateless_reset(bytes(5), TOKEN)[0], 0x40)
        for unpredictable, token, text in [(bytes(4), TOKEN, "21 bytes"), (bytes(5), TOKEN[1:], "16 bytes")]:
            with self.subTest(text), self.assertRaisesRegex(ValueError, text):
                q.write_stateless_reset(unpredictable, token)

    def test_recognised(self):
        self.assertTrue(q.is_stateless_reset(b"\xc0" + bytes(4) + TOKEN, TOKEN))
        self.assertFalse(q.is_stateless_reset(bytes(4) + TOKEN, TOKEN))
        for i in range(16):
            with self.subTest(i):
                other = bytearray(bytes(9) + TOKEN)
                other[9 + i] ^= 1
                self.assertFalse(q.is_stateless_reset(other, TOKEN))
        with self.assertRaisesRegex(ValueError, "16 bytes"):
            q.is_stateless_reset(bytes(30), TOKEN + b"\0")


class Acknowledged(unittest.TestCase):
    def test_against_sets_of_numbers(self):
        chance = random.Random(9000)
        for _ in range(500):
            numbers = [set(chance.sample(range(40), chance.randint(1, 30))) for _ in range(2)]
            in_flight, acked = (q.RangeSet([range(n, n + 1) for n in sorted(one)]) for one in numbers)
            both = q.acknowledged(in_flight, q.Ack(ranges=list(acked)))
            self.assertEqual({n for run in both for n in run}, numbers[0] & numbers[1])
            self.assertEqual(list(both), list(q.RangeSet([range(n, n + 1) for n in numbers[0] & numbers[1]])))

    def test_of_none(self):
        self.assertEqual(list(q.acknowledged(q.RangeSet(), q.Ack(ranges=[range(5)]))), [])


if __name__ == "__main__":
    unittest.main()
