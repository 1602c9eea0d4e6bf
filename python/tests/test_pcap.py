"""Capture files that promise more than they have, and files that return less than they are asked for."""

import io
import struct
import unittest

from quic_wire import pcap

PIECE = 1 << 20  # bytes
# IPv4 (RFC 791, section 3.1) and UDP (RFC 768) around three bytes.
PACKET = struct.pack(">BBHHHBBH", 0x45, 0, 31, 0, 0, 64, 17, 0) + bytes([192, 0, 2, 1, 192, 0, 2, 2])
PACKET += struct.pack(">HHHH", 50000, 443, 11, 0) + b"abc"
# Raw IP, as links of type 101 are.
PCAP = struct.pack("<IHHIIII", 0xA1B2C3D4, 2, 4, 0, 0, 65535, 101)
PCAPNG = struct.pack("<IIIHHqI", 0x0A0D0D0A, 28, 0x1A2B3C4D, 1, 0, -1, 28) + struct.pack("<IIHHII", 1, 20, 101, 0, 0, 20)


class Asked(io.BytesIO):
    """A file that keeps how many bytes it was asked for at once."""

    most = 0

    def read(self, count=-1):
        self.most = max(self.most, count)
        return super().read(count)


class Slow(io.BytesIO):
    """A file that returns at most five bytes, as a pipe may."""

    def read(self, count=-1):
        return super().read(min(count, 5))


class Files(unittest.TestCase):
    def test_what_a_file_promises_is_not_allocated(self):
        rows = {
            "pcap": PCAP + struct.pack("<IIII", 0, 0, 0xFFFFFFFF, 0xFFFFFFFF) + b"a",
            "pcapng": PCAPNG + struct.pack("<II", 6, 0xFFFFFFFC) + b"a",
        }
        for name, data in rows.items():
            file = Asked(data)
            with self.subTest(name), self.assertRaisesRegex(pcap.CaptureError, "cut off"):
                list(pcap.datagrams(file))
            self.assertLessEqual(file.most, PIECE)

    def test_what_is_before_a_cut_is_read(self):
        record = struct.pack("<IIII", 1, 0, len(PACKET), len(PACKET)) + PACKET
        size = 32 + len(PACKET) + 1
        block = struct.pack("<IIIIIII", 6, size, 0, 0, 0, len(PACKET), len(PACKET)) + PACKET + bytes(1)
        block += struct.pack("<I", size)
        for name, head, one in (("pcap", PCAP, record), ("pcapng", PCAPNG, block)):
            whole = pcap.datagrams(io.BytesIO(head + one + one))
            self.assertEqual([bytes(it.data) for it in whole], [b"abc"] * 2, name)
            for cut in range(1, len(one)):
                read = []
                with self.subTest(name, cut=cut):
                    with self.assertRaisesRegex(pcap.CaptureError, "cut off"):
                        for it in pcap.datagrams(io.BytesIO(head + one + one[:-cut])):
                            read.append(bytes(it.data))
                    self.assertEqual(read, [b"abc"])

    def test_files_that_return_less(self):
        data = PCAP + struct.pack("<IIII", 1, 0, len(PACKET), len(PACKET)) + PACKET
        for make in (io.BytesIO, Slow):
            with self.subTest(make.__name__):
                self.assertEqual([bytes(one.data) for one in pcap.datagrams(make(data))], [b"abc"])


if __name__ == "__main__":
    unittest.main()
