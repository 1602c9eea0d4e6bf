"""Where fields are: offsets and names as in the figures of RFC 9000, sections 17 to 19."""

import unittest

import quic_wire as q

IDS = [("First Byte", 0, 1), ("Version", 1, 5), ("Destination Connection ID", 5, 8), ("Source Connection ID", 8, 9)]
LONG = "00000001" + "02aabb" + "00"  # version 1, ids of two bytes and of none


def rejected(call, *args, **keywords):
    try:
        call(*args, **keywords)
    except q.Error as error:
        return error
    raise AssertionError("nothing was rejected")


def places(fields):
    return [(field.name, field.begin, field.end) for field in fields]


class Frames(unittest.TestCase):
    def test_of_each_width(self):
        rows = [
            ("01", [("Type", 0, 1, 1)]),
            ("4001", [("Type", 0, 2, 1)]),
            ("0640050261ff" + "01", [("Type", 0, 1, 6), ("Offset", 1, 3, 5), ("Crypto Data", 3, 6, 2)]),
            (
                "0b04026162" + "01",
                [
                    ("Type", 0, 1, 0x0B), ("FIN", 1, 1, 1), ("Stream ID", 1, 2, 4), ("Offset", 2, 2, 0),
                    ("Stream Data", 2, 5, 2),
                ],
            ),
            (
                "030a0001020103050607",
                [
                    ("Type", 0, 1, 3), ("Largest Acknowledged", 1, 2, 10), ("ACK Delay", 2, 3, 0),
                    ("ACK Ranges", 3, 7, 1), ("ECT0 Count", 7, 8, 5), ("ECT1 Count", 8, 9, 6), ("ECN-CE Count", 9, 10, 7),
                ],
            ),
            (
                "18050202aabb" + "11" * 16,
                [
                    ("Type", 0, 1, 0x18), ("Sequence Number", 1, 2, 5), ("Retire Prior To", 2, 3, 2),
                    ("Connection ID", 3, 6, 2), ("Stateless Reset Token", 6, 22, 16),
                ],
            ),
        ]  # fmt: skip
        for digits, fields in rows:
            with self.subTest(digits):
                self.assertEqual([tuple(field) for field in q.frame_fields(bytes.fromhex(digits))], fields)

    def test_at_an_offset(self):
        found = q.frame_fields(bytes.fromhex("0106000161"), 1)
        self.assertEqual(places(found), [("Type", 1, 2), ("Offset", 2, 3), ("Crypto Data", 3, 5)])
        self.assertRaises(ValueError, q.frame_fields, b"\x01", 2)
        self.assertRaises(ValueError, q.frame_fields, b"\x01", -1)

    # A frame, the field at fault and its offset, the fields before it.
    def test_the_field_at_fault(self):
        stream = ["Type", "FIN", "Stream ID", "Offset"]
        rows = [
            ("", None, None, []),
            ("40", "Type", 0, []),
            ("21", "Type", 0, []),
            ("0a00", "Length", 2, stream),
            ("0a000561", "Stream Data", 3, stream),
            ("0203000104", "First ACK Range", 4, ["Type", "Largest Acknowledged", "ACK Delay"]),
            ("020500010005", "Gap", 5, ["Type", "Largest Acknowledged", "ACK Delay"]),
            ("02050001000004", "ACK Range Length", 6, ["Type", "Largest Acknowledged", "ACK Delay"]),
            ("180102", "Retire Prior To", 2, ["Type", "Sequence Number", "Retire Prior To"]),
        ]
        for digits, field, at, before in rows:
            with self.subTest(digits):
                payload = bytes.fromhex(digits)
                error = rejected(q.frame_fields, payload)
                self.assertEqual((error.field, error.field_offset), (field, at))
                self.assertEqual([one.name for one in error.fields], before)
                other = rejected(q.read_frames, payload)
                self.assertEqual((str(other), other.fields), (str(error), error.fields))

    def test_rules(self):
        rows = [
            ("4001", "Type", 0), ("1f", "Type", 0), ("0700", "Token Length", 1),
            ("12d000000000000001", "Maximum Streams", 1), ("06ffffffffffffffff01aa", "Length", 9),
            ("0c00ffffffffffffffff61", "Offset", 2),
        ]  # fmt: skip
        for digits, field, at in rows:
            with self.subTest(digits):
                payload = bytes.fromhex(digits)
                self.assertTrue(q.frame_fields(payload))
                error = rejected(q.frame_fields, payload, checks=q.Checks.RFC)
                self.assertEqual((error.field, error.field_offset), (field, at))


class Packets(unittest.TestCase):
    def test_of_each_type(self):
        rows = [
            ("40aabb01", [("First Byte", 0, 1), ("Destination Connection ID", 1, 3)]),
            ("c0" + LONG + "0161" + "02" + "0000", [*IDS, ("Token Length", 9, 10), ("Token", 10, 11), ("Length", 11, 12)]),
            ("e0" + LONG + "02" + "0000", [*IDS, ("Length", 9, 10)]),
            (
                "f0" + LONG + "61" + "22" * 16,
                [*IDS, ("Retry Token", 9, 10), ("Retry Integrity Tag", 10, 26)],
            ),
            ("c0" + "00000000" + "02aabb" + "00" + "0000000100000002", [*IDS, ("Supported Version", 9, 17)]),
            ("c0" + "1a2a3a4a" + "02aabb" + "00" + "ff", IDS),
        ]  # fmt: skip
        for digits, fields in rows:
            with self.subTest(digits):
                self.assertEqual(places(q.packet_fields(bytes.fromhex(digits), 2)), fields)
                after = [(name, begin + 3, end + 3) for name, begin, end in fields]
                self.assertEqual(places(q.packet_fields(bytes.fromhex("010203" + digits), 2, 3)), after)

    def test_the_field_at_fault(self):
        rows = [
            ("", "First Byte", 0, []),
            ("00", "Fixed Bit", 0, []),
            ("40aa", "Destination Connection ID", 1, ["First Byte"]),
            ("c0000000", "Version", 1, ["First Byte"]),
            ("c0000000" + "0115", "Destination Connection ID Length", 5, ["First Byte", "Version"]),
            ("c0" + LONG + "05", "Token", 10, [*(name for name, _, _ in IDS), "Token Length"]),
            ("e0" + LONG + "05", "Length", 9, [name for name, _, _ in IDS]),
        ]
        for digits, field, at, before in rows:
            with self.subTest(digits):
                datagram = bytes.fromhex(digits)
                error = rejected(q.packet_fields, datagram, 2)
                self.assertEqual((error.field, error.field_offset), (field, at))
                self.assertEqual([one.name for one in error.fields], before)
                self.assertEqual(str(rejected(q.read_packet, datagram, 2)), str(error))
        retry = bytes.fromhex("f0" + LONG + "22" * 16)
        self.assertEqual(rejected(q.packet_fields, retry, 2, checks=q.Checks.RFC).field, "Retry Token")

    def test_versions(self):
        retry = bytes.fromhex("c0" + "6b3343cf" + "0000" + "61" + "22" * 16)
        self.assertEqual(places(q.packet_fields(retry, 0))[-1], ("Retry Integrity Tag", 8, 24))
        self.assertEqual(places(q.packet_fields(retry, 0, versions=[1]))[-1], ("Source Connection ID", 6, 7))


class Parameters(unittest.TestCase):
    def test_entries(self):
        found = q.parameter_fields(bytes.fromhex("01" + "4004024064"), 1)
        self.assertEqual(places(found), [("Parameter ID", 1, 3), ("Parameter Value", 3, 6)])
        self.assertEqual([field.number for field in found], [4, 2])

    def test_the_field_at_fault(self):
        rows = [("", "Parameter ID", 0), ("40", "Parameter ID", 0), ("04", "Parameter Length", 1),
                ("040205", "Parameter Value", 2)]  # fmt: skip
        for digits, field, at in rows:
            with self.subTest(digits):
                error = rejected(q.parameter_fields, bytes.fromhex(digits))
                self.assertEqual((error.field, error.field_offset, error.why), (field, at, "it is cut off"))
                self.assertEqual(len(error.fields), min(at, 1))


if __name__ == "__main__":
    unittest.main()
