"""The stored lists of the repository: calls, and what quinn-proto 0.11.19 or a plain model answers for them."""

import importlib.util
import pathlib
import unittest

import quic_wire as q

HERE = pathlib.Path(__file__).parent
CRATES = HERE.parents[1] / "crates"
# Lists of single calls, in the order of their answers, with the number of answers to a line.
CALLS = [
    ("ranges", 2),
    ("ack-encode", 1),
    ("close-encode", 1),
    ("frame-encode", 1),
    ("varint", 5),
    ("varint-encode", 1),
]
PACKETS = [("pn-new", 1), ("pn-expand", 1), ("pn-decode", 1), ("header-encode", 1)]
WIDTHS = {"U8": 1, "U16": 2, "U24": 3, "U32": 4}
KINDS = {
    "initial": q.PacketType.INITIAL,
    "0rtt": q.PacketType.ZERO_RTT,
    "handshake": q.PacketType.HANDSHAKE,
    "retry": q.PacketType.RETRY,
    "short": q.PacketType.ONE_RTT,
}


def lines_in(path):
    return path.read_text().splitlines()


def rows(crate, lists, wanted):
    """Each line of a list with its answers."""
    answers = iter(lines_in(CRATES / crate / "stdout"))
    for name, count in lists:
        for line in lines_in(CRATES / crate / "data" / f"{name}.in"):
            found = [next(answers) for _ in range(count)]
            if name == wanted:
                yield line, found


def unhex(digits):
    return bytes.fromhex(digits.replace("-", ""))


def ranges_of(text):
    return [range(*map(int, one.split(".."))) for one in text.split(",")]


def frame_of(kind, words):
    """The bytes that a frame is written as; None for what this package doesn't write by itself."""
    if kind == "reset_stream":
        return q.ResetStream(*map(int, words)).encode()
    if kind == "stop_sending":
        return q.StopSending(*map(int, words)).encode()
    if kind == "ack_frequency":
        return q.AckFrequency(*map(int, words)).encode()
    if kind == "crypto":
        return q.Crypto(int(words[0]), unhex(words[1])).encode()
    if kind == "new_token":
        return q.NewToken(unhex(words[0])).encode()
    if kind == "datagram":
        return q.Datagram(unhex(words[1])).encode(last=words[0] == "false")
    if kind == "new_connection_id":
        sequence, retire_prior_to, cid, token = words
        return q.NewConnectionId(int(sequence), int(retire_prior_to), unhex(cid), unhex(token)).encode()
    return q.write_varint(int(words[0])) if kind == "type" else None


def change(numbers, call, words):
    """What a call does to a set; other calls change nothing."""
    if call in ("insert", "remove"):
        getattr(numbers, call)(words[0], max(words))
    elif call == "insert_one":
        numbers.insert(words[0])
    elif call in ("add", "subtract"):
        for start, stop in zip(words[::2], words[1::2]):
            (numbers.insert if call == "add" else numbers.remove)(start, stop)
    elif call == "replace":
        numbers.insert(words[0], words[1])
    elif call == "pop_min" and len(numbers):
        first = next(iter(numbers))
        numbers.remove(first.start, first.stop)


def header_of(words):
    """A header and where its packet number begins; None for a version negotiation."""
    kind, *fields = words
    if kind == "version-negotiation":
        return None
    how = {"fixed_bit": True}
    if kind == "short":
        how |= {"spin": fields.pop(0) == "true", "key_phase": fields.pop(0) == "true"}
    if kind != "retry":
        how["number_len"], how["number"] = WIDTHS[fields.pop(0)], int(fields.pop(0))
    ids = [unhex(fields.pop(0)) for _ in range(1 if kind == "short" else 2)]
    token = unhex(fields.pop(0)) if kind == "initial" else b""
    if kind != "short":
        how["version"] = int(fields.pop(0), 16)
    header = q.write_header(KINDS[kind], *ids, token=token, **how)
    return header, len(header) - how.get("number_len", 0)


@unittest.skipUnless(CRATES.is_dir(), "the stored lists aren't here")
class Stored(unittest.TestCase):
    def test_lists_of_the_program(self):
        found = importlib.util.spec_from_file_location("show", HERE / "show.py")
        show = importlib.util.module_from_spec(found)
        found.loader.exec_module(show)
        count = 0
        for section in (CRATES / "quic_replay" / "stdout").read_text().split("== ")[1:]:
            heading, _, wanted = section.partition("\n")
            name, *words = heading.split()
            inputs = lines_in(CRATES / "quic_replay" / "data" / name)
            printed = [line for digits in inputs for line in show.lines_of(words, bytes.fromhex(digits))]
            with self.subTest(heading):
                self.assertEqual(printed, wanted.splitlines())
            count += len(printed)
        self.assertGreater(count, 300)

    def test_acks(self):
        for line, (wanted,) in rows("quic_replay_calls", CALLS, "ack-encode"):
            delay, ranges, *counts = line.split()
            ecn = dict(zip(("ect0", "ect1", "ce"), map(int, counts)))
            ack = q.Ack(delay=int(delay), ranges=ranges_of(ranges), **ecn)
            self.assertEqual(ack.encode().hex(), wanted, line)
            self.assertEqual(q.read_frames(bytes.fromhex(wanted)), [ack], line)

    def test_frames(self):
        count = 0
        for line, (wanted,) in rows("quic_replay_calls", CALLS, "frame-encode"):
            kind, *words = line.split()
            # Every reader rejects it (RFC 9000, section 19.15), so this package doesn't write it.
            if kind == "new_connection_id" and int(words[1]) > int(words[0]):
                with self.assertRaises(ValueError):
                    frame_of(kind, words)
                continue
            written = frame_of(kind, words)
            if written is not None:
                self.assertEqual(written.hex(), wanted.split()[0], line)
                count += 1
        self.assertGreater(count, 600)

    def test_integers(self):
        for line, (wanted, *_) in rows("quic_replay_calls", CALLS, "varint"):
            try:
                value, end = q.read_varint(bytes.fromhex(line))
            except q.Error:
                self.assertTrue(wanted.startswith("UnexpectedEnd"), line)
            else:
                self.assertEqual(f"{value} consumed {end}", wanted, line)
        for line, (wanted,) in rows("quic_replay_calls", CALLS, "varint-encode"):
            if wanted.startswith("VarIntBoundsExceeded"):
                with self.assertRaisesRegex(ValueError, "value must be from 0 to 2\\^62 - 1"):
                    q.write_varint(int(line))
            else:
                self.assertEqual(q.write_varint(int(line)).hex(), wanted.split()[0], line)

    def test_sets(self):
        numbers = q.RangeSet()
        for line, (wanted, _) in rows("quic_replay_calls", CALLS, "ranges"):
            call, *words = line.split()
            if call == "new":
                numbers = q.RangeSet()
            else:
                change(numbers, call, [int(word) for word in words if word.isdigit()])
            shown = ", ".join(f"{one.start}..{one.stop}" for one in numbers) or "none"
            self.assertEqual(shown, wanted.split(" | ")[1], line)

    def test_packet_numbers(self):
        for line, (wanted,) in rows("quic_replay_packets", PACKETS, "pn-new"):
            number, acked = map(int, line.split())
            length = q.packet_number_len(number, acked)
            written = q.write_packet_number(number, length)
            self.assertIn(f"len {length} bytes {written.hex()}", wanted, line)
        for line, (wanted,) in rows("quic_replay_packets", PACKETS, "pn-expand"):
            width, truncated, expected = line.split()
            self.assertEqual(q.expand_packet_number(int(truncated), WIDTHS[width], int(expected)), int(wanted), line)
        for line, (wanted,) in rows("quic_replay_packets", PACKETS, "pn-decode"):
            length, digits = line.split()
            try:
                found = f"({q.read_packet_number(unhex(digits), int(length))}) consumed {length}"
            except ValueError:
                found = "error"
            self.assertIn(found, wanted, line)

    def test_headers(self):
        for line, (wanted,) in rows("quic_replay_packets", PACKETS, "header-encode"):
            found = header_of(line.split())
            if found is None:
                _, unused, dcid, scid, versions = line.split()
                listed = unhex(versions)
                numbers = [int.from_bytes(listed[at : at + 4], "big") for at in range(0, len(listed), 4)]
                whole = q.write_version_negotiation(unhex(dcid), unhex(scid), numbers, int(unused) & 0x7F)
                self.assertEqual(whole.hex(), wanted.split()[0], line)
                continue
            header, number_at = found
            packet = bytearray(header.ljust(len(wanted.split()[0]) // 2, b"\x00"))
            if line.split()[0] not in ("short", "retry") and line.split()[-2] != "-":
                q.set_length(packet, number_at)
            self.assertTrue(wanted.startswith(packet[: len(header)].hex()), line)
            self.assertTrue(wanted.endswith(f"header_len {len(header)}"), line)


if __name__ == "__main__":
    unittest.main()
