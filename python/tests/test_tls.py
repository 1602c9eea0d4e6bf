"""Handshakes, put together from the data of CRYPTO frames in any order."""

import random
import unittest

import quic_wire as q
from quic_wire._tls import Handshake

from .test_sets import seconds

RANDOM = bytes(range(32))
CLIENT_HELLO = b"\x01\x00\x00\x60\x03\x03" + RANDOM + bytes(62)  # RFC 8446, sections 4 and 4.1.2
MOST = 1 << 16  # bytes that are kept before their turn


def taken(frames):
    found = Handshake()
    for frame in frames:
        found.take(frame)
    return found


class Handshakes(unittest.TestCase):
    def test_pieces_in_any_order(self):
        pieces = [q.Crypto(at, CLIENT_HELLO[at : at + 7]) for at in range(0, len(CLIENT_HELLO), 5)]
        for seed in range(50):
            random.Random(seed).shuffle(pieces)
            with self.subTest(seed):
                self.assertEqual(taken(pieces).client_random, RANDOM)
                self.assertEqual(taken([*pieces, *pieces]).client_random, RANDOM)

    def test_what_is_missing(self):
        late = q.Crypto(6, CLIENT_HELLO[6:])
        self.assertIsNone(taken([]).client_random)
        self.assertIsNone(taken([late]).client_random)
        self.assertIsNone(taken([q.Crypto(0, CLIENT_HELLO[:6]), q.Crypto(7, CLIENT_HELLO[7:])]).client_random)
        self.assertEqual(taken([late, q.Crypto(0, CLIENT_HELLO[:6])]).client_random, RANDOM)

    def test_of_bytes_that_arrive_twice_the_first_count(self):
        first, other = q.Crypto(0, CLIENT_HELLO), q.Crypto(0, CLIENT_HELLO[:6] + bytes(94))
        self.assertEqual(taken([first, other]).client_random, RANDOM)

    def test_no_more_is_kept_than_a_handshake_has(self):
        found = taken(q.Crypto(at, bytes(1000)) for at in range(1, 2000))
        self.assertLessEqual(sum(len(data) for data in found._later.values()), MOST)
        # What comes in its turn is read nevertheless.
        found.take(q.Crypto(0, CLIENT_HELLO))
        self.assertEqual(found.client_random, RANDOM)

    def test_time_is_linear_in_the_frames(self):
        def time_of(count):
            frames = [q.Crypto(at, b"a") for at in range(count, 0, -1)]
            return seconds(lambda: taken(frames))

        # 256 times as long if it were quadratic.
        self.assertLess(time_of(16_000), 64 * time_of(1_000))


if __name__ == "__main__":
    unittest.main()
