"""Sets of packet numbers, compared with sets of Python."""

import pickle
import random
import time
import unittest

from quic_wire import Ack, RangeSet, read_frames


def seconds(call) -> float:
    """The least processor time of a call."""
    best = float("inf")
    for _ in range(5):
        begin = time.process_time()
        call()
        best = min(best, time.process_time() - begin)
    return best


class Sets(unittest.TestCase):
    def check(self, numbers: RangeSet, wanted: set[int], what: str) -> None:
        self.assertEqual([number for run in numbers for number in run], sorted(wanted), what)

    def test_changes_anywhere(self) -> None:
        values = random.Random(1)
        for turn in range(100):
            numbers, wanted = RangeSet(), set[int]()
            for _ in range(100):
                start = values.randrange(60)
                stop = start + values.randrange(6)
                if values.random() < 0.6:
                    changed, wanted = numbers.insert(start, stop), wanted | set(range(start, stop))
                else:
                    changed, wanted = numbers.remove(start, stop), wanted - set(range(start, stop))
                self.check(numbers, wanted, f"turn {turn}, {start} to {stop}, {changed}")
                self.assertEqual(start in numbers, start in wanted)
            self.assertEqual((numbers.smallest, numbers.largest), (min(wanted), max(wanted)) if wanted else (None, None))

    def test_a_set_that_slides(self) -> None:
        numbers, wanted = RangeSet(), set[int]()
        for number in range(0, 600, 2):
            self.assertTrue(numbers.insert(number))
            wanted.add(number)
            if number >= 20:
                self.assertTrue(numbers.remove(number - 20))
                wanted.remove(number - 20)
            self.check(numbers, wanted, f"after {number}")

    def test_ranges_that_join_at_the_front(self) -> None:
        self.check(RangeSet([(4, 5), (2, 3), (3, 4), (9, 12)]), {2, 3, 4, 9, 10, 11}, "of ranges")

    def test_ranges_in_any_order(self) -> None:
        values = random.Random(2)
        for turn in range(300):
            pairs = [(start, start + values.randrange(5)) for start in values.sample(range(60), values.randrange(20))]
            wanted = {number for start, stop in pairs for number in range(start, stop)}
            self.check(RangeSet(pairs), wanted, f"turn {turn}, {pairs}")
            self.check(RangeSet(range(*pair) for pair in pairs), wanted, f"turn {turn}, ranges")
            if wanted:
                self.check(RangeSet(Ack(ranges=pairs)), wanted, f"turn {turn}, an ACK")

    def test_sets_and_acks_of_each_other(self) -> None:
        numbers = RangeSet([(1, 4), (7, 8)])
        ack = Ack(ranges=numbers)
        self.assertEqual((RangeSet(numbers), RangeSet(ack), Ack(ranges=ack)), (numbers, numbers, ack))
        copied = RangeSet(ack)
        copied.insert(5)
        self.assertEqual((list(numbers), ack.ranges), ([range(1, 4), range(7, 8)], (range(7, 8), range(1, 4))))
        for number in range(100, 200, 2):
            copied.insert(number)
        self.assertEqual(len(copied), 53)

    def test_steps_are_rejected(self) -> None:
        for wrong in (range(0, 30, 3), range(9, 0, -1), range(0, 1, 2)):
            with self.subTest(wrong), self.assertRaisesRegex(ValueError, "step 1"):
                RangeSet([wrong])

    def test_time_is_linear_in_the_ranges(self) -> None:
        def times(count: int) -> list[float]:
            ack = Ack(ranges=[(2 * n, 2 * n + 1) for n in range(count)])
            stored, ranges = pickle.dumps(ack), ack.ranges
            payload = ack.encode()
            return [
                seconds(lambda: pickle.loads(stored)),
                seconds(lambda: Ack(ranges=ranges)),
                seconds(lambda: Ack(ranges=ranges[::-1])),
                seconds(lambda: RangeSet(ranges)),
                seconds(lambda: read_frames(payload)[0].encode()),
            ]

        for i, (few, many) in enumerate(zip(times(5_000), times(80_000))):
            # 256 times as long if it were quadratic.
            self.assertLess(many, 64 * few, f"call {i}")
