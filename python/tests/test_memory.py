"""What is kept and freed, threads, and several interpreters."""

import gc
import importlib.util
import sys
import threading
import tracemalloc
import unittest
import weakref

import quic_wire as q

PAYLOAD = bytes.fromhex("0001" "0600026162" "0a000163" "03090501010002010203" "0000")
ROUNDS = 1000
MOST = 16 * ROUNDS  # bytes that all rounds together may leave, since the interpreter keeps some; no object is as small
HAS_LOCK = getattr(sys, "_is_gil_enabled", lambda: True)()
PRELUDE = "import sys; sys.path[:] = {path!r}\n"
BODY = """
import quic_wire as q
assert q.read_frames(b"\\x01\\x10\\x05") == [q.Ping(), q.MaxData(5)]
try:
    q.read_frames(b"\\x10")
except q.FrameError as error:
    assert error.field == "Maximum Data"
assert list(q.RangeSet([range(3)])) == [range(3)]
assert q.TransportParameters.read(0, q.TransportParameters(initial_max_data=5).write(1)).initial_max_data == 5
"""


def rejected(call, *args, **keywords):
    try:
        call(*args, **keywords)
    except (ValueError, TypeError, BufferError):
        return
    raise AssertionError("nothing was rejected")


def read_all():
    for data in (PAYLOAD, bytearray(PAYLOAD), memoryview(PAYLOAD)[1:]):
        for frame in q.read_frames(data):
            repr(frame), hash(frame), frame.as_dict(), frame.encode()
            [getattr(frame, name) for name in frame.__match_args__]
        list(q.frames(data))
        iter(q.frames(data)).__next__()
        q.canonical(data)


def reject_all():
    for data in (b"", b"\x10", b"\x21", b"\x02\x00\x00\x00\x05", b"\x01" * 40 + b"\x10"):
        rejected(q.read_frames, data)
        rejected(q.canonical, data)
        rejected(lambda data=data: list(q.frames(data)))
    rejected(q.read_frames, "text")
    rejected(q.read_frames, b"\x01", other=1)
    rejected(q.read_packets, b"\xc0\x00", 0)
    rejected(q.read_packets, b"\x40", 0, [1 << 40])
    rejected(q.TransportParameters.read, 0, b"\x04")
    rejected(q.Ack, ranges=[1])
    rejected(q.Ack, ranges=[range(3), range(9, 1 << 63)], delay=1 << 62)
    rejected(q.NewConnectionId, 1, 2, b"a", bytes(16))
    rejected(q.Stream, 1, data="text")
    rejected(q.RangeSet, [(1, "2")])
    rejected(q.RangeSet().insert, "1")
    rejected(q.unprotect, bytes(9), 8, bytes(5))
    rejected(q.protect, bytes(9), 1, bytes(5))
    rejected(q.write_header, 0, bytes(21))
    rejected(q.write_header, 0, bytes(21), b"", b"token")
    rejected(q.write_header, q.PacketType.RETRY, b"a", b"b", b"token")
    rejected(q.write_header, q.PacketType.ONE_RTT, b"a", b"b")
    rejected(q.write_version_negotiation, bytes(256), b"", [1])
    rejected(q.set_length, bytearray(9), 1)
    rejected(q.write_packet_number, 1, 5)
    rejected(q.read_varint, b"")
    rejected(q.TransportParameters, stateless_reset_token=b"1")


def write_all():
    frames = [
        q.Ack(ranges=q.RangeSet([range(3), range(5, 9)]), ect0=1),
        q.Stream(1, 2, True, b"abc"),
        q.Padding(3),
        q.NewConnectionId(5, 2, b"ab", bytes(16)),
        q.PathChallenge(bytes(8)),
        q.ConnectionClose(1, 2, b"why"),
    ]
    q.write_frames(frames)
    header = q.write_header(q.PacketType.INITIAL, b"ab", b"cd", b"token", number=5)
    packet = bytearray(header + bytes(20))
    q.set_length(packet, len(header) - 4)
    q.protect(packet, len(header) - 4, bytes(5))
    read = q.read_packet(packet, 0)
    repr(read), hash(read), read.sample(), read == q.read_packet(bytes(packet), 0)
    q.unprotect(packet, len(header) - 4, bytes(5))
    q.write_version_negotiation(b"a", b"b", [1, 2])
    made = q.TransportParameters(initial_max_data=5, grease_quic_bit=True, initial_source_connection_id=b"ab")
    repr(made), hash(made), made.as_dict(), made.write(0, [(27, b"x")], [27])
    list(q.parameters(made.write(0)))
    numbers = q.RangeSet()
    for number in range(0, 40, 2):
        numbers.insert(number)
    numbers.remove(3, 30)
    repr(numbers), list(numbers), 5 in numbers, numbers == q.RangeSet(numbers)


class Memory(unittest.TestCase):
    def test_nothing_leaks(self):
        for call in (read_all, reject_all, write_all):
            with self.subTest(call.__name__):
                tracemalloc.start()
                self.left_after(call)
                # What leaks is left each time; what the interpreter keeps isn't.
                for _ in range(6):
                    left = self.left_after(call)
                    if left < MOST:
                        break
                tracemalloc.stop()
                self.assertLess(left, MOST)

    @staticmethod
    def left_after(call):
        """How many bytes more there are after all rounds."""
        before = tracemalloc.get_traced_memory()[0]
        for _ in range(ROUNDS):
            call()
        gc.collect()
        return tracemalloc.get_traced_memory()[0] - before

    def test_references_are_given_back(self):
        payload = bytes(bytearray(PAYLOAD))
        before = sys.getrefcount(payload)
        types = [sys.getrefcount(kind) for kind in (q.Stream, q.RangeSet, q.OneRtt, q.FrameIterator)]
        for _ in range(ROUNDS):
            frames = q.read_frames(payload)
            views = [frame.data for frame in frames if isinstance(frame, q.Stream)]
            q.frames(payload)
            q.RangeSet()
            q.read_packets(b"\x41", 0)
        del frames, views
        self.assertEqual(sys.getrefcount(payload), before)
        after = [sys.getrefcount(kind) for kind in (q.Stream, q.RangeSet, q.OneRtt, q.FrameIterator)]
        self.assertEqual(after, types)

    def test_a_frame_keeps_its_payload_and_a_view_too(self):
        class Bytes(bytearray):
            pass

        payload = Bytes(PAYLOAD)
        kept = weakref.ref(payload)
        frame = q.read_frames(payload)[2]
        del payload
        self.assertIsNotNone(kept())
        view = frame.data
        del frame
        self.assertEqual(bytes(view), b"ab")
        del view
        gc.collect()
        self.assertIsNone(kept())


    def test_cycles_are_collected(self):
        class Bytes(bytearray):
            pass

        def half(payload):
            found = q.frames(payload)
            next(found)
            return found

        rows = [
            ("frames", b"\x01\x01", q.frames),
            ("frames, half of them read", b"\x01\x01", half),
            ("a list", b"\x06\x00\x01a", q.read_frames),
            ("a frame that is made", b"abc", lambda data: q.Crypto(0, data)),
            ("a packet", b"\x41" * 9, lambda data: q.read_packet(data, 8)),
            ("data", b"\x06\x00\x01a", lambda data: q.read_frames(data)[0].data),
        ]
        for name, data, make in rows:
            with self.subTest(name):
                kept = Bytes(data)
                freed = weakref.ref(kept)
                kept.held = make(kept)
                del kept
                gc.collect()
                self.assertIsNone(freed())

    def test_cycles_are_collected_in_any_order(self):
        # What comes first is cleared first: here the memoryview of the bytes, before what reads them.
        rows = {
            "frames": q.frames,
            "a list": q.read_frames,
            "a packet": lambda data: q.read_packet(data, 0, checks=q.Checks.GREASED_BIT),
            "a frame that is made": lambda data: q.Crypto(0, data),
        }
        for name, make in rows.items():
            with self.subTest(name):
                found = make(bytearray(b"\x01\x01"))
                holder = [found]
                holder.append(holder)
                del found, holder
                gc.collect()

    @unittest.skipUnless(HAS_LOCK, "CPython 3.13 without its lock frees no modules and no types")
    def test_a_module_is_freed_with_its_types(self):
        again = importlib.util.module_from_spec(q._wire.__spec__)
        again.__spec__.loader.exec_module(again)
        freed = [weakref.ref(again), weakref.ref(again.Ping), weakref.ref(again.RangeSet)]
        self.assertIsNot(again.Ping, q.Ping)
        self.assertEqual(again.read_frames(b"\x01"), [again.Ping()])
        del again
        gc.collect()
        self.assertEqual([one() for one in freed], [None] * 3)

    def test_a_released_view_is_reported(self):
        frame, found = q.read_frames(bytearray(b"\x06\x00\x01a"))[0], q.frames(bytearray(b"\x01" * 9))
        next(found)
        for one in (frame, found):
            for owner in gc.get_referents(one):
                if isinstance(owner, memoryview):
                    owner.release()
        for call in (lambda: frame.data, frame.encode, lambda: frame == frame, lambda: list(found)):
            with self.assertRaisesRegex(ValueError, "released"):
                call()

    def test_what_holds_bytes_is_not_tracked(self):
        # So a list of many frames costs the collector nothing.
        made = [q.read_frames(b"\x01")[0], q.frames(b"\x01"), q.Crypto(0, b"a"), q.read_packet(b"\x41", 0)]
        self.assertEqual([gc.is_tracked(one) for one in made], [False] * 4)
        self.assertTrue(gc.is_tracked(q.read_frames(bytearray(b"\x01"))[0]))


class Finalized:
    """Garbage, whose finalizer is this call."""

    def __init__(self, call):
        self.call, self.itself = call, self

    def __del__(self):
        self.call()


class Finalizers(unittest.TestCase):
    """CPython 3.11 collects garbage, and so runs finalizers, when an object is made in the midst of a call."""

    def setUp(self):
        self.addCleanup(gc.set_threshold, *gc.get_threshold())
        self.addCleanup(gc.enable)
        gc.disable()
        gc.set_threshold(1)
        self.kept = [[] for _ in range(200)]  # so that no list that was freed is used again

    def test_that_change_a_set_while_it_is_listed(self):
        numbers = q.RangeSet([(10 * i, 10 * i + 1) for i in range(100)])
        changes = [lambda: numbers.remove(100, 1000), numbers.clear, lambda: [numbers.insert(10 * i) for i in range(99)]]
        for change in changes:
            Finalized(change)
            gc.enable()
            found = iter(numbers)
            gc.disable()
            self.assertEqual({type(one) for one in found} - {range}, set())
            repr(numbers)

    def test_that_read_the_same_frames(self):
        found = q.frames(bytes.fromhex("01" + "1005" * 8))
        Finalized(lambda: [next(found) for _ in range(5)])
        gc.enable()
        frame = next(found)
        gc.disable()
        self.assertEqual((type(frame), frame.type, frame.begin, frame.end), (q.Ping, 0x01, 0, 1))



class Threads(unittest.TestCase):
    def test_several_threads_read(self):
        payload = b"\x01" + b"\x10\x05" * 2000
        wanted, shared, numbers = q.read_frames(payload), q.frames(payload), q.RangeSet()
        found, faults = [], []

        def work(first):
            try:
                for _ in range(3):
                    if q.read_frames(payload) != wanted:
                        raise AssertionError("other frames")
                for frame in shared:
                    found.append(frame.begin)
                for number in range(first, 4000, 4):
                    numbers.insert(number)
            except BaseException as fault:
                faults.append(fault)

        threads = [threading.Thread(target=work, args=(i,)) for i in range(4)]
        for thread in threads:
            thread.start()
        for thread in threads:
            thread.join()
        self.assertEqual(faults, [])
        self.assertEqual(sorted(found), [frame.begin for frame in wanted])
        self.assertEqual(list(numbers), [range(4000)])


class Interpreters(unittest.TestCase):
    def test_interpreters_have_types_of_their_own(self):
        module = next((name for name in ("_interpreters", "_xxsubinterpreters") if self.has(name)), None)
        if module is None:
            self.skipTest("this Python has no module for interpreters")
        interpreters = importlib.import_module(module)
        for _ in range(5):
            one = interpreters.create()
            try:
                fault = interpreters.run_string(one, PRELUDE.format(path=sys.path) + BODY)
                self.assertIsNone(fault)
            finally:
                interpreters.destroy(one)
        self.assertEqual(q.read_frames(b"\x01"), [q.Ping()])

    @staticmethod
    def has(name):
        try:
            importlib.import_module(name)
        except ImportError:
            return False
        return True


if __name__ == "__main__":
    unittest.main()
