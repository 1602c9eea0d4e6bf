"""Transport parameters, and sets of packet numbers."""

import copy
import ipaddress
import pickle
import unittest

import quic_wire as q
from quic_wire.parameters import _of_dict

ADDRESS = q.PreferredAddress(
    b"12345678",
    bytes(range(16)),
    v4=(ipaddress.IPv4Address("192.0.2.1"), 443),
    v6=(ipaddress.IPv6Address("2001:db8::1"), 8443),
)
# A value of each parameter, and the entry in which a server sends it (RFC 9000, section 18.2).
ROWS = [
    ("max_idle_timeout", 10, "01010a"),
    ("max_udp_payload_size", 1200, "030244b0"),
    ("initial_max_data", 5, "040105"),
    ("initial_max_stream_data_bidi_local", 5, "050105"),
    ("initial_max_stream_data_bidi_remote", 5, "060105"),
    ("initial_max_stream_data_uni", 5, "070105"),
    ("initial_max_streams_bidi", 5, "080105"),
    ("initial_max_streams_uni", 5, "090105"),
    ("ack_delay_exponent", 20, "0a0114"),
    ("max_ack_delay", 26, "0b011a"),
    ("active_connection_id_limit", 3, "0e0103"),
    ("stateless_reset_token", bytes(range(16)), "0210" + bytes(range(16)).hex()),
    ("disable_active_migration", True, "0c00"),
    ("max_datagram_frame_size", 0, "200100"),
    (
        "preferred_address",
        ADDRESS,
        "0d31c000020101bb20010db8" + "00" * 11 + "0120fb083132333435363738" + bytes(range(16)).hex(),
    ),
    ("original_destination_connection_id", b"abc", "0003616263"),
    ("initial_source_connection_id", b"", "0f00"),
    ("retry_source_connection_id", bytes(20), "1014" + "00" * 20),
    ("grease_quic_bit", True, "6ab200"),
    ("min_ack_delay", 7, "c0000000ff04de1b0107"),
]


class Named(q.TransportParameters):
    """Parameters with an attribute."""

    def __init__(self, name="", **values):
        self.name = name

    def __new__(cls, name="", **values):
        return super().__new__(cls, **values)


class Slotted(q.TransportParameters):
    """Parameters with nothing else."""

    __slots__ = ()


class Parameters(unittest.TestCase):
    def test_a_copy_is_of_the_same_class(self):
        data = bytes.fromhex("0b0119" "040105")
        named = Named("server", initial_max_data=5, max_ack_delay=25)
        for made in (named, Slotted(initial_max_data=5), Slotted.read(q.Side.CLIENT, data), q.TransportParameters()):
            for make in (copy.copy, copy.deepcopy, lambda one: pickle.loads(pickle.dumps(one))):
                with self.subTest(type(made), make=make):
                    other = make(made)
                    self.assertEqual((type(other), other, other.present), (type(made), made, made.present))
                    self.assertEqual(getattr(other, "name", None), getattr(made, "name", None))
        # As 0.1.0 pickled them.
        self.assertEqual(_of_dict({"initial_max_data": 5}), q.TransportParameters(initial_max_data=5))

    def test_each_parameter_is_written_and_read(self):
        self.assertEqual(q.TransportParameters.__match_args__, tuple(name for name, _, _ in ROWS))
        for name, value, digits in ROWS:
            with self.subTest(name):
                made = q.TransportParameters(**{name: value})
                self.assertEqual(made.write(q.Side.SERVER).hex(), digits)
                read = q.TransportParameters.read(q.Side.CLIENT, bytes.fromhex(digits))
                self.assertEqual((read, getattr(read, name)), (made, value))
                for checks in (q.Checks.RFC, ~q.Checks.QUINN, *q.Checks):
                    again = q.TransportParameters.read(q.Side.CLIENT, bytes.fromhex(digits), checks=checks)
                    self.assertEqual(again, made)
                self.assertEqual(repr(read), f"TransportParameters({name}={value!r})")
                (entry,) = q.parameters(bytes.fromhex(digits))
                self.assertEqual((entry.name, entry.is_known, entry.end), (name, True, len(digits) // 2))

    def test_parameters_are_values(self):
        made = q.TransportParameters(**{name: value for name, value, _ in ROWS})
        self.assertEqual(pickle.loads(pickle.dumps(made)), made)
        self.assertEqual(copy.deepcopy(made), made)
        self.assertEqual(hash(copy.copy(made)), hash(made))
        self.assertEqual(q.TransportParameters(**made.as_dict()), made)
        self.assertNotEqual(made, q.TransportParameters())
        self.assertEqual(repr(q.TransportParameters()), "TransportParameters()")
        with self.assertRaises(AttributeError):
            made.max_idle_timeout = 3
        match made:
            case q.TransportParameters(initial_max_data=limit, preferred_address=q.PreferredAddress(v4=(_, port))):
                self.assertEqual((limit, port), (5, 443))

    def test_what_is_present(self):
        every = q.TransportParameters(**{name: value for name, value, _ in ROWS}).write(q.Side.SERVER)
        # One with its default value, one in a longer encoding, one that isn't known, a repeat.
        data = bytes.fromhex("0b0119" "04024005" "1b00" "6ab200" "6ab200")
        read = q.TransportParameters.read(q.Side.CLIENT, data, checks=q.Checks.ANY_WIDTH)
        named = {"max_ack_delay": 25, "initial_max_data": 5, "grease_quic_bit": True}
        rows = [
            (q.TransportParameters.read(q.Side.CLIENT, b""), {}),
            (q.TransportParameters.read(q.Side.CLIENT, every), {name: value for name, value, _ in ROWS}),
            (read, named),
            (q.TransportParameters(**named), named),
            (q.TransportParameters(min_ack_delay=None), {"min_ack_delay": None}),
        ]
        for made, wanted in rows:
            with self.subTest(made):
                self.assertEqual((made.present, made.as_dict(present=True)), (frozenset(wanted), wanted))
                self.assertEqual(list(made.as_dict()), list(q.TransportParameters.__match_args__))
                self.assertEqual(made.as_dict(present=False), made.as_dict())
                for other in (pickle.loads(pickle.dumps(made)), copy.copy(made)):
                    self.assertEqual((other, other.present), (made, made.present))
        # They are the same parameters.
        self.assertEqual(read, q.TransportParameters(initial_max_data=5, grease_quic_bit=True))

    def test_a_value_is_found(self):
        data = bytes.fromhex("040105" "110400000001" "1b00" "040106" "05")
        for kind in (bytes, bytearray, memoryview):
            found = [q.find_parameter(kind(data[:-1]), number) for number in (4, 0x11, 27, 5)]
            self.assertEqual(found, [b"\x05", b"\0\0\0\1", b"", None])
        self.assertIsNone(q.find_parameter(b"", 0))
        self.assertEqual(q.find_parameter(data, 27), b"")
        for wrong, number in ((data, 5), (data[:-1] + b"\x45", None)):
            with self.assertRaises(q.ParameterError) as caught:
                q.find_parameter(wrong, 9)
            self.assertEqual((caught.exception.offset, caught.exception.id), (14, number))
            self.assertEqual((caught.exception.kind, str(caught.exception)), self.rejected(wrong))
        for kind, arguments in ((TypeError, (b"",)), (TypeError, ("", 4)), (ValueError, (b"", 1 << 62))):
            with self.assertRaises(kind):
                q.find_parameter(*arguments)

    def rejected(self, data):
        with self.assertRaises(q.ParameterError) as caught:
            list(q.parameters(data))
        return caught.exception.kind, str(caught.exception)

    def test_a_list_of_nothing_has_the_defaults(self):
        read = q.TransportParameters.read(q.Side.SERVER, b"")
        self.assertEqual(read, q.TransportParameters())
        found = (
            read.max_udp_payload_size,
            read.ack_delay_exponent,
            read.max_ack_delay,
            read.active_connection_id_limit,
        )
        self.assertEqual(found, (65527, 3, 25, 2))
        self.assertEqual((read.stateless_reset_token, read.grease_quic_bit, read.min_ack_delay), (None, False, None))

    def test_further_entries_and_an_order_are_written(self):
        made = q.TransportParameters(initial_max_data=5, grease_quic_bit=True)
        written = made.write(q.Side.CLIENT, [(0x11, b"\x00\x00\x00\x01"), (27, b"x")], order=[27, 0x2AB2])
        self.assertEqual([entry.id for entry in q.parameters(written)], [27, 0x2AB2, 4, 0x11])
        for checks in (q.Checks.QUINN, q.Checks.RFC):
            self.assertEqual(q.TransportParameters.read(q.Side.SERVER, written, checks=checks), made)
        entries = {entry.id: bytes(entry.value) for entry in q.parameters(written) if not entry.is_known}
        self.assertEqual(entries, {27: b"x", 0x11: b"\x00\x00\x00\x01"})
        self.assertEqual(q.write_parameter(27, b"x").hex(), "1b0178")
        self.assertEqual((q.is_known_parameter(27), q.is_known_parameter(0x20)), (False, True))

    def test_what_the_peer_would_reject_is_not_written(self):
        token = bytes(16)
        address = type("Address", (ipaddress.IPv4Address,), {"packed": bytes(500)})("192.0.2.1")
        forged = q.PreferredAddress(b"a", token, v4=(address, 443))
        no_port = q.PreferredAddress(b"a", token, v4=(ipaddress.IPv4Address("192.0.2.1"),))
        as_text = q.PreferredAddress(b"a", token, v6=("2001:db8::1", 443))
        rows = [
            (ValueError, lambda: q.TransportParameters(max_udp_payload_size=1199).write(q.Side.CLIENT)),
            (ValueError, lambda: q.TransportParameters(stateless_reset_token=token).write(q.Side.CLIENT)),
            (ValueError, lambda: q.TransportParameters().write(q.Side.CLIENT, [(4, b"\x01")])),
            (TypeError, lambda: q.TransportParameters().write(q.Side.CLIENT, order=["1"])),
            (TypeError, lambda: q.TransportParameters().write(q.Side.CLIENT, [("27", b"")])),
            (TypeError, lambda: q.TransportParameters.read("client", b"")),
            (ValueError, lambda: q.TransportParameters().write(2)),
            (ValueError, lambda: q.TransportParameters.read(2, b"")),
            (ValueError, lambda: q.TransportParameters(initial_max_data=1 << 62)),
            (ValueError, lambda: q.TransportParameters(stateless_reset_token=b"short")),
            (ValueError, lambda: q.TransportParameters(initial_source_connection_id=bytes(21))),
            (ValueError, lambda: q.TransportParameters(preferred_address=q.PreferredAddress(b"", token))),
            (TypeError, lambda: q.TransportParameters(preferred_address=1)),
            (TypeError, lambda: q.TransportParameters(preferred_address=q.PreferredAddress(5, token))),
            (TypeError, lambda: q.TransportParameters(preferred_address=q.PreferredAddress(b"a", 16))),
            (TypeError, lambda: q.TransportParameters(preferred_address=no_port)),
            (TypeError, lambda: q.TransportParameters(preferred_address=as_text)),
            (ValueError, lambda: q.TransportParameters(preferred_address=forged)),
            (ValueError, lambda: q.TransportParameters.read(1 << 32, b"")),
            (TypeError, lambda: q.TransportParameters(other=1)),
            (TypeError, lambda: q.TransportParameters(1)),
            (TypeError, lambda: q.TransportParameters(initial_max_data="1")),
            (ValueError, lambda: q.write_parameter(1 << 62, b"")),
        ]
        for i, (kind, call) in enumerate(rows):
            with self.subTest(i), self.assertRaises(kind):
                call()

    def test_messages_name_what_is_not_written(self):
        def write(further=(), order=(), side=q.Side.CLIENT, **values):
            return lambda: q.TransportParameters(**values).write(side, further, order)

        a_side = "side must be Side.CLIENT or Side.SERVER"
        token, address = bytes(16), q.PreferredAddress(b"1", bytes(16))
        rows = [
            ("0x7777 in order is neither a known parameter nor in further", write(order=[0x7777])),
            ("order has 4 twice", write(order=[4, 4])),
            ("4 in further is a known parameter", write([(4, b"x")])),
            ("further has 0x1b twice", write([(27, b"x"), (4, b""), (27, b"")])),
            ("further must have at most 235 parameters", write([(31 * i + 27, b"") for i in range(236)])),
            (a_side, write(side=7)),
            (a_side, lambda: q.TransportParameters.read(7, b"")),
            ("max_udp_payload_size must be at least 1200", write(max_udp_payload_size=1000)),
            ("active_connection_id_limit must be at least 2", write(active_connection_id_limit=1)),
            ("initial_max_streams_bidi must be at most 2^60", write(initial_max_streams_bidi=(1 << 60) + 1)),
            ("initial_max_streams_uni must be at most 2^60", write(initial_max_streams_uni=(1 << 60) + 1)),
            ("ack_delay_exponent must be at most 20", write(ack_delay_exponent=21)),
            ("max_ack_delay must be at most 2^14 - 1", write(max_ack_delay=1 << 14)),
            ("min_ack_delay must be at most max_ack_delay, 25000 microseconds", write(min_ack_delay=30000)),
            ("a client must not send stateless_reset_token", write(stateless_reset_token=token)),
            ("a client must not send preferred_address", write(preferred_address=address)),
            ("a client must not send retry_source_connection_id", write(retry_source_connection_id=b"a")),
            (
                "a client must not send original_destination_connection_id",
                write(original_destination_connection_id=b""),
            ),
        ]
        for message, call in rows:
            with self.subTest(message), self.assertRaises(ValueError) as caught:
                call()
            self.assertEqual(str(caught.exception), message)

    def test_values_up_to_the_limits_are_written(self):
        most = q.TransportParameters(
            max_udp_payload_size=1200,
            active_connection_id_limit=2,
            initial_max_streams_bidi=1 << 60,
            initial_max_streams_uni=1 << 60,
            ack_delay_exponent=20,
            max_ack_delay=(1 << 14) - 1,
            min_ack_delay=1000 * ((1 << 14) - 1),
        )
        further = [(31 * i + 27, b"") for i in range(235)]
        written = most.write(q.Side.CLIENT, further, [further[-1][0]])
        self.assertEqual(q.TransportParameters.read(q.Side.SERVER, written), most)
        self.assertEqual(len(list(q.parameters(written))), 235 + 6)  # the limit of ids is 2 by default

    def test_an_entry_is_a_value(self):
        for data in (b"\x04\x01\x05", bytearray(b"\x04\x01\x05")):
            (entry,) = q.parameters(data)
            self.assertEqual(repr(entry), "Parameter(id=4, value=b'\\x05', begin=0, end=3)")
            for other in (pickle.loads(pickle.dumps(entry)), copy.copy(entry), copy.deepcopy(entry)):
                self.assertEqual((other, hash(other), type(other.value)), (entry, hash(entry), memoryview))

    def test_help_has_the_units(self):
        docs = {name: getattr(q.TransportParameters, name).__doc__ for name in q.TransportParameters.__match_args__}
        self.assertTrue(all(docs.values()), docs)
        self.assertIn("milliseconds", docs["max_ack_delay"])
        self.assertIn("microseconds", docs["min_ack_delay"])
        self.assertIn("pass Side.CLIENT for a server's list", q.TransportParameters.read.__doc__)

    def test_a_class_of_ones_own_is_read(self):
        class Mine(q.TransportParameters):
            pass

        read = Mine.read(q.Side.CLIENT, b"\x04\x01\x05")
        read.note = "mine"
        self.assertEqual((type(read), read.initial_max_data, read.note), (Mine, 5, "mine"))

    def test_a_text_makes_no_object_of_ones_own_class(self):
        finalized = []

        class Mine(q.TransportParameters):
            def __del__(self):
                finalized.append(self)

        made = Mine(initial_max_data=5)
        self.assertEqual((repr(made), len(finalized)), ("TransportParameters(initial_max_data=5)", 0))


class Sets(unittest.TestCase):
    def test_a_set_is_changed_like_a_set(self):
        numbers, model = q.RangeSet(), set()
        state = 1
        for _ in range(2000):
            state = state * 6364136223846793005 + 1442695040888963407 & (1 << 64) - 1
            start, count, puts = state >> 33 & 0xFF, state >> 50 & 7, state >> 60 & 3
            stop = start + count
            before = set(model)
            if puts:
                model.update(range(start, stop))
                self.assertEqual(numbers.insert(start, stop), model != before)
            else:
                model.difference_update(range(start, stop))
                self.assertEqual(numbers.remove(start, stop), model != before)
        self.assertEqual({number for one in numbers for number in one}, model)
        self.assertEqual([number in numbers for number in range(300)], [number in model for number in range(300)])
        self.assertEqual((numbers.smallest, numbers.largest), (min(model), max(model)))
        self.assertEqual(set().union(*q.Ack(ranges=numbers).ranges), model)

    def test_a_set_is_a_value_that_changes(self):
        numbers = q.RangeSet([range(5, 9), (1, 3)])
        self.assertEqual((list(numbers), len(numbers)), ([range(1, 3), range(5, 9)], 2))
        self.assertEqual(repr(numbers), "RangeSet([range(1, 3), range(5, 9)])")
        self.assertEqual(eval(repr(numbers), vars(q)), numbers)
        self.assertEqual(pickle.loads(pickle.dumps(numbers)), numbers)
        self.assertNotEqual(numbers, q.RangeSet())
        self.assertTrue(numbers.insert(3) and not numbers.insert(3) and numbers.remove(3))
        self.assertFalse("1" in numbers or -1 in numbers or 1 << 64 in numbers)
        numbers.clear()
        self.assertEqual((len(numbers), numbers.smallest, numbers.largest), (0, None, None))
        with self.assertRaises(TypeError):
            hash(numbers)

    def test_ranges_of_an_ack_are_a_set(self):
        many = [range(20 * i, 20 * i + 3) for i in range(20)]
        rows = {
            "of which the first is the highest": [range(5, 9), range(1, 3)],
            "in no order": [range(5, 9), range(20, 30), range(1, 3)],
            "that overlap": [range(1, 5), range(3, 9)],
            "that touch": [range(1, 5), range(5, 9)],
            "one of them empty": [range(4, 4), range(7, 9)],
            "many": many,
            "many, the highest first": many[::-1],
            "many twice": many + many,
        }
        for name, ranges in rows.items():
            numbers = {number for one in ranges for number in one}
            for given in (ranges, tuple(ranges), iter(ranges), [(one.start, one.stop) for one in ranges]):
                with self.subTest(name, given=type(given).__name__):
                    found = q.Ack(ranges=given).ranges
                    self.assertEqual({number for one in found for number in one}, numbers)
                    self.assertTrue(all(high.start > low.stop for high, low in zip(found, found[1:])), found)
        for given in ([], [range(4, 4)], [range(3), range(0, 9, 2)], [range(-1, 3)], [range(1 << 65)]):
            with self.subTest(given), self.assertRaises(ValueError):
                q.Ack(ranges=given)

    def test_wrong_numbers_are_rejected(self):
        rows = [
            (ValueError, lambda: q.RangeSet().insert(-1)),
            (ValueError, lambda: q.RangeSet().insert(0, 1 << 64)),
            (ValueError, lambda: q.RangeSet().insert((1 << 64) - 1)),
            (TypeError, lambda: q.RangeSet().insert("1")),
            (TypeError, lambda: q.RangeSet([1])),
            (ValueError, lambda: q.Ack(ranges=q.RangeSet())),
        ]
        for i, (kind, call) in enumerate(rows):
            with self.subTest(i), self.assertRaises(kind):
                call()
        self.assertFalse(q.RangeSet().insert(5, 3))


if __name__ == "__main__":
    unittest.main()
