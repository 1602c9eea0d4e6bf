"""Names of arguments that aren't plain texts: the interpreter hands them to a class as they are."""

import unittest

import quic_wire as q

CLASSES = [*q.Frame.__subclasses__(), q.RangeSet, q.TransportParameters]
NAMED = [(q.Stream, "offset"), (q.Ack, "delay"), (q.TransportParameters, "initial_max_data")]


class Raised(Exception):
    pass


class Same(str):
    """A text like others."""


class Unequal(str):
    """A text that no other is equal to."""

    __hash__ = str.__hash__

    def __eq__(self, other):
        return False


class Elsewhere(Same):
    """A text that dictionaries don't find."""

    def __hash__(self):
        return 7


class Raises(str):
    """A text that can't be compared."""

    __hash__ = str.__hash__

    def __eq__(self, other):
        raise Raised


class Names(unittest.TestCase):
    def test_names_that_are_no_texts(self):
        for kind in CLASSES:
            for name in (1, 1 << 70, None, b"data", ("data",), kind):
                with self.subTest(kind.__name__, name=name), self.assertRaises(TypeError):
                    kind(**{name: 1})
        with self.assertRaisesRegex(TypeError, "no transport parameter is called 7"):
            q.TransportParameters(**{7: 1})

    def test_names_that_are_found_otherwise(self):
        for kind, name in NAMED:
            self.assertEqual(kind(**{Same(name): 1}), kind(**{name: 1}))
            for other in (Unequal, Elsewhere):
                with self.subTest(kind.__name__, name=other.__name__), self.assertRaises(TypeError):
                    kind(**{other(name): 1})
            with self.subTest(kind.__name__), self.assertRaises(Raised):
                kind(**{Raises(name): 1})


if __name__ == "__main__":
    unittest.main()
