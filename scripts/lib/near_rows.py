"""What the proved definitions say of the types of frames: the fields of each, in
crates/quic_frame_fields/specs/Table.antt, and which field of the C library's struct has each value, in
crates/quic_c_words/specs/Slots.antt. They are read as they are there."""
import hashlib
import pathlib
import re

TOP = pathlib.Path(__file__).resolve().parents[2]
TABLE = TOP / "crates/quic_frame_fields/specs/Table.antt"
SLOTS = TOP / "crates/quic_c_words/specs/Slots.antt"
# What scripts/lib/near.py depends on, and the file in which it notes their digests when it has passed.
FILES = ("c/include/quic_wire_near.h",
         *(f"scripts/lib/{it}.py" for it in ("near", "near_calls", "near_machine", "near_rows", "near_varints")),
         TABLE.relative_to(TOP).as_posix(), SLOTS.relative_to(TOP).as_posix())
PASSED = TOP / "scripts/lib/near.sha256"
# The number of a direction is the lowest bit of the types of MAX_STREAMS and STREAMS_BLOCKED (RFC 9000, section 19.11).
DIRECTIONS = {"Bi": 0, "Uni": 1}


def digests():
    """The digests of these files, as sha256sum prints them."""
    return [f"{hashlib.sha256((TOP / it).read_bytes()).hexdigest()}  {it}" for it in FILES]


class Definitions:
    """The definitions of a file, of which each has a name, parameters and one body."""

    def __init__(self, text):
        text = re.sub(r"--[^\n]*", "", text)
        found = re.findall(r"^abbrev pub (\w+) : [^\n]*\n\1((?: \w+)*) =\s+((?:[^\n]+\n(?=    ))*[^\n]+)", text, re.M)
        self.all = {name: (words.split(), body) for name, words, body in found if name != "row"}

    def value(self, text, given=None):
        """The value of an expression: a number, a truth, a list, a pair, or a name with its arguments."""
        tokens = re.findall(r"\(|\)|,|∷|\[\]|[\w.]+", text)
        value, rest = self.expression(tokens, given or {})
        assert not rest, rest
        return value

    def expression(self, tokens, given):
        if tokens[0] == "if":
            held, tokens = self.expression(tokens[1:], given)
            yes, tokens = self.expression(tokens[1:], given)
            no, tokens = self.expression(tokens[1:], given)
            return (yes if held else no), tokens
        items = []
        while True:
            value, tokens = self.application(tokens, given)
            items.append(value)
            if tokens[:1] != ["∷"]:
                break
            tokens = tokens[1:]
        return (items[:-1] + items[-1] if len(items) > 1 else items[0]), tokens

    def application(self, tokens, given):
        values = []
        while tokens and tokens[0] not in (")", ",", "∷", "then", "else"):
            if tokens[0] != "(":
                values.append(tokens[0])
                tokens = tokens[1:]
                continue
            inner, tokens = self.expression(tokens[1:], given)
            if tokens[0] == ",":
                second, tokens = self.expression(tokens[1:], given)
                inner = (inner, second)
            values.append((inner,))
            tokens = tokens[1:]
        return self.applied(values[0], [self.atom(it, given) for it in values[1:]], given), tokens

    def atom(self, it, given):
        return it[0] if isinstance(it, tuple) else self.applied(it, [], given)

    def applied(self, name, values, given):
        if isinstance(name, tuple):
            return name[0]
        if name in given:
            return given[name]
        if name in self.all and len(self.all[name][0]) == len(values):
            return self.value(self.all[name][1], dict(zip(self.all[name][0], values)))
        if name == "dir_number":
            return DIRECTIONS[values[0][0]]
        simple = {"true": True, "false": False, "[]": []}
        if name in simple:
            return simple[name]
        return int(name, 0) if name[0].isdigit() else (name, *values)


class Type:
    """A type of frame: the kind that it has, its name, its fields, and which field of the struct has each value."""

    def __init__(self, number, kind, name, fields, slots):
        self.number, self.kind, self.name, self.fields, self.slots = number, kind, name, fields, slots


def types():
    """All types of frames, in the order of the table."""
    definitions, slots = Definitions(TABLE.read_text()), SLOTS.read_text()
    rows = [(number, row[1][0], row[2]) for number, row in definitions.value("rows")]
    placed = {name: definitions.value(body)
              for name, body in re.findall(r"^slots_of names\.(\w+) = (.*)$", slots, re.M)}
    others = re.search(r"^is_other type = (.*)$", slots, re.M)[1]
    found = []
    for number, name, fields in rows:
        same = [it for it, of, _ in rows if of == name and not is_other(others, it)]
        kind = same[0] if is_other(others, number) and same else number
        found.append(Type(number, kind, name, fields, placed.get(name, [])))
    return found


def is_other(condition, number):
    """Whether a type isn't the kind of its frame: alternatives of conditions on it."""
    def held(text):
        if text.startswith("nat_lt "):
            low, high = (number if it == "type" else int(it, 0) for it in text.split()[1:])
            return low < high
        return number == int(text.removeprefix("type == "), 0)
    return any(all(held(it) for it in part.split(" && ")) for part in condition.split(" || "))
