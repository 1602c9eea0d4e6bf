"""What scripts/lib/near.py shows of the functions of c/include/quic_wire_near.h for numbers, headers of packets and
transport parameters: for all arguments they do what RFC 9000 and RFC 9001 say, or call the library."""
import z3
from near_machine import WIDE, Machine, Path, Pointer, Word, byte_at, number, wide
from near_varints import (
    LEN, MOST, READS, ROOM, WRITES, called_alike, fits, is_left, is_null, least_width, pointer, value_of,
    varint, width_of,
)


def function(tree, bits, name, values, contracts=None, given=()):
    machine = Machine(tree, bits, contracts or {})
    path = Path(given)
    path.declare("out", (64, False), None)
    return machine, machine.call(f"quic_wire_{name}", path, values)


def lengths(tree, bits):
    """How long a varint is, and how long a truncated packet number: as long as its numbers are more than twice as many
    as those since the acknowledged one (RFC 9000, section 17.1)."""
    value, acked = z3.BitVec("value", 64), z3.BitVec("acked", 64)
    machine, ways = function(tree, bits, "varint_len_near", [Word(value)])
    for path, result in ways:
        many = z3.If(z3.ULE(value, MOST), least_width(value), number(0))
        machine.prove(path, result.to(64).bits == many, "a varint's length")
    yield "varint_len_near", len(ways), machine.proofs
    machine, ways = function(tree, bits, "number_len_near", [Word(value), Word(acked)])
    for path, result in ways:
        machine.prove(path, result.bits == number_length(machine, value, acked), "a packet number's length")
    yield "number_len_near", len(ways), machine.proofs


def number_length(machine, value, acked):
    error, twice = number(machine.constants["QUIC_WIRE_ERR_NUMBER"], 32), 2 * (wide(value) - wide(acked))
    many = error
    for count in (4, 3, 2, 1):
        many = z3.If(z3.ULT(twice, z3.BitVecVal(1 << 8 * count, WIDE)), number(count, 32), many)
    return z3.If(z3.ULT(value, acked), error, many)


def varint_calls(tree, bits):
    given = [pointer("payload"), Word(LEN), Pointer(0, null=is_null("value"))]
    machine, ways = function(tree, bits, "varint_read_near", given, READS)
    width, value = varint(machine, number(0))
    for path, result in ways:
        if path.called:
            machine.prove(path, called_alike(path, given, "varint_read", result), "a call")
            continue
        stored = path.cells[0][1]
        same = z3.BoolVal(False) if stored is None else stored.bits == value
        machine.prove(path, z3.And(fits(number(0), width), same, result.to(64).bits == width), "a varint")
    yield "varint_read_near", len(ways), machine.proofs
    value, chosen = z3.BitVec("number", 64), z3.BitVec("width", 32)
    given = [Word(value), Word(chosen), pointer("dest"), Word(ROOM)]
    machine, ways = function(tree, bits, "varint_write_near", given, WRITES)
    for path, result in ways:
        if path.called:
            machine.prove(path, called_alike(path, given, "varint_write", result), "a call")
            continue
        (place, kind, stored), = path.stored
        assert kind == "varint"
        claim = z3.And(place == 0, stored == value, chosen == 0, result.to(64).bits == least_width(value))
        machine.prove(path, claim, "a varint")
    yield "varint_write_near", len(ways), machine.proofs


def truncated(parts):
    """The numbers of 1 to 4 bytes at the front of four."""
    return {it: z3.ZeroExt(64 - 8 * it, z3.Concat(*parts[:it]) if it > 1 else parts[0]) for it in (1, 2, 3, 4)}


def is_count(count):
    return z3.And(z3.UGE(count, 1), z3.ULE(count, 4))


def number_calls(tree, bits):
    """The low bytes of a packet number, read and written."""
    count = z3.BitVec("count", 32)
    given = [pointer("payload"), Word(LEN), Word(count), Pointer(0, null=is_null("written"))]
    machine, ways = function(tree, bits, "number_read_near", given)
    for path, result in ways:
        if path.called:
            machine.prove(path, called_alike(path, given, "number_read", result), "a call")
            continue
        values = truncated([byte_at(number(at)) for at in range(4)])
        same = [z3.Implies(count == it, path.cells[0][1].bits == value) for it, value in values.items()]
        machine.prove(path, z3.And(is_count(count), result.bits == count, *same), "a packet number")
    yield "number_read_near", len(ways), machine.proofs
    value = z3.BitVec("number", 64)
    given = [Word(value), Word(count), pointer("dest"), Word(ROOM)]
    machine, ways = function(tree, bits, "number_write_near", given)
    for path, result in ways:
        if path.called:
            machine.prove(path, called_alike(path, given, "number_write", result), "a call")
            continue
        machine.prove(path, z3.And(result.bits == count, has_low_bytes(path, value, count)), "a packet number")
    yield "number_write_near", len(ways), machine.proofs


def has_low_bytes(path, value, count):
    """Whether so many low bytes of a number were written, and nothing else."""
    many = len(path.stored)
    return z3.And(count == many, *[
        z3.And(offset == at, byte == z3.Extract(8 * (many - at) - 1, 8 * (many - at - 1), value))
        for at, (offset, _, byte) in enumerate(path.stored)])


def is_expanded(got, written, count, expected):
    """The number that ends so and is nearest to the expected one (RFC 9000, appendix A.3): above it minus half of the
    window and at most it plus half; or what was written, if the nearest one would be negative."""
    got, small, goal = wide(got), wide(written), wide(expected)
    window, half = z3.BitVecVal(1 << 8 * count, WIDE), z3.BitVecVal(1 << 8 * count - 1, WIDE)
    near = z3.And(got & (window - 1) == small, z3.UGT(got + half, goal), z3.ULE(got, goal + half))
    return z3.Or(near, z3.And(got == small, z3.UGT(small, goal + half)))


def expansion(tree, bits):
    """The expanded number for all arguments."""
    written, expected, other = z3.BitVec("written", 64), z3.BitVec("expected", 64), z3.BitVec("other", 32)
    none = number((1 << 64) - 1)
    for count in (1, 2, 3, 4):
        values = [Word(written), Word(number(count, 32)), Word(expected)]
        machine, ways = function(tree, bits, "number_expand_near", values)
        valid = z3.And(z3.ULE(expected, MOST), z3.ULT(written, 1 << 8 * count))
        for path, result in ways:
            same = z3.If(valid, is_expanded(result.bits, written, count, expected), result.bits == none)
            machine.prove(path, same, "an expanded packet number")
        yield f"number_expand_near, {count} bytes", len(ways), machine.proofs
    wrong = z3.Or(other == 0, z3.UGT(other, 4))
    values = [Word(written), Word(other), Word(expected)]
    machine, ways = function(tree, bits, "number_expand_near", values, given=[wrong])
    for path, result in ways:
        machine.prove(path, result.bits == none, "an expanded packet number")
    yield "number_expand_near, other lengths", len(ways), machine.proofs


def whole_numbers(tree, bits):
    """Packet numbers that are read and expanded in one step, and that are written in as few bytes as possible."""
    count, expected = z3.BitVec("count", 32), z3.BitVec("expected", 64)
    given = [pointer("payload"), Word(LEN), Word(count), Word(expected), Pointer(0, null=is_null("number"))]
    machine, ways = function(tree, bits, "number_read_whole", given)
    error = number(machine.constants["QUIC_WIRE_ERR_NUMBER"], 32)
    there = z3.And(are_given("payload", "number"), is_count(count), fits(number(0), z3.ZeroExt(32, count)))
    for path, result in ways:
        if path.called:
            called = called_alike(path, [*given[:3], given[4]], "number_read", result)
            machine.prove(path, z3.And(called, z3.Not(there)), "the error of a call")
        elif path.cells[0][1] is None:
            machine.prove(path, z3.And(there, z3.UGT(expected, MOST), result.bits == error), "an expected number")
        else:
            whole = [z3.Implies(count == it, is_expanded(path.cells[0][1].bits, value, it, expected))
                     for it, value in truncated([byte_at(number(at)) for at in range(4)]).items()]
            claim = z3.And(there, z3.ULE(expected, MOST), result.bits == count, *whole)
            machine.prove(path, claim, "a whole packet number")
    yield "number_read_whole", len(ways), machine.proofs
    value, acked = z3.BitVec("value", 64), z3.BitVec("acked", 64)
    machine, ways = function(tree, bits, "number_write_least", [Word(value), Word(acked), pointer("dest"), Word(ROOM)])
    many = number_length(machine, value, acked)
    can = z3.And(are_given("dest"), z3.ULE(z3.ZeroExt(32, many), ROOM), many != error)
    for path, result in ways:
        if path.called:
            given = [Word(value), Word(many), pointer("dest"), Word(ROOM)]
            claim = z3.And(called_alike(path, given, "number_write", result), many != error)
            is_left(machine, path, claim, can, "number_write_least")
        elif path.stored:
            claim = z3.And(can, result.bits == many, has_low_bytes(path, value, many))
            machine.prove(path, claim, "the least bytes of a packet number")
        else:
            machine.prove(path, z3.And(many == error, result.bits == error), "no length")
    yield "number_write_least", len(ways), machine.proofs


# ---- headers of packets

def are_given(*names):
    return z3.And(*[z3.Not(is_null(name)) for name in names])


def short_headers(tree, bits):
    """Where a short header ends: after the first byte, whose highest bit is clear, and an id of at most 20 bytes
    (RFC 9000, section 17.3.1)."""
    count = z3.BitVec("count", 32)
    machine, ways = function(tree, bits, "short_read_near", [pointer("payload"), Word(LEN), Word(count)])
    many = z3.ZeroExt(32, count)
    is_there = z3.And(are_given("payload"), z3.ULE(many, 20), fits(number(1), many), z3.ULT(byte_at(number(0)), 0x80))
    for path, result in ways:
        machine.prove(path, result.to(64).bits == z3.If(is_there, 1 + many, number(0)), "a short header")
    yield "short_read_near", len(ways), machine.proofs


def without_mask(place):
    """A header without its protection, whose number begins at a place (RFC 9001, section 5.4.1): its first byte, of
    which five bits have a mask if it is short, else four; how many bytes the number has; and the four bytes there, of
    which as many have one."""
    old, mask = byte_at(number(0), "dest"), [byte_at(number(at), "mask") for at in range(5)]
    first = old ^ (mask[0] & z3.If(z3.ULT(old, 0x80), number(0x1f, 8), number(0x0f, 8)))
    count = z3.ZeroExt(24, first & 3) + 1
    there = [byte_at(place + at, "dest") for at in range(4)]
    return first, count, [z3.If(z3.UGT(count, at), there[at] ^ mask[at + 1], there[at]) for at in range(4)]


def unprotected(tree, bits):
    """Header protection that is removed, and the number that is expanded; from 0 it is the truncated one. The packet is
    what the machine calls dest."""
    place, expected = z3.ZeroExt(64 - bits, z3.BitVec("place", bits)), z3.BitVec("expected", 64)
    given = [pointer("dest"), Word(ROOM), Word(place), pointer("mask"), Word(expected),
             Pointer(0, null=is_null("number"))]
    machine, ways = function(tree, bits, "unprotect_near", given)
    can = z3.And(are_given("dest", "mask", "number"), z3.ULE(expected, MOST), place != 0, z3.ULE(4, ROOM),
                 z3.ULE(place, ROOM - 4))
    first, count, parts = without_mask(place)
    wanted = [(number(0), first), *((place + at, part) for at, part in enumerate(parts))]
    for path, result in ways:
        if path.called:
            is_left(machine, path, called_alike(path, given, "unprotect", result), can, "unprotect_near")
            continue
        got = path.cells[0][1].bits
        stored = [z3.And(offset == at, byte == part)
                  for (offset, _, byte), (at, part) in zip(path.stored, wanted, strict=True)]
        whole = [z3.Implies(count == it, z3.And(
            is_expanded(got, value, it, expected), z3.Implies(expected == 0, got == value)))
            for it, value in truncated(parts).items()]
        machine.prove(path, z3.And(can, result.bits == count, *stored, *whole), "a header without protection")
    yield "unprotect_near", len(ways), machine.proofs


# ---- transport parameters

def params_read(tree, bits):
    """An entry of a list: two varints, its id and the length of its value, and that (RFC 9000, section 18); also one
    whose value is a varint."""
    for name in ("param_read", "param_read_number"):
        is_number = name == "param_read_number"
        given = [pointer("payload"), Word(LEN), pointer("param"), *[Pointer(0, null=is_null("value"))] * is_number]
        machine, ways = function(tree, bits, f"{name}_near", given, READS)
        (width, of), place = varint(machine, number(0)), number(0)
        held = [are_given("payload", "param", *["value"] * is_number), fits(place, width)]
        place = place + width
        width, many = varint(machine, place)
        held.append(fits(place, width))
        place = place + width
        held.append(fits(place, many))
        held += [many != 0, width_of(byte_at(place)) == many] * is_number
        entry = {"id": of, "value": place, "valuelen": many}
        for path, result in ways:
            if path.called:
                is_left(machine, path, called_alike(path, given, name, result), z3.And(*held), f"{name}_near")
                continue
            assert path.frame.keys() == entry.keys(), path.frame.keys()
            same = [path.frame[it] == entry[it] for it in entry]
            same += [z3.Implies(many == it, path.cells[0][1].bits == value_of(it, place))
                     for it in (1, 2, 4, 8) if is_number]
            machine.prove(path, z3.And(*held, *same, result.bits == place + many), f"{name}_near: an entry")
        yield f"{name}_near", len(ways), machine.proofs
