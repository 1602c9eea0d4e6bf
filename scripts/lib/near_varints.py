"""What a varint is, by its bytes (RFC 9000, section 16), what scripts/lib/near.py takes functions to do that read or
write one, once it has shown that, and what it shows of each call of the library."""
import z3
from near_machine import LENGTHS, NULL, Leaves, Pointer, Word, Wrong, byte_at, number, unknown

LEN, ROOM = LENGTHS["payload"], LENGTHS["dest"]
MOST = (1 << 62) - 1


def is_null(name):
    return z3.Bool(f"{name} is NULL")


def pointer(name, may_be_null=True):
    """The first of some bytes, or a frame."""
    return Pointer(name, null=is_null(name)) if may_be_null else Pointer(name)


def width_of(first):
    """1, 2, 4 or 8 bytes, as the two highest bits of the first say."""
    return number(1) << z3.ZeroExt(56, z3.LShR(first, 6))


def value_of(width, begin=number(0)):
    """The number in a varint of that width at a place: its bytes, the highest first, without those two bits."""
    parts = [byte_at(begin + place) for place in range(width)]
    bits = z3.Concat(*parts) if width > 1 else parts[0]
    return z3.ZeroExt(66 - 8 * width, z3.Extract(8 * width - 3, 0, bits))


def fits(place, many):
    """Whether so many bytes are there."""
    return z3.And(z3.ULE(place, LEN), z3.ULE(many, LEN - place))


def least_width(value):
    return z3.If(z3.ULT(value, 1 << 6), number(1), z3.If(z3.ULT(value, 1 << 14), number(2), z3.If(
        z3.ULT(value, 1 << 30), number(4), number(8))))


def encoding(value, width):
    """The bytes of a number in a varint of that width."""
    prefix = {1: 0, 2: 1, 4: 2, 8: 3}[width]
    return big_endian(z3.Concat(number(prefix, 2), z3.Extract(8 * width - 3, 0, value)))


def big_endian(bits):
    return [z3.Extract(low + 7, low, bits) for low in reversed(range(0, bits.size(), 8))]


def varint(machine, place):
    """A varint in a proof that needs no more of it than its bounds: its width and its value."""
    width, value = z3.ZeroExt(60, unknown("width", place, 4)), z3.ZeroExt(2, unknown("value", place, 62))
    machine.facts.append(z3.Or(*[width == it for it in (1, 2, 4, 8)]))
    return width, value


def reads_varint(machine, path, at, end, value):
    """What quic_wire_next_varint_ and quic_wire_next_short_ do, as is shown first."""
    path.need(z3.And(z3.Not(at.null), z3.ULE(at.offset, LEN), end.offset == LEN), "bytes of the payload")
    width, found = varint(machine, at.offset)
    ways = []
    for one, is_there in machine.split(path, fits(at.offset, width)):
        if is_there:
            one.assign(value.to, Word(found))
        ways.append((one, Pointer("payload", at.offset + width) if is_there else NULL))
    return ways


def has_room(at, many):
    return z3.And(z3.Not(at.null), z3.ULE(at.offset, ROOM), z3.ULE(many, ROOM - at.offset))


def writes_varint(machine, path, at, value):
    """What quic_wire_put_varint_ does."""
    width = least_width(value.bits)
    path.need(z3.And(has_room(at, width), z3.ULE(value.bits, MOST)), "room for a number below 2^62")
    path.stored.append((at.offset, "varint", value.bits))
    return [(path, Pointer("dest", at.offset + width, at.null))]


def writes_uint64(machine, path, at, value):
    """What quic_wire_put_uint64_ does."""
    path.need(has_room(at, number(8)), "room for eight bytes")
    path.stored.append((at.offset, "uint64", value.bits))
    return [(path, Pointer("dest", at.offset + 8, at.null))]


def varint_len(machine, path, value):
    """What quic_wire_varint_len_near returns."""
    found = z3.If(z3.ULE(value.bits, MOST), least_width(value.bits), number(0))
    return [(path, Word(found).to(machine.bits))]


READS = {f"quic_wire_next_{it}_": reads_varint for it in ("varint", "short")}
WRITES = {"quic_wire_put_varint_": writes_varint, "quic_wire_put_uint64_": writes_uint64,
          "quic_wire_varint_len_near": varint_len}


def called_alike(path, values, name, result):
    """That all that happens is a call of the library with the function's own arguments, whose result is returned."""
    of, passed, answer = path.called
    assert of == f"quic_wire_{name}", of
    changes = path.frame or path.stored or "out" in path.names and path.cells[path.names["out"]][1]
    path.need(z3.BoolVal(not changes), f"nothing but a call of {name}")
    for given, value in zip(values, passed, strict=True):
        if isinstance(given, Pointer):
            assert given.to == value.to
            path.need(z3.And(given.null == value.null, z3.Or(given.null, given.offset == value.offset)), "a pointer")
        else:
            path.need(given.to(value.bits.size()).bits == value.bits, "an argument")
    return result.bits == answer.bits


def is_left(machine, path, claim, lawful, name):
    """Shows that a path leaves to the library only what isn't lawful, and what it claims."""
    try:
        machine.prove(path, z3.And(claim, z3.Not(lawful)), f"{name}: what is left")
    except Wrong as it:
        machine.prove(path, claim, f"{name}: the result for what is left")
        raise Leaves(f"{name}: more is left than has to be: {it}") from None
