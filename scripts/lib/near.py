#!/usr/bin/env python3
"""Proves for all payloads and all arguments what c/include/quic_wire_near.h does without a call:

- a reader gives the frame that the row of its type describes (specs/Table.antt of quic_frame_fields), in the fields
  that specs/Slots.antt of quic_c_words says, and leaves to the library exactly what isn't such a frame or what RFC 9000
  forbids; it reads no byte outside of the payload
- a writer writes exactly the shortest encoding of that row, and nothing outside of dest
- varints and packet numbers are those of RFC 9000, sections 16 and 17.1 and appendix A; short headers end as section
  17.3.1 says, transport parameters are entries as in section 18, and header protection is that of RFC 9001, section
  5.4.1
- nothing is undefined in C

Pointers have 64 bits, and then 32. What passed is noted in scripts/lib/near.sha256, which scripts/make/tables --check reads.

near.py [PART ..]   all, or the named parts, such as stream_read; needs gcc, python3-z3 and python3-pycparser
"""
import functools
import re
import sys
import time

import z3
import near_rows
from near_calls import (
    expansion, lengths, number_calls, params_read, short_headers, unprotected, varint_calls, whole_numbers,
)
from near_machine import HEADER, WIDE, Leaves, Machine, Path, Pointer, Word, Wrong, byte_at, number, read_tree, wide
from near_varints import (
    LEN, MOST, READS, ROOM, WRITES, big_endian, called_alike, encoding, fits, has_room, is_left, is_null, least_width,
    pointer, value_of, varint, width_of,
)

# What has no reader: kinds with a loop, and those of the ACK frequency extension.
UNREAD = {"Padding", "Ack", "ImmediateAck", "AckFrequency"}
# What has only numbers but no writer.
UNWRITTEN = {"Padding"}


# ---- numbers

def varints_read(tree, bits):
    """The two functions that read a varint, at the front of any bytes. They know nothing of those before it, so they
    do the same anywhere."""
    for name in ("varint", "short"):
        machine, path = Machine(tree, bits, {}), Path()
        path.declare("out", (64, False), None)
        width = width_of(byte_at(number(0)))
        values = [pointer("payload", False), Pointer("payload", LEN), Pointer(0)]
        ways = machine.call(f"quic_wire_next_{name}_", path, values)
        for one, ended in ways:
            out = one.cells[0][1]
            if out is None:
                claim = z3.And(ended.null, z3.Not(fits(number(0), width)))
                machine.prove(one, claim, f"{name}: a varint that is cut off")
                continue
            same = [z3.Implies(width == it, out.bits == value_of(it)) for it in (1, 2, 4, 8)]
            claim = z3.And(z3.Not(ended.null), fits(number(0), width), ended.offset == width, *same)
            machine.prove(one, claim, f"{name}: a varint's value and end")
        yield f"next_{name}_", len(ways), machine.proofs


def numbers_written(tree, bits):
    """The two functions that write a number, at the front of dest."""
    value = z3.BitVec("value", 64)
    for name, width, given in (("varint", least_width(value), [z3.ULE(value, MOST)]), ("uint64", number(8), [])):
        machine, at = Machine(tree, bits, {}), pointer("dest", False)
        ways = machine.call(f"quic_wire_put_{name}_", Path([*given, has_room(at, width)]), [at, Word(value)])
        for one, ended in ways:
            wanted = encoding(value, len(one.stored)) if name == "varint" else big_endian(value)
            claims = [z3.And(offset == place, stored == byte)
                      for (place, byte), (offset, _, stored) in zip(enumerate(wanted), one.stored, strict=True)]
            machine.prove(one, z3.And(width == len(wanted), ended.offset == width, *claims), f"{name}: its bytes")
        yield f"put_{name}_", len(ways), machine.proofs


# ---- readers

def described(machine, of):
    """The frame of a type at the front of a payload, as its row says: under which conditions it is there, its values,
    of bytes their place and how many they are, and where it ends."""
    place, held, values = number(1), [], []
    for field, *given in of.fields:
        many = number({"Uint64": 8, "Bytes16": 16}.get(field, 0))
        if field in ("Varint", "Counted"):
            width, value = varint(machine, place)
            held.append(fits(place, width))
            place = place + width
            many = value if field == "Counted" else number(0)
        elif field == "Id":
            many = z3.ZeroExt(56, byte_at(place))
            held += [fits(place, number(1)), z3.ULE(1, many), z3.ULE(many, 20)]
            place = place + 1
        elif field == "Rest":
            many = LEN - place
        elif field == "Ordered":
            held.append(z3.ULE(values[-1], values[-2]))
            continue
        values.append(value if field == "Varint" else number(given[0]) if field == "Implied" else z3.Concat(
            *[byte_at(place + it) for it in range(8)]) if field == "Uint64" else (place, many))
        held.append(fits(place, many))
        place = place + many
    return held, values, place


def wanted(machine, of):
    """Under which conditions a reader gives a frame of this type, and its fields."""
    held, values, end = described(machine, of)
    frame = {"kind": number(of.kind, 16), "type": number(of.number, 16), "flags": number(0, 32), "begin": number(0),
             "end": end, "data": end, "datalen": number(0), **{f"numbers{at}": number(0) for at in range(5)}}
    for (slot, *nth), value in zip(of.slots, values, strict=True):
        if slot == "Nth":
            frame[f"numbers{nth[0]}"] = value
        elif slot == "Data":
            frame["data"], frame["datalen"] = value
        elif slot == "Fin":
            frame["flags"] = z3.Extract(31, 0, value)
    return z3.And(*held, *rules(of, frame)), frame


def rules(of, frame):
    """What RFC 9000 requires besides: data end at most at 2^62 - 1 (sections 19.6 and 19.8), there are at most 2^60
    streams (19.11 and 19.14), and a token isn't empty (19.7)."""
    if of.name in ("Crypto", "Stream"):
        return [z3.ULE(wide(frame["numbers1"]) + wide(frame["datalen"]), z3.BitVecVal(MOST, WIDE))]
    if of.name in ("MaxStreams", "StreamsBlocked"):
        return [z3.ULE(frame["numbers1"], 1 << 60)]
    return [frame["datalen"] != 0] if of.name == "NewToken" else []


def arguments(name):
    """The arguments of a reader: any of them may be NULL."""
    front = [pointer("payload"), Word(LEN)]
    if name != "frame_read_near":
        return [*front, pointer("frame")]
    return [*front, Word(z3.BitVec("flags", 32)), pointer("frame"), pointer("gaps"), Word(z3.BitVec("room", 64))]


def reader(tree, bits, name, of, own):
    """A reader on all payloads that begin with this type, or with none of its own."""
    machine = Machine(tree, bits, READS)
    values = arguments(name)
    starts = byte_at(number(0)) == of.number if of else z3.And(*[byte_at(number(0)) != it.number for it in own])
    machine.first = of.number if of else None
    lawful, frame = wanted(machine, of) if of else (z3.BoolVal(False), {})
    lawful = z3.And(z3.Not(is_null("payload")), z3.Not(is_null("frame")), z3.UGT(LEN, 0), lawful)
    if name == "frame_read_near":
        lawful = z3.And(lawful, z3.Or(z3.Not(is_null("gaps")), values[-1].to(bits).bits == 0))
    ways = machine.call(f"quic_wire_{name}", Path([starts]), values)
    for path, result in ways:
        if path.frame and not path.called:
            fields = [path.frame[it] == frame[it] for it in frame]
            claim = z3.And(lawful, result.to(64).bits == frame.get("end", number(0)), *fields)
            machine.prove(path, claim, f"{name}: a frame")
            continue
        claim = called_alike(path, values, "frame_read", result) if path.called else result.bits == 0
        is_left(machine, path, claim, lawful, name)
    yield f"{name}, type {of.number:#04x}" if of else f"{name}, other types", len(ways), machine.proofs


def names_of(types):
    """The kinds by the names that C has for them, each with its types."""
    found = {}
    for of in types:
        name = re.sub(r"(?<=[a-z])(?=[A-Z])", "_", of.name).lower()
        suffix = {"Direction": ["_bidi", "_uni"][of.fields[0][1]]} if ("Direction",) in of.slots else {}
        found.setdefault(name + suffix.get("Direction", ""), []).append(of)
    return found


def readers():
    """The readers, and the one of all kinds, each once for each of its types and once for the others."""
    read = [of for of in near_rows.types() if of.name not in UNREAD]
    kinds = {f"{name}_read": own for name, own in names_of(read).items()}
    for name, own in {**kinds, "frame_read_near": read}.items():
        for of in [*own, None]:
            yield name, functools.partial(reader, name=name, of=of, own=own)


# ---- writers

def writer(tree, bits, name, of):
    """A writer for all arguments: what it writes is the type and the fields of its row, one after another."""
    machine = Machine(tree, bits, WRITES)
    fields = [field for field, *_ in of.fields if field != "Implied"]
    assert set(fields) <= {"Varint", "Uint64"}, of.name
    values = [z3.BitVec(f"number {at}", 64) for at, _ in enumerate(fields)]
    front = encoding(number(of.number), 1 if of.number < 64 else 2)
    numbers = [*zip(fields, values, strict=True)]
    widths = [least_width(value) if field == "Varint" else number(8) for field, value in numbers]
    most = 1 << 60 if of.name in ("MaxStreams", "StreamsBlocked") else MOST
    bounds = [z3.ULE(value, most) for field, value in numbers if field == "Varint"]
    total = sum(widths, number(len(front)))
    can = z3.And(z3.Not(is_null("dest")), *bounds, z3.ULE(total, ROOM))
    ways = machine.call(f"quic_wire_{name}_write", Path(), [*map(Word, values), pointer("dest"), Word(ROOM)])
    for path, result in ways:
        if not path.stored:
            machine.prove(path, z3.And(z3.Not(can), result.bits == 0), f"{name}: nothing is written")
            continue
        place, claims = number(0), [can, result.to(64).bits == total]
        pieces = [("byte", byte, number(1)) for byte in front] + [
            (field.lower(), value, width) for (field, value), width in zip(numbers, widths, strict=True)]
        for (offset, kind, stored), (sort, value, width) in zip(path.stored, pieces, strict=True):
            assert kind == sort, f"{name}: {kind} and not {sort}"
            claims += [offset == place, stored == value]
            place = place + width
        machine.prove(path, z3.And(*claims), f"{name}: what is written")
    yield f"{name}_write", len(ways), machine.proofs


def writers():
    for name, (of, *more) in names_of(near_rows.types()).items():
        if not more and of.name not in UNWRITTEN and not {it[0] for it in of.fields} - {"Varint", "Uint64", "Implied"}:
            yield f"{name}_write", functools.partial(writer, name=name, of=of)


# ---- all of it

def parts():
    """What is shown, by names of functions: each part has what it shows one after another."""
    for each in (varints_read, numbers_written, lengths, varint_calls, number_calls, expansion, whole_numbers,
                 short_headers, unprotected, params_read):
        yield each.__name__, each
    yield from writers()
    yield from readers()


def check(header, names=()):
    for bits in (64, 32):
        tree = read_tree(header, bits)
        for name, part in parts():
            for what, ways, proofs in part(tree, bits) if not names or name in names else ():
                print(f"{what}, {bits} bits: {ways} paths, {proofs} questions: for all values", flush=True)


def main():
    names = sys.argv[1:]
    if names[:1] in (["-h"], ["--help"]):
        print(__doc__.strip())
        return 0
    if unknown := set(names) - {name for name, _ in parts()}:
        print(f"near.py: no such part: {' '.join(unknown)}", file=sys.stderr)
        return 2
    began, digests = time.monotonic(), near_rows.digests()
    try:
        check(HEADER, names)
    except Wrong as it:
        print(f"near.py: {'reads less' if isinstance(it, Leaves) else 'refused'}: {it}", file=sys.stderr)
        return 1
    if near_rows.digests() != digests:
        print("near.py: a file has changed meanwhile", file=sys.stderr)
        return 1
    if not names:
        near_rows.PASSED.write_text("".join(f"{it}\n" for it in digests))
    print(f"near.py: passed in {time.monotonic() - began:.0f} s")
    return 0


if __name__ == "__main__":
    sys.exit(main())
