#!/usr/bin/env python3
"""Proves for all values what is computed without a call of the proved library: the expressions of
c/include/quic_wire_inline.h. Their text is given to the solver z3 as it is. What they must equal is written here, in
numbers of 72 bits, in which nothing wraps.

all_words.py   needs gcc and Debian's python3-z3 and python3-pycparser
"""
import pathlib
import subprocess
import sys
import tempfile

import z3
from pycparser import c_ast, c_parser

TOP = pathlib.Path(__file__).resolve().parents[2]
LOWEST = z3.BitVecVal(0, 64)
WIDE = 72
# What the header includes, for a parser that only knows C99.
HEADERS = {
    "stdint.h": "\n".join(
        [f"typedef unsigned {kind} uint{bits}_t; typedef signed {kind} int{bits}_t;"
         for bits, kind in ((8, "char"), (16, "short"), (32, "int"), (64, "long"))]
        + ["typedef unsigned long uintptr_t;", "#define UINT64_MAX 18446744073709551615ul"]
    ),
    "stddef.h": "typedef unsigned long size_t;\n#define NULL ((void *)0)\n#define offsetof(a, b) 0\n",
    "string.h": "void *memcpy(void *, const void *, unsigned long);\n",
}
WIDTHS = {"uint8_t": 8, "uint16_t": 16, "uint32_t": 32, "uint64_t": 64, "size_t": 64, "quic_wire_size": 64, "int": 32}


def wide(number):
    """A number in which nothing wraps."""
    return z3.ZeroExt(WIDE - number.size(), number)


def prove(name, claim, *assumed):
    """Checks that the claim holds for all values, or ends with values for which it doesn't."""
    steps = ("simplify", "propagate-values", "solve-eqs", "elim-uncnstr", "simplify", "bit-blast", "sat")
    solver = z3.Then(*steps).solver()
    solver.add(*assumed, z3.Not(claim))
    if solver.check() != z3.unsat:
        sys.exit(f"all_words.py: {name}: false for {solver.model()}")
    print(f"{name}: for all values")


class Word:
    """A value of an integer type: its bits, and whether it has a sign."""

    def __init__(self, bits, signed):
        self.bits, self.signed = bits, signed

    def to(self, width, signed):
        size = self.bits.size()
        if width <= size:
            return Word(z3.Extract(width - 1, 0, self.bits), signed)
        widen = z3.SignExt if self.signed else z3.ZeroExt
        return Word(widen(width - size, self.bits), signed)

    def promoted(self):
        return self.to(32, True) if self.bits.size() < 32 else self


class Pointer:
    """A pointer: whether it is NULL, and else how many bytes it is after its argument."""

    def __init__(self, null, offset=LOWEST):
        self.null, self.offset = null, offset


def truth(value):
    if isinstance(value, Pointer):
        return z3.Not(value.null)
    return value if z3.is_bool(value) else value.bits != 0


def word(value):
    return Word(z3.If(value, z3.BitVecVal(1, 32), z3.BitVecVal(0, 32)), True) if z3.is_bool(value) else value


class Function:
    """A function by its arguments: the expression that its body returns, and what it returns and stores before that,
    each with the path that leads there."""

    def __init__(self, parsed):
        self.name = parsed.decl.name
        self.arguments = {}
        self.seen = []
        self.early = []
        for each in parsed.decl.type.args.params:
            if isinstance(each.type, c_ast.PtrDecl):
                self.arguments[each.name] = Pointer(z3.Bool(f"{each.name} is NULL"))
            else:
                width = WIDTHS[each.type.type.names[0]]
                self.arguments[each.name] = Word(z3.BitVec(each.name, width), False)
        *earlier, last = [it for it in parsed.body.block_items if isinstance(it, (c_ast.If, c_ast.Return))]
        self.path = z3.BoolVal(True)
        for each in earlier:
            self.leave(each)
        self.value = self.of(last.expr, self.path)

    def leave(self, node):
        """A condition under which the function stores what it was given a pointer for, and returns."""
        held = truth(self.of(node.cond, self.path))
        path = z3.And(self.path, held)
        *stores, returned = node.iftrue.block_items if isinstance(node.iftrue, c_ast.Compound) else [node.iftrue]
        stored = {}
        for each in stores:
            name = each.lvalue.expr.name
            prove(f"{self.name}: |{name}| isn't NULL", z3.Implies(path, truth(self.arguments[name])))
            stored[name] = word(self.of(each.rvalue, path)).to(64, False)
        self.early.append((path, self.of(returned.expr, path), stored))
        self.path = z3.And(self.path, z3.Not(held))

    def member(self, node, path):
        """A member of a struct that is read if the path leads to it; its pointer isn't NULL there."""
        prove(f"{self.name}: |{node.name.name}| isn't NULL", z3.Implies(path, truth(self.arguments[node.name.name])))
        name = f"{node.name.name}->{node.field.name}"
        return Word(z3.BitVec(name, FIELDS[node.field.name]), False)

    def item(self, node, path):
        place = self.of(node.subscript, path).to(64, False).bits if not isinstance(node.subscript, c_ast.Constant) else (
            z3.BitVecVal(int(node.subscript.value), 64))
        if node.name.name in self.arguments:
            self.seen.append((path, place))
        return Word(z3.Function("byte", z3.BitVecSort(64), z3.BitVecSort(8))(place), False)

    def of(self, node, path):
        return getattr(self, f"of_{type(node).__name__}")(node, path)

    def of_ID(self, node, path):
        if node.name in CONSTANTS:
            return Word(z3.BitVecVal(CONSTANTS[node.name], 32), True)
        return self.arguments[node.name]

    def of_Constant(self, node, path):
        text = node.value.rstrip("uUlL")
        return Word(z3.BitVecVal(int(text, 0), 64 if "l" in node.value.lower() else 32), "u" not in node.value.lower())

    def of_FuncCall(self, node, path):
        """A call of the proved library, whose pointers must not be NULL."""
        for each in node.args.exprs:
            value = self.of(each, path)
            if isinstance(value, Pointer):
                prove(f"{self.name}: |{each.name}| isn't NULL for a call", z3.Implies(path, truth(value)))

    def of_StructRef(self, node, path):
        return self.member(node, path)

    def of_ArrayRef(self, node, path):
        if isinstance(node.name, c_ast.StructRef):
            name = f"{node.name.name.name}->{node.name.field.name}[{node.subscript.value}]"
            prove(f"{self.name}: |{node.name.name.name}| isn't NULL",
                  z3.Implies(path, truth(self.arguments[node.name.name.name])))
            return Word(z3.BitVec(name, 64), False)
        return self.item(node, path)

    def of_Cast(self, node, path):
        kind = node.to_type.type
        if isinstance(kind, c_ast.PtrDecl):
            return Pointer(z3.BoolVal(True))
        return word(self.of(node.expr, path)).to(WIDTHS[kind.type.names[0]], kind.type.names[0] == "int")

    def of_UnaryOp(self, node, path):
        value = self.of(node.expr, path)
        assert node.op == "!", node.op
        return z3.Not(truth(value))

    def of_TernaryOp(self, node, path):
        chosen = truth(self.of(node.cond, path))
        yes, no = self.of(node.iftrue, z3.And(path, chosen)), self.of(node.iffalse, z3.And(path, z3.Not(chosen)))
        if isinstance(yes, Pointer):
            return Pointer(z3.If(chosen, yes.null, no.null), z3.If(chosen, yes.offset, no.offset))
        yes, no = balanced(yes, no)
        return Word(z3.If(chosen, yes.bits, no.bits), yes.signed)

    def of_BinaryOp(self, node, path):
        left = self.of(node.left, path)
        if node.op in ("&&", "||"):
            held = truth(left)
            right = truth(self.of(node.right, z3.And(path, held if node.op == "&&" else z3.Not(held))))
            return z3.And(held, right) if node.op == "&&" else z3.Or(held, right)
        right = self.of(node.right, path)
        if isinstance(left, Pointer):
            offset = word(right).to(64, False).bits
            return Pointer(left.null, left.offset + offset if node.op == "+" else left.offset - offset)
        if node.op in ("<<", ">>"):
            return self.shifted(node.op, word(left).promoted(), word(right).promoted(), path)
        left, right = balanced(word(left), word(right))
        return OPERATORS[node.op](left, right)

    def shifted(self, op, value, count, path):
        """A shift, by fewer bits than there are."""
        width = value.bits.size()
        by = count.to(width, False).bits
        prove(f"{self.name}: a shift by fewer than {width} bits", z3.Implies(path, z3.ULT(by, width)))
        return Word(value.bits << by if op == "<<" else z3.LShR(value.bits, by), value.signed)


def balanced(left, right):
    """Both in the type that C computes them in."""
    left, right = word(left).promoted(), word(right).promoted()
    width = max(left.bits.size(), right.bits.size())
    unsigned = any(not it.signed and it.bits.size() == width for it in (left, right))
    return left.to(width, not unsigned), right.to(width, not unsigned)


def compared(signed, unsigned):
    return lambda left, right: (signed if left.signed else unsigned)(left.bits, right.bits)


OPERATORS = {
    "==": lambda left, right: left.bits == right.bits,
    "!=": lambda left, right: left.bits != right.bits,
    "<": compared(lambda a, b: a < b, z3.ULT),
    "<=": compared(lambda a, b: a <= b, z3.ULE),
    ">": compared(lambda a, b: a > b, z3.UGT),
    ">=": compared(lambda a, b: a >= b, z3.UGE),
    "+": lambda left, right: Word(left.bits + right.bits, left.signed),
    "-": lambda left, right: Word(left.bits - right.bits, left.signed),
    "&": lambda left, right: Word(left.bits & right.bits, left.signed),
    "|": lambda left, right: Word(left.bits | right.bits, left.signed),
}


def parsed_header():
    """The header with its inline file, as a tree."""
    with tempfile.TemporaryDirectory() as folder:
        for name, text in HEADERS.items():
            pathlib.Path(folder, name).write_text(text)
        words = ["-E", "-P", "-undef", "-std=c99", "-nostdinc", "-I", folder, "-I", TOP / "c/include", "-DQUIC_WIRE_INLINE",
                 "-D__SIZEOF_SIZE_T__=8", TOP / "c/include/quic_wire.h"]
        text = subprocess.run(["gcc", *words], check=True, stdout=subprocess.PIPE, text=True).stdout
    return c_parser.CParser().parse(text)


def constants_of(tree):
    found = {}
    for each in tree.ext:
        kind = getattr(each, "type", None)
        kind = getattr(getattr(kind, "type", None), "values", None)
        for item in kind.enumerators if kind else []:
            sign, value = 1, item.value
            if isinstance(value, c_ast.UnaryOp):
                sign, value = -1, value.expr
            found[item.name] = sign * int(value.value.rstrip("uUlL"), 0)
    return found


def members(items):
    """The members of a struct, with those of unions without a name."""
    for item in items:
        yield from members(item.type.decls) if isinstance(item.type, c_ast.Union) and not item.name else [item]


def fields_of(tree):
    """The width of each struct member by its name, which has the same width in all structs that are read here."""
    found = {}
    for each in tree.ext:
        for item in members(getattr(getattr(getattr(each, "type", None), "type", None), "decls", None) or []):
            kind = getattr(item.type, "type", None)
            if isinstance(item.type, c_ast.TypeDecl) and isinstance(kind, c_ast.IdentifierType):
                found.setdefault(item.name, WIDTHS.get(kind.names[0], 0))
    return found


def field(name):
    return z3.BitVec(name, FIELDS[name.split("->")[1]])


def bytes_within(function, length):
    """Each byte that is read is one of the argument's bytes."""
    for path, place in function.seen:
        prove(f"{function.name}: a byte of the bytes", z3.Implies(path, z3.ULT(place, function.arguments[length].bits)))


def given(function, *names):
    return z3.And(*[truth(function.arguments[it]) for it in names])


def places(functions):
    """The functions that return a part of what was read."""
    f = functions["quic_wire_reset_token"]
    start, many, whole = field("frame->data"), field("frame->datalen"), f.arguments["payloadlen"].bits
    there = z3.And(given(f, "payload", "frame"), kind_is("NEW_CONNECTION_ID"),
                   z3.ULE(wide(start) + wide(many) + 16, wide(whole)))
    prove("a reset token: where it is whole", z3.Not(f.value.null) == there)
    prove("its place", z3.Implies(there, wide(f.value.offset) == wide(start) + wide(many)))
    f = functions["quic_wire_path_data"]
    end, whole = field("frame->end"), f.arguments["payloadlen"].bits
    there = z3.And(given(f, "payload", "frame"), z3.Or(kind_is("PATH_CHALLENGE"), kind_is("PATH_RESPONSE")),
                   z3.UGE(end, 8), z3.ULE(end, whole))
    prove("the bytes of a path: where they are whole", z3.Not(f.value.null) == there)
    prove("their place", z3.Implies(there, wide(f.value.offset) + 8 == wide(end)))
    f = functions["quic_wire_sample"]
    whole, number, many = [f.arguments[it].bits for it in ("packetlen", "number", "samplelen")]
    there = z3.And(given(f, "packet"), z3.ULE(wide(number) + 4 + wide(many), wide(whole)))
    prove("a sample: where it is whole", z3.Not(f.value.null) == there)
    prove("its place", z3.Implies(there, wide(f.value.offset) == wide(number) + 4))
    for name, long, short in (("quic_wire_dcid", 6, 1), ("quic_wire_scid", None, None)):
        f = functions[name]
        prove(f"{name}: of a header and a packet", z3.Not(f.value.null) == given(f, "packet", "header"))
        is_long = z3.Extract(7, 7, field("header->first")) == 1
        wanted = z3.If(is_long, z3.BitVecVal(6, WIDE), z3.BitVecVal(1, WIDE)) if long else wide(field("header->dcidlen")) + 7
        prove(f"{name}: its place", z3.Implies(given(f, "packet", "header"), wide(f.value.offset) == wanted))


def kind_is(name):
    return field("frame->kind") == CONSTANTS[f"QUIC_WIRE_FRAME_{name}"]


def paddings(functions):
    """A run of PADDING: a type of 1, 2, 4 or 8 bytes, as the two highest bits of the first say, and a byte each."""
    f = functions["quic_wire_padding_count"]
    bytes_within(f, "payloadlen")
    begin, end, whole = field("frame->begin"), field("frame->end"), f.arguments["payloadlen"].bits
    first = z3.Function("byte", z3.BitVecSort(64), z3.BitVecSort(8))(begin)
    type_len = z3.BitVecVal(1, WIDE) << wide(z3.LShR(first, 6))
    there = z3.And(given(f, "payload", "frame"), kind_is("PADDING"), z3.ULE(end, whole), z3.ULT(begin, end),
                   z3.ULE(wide(begin) + type_len, wide(end)))
    wanted = z3.If(there, wide(end) - wide(begin) - type_len + 1, z3.BitVecVal(0, WIDE))
    prove("how many PADDING frames a run has", wide(f.value.bits) == wanted)


def header_lens(functions):
    """How long a header is, for values that can be written: ids of at most 255 bytes, a token below 2^62."""
    f = functions["quic_wire_header_len"]
    dst, src, token = [f.arguments[it].bits for it in ("dcidlen", "scidlen", "tokenlen")]
    kind = field("fields->kind")
    number, length = wide(field("fields->numberlen")), wide(field("fields->lengthlen"))
    small = z3.And(z3.ULE(dst, 255), z3.ULE(src, 255), z3.ULT(token, z3.BitVecVal(1 << 62, 64)))
    one, two, four, eight = [z3.BitVecVal(it, WIDE) for it in (1, 2, 4, 8)]
    size = z3.If(z3.ULT(token, 1 << 6), one, z3.If(z3.ULT(token, 1 << 14), two, z3.If(z3.ULT(token, 1 << 30), four, eight)))
    ids = wide(dst) + wide(src) + 7
    numbered = ids + length + number
    with_token = numbered + size + wide(token)
    wanted = z3.If(kind == 0, with_token, z3.If(z3.ULE(kind, 2), numbered,
                   z3.If(kind == 4, wide(dst) + number + 1, ids)))
    prove("how long a header is", wide(f.value.bits) == z3.If(given(f, "fields"), wanted, z3.BitVecVal(0, WIDE)), small)


def short_numbers(functions):
    """A number of one byte: its two highest bits are 0, and the others are the number (RFC 9000, section 16)."""
    f = functions["quic_wire_varint_read"]
    bytes_within(f, "len")
    first = z3.Function("byte", z3.BitVecSort(64), z3.BitVecSort(8))(z3.BitVecVal(0, 64))
    is_given = given(f, "bytes", "value")
    there = z3.And(is_given, f.arguments["len"].bits != 0, z3.Extract(7, 6, first) == 0)
    (nothing, none, _), (path, many, stored) = f.early
    prove("no number is read from or to NULL", z3.And(nothing == z3.Not(is_given), none.bits == 0))
    prove("a number of one byte: where it is", path == there)
    prove("its length and its value", z3.And(many.bits == 1, wide(stored["value"].bits) == wide(first) & 0x3F), path)
    prove("others are read by the library", f.path == z3.And(is_given, z3.Not(there)))


TREE = parsed_header()
CONSTANTS = constants_of(TREE)
FIELDS = fields_of(TREE)
WITHOUT_A_CALL = ("padding_count", "reset_token", "path_data", "sample", "dcid", "scid", "header_len", "varint_read")


def main():
    bodies = {it.decl.name: it for it in TREE.ext if isinstance(it, c_ast.FuncDef)}
    functions = {f"quic_wire_{it}": Function(bodies[f"quic_wire_{it}"]) for it in WITHOUT_A_CALL}
    places(functions)
    paddings(functions)
    header_lens(functions)
    short_numbers(functions)


if __name__ == "__main__":
    main()
