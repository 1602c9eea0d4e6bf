"""C as a solver sees it: runs the functions of c/include/quic_wire_near.h for all arguments at once, one path after
another. Each path also has to keep what C requires: each pointer stays within its bytes, each byte that is read or
written is one of these, and no shift goes too far. z3 shows that at the path's end, with what is claimed there."""
import pathlib
import subprocess
import tempfile

import z3
from pycparser import c_ast, c_parser

TOP = pathlib.Path(__file__).resolve().parents[2]
HEADER = TOP / "c/include/quic_wire_near.h"
WIDE = 68
# How many bytes the payload has, how many there are to write to, and those of a mask for header protection.
LENGTHS = {"payload": z3.BitVec("payload length", 64), "dest": z3.BitVec("dest length", 64),
           "mask": z3.BitVecVal(5, 64)}
FIELDS = {"kind": 16, "type": 16, "flags": 32, "begin": 64, "end": 64, "data": 64, "datalen": 64}
SIGNED = {"int", "int32_t", "int64_t"}


class Wrong(Exception):
    """What was to be proved and is false, with values for which it is."""


class Leaves(Wrong):
    """What could be read and is left to the library, which isn't wrong."""


def number(value, width=64):
    return z3.BitVecVal(value, width)


def wide(bits):
    """A number in which nothing wraps."""
    return z3.ZeroExt(WIDE - bits.size(), bits)


def unknown(name, place, width):
    """What is at a place of the payload: any value, the same one if the place is the same sum."""
    return z3.BitVec(f"{name} at {z3.simplify(place).sexpr()}", width)


def byte_at(place, of="payload"):
    return unknown("byte" if of == "payload" else f"{of} byte", place, 8)


def read_tree(header, bits):
    """A header, for a machine whose pointers have that many bits, as a tree."""
    headers = {
        "stdint.h": "\n".join(
            [f"typedef unsigned {kind} uint{width}_t; typedef signed {kind} int{width}_t;"
             for width, kind in ((8, "char"), (16, "short"), (32, "int"), (64, "long long"))]
            + ["typedef unsigned long uintptr_t;", "#define UINT64_MAX 18446744073709551615ull"]),
        "stddef.h": "typedef unsigned long size_t;\n#define NULL ((void *)0)\n#define offsetof(a, b) 0\n",
    }
    with tempfile.TemporaryDirectory() as folder:
        for name, text in headers.items():
            pathlib.Path(folder, name).write_text(text)
        words = ["-E", "-P", "-undef", "-std=c99", "-nostdinc", "-I", folder, "-I", TOP / "c/include",
                 f"-D__SIZEOF_SIZE_T__={bits // 8}", "-DQUIC_WIRE_PLAIN", header]
        text = subprocess.run(["gcc", *words], check=True, stdout=subprocess.PIPE, text=True).stdout
    return c_parser.CParser().parse(text)


class Word:
    """A value of an integer type: its bits, and whether it has a sign."""

    def __init__(self, bits, signed=False):
        self.bits, self.signed = z3.simplify(bits), signed

    def to(self, width, signed=False):
        size = self.bits.size()
        if width <= size:
            return Word(z3.Extract(width - 1, 0, self.bits), signed)
        return Word((z3.SignExt if self.signed else z3.ZeroExt)(width - size, self.bits), signed)

    def promoted(self):
        return self.to(32, True) if self.bits.size() < 32 else self


class Pointer:
    """A pointer to a byte of LENGTHS, to a struct, or to a variable; perhaps NULL."""

    def __init__(self, to, offset=number(0), null=z3.BoolVal(False)):
        self.to, self.offset, self.null = to, z3.simplify(offset), null


NULL = Pointer(None, null=z3.BoolVal(True))


class Path:
    """How far a function ran: under which conditions, with which variables, what it has stored and called, and what has
    to hold for that."""

    def __init__(self, given=()):
        self.given, self.names, self.cells, self.needs = list(given), {}, {}, []
        self.frame, self.stored, self.called = {}, [], None

    def copy(self):
        one = Path(self.given)
        one.needs = list(self.needs)
        one.names, one.cells, one.frame = dict(self.names), dict(self.cells), dict(self.frame)
        one.stored, one.called = list(self.stored), self.called
        return one

    def need(self, claim, what):
        """What has to hold on this path, and so on each that goes on from here."""
        if not z3.is_true(claim := z3.simplify(claim)):
            self.needs.append((claim, what))

    def declare(self, name, kind, value):
        """A new variable of a type: a width and whether it has a sign, or nothing for a pointer."""
        self.names[name] = len(self.cells)
        self.cells[len(self.cells)] = (kind, value)

    def assign(self, cell, value):
        kind, _ = self.cells[cell]
        self.cells[cell] = (kind, value if kind is None else value.to(*kind))


def truth(value):
    return z3.Not(value.null) if isinstance(value, Pointer) else value.bits != 0


def as_int(held):
    return Word(z3.If(held, number(1, 32), number(0, 32)), True)


def balanced(left, right):
    """Both in the type that C computes them in."""
    left, right = left.promoted(), right.promoted()
    width = max(left.bits.size(), right.bits.size())
    unsigned = any(not it.signed and it.bits.size() == width for it in (left, right))
    return left.to(width, not unsigned), right.to(width, not unsigned)


COMPARED = {
    "==": lambda a, b, signed: a == b, "!=": lambda a, b, signed: a != b,
    "<": lambda a, b, signed: a < b if signed else z3.ULT(a, b),
    ">": lambda a, b, signed: a > b if signed else z3.UGT(a, b),
    "<=": lambda a, b, signed: a <= b if signed else z3.ULE(a, b),
    ">=": lambda a, b, signed: a >= b if signed else z3.UGE(a, b),
}


class Machine:
    """Runs functions. A contract says what a function does that was shown already, or that is the library's."""

    def __init__(self, tree, bits, contracts):
        self.bits, self.contracts, self.proofs = bits, contracts, 0
        self.first = None  # the first byte of the payload, if it is known
        self.widths = {"uint8_t": 8, "uint16_t": 16, "uint32_t": 32, "uint64_t": 64, "int64_t": 64, "size_t": bits,
                       "unsigned": 32, "int": 32, "quic_wire_size": 64}
        self.functions = {it.decl.name: it for it in tree.ext if isinstance(it, c_ast.FuncDef)}
        self.declared = {it.name: it.type for it in tree.ext
                         if isinstance(it, c_ast.Decl) and isinstance(it.type, c_ast.FuncDecl)}
        self.constants = constants_of(tree)
        # Bytes are at most half of what a pointer can reach, as in C.
        self.facts = [z3.ULT(it, number(1 << (bits - 1))) for it in LENGTHS.values()]

    def counterexample(self, given, claim):
        """Values for which a claim doesn't hold, or nothing if it holds for all."""
        steps = ("simplify", "propagate-values", "solve-eqs", "elim-uncnstr", "simplify", "bit-blast", "sat")
        solver = z3.Then(*steps).solver()
        solver.add(*self.facts, *given, z3.Not(claim))
        self.proofs += 1
        answer = solver.check()
        if answer == z3.unknown:
            raise Wrong(f"not decided: {solver.reason_unknown()}")
        return None if answer == z3.unsat else solver.model()

    def prove(self, path, claim, what):
        """Shows at the end of a path that this holds, and what had to hold before."""
        needs = [*path.needs, (claim, what)]
        if (model := self.counterexample(path.given, z3.And(*[each for each, _ in needs]))) is not None:
            failed = next(text for each, text in needs if not z3.is_true(model.eval(each, True)))
            raise Wrong(f"{failed}: not so for {model}")

    def split(self, path, held):
        """The path with a condition, and without it. It may be that there are no such values."""
        held = z3.simplify(held)
        for is_so, given in ((True, held), (False, z3.simplify(z3.Not(held)))):
            if not z3.is_false(given):
                one = path.copy()
                one.given += [] if z3.is_true(given) else [given]
                yield one, is_so

    def type_of(self, node):
        """A width and whether it has a sign, or nothing for a pointer."""
        if isinstance(node, c_ast.PtrDecl):
            return None
        name = node.type.names[-1]
        return self.widths[name], name in SIGNED

    # ---- calls

    def call(self, name, path, values):
        """The ways in which a function ends: for each the path, and what it returns."""
        if name in self.contracts:
            return self.contracts[name](self, path, *values)
        if name not in self.functions:
            return self.library_call(name, path, values)
        function = self.functions[name]
        outer, path.names = path.names, {}
        for given, value in zip(function.decl.type.args.params, values):
            kind = self.type_of(given.type)
            path.declare(given.name, kind, value if kind is None else value.to(*kind))
        kind, ends = self.type_of(function.decl.type.type), []
        for one, how in self.run(function.body, path):
            assert how and how[0] == "return", f"{name} ends without a result"
            one.names = dict(outer)
            ends.append((one, how[1] if kind is None else how[1].to(*kind)))
        return ends

    def library_call(self, name, path, values):
        """A call of the library, before which nothing may be stored or called."""
        path.need(z3.BoolVal(not (path.called or path.frame or path.stored)), f"{name} is called first")
        kind = self.type_of(self.declared[name].type)
        path.called = (name, values, Word(z3.BitVec(f"what {name} returns", kind[0]), kind[1]))
        return [(path, path.called[2])]

    # ---- statements: the ways in which each ends, with nothing, with a break or with a result

    def run(self, node, path):
        return getattr(self, f"run_{type(node).__name__}", self.run_expression)(node, path)

    def run_each(self, nodes, path):
        ways = [(path, None)]
        for node in nodes:
            ways = [way for one, how in ways for way in ([(one, how)] if how else self.run(node, one))]
        return ways

    def run_expression(self, node, path):
        return [(one, None) for one, _ in self.of(node, path)]

    def run_Compound(self, node, path):
        return self.run_each(node.block_items or [], path)

    def run_Decl(self, node, path):
        kind = self.type_of(node.type)
        if node.init is None:
            path.declare(node.name, kind, None)
            return [(path, None)]
        ways = []
        for one, value in self.of(node.init, path):
            one.declare(node.name, kind, value if kind is None else value.to(*kind))
            ways.append((one, None))
        return ways

    def run_If(self, node, path):
        ways = []
        for one, value in self.of(node.cond, path):
            for each, is_so in self.split(one, truth(value)):
                body = node.iftrue if is_so else node.iffalse
                ways += self.run(body, each) if body else [(each, None)]
        return ways

    def run_Return(self, node, path):
        return [(one, ("return", value)) for one, value in self.of(node.expr, path)]

    def run_Break(self, node, path):
        return [(path, ("break",))]

    def run_Switch(self, node, path):
        ways, cases = [], node.stmt.block_items
        labels = [int(it.expr.value, 0) if isinstance(it, c_ast.Case) else None for it in cases]
        for one, value in self.of(node.cond, path):
            for label in labels:
                is_it = value.promoted().bits == label if label is not None else z3.And(
                    *[value.promoted().bits != it for it in labels if it is not None])
                for each, is_so in self.split(one, is_it):
                    if is_so:
                        first = labels.index(label)
                        ways += self.run_each([it for case in cases[first:] for it in case.stmts], each)
        return [(one, None if how == ("break",) else how) for one, how in ways]

    # ---- expressions: for each way the path and the value

    def of(self, node, path):
        return getattr(self, f"of_{type(node).__name__}")(node, path)

    def of_Constant(self, node, path):
        text = node.value.rstrip("uUlL")
        width = 64 if "l" in node.value.lower() else 32
        return [(path, Word(number(int(text, 0), width), "u" not in node.value.lower()))]

    def of_ID(self, node, path):
        if node.name in self.constants:
            return [(path, Word(number(self.constants[node.name], 32), True))]
        value = path.cells[path.names[node.name]][1]
        assert value is not None, f"{node.name} isn't set"
        return [(path, value)]

    def of_Cast(self, node, path):
        is_void = getattr(node.to_type.type.type, "names", None) == ["void"]
        kind = None if is_void else self.type_of(node.to_type.type)
        return [(one, value.to(*kind) if kind else value if is_void or isinstance(value, Pointer) else NULL)
                for one, value in self.of(node.expr, path)]

    def of_FuncCall(self, node, path):
        ways = [(path, [])]
        for each in node.args.exprs:
            ways = [(one, [*values, value]) for before, values in ways for one, value in self.of(each, before)]
        return [way for one, values in ways for way in self.call(node.name.name, one, values)]

    def load(self, path, pointer):
        if isinstance(pointer.to, int):
            return path.cells[pointer.to][1]
        path.need(z3.And(z3.Not(pointer.null), z3.ULT(pointer.offset, LENGTHS[pointer.to])), f"a byte of {pointer.to}")
        if pointer.to == "dest":
            path.need(z3.And(*[pointer.offset != place for place, *_ in path.stored]), "a byte that isn't changed yet")
        is_first = z3.is_bv_value(pointer.offset) and pointer.offset.as_long() == 0
        known = self.first is not None and is_first and pointer.to == "payload"
        return Word(number(self.first, 8) if known else byte_at(pointer.offset, pointer.to))

    def store(self, path, pointer, value):
        """Stores a byte of dest, or a variable."""
        if isinstance(pointer.to, int):
            path.need(z3.Not(pointer.null), "a variable that isn't NULL")
            path.assign(pointer.to, value)
        else:
            assert pointer.to == "dest", f"{pointer.to} is written"
            path.need(z3.And(z3.Not(pointer.null), z3.ULT(pointer.offset, LENGTHS["dest"])), "a byte of dest")
            path.stored.append((pointer.offset, "byte", value.to(8).bits))

    def of_ArrayRef(self, node, path):
        return [(one, self.load(one, at)) for one, at in self.item(node, path)]

    def item(self, node, path):
        """The pointer to an item."""
        return [(two, self.moved(two, base, place)) for one, base in self.of(node.name, path)
                for two, place in self.of(node.subscript, one)]

    def moved(self, path, pointer, by, back=False):
        """A pointer that is so many bytes further, still within its bytes or at their end."""
        distance = by.to(64, by.signed).bits
        offset = pointer.offset - distance if back else pointer.offset + distance
        path.need(z3.And(z3.Not(pointer.null), z3.ULE(offset, LENGTHS[pointer.to])), "a pointer within its bytes")
        return Pointer(pointer.to, offset, pointer.null)

    def of_UnaryOp(self, node, path):
        if node.op == "&":
            return [(path, Pointer(path.names[node.expr.name]))]
        if node.op == "p++":
            cell = path.names[node.expr.name]
            kind, old = path.cells[cell]
            assert kind is None, "a number is counted"
            path.assign(cell, self.moved(path, old, Word(number(1))))
            return [(path, old)]
        return [(one, self.unary(node.op, one, value)) for one, value in self.of(node.expr, path)]

    def unary(self, op, path, value):
        if op == "*":
            return self.load(path, value)
        if op == "!":
            return as_int(z3.Not(truth(value)))
        assert op == "~", op
        return Word(~value.promoted().bits, value.promoted().signed)

    def of_TernaryOp(self, node, path):
        return [way for one, value in self.of(node.cond, path) for each, is_so in self.split(one, truth(value))
                for way in self.of(node.iftrue if is_so else node.iffalse, each)]

    def of_BinaryOp(self, node, path):
        ways = []
        for one, left in self.of(node.left, path):
            if node.op in ("&&", "||"):
                for each, is_so in self.split(one, truth(left)):
                    if is_so == (node.op == "||"):
                        ways.append((each, as_int(z3.BoolVal(is_so))))
                    else:
                        ways += [(two, as_int(truth(right))) for two, right in self.of(node.right, each)]
            else:
                ways += [(two, self.binary(node.op, two, left, right)) for two, right in self.of(node.right, one)]
        return ways

    def binary(self, op, path, left, right):
        if isinstance(left, Pointer) and isinstance(right, Pointer):
            assert left.to == right.to, "two pointers into different bytes"
            if op == "-":
                return Word(left.offset - right.offset, True).to(self.bits, True)
            return as_int(COMPARED[op](left.offset, right.offset, False))
        if isinstance(left, Pointer):
            return self.moved(path, left, right, back={"+": False, "-": True}[op])
        if op in ("<<", ">>"):
            return self.shifted(op, path, left.promoted(), right.promoted())
        left, right = balanced(left, right)
        a, b, signed = left.bits, right.bits, left.signed
        if op in COMPARED:
            return as_int(COMPARED[op](a, b, signed))
        if op in ("&", "|", "^"):
            return Word({"&": a & b, "|": a | b, "^": a ^ b}[op], signed)
        if signed:
            raise Wrong(f"{op} of numbers with a sign, which may go too far")
        return Word({"+": a + b, "-": a - b, "*": a * b, "/": z3.UDiv(a, b)}[op])

    def shifted(self, op, path, value, count):
        """A shift of a number without a sign, by fewer bits than it has."""
        width = value.bits.size()
        by = count.to(width).bits
        path.need(z3.ULT(by, number(width, width)), f"a shift by fewer than {width} bits")
        assert not value.signed, "a number with a sign is shifted"
        return Word(value.bits << by if op == "<<" else z3.LShR(value.bits, by))

    def of_Assignment(self, node, path):
        assert node.op == "=" or isinstance(node.lvalue, c_ast.ID), node.op
        ways = []
        for one, value in self.of(node.rvalue, path):
            target = node.lvalue
            if node.op != "=":
                value = self.binary(node.op[:-1], one, one.cells[one.names[target.name]][1], value)
            if isinstance(target, c_ast.ID):
                one.assign(one.names[target.name], value)
                ways.append((one, value))
            elif isinstance(target, c_ast.UnaryOp):
                for two, pointer in self.of(target.expr, one):
                    self.store(two, pointer, value)
                    ways.append((two, value))
            else:
                ways += self.assigned_part(target, one, value)
        return ways

    def assigned_part(self, target, path, value):
        """A member of a struct, or an item."""
        member, place = target, ""
        if isinstance(target, c_ast.ArrayRef):
            member, place = target.name, getattr(target.subscript, "value", "")
        if not isinstance(member, c_ast.StructRef):
            ways = self.item(target, path)
            for one, pointer in ways:
                self.store(one, pointer, value)
            return [(one, value) for one, _ in ways]
        struct, name = path.cells[path.names[member.name.name]][1], f"{member.field.name}{place}"
        assert struct.to in ("frame", "param"), "another struct"
        path.need(z3.Not(struct.null), f"a {struct.to} that isn't NULL")
        path.frame[name] = value.to(FIELDS.get(name, 64)).bits
        return [(path, value)]


def constants_of(tree):
    found = {}
    for each in tree.ext:
        kind = getattr(getattr(getattr(each, "type", None), "type", None), "values", None)
        for item in kind.enumerators if kind else []:
            sign, value = (-1, item.value.expr) if isinstance(item.value, c_ast.UnaryOp) else (1, item.value)
            found[item.name] = sign * int(value.value.rstrip("uUlL"), 0)
    return found
