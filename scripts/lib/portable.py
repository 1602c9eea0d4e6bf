#!/usr/bin/env python3
"""Makes quic_wire_proved.c from what wasm2c printed for one module that was linked twice, for stacks of 64 KiB and of
128 KiB: the functions that c/include/quic_wire_inline.h declares with an underscore at their end, and those that they
call, as C that works on the caller's own memory. Each number in which the two differ is the address of constant data,
which become an array. The stack pointer becomes an argument, and each call from outside has a stack of exactly the
bytes that it can use. What the generated C has no name for is in quic_wire_portable.h. Input of another form than
expected ends the script with a message.

scripts/lib/portable.py HEAD FIRST.c SECOND.c INCLUDE >quic_wire_proved.c

HEAD is a file with lines for the comment at the head, INCLUDE the folder of the header.
"""
import collections
import os
import re
import sys

DATA_AT = 65536  # where the data of the first module begin
STEP = 65536  # how much further those of the second do
MEMORY = "wasm_rt_local_memory_base, wasm_rt_local_memory_size, &instance->w2c_memory, "
PREFIX = "w2c_quicwire_"
ALONE = {"quic_wire_header_fields"}  # structs of which there is one, though a length of something else follows

Function = collections.namedtuple("Function", "returns arguments body")
Export = collections.namedtuple("Export", "returns name arguments function")
Data = collections.namedtuple("Data", "content pointers")


def need(is_so, what):
    if not is_so:
        sys.exit(f"portable: {what}")


def read(path):
    with open(path, encoding="utf-8") as it:
        return it.read()


# ---- What wasm2c printed.


def functions_of(text):
    """Each function of the module by its name."""
    found = re.finditer(
        rf"^(u32|u64|void) ({PREFIX}\w+)\({PREFIX[:-1]}\* instance(.*?)\) \{{\n(.*?)^\}}", text, re.M | re.S
    )
    return {m[2]: Function(m[1], " ".join(m[3].split()), unchecked(m[4])) for m in found}


def data_of(text):
    """The bytes of the module's one segment of data."""
    segments = re.findall(r"data_segment_data_\w+\[\] = \{(.*?)\}", text, re.S)
    need(len(segments) == 1, f"{len(segments)} segments of data")
    need(f", {DATA_AT}ull, data_segment_data_" in text or f", {DATA_AT + STEP}ull, data_segment_data_" in text,
         "the data lie elsewhere")
    return bytes(int(n, 16) for n in re.findall(r"0x(\w\w)", segments[0]))


def word(content, at):
    return int.from_bytes(content[at : at + 8], "little")


def joined_data(first, second):
    """The data, in which each pointer to data is an offset in them. The data of both modules are the same except for
    pointers, which differ by the step."""
    need(len(first) == len(second), "the data differ in length")
    pointers = {}
    for at in range(len(first) - 7):
        target = word(first, at)
        if DATA_AT <= target < DATA_AT + len(first) and word(second, at) == target + STEP:
            pointers[at] = target - DATA_AT
    plain, other = bytearray(first), bytearray(second)
    for at, target in pointers.items():
        plain[at : at + 8] = other[at : at + 8] = target.to_bytes(8, "little")
    need(plain == other, "the data differ in more than pointers")
    return Data(bytes(plain), pointers)


# ---- What the header declares.


def exports_of(header, functions):
    """The functions of the proved library that quic_wire_inline.h declares, each with its function in the module."""
    found = re.findall(r"^(\w+) (quic_wire_\w+_)\(([^;]*?)\);", header, re.M | re.S)
    exports = []
    for returns, name, arguments in found:
        inside = f"{PREFIX}{name[:-1]}0x5F"
        inside = inside if inside in functions else inside + "_0"
        need(inside in functions, f"the module has no {name}")
        exports.append(Export(returns, name, [" ".join(it.split()) for it in arguments.split(",")], inside))
    need(exports, "quic_wire_inline.h declares nothing")
    return exports


def layouts_of(header):
    """For each struct, as it is without unions, the sizes of its numbers in turn, a letter each: b, h, l, q of 1, 2, 4
    and 8 bytes."""
    letters = {"uint8_t": "b", "uint16_t": "h", "uint32_t": "l", "uint64_t": "q", "quic_wire_size": "q", "size_t": "q"}
    header = re.sub(r"/\*.*?\*/|QUIC_WIRE_ALIGNED", "", header, flags=re.S)
    header = re.sub(r"^#ifdef QUIC_WIRE_PLAIN\n(.*?)^#else\n.*?^#endif\n", r"\1", header, flags=re.M | re.S)
    found = {}
    for name, body in re.findall(r"^typedef struct (\w+) \{(.*?)^\} *\w+;", header, re.M | re.S):
        layout = ""
        for kind, fields in re.findall(r"(\w+)\s+([^;{}]*);", body):
            need(kind in letters, f"{name} has a {kind}")
            for field in fields.split(","):
                count = re.search(r"\[(\d+)\]", field)
                layout += letters[kind] * int(count[1] if count else 1)
        found[name] = layout
    return found | {"uint32_t": "l", "uint64_t": "q"}


# ---- Which functions, and how much stack they take.


def calls_of(functions):
    """The functions that each calls."""
    called = re.compile(rf"\b({PREFIX}\w+)\(")
    return {name: [it for it in dict.fromkeys(called.findall(f.body)) if it in functions]
            for name, f in functions.items()}


def reached(roots, calls):
    """What is called from the roots, in any order."""
    found, todo = set(), list(roots)
    while todo:
        name = todo.pop()
        if name not in found:
            found.add(name)
            todo += calls[name]
    return found


POINTER = "instance->w2c_0x5F_stack_pointer"
# How a function reads the stack pointer, and perhaps lowers it; then it may check that enough is left of the stack.
READS = re.compile(
    rf"var_j\d = {POINTER};\n"
    rf"(?:\s*(?:var_[jl]\d+ = (?:var_[jl]\d+|\d+ull)|var_j\d -= var_j\d|{POINTER} = var_j\d);\n)*"
)
CHECK = re.compile(
    rf"({READS.pattern})(?<=16ull;\n)\s*(var_i\d) = \(u64\)\(\(s64\)var_j\d < \(s64\)var_j\d\);\n"
    rf"\s*if \(\2\) {{goto var_B\d+;}}\n"
)
# How a function that the module exports refuses a call during a call.
ENTERS = re.compile(
    rf"\s*var_i0 = {PREFIX}0x5F_rattle_enter\(instance\);\n\s*var_i0 = !\(var_i0\);\n"
    rf"\s*if \(var_i0\) {{goto var_B0;}}\n\s*{PREFIX}0x5F_rattle_trap\(instance\);\n\s*UNREACHABLE;\n"
)
LEAVES = re.compile(rf"\s*{PREFIX}0x5F_rattle_leave\(instance\);\n")
# How it restores the pointer.
RESTORES = re.compile(rf"(var_j\d) (?:= var_l\d+|\+= var_j\d);\n\s*{POINTER} = \1;")


def unchecked(body):
    """A function without the checks that each call from outside needs none of: it has a stack of its own, of the size
    that it needs."""

    def without_check(found):
        head = found[1]
        needs_it = "-=" in head or "var_l" in head
        return head[: head.rindex("\n", 0, -1) + 1] if needs_it else ""

    body = LEAVES.sub("\n", ENTERS.sub("\n", CHECK.sub(without_check, body)))
    body = re.sub(r"\n\s*(var_B\d+):;(?=\n)", lambda it: it[0] if f"goto {it[1]};" in body else "", body)
    return re.sub(r"^  (u32|u64) (var_[ij][^;()]*);\n", lambda it: declared(*it.groups(), body), body, flags=re.M)


def declared(kind, names, body):
    """The declaration of those of these variables that a function has."""
    used = [it for it in names.replace("\n", "").split(",") if len(re.findall(rf"\b{it.strip()}\b", body)) > 1]
    return f"  {kind} {', '.join(it.strip() for it in used)};\n" if used else ""


def frame_of(name, body):
    """The bytes of stack that a function itself uses, at most."""
    reads = [it[0] for it in READS.finditer(body)]
    known = sum(it.count(POINTER) for it in reads) + len(RESTORES.findall(READS.sub("", body)))
    need(known == body.count(POINTER) and len(reads) == body.count(f"= {POINTER};"), f"the stack of {name}")
    lowered = [int(size) for it in reads for size in re.findall(r"\bvar_j\d = (\d+)ull;\n\s*var_j\d -= ", it)]
    need(sum(lowered) % 16 == 0, f"the stack of {name} isn't aligned")
    return sum(lowered)


def depth_of(name, frames, calls, above=()):
    """The bytes of stack that a function uses with all that it calls. One that calls itself, which here goes as deep as
    a table has rows, gives each such call a stack of its own."""
    need(name not in above, f"{name} calls itself by way of another function")
    others = set(calls[name]) - {name}
    return frames[name] + max((depth_of(it, frames, calls, above + (name,)) for it in others), default=0)


def short_names(order, exports):
    """A name in C for each function, from its path in the source."""
    outside = {it.function for it in exports}
    names = {}
    for function in order:
        name = re.sub(r"_0$", "", function[len(PREFIX) :])
        name = re.sub(r"0x23([0-9a-f]{4})[0-9a-f]*?0x", r"0x5F\1_0x", name)  # of a type's number four digits
        name = re.sub("_+", "_", re.sub(r"0x[0-9A-F]{2}", "_", name)).strip("_")
        name = "qw_" + (name.removeprefix("quic_wire_") if function in outside else name)
        taken, tries = set(names.values()), 1
        while name in taken:
            tries += 1
            name = re.sub(r"(_\d+)?$", f"_{tries}", name, count=1) if tries > 2 else f"{name}_2"
        names[function] = name
    return names


# ---- A function, translated.


class Translation:
    """The statements of the module's functions as C on the caller's memory."""

    def __init__(self, data, names, depths):
        self.data, self.names, self.depths, self.name = data, names, depths, None

    def address(self, first, second):
        """A line in whose two forms an address of data differs, with the address's offset in the data."""
        parts, others = (re.split(r"(\b\d+(?=u))", line) for line in (first, second))
        need(len(parts) == len(others) and parts[::2] == others[::2], f"two lines differ: {first}")
        for at in range(1, len(parts), 2):
            if parts[at] == others[at]:
                continue
            place = int(parts[at]) - DATA_AT
            need(int(others[at]) == int(parts[at]) + STEP and 0 <= place <= len(self.data.content),
                 f"two numbers differ: {first}")
            parts[at], parts[at + 1] = f"DATA({place}", re.sub(r"^u(ll)?", ")", parts[at + 1])
        return "".join(parts)

    def pointers_moved(self, line):
        """A load of a pointer that is among the data, where it is kept as an offset in them."""
        for place in map(int, re.findall(r"DATA\((\d+)\)", line)):
            if place in self.data.pointers:
                line, count = re.subn(rf"(i64_load\(\([^()]*DATA\({place}\)\)\))", r"(DATA(0) + \1)", line)
                need(count == 1, f"a pointer is not loaded as it is known here: {line}")
        return line

    def called(self, found):
        """The beginning of a call: with the stack pointer for a function that takes a stack."""
        stack = "stack" if found[1] == self.name else "sp"
        return self.names[found[1]] + (f"({stack}, " if self.depths[found[1]] else "(")

    def statement(self, first, second):
        line = first if first == second else self.address(first, second)
        for machine in (MEMORY, "&instance->w2c_memory, &instance->w2c_memory, ", "&instance->w2c_memory, "):
            line = line.replace(machine, "")
        line = re.sub(r"checked_add_u64\((\w+), ([^()]*(?:\(\d+\))?)\)", r"(\1 + \2)", line)
        line = line.replace("(u64)(var_j", "(var_j").replace("(u64)((", "((")
        line = self.pointers_moved(line)
        line = line.replace(POINTER, "sp")
        line = re.sub(rf"\b({PREFIX}\w+)\(instance(?:, )?", self.called, line)
        line = re.sub(r"\bvar_(\w+)", r"\1", line)
        need("instance" not in line and "wasm" not in line, f"not known here: {line}")
        return line

    def body(self, name, first, second):
        self.name, depth = name, self.depths[name]
        if not depth:
            # A function without a stack has no pointer to it.
            first, second = (re.sub(rf"\n\s*{POINTER} = .*", "", it).replace(POINTER, "0ull") for it in (first, second))
        lines, others = first.split("\n"), second.split("\n")
        need(len(lines) == len(others), "a function differs")
        kept = []
        for line, other in zip(lines, others):
            is_machine = "wasm_rt_local_memory" in line and MEMORY not in line
            if line.strip() not in ("FUNC_PROLOGUE;", "FUNC_EPILOGUE;") and not is_machine:
                kept.append(self.statement(line, other))
        body = "\n".join(kept)
        return f"  STACK({depth // 8})\n{body}" if f"{self.names[name]}(stack, " in body else body


# ---- Pointers among the data that are loaded by an address in a variable.

MOVED = "(DATA(0) + i64_load("


def holders_of(data, bodies):
    """The addresses in functions after which pointers are, up to the next address."""
    addresses = sorted({int(place) for body in bodies.values() for place in re.findall(r"DATA\((\d+)\)", body)})
    return {max((it for it in addresses if it <= place), default=0) for place in data.pointers}


def checked_loads(holders, body):
    """A function that has such an address, other than to load a pointer at once: whatever it loads may be a pointer."""
    rest = re.sub(rf"{re.escape(MOVED)}\([^;]*", "", body)
    if holders.isdisjoint(map(int, re.findall(r"DATA\((\d+)\)", rest))):
        return body
    return re.sub(r"(?<!DATA\(0\) \+ )\bi64_load\(", "data_word(", body)


# ---- Comparisons of arrays, byte by byte, which no C compiler makes wider.

GUARD = ["i0 = 0u;", "l3 = i0;", "i0 = p0;", "i0 = !(i0);", "if (i0) {goto B0;}"]
LAST = ["l3 = i0;", "B0:;", "i0 = l3;", "i1 = 1u;", "i0 &= i1;", "return i0;"]
STEP_OF = re.compile(r"(\w+) (\+|\||\^)?= (?:(\d+)u(?:ll)?|(\w+)|i32_load8_u\(\((\w+)\)\)|(\w+) != (\w+));")


def stepped(values, line):
    """Sets what a line says about a value: a number; an address, as a parameter and a number; a byte there; at which
    offsets the bytes of p1 and p2 are compared, and whether the value says that one differs or that none does. Returns
    whether the line is one of these."""
    found = STEP_OF.fullmatch(line)
    if not found:
        return False
    to, sign, number, name, address, left, right = found.groups()
    value = ("number", int(number)) if number else values.get(name or address or left)
    if left:
        pair = (value or ("",), values.get(right, ("",)))
        is_pair = [it[:2] for it in pair] == [("byte", "p1"), ("byte", "p2")] and pair[0][2] == pair[1][2]
        value = ("differs", {pair[0][2]}) if is_pair else None
    elif address:
        value = ("byte", *value[1:]) if value and value[0] == "address" else None
    elif sign:
        before = values.get(to)
        kinds = (before and before[0], sign, value and value[0])
        value = {
            ("address", "+", "number"): lambda: ("address", before[1], before[2] + value[1]),
            ("differs", "|", "differs"): lambda: ("differs", before[1] | value[1]),
            ("differs", "^", "number"): lambda: ("same", before[1]) if value[1] == 1 else None,
        }.get(kinds, lambda: None)()
    values[to] = value
    return value is not None


def comparison(head, body):
    """The body of a function that says whether p0 isn't 0 and arrays at p1 and p2 are the same, in one call if it does
    nothing else, or None."""
    lines = [line.strip() for line in body.strip().split("\n") if not re.match(r"\s*u(32|64) ", line)]
    steps = lines[len(GUARD) : -len(LAST)]
    if not head.endswith("(u32 p0, u64 p1, u64 p2)") or lines != GUARD + steps + LAST:
        return None
    values = {"p1": ("address", "p1", 0), "p2": ("address", "p2", 0)}
    if not all(stepped(values, line) for line in steps):
        return None
    kind, places = values.get("i0")
    is_whole = kind == "same" and places == set(range(len(places)))
    return f"  return p0 && memory_same(p1, p2, {len(places)});\n" if is_whole else None


def head_of(function, name, depth):
    arguments = function.arguments.replace("var_", "")
    arguments = f"u64 sp{arguments}" if depth else arguments.removeprefix(", ") or "void"
    return f"static {function.returns} {name}({arguments})"


def unused(head, body):
    """Lines that name the parameters that a function doesn't use, so that no compiler warns of them."""
    names = re.findall(r"(\w+)(?=[,)])", head[head.index("(") :])
    return "".join(f"  (void){it};\n" for it in names if it != "void" and not re.search(rf"\b{it}\b", body))


# ---- The functions that are called from outside.


def argument(index, kinds, layouts):
    """What a function from outside does with an argument before the call, in it and after it."""
    kind = kinds[index]
    plain = kind.replace("const ", "").rstrip("* ")
    if not kind.endswith("*"):
        return "", f"(u64)a{index}" if plain == "size_t" else f"a{index}", ""
    if plain == "size_t":
        return f"LENGTH_IN({index})", f"LENGTH({index})", f"LENGTH_OUT({index})"
    if plain == "uint8_t":
        return "", f"AT(a{index})", ""
    need(plain in layouts, f"an argument {kind}")
    is_many = plain not in ALONE and index + 1 < len(kinds) and kinds[index + 1] == "size_t"
    count, layout = f"a{index + 1}" if is_many else "1", layouts[plain]
    if not kind.startswith("const"):
        turn = f'TURN({index}, {count}, {plain}, "{layout}")'
        return turn, f"AT(a{index})", turn
    if is_many:
        return f'MANY_IN({index}, {plain}, {count}, "{layout}")', f"MANY({index})", f"MANY_OUT({index})"
    return f'ONE_IN({index}, {plain}, "{layout}")', f"ONE({index})", ""


def outside(export, name, depth, layouts):
    """A function that the header declares: a stack, its arguments, and the call of the module's."""
    kinds = [] if export.arguments == ["void"] else export.arguments
    declared = ", ".join(f"{it}{'' if it.endswith('*') else ' '}a{n}" for n, it in enumerate(kinds)) or "void"
    parts = [argument(n, kinds, layouts) for n in range(len(kinds))]
    call = ", ".join([*(["stack"] if depth else []), *(it[1] for it in parts)])
    lines = [f"STACK({depth // 8})" if depth else "", *(it[0] for it in parts)]
    lines += [f"const {export.returns} answer = ({export.returns}){name}({call});", *(it[2] for it in parts)]
    body = "".join(f"  {line}\n" for line in lines if line)
    return f"{export.returns} {export.name}({declared}) {{\n{body}  return answer;\n}}"


def asserted(exports, layouts):
    """That the structs are as long as their layouts say."""
    sizes = {"b": 1, "h": 2, "l": 4, "q": 8}
    used = {it.replace("const ", "").rstrip("* ") for export in exports for it in export.arguments}
    for name in sorted(used & layouts.keys()):
        size = sum(map(sizes.get, layouts[name]))
        yield f"typedef char qw_size_of_{name}[sizeof({name}) == {size} ? 1 : -1];"


# ---- The file.


# A load of eight bytes that may be a pointer among the data, where it is kept as an offset in them.
DATA_WORD = """
static u64 data_word(u64 at) {
  const u64 place = at - DATA(0), value = i64_load(at);
  size_t which;
  if (place < sizeof data.bytes)
    for (which = 0; which < sizeof pointers / sizeof pointers[0]; which++)
      if (place == pointers[which])
        return DATA(0) + value;
  return value;
}
"""


def rows_of(numbers, count):
    return "".join(f"  {' '.join(f'{n},' for n in numbers[at : at + count])}\n" for at in range(0, len(numbers), count))


def array_of(data):
    bytes_of = f"static const union {{ u8 bytes[{len(data.content)}]; u64 aligned; }} data = {{ {{\n"
    return (f"{bytes_of}{rows_of(data.content, 24)}}} }};\n#define DATA(n) (AT(data.bytes) + (n))\n"
            f"static const u32 pointers[] = {{\n{rows_of(sorted(data.pointers), 16)}}};\n{DATA_WORD}")


def file_of(head, first, second, include):
    """The whole file, of the texts that wasm2c printed."""
    functions, others = functions_of(first), functions_of(second)
    need(functions.keys() == others.keys(), "the modules have other functions")
    exports = exports_of(read(f"{include}/quic_wire_inline.h"), functions)
    layouts = layouts_of(read(f"{include}/quic_wire.h"))
    calls = calls_of(functions)
    below = reached([it.function for it in exports], calls)
    order = [name for name in functions if name in below]
    frames = {name: frame_of(name, functions[name].body) for name in order}
    names = short_names(order, exports)
    data = joined_data(data_of(first), data_of(second))
    depths = {name: depth_of(name, frames, calls) for name in order}
    translation = Translation(data, names, depths)
    bodies = {name: translation.body(name, functions[name].body, others[name].body) for name in order}
    holders = holders_of(data, bodies)
    bodies = {name: checked_loads(holders, body) for name, body in bodies.items()}
    heads = {name: head_of(functions[name], names[name], depths[name]) for name in order}
    bodies = {name: comparison(heads[name], body) or body for name, body in bodies.items()}
    parts = [f"/* SPDX-License-Identifier: MIT OR Apache-2.0 */\n/*\n{head} */\n#define QUIC_WIRE_INLINE\n"
             '#include "quic_wire.h"\n#include "quic_wire_portable.h"\n']
    parts += [*asserted(exports, layouts), "", array_of(data)]
    parts += [heads[name] + ";" for name in order] + [""]
    parts += [f"{heads[name]} {{\n{unused(heads[name], bodies[name])}{bodies[name]}}}\n" for name in order]
    parts += [outside(it, names[it.function], depths[it.function], layouts) for it in exports]
    print(f"{len(order)} of {len(functions)} functions, at most {max(depths.values())} bytes of stack", file=sys.stderr)
    return "\n".join(parts) + "\n"


def main():
    if sys.argv[1:] in (["-h"], ["--help"]):
        print(__doc__.strip())
        return
    if len(sys.argv) != 5 or not all(map(os.path.exists, sys.argv[1:])):
        print("usage: scripts/lib/portable.py HEAD FIRST.c SECOND.c INCLUDE", file=sys.stderr)
        sys.exit(2)
    head = "".join(f" * {line}".rstrip() + "\n" for line in read(sys.argv[1]).splitlines())
    sys.stdout.write(file_of(head, read(sys.argv[2]), read(sys.argv[3]), sys.argv[4]))


main()
