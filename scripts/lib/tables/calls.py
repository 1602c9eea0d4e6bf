"""What c/include/quic_wire_inline.h has of the proved functions: their declarations, and the functions of quic_wire.h
that check pointers and call these. A function that the file defines by hand isn't made."""
import re

from lib.tables import c, proved
from lib.tables.compared import uncommented
from lib.tables.formats import HEADER, read

PATH = "c/include/quic_wire_inline.h"
# Pointers that must not be NULL even if their length is 0: to packets, headers and packet numbers, and to payloads of
# which an ACK's ranges are read.
NEVER_NULL = {
    "packet": ["short_read", "negotiation_read", "unprotect", "unprotect_copy", "protect", "set_len"],
    "bytes": ["header_read", "number_read", "packet_fields"],
    "payload": ["ack_ranges_init", "ack_ranges_next", "ack_ranges_fill"],
    "dest": ["number_write", "varint_write", "unprotect_copy"],
}
# Outputs that may be NULL.
OPTIONAL = {"written": ["frame_header_write"], "refusal": ["params_read"]}
# The size of the struct before it, which is compared and not passed.
SIZE = ("size_t", "size")
# Those whose proved function takes the other side.
GIVEN_READER = ["params_write", "params_write_with", "params_write_fault"]


def same(kind):
    """A type by the name that the proved functions have for it."""
    return "int32_t" if kind == "int" else kind


def functions(source, end):
    """The functions of a header that end so: of each what it returns, its name without quic_wire_, and its arguments,
    each with its type and name."""
    front = rf"QUIC_WIRE_API ([^;()]*?) ?quic_wire_(\w+)\(([^)]*)\){end}"
    for result, name, arguments in re.findall(front, " ".join(source.split())):
        yield result, name, [re.fullmatch(r" ?(.*?) ?(\w+)", it).groups() for it in arguments.split(",")]


def opening(result, name, arguments, front="QUIC_WIRE_API"):
    """The first lines of a function. Its result is in a line of its own if that saves two lines or more."""
    words = [f"{kind}{'' if kind.endswith('*') else ' '}{word}" for kind, word in arguments]
    beside = c.wrapped(f"{front} {result} quic_wire_{name}(", words, ") {")
    above = f"{front} {result}\n" + c.wrapped(f"quic_wire_{name}(", words, ") {")
    fits = all(len(line) <= c.WIDTH for line in beside.splitlines())
    return beside if fits and beside.count("\n") <= above.count("\n") + 1 else above


def checks(result, name, passed, kinds):
    """What a function does before it calls the proved one, which accepts no NULL for pointers of these kinds."""
    error = "0" if result == "size_t" else "QUIC_WIRE_ERR_ARGUMENT"
    variable, missing, replaced, rest = "", [], "", iter(passed)
    for kind in kinds:
        (of, word), *length = (next(rest) for _ in kind)
        if name in OPTIONAL.get(word, []):
            variable = f"  {of.removesuffix(' *')} unused;\n"
            replaced += f"  if (!{word})\n    {word} = &unused;\n"
        elif length and name not in NEVER_NULL.get(word, []):
            replaced += (f"  if (!{word}) {{\n    if ({length[0][1]})\n      return {error};\n"
                         f"    {word} = ({of})quic_wire_nothing_();\n  }}\n")
        elif of.endswith("*"):
            missing.append(f"!{word}")
    if missing:
        variable += c.wrapped("  if (", missing, ")", " ||") + f"    return {error};\n"
    return variable + replaced


def function(result, name, arguments, proved_result, kinds):
    """A function of quic_wire.h that calls the proved one with its own arguments."""
    passed = [it for it in arguments if it != SIZE]
    assert [same(of) for of, _ in passed] == sum(kinds, []), f"{name} has other arguments than {name}_"
    body = checks(result, name, passed, kinds)
    if SIZE in arguments:
        struct = arguments[arguments.index(SIZE) - 1][1]
        body += f"  if (size != sizeof *{struct})\n    return QUIC_WIRE_ERR_LENGTH;\n"
    given = [word for _, word in passed]
    if name in GIVEN_READER:
        body += "  /* The proved function takes the side that reads. */\n"
        given[given.index("side")] = "side ^ 1"
    cast = "" if same(result) == proved_result else f"({result})"
    body += c.wrapped(f"  return {cast}quic_wire_{name}_(", given, ");")
    return f"{opening(result, name, arguments)}{body}}}\n"


def made(_):
    """The file, in which the proved functions are declared as the crates define them, and called."""
    source, calls = read(PATH), {name: it for name, *it in proved.calls()}
    by_hand = {name for _, name, _ in functions(c.without_blocks(source), " {")}
    declarations = (c.wrapped(f"{result} {name}(", sum(kinds, []), ");") for name, (result, kinds) in calls.items())
    wrappers = (function(result, name, arguments, *calls[f"quic_wire_{name}_"])
                for result, name, arguments in functions(uncommented(HEADER), ";") if name not in by_hand)
    return c.with_blocks(source, ["".join(declarations), "\n".join(wrappers)])
