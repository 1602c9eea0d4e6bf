"""web/layout.js: what the page knows of the header for C and of the proved functions."""
import re

from lib.tables import compared, proved
from lib.tables.formats import HEADER, filled, read

PATH = "web/layout.js"
BEGIN = f"""// Structs and constants of {HEADER} and arguments of calls, as they are in the module for callers of C,
// whose pointers and sizes have 64 bits. The page uses the constants.
// Made by scripts/make/tables from the header and the crates: change nothing here. scripts/check/browsers compares the structs
// with what layout.c prints.

"""
# The structs that a caller needs to read bytes, and those of which it needs only the size.
STRUCTS = ["frame_iter", "frame", "range", "range_iter", "canon", "header", "params", "refusal", "span", "fields"]
WITHOUT_FIELDS = {"params"}
# The functions with which it does.
CALLS = {
    "frames_init", "frames_fill", "frame_read", "ack_ranges_init", "ack_ranges_fill", "canonical", "varint_read",
    "varint_len", "frame_fields", "packet_fields", "param_fields", "param_value_fields", "header_read",
    "unprotect_copy", "params_read",
}
# The constants, by the page's names for them.
CONSTANTS = {
    "What calls return": {
        "OK": "OK", "ITEM": "ITEM", "REASON_MALFORMED": "ERR_FRAME_MALFORMED",
        "REASON_LONG_TYPE": "ERR_FRAME_LONG_TYPE", "REASON_LIMIT": "ERR_FRAME_LIMIT",
        "PACKET_FIXED_BIT": "ERR_PACKET_FIXED_BIT", "PACKET_MALFORMED_CID": "ERR_PACKET_CID",
        "PACKET_UNSUPPORTED_VERSION": "ERR_PACKET_VERSION", "PACKET_CUT": "ERR_PACKET_CUT",
        "PACKET_RETRY": "ERR_PACKET_RETRY", "PARAMS_MALFORMED": "ERR_PARAMS_MALFORMED",
        "PARAMS_ILLEGAL": "ERR_PARAMS_ILLEGAL",
    },
    "Kinds of frames": {"PADDING": "FRAME_PADDING", "ACK": "FRAME_ACK"},
    "Kinds of packets": {
        "INITIAL": "PACKET_INITIAL", "HANDSHAKE": "PACKET_HANDSHAKE", "RETRY": "PACKET_RETRY", "SHORT": "PACKET_1RTT",
        "VERSION_NEGOTIATION": "PACKET_VERSION_NEGOTIATION",
    },
    "A bit of a first byte": {"LONG_FORM": "BIT_LONG"},
}


def struct(name, places):
    known = {} if name in WITHOUT_FIELDS else places
    fields = [f"{of}: [{at}, {width * count}]" for of, (at, width, count) in known.items()]
    members = [f"size: {proved.size(places)}", f"fields: {filled('{', fields, '}', '    ', '  ')}"]
    return f"  {name}: {filled('{', members, '}', '  ', '  ')},\n"


def calls():
    """The bits of each argument of the functions."""
    for name, _, kinds in proved.calls():
        short = name.removeprefix("quic_wire_").rstrip("_")
        if short in CALLS:
            bits = (64 if it.endswith("*") or it in ("size_t", "uint64_t") else 32 for it in sum(kinds, []))
            yield f"  {short}: [{', '.join(map(str, bits))}],\n"


def constants(words):
    source = read(HEADER)
    for name, word in words.items():
        number = re.search(rf"^(?:#define|  ?) *QUIC_WIRE_{word} (?:= )?(-?\w+)", source, re.M)[1].rstrip("u")
        yield f"export const {name} = {number};\n"


def made(_):
    declared = compared.c_structs()
    return (
        f"{BEGIN}// For each struct its size, and for each field its offset and how many bytes it has; for an array,"
        " all of them.\nexport const LAYOUT = {\n" + "".join(struct(name, declared[name]) for name in STRUCTS) + "};\n\n"
        "// For each call the bits of its arguments.\nexport const CALLS = {\n" + "".join(calls()) + "};\n"
        + "".join(f"\n// {what}.\n{''.join(constants(words))}" for what, words in CONSTANTS.items()))
