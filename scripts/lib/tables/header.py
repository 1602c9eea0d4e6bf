"""The constants, the transport parameters and the layout of structs in c/include/quic_wire.h."""
import re

from lib.tables import c, proved
from lib.tables.formats import HEADER as PATH, bound_of, read

# Results that are no errors, and an error that only the header itself has.
SUCCESSES = [
    ("OK", 0, "reading is complete, or something was written"), ("ITEM", 1, "an item was read"),
    ("CHANGED", 1, "the set changed"),
]
LIBRARY = {"number": -10, "name": "LIBRARY"}
# What is said before the first of some errors, and of each error besides where an RFC has it.
GROUPS = {
    "ARGUMENT": "The caller's mistakes.",
    "PAYLOAD_EMPTY": "A payload is rejected (RFC 9000, sections 12.4 and 19).",
    "FRAME_PACKET":
        "A frame isn't permitted.  Only quic_wire_type_permitted and quic_wire_frame_permitted return these.",
    "PACKET_END": "A packet is dropped (section 5.2).",
    "PARAMS_MALFORMED": "A list of transport parameters is rejected (section 7.4).",
}
ERRORS = {
    "ARGUMENT": "a pointer is NULL, or the arguments describe nothing that can be written",
    "PLACE": "an offset is outside the bytes, or the function can't read what is there",
    "KIND": "there is no such kind or side, or the function doesn't accept it",
    "NUMBER": "a number is out of range, such as above 2^62 - 1",
    "LENGTH": "a length or width is impossible for its field",
    "RANGES": "there are no ranges, or they aren't sorted, or two of them touch",
    "PARAM": "the peer would reject the transport parameters",
    "NOBUF": "the buffer is too small",
    "LIBRARY": "the linked library doesn't fit this header",
    "FRAME_END": "the bytes end within a frame",
    "FRAME_TYPE": "the type is unknown",
    "FRAME_MALFORMED": "a field has an invalid value",
    "FRAME_LONG_TYPE": "the type isn't in its shortest encoding: QUIC_WIRE_READ_SHORT_TYPES",
    "FRAME_LIMIT": "data ends past 2^62 - 1, or there are more than 2^60 streams: QUIC_WIRE_READ_DATA_LIMIT,"
                   " QUIC_WIRE_READ_STREAM_LIMIT",
    "FRAME_PACKET": "its packet may not carry it, by table 3",
    "FRAME_SENDER": "that side may not send it",
    "FRAME_STREAM": "that side may not send it on this stream",
    "PACKET_END": "the bytes end within the header",
    "PACKET_FIXED_BIT": "the fixed bit is clear",
    "PACKET_SMALL": "too short for the id, or for the packet number",
    "PACKET_CID": "an id is cut off, or too long",
    "PACKET_TOKEN": "the bytes end within the token",
    "PACKET_VERSION": "not one of the given versions",
    "PACKET_CUT": "the bytes end within the packet, after its header",
    "PACKET_RETRY": "a Retry without a token or a tag",
    "PARAMS_MALFORMED": "a parameter is cut off, has an invalid value, or occurs twice",
    "PARAMS_ILLEGAL": "a value is out of range, or that side may not send it",
}
# What is said of other constants, and of fields of quic_wire_params that aren't numbers.
KINDS = {"UNKNOWN_VERSION": "a long header of a version that isn't given"}
FIELDS = {
    "present": "QUIC_WIRE_HAS_STATELESS_RESET_TOKEN and so on",
    "reserved": "0",
    "preferred_v4_port": "in the machine's byte order",
    "preferred_v6_port": "in the machine's byte order",
    "original_dst_cid": "of the client's first packet, its destination",
    "initial_src_cid": "of the sender's first packet, its source",
    "retry_src_cid": "of the server's Retry, its source",
    "preferred_cid": "the id at the preferred address",
    "preferred_token": "that id's stateless reset token",
    "preferred_v6": "the highest byte first",
    "preferred_v4": "the highest byte first",
}


def place(one):
    """Where an RFC has it, as the header says that: " (12.4)"; a section without an RFC is one of RFC 9000."""
    short = re.sub(r"RFC 9000, sections? ", "", one.get("section", ""))
    return f" ({short})" if short else ""


def enumeration(name, prefix, groups):
    """An enumeration of constants, each with its number and a comment or none, in groups with a title or none."""
    body = ""
    for number, (title, rows) in enumerate(groups):
        lines = [(f"  QUIC_WIRE_{prefix}{of} = {it},", text) for of, it, text in rows]
        if number == len(groups) - 1:  # there is no comma after the last
            lines[-1] = (lines[-1][0].rstrip(","), lines[-1][1])
        body += "\n" * bool(body) + c.title(title, "  ") + c.commented(lines)
    return f"typedef enum quic_wire_{name} {{\n{body}}} quic_wire_{name};\n"


def results(formats):
    groups = [("", SUCCESSES)]
    for one in sorted([*formats["reasons"], LIBRARY], key=lambda it: -it["number"]):
        name = one["name"]
        if name in GROUPS:
            groups.append((GROUPS[name], []))
        groups[-1][1].append((f"ERR_{name}", one["number"], ERRORS.get(name, one.get("text")) + place(one)))
    return enumeration("result", "", groups)


def codes(formats):
    rows = [(it["name"], f"{it['code']:#04x}", "plus the TLS alert" * ("last" in it)) for it in formats["error_codes"]]
    return enumeration("code", "CODE_", [("", rows)])


def frame_kinds(formats):
    """One kind for all types of STREAM, one for ACK and one for DATAGRAM: the first."""
    kinds = {it.get("quinn_proto", it["name"]): it["type"] for it in reversed(formats["frames"])}
    del kinds["ACK_ECN"]
    rows = [(name, f"{kind:#04x}", "") for name, kind in sorted(kinds.items(), key=lambda it: it[1])]
    return enumeration("frame_kind", "FRAME_", [("", rows)])


def packet_kinds():
    rows = [(name, number, KINDS.get(name)) for name, number in proved.packet_kinds().items()]
    return enumeration("packet_kind", "PACKET_", [("", rows)])


def present():
    return "".join(f"#define QUIC_WIRE_HAS_{name.upper()} {1 << bit:#05x}\n"
                   for bit, name in enumerate(proved.present()))


def said_of_fields(formats):
    """What is said of each field of the parameters: of a number its unit, bounds and default."""
    said, address = dict(FIELDS), next(it for it in formats["preferred_address"] if it["kind"] == "id")
    lengths = {"preferred_cid": address["bytes"]}
    for one in formats["parameters"]:
        if one["kind"] == "number":
            text = ", ".join(filter(None, [one["unit"], bound_of(one)]))
            text += f"; default {one['default']}" if "default" in one else ""
            said[one["name"]] = text + place(one) * (not one["section"].startswith("RFC 9000"))
        if one["kind"] == "id":
            lengths[one["quinn_proto"]] = one["bytes"]
    return said | {f"{name}len": f"{least} to {most} bytes" for name, (least, most) in lengths.items()}


def params(formats):
    said = said_of_fields(formats)
    fields = next(fields for _, _, name, fields in proved.structs() if name == "params")
    lines = [(f"  {proved.NUMBERS[item][0]} {name}{f'[{count}]' * (count > 1)};", said.get(name))
             for name, item, count in fields]
    return (f"typedef struct quic_wire_params {{\n{c.commented(lines)}"
            "} QUIC_WIRE_ALIGNED quic_wire_params;\n")


def layout():
    """What is asserted: the size of each struct, which is that of its fields in their order, and the offsets of its
    last field and of those whose items have another width than the one before."""
    made = {}
    for _, _, name, fields in proved.structs():
        places = proved.placed((of, proved.NUMBERS[item][1], count) for of, item, count in fields)
        lines = [f"sizeof(quic_wire_{name}) == {proved.size(places)}"]
        before, last = 0, list(places)[-1]
        for of, (at, width, _) in places.items():
            if of == last or at and width != before:
                lines.append(f"offsetof(quic_wire_{name}, {of}) == {at}")
            before = width
        made[name] = "".join(f"QUIC_WIRE_ASSERT({line});\n" for line in lines)
    return "".join(made.values())


def order(formats):
    """The numbers of parameters among those that are written, as lines of a comment."""
    rows = {it["order"]: it["name"] if it["kind"] != "skipped" else "(a reserved one, never written)"
            for it in formats["parameters"]}
    return "".join(f" *  - {number} {rows[number]}\n" for number in sorted(rows))


def made(formats):
    """The file, in which all of these are what the formats and the crates say."""
    source = c.with_blocks(read(PATH), [
        results(formats), codes(formats), frame_kinds(formats), packet_kinds(), present(), params(formats), layout()])
    source = re.sub(r"(?: \*  - \d+ [a-z(].*\n){2,}", lambda _: order(formats), source)
    counts = {
        "PARAM_ROWS": len(formats["parameters"]), "FRAME_FIELDS": max(len(it["fields"]) for it in formats["frames"]),
        "PACKET_FIELDS": max(len(it["fields"]) for it in formats["headers"]),
    }
    for name, count in counts.items():
        source = re.sub(rf"(?<=#define QUIC_WIRE_{name} )\d+", str(count), source)
    return source
