"""The classes that Python has for kinds of frames and packets, with their fields, and what it says of parameters: for
python/wire/formats.h and python/src/quic_wire/_wire.pyi."""
from typing import NamedTuple

from lib.tables.compared import c_structs
from lib.tables.formats import bound_of, constants, enumeration, headers

# What a field is: of numbers in the header's union one that is always there, or only in some types of a kind. Of bytes
# those of a stream or a datagram, which are lent as views, or others, which are copied.
HOW = {
    "number": "number", "ranges": "ranges", "implied": "fin", "counted": "data", "rest": "data", "id": "data",
    "bytes": "token", "uint64": "path",
}
# Fields that aren't numbers and have another name than the RFC's.
NAMES = {
    "ACK Ranges": "ranges", "Crypto Data": "data", "Stream Data": "data", "Datagram Data": "data",
    "Reason Phrase": "reason", "Stateless Reset Token": "reset_token",
}
# The structs that several kinds share, by a part of their names; for others it is `limit`.
SHARED = {"CLOSE": "close", "PATH": "path"}
# Sentences that say more than the description's names and units.
FIELDS = {
    "Largest Acknowledged": "the largest acknowledged packet number",
    "ACK Delay": "ACK Delay: microseconds, shifted right by the sender's ack_delay_exponent",
    "ACK Ranges": "the acknowledged packet numbers, the greatest range first",
    "ECT0 Count": "ECT0 Count, packets marked ECT(0), or None",
    "ECT1 Count": "ECT1 Count, packets marked ECT(1), or None",
    "ECN-CE Count": "ECN-CE Count, packets marked ECN-CE, or None",
    "Offset": "Offset, where the data begin in their stream, bytes",
    "FIN": "FIN, whether the data end the stream",
    "Frame Type": "Frame Type, that of the frame at fault; 0: none is known",
    "Stateless Reset Token":
        "Stateless Reset Token, 16 bytes; compare it by hmac.compare_digest (RFC 9000, section 10.3.1)",
}
KINDS = {
    "PADDING": "PADDING ({section}), as many as follow each other.",
    "MAX_STREAMS_BIDI": "MAX_STREAMS of bidirectional streams ({section}).",
    "MAX_STREAMS_UNI": "MAX_STREAMS of unidirectional streams ({section}).",
    "STREAMS_BLOCKED_BIDI": "STREAMS_BLOCKED of bidirectional streams ({section}).",
    "STREAMS_BLOCKED_UNI": "STREAMS_BLOCKED of unidirectional streams ({section}).",
    "NEW_CONNECTION_ID": "NEW_CONNECTION_ID ({section}). connection_id and reset_token must be given.",
    "CONNECTION_CLOSE": "CONNECTION_CLOSE of the transport, 0x1c ({section}).",
    "APPLICATION_CLOSE": "CONNECTION_CLOSE of the application, 0x1d ({section}).",
}
PARAMETERS = {
    "initial_max_stream_data_bidi_local": "bytes, for bidirectional streams that the sender of the list opens",
    "initial_max_stream_data_bidi_remote": "bytes, for bidirectional streams that its receiver opens",
    "initial_max_stream_data_uni": "bytes, for unidirectional streams that its receiver opens",
    "initial_max_streams_bidi": "bidirectional streams, at most 2^60",
    "initial_max_streams_uni": "unidirectional streams, at most 2^60",
    "ack_delay_exponent": "by how many bits ACK Delay is shifted, at most 20",
}
# Of a packet's fields, bits and what follows: the name, what it is, and what it says besides the RFC's name.
PACKET_FIELDS = {
    "Version": ("version", "version", "the version"),
    "Destination Connection ID": ("dcid", "dcid", "Destination Connection ID"),
    "Source Connection ID": ("scid", "scid", "Source Connection ID"),
    "Token": ("token", "token", "Token"),
    "Length": ("length", "length", "Length: bytes of packet number and payload"),
    "Retry Token": ("token", "retry_token", "Retry Token"),
    "Retry Integrity Tag": (
        "integrity_tag", "retry_tag", "Retry Integrity Tag, or None if fewer bytes are there"),
    "Spin Bit": ("spin", "spin", "Spin Bit"),
    "Supported Version": ("versions", "versions", "Supported Versions"),
}
TOKEN_AT = ("token_at", "token_at", "where the token begins in the datagram")
PACKETS = {"0-RTT": "ZeroRtt", "1-RTT": "OneRtt"}
UNKNOWN = (
    "A packet of a version that isn't one of those given (RFC 8999, section 5.1): all of the datagram from its first"
    " byte on.")


class Field(NamedTuple):
    """A field of a class: how it is read; of a number its slot in the union, of a rule its bit; and whether bytes must
    be given."""

    name: str
    how: str
    doc: str
    slot: int | str = 0
    is_needed: bool = False


# The fields of every frame and of every packet.
OF_FRAMES = [
    Field("begin", "begin", "where it begins in its payload; 0 if it wasn't read"),
    Field("end", "end", "where it ends in its payload"),
    Field("type", "type", "the type in the payload; if it wasn't read, one of its kind"),
    Field("kind", "kind", "the type, but one number for every STREAM (0x08), one for every ACK (0x02), one for every"
                          " DATAGRAM"),
    Field("name", "name", "the type's name"),
    Field("is_ack_eliciting", "rule_not", "whether a packet with it is acknowledged (RFC 9000, section 13.2.1)",
          "QUIC_WIRE_RULE_NOT_ELICITING"),
    Field("is_counted_in_flight", "rule_not", "whether a packet with it counts as bytes in flight",
          "QUIC_WIRE_RULE_NOT_COUNTED"),
    Field("is_probing", "rule", "whether it probes a path (RFC 9000, section 9.1)", "QUIC_WIRE_RULE_PROBING"),
    Field("is_flow_controlled", "rule", "whether its data are flow controlled", "QUIC_WIRE_RULE_FLOW_CONTROLLED"),
]
OF_PACKETS = [
    Field("begin", "begin", "where it begins in its datagram"),
    Field("end", "end", "where it ends in its datagram"),
    Field("first", "first", "the first byte, with its protection"),
    Field("kind", "kind", "the packet's type, as in PacketType"),
    Field("number_at", "number_at", "where the packet number begins in the datagram, or None"),
    Field("data", "data", "all of the packet"),
    Field("version", "version", "the version, or 0 if none is known"),
    Field("dcid", "dcid", "Destination Connection ID"),
    Field("scid", "scid", "Source Connection ID; empty in a short header"),
]


class Class(NamedTuple):
    """A kind: its constant in the header, its class, what it is."""

    word: str
    name: str
    doc: str
    fields: list


def camel(word):
    return "".join(part.capitalize() for part in word.replace(" ", "_").split("_"))


def doc_of(row):
    """The RFC's name, and of the unit and the length what that doesn't say."""
    name, (least, most) = row["name"], row.get("bytes", (0, 0))
    parts = [it for it in row.get("unit", "").split(", ") if set(it.lower().split()) - set(name.lower().split())]
    parts += [f"{most} bytes" if least == most else f"{least} to {most} bytes"] * bool(most)
    return FIELDS.get(name, ", ".join([name, *parts]))


def numbers_of(word, rows, structs):
    """The names and slots of a kind's numbers: those of its struct in their order or, if the struct has more, by their
    keys, else the last one."""
    shared = next((struct for part, struct in SHARED.items() if part in word), "limit")
    slots = {of: at // 8 for of, (at, _, _) in structs.get(word.lower(), structs[shared]).items() if of != "reserved"}
    if len(slots) == len(rows):
        return dict(zip((row["name"] for row in rows), slots.items()))
    names = [row["key"] if row["key"] in slots else list(slots)[-1] for row in rows]
    return {row["name"]: (name, slots[name]) for row, name in zip(rows, names)}


def fields_of(word, types, structs):
    """The fields of a kind, as the last of its types has them. Of what types imply those are there that differ, after
    the numbers."""
    rows = [row for row in types[-1]["fields"][1:] if "name" in row]
    numbers = numbers_of(word, [row for row in rows if row["kind"] in ("number", "uint64")], structs)
    listed = [{row.get("name"): row.get("value") for row in one["fields"]} for one in types]
    found = [Field("count", "count", "how many PADDING frames follow each other here")] * (word == "PADDING")
    for row in sorted(rows, key=lambda it: (it["kind"] == "implied") + 2 * (HOW[it["kind"]] in ("data", "token"))):
        name, how = row["name"], HOW[row["kind"]]
        if how == "number" and not all(name in one for one in listed):
            how = "ecn"
        if how != "fin" or len({one.get(name) for one in listed}) > 1:
            called, slot = numbers.get(name, (NAMES.get(name, row["key"]), 0))
            if how == "data" and called != "data":
                how = "bytes"
            found.append(Field(called, how, doc_of(row), slot if how in ("number", "ecn") else 0,
                               "bytes" in row and how != "path"))
    return found


def frames(formats):
    """The classes of frames, in the order of their kinds."""
    structs, types = c_structs(), {word: [] for word in enumeration("frame_kind", "FRAME")}
    for frame in formats["frames"]:
        word = frame.get("quinn_proto", frame["name"])
        types[word if word in types else frame["name"]].append(frame)
    for word, some in types.items():
        doc = KINDS.get(word, "{name} ({section}).").format(**some[0])
        yield Class(word, camel(word), doc, fields_of(word, some, structs))


def packets(formats):
    """The classes of packets, in the order of their kinds."""
    first = {kind: one for version, kind, one in reversed(headers(formats)) if version in (0, 1)}
    for _, one in sorted(first.items()):
        rows = [row for row in one["fields"] if row["kind"] != "supported" and "value" not in row]
        rows += [*one["after"], *one["first_byte"]]
        fields = [Field(*PACKET_FIELDS[row["name"]]) for row in rows if row.get("name") in PACKET_FIELDS]
        fields += [Field(*TOKEN_AT)] * (one["name"] == "Initial")
        article = "An" if one["name"][0] in "AEIOU" else "A"
        doc = f"{article} {one['name']} packet ({one['section']})."
        yield Class("", PACKETS.get(one["name"], camel(one["name"])), doc, fields)
    yield Class("", "UnknownVersion", UNKNOWN, [Field(*it) for it in list(PACKET_FIELDS.values())[:3]])


def parameters(formats):
    """The parameters in their order."""
    return sorted((one for one in formats["parameters"] if one["kind"] != "skipped"), key=lambda it: it["order"])


def parameter_doc(one):
    """What a parameter's value is."""
    least_and_most = one.get("bytes", [0, 0])
    what = {
        "number": ", ".join(filter(None, [one.get("unit"), bound_of(one)])), "flag": "True or False",
        "bytes": f"{least_and_most[1]} bytes", "id": f"at most {least_and_most[1]} bytes",
        "preferred_address": "a PreferredAddress",
    }[one["kind"]]
    what = PARAMETERS.get(one["name"], what)
    if one["kind"] != "flag" and "default" not in one:
        what += ", or None"
    if one["senders"] == ["server"]:
        what += "; from servers only"
    document = one["section"].split(",")[0]
    return what if document == "RFC 9000" else f"{what} ({document})"


def results(formats):
    """The results of readers, by their names in the header without a prefix."""
    return [reason["name"] for reason in formats["reasons"] if reason["about"] != "call"]


def flags():
    """The flags of readers, by their names in the header without a prefix."""
    return list(constants("READ"))
