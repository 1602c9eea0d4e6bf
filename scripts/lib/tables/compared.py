"""What is typed twice, since it has comments or is code, is compared: with docs/formats.json the rules of frames in the
proved code for C, and the names of the numbers in the header's structs of frames; with the structs of the header those
of the proved crates, in order and widths."""
import re

from lib.tables import proved
from lib.tables.formats import HEADER, enumeration, packet_kinds, read

SLOTS = "crates/quic_c_words/specs/Slots.antt"
# The widths in bytes of the types in structs.
WIDTHS = dict(proved.NUMBERS.values())


def uncommented(path):
    return re.sub(r"/\*.*?\*/|//[^\n]*", "", read(path), flags=re.S)


def differences(what, found, wanted):
    """How two tables differ, by their keys."""
    for key in dict.fromkeys([*wanted, *found]):
        if found.get(key) != wanted.get(key):
            yield f"{what}: {key} is {found.get(key, 'missing')} and not {wanted.get(key, 'there')}"


def rules(formats):
    """What the proved code for C says of each kind of frame, the letters of table 3, and its bits for packets."""
    path = "crates/quic_c_permitted/src/rules.rt"
    source, kinds = read(path), packet_kinds()
    bits = {name: int(number, 16) for name, number in re.findall(r"^const (\w+): u32 = (0x\w+);", source, re.M)}
    letters = {"N": "NOT_ELICITING", "C": "NOT_COUNTED", "P": "PROBING", "F": "FLOW_CONTROLLED"}
    found = {}
    for numbers, words in re.findall(r"^        (0x[^_]*?) => ([A-Z_ +]+),$", source, re.M):
        found |= {int(kind, 16): sum(bits[word] for word in words.split(" + ")) for kind in numbers.split(" | ")}
    wanted = {frame["type"]: sum(bits[letters[letter]] for letter in frame["spec"]) for frame in formats["frames"]}
    of_kinds = {kind: wanted[kind] for kind in enumeration("frame_kind", "FRAME").values()}
    yield from differences(path, found, {kind: spec for kind, spec in of_kinds.items() if spec})
    columns = {sum(1 << kinds[packet] for packet in frame["packets"]) for frame in formats["frames"]}
    in_code = {int(number, 16) for number in re.findall(r"^        Packets::\w+ => (0x\w+),$", source, re.M)}
    if columns != in_code:
        yield f"{path}: the packets are {sorted(in_code)} and not {sorted(columns)}"


def c_structs(branch=1):
    """The structs of the header: for each its fields in order, with their offsets and widths in bytes. Those that
    QUIC_WIRE_PLAIN changes are as they are with it, or in the second branch, of each union the first member."""
    text = re.sub(r"#ifdef QUIC_WIRE_PLAIN\n(.*?)#else\n(.*?)#endif\n", rf"\{branch}", uncommented(HEADER), flags=re.S)
    text = re.sub(r"QUIC_WIRE_EXTENSION union \{\s*(\w+ [^;]+;).*?\};", r"\1", text, flags=re.S)
    found = {}
    for name, body in re.findall(r"typedef struct quic_wire_(\w+) \{(.*?)\} QUIC_WIRE_ALIGNED", text, re.S):
        fields = []
        for kind, names in re.findall(r"(\w+) ([\w\[\], ]+);", " ".join(body.split())):
            for one in names.split(", "):
                of, count = re.fullmatch(r"(\w+)(?:\[(\d+)\])?", one).groups()
                fields.append((of, WIDTHS[kind], int(count or 1)))
        found[name] = proved.placed(fields)
    return found


def structs():
    """The structs of the proved crates and those of the header."""
    declared = c_structs()
    yield from differences(f"{HEADER}: frame without QUIC_WIRE_PLAIN", c_structs(2)["frame"], declared["frame"])
    for path, name, words, fields in proved.structs():
        if words not in declared:
            yield f"{HEADER}: no quic_wire_{words}, which {path} has"
            continue
        ours = proved.placed((of, proved.NUMBERS[item][1], count) for of, item, count in fields)
        yield from differences(f"{path}: {name} (offset, width, items)", ours, declared[words])


def struct_of(frame):
    """The struct of the header with the numbers of a frame."""
    if frame.startswith("MAX_") or frame.endswith("_BLOCKED"):
        return "limit"
    return "path" if frame.startswith("PATH_") else "close" if frame.endswith("_CLOSE") else frame.lower()


def frame_structs(formats):
    """The structs of frames, except an ACK's: each number is the member with its field's name, or a part of that."""
    declared, frames = c_structs(), {it["name"]: it for it in reversed(formats["frames"])}
    frames |= {it["quinn_proto"]: it for it in formats["frames"] if "quinn_proto" in it}
    for word, slots in re.findall(r"^slots_of names\.(\w+) = (.*) ∷ \[\]$", read(SLOTS), re.M):
        name = re.sub(r"(?<=[a-z])(?=[A-Z])", "_", word).upper()
        fields = [field for field in frames[name]["fields"][1:] if field["kind"] != "ordered"]
        for slot, field in zip(slots.split(" ∷ "), fields):
            if slot.startswith("Nth "):
                struct, number = struct_of(name), int(slot.removeprefix("Nth "))
                member = [*declared.get(struct, []), *[""] * 5][number]
                if not member or member.replace("limit", "maximum") not in field["key"]:
                    yield f"{HEADER}: quic_wire_{struct} has no {field['key']} of {name} as its number {number}"


def faults(formats):
    """Everything that differs."""
    yield from rules(formats)
    yield from structs()
    yield from frame_structs(formats)
