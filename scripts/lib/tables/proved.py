"""What the proved crates lay out and export for C, by its names in C."""
import glob
import os
import re

from lib.tables.formats import TOP, read

# Fields and structs that C names otherwise than Rattle does, besides lengths of a name without an underscore.
NAMES = {
    "ty": "type", "data_offset": "data", "dst_len": "dcidlen", "src_len": "scidlen", "preferred_id": "preferred_cid",
    "preferred_id_len": "preferred_cidlen",
}
STRUCTS = {"Reach": "fields"}
# The types of numbers in structs, with their widths in bytes; arguments have size_t for quic_wire_size.
NUMBERS = {
    "u8": ("uint8_t", 1), "u16": ("uint16_t", 2), "u32": ("uint32_t", 4), "u64": ("uint64_t", 8),
    "usize": ("quic_wire_size", 8), "i32": ("int32_t", 4), "i64": ("int64_t", 8),
}
KINDS, PRESENT = "crates/quic_c_headers/src/words.rt", "crates/quic_c_params/specs/Shown.antt"
VERSIONS = "crates/quic_base/src/ids.rt"


def sources(crates):
    """The files of crates, each with its text."""
    for path in sorted(glob.glob(os.path.join(TOP, f"crates/{crates}/src/*.rt"))):
        yield os.path.relpath(path, TOP), read(path)


def struct_name(name):
    """A struct's name in C, after quic_wire_."""
    return STRUCTS.get(name, re.sub(r"(?<=[a-z])(?=[A-Z])", "_", re.sub(r"^C(?=[A-Z])", "", name)).lower())


def structs():
    """The structs that Rattle lays out as C does: the file, the name in Rattle and in C, and the fields in order, each
    with its name in C, the type of an item and how many items it has."""
    begin = r"#\[repr\(C\)\]\n(?:#\[[^\n]*\n)*pub struct (\w+) "
    for path, source in sources("quic_*"):
        for name, body in re.findall(begin + r"\{\n(.*?)\n\}", source, re.S):
            fields = []
            for of, kind in re.findall(r"^    pub (\w+): (.+),$", body, re.M):
                item, count = re.fullmatch(r"\[?(\w+)(?:; (\d+)\])?", kind).groups()
                fields.append((NAMES.get(of, re.sub(r"_len$", "len", of)), item, int(count or 1)))
            yield path, name, struct_name(name), fields


def versions():
    """The versions that are read by default, as hexadecimal numbers."""
    body = re.search(r"^pub const DEFAULT_SUPPORTED_VERSIONS: &\[u32\] = &\[(.*?)\];", read(VERSIONS), re.M | re.S)[1]
    return [number.replace("_", "") for number in re.findall(r"0x\w+", body)]


def placed(fields):
    """Fields of some widths with their offsets, each aligned to its item's width."""
    at, found = 0, {}
    for name, width, count in fields:
        at += -at % width
        found[name] = (at, width, count)
        at += width * count
    return found


def size(places):
    """The size in bytes of a struct whose fields are at these places. Structs are aligned to 8 bytes."""
    end = max(at + width * count for at, width, count in places.values())
    return end + -end % 8


def argument(kind):
    """What an argument is in C: a number, a pointer, or for a slice a pointer and a length."""
    borrow, mutable, name, end = re.fullmatch(r"(&(mut )?)?\[?(\w+)(\]|; \d+\])?", kind).groups()
    plain = NUMBERS[name][0] if name in NUMBERS else f"quic_wire_{struct_name(name)}"
    plain = "size_t" if plain == "quic_wire_size" else plain
    if not borrow:
        return [plain]
    return [f"{'' if mutable else 'const '}{plain} *"] + ["size_t"] * (end == "]")


def calls():
    """The functions that the crates export for C: of each its name, what it returns, and what each argument is in C."""
    for _, source in sources("quic_c*"):
        for name, body, result in re.findall(
            r'^pub extern "C" fn (quic_wire_\w+_)\(([^)]*)\) -> (\w+)$', source, re.M):
            yield name, argument(result)[0], [argument(kind) for kind in re.findall(r"\w+: ([^,\n]+)", body)]


def packet_kinds():
    """The numbers of the kinds of packets."""
    names = {"ZERO_RTT": "0RTT", "SHORT": "1RTT"}
    found = re.findall(r"^pub\(crate\) const (\w+): u8 = (\d+);", read(KINDS), re.M)
    return {names.get(name, name): int(number) for name, number in found}


def present():
    """The names of what parameters can have, from the lowest bit that says so."""
    body = re.search(r"^present_in params =\n(.*?)\[\]$", read(PRESENT), re.M | re.S)[1]
    return [f"preferred_{version}" if version else name
            for version, name in re.findall(r"(?:\((v\d)_in )?params\.(\w+)", body)]
