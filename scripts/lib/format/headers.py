"""The figures of packet headers (RFC 9000, section 17; RFC 8999)."""
from lib.format.figures import figure, lines_of, section_of

NEGOTIATION = "Version Negotiation"
READING = (
    "A header is its first byte and its row's fields one after another (`HeaderAt`, `header_row_of`, `typed_row`,"
    " crates/quic_header_decode/specs/Grammar.antt); its packet ends as many bytes after Length as that says (`Cut`)."
    " Any fixed bit may be clear if `options.grease` holds (RFC 9287; `is_fixed`). Versions except 0 are known ones"
    " (`Supported`). ")
PARAGRAPHS = [
    "Packet Number has a byte more than Packet Number Length says (`number_len`); `reserved_zero` says whether"
    " Reserved Bits are 0. The low 5 bits of a 1-RTT packet's first byte, 4 of others, and the number are under"
    " header protection (`first_unit`, `Protects`; RFC 9001, 5.4), whose sample is 4 bytes after the number's offset"
    " (`HasSample`, crates/quic_crypto/specs/Keys.antt).",
    "Its bytes are the low ones of a number. That is above the expected number less half the window, and at most half"
    " the window above it (17.1, A.3; `IsInWindow`, crates/quic_crypto/specs/PacketNumbers.antt); if that would be"
    " negative, it is the bytes' own number (`Expands`).",
    "Headers are written in this order (`header_text`, crates/quic_header_encode/specs/Kinds.antt), each with the"
    " fields of its row (`row`): Length in two bytes, Token Length in its shortest encoding. The first byte"
    " (`first_in`) has these bits, 16 times the number of the type, and one less than the length of the number;"
    " reserved and unused bits are clear.",
]
# What the figure of a header can't say.
NOTES = {
    NEGOTIATION: "The RFC gives these ids up to 255 bytes; those of a packet of a version that is read have at most 20,"
        " and a version negotiation that answers it repeats them."
        " The first unused bit is the fixed bit of other headers, which `is_fixed` requires here too. The"
        " versions are given as bytes, however many these are.",
    "Retry": "Retry Token and Retry Integrity Tag are given as bytes, however many these are.",
    "1-RTT": "Destination Connection ID is what the parser of ids reads (`ShortId`).",
}
# The bits that a caller gives, by their names.
GIVEN = {"Spin Bit": "spin", "Key Phase": "key_phase"}
IDS = [
    f"{end} Connection ID{width}" for end in ("Destination", "Source") for width in (" Length (8)", " (0..2040)")]
ANY_VERSION = [
    "### Long headers of any version (RFC 8999, 5.1)", "",
    *figure("Long Header Packet", [
        "Header Form (1) = 1", "Version-Specific Bits (7)", "Version (32)", *IDS, "Version-Specific Data (..)"]),
    "`AnyVersion`, crates/quic_header_decode/specs/Places.antt; it reads unknown versions (`IsUnknownVersion`).", "",
    "### Version Negotiation of any version (RFC 8999, 6)", "",
    *figure("Version Negotiation Packet", [
        "Header Form (1) = 1", "Unused (7)", "Version (32) = 0", *IDS, "Supported Version (32) ..."]),
    "`IsNegotiation`, `negotiation_bytes`, crates/quic_c_headers/specs/Reading.antt. What is read ends after the ids;"
    " the"
    " versions are what is written (`version_bytes`).", ""]


def second(formats):
    """The types of version 2."""
    found = [header for header in formats["headers"] if "version_section" in header]
    found.sort(key=lambda header: header["section"])
    types = ", ".join(f"{header['type_bits']} {header['name']}" for header in found)
    return (
        f"Version 2 ({found[0]['version']:#x}; {section_of(found[0]['version_section'])}) has the Long Packet Types"
        f" {types} (`types_of`).")


def first_written(header):
    """What the first byte is when it is written."""
    fixed, parts, left = 0, [], 8
    for bits in header["first_byte"]:
        left -= bits["bits"]
        if bits["name"] == "Long Packet Type":
            parts.append("the type")
        elif bits["name"] == "Packet Number Length":
            parts.append("the number's length")
        elif bits["name"] in GIVEN:
            parts.append(f"{1 << left:#04x} by `{GIVEN[bits['name']]}`")
        else:
            fixed += bits.get("value", 0) << left
    if header["name"] == NEGOTIATION:
        parts.append("and the low seven as given")
    return ", ".join([f"{fixed:#x}", *parts])


def written(headers):
    """A table of what is written."""
    yield "| | First byte | Version, both ids | Token | Length | Packet Number |"
    yield "|---|---|---|---|---|---|"
    for header in headers:
        names = {part["name"] for part in header["fields"][1:] + header["after"]}
        cells = ["yes" if name in names else "no" for name in ("Version", "Token", "Length", "Packet Number")]
        yield f"| {header['name']} | {first_written(header)} | {' | '.join(cells)} |"


def page(formats):
    """All headers, as version 1 has them, in the order of their sections."""
    headers = [header for header in formats["headers"] if header.get("version", 1) == 1]
    headers.sort(key=lambda header: header["section"])
    yield "## Headers"
    for paragraph in READING + second(formats), *PARAGRAPHS:
        yield from ["", paragraph]
    yield from ["", *written(headers), ""]
    for header in headers:
        first = [f"{bits['name']} ({bits['bits']})" + (f" = {bits['value']}" if "value" in bits else "")
                 for bits in header["first_byte"]]
        lines = [line for part in header["fields"] + header["after"] for line in lines_of(part)]
        yield from [f"### {header['name']} ({section_of(header['section'])})", ""]
        yield from figure(f"{header['name']} Packet", first + lines)
        if header["name"] in NOTES:
            yield from [NOTES[header["name"]], ""]
    yield from ANY_VERSION
