"""Numbers, stream ids and error codes; what is reported for bytes that can't be read; the laws."""
from lib.format.figures import columns


def numbers(formats):
    """Numbers (RFC 9000, section 16), stream ids (2.1) and error codes (20.1)."""
    yield from ["## Numbers", ""]
    yield (
        "A number (i) has one of these widths (16; `Encodes`, crates/quic_base/specs/Varint.antt), at its shortest the"
        " first that holds it (`shortest_varint`):")
    widths = [(f"{tag:02b}", str(1 << tag), str((8 << tag) - 2), f"0-{2 ** ((8 << tag) - 2) - 1}") for tag in range(4)]
    yield from ["", *columns([("2MSB", "Length", "Usable Bits", "Range"), *widths])]
    yield from ["The low two bits of stream IDs (2.1; `stream_number`, crates/quic_base/specs/Ids.antt):", ""]
    yield from columns(
        (f"{2 * high + low:#04x}", f"{side}-Initiated, {direction}")
        for high, direction in enumerate(("Bidirectional", "Unidirectional"))
        for low, side in enumerate(("Client", "Server")))
    yield (
        "Error codes (20.1; crates/quic_errors/specs/Codes.antt, by their names in small letters, the last"
        " `other_text`):")
    yield ""
    yield from columns(
        (f"{code['code']:#06x}-{code['last']:#06x}" if "last" in code else f"{code['code']:#04x}", code["name"])
        for code in formats["error_codes"])


def reported(formats):
    """What is reported for payloads and headers that can't be read."""
    text = {reason["name"]: reason["text"] for reason in formats["reasons"]}
    yield from ["", "## What is reported", "", "### Payloads (12.4)", ""]
    yield from columns([
        ["The next type", "Type in the error", "Reason"],
        ["is cut off", "the last one before, if any", text["FRAME_END"]],
        ["is in a longer encoding, if strict", "that type", text["FRAME_LONG_TYPE"]],
        ["has no row", "that type", text["FRAME_TYPE"]],
        ["has a field that is cut off", "that type", text["FRAME_END"]],
        ["has a field that is out of range", "that type", text["FRAME_MALFORMED"]],
    ])
    yield (
        "`IsNoFrame`, crates/quic_frame_fields/specs/Payload.antt. A field is out of range (`IsReason`,"
        " crates/quic_frame_fields/specs/Field.antt) if a number of an ACK would make a bound negative, an id has no"
        " byte or more than 20, or Retire Prior To is above Sequence Number.")
    yield from ["", "### Headers (17)", ""]
    yield from columns([
        ["What can't be read", "Error"],
        ["the first byte, if the fixed bit is clear", f'"{text["PACKET_FIXED_BIT"]}"'],
        ["DestinationId", f'"{text["PACKET_CID"]}"'],
        ["SourceId", f'"{text["PACKET_CID"]}"'],
        ["Supported", "Unsupported"],
        ["Token", f'"{text["PACKET_TOKEN"]}"'],
        ["any other field", f'"{text["PACKET_END"]}"'],
    ])
    yield (
        "In the order of the fields (`Refused`, `refusal_at`, crates/quic_header_decode/specs/Grammar.antt); for a"
        " short header's id it is the error of the parser of ids. A length beyond the datagram comes last (`Uncut`).")


LAWS = [
    "", "## Laws", "",
    "docs/PROOF.md states the laws of crates/quic_wire/src/laws.rt. `ExactlyOne` (crates/quic_base/specs/One.antt): there"
    " is such a value, and every other such value equals it. A datagram's result is its first packet (`Cut`) or an"
    " error (`Uncut`), that of a list a record (`IsMeant`, `IsValid`) or an error (`IsBadList`). A `Reading`"
    " (crates/quic_frame_fields/specs/Payload.antt) is `Complete`, the payload's frames (`AreFrames`), or"
    " `FailsAfter`, the frames before something that isn't a frame, and what is reported for it (`IsBroken`)."
    " `IsLeast` (crates/quic_canon/specs/Least.antt): each other payload of the same frames is longer; frames are the"
    " same if their values are equal, ranges if they have the same numbers (`IsSame`,"
    " crates/quic_canon/specs/Same.antt)."]
