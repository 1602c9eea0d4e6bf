"""The fields of a row: `name:hex`, `name:!hex` for the field that breaks the rule, `name:hex*N` for a repetition.

A row holds items (frames, packets, transport parameters) separated by ` / `, and an item holds fields."""

# Fields that hold bytes. All others hold an integer of variable length, except those of PLAIN, which are one byte.
BYTES = set(
    "crypto_data token stream_data connection_id stateless_reset_token data reason_phrase datagram_data dcid scid "
    "protected version_specific retry_token retry_integrity_tag rest version supported_version value junk first "
    "ipv4_address ipv4_port ipv6_address ipv6_port original_destination_connection_id initial_source_connection_id "
    "retry_source_connection_id disable_active_migration grease_quic_bit version_information".split()
)
PLAIN = {"dcid_length", "scid_length", "connection_id_length"}
WIDEST = 3 << 62  # the two high bits of an integer in eight bytes


class Field:
    """A field: its name, its bytes, and whether it is the one that breaks the rule."""

    def __init__(self, text):
        self.name, _, value = text.partition(":")
        self.breaks, value = value.startswith("!"), value.lstrip("!")
        digits, _, times = value.partition("*")
        self.bytes = bytes.fromhex(digits) * int(times or 1)

    def is_integer(self):
        return self.name not in BYTES | PLAIN

    def is_whole(self):
        """Whether an integer has all bytes that its first byte promises."""
        return bool(self.bytes) and len(self.bytes) == 1 << (self.bytes[0] >> 6)

    def number(self):
        if self.name in PLAIN:
            return self.bytes[0]
        assert self.is_whole(), (self.name, self.bytes.hex())
        return int.from_bytes(self.bytes, "big") & ((1 << (8 * len(self.bytes) - 2)) - 1)

    def changed(self, value):
        """The same field with other bytes, which breaks no rule."""
        field = Field(self.name)
        field.bytes = value
        return field

    def widened(self):
        return self.changed((self.number() | WIDEST).to_bytes(8, "big"))


def parse(text):
    """The items of a row."""
    return [[Field(field) for field in item.split()] for item in text.split(" / ")] if text else []


def bytes_of(items):
    return b"".join(field.bytes for item in items for field in item)


def fault_in(items):
    """The index of the item that breaks the rule, where it begins, after how many bytes a reader knows that goes field
    by field, and the name of the field by which it knows.

    A reader that knows where the input ends sees at the first byte of an integer that the integer is cut off."""
    at = 0
    for index, item in enumerate(items):
        begin = at
        for field in item:
            if field.breaks:
                is_cut = field.is_integer() and not field.is_whole()
                return index, begin, at + (min(1, len(field.bytes)) if is_cut else len(field.bytes)), field.name
            at += len(field.bytes)
    return 0, 0, 0, None
