"""What c/include/quic_wire_near.h has of the formats: a reader for each kind of frame without a loop, and a writer for
each kind that has only numbers. scripts/lib/near.py shows for all payloads that they do what the proved rows say."""
import re
import textwrap

from lib import near_rows
from lib.tables import c
from lib.tables.calls import opening
from lib.tables.compared import SLOTS, c_structs, struct_of
from lib.tables.formats import read
from lib.tables.header import frame_kinds, place

PATH = "c/include/quic_wire_near.h"
# Kinds with a loop, and those that RFC 9000 alone doesn't have, whose types aren't read here.
LEFT = {"PADDING", "ACK", "IMMEDIATE_ACK", "ACK_FREQUENCY"}
UNWRITTEN = {"PADDING"}
# Fields that mostly have one byte.
SHORT = {"sequence_number", "retire_prior_to", "error_code", "frame_type", "reason_phrase_length"}
SHORT_OF = {"NEW_CONNECTION_ID", "RETIRE_CONNECTION_ID", "CONNECTION_CLOSE", "APPLICATION_CLOSE"}
# The arguments of a reader, and what it passes on.
READS = [("const uint8_t *", "payload"), ("size_t", "payloadlen"), ("quic_wire_frame *", "frame")]
PASSED = ["payload", "payload + payloadlen", "frame"]
NEAR, MOST = "QUIC_WIRE_NEAR", "QUIC_WIRE_MOST_"


class Kind:
    """A kind of frame: its types, their fields, and the members of the header's structs that have these."""

    def __init__(self, name, number, rows, slots):
        self.name, self.number, self.rows = name, number, rows
        self.word = name.lower()
        self.struct = struct_of(re.sub(r"_(BIDI|UNI)$", "", name))
        fields = [field for field in rows[0]["fields"][1:] if field["kind"] != "ordered"]
        self.slots = dict(zip((field["index"] for field in fields), slots))
        self.bits = 0
        for row in rows:
            self.bits |= row["type"] ^ number

    def columns(self):
        """Each field with its kind for each type."""
        return [[row["fields"][at] for row in self.rows] for at in range(1, len(self.rows[0]["fields"]))]

    def member(self, field):
        """The member for a field that is a number in the struct, or nothing."""
        slot = self.slots.get(field["index"], "")
        return [*c_structs()[self.struct]][int(slot.removeprefix("Nth "))] if slot.startswith("Nth ") else ""

    def shape(self):
        """What kinds must have in common to be read by the same function."""
        if len(self.rows) > 1:
            return self.name
        fields = [field for field in self.rows[0]["fields"][1:] if field["kind"] != "implied"]
        kinds = [(field["kind"], field.get("max")) for field in fields]
        slots = [slot for slot in self.slots.values() if slot != "Direction"]
        return (tuple(kinds), tuple(slots), self.name == "NEW_TOKEN", self.name == "CRYPTO", self.name in SHORT_OF)

    def bit_of(self, column, kinds):
        """The bit of the type with which a field is one of these kinds, or 0 if it always is."""
        are = {row["type"]: field["kind"] in kinds for row, field in zip(self.rows, column)}
        if all(are.values()):
            return 0
        return next(bit for bit in (1, 2, 4) if all(bool(of & bit) == is_one for of, is_one in are.items()))


def kinds_of(formats):
    """All kinds, in the order of their types."""
    numbers = {name: int(number, 16) for name, number in re.findall(r"FRAME_(\w+) = (0x\w+)", frame_kinds(formats))}
    slots = {re.sub(r"(?<=[a-z])(?=[A-Z])", "_", name).upper(): of.split(" ∷ ")
             for name, of in re.findall(r"^slots_of names\.(\w+) = (.*) ∷ \[\]$", read(SLOTS), re.M)}
    rows, found = {}, []
    for row in formats["frames"]:
        name = row.get("quinn_proto", row["name"])
        rows.setdefault("ACK" if name == "ACK_ECN" else name, []).append(row)
    for name, number in numbers.items():
        plain = re.sub(r"_(BIDI|UNI)$", "", name)
        found.append(Kind(name, number, rows[name], slots.get(plain, [])))
    return found


# ---- readers

def fails(*conditions, indent="  "):
    """Returns 0 under one of these conditions."""
    return c.wrapped(f"{indent}if (", conditions, ")", " ||") + f"{indent}  return 0;\n"


def number_read(kind, field, name):
    """The condition under which a number isn't read."""
    key = field.get("length", field)["key"]
    how = "short" if key in SHORT and kind.name in SHORT_OF else "varint"
    return f"!(at = quic_wire_next_{how}_(at, end, &{name}))"


def steps(kind, column):
    """The lines that read a field."""
    field, sorts = column[0], {it["kind"] for it in column}
    name = kind.member(field)
    if "number" in sorts:
        bit = kind.bit_of(column, {"number"})
        step = fails(f"(payload[0] & {bit}) && " * bool(bit) + number_read(kind, column[-1], name))
        return step + (fails(f"{name} > (uint64_t)1 << {field['max'].bit_length() - 1}") if "max" in field else "")
    if sorts == {"uint64"}:
        return fails("end - at < 8") + f"  {name} = quic_wire_get_uint64_(at);\n  at += 8;\n"
    if sorts == {"id"}:
        least, most = field["bytes"]
        return (fails("at == end") + "  datalen = *at++;\n"
                + fails(f"datalen < {least}", f"datalen > {most}", "(size_t)(end - at) < datalen + 16"))
    if "counted" in sorts:
        bit = kind.bit_of(column, {"counted"})
        counted = [number_read(kind, column[-1], "datalen"), "datalen > (size_t)(end - at)"]
        if bit:
            return (f"  if (payload[0] & {bit}) {{\n" + fails(*counted, indent="    ")
                    + "  } else {\n    datalen = (size_t)(end - at);\n  }\n")
        return fails(*counted)
    if sorts == {"ordered"}:
        first, second = (kind.member(kind.rows[0]["fields"][number]) for number in (1, 2))
        return fails(f"{second} > {first}")
    return ""


def row_reader(kind):
    """The function that reads frames of a shape, named by its first kind."""
    columns = kind.columns()
    members = {kind.member(column[0]): column for column in columns if kind.member(column[0])}
    has_data = "Data" in kind.slots.values()
    names = [f"{name} = 0" if {it["kind"] for it in column} == {"number", "implied"} else name
             for name, column in members.items()]
    body = "  const uint8_t *at = payload + 1;\n"
    if names or has_data:
        body += f"  uint64_t {', '.join([*names, *['datalen'] * has_data])};\n"
    made = "".join(steps(kind, column) for column in columns)
    body += made or "  (void)end;\n"
    if "offset" in members and has_data:
        body += fails(f"offset + datalen > {MOST}")
    if kind.name == "NEW_TOKEN":
        body += fails("datalen == 0")
    numbers = {int(kind.slots[column[0]["index"]].removeprefix("Nth ")): name for name, column in members.items()}
    is_one = len(kind.rows) == 1
    arguments = [
        "frame", "payload[0]" if is_one else f"{kind.number:#04x}", "payload[0]",
        "payload[0] & 1" if "Fin" in kind.slots.values() else "0", "(size_t)(at - payload)",
        "(size_t)datalen" if has_data else "0", "16" if "Token" in kind.slots.values() else "0",
        *[numbers.get(number, "0") for number in range(3)]]
    return (opening("size_t", f"read_{kind.word}_", [READS[0], ("const uint8_t *", "end"), READS[2]], NEAR)
            + body + c.wrapped("  return quic_wire_describe_(", arguments, ");") + "}\n")


def documented(text):
    """A comment on a public function."""
    lines = textwrap.wrap(f"/** {text} */", c.WIDTH, subsequent_indent=" * ", break_on_hyphens=False)
    return "\n".join(lines) + "\n"


def gives(kind):
    """The fields of a frame that its kind has."""
    found = []
    for column in kind.columns():
        name = kind.member(column[0])
        slot = kind.slots.get(column[0]["index"], "")
        found += [f"|{kind.struct}.{name}|"] if name else ["|data|", "|datalen|"] if slot == "Data" else []
        found += ["|flags|"] if slot == "Fin" else []
    return ", ".join(found)


def reader(kind, shape):
    """The public function that reads a kind."""
    fields = gives(kind)
    made = documented(f"{kind.name}{place(kind.rows[0])}{': ' * bool(fields)}{fields}.")
    made += opening("size_t", f"{kind.word}_read", READS, NEAR)
    made += (f"  if (!quic_wire_begins_(payload, payloadlen, frame, {kind.number:#04x}, {kind.bits}))\n"
             "    return 0;\n")
    return made + c.wrapped(f"  return quic_wire_read_{shape}_(", PASSED, ");") + "}\n"


def cases(kinds, shape):
    """The cases of a switch that read the frames of a shape."""
    types = [row["type"] for kind in kinds for row in kind.rows]
    return ("".join(f"    case {of:#04x}:\n" for of in types)
            + c.wrapped(f"      end = quic_wire_read_{shape}_(", PASSED, ");")
            + "      break;\n")


# ---- writers

def written_numbers(kind):
    """The numbers of a kind that has no data, each with its field; nothing else if it has data."""
    columns = kind.columns()
    if len(kind.rows) > 1 or kind.name in UNWRITTEN or any(
            column[0]["kind"] not in ("number", "uint64", "implied") for column in columns):
        return None
    return [(kind.member(column[0]), column[0]) for column in columns if column[0]["kind"] != "implied"]


def type_bytes(number):
    return [number] if number < 64 else [0x40 | number >> 8, number & 0xff]


def bounds(names, most):
    """Returns 0 for NULL, and if one of these numbers is above the greatest one."""
    if not names:
        return ""
    if len(names) == 1:
        return fails("!dest", f"{names[0]} > {most}")
    return c.wrapped("  if (!dest || (", names, f") > {most})", " |") + "    return 0;\n"


def room(fixed, names):
    """Returns 0 if there is less room than these numbers need with so many other bytes."""
    if not names:
        return fails("!dest", f"destlen < {fixed}")
    lens = [f"quic_wire_varint_len_near({name})" for name in names]
    most, needed = f"  if (destlen < {fixed + 8 * len(names)} &&", f"destlen < {fixed} + "
    line = c.wrapped(f"{most} {needed}", lens, ")", " +")
    if max(map(len, line.splitlines())) > c.WIDTH:
        line = most + "\n" + c.wrapped(f"      {needed}", lens, ")", " +")
    return line + "    return 0;\n"


def writer(kind, numbers):
    """The public function that writes a kind."""
    front = type_bytes(kind.number)
    varints = [name for name, field in numbers if field["kind"] == "number"]
    greatest = next((f"(uint64_t)1 << {field['max'].bit_length() - 1}" for _, field in numbers if "max" in field), MOST)
    made = documented(f"{kind.name}{place(kind.rows[0])}.")
    arguments = [*[("uint64_t", name) for name, _ in numbers], ("uint8_t *", "dest"), ("size_t", "destlen")]
    made += opening("size_t", f"{kind.word}_write", arguments, NEAR)
    made += "  uint8_t *at = dest;\n"
    made += bounds(varints, greatest) + room(len(front) + 8 * (len(numbers) - len(varints)), varints)
    made += "".join(f"  *at++ = {byte:#04x};\n" for byte in front)
    made += "".join(f"  at = quic_wire_put_{'varint' if field['kind'] == 'number' else 'uint64'}_(at, {name});\n"
                    for name, field in numbers)
    return made + "  return (size_t)(at - dest);\n}\n"


# ---- the file

def made(formats):
    """The file, in which readers and writers are what the formats say."""
    kinds, shapes = kinds_of(formats), {}
    for kind in kinds:
        if kind.name not in LEFT:
            shapes.setdefault(kind.shape(), []).append(kind)
    named = {kind.name: of[0].word for of in shapes.values() for kind in of}
    writers = [writer(kind, numbers) for kind in kinds if (numbers := written_numbers(kind)) is not None]
    return c.with_blocks(read(PATH), [
        "\n".join(row_reader(of[0]) for of in shapes.values()),
        "\n".join(reader(kind, named[kind.name]) for kind in kinds if kind.name in named),
        "".join(cases(of, of[0].word) for of in shapes.values()),
        "\n".join(writers)])


def unchecked():
    """What changed since scripts/lib/near.py passed."""
    passed = near_rows.PASSED.read_text().splitlines()
    for line in near_rows.digests():
        if line not in passed:
            yield f"{line.split()[1]} changed since scripts/lib/near.py passed: run it, with z3 and pycparser"
