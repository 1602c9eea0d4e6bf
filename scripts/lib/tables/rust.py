"""rust/program/src/formats.rs."""
import json

from lib.tables import classes, shown
from lib.tables.formats import MADE, filled, headers, wanted

PATH = "rust/program/src/formats.rs"
BEGIN = f"""//! What the RFCs call the fields of frames, headers and parameters, where they describe them, and how
//! these are shown.
//! {MADE}
#![allow(dead_code)]

/// A field, by its index in its row; 0 is the type of a frame, the first byte of a header.
#[derive(Clone, Copy, Debug, PartialEq)]
pub struct Field {{
    /// Its name in the RFC. A rule, which has no bytes, has that of the field which it limits.
    pub name: &'static str,
    /// The names of the numbers before its bytes: a length; of the ranges of an ACK their count, the first range, a gap
    /// and a length.
    pub numbers: &'static [&'static str],
}}

/// How a field is shown.
#[derive(Clone, Copy)]
pub enum Kind {{
    Number,
    Flag,
    Direction,
    /// The transport's code, with its name.
    Code,
    /// A type of frame, with its name; 0 isn't shown.
    Type,
    /// The eight bytes of a number.
    Eight,
    Bytes,
    /// Bytes with their length.
    Data,
    /// As text and as bytes.
    Text,
    Ranges,
    Address,
}}

/// A field that is shown, under quinn-proto's name.
pub struct Shown {{
    pub name: &'static str,
    pub kind: Kind,
    /// Its index in its row.
    pub field: usize,
}}

/// A type of frame.
pub struct Frame {{
    pub ty: u64,
    pub name: &'static str,
    pub section: &'static str,
    pub fields: &'static [Field],
    /// In this order.
    pub shown: &'static [Shown],
}}

impl Frame {{
    /// The one with a type.
    pub fn of(ty: u64) -> Option<&'static Frame> {{
        FRAMES.iter().find(|frame| frame.ty == ty)
    }}
}}

/// A header; the version and the type's two bits are 0 if it has none.
pub struct Header {{
    pub version: u32,
    pub type_bits: u8,
    pub name: &'static str,
    pub section: &'static str,
    pub fields: &'static [Field],
    /// The names of what follows the header.
    pub after: &'static [&'static str],
    /// What is shown of it, under these names, in this order.
    pub shown: &'static [&'static str],
}}

/// A transport parameter.
pub struct Parameter {{
    pub id: u64,
    /// Its name in the RFC.
    pub name: &'static str,
    /// Its name in `quinn-proto`.
    pub quinn_proto: &'static str,
    pub kind: Kind,
    /// The number that it has if it isn't there.
    pub default: Option<u64>,
    /// What its value must be.
    pub wanted: &'static str,
    pub section: &'static str,
    /// Whether a client must not send it.
    pub is_servers: bool,
    /// Whether `quinn-proto` accepts it more than once.
    pub may_repeat: bool,
    /// Whether `quinn-proto` rejects its number if that isn't in its shortest encoding.
    pub is_shortest: bool,
}}

/// Why something is rejected, by the number that the library returns in C.
pub struct Reason {{
    pub number: i32,
    /// The code to close with; 0 if nothing is closed.
    pub close_code: u64,
    pub section: &'static str,
    pub text: &'static str,
}}

const fn plain(name: &'static str) -> Field {{
    Field {{ name, numbers: &[] }}
}}

const fn with(name: &'static str, numbers: &'static [&'static str]) -> Field {{
    Field {{ name, numbers }}
}}

const fn shown(name: &'static str, kind: Kind, field: usize) -> Shown {{
    Shown {{ name, kind, field }}
}}
"""


def text(value):
    """A value as Rust has it."""
    if isinstance(value, list):
        return "&[" + ", ".join(map(text, value)) + "]"
    return json.dumps(value)


def field(one, fields):
    limited = fields[one["at_most"]["field"]] if "at_most" in one else one
    numbers = [number["name"] for number in ([one["length"]] if "length" in one else one.get("numbers", []))]
    name = text(limited.get("name", "First Byte"))
    return f"with({name}, {text(numbers)})" if numbers else f"plain({name})"


def struct(name, members):
    made = filled(f"{name} {{ ", [f"{word}: {value}" for word, value in members.items()], " }", "    ")
    return "    " + made.replace("{ \n", "{\n").replace("\n     }", "\n    }") + ",\n"


def rows(members, fields):
    return {**members, "fields": filled("&[", [field(one, fields) for one in fields], "]", " " * 8)}


def frame(one):
    members = {"ty": f"{one['type']:#04x}", "name": text(one["name"]), "section": text(one["section"])}
    fields = [f'shown("{name}", Kind::{kind}, {index})' for name, kind, index in shown.fields(one)]
    return struct("Frame", {**rows(members, one["fields"]), "shown": filled("&[", fields, "]", " " * 8)})


def header(version, _, one):
    return struct("Header", {
        **rows({
            "version": hex(version), "type_bits": one.get("type_bits", 0), "name": text(one["name"]),
            "section": text(one["section"])}, one["fields"]),
        "after": text([part["name"] for part in one["after"]]), "shown": text([*shown.of_header(one)])})


def parameter(one):
    return struct("Parameter", {
        "id": hex(one["id"]), "name": text(one["name"]), "quinn_proto": text(one.get("quinn_proto", one["name"])),
        "kind": f"Kind::{shown.kind(one)}", "default": f"Some({one['default']})" if "default" in one else "None",
        "wanted": text(wanted(one, "a number of variable length")), "section": text(one["section"]),
        "is_servers": text(one["senders"] == ["server"]), "may_repeat": text(one["repeat"]["quinn_proto"]),
        "is_shortest": text(not one.get("any_width", {"quinn_proto": True})["quinn_proto"]),
    })


def reason(one):
    return struct("Reason", {
        "number": one["number"], "close_code": hex(one["close_code"]), "section": text(one.get("section", "")),
        "text": text(one["text"]),
    })


def made(formats):
    address = formats["preferred_address"]
    tables = {
        "/// The frames, by their types.\npub const FRAMES: &[Frame] = &[": map(frame, formats["frames"]),
        "/// The headers.\npub const HEADERS: &[Header] = &[": (header(*one) for one in headers(formats)),
        "/// The parameters that the library knows, in the order in which it writes them.\n"
        "pub const PARAMETERS: &[Parameter] = &[": map(parameter, classes.parameters(formats)),
        "/// The fields of a preferred address.\npub const PREFERRED_ADDRESS: &[Field] = &[":
            (f"    {field(one, address)},\n" for one in address),
        "/// The reasons.\npub const REASONS: &[Reason] = &[": map(reason, formats["reasons"]),
    }
    return BEGIN + "".join(f"\n{begin}\n{''.join(some)}];\n" for begin, some in tables.items())
