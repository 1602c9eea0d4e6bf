//! Prints `formats.json`: the frames, the packets' headers and the transport parameters of QUIC, field by field, and
//! the errors. It takes from the proved code what that says: the fields of each row and their kinds, numbers, defaults,
//! packets and senders. Names, units and sections are in the tables here. It fails if a table differs from the proved
//! code: in a number, in how many fields a type has, in a bound. `docs/formats.json` is the file.

mod frames;
mod headers;
mod line;
mod parameters;
mod reasons;

use crate::formats::line::Line;

// The kinds of fields, and what the library's spans have as their numbers.
const KINDS: [(&str, &str); 16] = [
    ("number", "a number of any width; its value"),
    ("counted", "a number n of any width and n bytes; n"),
    ("id", "a byte n and n bytes; n"),
    ("uint64", "eight bytes, the highest first; their value"),
    ("uint32", "four bytes, the highest first; their value"),
    ("bytes", "bytes; how many"),
    ("rest", "all bytes that are left; how many"),
    ("ranges", "numbers of any width: a count, the first range, and for each other its gap and its length; the count"),
    ("implied", "no bytes; the value that the type implies"),
    ("ordered", "no bytes: a rule on two fields before; 0"),
    ("first_byte", "the first byte of a header; its value"),
    ("supported", "no bytes: the version is known; 0"),
    ("token", "as many bytes as the number before says; how many"),
    ("short_id", "an id whose length isn't written; how many bytes"),
    ("flag", "no bytes: the parameter is present"),
    ("skipped", "any bytes, which are ignored"),
];

/// What may fail: a table differs from the proved code.
pub(crate) type Made<T> = Result<T, Box<dyn std::error::Error>>;

/// Prints the file.
pub fn main() -> Made<()> {
    println!("{{");
    println!("\"$schema\": \"formats.schema.json\",");
    println!("\"version\": 1,");
    print_rows("kinds", &kinds(), ",");
    print_rows("frames", &frames::lines()?, ",");
    print_rows("headers", &headers::lines()?, ",");
    print_rows("parameters", &parameters::lines()?, ",");
    print_rows("preferred_address", &parameters::address_lines(), ",");
    print_rows("error_codes", &reasons::code_lines()?, ",");
    print_rows("reasons", &reasons::lines()?, "");
    println!("}}");
    Ok(())
}

fn kinds() -> Vec<Line> {
    let mut lines = Vec::new();
    for (kind, meaning) in KINDS {
        let mut line = Line::new();
        line.text("kind", kind);
        line.text("meaning", meaning);
        line.close("}");
        lines.push(line);
    }
    lines
}

// A list, with a line for each item.
fn print_rows(name: &str, rows: &[Line], after: &str) {
    println!("\"{name}\": [");
    for (index, row) in rows.iter().enumerate() {
        let comma = if index + 1 < rows.len() { "," } else { "" };
        println!("{}{comma}", row.as_str());
    }
    println!("]{after}");
}
