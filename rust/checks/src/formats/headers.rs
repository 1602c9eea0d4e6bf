//! The headers of packets.
use crate::formats::Made;
use crate::formats::line::Line;
use crate::proved::quic_header_encode::long_type::{FIXED_BIT, LONG_HEADER_FORM, LongHeaderType, LongType, VERSION_2};
use crate::proved::quic_header_fields::row::{Kind, row};
use crate::tested::quic_formats::header_names::{
    After, Bits, Field, HANDSHAKE, INITIAL, NEGOTIATION, Names, ONE_RTT, RETRY, ZERO_RTT, field_of,
};

/// A line for each header: long ones of version 1 and of version 2 in the order of their types, and those of all
/// versions.
pub(crate) fn lines() -> Made<Vec<Line>> {
    let mut lines = Vec::new();
    for version in [1, VERSION_2] {
        for number in 0..4u8 {
            lines.push(long(version, number)?);
        }
    }
    lines.push(line(0, LONG_HEADER_FORM, NEGOTIATION)?);
    lines.push(line(0, FIXED_BIT, ONE_RTT)?);
    Ok(lines)
}

fn long(version: u32, number: u8) -> Made<Line> {
    let first = LONG_HEADER_FORM | FIXED_BIT | (number % 4 * 16);
    let names = match LongHeaderType::from_byte(first, version) {
        LongHeaderType::Initial => INITIAL,
        LongHeaderType::Standard(LongType::ZeroRtt) => ZERO_RTT,
        LongHeaderType::Standard(LongType::Handshake) => HANDSHAKE,
        LongHeaderType::Retry => RETRY,
    };
    line(version, first, names)
}

// A header with this first byte. The version is 0 for headers that are the same in all.
fn line(version: u32, first: u8, names: Names) -> Made<Line> {
    let mut line = Line::new();
    line.text("name", names.name);
    if version != 0 {
        line.number("version", u64::from(version));
        line.number("type_bits", u64::from(first / 16 % 4));
    }
    line.text("section", names.section);
    if version == VERSION_2 {
        line.text("version_section", "RFC 9369, section 3.2");
    }
    line.open("first_byte", "[");
    write_bits(&mut line, first, version, names.bits)?;
    line.close("]");
    line.open("fields", "[");
    write_fields(&mut line, row(first, version), version);
    line.close("]");
    line.open("after", "[");
    for After(name, least, most, is_repeated) in names.after {
        line.item();
        line.named(name);
        write_bytes(&mut line, *least, *most);
        if *is_repeated {
            line.flag("repeated", true);
        }
        line.close("}");
    }
    line.close("]}");
    Ok(line)
}

// The bits of the first byte, the highest first, of which there must be eight.
fn write_bits(line: &mut Line, first: u8, version: u32, others: &[Bits]) -> Made<()> {
    let mut count: u64 = 1;
    let form = u64::from(first / LONG_HEADER_FORM);
    write_bit(line, Bits("Header Form", 1, Some(form)));
    if first / FIXED_BIT % 2 == 1 {
        count = 2;
        write_bit(line, Bits("Fixed Bit", 1, Some(1)));
    }
    if version != 0 {
        count += 2;
        let number = u64::from(first / 16 % 4);
        write_bit(line, Bits("Long Packet Type", 2, Some(number)));
    }
    for bits in others {
        count += bits.1;
        write_bit(line, *bits);
    }
    if count != 8 {
        return Err("a first byte hasn't eight bits".into());
    }
    Ok(())
}

fn write_bit(line: &mut Line, bits: Bits) {
    line.item();
    line.named(bits.0);
    line.number("bits", bits.1);
    if let Some(value) = bits.2 {
        line.number("value", value);
    }
    line.close("}");
}

// The fields of a row. Among the headers of all versions, only a version negotiation has a version: 0.
fn write_fields(line: &mut Line, kinds: &[Kind], version: u32) {
    line.field(0, "first_byte");
    line.bytes(1, 1);
    line.close("}");
    let mut index: usize = 0;
    for kind in kinds {
        index += 1;
        let Field(word, name, length, least, most) = field_of(*kind);
        line.field(index, word);
        line.named(name);
        line.length_if_any(length);
        write_bytes(line, least, most);
        if *kind == Kind::Version && version == 0 {
            line.number("value", 0);
        }
        line.close("}");
    }
}

fn write_bytes(line: &mut Line, least: u64, most: u64) {
    if most > 0 {
        line.bytes(least, most);
    }
}
