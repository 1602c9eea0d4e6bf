//! The types of frames.
use crate::formats::Made;
use crate::formats::line::Line;
use crate::proved::quic_base::coding::BufMutExt;
use crate::proved::quic_base::ids::Side;
use crate::proved::quic_base::varint::VarInt;
use crate::proved::quic_fields::row::{Kind, row};
use crate::proved::quic_frames::frame::{FrameType, Iter, Rules};
use crate::proved::quic_permitted::permitted::{PacketType, Part, Permission};
use crate::tested::quic_formats::frame_names::{FRAMES, GREATEST, Label, Names, RANGES};

const PACKETS: [(PacketType, &str); 4] = [
    (PacketType::Initial, "Initial"),
    (PacketType::Handshake, "Handshake"),
    (PacketType::ZeroRtt, "0-RTT"),
    (PacketType::OneRtt, "1-RTT"),
];

// The least and the most bytes of an id in a frame.
const LEAST_ID: u64 = 1;

const MOST_ID: u64 = 20;

/// A line for each type.
pub(crate) fn lines() -> Made<Vec<Line>> {
    let mut lines = Vec::new();
    for names in FRAMES {
        let (first, last) = names.types;
        for ty in first..=last {
            lines.push(line(ty, names)?);
        }
    }
    if lines.len() != count_of_rows() {
        return Err("a type of frames has no names".into());
    }
    Ok(lines)
}

// How many types of one or two bytes have a row.
fn count_of_rows() -> usize {
    let mut count: usize = 0;
    for ty in 0..0x4000u16 {
        if row(u64::from(ty)).is_some() {
            count += 1;
        }
    }
    count
}

fn line(ty: u16, names: &Names) -> Made<Line> {
    let number = u64::from(ty);
    let Some(kinds) = row(number) else {
        return Err("no frame has a type that has names".into());
    };
    if kinds.len() != names.fields.len() {
        return Err("a row has other fields than names".into());
    }
    let mut line = Line::new();
    line.number("type", number);
    line.text("name", names.name);
    let ty_name = FrameType::of(number);
    let alias = format!("{ty_name}");
    if alias.as_str() != names.name {
        line.text("quinn_proto", alias.as_str());
    }
    line.text("section", names.section);
    write_permission(&mut line, number)?;
    write_spec(&mut line, ty, kinds, names.spec)?;
    line.open("fields", "[");
    write_fields(&mut line, ty, kinds, names.fields)?;
    line.close("]}");
    Ok(line)
}

// Where a frame may be.
fn write_permission(line: &mut Line, ty: u64) -> Made<()> {
    let Some(permission) = Permission::of_type(ty, Rules::default()) else {
        return Err("a type has no row of packets".into());
    };
    line.open("packets", "[");
    for (packet, name) in PACKETS {
        if packet.may_carry(permission.packets) {
            line.word(name);
        }
    }
    line.close("]");
    line.open("senders", "[");
    for (side, name) in [(Side::Client, "client"), (Side::Server, "server")] {
        if permission.may_send(side) {
            line.word(name);
        }
    }
    line.close("]");
    match permission.part {
        Part::None => {}
        Part::SendsData => line.text("stream", "sends data"),
        Part::ReceivesData => line.text("stream", "receives data"),
    }
    if Permission::of_type(ty, Rules::RFC).is_none() {
        line.text("extension", "ack-frequency");
    }
    Ok(())
}

// The rules of table 3. N is compared with what is proved of a frame of the type.
fn write_spec(line: &mut Line, ty: u16, kinds: &[Kind], spec: &str) -> Made<()> {
    let bytes = sample(ty, kinds, 0, 0)?;
    let Some((eliciting, _)) = read(bytes.as_slice()) else {
        return Err("a row isn't that of a frame".into());
    };
    if eliciting == spec.contains('N') {
        return Err("table 3 has another N".into());
    }
    line.text("spec", spec);
    line.flag("ack_eliciting", eliciting);
    line.flag("in_flight", eliciting || ty == 0x00);
    line.flag("counted_in_flight", !spec.contains('C'));
    line.flag("probing", spec.contains('P'));
    line.flag("flow_controlled", spec.contains('F'));
    Ok(())
}

// A frame of a type, whose numbers are 0 except for the field with an index.
fn sample(ty: u16, kinds: &[Kind], index: usize, number: u64) -> Made<Vec<u8>> {
    let mut bytes = Vec::new();
    bytes.write(VarInt::from_u64(u64::from(ty))?)?;
    for (at, kind) in kinds.iter().enumerate() {
        match kind {
            Kind::Varint if at + 1 == index => bytes.write(VarInt::from_u64(number)?)?,
            Kind::Varint | Kind::Counted => bytes.push(0),
            Kind::Id if at + 1 == index => write_id(&mut bytes, number)?,
            Kind::Id => write_id(&mut bytes, LEAST_ID)?,
            Kind::Uint64 => bytes.extend_from_slice(&[0; 8]),
            Kind::Bytes16 => bytes.extend_from_slice(&[0; 16]),
            Kind::Blocks => bytes.extend_from_slice(&[0, 0]),
            Kind::Rest | Kind::Implied(_) | Kind::Ordered => {}
        }
    }
    Ok(bytes)
}

// An id of so many bytes.
fn write_id(bytes: &mut Vec<u8>, len: u64) -> Made<()> {
    bytes.write(VarInt::from_u64(len)?)?;
    for _ in 0..len {
        bytes.push(0);
    }
    Ok(())
}

// Whether the frame of a payload, which has no other, is ack-eliciting, and whether it keeps RFC 9000's rules. `None`
// if the payload isn't one frame.
fn read(payload: &[u8]) -> Option<(bool, bool)> {
    let Ok(mut frames) = Iter::new(payload) else {
        return None;
    };
    let (Some(Ok(frame)), None) = (frames.next(), frames.next()) else {
        return None;
    };
    Some((frame.is_ack_eliciting(), Rules::RFC.breach(&frame).is_none()))
}

fn write_fields(line: &mut Line, ty: u16, kinds: &[Kind], labels: &[Label]) -> Made<()> {
    line.field(0, "number");
    line.named("Type");
    line.text("unit", "frame type");
    line.close("}");
    let mut index: usize = 0;
    for (kind, label) in kinds.iter().zip(labels) {
        index += 1;
        if *kind == Kind::Id {
            check_id(ty, kinds, index)?;
        }
        write_field(line, index, *kind, *label)?;
        if let Some(most) = greatest(ty, kinds, index)? {
            line.number("max", most);
        }
        line.close("}");
    }
    Ok(())
}

// The field, except for its end.
fn write_field(line: &mut Line, index: usize, kind: Kind, label: Label) -> Made<()> {
    line.field(index, name_of(kind));
    if kind == Kind::Ordered {
        line.open("at_most", "{");
        line.number("field", index as u64 - 1);
        line.number("of", index as u64 - 2);
        line.close("}");
        return Ok(());
    }
    write_label(line, label);
    match kind {
        Kind::Counted => line.length_if_any(label.2),
        Kind::Id => {
            line.length_if_any(label.2);
            line.bytes(LEAST_ID, MOST_ID);
        }
        Kind::Uint64 => line.bytes(8, 8),
        Kind::Bytes16 => line.bytes(16, 16),
        Kind::Implied(value) => line.number("value", value),
        Kind::Blocks => write_ranges(line),
        Kind::Varint | Kind::Rest | Kind::Ordered => {}
    }
    Ok(())
}

// Compares the bounds of an id's length with what is read.
fn check_id(ty: u16, kinds: &[Kind], index: usize) -> Made<()> {
    for len in LEAST_ID - 1..=MOST_ID + 1 {
        let is_read = read(sample(ty, kinds, index, len)?.as_slice()).is_some();
        if is_read != (LEAST_ID..=MOST_ID).contains(&len) {
            return Err("an id has other bounds".into());
        }
    }
    Ok(())
}

fn write_label(line: &mut Line, label: Label) {
    line.named(label.0);
    line.text_if_any("unit", label.1);
}

fn write_ranges(line: &mut Line) {
    line.open("numbers", "[");
    for label in RANGES {
        line.item();
        write_label(line, label);
        line.close("}");
    }
    line.close("]");
}

fn name_of(kind: Kind) -> &'static str {
    match kind {
        Kind::Varint => "number",
        Kind::Counted => "counted",
        Kind::Id => "id",
        Kind::Uint64 => "uint64",
        Kind::Bytes16 => "bytes",
        Kind::Blocks => "ranges",
        Kind::Rest => "rest",
        Kind::Implied(_) => "implied",
        Kind::Ordered => "ordered",
    }
}

// The greatest number of a field, if RFC 9000 limits it. It is compared with what is proved of the rules.
fn greatest(ty: u16, kinds: &[Kind], index: usize) -> Made<Option<u64>> {
    for (limited, field, most) in GREATEST {
        if limited == ty && field == index {
            let at_most = sample(ty, kinds, index, most)?;
            let above = sample(ty, kinds, index, most + 1)?;
            let readings = (read(at_most.as_slice()), read(above.as_slice()));
            let (Some((_, true)), Some((_, false))) = readings else {
                return Err("a field has another greatest number".into());
            };
            return Ok(Some(most));
        }
    }
    Ok(None)
}
