//! Frames: RFC 9000, section 19; RFC 9221, section 4; the ACK frequency extension.
use super::{Place, closed};
use crate::formats::{Frame, REASONS};
use crate::output::{Field, Value};
use quic_wire::fields;
use quic_wire::frame::{InvalidFrame, Rules};
use quic_wire::transport_error::Code;

const INVALID_TYPE: &str = "invalid frame ID";
const MALFORMED: &str = "malformed";
// Of a frame that quinn-proto accepts.
const LIMIT: &str = "limit exceeded";

/// What is known about a payload without frames.
pub fn of_empty_payload() -> Vec<Field<'static>> {
    closed(Code::PROTOCOL_VIOLATION, "RFC 9000, section 12.4").to_vec()
}

/// What is known about an invalid frame that begins at an offset of the payload.
pub fn of_frame(payload: &[u8], begin: usize, rules: Rules, invalid: &InvalidFrame) -> Vec<Field<'static>> {
    let place = place(&payload[begin..], rules).map(|place| place.fields(begin));
    let why = broken_rule(invalid).map(|why| ("why", Value::sentence(why)));
    let closed = closed(invalid.to_error().code, section(invalid));
    [place.as_slice().as_flattened(), why.as_slice(), &closed].concat()
}

// A frame's section says which values it may have; that of an ACK's ranges is their own.
fn section(invalid: &InvalidFrame) -> &'static str {
    let row = invalid.ty.and_then(|ty| Frame::of(ty.into_inner()));
    let reason = REASONS.iter().find(|reason| reason.text == invalid.reason);
    match (row, reason) {
        (Some(row), _) if row.name == "ACK" && invalid.reason == MALFORMED => "RFC 9000, section 19.3.1",
        (Some(row), _) if [MALFORMED, LIMIT].contains(&invalid.reason) => row.section,
        (_, reason) => reason.map_or("", |reason| reason.section),
    }
}

/// What is wrong with a frame that quinn-proto accepts and RFC 9000 forbids.
pub fn broken_rule(invalid: &InvalidFrame) -> Option<&'static str> {
    match (invalid.reason, u64::from(invalid.ty?)) {
        (INVALID_TYPE, 0x1f | 0xaf) => Some("the ACK frequency extension wasn't negotiated"),
        (MALFORMED, 0x07) => Some("the token is empty"),
        (LIMIT, 0x12 | 0x13 | 0x16 | 0x17) => Some("it is greater than 2^60"),
        (LIMIT, _) => Some("the data end past 2^62 - 1"),
        _ => None,
    }
}

// The field of a frame that is cut off, has an invalid value or breaks a rule.
fn place(frame: &[u8], rules: Rules) -> Option<Place> {
    let fields = fields::of_frame(frame, rules);
    // The type comes first in all rows.
    let ty = fields.spans().first().map_or(0, |span| span.number);
    Place::of(Frame::of(ty)?.fields, &fields)
}
