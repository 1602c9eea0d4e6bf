//! Packet headers: RFC 9000, section 17; RFC 8999.
use super::Place;
use crate::formats::{HEADERS, Header};
use crate::output::{Field, Value};
use quic_wire::datagram::HeaderError;
use quic_wire::fields::{self, Fields};

/// Why a packet is rejected whose fixed bit is clear.
pub const FIXED_BIT: &str = "fixed bit unset";
// The same for a Retry that isn't whole.
const RETRY: &str = "Retry without a token or a tag";
// The index of a version, and those of ids.
const VERSION: usize = 1;
const IDS: [usize; 2] = [2, 3];

// What happens to a packet, and the section that says so.
fn dropped(section: &'static str) -> [Field<'static>; 2] {
    [("then", Value::sentence("the packet is dropped")), ("section", Value::sentence(section))]
}

/// What is known about a header that begins at an offset of the datagram.
pub fn of_header(
    packet: &[u8],
    begin: usize,
    cid_len: usize,
    versions: &[u32],
    error: &HeaderError,
) -> Vec<Field<'static>> {
    let fields = fields::of_packet(packet, cid_len, versions);
    let row = row(&fields);
    let (place, after) = match error {
        HeaderError::UnsupportedVersion(_) => {
            let then = "a server responds with a version negotiation, a client drops the packet";
            let section =
                [("then", Value::sentence(then)), ("section", Value::sentence("RFC 9000, sections 5.2.1 and 5.2.2"))];
            (Place::of(row.fields, &fields), section)
        }
        // The Length is the last field of a header.
        HeaderError::CutOff(_) => {
            let length = fields.spans().last();
            let place = length.map(|span| Place { field: row.fields[span.field].name, at: span.start });
            (place, dropped("RFC 9000, section 12.2"))
        }
        HeaderError::InvalidHeader(FIXED_BIT) => {
            let is_long = packet.first().is_some_and(|first| first & 0x80 != 0);
            let section = if is_long { "RFC 9000, section 17.2" } else { "RFC 9000, section 17.3.1" };
            (Some(Place { field: "Fixed Bit", at: 0 }), dropped(section))
        }
        HeaderError::InvalidHeader(RETRY) => (lacking(row, &fields), dropped("RFC 9000, section 17.2.5.2")),
        HeaderError::InvalidHeader(_) => {
            // An id's length above 20, if it is there.
            let is_long_id = fields
                .fault()
                .is_some_and(|fault| IDS.contains(&fault.field) && fault.numbers == 0 && fault.start < packet.len());
            let section = if is_long_id { "RFC 9000, section 17.2" } else { "RFC 9000, section 12.2" };
            (Place::of(row.fields, &fields), dropped(section))
        }
    };
    let place = place.map(|place| place.fields(begin));
    [place.as_slice().as_flattened(), &after].concat()
}

// The header's row. Drafts have the headers of version 1, and all versions the fields up to the ids.
fn row(fields: &Fields) -> &'static Header {
    let number = |index: usize| fields.spans().get(index).map_or(0, |span| span.number);
    let (first, version) = (number(0), number(VERSION));
    let version = HEADERS.iter().find(|row| u64::from(row.version) == version).map_or(1, |row| row.version);
    let is_it = |row: &&Header| match row.name {
        "1-RTT" => first < 0x80,
        _ if first < 0x80 => false,
        "Version Negotiation" => version == 0,
        _ => row.version == version && u64::from(row.type_bits) == first >> 4 & 3,
    };
    HEADERS.iter().find(is_it).unwrap_or(&HEADERS[0])
}

// What a Retry lacks: the token if the tag is there, else the tag.
fn lacking(row: &Header, fields: &Fields) -> Option<Place> {
    let begin = fields.spans().get(row.fields.len()).map(|token| token.start);
    let field = if begin.is_some() { row.after.first() } else { row.after.last() };
    field.map(|field| Place { field, at: begin.unwrap_or(fields.end()) })
}
