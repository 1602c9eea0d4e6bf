//! Where each field of a frame, of a packet or of a transport parameter is in its bytes, and which field is at fault in
//! bytes that are rejected: for tools that show bytes, and for messages about bytes from a peer. It is slower than the
//! readers. No field of a packet is at fault if its header is read but something else is missing: the rest of its
//! length, or a Retry's token or tag.
//!
//! Fields have indices. Index 0 of a frame is its type, and then come FIN or the direction of streams, which the type
//! says, and the fields in the order of RFC 9000, section 19. Index 3 of a NEW_CONNECTION_ID is a rule and has no bytes:
//! Retire Prior To is at most the sequence number. The repository's docs/formats.json has their names.
//!
//! ```
//! use quic_wire::fields;
//! use quic_wire::frame::Rules;
//! // STREAM with an offset and a length: type, FIN, Stream ID, Offset, and Stream Data with its length.
//! let frame = fields::of_frame(&[0x0e, 0x04, 0x40, 0x10, 0x02, b'h', b'i'], Rules::RFC);
//! assert!(frame.fault().is_none());
//! let offset = frame.spans()[3];
//! assert_eq!((offset.start, offset.end, offset.number), (2, 4, 16));
//! // The same, cut off in its data.
//! let frame = fields::of_frame(&[0x0e, 0x04, 0x40, 0x10, 0x02, b'h'], Rules::RFC);
//! let fault = frame.fault().unwrap();
//! assert_eq!((fault.field, fault.start, fault.reason), (4, 4, "unexpected end"));
//! ```
use crate::datagram::reason_of;
use crate::frame::Rules;
use crate::ids::MAX_CID_SIZE;
use crate::proved::quic_fields::entry::entry_spans;
use crate::proved::quic_fields::field::Reach;
use crate::proved::quic_fields::rules::{frame_spans_by, reach_of};
use crate::proved::quic_header_fields::packet::packet_spans;
use crate::proved::quic_param_fields::value::{Reason, value_spans};

pub use crate::proved::quic_fields::field::Span;

// No packet has more fields, with those after its header.
const MOST: usize = 10;
const UNSET: Span = Span { field: 0, start: 0, end: 0, number: 0 };

/// The field that can't be read, or that breaks a rule.
#[derive(Clone, Copy, Debug, PartialEq, Eq, Hash)]
pub struct Fault {
    /// Its index.
    pub field: usize,
    /// Where it begins.
    pub start: usize,
    /// How many of its bytes come before what is at fault: after a length that was read, its data are at fault.
    pub inside: usize,
    /// How many numbers these bytes are: 0 if the field's first number, such as its length, is at fault, 1 if it is what
    /// follows that. In an ACK's ranges 1 is the first range, and then come gaps and lengths in turn.
    pub numbers: u64,
    /// Why.
    pub reason: &'static str,
}

/// The fields at the front of bytes, in order, up to one at fault. Each span begins where the one before it ends.
#[derive(Clone, Copy, Debug, PartialEq, Eq)]
pub struct Fields {
    spans: [Span; MOST],
    count: usize,
    fault: Option<Fault>,
}

impl Fields {
    /// The fields that were read.
    pub fn spans(&self) -> &[Span] {
        &self.spans[..self.count]
    }

    /// The field after them, if it can't be read.
    pub fn fault(&self) -> Option<&Fault> {
        self.fault.as_ref()
    }

    /// Where the last field that was read ends.
    pub fn end(&self) -> usize {
        self.spans().last().map_or(0, |span| span.end)
    }
}

// What a walk found, which says how far it came and why not further.
fn found(walk: impl FnOnce(&mut [Span]) -> (Option<&'static str>, Reach)) -> Fields {
    let mut spans = [UNSET; MOST];
    let (reason, Reach { count, end, inside, numbers }) = walk(&mut spans);
    let fault = reason.map(|reason| Fault { field: count, start: end, inside, numbers, reason });
    Fields { spans, count, fault }
}

/// The fields of the frame at the front of a payload: its type, and then those of its row (RFC 9000, section 19). The
/// number of bytes is how many they are; they end where the field does, and in front of them is their length, if they
/// have one. The number of an ACK's ranges is how many are below the first. A field without bytes has the number that
/// the type implies. If the frame breaks a rule, the field of that rule is at fault: the type, an empty token's length,
/// a number of streams, or the last number of a frame whose data end too far.
pub fn of_frame(payload: &[u8], rules: Rules) -> Fields {
    found(|room| {
        let (refusal, reach) = frame_spans_by(rules, payload, room);
        (refusal.map(|refusal| refusal.reason()), reach)
    })
}

/// The fields of the entry at the front of a list of transport parameters: its id, and its value with the value's length
/// (RFC 9000, section 18).
///
/// ```
/// use quic_wire::fields;
/// let entry = fields::of_entry(&[0x04, 0x02, 0x40, 0x64]);
/// assert_eq!((entry.spans()[0].number, entry.spans()[1].number), (4, 2));
/// ```
pub fn of_entry(list: &[u8]) -> Fields {
    found(|room| {
        let walked = entry_spans(list, room);
        (walked.fault.map(|fault| fault.reason()), reach_of(walked))
    })
}

/// The fields of a parameter's value (RFC 9000, section 18.2): a number, an id, a token, or other bytes; those of a
/// preferred address; none of a parameter without a value. What is at fault is what a list is rejected for, except
/// repeats, parameters that a client must not send, and a `min_ack_delay` above `max_ack_delay`. With `any_width`
/// integers may be in any encoding, as in
/// [`ReadOptions`](crate::transport_parameters::ReadOptions). Of an unknown parameter every value is accepted.
///
/// ```
/// use quic_wire::fields;
/// let value = fields::of_value(0x0b, &[0x40, 0x19], true); // max_ack_delay
/// assert_eq!(value.spans()[0].number, 25);
/// let value = fields::of_value(0x0b, &[0x80, 0, 0x40, 0], true);
/// assert_eq!(value.fault().unwrap().reason, "out of range");
/// ```
pub fn of_value(id: u64, value: &[u8], any_width: bool) -> Fields {
    found(|room| {
        let walked = value_spans(id, value, any_width, room);
        let reason = walked.fault.map(|reason| match reason {
            Reason::UnexpectedEnd => "unexpected end",
            Reason::LongId => "an id of more than 20 bytes",
            Reason::BytesLeft => "bytes after the value",
            Reason::LongNumber => "a number not in its shortest encoding",
            Reason::OutOfRange => "out of range",
            Reason::NoAddress => "neither an IPv4 nor an IPv6 address",
            Reason::EmptyId => "an empty id",
        });
        let reach = Reach { count: walked.count, end: walked.end, inside: walked.inside, numbers: walked.numbers };
        (reason, reach)
    })
}

/// The fields of the packet at the front of a datagram (RFC 9000, section 17; RFC 8999). Index 0 is the first byte, 1 the
/// version, 2 and 3 are the ids with their lengths, 4 has no bytes and stands for a version that is known, and then come
/// the token's length, the token and the length, as far as the type has them. A version negotiation's next field is the
/// list of versions, a Retry's are the token and the integrity tag. A short header has the first byte and the id, of
/// `cid_len` bytes. A version that isn't among `versions` is at fault after the ids. The fixed bit isn't checked.
///
/// ```
/// use quic_wire::fields;
/// // A Handshake packet of 100 bytes, of which one came.
/// let packet = fields::of_packet(&[0xe0, 0, 0, 0, 1, 1, 0xaa, 0, 0x40, 100, 7], 0, &[1]);
/// let length = packet.spans()[5];
/// assert_eq!((length.start, length.end, length.number), (8, 10, 100));
/// ```
///
/// # Panics
///
/// If `cid_len` is above 20.
pub fn of_packet(datagram: &[u8], cid_len: usize, versions: &[u32]) -> Fields {
    assert!(cid_len <= MAX_CID_SIZE, "the ids of short headers have at most 20 bytes");
    found(|room| {
        let walked = packet_spans(datagram, cid_len, versions, room);
        let reach = Reach { count: walked.count, end: walked.end, inside: walked.inside, numbers: walked.numbers };
        (walked.fault.map(reason_of), reach)
    })
}
