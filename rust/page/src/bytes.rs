//! What bytes are: a payload, a datagram or a list of transport parameters, with the fields of each part, for a page
//! that shows them. Offsets count in the bytes that are held.

use quic_wire::canonical::{CanonError, canonical_with};
use quic_wire::datagram::{HeaderChecks, HeaderError, HeaderKind, HeaderPlaces, PacketPlace};
use quic_wire::fields::{self, Fields};
use quic_wire::frame::{Close, Frame, InvalidFrame, Iter, Rules};
use quic_wire::transport_parameters::{Error, ReadOptions, TransportParameters};
use quic_wire::{MAX_CID_SIZE, Side, varint};
use quic_wire_cli::objects::broken_rule;

// Why a payload without bytes is rejected (RFC 9000, section 12.4).
const EMPTY: &str = "packet payload is empty";

/// Whose rules bytes are read by.
#[derive(Clone, Copy, Debug, Default, PartialEq, Eq)]
pub struct Choices {
    /// As RFC 9000 has it, or else as quinn-proto reads.
    pub rfc: bool,
    /// Types of frames must be in their shortest encoding, also as quinn-proto reads.
    pub short_types: bool,
    /// The fixed bit may be clear (RFC 9287).
    pub grease: bool,
    /// How many bytes the ids of short headers have, at most 20.
    pub id_len: usize,
}

/// Why reading ended, and the type of the frame for which it did.
#[derive(Clone, Copy, Debug, PartialEq, Eq)]
pub struct Ending {
    /// The reason, which docs/formats.json of the repository lists.
    pub reason: &'static str,
    /// The type of the frame.
    pub ty: Option<u64>,
    /// What RFC 9000 forbids, if quinn-proto accepts the frame.
    pub rule: Option<&'static str>,
}

impl Choices {
    fn rules(self) -> Rules {
        let rules = if self.rfc { Rules::RFC } else { Rules::default() };
        Rules { short_types: rules.short_types || self.short_types, ..rules }
    }

    fn options(self) -> ReadOptions {
        if self.rfc { ReadOptions::RFC } else { ReadOptions::QUINN }
    }

    fn checks(self) -> HeaderChecks {
        let checks = if self.rfc { HeaderChecks::RFC } else { HeaderChecks::QUINN };
        HeaderChecks { grease_quic_bit: self.grease, ..checks }
    }
}

impl Ending {
    fn without_type(reason: &'static str) -> Ending {
        Ending { reason, ty: None, rule: None }
    }

    /// The reason and, in a second line, the rule.
    pub fn words(self) -> String {
        self.rule.map_or(self.reason.into(), |rule| format!("{}\n{rule}", self.reason))
    }
}

impl From<&InvalidFrame> for Ending {
    fn from(invalid: &InvalidFrame) -> Ending {
        Ending { reason: invalid.reason, ty: invalid.ty.map(u64::from), rule: broken_rule(invalid) }
    }
}

/// The frames of a payload: where each begins and its type, a run of PADDING as one; where the last one ends; and what
/// ended reading early.
pub fn frames(payload: &[u8], choices: Choices) -> (Vec<(usize, u64)>, usize, Option<Ending>) {
    let mut found: Vec<(usize, u64)> = Vec::new();
    let mut frames = match Iter::with_rules(payload, choices.rules()) {
        Ok(frames) => frames,
        Err(_) => return (found, 0, Some(Ending::without_type(EMPTY))),
    };
    loop {
        let begin = frames.offset();
        match frames.next() {
            None => return (found, begin, None),
            Some(Err(invalid)) => return (found, begin, Some(Ending::from(&invalid))),
            Some(Ok(Frame::Padding)) if found.last().is_some_and(|(_, ty)| *ty == 0) => {}
            Some(Ok(frame)) => found.push((begin, u64::from(frame.ty()))),
        }
    }
}

/// What a page says of the frame at an offset, in numbers: whether it has a FIN, 1, or ECN counts, 2; how many bytes of
/// data it has; and five numbers, which are 0 if it has fewer. These are the stream's id, error code and final size; of
/// data 0 or the stream's id, and the offset; 0 or the stream's id, and a limit; of a stream limit 0 and the count; the
/// sequence number, and the number of those that retire; eight bytes of a path; a code; those of ACK_FREQUENCY; and of
/// an ACK the largest number, the delay and the ECN counts. `None` if there is no frame.
pub fn frame(payload: &[u8]) -> Option<[u64; 7]> {
    let (mut flags, mut len) = (0, 0);
    let data = |bytes: &[u8]| bytes.len() as u64;
    let numbers = match Iter::new(payload).ok()?.next()?.ok()? {
        Frame::Ack(ack) => {
            let ecn = ack.ecn();
            flags = u64::from(ecn.is_some()) << 1;
            let [ect0, ect1, ce] = ecn.map_or([0; 3], |ecn| [ecn.ect0, ecn.ect1, ecn.ce]);
            [ack.largest(), ack.delay(), ect0, ect1, ce]
        }
        Frame::ResetStream(one) => [one.id.into(), one.error_code.into(), one.final_offset.into(), 0, 0],
        Frame::StopSending(one) => [one.id.into(), one.error_code.into(), 0, 0, 0],
        Frame::Crypto(crypto) => {
            len = data(crypto.bytes);
            [0, crypto.offset, 0, 0, 0]
        }
        Frame::NewToken(new) => {
            len = data(new.token);
            [0; 5]
        }
        Frame::Stream(stream) => {
            (flags, len) = (stream.fin.into(), data(stream.bytes));
            [stream.id.into(), stream.offset, 0, 0, 0]
        }
        Frame::Datagram(datagram) => {
            len = data(datagram.bytes);
            [0; 5]
        }
        Frame::MaxData(most) => [0, most.into(), 0, 0, 0],
        Frame::DataBlocked { offset } => [0, offset, 0, 0, 0],
        Frame::MaxStreamData { id, offset } | Frame::StreamDataBlocked { id, offset } => [id.into(), offset, 0, 0, 0],
        Frame::MaxStreams { count, .. } => [0, count, 0, 0, 0],
        Frame::StreamsBlocked { limit, .. } => [0, limit, 0, 0, 0],
        Frame::NewConnectionId(new) => [new.sequence, new.retire_prior_to, 0, 0, 0],
        Frame::RetireConnectionId { sequence } => [sequence, 0, 0, 0, 0],
        Frame::PathChallenge(token) | Frame::PathResponse(token) => [token, 0, 0, 0, 0],
        Frame::Close(Close::Connection(close)) => {
            len = data(close.reason);
            [close.error_code.into(), close.frame_type.map_or(0, u64::from), 0, 0, 0]
        }
        Frame::Close(Close::Application(close)) => {
            len = data(close.reason);
            [close.error_code.into(), 0, 0, 0, 0]
        }
        Frame::AckFrequency(one) => [
            one.sequence.into(),
            one.ack_eliciting_threshold.into(),
            one.request_max_ack_delay.into(),
            one.reordering_threshold.into(),
            0,
        ],
        Frame::Padding | Frame::Ping | Frame::HandshakeDone | Frame::ImmediateAck => [0; 5],
    };
    let [one, two, three, four, five] = numbers;
    Some([flags, len, one, two, three, four, five])
}

/// The ranges of the ACK at the front of bytes: the smallest and the largest number of each, the greatest range first.
pub fn ranges(payload: &[u8]) -> Vec<(u64, u64)> {
    match Iter::new(payload).ok().and_then(|mut frames| frames.next()) {
        Some(Ok(Frame::Ack(ack))) => ack.iter().map(|range| (*range.start(), *range.end())).collect(),
        _ => Vec::new(),
    }
}

/// The shortest payload with the same frames.
///
/// # Errors
///
/// What is wrong with the payload.
pub fn shortest(payload: &[u8], choices: Choices) -> Result<Vec<u8>, Ending> {
    let mut out = Vec::new();
    match canonical_with(payload, choices.rules(), &mut out) {
        Ok(()) => Ok(out),
        Err(CanonError::Invalid(invalid)) => Err(Ending::from(&invalid)),
        Err(CanonError::OutOfMemory) => Err(Ending::without_type("out of memory")),
        Err(CanonError::Empty) => Err(Ending::without_type(EMPTY)),
    }
}

/// What a page needs of a header. Offsets count in the packet.
#[derive(Clone, Copy, Debug, Default, PartialEq, Eq)]
pub struct Header {
    /// The kind: Initial, 0-RTT, Handshake, Retry, 1-RTT, Version Negotiation, from 0 on.
    pub kind: u64,
    /// The version, 0 if it has none.
    pub version: u32,
    /// The first byte, protected.
    pub first: u8,
    /// How many bytes the destination id has.
    pub dst_len: usize,
    /// How many bytes the source id has.
    pub src_len: usize,
    /// Where the token begins.
    pub token: usize,
    /// How many bytes it has.
    pub token_len: usize,
    /// Where the header ends, before the packet number.
    pub end: usize,
    /// Where the packet ends.
    pub packet_end: usize,
}

// The numbers of kinds, as in C.
fn kind_number(kind: HeaderKind) -> u64 {
    match kind {
        HeaderKind::Initial => 0,
        HeaderKind::ZeroRtt => 1,
        HeaderKind::Handshake => 2,
        HeaderKind::Retry => 3,
        HeaderKind::Short => 4,
        HeaderKind::VersionNegotiate => 5,
    }
}

impl Header {
    fn of(places: &HeaderPlaces) -> Header {
        let (dst, src, token) = (places.dst_cid_pos(), places.src_cid_pos(), places.token_pos());
        Header {
            kind: kind_number(places.kind()),
            version: places.version(),
            first: places.first(),
            dst_len: dst.len(),
            src_len: src.len(),
            token: token.start,
            token_len: token.len(),
            end: places.header_end(),
            packet_end: places.end(),
        }
    }

    /// As numbers, in the order of its fields.
    pub fn numbers(self) -> [u64; 9] {
        let Header { kind, version, first, dst_len, src_len, token, token_len, end, packet_end } = self;
        let places = [dst_len, src_len, token, token_len, end, packet_end].map(|place| place as u64);
        let [dst_len, src_len, token, token_len, end, packet_end] = places;
        [kind, version.into(), first.into(), dst_len, src_len, token, token_len, end, packet_end]
    }
}

/// The header of the packet at the front of bytes, and why it is rejected, if it is. Of a version that isn't read only
/// the version and the ids are known.
pub fn header(packet: &[u8], versions: &[u32], choices: Choices) -> (Header, Option<&'static str>) {
    match HeaderPlaces::read_with(packet, choices.id_len.min(MAX_CID_SIZE), versions, choices.checks()) {
        Ok(places) => (Header::of(&places), None),
        Err(HeaderError::InvalidHeader(reason)) => (Header::default(), Some(reason)),
        Err(HeaderError::CutOff(places)) => (Header::of(&places), Some("packet too short to contain payload length")),
        Err(HeaderError::UnsupportedVersion(other)) => {
            let [dst_len, src_len] = [other.dst_cid(packet).len(), other.src_cid(packet).len()];
            let (first, version) = (packet.first().copied().unwrap_or_default(), other.version());
            // quinn-proto rejects these in any version.
            let is_long = !choices.rfc && (dst_len > MAX_CID_SIZE || src_len > MAX_CID_SIZE);
            let reason = if is_long { "malformed cid" } else { "unsupported version" };
            (Header { version, first, dst_len, src_len, ..Header::default() }, Some(reason))
        }
    }
}

/// Removes the protection of a packet's header with a mask, in a copy. Returns the first byte, how many bytes the
/// packet number has, and the number as it is written; `None` if the packet is too short.
pub fn unprotect(packet: &[u8], number_at: usize, mask: &[u8; 5]) -> Option<[u64; 3]> {
    if number_at > packet.len() {
        return None;
    }
    let place = PacketPlace::new(0..packet.len(), number_at);
    let mut header = Vec::new();
    let opened = place.unprotect_header(packet, mask, 0, &mut header).ok()?;
    Some([opened.first.into(), opened.number_len as u64, opened.number])
}

/// Whose fields are asked for.
#[derive(Clone, Copy, Debug, PartialEq, Eq)]
pub enum Of {
    /// The frame at the front of a payload.
    Frame,
    /// The packet at the front of a datagram.
    Packet,
    /// The entry at the front of a list of transport parameters.
    Entry,
    /// The value of a transport parameter.
    Value(u64),
}

/// The fields at the front of bytes.
pub fn fields(of: Of, bytes: &[u8], versions: &[u32], choices: Choices) -> Fields {
    match of {
        Of::Frame => fields::of_frame(bytes, choices.rules()),
        Of::Packet => fields::of_packet(bytes, choices.id_len.min(MAX_CID_SIZE), versions),
        Of::Entry => fields::of_entry(bytes),
        Of::Value(id) => fields::of_value(id, bytes, choices.options().any_width),
    }
}

/// Fields as numbers: where the field at fault begins, or where the last one ends; how many of its bytes, and how many
/// numbers, come before what is at fault; and of each field where it begins, where it ends, and its number.
pub fn numbers_of(fields: &Fields) -> Vec<u64> {
    let fault = fields.fault();
    let [end, inside] = [fault.map_or(fields.end(), |one| one.start), fault.map_or(0, |one| one.inside)];
    let mut numbers = vec![end as u64, inside as u64, fault.map_or(0, |one| one.numbers)];
    for span in fields.spans() {
        numbers.extend([span.start as u64, span.end as u64, span.number]);
    }
    numbers
}

/// Whether a side accepts a list of transport parameters; if not, why, and where the entry begins that is rejected.
pub fn parameters(list: &[u8], side: Side, choices: Choices) -> Option<(&'static str, usize)> {
    let refusal = TransportParameters::read_list(side, choices.options(), list).err()?;
    Some((if refusal.error == Error::IllegalValue { "illegal value" } else { "malformed" }, refusal.offset))
}

/// The variable-length integer at the front of bytes: it, where it ends, and how many bytes its shortest encoding has.
pub fn integer(bytes: &[u8]) -> Option<[u64; 3]> {
    let (number, end) = varint::read(bytes)?;
    Some([number, end as u64, varint::len(number)? as u64])
}
