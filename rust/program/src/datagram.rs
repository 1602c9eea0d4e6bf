//! The packets of datagrams.
use crate::args::{Datagrams, Reading};
use crate::fault::{self, FIXED_BIT};
use crate::formats::HEADERS;
use crate::link::{self, Packet};
use crate::output::{Field, Output, Value};
use Value::{Flag, Number, Version, Versions};
use quic_wire::ConnectionId;
use quic_wire::datagram::{HeaderError, HeaderKind, HeaderPlaces};
use std::collections::VecDeque;
use std::io::{self, Write};

// How many ids are remembered: the latest ones.
const MOST_IDS: usize = 256;
const NEGOTIATION: &str = "RFC 9000, section 17.2.1, leaves this bit unused; quinn-proto 0.11 rejects the packet";

/// The ids that endpoints chose for packets sent to them, from long headers.
#[derive(Default)]
pub struct Ids(VecDeque<ConnectionId>);

impl Ids {
    fn learn(&mut self, id: &[u8]) {
        let Some(id) = ConnectionId::try_from(id).ok().filter(|id| !self.0.contains(id)) else { return };
        if self.0.len() == MOST_IDS {
            self.0.pop_front();
        }
        self.0.push_back(id);
    }

    // The length of a short header's id: that of the packet before it in its datagram, which has the same id (RFC 9000,
    // section 12.2), or that of the longest known id at its front.
    fn len_in(&self, packet: &[u8], before: Option<&[u8]>) -> usize {
        let begins = |id: &[u8]| packet.get(1..).is_some_and(|rest| rest.starts_with(id));
        let known = self.0.iter().filter(|id| begins(id)).map(|id| id.len()).max();
        before.filter(|id| begins(id)).map(<[u8]>::len).or(known).unwrap_or(0)
    }
}

/// Prints the packets of a datagram, and remembers the ids in them. In a capture, IP and UDP headers precede it.
pub fn show(bytes: &[u8], how: &Datagrams, ids: &mut Ids, output: &mut Output<impl Write>) -> io::Result<()> {
    match link::packet(bytes) {
        Some(Packet { udp: Some((payload, from, to)) }) => {
            let fields = [("from", Value::Word(from.to_string().into())), ("to", Value::Word(to.to_string().into()))];
            output.item(0..payload.start, ("packet", "udp"), &fields, &[])?;
            show_packets(&bytes[..payload.end], payload.start, how, ids, output)
        }
        Some(Packet { udp: None }) => output.error("an IP packet without UDP", None, &[]),
        None => show_packets(bytes, 0, how, ids, output),
    }
}

fn show_packets(
    datagram: &[u8],
    mut begin: usize,
    how: &Datagrams,
    ids: &mut Ids,
    output: &mut Output<impl Write>,
) -> io::Result<()> {
    let mut before = None;
    loop {
        let rest = &datagram[begin..];
        let cid_len = how.cid_len.unwrap_or_else(|| ids.len_in(rest, before));
        let is_noted = lacks_bit_of_quinn(rest, how);
        let places = match read(rest, cid_len, how) {
            Ok(places) => places,
            Err(error) => {
                let fault = fault::of_header(rest, begin, cid_len, &how.versions, &error);
                let is_noted = is_noted && error != HeaderError::InvalidHeader(FIXED_BIT);
                let fixed_bit = is_noted.then_some(("fixed_bit", Flag(false)));
                let fields = [&reported(&error, rest, begin), fixed_bit.as_slice(), &fault].concat();
                return output.error(&error.to_string(), Some(begin), &fields);
            }
        };
        let end = begin + places.end();
        let (name, mut fields) = fields(&places, &datagram[begin..end], begin);
        if is_noted {
            fields.extend([("fixed_bit", Flag(false)), ("note", Value::sentence(NEGOTIATION))]);
        }
        let first = [("first", Number(places.first().into()))];
        output.item(begin..end, ("packet", name), &fields, &first)?;
        if !places.is_short() {
            ids.learn(places.src_cid(rest));
            before = Some(places.dst_cid(rest));
        }
        if end == datagram.len() {
            return Ok(());
        }
        begin = end;
    }
}

// The header of the packet at the front. quinn-proto rejects a clear fixed bit in any version; here such a packet is
// read if it is a version negotiation, or if at least the ids can be read.
fn read(rest: &[u8], cid_len: usize, how: &Datagrams) -> Result<HeaderPlaces, HeaderError> {
    match HeaderPlaces::read_with(rest, cid_len, &how.versions, how.checks()) {
        Err(HeaderError::InvalidHeader(_)) if lacks_bit_of_quinn(rest, how) && !is_negotiation(rest) => {
            Err(HeaderError::InvalidHeader(FIXED_BIT))
        }
        read => read,
    }
}

// Whether quinn-proto rejects the packet for its fixed bit.
fn lacks_bit_of_quinn(packet: &[u8], how: &Datagrams) -> bool {
    how.reading == Reading::Quinn && !how.grease && packet.first().is_some_and(|first| first & 0x40 == 0)
}

fn is_negotiation(packet: &[u8]) -> bool {
    matches!(packet, [first, 0, 0, 0, 0, ..] if first & 0x80 != 0)
}

// What an error contains of the header.
fn reported<'a>(error: &HeaderError, rest: &'a [u8], begin: usize) -> Vec<Field<'a>> {
    match error {
        HeaderError::UnsupportedVersion(packet) => {
            vec![("dst", Value::bytes(packet.dst_cid(rest))), ("src", Value::bytes(packet.src_cid(rest)))]
        }
        HeaderError::CutOff(places) => fields(places, rest, begin).1,
        HeaderError::InvalidHeader(_) => vec![],
    }
}

// What a kind of packet is called here and by the RFC.
fn names(kind: HeaderKind) -> (&'static str, &'static str) {
    match kind {
        HeaderKind::Initial => ("initial", "Initial"),
        HeaderKind::ZeroRtt => ("0rtt", "0-RTT"),
        HeaderKind::Handshake => ("handshake", "Handshake"),
        HeaderKind::Retry => ("retry", "Retry"),
        HeaderKind::Short => ("short", "1-RTT"),
        HeaderKind::VersionNegotiate => ("version-negotiation", "Version Negotiation"),
    }
}

/// What is shown of a header, without offsets.
#[cfg(feature = "capture")]
pub fn shown<'a>(places: &HeaderPlaces, packet: &'a [u8]) -> Vec<Field<'a>> {
    let fields = fields(places, packet, 0).1.into_iter();
    fields.filter(|(name, _)| !matches!(*name, "token_at" | "number_at" | "len")).collect()
}

fn fields<'a>(places: &HeaderPlaces, packet: &'a [u8], begin: usize) -> (&'static str, Vec<Field<'a>>) {
    let (name, of_rfc) = names(places.kind());
    let shown = HEADERS.iter().find(|row| row.name == of_rfc).map_or(&[][..], |row| row.shown);
    let value = |&name: &&'static str| Some((name, value(name, places, packet, begin)?));
    let mut fields: Vec<_> = shown.iter().filter_map(value).collect();
    if places.kind() == HeaderKind::Retry && places.retry(packet).is_none() {
        fields.push(("rest", Value::bytes(&packet[places.header_end()..])));
    }
    (name, fields)
}

// What a header has under a name, if it has that: a Retry that isn't whole has no token and no tag.
fn value<'a>(name: &str, places: &HeaderPlaces, packet: &'a [u8], begin: usize) -> Option<Value<'a>> {
    let at = |offset: usize| Number((begin + offset) as u64);
    Some(match name {
        "dst" => Value::bytes(places.dst_cid(packet)),
        "src" => Value::bytes(places.src_cid(packet)),
        "version" => Version(places.version()),
        "versions" => Versions(&packet[places.header_end()..]),
        "spin" => Flag(places.spin()),
        "token_at" => at(places.token_pos().start),
        "token" if places.kind() == HeaderKind::Retry => Value::bytes(places.retry(packet)?.0),
        "token" => Value::bytes(places.token(packet)),
        "tag" => Value::few(*places.retry(packet)?.1),
        "len" => Number(places.len_field()),
        "number_at" => at(places.header_end()),
        _ => return None,
    })
}
