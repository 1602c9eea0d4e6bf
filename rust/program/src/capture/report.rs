//! What is found in a capture, packet by packet, and the sums of it.
use super::object::Object;
use super::reading::Taker;
use super::words::{self, Said};
use crate::args::Filter;
use crate::fault;
use crate::output::Field;
use crate::params;
use quic_wire::datagram::PacketRef;
use quic_wire::frame::{Frame, Rules};
use quic_wire::permitted::Forbidden;
use quic_wire::transport_parameters::{ReadOptions, TransportParameters};
use quic_wire::{Side, varint};
use quic_wire_capture::capture::{Capture, Datagram};
use quic_wire_capture::connection::Connection;
use quic_wire_capture::follow::{Counts, Follower};
use quic_wire_capture::opened::Opened;
use quic_wire_capture::recovery::Sent;
use quic_wire_capture::sink::{Ended, Event, Rest, Sink, Unopened};
use std::borrow::Cow;
use std::collections::{BTreeMap, HashMap};
use std::ffi::OsStr;
use std::net::SocketAddr;
use std::ops::Range;

/// Where a packet is, and whose it is or may be.
#[derive(Clone, Copy)]
pub struct Place<'a> {
    pub datagram: &'a Datagram<'a>,
    /// How many packets came before it.
    pub index: u64,
    pub owner: Option<(&'a Connection, Side)>,
    /// When it was captured, in nanoseconds after the capture's first datagram.
    pub time: i64,
}

/// A part of a payload, or what it says.
pub enum Part {
    /// Its bytes in the payload, its type, and why it may not be there.
    Frame {
        range: Range<usize>,
        ty: u64,
        forbidden: Option<Forbidden>,
    },
    /// What can't be read, from an offset on.
    Invalid(Fault),
    Parameters(Vec<u8>, Box<TransportParameters>),
    InvalidParameters(Fault),
    /// A packet that counts as lost from here on.
    Lost(Sent),
}

/// Why something is rejected, and what is known about it.
pub struct Fault {
    pub what: String,
    pub at: Option<usize>,
    pub fields: Vec<Field<'static>>,
}

/// A packet that is opened.
pub struct Packet<'a> {
    pub opened: &'a Opened<'a>,
    pub parts: &'a [Part],
    /// If its number was used before, that, with the record if it is remembered.
    pub again: Option<Option<u64>>,
}

impl Packet<'_> {
    /// The close in it, if it is the first one of its side that counts.
    pub fn close_in(&self, connection: &Connection, side: Side, index: u64) -> Option<Said> {
        connection.end(side).closed().filter(|closed| closed.sent.index == index)?;
        self.parts.iter().find_map(|part| match part {
            Part::Frame { range, forbidden: None, .. } => words::close(self.opened.payload().get(range.clone())?),
            _ => None,
        })
    }

    /// Whether RFC 9000 rejects something in it.
    pub fn is_rejected(&self) -> bool {
        self.parts.iter().any(|part| match part {
            Part::Frame { forbidden, .. } => forbidden.is_some(),
            Part::Invalid(_) | Part::InvalidParameters(_) => true,
            Part::Parameters(..) | Part::Lost(_) => false,
        })
    }

    // Whether others count as lost from here on.
    fn has_lost(&self) -> bool {
        self.parts.iter().any(|part| matches!(part, Part::Lost(_)))
    }
}

/// What was counted of a connection, beside what the engine knows.
#[derive(Default)]
pub struct Tally {
    pub sides: [Half; 2],
    pub reset: Option<Side>,
}

/// The same of a side.
#[derive(Default)]
pub struct Half {
    pub opened: u64,
    pub unopened: BTreeMap<Unopened, u64>,
    /// How many of its packets counted as lost, and how many of these were acknowledged later.
    pub lost: u64,
    pub lost_in_vain: u64,
    /// From where it sent first, and last.
    pub addresses: Option<(SocketAddr, SocketAddr)>,
    /// The last one that counted, which may be shortened.
    pub close: Option<Said>,
    /// When the last of its packets that weren't opened was captured.
    pub last_shut: Option<u64>,
    /// Whether none was opened after it.
    pub ends_shut: bool,
}

impl Half {
    // Notes a packet that keys might have opened.
    fn shut(&mut self, time: u64) {
        self.last_shut = self.last_shut.max(Some(time));
        self.ends_shut = true;
    }
}

/// A connection when it is forgotten, or at the end of the capture.
pub struct Sum<'a> {
    pub connection: &'a Connection,
    pub tally: &'a Tally,
    /// Why it is forgotten.
    pub how: Option<Ended>,
    /// When the capture begins, in nanoseconds since 1970.
    pub begun: u64,
}

impl Sum<'_> {
    /// When its first and its last packet were captured, also one that wasn't opened, in nanoseconds since 1970.
    pub fn times(&self) -> (u64, u64) {
        let (first, last) = self.connection.times();
        let shut = self.tally.sides.iter().filter_map(|half| half.last_shut).max();
        (first, shut.map_or(last, |shut| last.max(shut)))
    }

    /// Whether the last packets of a side weren't opened, which may have ended it.
    pub fn ends_shut(&self) -> bool {
        self.tally.sides.iter().any(|half| half.ends_shut)
    }
}

/// A capture at its end.
pub struct Whole<'a> {
    pub begun: Option<u64>,
    pub capture: &'a Capture,
    pub counts: &'a Counts,
    pub skipped_lines: u64,
}

/// How what is found is written.
pub trait Form {
    /// A capture begins.
    fn begin(&mut self, file: &OsStr);
    fn opened(&mut self, place: &Place<'_>, packet: &Packet<'_>);
    fn unopened(&mut self, place: &Place<'_>, packet: &PacketRef<'_>, why: Unopened);
    fn rest(&mut self, place: &Place<'_>, offset: usize, why: Rest);
    /// What else is known of a connection: when that was, its name, and its members. Only traces have such.
    fn note(&mut self, connection: &Connection, time: u64, name: &str, fill: &dyn Fn(&mut Object<'_>)) {
        let _ = (connection, time, name, fill);
    }
    fn connection(&mut self, sum: &Sum<'_>);
    fn end(&mut self, whole: &Whole<'_>);
}

/// Whether it is a packet that never has frames, and is shown as one.
pub fn is_plain(why: Unopened) -> bool {
    matches!(why, Unopened::VersionNegotiation | Unopened::Retry | Unopened::StatelessReset)
}

/// Whether it is a packet with protection, which keys might have opened.
pub fn is_protected(why: Unopened) -> bool {
    !is_plain(why) && why != Unopened::InvalidRetry
}

/// What is found, as far as it is to be shown.
pub struct Report<'a> {
    filter: Cow<'a, Filter>,
    forms: Vec<Box<dyn Form + 'a>>,
    begun: Option<u64>,
    parts: Vec<Part>,
    tallies: HashMap<usize, Tally>,
    /// The number of the first connection that isn't summed up, of those that are still there.
    summed: usize,
    /// How many connections there were, at the end.
    connections: usize,
}

impl<'a> Report<'a> {
    pub fn new(filter: Cow<'a, Filter>, forms: Vec<Box<dyn Form + 'a>>) -> Self {
        let (parts, tallies) = (Vec::new(), HashMap::new());
        Report { filter, forms, begun: None, parts, tallies, summed: 0, connections: 0 }
    }

    /// What to say at the end of the connections that are to be shown, and that the capture doesn't have.
    pub fn missing(&self) -> Option<String> {
        let missing = self.filter.connections.iter().filter(|number| **number >= self.connections);
        let numbers: Vec<_> = missing.map(ToString::to_string).collect();
        let all = match self.connections {
            0 => "has none".into(),
            1 => "has only 0".into(),
            count => format!("has 0 to {}", count - 1),
        };
        (!numbers.is_empty()).then(|| format!("there is no connection {}: the file {all}", numbers.join(", ")))
    }

    /// Says when a datagram was captured, if what is found in it is passed on to this sink.
    pub fn begin_at(&mut self, time: u64) {
        self.begun.get_or_insert(time);
    }

    /// Adds to the traces what else is known of a connection, before it is summed up.
    pub fn note(&mut self, connection: &Connection, time: u64, name: &str, fill: &dyn Fn(&mut Object<'_>)) {
        self.forms.iter_mut().for_each(|form| form.note(connection, time, name, fill));
    }

    /// When the capture begins, in nanoseconds since 1970; `None` until its first datagram.
    pub fn begun(&self) -> Option<u64> {
        self.begun
    }

    fn place<'p>(&self, owner: Option<(&'p Connection, Side)>, datagram: &'p Datagram<'p>, index: u64) -> Place<'p> {
        let begun = self.begun.unwrap_or(datagram.time);
        Place { datagram, index, owner, time: words::after(begun, datagram.time) }
    }

    fn count(&mut self, connection: &Connection, side: Side, how: impl FnOnce(&mut Half)) {
        if let Some(half) = self.half(Some((connection, side))) {
            how(half);
        }
    }

    // The sums of a side.
    fn half(&mut self, owner: Option<(&Connection, Side)>) -> Option<&mut Half> {
        let (connection, side) = owner?;
        Some(&mut self.tallies.entry(connection.number()).or_default().sides[side as usize])
    }

    // Counts a packet, and shows it if it fits.
    fn packet(&mut self, place: &Place<'_>, opened: &Opened<'_>, again: Option<Option<u64>>) {
        let parts = std::mem::take(&mut self.parts);
        let packet = Packet { opened, parts: &parts, again };
        let close = place.owner.and_then(|(connection, side)| packet.close_in(connection, side, place.index));
        if let Some(half) = self.half(place.owner) {
            let from = place.datagram.from;
            half.opened += 1;
            // Anyone can send a packet again, from elsewhere.
            if again.is_none() {
                half.ends_shut = false;
                half.addresses = Some((half.addresses.map_or(from, |(first, _)| first), from));
            }
            // One in an Initial packet counts no longer once the side goes on.
            half.close = close.map(Said::shortened).or(half.close.take());
        }
        let types = parts.iter().filter_map(|part| match part {
            Part::Frame { ty, .. } => Some(*ty),
            _ => None,
        });
        let marks = Marks { rejected: packet.is_rejected(), lost: packet.has_lost() };
        if self.filter.fits(place, Some(opened.number()), types, marks) {
            self.forms.iter_mut().for_each(|form| form.opened(place, &packet));
        }
        self.parts = parts;
    }

    /// Sums up a connection at the end of the capture, for callers that do so step by step: in the order of their
    /// numbers. The end does so for those that are left.
    pub fn sum_up(&mut self, connection: &Connection) {
        self.sum(connection, None);
        self.summed = connection.number() + 1;
    }

    fn sum(&mut self, connection: &Connection, how: Option<Ended>) {
        let tally = self.tallies.remove(&connection.number()).unwrap_or_default();
        if self.filter.has_connection(Some(connection)) {
            let sum = Sum { connection, tally: &tally, how, begun: self.begun.unwrap_or_default() };
            self.forms.iter_mut().for_each(|form| form.connection(&sum));
        }
    }
}

/// What filters ask of a packet beside its fields.
#[derive(Default)]
struct Marks {
    rejected: bool,
    lost: bool,
}

impl Taker for Report<'_> {
    fn begin(&mut self, file: &OsStr) {
        (self.begun, self.summed) = (None, 0);
        self.forms.iter_mut().for_each(|form| form.begin(file));
    }

    fn datagram(&mut self, datagram: &Datagram<'_>, follower: &mut Follower) {
        self.begin_at(datagram.time);
        follower.take(datagram, self);
    }

    // Sums up the connections that weren't forgotten, then all.
    fn end(&mut self, follower: &mut Follower, capture: &Capture) {
        follower.finish(self);
        follower.connections_from(self.summed).for_each(|connection| self.sum_up(connection));
        self.tallies.clear();
        let (counts, skipped_lines) = (follower.counts(), follower.keylog.skipped());
        self.connections = counts.connections;
        let whole = Whole { begun: self.begun, capture, counts, skipped_lines };
        self.forms.iter_mut().for_each(|form| form.end(&whole));
    }
}

impl Filter {
    fn has_connection(&self, connection: Option<&Connection>) -> bool {
        let is_it = |one: &Connection| self.connections.contains(&one.number());
        self.connections.is_empty() || connection.is_some_and(is_it)
    }

    // Whether a packet is shown.
    fn fits(
        &self,
        place: &Place<'_>,
        number: Option<u64>,
        mut frames: impl Iterator<Item = u64>,
        marks: Marks,
    ) -> bool {
        self.has_connection(place.owner.map(|owner| owner.0))
            && self.sender.is_none_or(|side| place.owner.is_some_and(|owner| owner.1 == side))
            && (self.numbers.is_empty()
                || number.is_some_and(|number| self.numbers.iter().any(|range| range.contains(&number))))
            && (self.frames.is_empty() || frames.any(|ty| self.frames.contains(&ty)))
            && (marks.rejected || !self.rejected)
            && (marks.lost || !self.lost)
    }
}

impl Sink for Report<'_> {
    fn opened(&mut self, connection: &Connection, datagram: &Datagram<'_>, index: u64, event: &Event<'_>) {
        let part = match event {
            Event::Packet(_) => return self.parts.clear(),
            Event::Again(opened, before) => {
                self.parts.clear();
                let place = self.place(Some((connection, opened.sender())), datagram, index);
                return self.packet(&place, opened, Some(before.map(|sent| sent.record)));
            }
            Event::Done(opened) => {
                let place = self.place(Some((connection, opened.sender())), datagram, index);
                return self.packet(&place, opened, None);
            }
            Event::Frame { opened, range, permitted, .. } => {
                let ty = opened.payload().get(range.clone()).and_then(varint::read).map_or(0, |(ty, _)| ty);
                Part::Frame { range: range.clone(), ty, forbidden: permitted.err() }
            }
            Event::Invalid { opened, error, offset, .. } => {
                let rules = rules_of(connection, opened.sender());
                let fields = fault::of_frame(opened.payload(), *offset, rules, error);
                Part::Invalid(Fault { what: error.to_string(), at: Some(*offset), fields })
            }
            Event::Empty(_) => {
                let what = "packet payload is empty".into();
                Part::Invalid(Fault { what, at: Some(0), fields: fault::of_empty_payload() })
            }
            Event::Parameters { list, read: Ok(read), .. } => Part::Parameters(list.to_vec(), Box::new(**read)),
            Event::Parameters { opened, list, read: Err(refusal) } => {
                let (at, fields) = fault::of_parameters(list, !opened.sender(), ReadOptions::RFC, **refusal);
                Part::InvalidParameters(Fault { what: params::what(refusal).into(), at, fields })
            }
            Event::Lost(sent) => {
                self.count(connection, sent.sender, |half| half.lost += 1);
                Part::Lost(*sent)
            }
            Event::Acknowledged { sent, was_lost: true } => {
                return self.count(connection, sent.sender, |half| half.lost_in_vain += 1);
            }
            // What else a packet says of others.
            _ => return,
        };
        self.parts.push(part);
    }

    fn unopened(
        &mut self,
        owner: Option<(&Connection, Side)>,
        datagram: &Datagram<'_>,
        index: u64,
        packet: &PacketRef<'_>,
        why: Unopened,
    ) {
        if let Some(half) = self.half(owner) {
            *half.unopened.entry(why).or_default() += 1;
            if is_protected(why) {
                half.shut(datagram.time);
            }
        }
        if let Some((connection, side)) = owner.filter(|_| why == Unopened::StatelessReset) {
            self.tallies.entry(connection.number()).or_default().reset.get_or_insert(side);
        }
        let place = self.place(owner, datagram, index);
        let marks = Marks { rejected: !is_plain(why), ..Marks::default() };
        if self.filter.fits(&place, None, std::iter::empty(), marks) {
            self.forms.iter_mut().for_each(|form| form.unopened(&place, packet, why));
        }
    }

    fn rest(
        &mut self,
        owner: Option<(&Connection, Side)>,
        datagram: &Datagram<'_>,
        index: u64,
        offset: usize,
        why: Rest,
    ) {
        if let Some(half) = self.half(owner).filter(|_| why == Rest::NotCaptured) {
            half.shut(datagram.time);
        }
        let place = self.place(owner, datagram, index);
        let marks = Marks { rejected: why != Rest::Zeros, ..Marks::default() };
        if self.filter.fits(&place, None, std::iter::empty(), marks) {
            self.forms.iter_mut().for_each(|form| form.rest(&place, offset, why));
        }
    }

    fn ended(&mut self, connection: &Connection, how: Ended) {
        self.sum(connection, Some(how));
    }
}

// The rules by which a side's frames were read: those of the ACK frequency extension count if its peer offers it, or
// may have.
fn rules_of(connection: &Connection, sender: Side) -> Rules {
    let parameters = connection.end(!sender).parameters();
    Rules { no_ack_frequency: parameters.is_some_and(|list| list.min_ack_delay.is_none()), ..Rules::RFC }
}

/// The frame in the bytes of a part.
pub fn frame_of(bytes: &[u8]) -> Option<Frame<'_>> {
    quic_wire::frame::Iter::new(bytes).ok()?.next()?.ok()
}
