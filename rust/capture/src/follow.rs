//! Follows the connections of a capture: finds whose each datagram may be, by ids and addresses, and opens its packets.

use crate::capture::Datagram;
use crate::connection::Connection;
use crate::held::Waiting;
use crate::index::{Index, Owner};
use crate::keylog::KeyLog;
use crate::keyring::{CHECKS, MOST_USUAL, Offloaded};
use crate::keys::VERSIONS;
use crate::opened::{Reset, Retried, id_of};
use crate::search::{Found, short_packet};
use crate::sink::{Event, Rest, Sink, Unopened};
use earlier::Strays;
use quic_wire::datagram::{HeaderError, HeaderKind, PacketRef, Packets};
use quic_wire::packet::LONG_HEADER_FORM;
use quic_wire::{ConnectionId, Side};
use room::Room;
use std::collections::BTreeMap;

mod earlier;
mod room;

pub use earlier::MOST_TRIALS;
pub use room::{MOST_BEGUN, MOST_CONNECTIONS, MOST_HELD};

/// What was counted besides.
#[derive(Clone, Debug, Default, PartialEq, Eq)]
#[non_exhaustive]
pub struct Counts {
    /// Datagrams.
    pub datagrams: u64,
    /// Packets that were opened.
    pub opened: u64,
    /// Packets that weren't, by the reason.
    pub unopened: BTreeMap<Unopened, u64>,
    /// Ends of datagrams that are no packets, by [`Rest::kind`].
    pub rests: BTreeMap<&'static str, u64>,
    /// Connections that began, or that began before the capture.
    pub connections: usize,
    /// Of these, those that began before the capture.
    pub began_before: usize,
    /// Datagrams that were cut apart, as a network card does with those that Linux joined.
    pub offloaded: u64,
    /// Into how many.
    pub segments: u64,
}

/// The connections of a capture.
///
/// ```
/// use quic_wire_capture::capture::Datagram;
/// use quic_wire_capture::follow::Follower;
/// use quic_wire_capture::sink::Unopened;
/// let mut follower = Follower::default();
/// let (from, to) = ("10.0.0.1:4433".parse().unwrap(), "10.0.0.2:443".parse().unwrap());
/// let datagram = Datagram { record: 1, time: 0, from, to, bytes: &[0x40; 40], missing: 0, outgoing: None };
/// follower.take(&datagram, &mut ());
/// assert_eq!(follower.counts().unopened[&Unopened::NoConnection], 1);
/// ```
#[derive(Default)]
pub struct Follower {
    /// The secrets. It may grow at any time.
    pub keylog: KeyLog,
    connections: BTreeMap<usize, Box<Connection>>,
    room: Room,
    index: Index,
    waiting: Waiting,
    strays: Strays,
    counts: Counts,
    packets: u64,
    buffer: Vec<u8>,
}

/// A datagram's packets and what is known of them so far.
struct Course {
    owners: Vec<Owner>,
    first_id: Option<ConnectionId>,
}

impl Follower {
    /// The connections that aren't forgotten, in the order in which they began.
    pub fn connections(&self) -> impl Iterator<Item = &Connection> {
        self.connections.values().map(Box::as_ref)
    }

    /// The same from a number on.
    pub fn connections_from(&self, number: usize) -> impl Iterator<Item = &Connection> {
        self.connections.range(number..).map(|(_, connection)| connection.as_ref())
    }

    /// What was counted.
    pub fn counts(&self) -> &Counts {
        &self.counts
    }

    /// Takes the next datagram.
    pub fn take(&mut self, datagram: &Datagram<'_>, sink: &mut dyn Sink) {
        let Some(first) = datagram.bytes.first() else { return };
        self.counts.datagrams += 1;
        self.sweep(datagram.time, sink);
        let (mut owners, mut id_len) = self.owners(datagram, *first);
        if owners.is_empty() && first & LONG_HEADER_FORM == 0 && may_be_several(datagram, id_len) {
            (owners, id_len) = self.near_offloaded(datagram).unwrap_or((owners, id_len));
        }
        let size = self.segment_len(datagram, &owners, id_len).or_else(|| self.padded_len(datagram, id_len));
        let size = size.unwrap_or(datagram.bytes.len());
        for bytes in datagram.bytes.chunks(size) {
            let segment = Datagram { bytes, ..*datagram };
            // A connection may begin with the first of them.
            let owners = if owners.is_empty() { self.owners(&segment, bytes[0]).0 } else { owners.clone() };
            self.segment(&segment, Course { owners, first_id: None }, id_len, sink);
        }
        self.give_up_messages(sink);
    }

    /// Ends the capture: 0-RTT packets that still wait are given up.
    pub fn finish(&mut self, sink: &mut dyn Sink) {
        while let Some(held) = self.waiting.pop() {
            self.give_up(&held, true, sink);
        }
    }

    // Whose a datagram may be, and how many bytes the ids of its short headers have.
    fn owners(&mut self, datagram: &Datagram<'_>, first: u8) -> (Vec<Owner>, usize) {
        if first & LONG_HEADER_FORM == 0 {
            return self.owners_of_short(datagram);
        }
        let id = quic_wire::datagram::receiver_id(datagram.bytes, 0).filter(|id| id.len() <= 20).unwrap_or(&[]);
        let mut owners = self.index.to_id(id).to_vec();
        if owners.is_empty() {
            owners = self.index.on_path((datagram.from, datagram.to)).collect();
        }
        owners.retain(|owner| self.is_live(owner, datagram));
        (owners, id.len())
    }

    // The ids of several connections may be those of a short header, since anyone chooses ids of any length: those of
    // which one opens it are its owners. Without an id it is only that of a receiver whose ids have no bytes.
    fn owners_of_short(&mut self, datagram: &Datagram<'_>) -> (Vec<Owner>, usize) {
        let has_no_id = |(number, sender): &Owner| {
            let connection = self.connections.get(number);
            connection.is_some_and(|one| one.end(!*sender).first_scid().is_some_and(|id| id.is_empty()))
        };
        let by_path: Vec<_> = self.index.on_path((datagram.from, datagram.to)).filter(has_no_id).collect();
        let by_id = self.index.to_short(datagram.bytes).map(|(owners, id_len)| (owners.to_vec(), id_len));
        let mut all: Vec<_> = by_id.chain([(by_path, 0)]).collect();
        let longest = all.first().map_or(0, |(_, id_len)| *id_len);
        all.iter_mut().for_each(|(owners, _)| owners.retain(|owner| self.is_live(owner, datagram)));
        all.retain(|(owners, _)| !owners.is_empty());
        let is_one = all.len() <= 1;
        let opening = all.iter().position(|(owners, id_len)| is_one || self.opens(datagram, owners, *id_len));
        let place = opening.unwrap_or(0);
        if all.is_empty() { (Vec::new(), longest) } else { all.swap_remove(place) }
    }

    fn is_live(&self, (number, _): &Owner, datagram: &Datagram<'_>) -> bool {
        self.connections.get(number).is_some_and(|one| one.ended(datagram.time).is_none())
    }

    // Whether a short header's packet, or the first of several, is one of these senders.
    fn opens(&mut self, datagram: &Datagram<'_>, owners: &[Owner], id_len: usize) -> bool {
        let only = short_packet(datagram.bytes, id_len).filter(|_| !may_be_several(datagram, id_len));
        let Follower { connections, keylog, buffer, .. } = self;
        owners.iter().any(|(number, sender)| {
            if let Some(packet) = only {
                let connection = connections.get_mut(number);
                return connection.is_some_and(|one| one.open(&packet, *sender, keylog, buffer).is_some());
            }
            let offloaded = Offloaded { bytes: datagram.bytes, begin: 0, id_len, sender: *sender, is_guess: false };
            let connection = connections.get_mut(number);
            connection.is_some_and(|one| one.segment_len(offloaded, keylog, buffer).is_some())
        })
    }

    // The size of the segments of a datagram that has several.
    fn segment_len(&mut self, datagram: &Datagram<'_>, owners: &[Owner], id_len: usize) -> Option<usize> {
        let bytes = datagram.bytes;
        if !may_be_several(datagram, id_len) {
            return None;
        }
        let short = Packets::with_checks(bytes, id_len, &VERSIONS, CHECKS)
            .map_while(Result::ok)
            .find(|packet| packet.header().is_short())?;
        let begin = short.place().range().start;
        let Follower { connections, keylog, buffer, .. } = self;
        let size = owners.iter().find_map(|(number, sender)| {
            let offloaded = Offloaded { bytes, begin, id_len, sender: *sender, is_guess: false };
            connections.get_mut(number)?.segment_len(offloaded, keylog, buffer)
        })?;
        self.count_segments(bytes.len(), size);
        Some(size)
    }

    // The same of one whose first segment has only long headers: if that is padded, zeros are between its packets and
    // the next segment's.
    fn padded_len(&mut self, datagram: &Datagram<'_>, id_len: usize) -> Option<usize> {
        let bytes = datagram.bytes;
        if datagram.missing > 0 || bytes.len() <= MOST_USUAL {
            return None;
        }
        let packets = |from: usize| {
            let all = Packets::with_checks(bytes.get(from..).unwrap_or_default(), id_len, &VERSIONS, CHECKS);
            all.map_while(Result::ok).filter(|packet| !packet.header().is_short())
        };
        let id = id_of(packets(0).next()?.dst_cid());
        let end = packets(0).take_while(|packet| id_of(packet.dst_cid()) == id).last()?.place().range().end;
        let size = end + bytes.get(end..)?.iter().position(|byte| *byte != 0)?;
        if size == end || id_of(packets(size).next()?.dst_cid()) != id {
            return None;
        }
        self.count_segments(bytes.len(), size);
        Some(size)
    }

    fn count_segments(&mut self, len: usize, size: usize) {
        if size < len {
            self.counts.offloaded += 1;
            self.counts.segments += len.div_ceil(size) as u64;
        }
    }

    // Takes the packets of a datagram.
    fn segment(&mut self, datagram: &Datagram<'_>, mut course: Course, id_len: usize, sink: &mut dyn Sink) {
        let mut packets = Packets::with_checks(datagram.bytes, id_len, &VERSIONS, CHECKS);
        loop {
            let offset = packets.offset();
            let is_first = course.first_id.is_none();
            let rest = match packets.next() {
                None => return,
                _ if !is_first && packets_are_over(&datagram.bytes[offset..]) => Rest::Zeros,
                Some(Err(HeaderError::CutOff(_))) if datagram.missing > 0 => Rest::NotCaptured,
                Some(Err(error)) => rest_of(&error),
                Some(Ok(packet)) => {
                    let id = id_of(packet.dst_cid());
                    if course.first_id.is_none_or(|first| first == id) {
                        course.first_id = Some(id);
                        self.packet(datagram, &packet, &mut course.owners, sink);
                        continue;
                    }
                    Rest::OtherId
                }
            };
            *self.counts.rests.entry(rest.kind()).or_default() += 1;
            let owner = course.owners.first().and_then(|owner| self.named(*owner));
            sink.rest(owner, datagram, self.packets, offset, rest);
            self.packets += 1;
            return;
        }
    }

    fn named(&self, (number, sender): Owner) -> Option<(&Connection, Side)> {
        self.connections.get(&number).map(|connection| (connection.as_ref(), sender))
    }

    // Takes a packet. If it is opened, the datagram's other packets are its sender's too.
    fn packet(
        &mut self,
        datagram: &Datagram<'_>,
        packet: &PacketRef<'_>,
        owners: &mut Vec<Owner>,
        sink: &mut dyn Sink,
    ) {
        if owners.len() > 1 {
            self.sort(owners, packet);
        }
        let owner = match packet.header().kind() {
            HeaderKind::Retry => return self.retry(datagram, packet, owners, sink),
            HeaderKind::VersionNegotiate => {
                return self.unopened(owners.first(), datagram, packet, Unopened::VersionNegotiation, sink);
            }
            _ => self
                .open(datagram, packet, owners, sink)
                .or_else(|| self.begin(datagram, packet, None, sink))
                .or_else(|| self.earlier(datagram, packet, owners, sink)),
        };
        match owner {
            Some(owner) => *owners = vec![owner],
            None => self.not_opened(datagram, packet, owners, sink),
        }
    }

    // Puts those first whose connection began with a packet's version, and of these those whose sender is known by its
    // id. A client that begins anew in another version, or after a Retry that isn't in the capture, may keep its ids.
    fn sort(&self, owners: &mut [Owner], packet: &PacketRef<'_>) {
        let (header, id) = (packet.header(), packet.src_cid());
        let has_version = matches!(header.kind(), HeaderKind::Initial | HeaderKind::Retry);
        owners.sort_by_key(|(number, sender)| {
            let Some(connection) = self.connections.get(number) else { return (true, true) };
            let is_other = has_version && connection.first_version() != header.version();
            let known = connection.end(*sender).first_scid();
            (is_other, !known.is_some_and(|known| header.is_short() || **known == *id))
        });
    }

    // Opens a packet as one of these senders.
    fn open(
        &mut self,
        datagram: &Datagram<'_>,
        packet: &PacketRef<'_>,
        owners: &[Owner],
        sink: &mut dyn Sink,
    ) -> Option<Owner> {
        let mut buffer = std::mem::take(&mut self.buffer);
        let most_packets = self.most_packets();
        let opened_by = owners.iter().copied().find(|(number, sender)| {
            let Follower { connections, keylog, .. } = self;
            let Some(connection) = connections.get_mut(number) else { return false };
            let Some(opened) = connection.open(packet, *sender, keylog, &mut buffer) else { return false };
            connection.most_packets = most_packets;
            self.room.leave(connection);
            let ids = take(connection, &opened, datagram, self.packets, sink);
            if ids.is_some() {
                self.strays.name(connection, opened.kind());
            }
            self.room.enter(connection);
            if let Some(ids) = ids {
                self.learn((*number, *sender), datagram, &ids);
            }
            true
        });
        self.buffer = buffer;
        let owner = opened_by?;
        self.counts.opened += 1;
        self.packets += 1;
        self.release(owner.0, sink);
        Some(owner)
    }

    // Begins a connection with a packet; with one that was found to be of a connection which began before the capture.
    fn begin(
        &mut self,
        datagram: &Datagram<'_>,
        packet: &PacketRef<'_>,
        found: Option<Found>,
        sink: &mut dyn Sink,
    ) -> Option<Owner> {
        let (number, time, mut buffer) = (self.counts.connections, datagram.time, std::mem::take(&mut self.buffer));
        let begun = match found {
            None => Connection::begin(number, time, packet, &self.keylog, &mut buffer),
            Some(found) => Connection::continued(number, time, (packet, found), &self.keylog, &mut buffer),
        };
        let begun = begun.map(|(mut connection, opened)| {
            let ids = take(&mut connection, &opened, datagram, self.packets, sink);
            self.strays.name(&mut connection, opened.kind());
            (connection, (number, opened.sender()), ids.unwrap_or_default())
        });
        self.buffer = buffer;
        let (connection, owner, ids) = begun?;
        self.counts.connections += 1;
        self.counts.began_before += usize::from(connection.began_before());
        self.counts.opened += 1;
        self.packets += 1;
        self.make_room(sink);
        self.room.enter(&connection);
        let first_dcid = *connection.first_dcid();
        self.connections.insert(number, Box::new(connection));
        self.learn(owner, datagram, &ids);
        self.learn(owner, datagram, &[(first_dcid, Side::Server)]);
        self.release(number, sink);
        Some(owner)
    }

    fn retry(&mut self, datagram: &Datagram<'_>, packet: &PacketRef<'_>, owners: &mut Vec<Owner>, sink: &mut dyn Sink) {
        for owner in owners.iter().copied().filter(|(_, sender)| *sender == Side::Server) {
            let Some(connection) = self.connections.get_mut(&owner.0).filter(|one| one.may_retry()) else { continue };
            let original_id = *connection.first_dcid();
            let Some(retried) = Retried::new(packet, &original_id) else { continue };
            connection.take_retry(&retried, datagram.time);
            self.learn(owner, datagram, &[(retried.id(), Side::Server)]);
            *owners = vec![owner];
            return self.unopened(Some(&owner), datagram, packet, Unopened::Retry, sink);
        }
        self.unopened(owners.first(), datagram, packet, Unopened::InvalidRetry, sink);
    }

    // Says why a packet isn't opened, or lets it wait.
    fn not_opened(&mut self, datagram: &Datagram<'_>, packet: &PacketRef<'_>, owners: &[Owner], sink: &mut dyn Sink) {
        let (kind, place) = (packet.header().kind(), packet.place().range());
        if kind == HeaderKind::Short && place.start == 0 && datagram.missing == 0 {
            if let Some(owner) = self.reset(datagram) {
                return self.unopened(Some(&owner), datagram, packet, Unopened::StatelessReset, sink);
            }
        }
        let why = match owners.first().and_then(|owner| self.named(*owner)) {
            _ if datagram.missing > 0 && place.end == datagram.bytes.len() => Unopened::NotCaptured,
            None => Unopened::NoConnection,
            Some((connection, sender)) => connection.why(packet, sender, &self.keylog),
        };
        if kind == HeaderKind::ZeroRtt && matches!(why, Unopened::NoConnection | Unopened::NoClientHello) {
            for held in self.waiting.push(id_of(packet.dst_cid()), datagram, place.start) {
                self.give_up(&held, false, sink);
            }
            return;
        }
        self.unopened(owners.first(), datagram, packet, why, sink);
    }

    fn unopened(
        &mut self,
        owner: Option<&Owner>,
        datagram: &Datagram<'_>,
        packet: &PacketRef<'_>,
        why: Unopened,
        sink: &mut dyn Sink,
    ) {
        *self.counts.unopened.entry(why).or_default() += 1;
        let owner = owner.and_then(|owner| self.named(*owner));
        sink.unopened(owner, datagram, self.packets, packet, why);
        self.packets += 1;
    }

    // Whose stateless reset a datagram is.
    fn reset(&mut self, datagram: &Datagram<'_>) -> Option<Owner> {
        let owners: Vec<_> = self.index.on_path((datagram.from, datagram.to)).collect();
        owners.into_iter().find(|(number, sender)| {
            let Some(connection) = self.connections.get_mut(number) else { return false };
            let reset = Reset::new(datagram.bytes, *sender, connection.end(*sender).tokens());
            reset.inspect(|reset| connection.take_reset(reset, datagram.time)).is_some()
        })
    }

    // Opens the packets that waited for a connection's ClientHello.
    fn release(&mut self, number: usize, sink: &mut dyn Sink) {
        let Some(connection) = self.connections.get(&number).filter(|_| !self.waiting.is_empty()) else { return };
        if connection.random().is_none() || connection.began_before() {
            return;
        }
        let ids = [&[*connection.first_dcid()][..], connection.retry_ids()].concat();
        for held in self.waiting.take(|held| ids.contains(&held.dcid)) {
            let datagram = held.datagram();
            let Some(packet) = packet_at(&datagram, held.offset, held.dcid.len()) else { continue };
            self.packet(&datagram, &packet, &mut vec![(number, Side::Client)], sink);
        }
    }

    // Learns the ids and the path of a connection, from what was authentic.
    fn learn(&mut self, (number, sender): Owner, datagram: &Datagram<'_>, ids: &[(ConnectionId, Side)]) {
        let (most, most_ids) = (self.most_paths(), self.most_ids());
        let Follower { connections, index, .. } = self;
        let is_weak = |number| connections.get(&number).is_none_or(|one| !one.is_named);
        ids.iter().for_each(|(id, chosen_by)| index.add_id(*id, (number, !*chosen_by), most_ids, is_weak));
        index.add_path((datagram.from, datagram.to), (number, sender), most, is_weak);
        index.add_path((datagram.to, datagram.from), (number, !sender), most, is_weak);
    }
}

// Lets a connection take a packet. Returns the ids that the packet names, and who chose them, if its number is new.
fn take(
    connection: &mut Connection,
    opened: &crate::opened::Opened<'_>,
    datagram: &Datagram<'_>,
    index: u64,
    sink: &mut dyn Sink,
) -> Option<Vec<(ConnectionId, Side)>> {
    let mut ids = Vec::new();
    let is_new = connection.take(opened, datagram, index, &mut |connection, event| {
        if let Event::NewId(id, side) = event {
            ids.push((id, side));
        }
        sink.opened(connection, datagram, index, &event);
    });
    is_new.then_some(ids)
}

// The packet at an offset of a datagram.
fn packet_at<'a>(datagram: &Datagram<'a>, offset: usize, id_len: usize) -> Option<PacketRef<'a>> {
    Packets::with_checks(datagram.bytes, id_len, &VERSIONS, CHECKS)
        .map_while(Result::ok)
        .find(|packet| packet.place().range().start == offset)
}

// Whether a network card may cut a datagram into several: it is longer than usual, has its short header's id again, or
// begins with a long header, as few do.
fn may_be_several(datagram: &Datagram<'_>, id_len: usize) -> bool {
    let bytes = datagram.bytes;
    let is_long = bytes.first().is_some_and(|first| first & LONG_HEADER_FORM != 0);
    datagram.missing == 0 && (is_long || bytes.len() > MOST_USUAL || has_id_again(bytes, id_len))
}

// By the first bytes of an id, and without a branch for each byte: most datagrams have one packet.
fn has_id_again(datagram: &[u8], id_len: usize) -> bool {
    let [_, a, b, c, d, rest @ ..] = datagram else { return false };
    let [second, third, fourth] = [1, 2, 3].map(|from| rest.get(from..).unwrap_or_default());
    let fours = rest.iter().zip(second).zip(third).zip(fourth);
    let is_there = |(((one, two), three), four)| (one == a) & (two == b) & (three == c) & (four == d);
    id_len >= 4 && fours.fold(false, |found, bytes| found | is_there(bytes))
}

fn packets_are_over(rest: &[u8]) -> bool {
    rest.iter().all(|byte| *byte == 0)
}

fn rest_of(error: &HeaderError) -> Rest {
    match error {
        HeaderError::UnsupportedVersion(packet) => Rest::Version(packet.version()),
        HeaderError::CutOff(_) => Rest::CutOff,
        HeaderError::InvalidHeader(reason) => Rest::Header(reason),
    }
}
