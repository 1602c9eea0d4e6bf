//! What is remembered of a connection beside what `quic_wire_capture` knows of it.

use crate::claim::{Next, Waiting};
use crate::half::{Half, Moment, Path, Reset};
use crate::tls::Messages;
use crate::vantage::Vantage;
use quic_wire::datagram::{HeaderKind, PacketRef};
use quic_wire::frame::{Ack, Crypto, Frame, Iter};
use quic_wire::ids::SpaceId;
use quic_wire::range_set::RangeSet;
use quic_wire::transport_parameters::{entries, known};
use quic_wire::{ConnectionId, Dir, Side, StreamId};
use quic_wire_capture::capture::Datagram;
use quic_wire_capture::connection::Connection;
use quic_wire_capture::opened::Opened;
use std::hash::{DefaultHasher, Hash, Hasher};
use std::net::SocketAddr;

// Parameters of other documents that permit no frame: version_information (RFC 9368), and those with which Chromium's
// stack sends a time, its options and its versions.
const HARMLESS: [u64; 4] = [0x11, 0x3127, 0x3128, 0x4752];

// How many source ids of a side are remembered.
const MOST_SOURCES: usize = 8;

// How many addresses of a client are remembered.
const MOST_PEERS: usize = 16;

// Up to how many runs are inserted one by one.
const FEW_RUNS: usize = 64;

// How many bytes of CRYPTO data are remembered from before a Retry, and in how many pieces.
const MOST_HELLO: usize = 1 << 12;
const MOST_PIECES: usize = 1 << 8;

// How many runs are remembered of the numbers of packets with HANDSHAKE_DONE, and of those with a Retire Prior To: each
// ACK is compared with them.
const MOST_COMPARED: usize = 64;

/// An address of the client, and the bytes of the datagrams that came from there and went there.
#[derive(Clone, Copy, Debug)]
pub(crate) struct Peer {
    address: SocketAddr,
    pub(crate) received: u64,
    pub(crate) sent: u64,
    /// Whether the server may know that the client is there (RFC 9000, sections 8.1 and 8.2).
    pub(crate) is_valid: bool,
    /// Whether an opened packet came from there that isn't a copy of another.
    pub(crate) is_own: bool,
}

/// A token of an Initial packet or a Retry, which may be long: its length and a hash.
#[derive(Clone, Copy, Debug, PartialEq, Eq)]
pub(crate) struct Token {
    pub(crate) len: usize,
    hash: u64,
}

impl Token {
    pub(crate) fn of(token: &[u8]) -> Token {
        let mut hasher = DefaultHasher::new();
        token.hash(&mut hasher);
        Token { len: token.len(), hash: hasher.finish() }
    }
}

/// What a Retry said.
pub(crate) struct Retry {
    pub(crate) id: ConnectionId,
    pub(crate) token: Token,
    pub(crate) version: u32,
    /// Whether another one with the same id had another token. The client may have taken that.
    pub(crate) has_other_token: bool,
}

/// What is remembered of a connection.
#[derive(Default)]
pub(crate) struct History {
    halves: [Half; 2],
    /// Whether there are 0-RTT packets.
    pub(crate) has_early: bool,
    /// Whether an Initial packet of the client has a token.
    pub(crate) has_token: bool,
    /// Since when the server may know the client's address, in nanoseconds since 1970.
    pub(crate) validated: Option<u64>,
    /// The same before the last datagram.
    pub(crate) validated_before: Option<u64>,
    /// How many datagrams there were.
    pub(crate) datagrams: u64,
    /// Whether the handshake is confirmed, as the server has said.
    pub(crate) is_confirmed: bool,
    /// The client's addresses.
    peers: Vec<Peer>,
    /// The Retries whose tags are right, each of another id.
    retries: Vec<Retry>,
    /// Whether the client sent a packet to the id of the first of them. Otherwise they may not have come, or be
    /// anyone's.
    pub(crate) is_retried: bool,
    /// The version and the least number of the client's Initial packets with a token.
    pub(crate) first_token: Option<(u32, u64)>,
    /// The version of the client's first Initial packet.
    pub(crate) first_version: Option<u32>,
    /// The version of the client's last Initial packet before the server answered.
    pub(crate) original_version: Option<u32>,
    /// The CRYPTO data that the client sent to its first id, with their offsets, as long as a Retry may come.
    pub(crate) hello: Vec<(u64, Vec<u8>)>,
    /// Whether more would have to be remembered than is.
    pub(crate) is_full: bool,
    pub(crate) waiting: Waiting,
}

// Notes that an address of the client is valid.
fn validate(peers: &mut [Peer], address: SocketAddr) {
    peers.iter_mut().filter(|peer| peer.address == address).for_each(|peer| peer.is_valid = true);
}

// Inserts the numbers of an ACK. A run between others moves those behind it, so many of them are merged with the others.
fn insert_all(set: &mut RangeSet, ack: &Ack<'_>) {
    let ranges = || ack.iter().map(|range| *range.start()..range.end().saturating_add(1));
    if set.len() <= FEW_RUNS || ranges().nth(FEW_RUNS).is_none() {
        for range in ranges() {
            set.insert(range);
        }
        return;
    }
    let (mut merged, mut old) = (RangeSet::new(), set.iter().peekable());
    let mut new: Vec<_> = ranges().collect();
    // An ACK has the greatest numbers first.
    while let Some(range) = new.pop() {
        while let Some(before) = old.next_if(|before| before.start <= range.start) {
            merged.insert(before);
        }
        merged.insert(range);
    }
    for run in old {
        merged.insert(run);
    }
    *set = merged;
}

// Inserts a number, if the set hasn't too many runs.
fn insert_few(set: &mut RangeSet, number: u64) {
    if set.len() < MOST_COMPARED {
        set.insert_one(number);
    }
}

/// How many bytes a datagram has.
pub(crate) fn bytes_of(datagram: &Datagram<'_>) -> u64 {
    (datagram.bytes.len() + datagram.missing) as u64
}

/// The two low bits of a stream's id.
pub(crate) fn type_of(id: StreamId) -> usize {
    (u64::from(id) & 3) as usize
}

/// The stream that a frame names.
pub(crate) fn stream_of(frame: &Frame<'_>) -> Option<StreamId> {
    match frame {
        Frame::Stream(stream) => Some(stream.id),
        Frame::ResetStream(reset) => Some(reset.id),
        Frame::StopSending(stop) => Some(stop.id),
        Frame::StreamDataBlocked { id, .. } | Frame::MaxStreamData { id, .. } => Some(*id),
        _ => None,
    }
}

/// The stream that a frame has data of, where they end, and whether they end for good.
pub(crate) fn data_of(frame: &Frame<'_>) -> Option<(StreamId, u64, bool)> {
    match frame {
        Frame::Stream(stream) => Some((stream.id, stream.offset.saturating_add(stream.bytes.len() as u64), stream.fin)),
        Frame::ResetStream(reset) => Some((reset.id, reset.final_offset.into_inner(), true)),
        _ => None,
    }
}

impl History {
    pub(crate) fn half(&self, side: Side) -> &Half {
        &self.halves[side as usize]
    }

    /// Whether all packets of a side are known that its peer may have received.
    pub(crate) fn is_whole(&self, side: Side, spaces: &[SpaceId]) -> bool {
        !self.is_full && spaces.iter().all(|space| self.half(side).is_whole(*space))
    }

    /// Whether all packets of a side are known, and their numbers have no gaps.
    pub(crate) fn has_all(&self, side: Side, spaces: &[SpaceId]) -> bool {
        !self.is_full && spaces.iter().all(|space| self.half(side).has_all(*space))
    }

    /// Whether the client is past its handshake without a Handshake packet: those aren't in the capture.
    pub(crate) fn lacks_handshake(&self) -> bool {
        let client = self.half(Side::Client);
        let is_past = self.is_confirmed || !client.seen[SpaceId::Data as usize].is_empty();
        is_past && !client.has_handshake
    }

    /// Whether a Handshake packet of a side was opened.
    pub(crate) fn has_handshake(&self, side: Side) -> bool {
        self.half(side).has_handshake
    }

    /// Takes a datagram of a side.
    pub(crate) fn take_datagram(&mut self, datagram: &Datagram<'_>, sender: Side) {
        self.validated_before = self.validated;
        self.datagrams += 1;
        let half = &mut self.halves[sender as usize];
        let bytes = bytes_of(datagram);
        half.bytes = half.bytes.saturating_add(bytes);
        half.is_sent |= datagram.outgoing == Some(true);
        half.is_received |= datagram.outgoing == Some(false);
        self.take_bytes(datagram, sender, bytes);
    }

    // Until the handshake is confirmed, the limit of the first address counts.
    fn take_bytes(&mut self, datagram: &Datagram<'_>, sender: Side, bytes: u64) {
        let address = if sender == Side::Client { datagram.from } else { datagram.to };
        if self.peer(address).is_none() && self.peers.len() < MOST_PEERS {
            self.peers.reserve_exact(1);
            self.peers.push(Peer { address, received: 0, sent: 0, is_valid: !self.is_confirmed, is_own: false });
        }
        let Some(peer) = self.peers.iter_mut().find(|peer| peer.address == address) else { return };
        let count = if sender == Side::Client { &mut peer.received } else { &mut peer.sent };
        *count = count.saturating_add(bytes);
    }

    /// What is known of an address of the client, if it is remembered.
    pub(crate) fn peer(&self, address: SocketAddr) -> Option<&Peer> {
        self.peers.iter().find(|peer| peer.address == address)
    }

    /// Where the capture was taken, as far as its records say so: at a side if its host sent all that this side sent,
    /// and received all else. A host that forwards packets does both with each.
    pub(crate) fn vantage(&self) -> Vantage {
        let is_at = |side: Side| {
            let (own, peer) = (self.half(side), self.half(!side));
            (own.is_sent, own.is_received, peer.is_sent, peer.is_received) == (true, false, false, true)
        };
        [Side::Client, Side::Server].into_iter().find(|side| is_at(*side)).map_or(Vantage::Path, Vantage::of)
    }

    /// Notes a packet that isn't opened.
    pub(crate) fn take_unopened(&mut self, sender: Side, space: SpaceId) {
        self.halves[sender as usize].unopened[space as usize] += 1;
    }

    /// Takes the header of an opened packet whose number is new. Only about so many bytes are remembered.
    pub(crate) fn take_packet(&mut self, datagram: &Datagram<'_>, opened: &Opened<'_>, most: usize) {
        use HeaderKind::{Handshake, ZeroRtt};
        let (sender, packet) = (opened.sender(), opened.packet());
        let server_id = self.halves[Side::Server as usize].sources.first().copied();
        // What a side sends is remembered of its peer, too.
        self.is_full |= self.halves.iter().any(|half| half.is_full(most / 2));
        let half = &mut self.halves[sender as usize];
        if let Some(peer) = self.peers.iter_mut().find(|peer| peer.address == datagram.from) {
            peer.is_own = true;
        }
        if packet.header().is_short() {
            half.least_short = Some(half.least_short.map_or(opened.number(), |least| least.min(opened.number())));
            half.add_phase(opened.updates(), opened.number());
        }
        half.is_late |= half.acknowledged[opened.space() as usize].contains(opened.number());
        if !self.is_full {
            half.seen[opened.space() as usize].insert_one(opened.number());
        }
        if packet.header().is_short() {
            return;
        }
        let source = ConnectionId::try_from(packet.src_cid()).unwrap_or_default();
        if !half.sources.contains(&source) && half.sources.len() < MOST_SOURCES {
            // Most have one.
            half.sources.reserve_exact(1);
            half.sources.push(source);
        }
        if opened.kind() == Handshake {
            half.has_handshake = true;
            if sender == Side::Client {
                half.discarded[SpaceId::Initial as usize].get_or_insert(Moment::of(datagram));
            }
            half.has_addresses |= half.address.is_some_and(|address| address != datagram.from);
            half.address = Some(datagram.from);
        }
        self.has_early |= opened.kind() == ZeroRtt;
        if sender == Side::Client {
            self.take_packet_of_client(datagram, opened, server_id);
        } else {
            // No Retry can come any more.
            self.hello = Vec::new();
        }
    }

    // Takes a long header of the client, by the id of the server if that is known.
    fn take_packet_of_client(&mut self, datagram: &Datagram<'_>, opened: &Opened<'_>, server_id: Option<ConnectionId>) {
        let (packet, is_initial) = (opened.packet(), opened.kind() == HeaderKind::Initial);
        // RFC 9000, section 8.1: an id of eight bytes or more that the server chose shows the address, too.
        let knows = server_id.is_some_and(|id| id.len() >= 8 && id[..] == *packet.dst_cid());
        let has_token = is_initial && !packet.token().is_empty();
        self.has_token |= has_token;
        if opened.kind() == HeaderKind::Handshake || has_token || knows {
            self.validated.get_or_insert(datagram.time);
        }
        self.take_destination(opened);
        if is_initial {
            let version = packet.header().version();
            self.first_version.get_or_insert(version);
            if has_token {
                let (_, least) = self.first_token.get_or_insert((version, opened.number()));
                *least = opened.number().min(*least);
            }
            self.original_version = self.original_version.filter(|_| server_id.is_some()).or(Some(version));
        }
    }

    /// Takes note of a packet whose number was used before. The network may have delivered it twice, and on a host that
    /// is the client's NAT it is captured twice, with other addresses.
    pub(crate) fn take_again(&mut self, datagram: &Datagram<'_>, opened: &Opened<'_>) {
        self.take_destination(opened);
        let challenges = &mut self.halves[opened.sender() as usize].challenges;
        if challenges.is_empty() {
            return;
        }
        for frame in Iter::new(opened.payload()).into_iter().flatten().map_while(Result::ok) {
            let Frame::PathChallenge(data) = frame else { continue };
            if let Some(path) = challenges.get_mut(&data) {
                path.compare(datagram);
            }
        }
    }

    // Takes note of a packet to the id of a Retry.
    fn take_destination(&mut self, opened: &Opened<'_>) {
        let packet = opened.packet();
        let is_bound = !self.is_retried && opened.sender() == Side::Client && !packet.header().is_short();
        let taken = self.retries.iter().position(|retry| *retry.id == *packet.dst_cid()).filter(|_| is_bound);
        if let Some(place) = taken {
            self.retries.swap(0, place);
            self.is_retried = true;
            // Its CRYPTO data begin again.
            self.halves[Side::Client as usize].messages[SpaceId::Initial as usize] = Messages::default();
        }
    }

    /// Takes a Retry, also one that came too late or whose tag is wrong.
    pub(crate) fn take_retry(&mut self, packet: &PacketRef<'_>, is_right: bool) {
        let Some((token, _)) = packet.header().retry(packet.data()) else { return };
        let (token, version) = (Token::of(token), packet.header().version());
        let id = ConnectionId::try_from(packet.src_cid()).unwrap_or_default();
        match self.retries.iter_mut().find(|retry| retry.id == id) {
            Some(retry) => retry.has_other_token |= retry.token != token,
            None if is_right => self.retries.push(Retry { id, token, version, has_other_token: false }),
            None => {}
        }
    }

    /// The Retry after which a client sends to an id: the one that it took, or else that of the id.
    pub(crate) fn retry_for(&self, id: &[u8]) -> Option<&Retry> {
        match self.is_retried {
            true => self.retries.first(),
            false => self.retries.iter().find(|retry| *retry.id == *id),
        }
    }

    // Notes where messages begin, and CRYPTO data from before a Retry.
    fn take_crypto(&mut self, connection: &Connection, opened: &Opened<'_>, crypto: &Crypto<'_>) {
        let half = &mut self.halves[opened.sender() as usize];
        half.messages[opened.space() as usize].take(crypto);
        if opened.kind() != HeaderKind::Short {
            half.crypto_version = Some(opened.packet().header().version());
        }
        let is_first = opened.sender() == Side::Client && *opened.packet().dst_cid() == **connection.first_dcid();
        let may_retry = connection.end(Side::Server).first_scid().is_none() && opened.space() == SpaceId::Initial;
        if !is_first || !may_retry || crypto.bytes.is_empty() || self.hello.len() >= MOST_PIECES {
            return;
        }
        let len: usize = self.hello.iter().map(|(_, bytes)| bytes.len()).sum();
        if len + crypto.bytes.len() <= MOST_HELLO {
            self.hello.push((crypto.offset, crypto.bytes.to_vec()));
        }
    }

    /// Takes a frame that its sender may send in this packet.
    pub(crate) fn take_frame(
        &mut self,
        connection: &Connection,
        datagram: &Datagram<'_>,
        opened: &Opened<'_>,
        frame: &Frame<'_>,
    ) {
        let (sender, number) = (opened.sender(), opened.number());
        match frame {
            Frame::Ack(ack) => return self.take_ack(connection, datagram, opened, ack),
            Frame::Crypto(crypto) => return self.take_crypto(connection, opened, crypto),
            _ if self.is_full => return,
            _ => {}
        }
        let [client, server] = &mut self.halves;
        let (own, peer) = if sender == Side::Client { (client, server) } else { (server, client) };
        if let Some(id) = stream_of(frame) {
            let used = &mut own.used[type_of(id)];
            *used = (*used).max(Some(id.index()));
        }
        if let Some((id, until, is_final)) = data_of(frame) {
            own.take_data(id, until, is_final);
        }
        match frame {
            Frame::MaxData(limit) => peer.max_data = peer.max_data.max(limit.into_inner()),
            Frame::MaxStreamData { id, offset } => {
                let stream = peer.stream(*id);
                stream.limit = stream.limit.max(*offset);
            }
            Frame::MaxStreams { dir, count } => {
                let most = &mut peer.max_streams[usize::from(*dir == Dir::Uni)];
                *most = (*most).max(*count);
            }
            Frame::NewConnectionId(new) => {
                own.issued.insert_one(new.sequence);
                if new.retire_prior_to > own.prior {
                    (own.prior, own.prior_by) = (new.retire_prior_to, RangeSet::new());
                }
                if new.retire_prior_to == own.prior && own.prior > 0 {
                    insert_few(&mut own.prior_by, number);
                }
            }
            Frame::RetireConnectionId { sequence } => {
                let by = peer.retired.entry(*sequence).or_insert(number);
                *by = (*by).min(number);
            }
            Frame::PathChallenge(data) => {
                own.challenges.entry(*data).or_insert_with(|| Path::of(datagram, number)).take(datagram, number);
                // Its answer may be in the file before it.
                if sender == Side::Server && peer.responses.contains_key(data) {
                    validate(&mut self.peers, datagram.to);
                }
            }
            Frame::PathResponse(data) => {
                *own.responses.entry(*data).or_default() += 1;
                // Section 8.2.3: the path of the challenge is valid, wherever the response comes from.
                if let Some(path) = peer.challenges.get(data).filter(|_| sender == Side::Client) {
                    validate(&mut self.peers, path.to);
                }
            }
            Frame::ResetStream(reset) => {
                let code = reset.error_code.into_inner();
                let first = own.stream(reset.id).reset.get_or_insert(Reset { by: number, code });
                first.by = first.by.min(number);
            }
            Frame::HandshakeDone => {
                self.is_confirmed = true;
                insert_few(&mut own.dones, number);
                own.discarded[SpaceId::Handshake as usize].get_or_insert(Moment::of(datagram));
            }
            _ => {}
        }
    }

    fn take_ack(&mut self, connection: &Connection, datagram: &Datagram<'_>, opened: &Opened<'_>, ack: &Ack<'_>) {
        let (sender, space) = (opened.sender(), opened.space());
        self.take_knowledge(datagram, opened, ack);
        if !self.is_full {
            insert_all(&mut self.halves[!sender as usize].acknowledged[space as usize], ack);
        }
        self.is_confirmed |= sender == Side::Server && space == SpaceId::Handshake;
        // A packet that was never sent shows nothing.
        if connection.end(!sender).largest(space).is_some_and(|largest| ack.largest() <= largest) {
            self.waiting.take_ack(sender, space, opened.number(), ack.largest());
        }
    }

    // Notes what the sender of an ACK has processed (RFC 9000, section 13.1).
    fn take_knowledge(&mut self, datagram: &Datagram<'_>, opened: &Opened<'_>, ack: &Ack<'_>) {
        let (sender, space) = (opened.sender(), opened.space());
        let [client, server] = &mut self.halves;
        let (own, peer) = if sender == Side::Client { (client, server) } else { (server, client) };
        if sender == Side::Server && space == SpaceId::Handshake {
            own.discarded[SpaceId::Initial as usize].get_or_insert(Moment::of(datagram));
        }
        if space != SpaceId::Data {
            return;
        }
        if own.discarded(SpaceId::Handshake).is_none() && !peer.dones.acknowledged(ack).is_empty() {
            own.discarded[SpaceId::Handshake as usize] = Some(Moment::of(datagram));
        }
        let is_new = own.heeded.is_none_or(|(prior, _)| prior < peer.prior);
        if is_new && !peer.prior_by.is_empty() && !peer.prior_by.acknowledged(ack).is_empty() {
            own.heeded = Some((peer.prior, opened.number()));
        }
    }

    /// Takes the transport parameters of a side.
    pub(crate) fn take_parameters(&mut self, sender: Side, list: &[u8]) {
        let is_unknown = |id: u64| known(id).is_none() && !HARMLESS.contains(&id);
        let has_extension = entries(list).flatten().any(|entry| is_unknown(entry.id) && !entry.is_reserved());
        self.halves[sender as usize].has_extension |= has_extension;
    }

    /// Takes note of an opened packet whose number is new, before it is taken: it may show what its peer sent before.
    pub(crate) fn take_next(&mut self, connection: &Connection, datagram: &Datagram<'_>, opened: &Opened<'_>) {
        if self.waiting.is_empty() {
            return;
        }
        let next = Next::new(connection, self, datagram, opened);
        let mut waiting = std::mem::take(&mut self.waiting);
        waiting.take_next(&next, connection, self);
        self.waiting = waiting;
    }

    /// Tries the claims whose time has come.
    pub(crate) fn try_due(&mut self, connection: &Connection, now: u64) {
        if self.waiting.is_empty() {
            return;
        }
        let mut waiting = std::mem::take(&mut self.waiting);
        waiting.try_due(connection, self, now);
        self.waiting = waiting;
    }
}
