//! What is decided later: a claim that something is broken, which a packet that comes late may show to be wrong.

use crate::finding::Finding;
use crate::history::{History, bytes_of};
use crate::rule::Rule;
use quic_wire::datagram::HeaderKind;
use quic_wire::frame::{Frame, Iter};
use quic_wire::ids::SpaceId;
use quic_wire::transport_parameters::TransportParameters;
use quic_wire::{ConnectionId, Dir, Side, StreamId};
use quic_wire_capture::capture::Datagram;
use quic_wire_capture::connection::Connection;
use quic_wire_capture::opened::Opened;
use std::collections::VecDeque;
use std::net::SocketAddr;

/// How far apart two records may be whose order is wrong, in nanoseconds: a capture takes what comes and what goes from
/// two queues.
pub(crate) const GRACE: u64 = 10_000_000;

/// How late a record may be away from the host that sent the packet, in nanoseconds, if packet numbers don't show the
/// order.
pub(crate) const SECOND: u64 = 1_000_000_000;

// How many claims of a connection that something wasn't sent wait.
const MOST_UNSENT: usize = 64;

const DATA: &[SpaceId] = &[SpaceId::Data];
const ALL: &[SpaceId] = &[SpaceId::Initial, SpaceId::Handshake, SpaceId::Data];

/// What a side did, by what is known of its peer so far.
#[derive(Clone, Copy, Debug)]
pub(crate) enum Claim {
    /// It acknowledged a number that wasn't sent, with its packet of the number `by`.
    Unsent { space: SpaceId, number: u64, by: u64 },
    /// It sent so many bytes on all streams.
    Data(u64),
    /// It sent data of a stream up to an offset.
    StreamData { id: StreamId, until: u64 },
    /// It used a stream of its own that isn't permitted.
    Streams(StreamId),
    /// Its packet's number isn't within so many of the largest that is acknowledged.
    Number { space: SpaceId, number: u64, most: u64 },
    /// With the id of this sequence number it has more than its peer permits; those below `prior` aren't active.
    Ids { sequence: u64, prior: u64 },
    /// It named a stream that its peer hasn't used.
    Unused(StreamId),
    /// It answered a challenge that its peer didn't send.
    Answer(u64),
    /// It retired an id that its peer didn't issue.
    Retired(u64),
    /// It issued an id, and none with the sequence number before.
    Gap(u64),
    /// It answered a challenge again, more often than it came.
    AnswerAgain(u64),
    /// It answered a challenge to another address than that from which it came.
    AnswerTo(u64, SocketAddr),
    /// It sent another token than that of the Retry with this id.
    Token(ConnectionId),
    /// Its parameters say whether there was a Retry, whose record, or one that shows it, may come late.
    Retry,
    /// The server sent so many bytes.
    Bytes(u64),
    /// The server sent so many bytes to an address of the client.
    BytesTo(SocketAddr, u64),
    /// It sent a long header to an id that its peer didn't choose and didn't issue.
    Destination(ConnectionId),
    /// It did what has to wait until its handshake is confirmed.
    Unconfirmed,
    /// It updated its keys so often, its peer less often, and no number from `since` on was acknowledged.
    Update { updates: u64, since: u64 },
}

impl Claim {
    /// The spaces in which the packets of both sides must be known.
    pub(crate) fn spaces(&self) -> &[SpaceId] {
        match self {
            Claim::Unsent { space, .. } | Claim::Number { space, .. } => std::slice::from_ref(space),
            // A datagram at the end of a space leaves no gap; those of the other spaces show whether any are missing.
            Claim::Bytes(_) | Claim::BytesTo(..) => ALL,
            Claim::Destination(_) | Claim::Unconfirmed => ALL,
            // Keys of Initial packets follow from the id of a Retry.
            Claim::Retry => &[SpaceId::Initial],
            _ => DATA,
        }
    }

    /// Whether it is about what its sender knew by then, and not about the whole connection.
    pub(crate) fn is_timed(&self) -> bool {
        !matches!(
            self,
            Claim::Unsent { .. }
                | Claim::Unused(_)
                | Claim::Answer(_)
                | Claim::AnswerAgain(_)
                | Claim::AnswerTo(..)
                | Claim::Token(_)
                | Claim::Retry
                | Claim::Retired(_)
                | Claim::Gap(_)
                | Claim::Destination(_)
        )
    }

    /// Whether a packet of its peer permits it, wherever that is in the file.
    pub(crate) fn is_about_peer(&self) -> bool {
        matches!(
            self,
            Claim::Unused(_)
                | Claim::Answer(_)
                | Claim::AnswerAgain(_)
                | Claim::AnswerTo(..)
                | Claim::Retired(_)
                | Claim::Destination(_)
        )
    }

    // Whether it counts all that its sender sent so far.
    fn is_sum(&self) -> bool {
        matches!(self, Claim::Data(_) | Claim::Bytes(_) | Claim::BytesTo(..))
    }

    // Whether what its sender knew may have come in packets of several number spaces, whose order no numbers show.
    fn has_spaces(&self, sender: Side) -> bool {
        matches!(self, Claim::Bytes(_)) || matches!(self, Claim::Unconfirmed if sender == Side::Server)
    }

    // Whether it is so by what is known now. Of a timed one: once it isn't, it never is again.
    fn holds(&self, connection: &Connection, history: &History, sender: Side, but: Option<&Next>) -> bool {
        let peer = history.half(!sender);
        let limits = connection.end(!sender).parameters();
        match *self {
            Claim::Unsent { space, number, .. } => {
                connection.end(!sender).largest(space).is_none_or(|largest| largest < number)
            }
            Claim::Data(total) => limits.is_some_and(|limits| total > data_limit(limits, history, sender)),
            Claim::StreamData { id, until } => {
                limits.is_some_and(|limits| until > stream_limit(limits, history, sender, id))
            }
            Claim::Streams(id) => limits.is_some_and(|limits| id.index() >= count_limit(limits, history, sender, id)),
            // An ACK refutes it.
            Claim::Number { .. } => true,
            // So would a challenge with the same data that isn't in the capture.
            Claim::AnswerAgain(data) => {
                let asked = peer.challenges.get(&data).map_or(1, |path| path.count);
                history.half(sender).responses.get(&data).is_some_and(|answered| *answered > asked)
            }
            // A token that comes late makes the rule silent.
            Claim::Retry => connection.retry_id().is_none() || history.is_retried,
            Claim::Gap(sequence) => !is_given(connection, history, sender, sequence - 1),
            Claim::Ids { sequence, prior } => limits.is_some_and(|limits| {
                let own = history.half(sender);
                let is_active = |one: u64| (prior..=sequence).contains(&one) && !own.retired.contains_key(&one);
                let active = connection.end(sender).ids().filter(|(one, ..)| is_active(*one)).count() as u64;
                active > limits.active_connection_id_limit.into_inner()
            }),
            Claim::Unused(id) => peer.used[crate::history::type_of(id)].is_none_or(|used| used < id.index()),
            Claim::Answer(data) => !peer.challenges.contains_key(&data),
            Claim::AnswerTo(data, to) => {
                // On a host that is a NAT each packet is captured twice, with both addresses.
                let has_copies = history.peer(to).is_some_and(|peer| !peer.is_own);
                let path = peer.challenges.get(&data).filter(|path| !path.has_others && !has_copies);
                path.is_some_and(|path| path.from != to)
            }
            Claim::Token(id) => history.retry_for(&id).is_some_and(|retry| !retry.has_other_token),
            Claim::Retired(sequence) => last_id(connection, !sender).is_none_or(|last| last < sequence),
            Claim::Bytes(bytes) => {
                let received = peer.bytes.saturating_sub(but.map_or(0, |next| next.bytes));
                let validated = but.map_or(history.validated, |_| history.validated_before);
                validated.is_none() && bytes > received.saturating_mul(3)
            }
            Claim::BytesTo(address, bytes) => history.peer(address).is_some_and(|one| {
                let less = but.filter(|next| next.from == address).map_or(0, |next| next.bytes);
                // A challenge that is late in the file may have been sent there.
                let has_late = || peer.responses.keys().any(|data| !history.half(sender).challenges.contains_key(data));
                !one.is_valid && bytes > one.received.saturating_sub(less).saturating_mul(3) && !has_late()
            }),
            Claim::Destination(id) => !peer.sources.contains(&id) && !is_issued(connection, !sender, &id),
            Claim::Unconfirmed => is_unconfirmed(history, sender),
            // The packet that was acknowledged may be in the file after that.
            Claim::Update { updates, since } => {
                let acknowledged = history.half(sender).acknowledged[SpaceId::Data as usize].max();
                peer.updates() < updates && acknowledged.is_none_or(|largest| largest < since)
            }
        }
    }
}

/// Whether nothing shows a side that the handshake is confirmed (RFC 9001, section 4.1.2): to a server the client's last
/// message, which is in a Handshake packet; to a client HANDSHAKE_DONE, or an ACK in a 1-RTT packet. Nor has its peer
/// updated the keys.
pub(crate) fn is_unconfirmed(history: &History, side: Side) -> bool {
    let peer = history.half(!side);
    let is_shown = match side {
        Side::Client => peer.has_done() || !history.half(side).acknowledged[SpaceId::Data as usize].is_empty(),
        Side::Server => peer.has_handshake(),
    };
    !is_shown && peer.updates() == 0
}

/// How many bytes a side may send on all streams (RFC 9000, section 4.1).
pub(crate) fn data_limit(limits: &TransportParameters, history: &History, sender: Side) -> u64 {
    limits.initial_max_data.into_inner().max(history.half(sender).max_data)
}

/// Up to where a side may send data of a stream (RFC 9000, section 4.1).
pub(crate) fn stream_limit(limits: &TransportParameters, history: &History, sender: Side, id: StreamId) -> u64 {
    let first = match (id.dir(), id.initiator() == sender) {
        (Dir::Uni, _) => limits.initial_max_stream_data_uni,
        (Dir::Bi, true) => limits.initial_max_stream_data_bidi_remote,
        (Dir::Bi, false) => limits.initial_max_stream_data_bidi_local,
    };
    let given = history.half(sender).streams.get(&u64::from(id)).map_or(0, |stream| stream.limit);
    first.into_inner().max(given)
}

/// How many streams of a stream's type a side may open (RFC 9000, section 4.6).
pub(crate) fn count_limit(limits: &TransportParameters, history: &History, sender: Side, id: StreamId) -> u64 {
    let is_uni = id.dir() == Dir::Uni;
    let first = if is_uni { limits.initial_max_streams_uni } else { limits.initial_max_streams_bidi };
    first.into_inner().max(history.half(sender).max_streams[usize::from(is_uni)])
}

/// How many ids of a side are active, with that of a sequence number, if those below `prior` aren't (RFC 9000, section
/// 5.1.1).
pub(crate) fn active_ids(connection: &Connection, history: &History, sender: Side, new: u64, prior: u64) -> u64 {
    let is_active = |sequence: &u64| *sequence >= prior && !history.half(sender).retired.contains_key(sequence);
    let known = connection.end(sender).ids().map(|(sequence, ..)| sequence);
    known.filter(|sequence| *sequence != new).chain([new]).filter(is_active).count() as u64
}

/// Whether a side gave an id with a sequence number, or may have done so with a preferred_address (RFC 9000, section
/// 5.1.1).
pub(crate) fn is_given(connection: &Connection, history: &History, side: Side, sequence: u64) -> bool {
    let parameters = connection.end(side).parameters();
    let may_prefer = side == Side::Server && parameters.is_none_or(|list| list.preferred_address.is_some());
    match sequence {
        0 => true,
        1 if may_prefer => true,
        _ => history.half(side).issued.contains(sequence),
    }
}

/// The greatest sequence number of a side's ids.
pub(crate) fn last_id(connection: &Connection, side: Side) -> Option<u64> {
    connection.end(side).ids().map(|(sequence, ..)| sequence).last()
}

/// Whether a side issued an id. Packets of any type may go to it (RFC 9000, sections 5.1.1 and 7.2).
pub(crate) fn is_issued(connection: &Connection, side: Side, id: &ConnectionId) -> bool {
    connection.end(side).ids().any(|(_, one, _)| one == id)
}

/// A packet that comes next, before anything of it is taken.
#[derive(Clone, Copy, Debug)]
pub(crate) struct Next {
    pub(crate) sender: Side,
    pub(crate) space: SpaceId,
    pub(crate) number: u64,
    /// The largest number of its peer's packets in the space that it acknowledges or answers.
    pub(crate) knows: Option<u64>,
    /// Its datagram: the how manieth of the connection, when that was captured, from where, and how many bytes it has.
    pub(crate) datagram: u64,
    pub(crate) time: u64,
    pub(crate) from: SocketAddr,
    pub(crate) bytes: u64,
}

impl Next {
    pub(crate) fn new(
        connection: &Connection,
        history: &History,
        datagram: &Datagram<'_>,
        opened: &Opened<'_>,
    ) -> Next {
        let (sender, space, number) = (opened.sender(), opened.space(), opened.number());
        let largest = connection.end(!sender).largest(space);
        let challenges = &history.half(!sender).challenges;
        let frames = Iter::new(opened.payload()).into_iter().flatten().map_while(Result::ok);
        let known = frames.filter_map(|frame| match frame {
            // A packet that was never sent shows nothing.
            Frame::Ack(ack) => Some(ack.largest()).filter(|number| largest.is_some_and(|largest| *number <= largest)),
            Frame::PathResponse(data) => challenges.get(&data).map(|path| path.number),
            _ => None,
        });
        let (knows, time, from, bytes) = (known.max(), datagram.time, datagram.from, bytes_of(datagram));
        Next { sender, space, number, knows, datagram: history.datagrams, time, from, bytes }
    }
}

/// What is known of the order of the packet that a timed claim is about, and those of its peer.
#[derive(Clone, Copy, Debug, PartialEq, Eq)]
pub(crate) enum Order {
    /// Each of the peer's may have come before it, wherever its record is.
    Open,
    /// The peer sent that of this number, in this datagram, after it. The claim holds by all that is in the file before.
    Before { number: u64, datagram: u64 },
    /// So much time passed that the claim holds.
    Passed,
}

/// A claim that waits, with what is found if it holds.
pub(crate) struct Pending {
    pub(crate) finding: Finding,
    pub(crate) claim: Claim,
    /// The last packet that the claim is about: of a sum it may be one that comes earlier in the file.
    last: Option<u64>,
    /// When time decides it.
    pub(crate) due: Option<u64>,
    /// Whether the capture was taken where the packet was sent.
    pub(crate) is_at_sender: bool,
    pub(crate) order: Order,
    /// Whether a later packet shows it, if it needs that.
    pub(crate) is_proven: bool,
}

impl Pending {
    /// Of what is found at a side's host, or elsewhere. `now` is the latest time in the file.
    pub(crate) fn new(finding: Finding, claim: Claim, history: &History, is_at_sender: bool, now: u64) -> Pending {
        let (is_unsent, sender) = (matches!(claim, Claim::Unsent { .. }), finding.sender);
        let seen = space_of(finding.packet).and_then(|space| history.half(sender).seen[space as usize].max());
        let last = finding.number.max(seen.filter(|_| claim.is_sum()));
        let begin = if claim.is_sum() { finding.time.max(now) } else { finding.time };
        let (order, is_proven) = (Order::Open, !is_unsent);
        let mut one = Pending { finding, claim, last, due: None, is_at_sender, order, is_proven };
        let is_by_time = claim.is_timed() && (is_at_sender || claim.has_spaces(sender));
        one.due = is_by_time.then(|| begin.saturating_add(one.margin()));
        one
    }

    /// Whether its peer sent a packet after it: one that acknowledges it or what was sent later, or a close, the last
    /// of all. Before that the peer's packets may be missing at the end of the file, where no number shows it.
    pub(crate) fn is_answered(&self, connection: &Connection, history: &History) -> bool {
        let sender = self.finding.sender;
        let of_space = |space| history.half(sender).acknowledged[space as usize].max();
        let acknowledged = space_of(self.finding.packet).and_then(of_space);
        acknowledged.zip(self.last).is_some_and(|(acknowledged, last)| acknowledged >= last)
            || connection.end(!sender).closed().is_some()
    }

    /// How late a record may be that refutes it.
    pub(crate) fn margin(&self) -> u64 {
        if self.is_at_sender || !self.claim.is_timed() { GRACE } else { SECOND }
    }

    // Whether it goes on, now that a packet of the peer comes. What the peer sent before one that acknowledges the last
    // packet, or answers it, may have come before that; what it sent later didn't.
    fn take(&mut self, next: &Next, holds: impl Fn(&Claim) -> bool) -> bool {
        let is_unordered = matches!(self.claim, Claim::Unconfirmed) && self.finding.sender == Side::Server;
        if !self.claim.is_timed() || is_unordered || self.finding.sender == next.sender {
            return true;
        }
        let is_same = Some(next.space) == space_of(self.finding.packet);
        let is_after = is_same && next.knows.zip(self.last).is_some_and(|(knows, last)| knows >= last);
        match self.order {
            Order::Open if is_after => {
                self.order = Order::Before { number: next.number, datagram: next.datagram };
                self.due = self.claim.has_spaces(self.finding.sender).then(|| next.time.saturating_add(self.margin()));
                holds(&self.claim)
            }
            Order::Before { number, datagram } if is_after => {
                self.order = Order::Before { number: number.min(next.number), datagram };
                true
            }
            // The network reordered it.
            Order::Before { number, .. } if is_same => next.number > number,
            // Its record may be late. A client has sent a Handshake packet before a 1-RTT packet.
            Order::Before { datagram, .. } => {
                next.space == SpaceId::Data || next.datagram == datagram || self.due.is_none_or(|due| next.time >= due)
            }
            _ => true,
        }
    }
}

// The number space of packets of a type.
fn space_of(kind: HeaderKind) -> Option<SpaceId> {
    match kind {
        HeaderKind::Initial => Some(SpaceId::Initial),
        HeaderKind::Handshake => Some(SpaceId::Handshake),
        HeaderKind::ZeroRtt | HeaderKind::Short => Some(SpaceId::Data),
        _ => None,
    }
}

/// The claims of a connection that wait.
#[derive(Default)]
pub(crate) struct Waiting {
    claims: Vec<Pending>,
    unsent: VecDeque<Pending>,
    /// The rules of those that a packet explains which may have come before.
    explained: Vec<&'static Rule>,
}

impl Waiting {
    /// Adds a claim. Returns one for which there is no room, if there is for so many.
    pub(crate) fn add(&mut self, pending: Pending, most: usize) -> Option<Pending> {
        if matches!(pending.claim, Claim::Unsent { .. }) {
            self.unsent.push_back(pending);
            // Those that were shown stay.
            let is_full = self.unsent.len() > most.min(MOST_UNSENT);
            let oldest = self.unsent.iter().position(|one| !one.is_proven).filter(|_| is_full);
            return oldest.and_then(|oldest| self.unsent.remove(oldest));
        }
        if self.claims.len() >= most {
            return Some(pending);
        }
        // Most connections have few.
        self.claims.reserve_exact(1);
        self.claims.push(pending);
        None
    }

    // Keeps those claims for which that is so. What was found by the others may have been permitted.
    fn keep(&mut self, is_kept: impl Fn(&mut Pending) -> bool) {
        let Waiting { claims, explained, .. } = self;
        claims.retain_mut(|one| {
            let kept = is_kept(one);
            explained.extend((!kept).then_some(one.finding.rule));
            kept
        });
    }

    /// Takes a packet that comes next.
    pub(crate) fn take_next(&mut self, next: &Next, connection: &Connection, history: &History) {
        let holds = |claim: &Claim| claim.holds(connection, history, !next.sender, Some(next));
        self.keep(|one| one.take(next, holds));
    }

    /// Takes a packet that acknowledges others: what its sender had sent by then has smaller numbers. An ACK that isn't
    /// of a packet itself may have come before that was sent.
    pub(crate) fn take_ack(&mut self, sender: Side, in_space: SpaceId, sent: u64, acknowledged: u64) {
        self.keep(|one| {
            let Claim::Number { space, number, most } = one.claim else { return true };
            let is_before = one.order == Order::Open && one.finding.sender != sender && space == in_space;
            !is_before || acknowledged >= number || number - acknowledged > most
        });
        for one in &mut self.unsent {
            if let Claim::Unsent { space, number, by } = one.claim {
                let is_after = one.finding.sender != sender && space == in_space && acknowledged >= by;
                one.is_proven |= is_after && sent < number;
            }
        }
    }

    /// Takes a packet at the host that sends it: what it had sent some time ago has smaller numbers.
    pub(crate) fn take_sent(&mut self, sender: Side, in_space: SpaceId, sent: u64, now: u64) {
        for one in &mut self.unsent {
            if let Claim::Unsent { space, number, .. } = one.claim {
                let was_before = one.finding.time.saturating_add(GRACE) <= now;
                let is_of_peer = one.finding.sender != sender && space == in_space;
                one.is_proven |= is_of_peer && was_before && sent < number;
            }
        }
    }

    /// Decides the claims whose time has come.
    pub(crate) fn try_due(&mut self, connection: &Connection, history: &History, now: u64) {
        self.keep(|one| {
            let is_due = one.order == Order::Open && one.due.is_some_and(|due| due <= now);
            if is_due {
                one.order = Order::Passed;
            }
            !is_due || one.claim.holds(connection, history, one.finding.sender, None)
        });
    }

    /// The claims that hold at the end, and the rules of those that don't, if what they are about may have been
    /// permitted.
    pub(crate) fn end(mut self, connection: &Connection, history: &History) -> (Vec<Pending>, Vec<&'static Rule>) {
        let holds = |one: &Pending| one.claim.holds(connection, history, one.finding.sender, None);
        self.claims.retain(|one| one.claim.is_timed() || matches!(one.claim, Claim::Token(_)) || holds(one));
        self.keep(|one| one.order != Order::Open || holds(one));
        let unsent = self.unsent.into_iter().filter(holds);
        (self.claims.into_iter().chain(unsent).collect(), self.explained)
    }

    /// Whether no claim waits for what comes.
    pub(crate) fn is_empty(&self) -> bool {
        self.claims.is_empty()
    }
}
