//! The two sides of a connection, each of which sends what it may by what it has received. Who tests makes the network.

use crate::common::Random;
use crate::made::{Client, Handshake, Initial, Short, ZeroRtt, crypto, frame};
use crate::talk::{PING, Talk, padded};
use quic_wire::datagram::HeaderKind;
use quic_wire::frame::{Frame, Iter, NewConnectionId};
use quic_wire::packet::VERSION_2;
use quic_wire::{ConnectionId, Side, StreamId};
use std::collections::{BTreeMap, BTreeSet};
use std::net::SocketAddr;

const MILLI: u64 = 1_000_000;
/// After what time a packet counts as lost, in nanoseconds.
const LOST: u64 = 250 * MILLI;
/// What each side permits at first: bytes on all streams, on each stream, and streams of each type.
const LIMITS: (u64, u64, u64) = (1000, 500, 4);
/// How many actions a side takes before it closes or has no more to say.
const ACTIONS: usize = 40;
/// The most bytes of a datagram.
const ROOM: u64 = 2500;
const RETRIED: [&[u8]; 3] = [b"retry 0", b"retry 1", b"retry 2"];

/// A packet before its protection.
#[derive(Clone)]
pub struct Plain {
    pub kind: HeaderKind,
    pub number: u64,
    pub updates: usize,
    pub version: u32,
    pub token: Vec<u8>,
    pub to: Vec<u8>,
    pub payload: Vec<u8>,
}

/// A datagram.
#[derive(Clone)]
pub struct Sent {
    pub sender: Side,
    pub plain: Vec<Plain>,
    /// The id and the token of a Retry.
    pub retry: Option<(Vec<u8>, Vec<u8>)>,
    pub bytes: Vec<u8>,
    pub from: SocketAddr,
    pub to: SocketAddr,
}

/// What was sent in a packet and isn't acknowledged: when, and the frames that are sent again if it is lost.
struct Flying {
    time: u64,
    updates: usize,
    frames: Vec<Vec<u8>>,
    /// Up to where it acknowledges.
    largest: Option<u64>,
}

#[derive(Clone, Default)]
struct Out {
    end: u64,
    limit: u64,
    is_over: bool,
}

/// A side.
pub struct End {
    side: Side,
    /// What it acknowledges, and all that it took.
    received: [BTreeSet<u64>; 3],
    taken: [BTreeSet<u64>; 3],
    flying: [BTreeMap<u64, Flying>; 3],
    queue: [Vec<Vec<u8>>; 3],
    owes_ack: [bool; 3],
    discarded: [bool; 3],
    pub version: u32,
    /// What keys of Initial packets follow from, and to which id the client sends long headers.
    initial_id: Vec<u8>,
    first_to: Vec<u8>,
    token: Vec<u8>,
    is_begun: bool,
    /// The bytes of the ClientHello, or whether there was a ServerHello.
    hello: BTreeSet<u64>,
    has_flight: bool,
    has_early: bool,
    is_complete: bool,
    is_confirmed: bool,
    updates: usize,
    may_update: bool,
    issued: BTreeMap<u64, Vec<u8>>,
    next_id: u64,
    /// Up to which it asked that its ids be retired.
    asked: u64,
    theirs: BTreeMap<u64, Vec<u8>>,
    taken_ids: BTreeSet<u64>,
    current: u64,
    prior: u64,
    streams: BTreeMap<u64, Out>,
    used_by_peer: BTreeSet<u64>,
    max_data: u64,
    total: u64,
    max_streams: [u64; 2],
    given: (u64, u64, [u64; 2]),
    actions: usize,
    has_close: bool,
    is_drained: bool,
    pub address: SocketAddr,
    peer: SocketAddr,
    /// The client's addresses: what came from there, what went there, and whether it is valid.
    paths: BTreeMap<SocketAddr, (u64, u64, bool)>,
    largest_from: u64,
    challenges: BTreeMap<u64, SocketAddr>,
}

pub struct Ends {
    pub talk: Talk,
    pub ends: [End; 2],
    pub now: u64,
    pub has_retry: bool,
    pub answers_in: u32,
    first_version: u32,
    ids: [Vec<u8>; 2],
}

fn int(value: u64) -> Vec<u8> {
    match value {
        0..64 => vec![value as u8],
        64..16_384 => (0x4000 | value as u16).to_be_bytes().to_vec(),
        _ => (0x8000_0000 | value as u32).to_be_bytes().to_vec(),
    }
}

fn acknowledging(received: &BTreeSet<u64>) -> Vec<u8> {
    let mut runs: Vec<(u64, u64)> = Vec::new();
    for number in received.iter().rev() {
        match runs.last_mut() {
            Some((least, _)) if *least == number + 1 => *least = *number,
            _ => runs.push((*number, *number)),
        }
    }
    runs.truncate(16);
    let (least, largest) = runs[0];
    let mut out = [vec![2], int(largest), vec![0], int(runs.len() as u64 - 1), int(largest - least)].concat();
    for two in runs.windows(2) {
        out.extend([int(two[0].0 - two[1].1 - 2), int(two[1].1 - two[1].0)].concat());
    }
    out
}

fn space_of(kind: HeaderKind) -> usize {
    match kind {
        Initial => 0,
        Handshake => 1,
        _ => 2,
    }
}

impl End {
    fn new(side: Side, talk: &Talk, ids: &[Vec<u8>; 2]) -> End {
        let (initial_id, to) = (talk.made.original_id.clone(), talk.made.original_id.clone());
        let first = |id: &[u8]| BTreeMap::from([(0, id.to_vec())]);
        End {
            side,
            received: Default::default(),
            taken: Default::default(),
            flying: Default::default(),
            queue: Default::default(),
            owes_ack: [false; 3],
            discarded: [false; 3],
            version: talk.made.version,
            initial_id,
            first_to: to,
            token: Vec::new(),
            is_begun: side == Client,
            hello: BTreeSet::new(),
            has_flight: false,
            has_early: false,
            is_complete: false,
            is_confirmed: false,
            updates: 0,
            may_update: false,
            issued: first(&ids[side as usize]),
            next_id: 1,
            asked: 0,
            theirs: first(&ids[!side as usize]),
            taken_ids: BTreeSet::from([0]),
            current: 0,
            prior: 0,
            streams: BTreeMap::new(),
            used_by_peer: BTreeSet::new(),
            max_data: LIMITS.0,
            total: 0,
            max_streams: [LIMITS.2; 2],
            given: (LIMITS.0, LIMITS.1, [LIMITS.2; 2]),
            actions: 0,
            has_close: false,
            is_drained: false,
            address: talk.made.addresses[side as usize],
            peer: talk.made.addresses[!side as usize],
            paths: BTreeMap::new(),
            largest_from: 0,
            challenges: BTreeMap::new(),
        }
    }

    fn is_client(&self) -> bool {
        self.side == Client
    }

    // Whether a server may send a whole datagram to where the client is.
    fn has_room(&self, to: SocketAddr) -> bool {
        let (received, sent, is_valid) = self.paths.get(&to).copied().unwrap_or_default();
        self.is_client() || is_valid || sent + ROOM <= 3 * received
    }

    /// What the client has to send first.
    fn hello(&mut self, message: &[u8], cut: Option<usize>) {
        let cut = cut.unwrap_or(message.len());
        self.queue[0].push(crypto(0, &message[..cut]));
        if cut < message.len() {
            self.queue[0].push(crypto(cut as u64, &message[cut..]));
        }
    }

    // Data for 0-RTT packets.
    fn begin_early(&mut self) {
        self.has_early = true;
        self.total = 80;
        self.streams.insert(0, Out { end: 80, limit: LIMITS.1, is_over: false });
        for offset in [0, 40] {
            self.queue[2].push([vec![0x0e, 0], int(offset), int(40), vec![7; 40]].concat());
        }
    }

    // Takes packets that count as lost.
    fn lose(&mut self, now: u64) {
        for space in 0..3 {
            let lost: Vec<_> =
                self.flying[space].iter().filter(|one| one.1.time + LOST < now).map(|one| *one.0).collect();
            for number in lost {
                let frames = self.flying[space].remove(&number).unwrap().frames;
                if !self.discarded[space] {
                    let is_empty = frames.is_empty();
                    self.queue[space].extend(frames);
                    if is_empty {
                        self.queue[space].push(PING.to_vec());
                    }
                }
            }
        }
    }

    // Whether a frame that is sent again may still be sent.
    fn is_allowed(&self, bytes: &[u8]) -> bool {
        match Iter::new(bytes).unwrap().next().unwrap().unwrap() {
            Frame::Stream(one) => !bytes_are_reset(&self.streams, one.id),
            _ => true,
        }
    }

    fn is_prior(&self, sequence: u64) -> bool {
        sequence < self.prior
    }

    fn retire(&mut self, sequence: u64) {
        self.theirs.remove(&sequence);
        self.queue[2].push([vec![0x19], int(sequence)].concat());
    }

    // Leaves the ids that the peer wants back.
    fn heed(&mut self) {
        if self.is_prior(self.current) {
            self.current = *self.theirs.keys().find(|sequence| !self.is_prior(**sequence)).unwrap();
        }
        let old: Vec<_> = self.theirs.keys().copied().filter(|sequence| self.is_prior(*sequence)).collect();
        old.into_iter().for_each(|sequence| self.retire(sequence));
    }
}

fn bytes_are_reset(streams: &BTreeMap<u64, Out>, id: StreamId) -> bool {
    streams.get(&u64::from(id)).is_some_and(|out| out.limit == u64::MAX)
}

impl Ends {
    pub fn new(talk: Talk, random: &mut Random) -> Ends {
        let ids = talk.made.ids.clone();
        let ends = [Side::Client, Side::Server].map(|side| End::new(side, &talk, &ids));
        let answers_in = if random.below(4) == 0 { VERSION_2 } else { talk.made.version };
        let has_retry = random.below(3) == 0;
        let first_version = talk.made.version;
        let mut ends = Ends { talk, ends, now: 1_000_000_000, has_retry, answers_in, first_version, ids };
        let message = ends.talk.client_message();
        let cut = (random.below(3) == 0).then(|| 1 + random.below(message.len() - 1));
        ends.ends[0].hello(&message, cut);
        if random.below(6) == 0 {
            ends.ends[0].begin_early();
        }
        ends
    }

    // Seals a packet of a side.
    fn seal(&mut self, side: Side, kind: HeaderKind, payload: Vec<u8>) -> (Plain, Vec<u8>) {
        let end = &self.ends[side as usize];
        let to = match (kind, side) {
            (Short, _) => end.theirs[&end.current].clone(),
            (_, Side::Client) => end.first_to.clone(),
            (_, Side::Server) => self.ids[0].clone(),
        };
        let made = &mut self.talk.made;
        made.ids = self.ids.clone();
        made.ids[!side as usize] = to.clone();
        made.first_dcid = (side == Side::Client).then(|| to.clone());
        let version = if kind == ZeroRtt { self.first_version } else { end.version };
        (made.version, made.initial_id, made.token) = (version, end.initial_id.clone(), end.token.clone());
        made.updates[side as usize] = end.updates;
        let number = made.numbers[side as usize][space_of(kind)];
        let payload = padded(&payload, 4);
        let bytes = made.packet(side, kind, &payload);
        let (token, updates) = (end.token.clone(), end.updates);
        (Plain { kind, number, updates, version, token, to, payload }, bytes)
    }

    /// What a side sends now.
    pub fn act(&mut self, side: Side, random: &mut Random) -> Vec<Sent> {
        let now = self.now;
        self.ends[side as usize].lose(now);
        let end = &self.ends[side as usize];
        let to = end.peer;
        if !end.is_begun || end.is_drained || !end.has_room(to) {
            return Vec::new();
        }
        if end.has_close {
            return Vec::new();
        }
        let mut all = self.invent(side, random);
        let mut packets = Vec::new();
        let is_early = side == Side::Client && !self.ends[0].is_complete;
        let last = if is_early { ZeroRtt } else { Short };
        for (space, kind) in [Initial, Handshake, last].into_iter().enumerate() {
            if let Some(payload) = self.payload(side, space, random) {
                let packet = self.packed(side, kind, payload);
                let is_other = packets.last().is_some_and(|(last, _): &(Plain, _)| last.to != packet.0.to);
                if is_other {
                    all.push(self.join(side, std::mem::take(&mut packets), to));
                }
                packets.push(packet);
                // Each in a datagram of its own, or together.
                if random.below(3) == 0 {
                    all.push(self.join(side, std::mem::take(&mut packets), to));
                }
                if !self.ends[side as usize].has_room(to) {
                    break;
                }
            }
        }
        if !packets.is_empty() {
            all.push(self.join(side, packets, to));
        }
        all
    }

    fn join(&mut self, side: Side, packets: Vec<(Plain, Vec<u8>)>, to: SocketAddr) -> Sent {
        let bytes: Vec<u8> = packets.iter().flat_map(|(_, bytes)| bytes.clone()).collect();
        let end = &mut self.ends[side as usize];
        if side == Side::Server {
            end.paths.entry(to).or_default().1 += bytes.len() as u64;
        }
        let plain = packets.into_iter().map(|(plain, _)| plain).collect();
        Sent { sender: side, plain, retry: None, bytes, from: end.address, to }
    }

    // The frames that a side sends in a space: what waits, and an ACK.
    fn payload(&mut self, side: Side, space: usize, random: &mut Random) -> Option<Vec<Vec<u8>>> {
        let end = &mut self.ends[side as usize];
        let can = match (space, side) {
            (0, _) => true,
            (1, Side::Client) => end.is_complete,
            (1, Side::Server) => true,
            _ => end.is_complete || side == Side::Server || end.has_early,
        };
        if !can || end.discarded[space] || (end.queue[space].is_empty() && !end.owes_ack[space]) {
            return None;
        }
        let mut frames = Vec::new();
        if !end.received[space].is_empty() && (end.owes_ack[space] || random.below(2) == 0) {
            frames.push(acknowledging(&end.received[space]));
            end.owes_ack[space] = false;
        }
        let mut waiting = std::mem::take(&mut end.queue[space]);
        waiting.retain(|bytes| end.is_allowed(bytes));
        let rest = waiting.split_off(waiting.len().min(1 + random.below(4)));
        end.queue[space] = rest;
        frames.extend(waiting);
        (!frames.is_empty()).then_some(frames)
    }

    fn packed(&mut self, side: Side, kind: HeaderKind, frames: Vec<Vec<u8>>) -> (Plain, Vec<u8>) {
        let space = space_of(kind);
        let mut payload = frames.concat();
        let elicits = frames.iter().any(|one| ![2, 0x1c].contains(&one[0]));
        let has_path = frames.iter().any(|one| [0x1a, 0x1b].contains(&one[0]));
        if kind == Initial && (side == Side::Client || elicits) || has_path {
            payload = padded(&payload, 1200);
        }
        let sealed = self.seal(side, kind, payload);
        let (now, end) = (self.now, &mut self.ends[side as usize]);
        if kind == Handshake && side == Side::Client {
            end.discarded[0] = true;
        }
        let has_ack = frames.iter().any(|one| one[0] == 2);
        let largest = end.received[space].last().copied().filter(|_| has_ack);
        let again = frames.into_iter().filter(|one| ![1, 2, 0x1a, 0x1b, 0x1c, 0x30, 0x31].contains(&one[0]));
        if elicits {
            let (frames, updates) = (again.collect(), end.updates);
            end.flying[space].insert(sealed.0.number, Flying { time: now, updates, frames, largest });
        }
        sealed
    }
}

include!("ends_take.rs");
include!("ends_invent.rs");
