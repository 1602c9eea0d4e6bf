//! What is remembered of a side, as the sender of packets.

use crate::tls::Messages;
use quic_wire::ids::SpaceId;
use quic_wire::range_set::RangeSet;
use quic_wire::{ConnectionId, StreamId};
use quic_wire_capture::capture::Datagram;
use std::collections::{BTreeMap, HashMap};
use std::net::SocketAddr;
use std::ops::Range;

// How many bytes a run of numbers and an entry of a map have, at most, while a set or map has room for twice as many.
const RUN: usize = 2 * size_of::<Range<u64>>();
const ENTRY: usize = 2 * size_of::<(u64, Stream)>();
const CHALLENGE: usize = 2 * size_of::<(u64, Path)>();

// How many runs a set has at most.
const MOST_RUNS: usize = 1 << 16;

/// What a side sent on a stream.
#[derive(Clone, Copy, Debug, Default)]
pub(crate) struct Stream {
    /// Up to where, by the greatest offset.
    pub(crate) end: u64,
    /// Its final size.
    pub(crate) size: Option<u64>,
    /// Up to where its peer allowed it with MAX_STREAM_DATA.
    pub(crate) limit: u64,
    pub(crate) reset: Option<Reset>,
}

/// A RESET_STREAM that was sent.
#[derive(Clone, Copy, Debug)]
pub(crate) struct Reset {
    /// The least number of a packet with it.
    pub(crate) by: u64,
    /// Its error code.
    pub(crate) code: u64,
}

/// When something was captured, and in which record.
#[derive(Clone, Copy, Debug)]
pub(crate) struct Moment {
    pub(crate) time: u64,
    pub(crate) record: u64,
}

impl Moment {
    pub(crate) fn of(datagram: &Datagram<'_>) -> Moment {
        Moment { time: datagram.time, record: datagram.record }
    }
}

/// The addresses between which a PATH_CHALLENGE was sent, the first one with its data.
#[derive(Clone, Copy, Debug)]
pub(crate) struct Path {
    pub(crate) from: SocketAddr,
    pub(crate) to: SocketAddr,
    /// The least number of a packet with it.
    pub(crate) number: u64,
    /// How many had the same data.
    pub(crate) count: u64,
    /// Whether one of them was sent between other addresses.
    pub(crate) has_others: bool,
}

impl Path {
    pub(crate) fn of(datagram: &Datagram<'_>, number: u64) -> Path {
        Path { from: datagram.from, to: datagram.to, number, count: 0, has_others: false }
    }

    /// Counts one.
    pub(crate) fn take(&mut self, datagram: &Datagram<'_>, number: u64) {
        self.count += 1;
        self.number = self.number.min(number);
        self.compare(datagram);
    }

    /// Notes the addresses of one, or of a copy.
    pub(crate) fn compare(&mut self, datagram: &Datagram<'_>) {
        self.has_others |= (self.from, self.to) != (datagram.from, datagram.to);
    }
}

/// The keys after an update.
#[derive(Clone, Copy, Debug)]
pub(crate) struct Phase {
    pub(crate) updates: u64,
    /// The least number of a packet with them.
    pub(crate) first: u64,
    /// A number that isn't greater, below which no packet can have them.
    pub(crate) since: u64,
    /// Whether a packet with a greater number has older keys.
    pub(crate) is_mixed: bool,
}

/// What is known of a side, as the sender of packets.
#[derive(Default)]
pub(crate) struct Half {
    /// The numbers of its packets in each space.
    pub(crate) seen: [RangeSet; 3],
    /// Those that its peer acknowledged.
    pub(crate) acknowledged: [RangeSet; 3],
    /// How many packets of each space weren't opened.
    pub(crate) unopened: [u64; 3],
    /// The source ids of its packets.
    pub(crate) sources: Vec<ConnectionId>,
    pub(crate) streams: HashMap<u64, Stream>,
    /// The greatest index of each type of streams that it used, by the two low bits of their ids.
    pub(crate) used: [Option<u64>; 4],
    /// How many bytes it sent on all streams.
    pub(crate) total: u64,
    /// What its peer allowed with MAX_DATA and MAX_STREAMS.
    pub(crate) max_data: u64,
    pub(crate) max_streams: [u64; 2],
    /// The sequence numbers of its ids that its peer retired, with the least number of a packet in which it did so.
    pub(crate) retired: BTreeMap<u64, u64>,
    /// Up to which its ids have to be retired, and the numbers of the packets that said so, the first ones.
    pub(crate) prior: u64,
    pub(crate) prior_by: RangeSet,
    /// Up to which ids of its peer it knows that they have to be retired, and the number of its packet that shows it.
    pub(crate) heeded: Option<(u64, u64)>,
    /// The sequence numbers that it gave with NEW_CONNECTION_ID.
    pub(crate) issued: RangeSet,
    /// The data of its PATH_CHALLENGEs, and where these were sent.
    pub(crate) challenges: HashMap<u64, Path>,
    /// The data of its PATH_RESPONSEs, and how many have them.
    pub(crate) responses: HashMap<u64, u64>,
    /// The numbers of its packets with HANDSHAKE_DONE, the first ones.
    pub(crate) dones: RangeSet,
    /// When it showed that it has discarded the keys of Initial and of Handshake packets.
    pub(crate) discarded: [Option<Moment>; 2],
    /// The least number of its 1-RTT packets.
    pub(crate) least_short: Option<u64>,
    /// Its last keys of 1-RTT packets, if it has updated them.
    pub(crate) phase: Option<Phase>,
    /// Where the TLS messages of its CRYPTO data begin, in each space.
    pub(crate) messages: [Messages; 3],
    /// The version of its last packet with CRYPTO and a long header.
    pub(crate) crypto_version: Option<u32>,
    /// Whether it offers an extension that isn't known here.
    pub(crate) has_extension: bool,
    /// Whether a packet of it is in the file after one that acknowledges it.
    pub(crate) is_late: bool,
    /// The bytes of its datagrams.
    pub(crate) bytes: u64,
    /// Whether the capturing host sent any of them, and whether it received any.
    pub(crate) is_sent: bool,
    pub(crate) is_received: bool,
    pub(crate) has_handshake: bool,
    /// From where all of its Handshake packets came.
    pub(crate) address: Option<SocketAddr>,
    pub(crate) has_addresses: bool,
}

impl Half {
    /// From where its Handshake packets came, if that is one address.
    pub(crate) fn address(&self) -> Option<SocketAddr> {
        self.address.filter(|_| !self.has_addresses)
    }

    /// When it showed that it has discarded the keys of a space (RFC 9001, section 4.9).
    pub(crate) fn discarded(&self, space: SpaceId) -> Option<Moment> {
        self.discarded.get(space as usize).copied().flatten()
    }

    /// Whether an Initial packet of it was opened.
    pub(crate) fn has_initial(&self) -> bool {
        !self.seen[SpaceId::Initial as usize].is_empty()
    }

    /// Whether all of its packets are known, up to the last one.
    pub(crate) fn has_all(&self, space: SpaceId) -> bool {
        let seen = &self.seen[space as usize];
        self.is_whole(space) && seen.len() <= 1 && seen.min().is_none_or(|least| least == 0)
    }

    /// Notes the keys of a 1-RTT packet that isn't in `seen` yet.
    pub(crate) fn add_phase(&mut self, updates: u64, number: u64) {
        let next = self.seen[SpaceId::Data as usize].max().map_or(0, |largest| largest + 1);
        match &mut self.phase {
            Some(phase) if phase.updates == updates => phase.first = phase.first.min(number),
            Some(phase) if phase.updates > updates => phase.is_mixed |= number > phase.first,
            _ if updates == 0 => {}
            phase => *phase = Some(Phase { updates, first: number, since: next.min(number), is_mixed: false }),
        }
    }

    /// How often it updated its keys.
    pub(crate) fn updates(&self) -> u64 {
        self.phase.map_or(0, |phase| phase.updates)
    }

    /// Whether it sent HANDSHAKE_DONE.
    pub(crate) fn has_done(&self) -> bool {
        !self.dones.is_empty()
    }

    /// Whether a Handshake packet of it was opened.
    pub(crate) fn has_handshake(&self) -> bool {
        self.has_handshake
    }

    pub(crate) fn has_unopened(&self, space: SpaceId) -> bool {
        self.unopened[space as usize] > 0
    }

    /// Whether all of its packets that its peer may have received are known.
    pub(crate) fn is_whole(&self, space: SpaceId) -> bool {
        let (seen, acknowledged) = (&self.seen[space as usize], &self.acknowledged[space as usize]);
        if self.has_unopened(space) {
            return false;
        }
        let mut lost = acknowledged.clone();
        lost.subtract(seen);
        let mut missing = RangeSet::new();
        missing.insert(0..seen.max().map_or(0, |largest| largest + 1));
        missing.subtract(seen);
        lost.is_empty() && (missing.is_empty() || missing.max() < acknowledged.max())
    }

    pub(crate) fn stream(&mut self, id: StreamId) -> &mut Stream {
        self.streams.entry(id.into()).or_default()
    }

    pub(crate) fn take_data(&mut self, id: StreamId, until: u64, is_final: bool) {
        let stream = self.stream(id);
        if is_final {
            stream.size = stream.size.or(Some(until));
        }
        let more = until.saturating_sub(stream.end);
        stream.end = stream.end.max(until);
        self.total = self.total.saturating_add(more);
    }

    /// Whether it has more than so many bytes to remember, or a set of numbers has too many runs: one more run is put
    /// between the others, which moves them.
    pub(crate) fn is_full(&self, most: usize) -> bool {
        let others = [&self.issued, &self.dones, &self.prior_by];
        let sets = self.seen.iter().chain(&self.acknowledged).chain(others).map(RangeSet::len);
        let (runs, longest) = sets.fold((0, 0), |(sum, longest), runs| (sum + runs, longest.max(runs)));
        let entries = self.streams.len() + self.retired.len() + self.responses.len();
        runs * RUN + entries * ENTRY + self.challenges.len() * CHALLENGE > most || longest > MOST_RUNS
    }
}
