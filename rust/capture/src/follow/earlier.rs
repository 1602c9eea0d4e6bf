//! Connections that began before the capture. Packets of unknown ids are tried with the secrets of the key log.

use super::{Follower, packet_at};
use crate::capture::Datagram;
use crate::connection::Connection;
use crate::held::Held;
use crate::index::{Owner, Path};
use crate::keylog::{KeyLog, Label};
use crate::keyring::{MOST_USUAL, Offloaded};
use crate::keys::VERSIONS;
use crate::search::{Found, Front, MOST_ID, Search, Source, Stray, short_packet};
use crate::sink::{Ended, Sink, Unopened};
use quic_wire::datagram::{HeaderKind, PacketRef};
use quic_wire::ids::SpaceId;
use std::cell::Cell;
use std::collections::{BTreeMap, HashMap, HashSet, VecDeque};
use std::ops::RangeInclusive;

/// How many paths are remembered whose packets belong to no connection.
const MOST_PATHS: usize = 1 << 12;

/// How many packets of a path are tried with the key log, and with the secrets of a connection that was found.
const TRIES: usize = 8;
const TRIES_OF_KNOWN: usize = 64;

/// How many connections of the key log are tried, the latest, and among how many of them those are chosen.
const MOST_RANDOMS: usize = 1 << 10;
const MOST_SCANNED: usize = 1 << 14;

/// How many trials of opening a packet the search for connections that began before the capture may cost until it finds
/// one, unless [`Follower::limit_trials`] says otherwise.
pub const MOST_TRIALS: u64 = 1 << 23;

/// How many more for each datagram of the capture.
const TRIALS_OF_DATAGRAM: u64 = 1 << 4;

/// How many connections of the key log are looked at in the time of a trial.
const LOOKS_OF_TRIAL: u64 = 1 << 4;

const ONE_RTT: [Label; 2] = [Label::ClientTraffic, Label::ServerTraffic];
const HANDSHAKE: [Label; 2] = [Label::ClientHandshake, Label::ServerHandshake];

/// What is known of a path whose packets belong to no connection.
#[derive(Default)]
struct Tried {
    tries: usize,
    // How many secrets the key log had had then.
    added: u64,
    fronts: Vec<Front>,
}

/// How much searching costs in all until something is found, in trials of opening a packet.
struct Budget {
    most: u64,
    cost: u64,
}

impl Default for Budget {
    fn default() -> Budget {
        Budget { most: MOST_TRIALS, cost: 0 }
    }
}

impl Budget {
    // How many trials are left after so many datagrams.
    fn left(&self, datagrams: u64) -> u64 {
        self.most.saturating_add(TRIALS_OF_DATAGRAM.saturating_mul(datagrams)).saturating_sub(self.cost)
    }
}

/// What is known for the search.
#[derive(Default)]
pub(super) struct Strays {
    paths: HashMap<Path, Tried>,
    order: VecDeque<Path>,
    budget: Budget,
    // The connections with a packet whose keys came from the key log.
    named: HashMap<[u8; 32], usize>,
    // The last connections of the key log that ended.
    over: HashSet<[u8; 32]>,
    over_order: VecDeque<[u8; 32]>,
}

impl Strays {
    /// Notes whose secrets opened a packet. Returns whether it is the connection's first.
    pub(super) fn name(&mut self, connection: &mut Connection, kind: HeaderKind) -> bool {
        if kind == HeaderKind::Initial || std::mem::replace(&mut connection.is_named, true) {
            return false;
        }
        if let Some(random) = connection.random() {
            self.named.entry(*random).or_insert(connection.number());
        }
        true
    }

    /// Notes that a connection is forgotten, whose secrets may be forgotten too.
    pub(super) fn forget(&mut self, connection: &Connection, how: Ended, keylog: &mut KeyLog) {
        let named = connection.random().filter(|random| self.named.get(*random) == Some(&connection.number()));
        if let Some(random) = named {
            self.named.remove(random);
            if how != Ended::Crowded {
                keylog.end(random);
            }
            if matches!(how, Ended::Closed | Ended::Reset) && self.over.insert(*random) {
                self.over_order.push_back(*random);
            }
            if self.over_order.len() > MOST_SCANNED {
                let oldest = self.over_order.pop_front();
                oldest.map(|oldest| self.over.remove(&oldest));
            }
        }
    }

    // How often packets of a path were tried, with this one. It begins again once the key log has more.
    fn enter(&mut self, path: Path, added: u64) -> usize {
        if !self.paths.contains_key(&path) {
            self.order.push_back(path);
            if self.order.len() > MOST_PATHS {
                let oldest = self.order.pop_front();
                oldest.and_then(|oldest| self.paths.remove(&oldest));
            }
        }
        let stray = self.paths.entry(path).or_default();
        if stray.added != added {
            (stray.tries, stray.added) = (0, added);
        }
        stray.tries = stray.tries.saturating_add(1);
        stray.tries
    }

    fn take_fronts(&mut self, path: &Path) -> Vec<Front> {
        self.paths.get_mut(path).map_or_else(Vec::new, |stray| std::mem::take(&mut stray.fronts))
    }

    fn leave(&mut self, path: &Path, fronts: Vec<Front>, cost: u64) {
        self.budget.cost += cost;
        if let Some(stray) = self.paths.get_mut(path) {
            stray.fronts = fronts;
        }
    }

    // The connections of the key log that the capture doesn't have otherwise, the latest first. Counts those that are
    // looked at.
    fn randoms<'a>(
        &'a self,
        keylog: &'a KeyLog,
        connections: &'a BTreeMap<usize, Box<Connection>>,
        looks: &'a Cell<u64>,
    ) -> impl Iterator<Item = &'a [u8; 32]> {
        let began_before = |random| {
            let number = self.named.get(random);
            number.is_none_or(|number| connections.get(number).is_some_and(|one| one.began_before()))
        };
        let latest = keylog.randoms().rev().take(MOST_SCANNED).inspect(move |_| looks.set(looks.get() + 1));
        let unused = latest.filter(|random| !self.over.contains(*random));
        unused.filter(move |random| began_before(*random)).take(MOST_RANDOMS)
    }

    // What the keys of these connections follow from.
    fn sources<'a>(
        &'a self,
        (keylog, connections, looks): (&'a KeyLog, &'a BTreeMap<usize, Box<Connection>>, &'a Cell<u64>),
        labels: &'a [Label],
        versions: &'a [u32],
    ) -> impl Iterator<Item = Source> {
        self.randoms(keylog, connections, looks)
            .flat_map(move |random| labels.iter().flat_map(move |label| Source::all(keylog, random, *label, versions)))
    }
}

impl Follower {
    /// Opens a packet that no known id names as one of a connection that began before the capture, or one whose secret
    /// came late, after too many packets for its number to be known.
    pub(super) fn earlier(
        &mut self,
        datagram: &Datagram<'_>,
        packet: &PacketRef<'_>,
        owners: &[Owner],
        sink: &mut dyn Sink,
    ) -> Option<Owner> {
        if self.keylog.is_empty() || datagram.missing > 0 {
            return None;
        }
        match packet.header().kind() {
            HeaderKind::Short if packet.place().range().start == 0 => {
                self.earlier_short(datagram, packet, owners, sink)
            }
            HeaderKind::Handshake if self.index.to_id(packet.dst_cid()).is_empty() => {
                let found = self.search_long(datagram, packet, &HANDSHAKE)?;
                self.adopt(datagram, packet, (None, found), sink)
            }
            _ => None,
        }
    }

    /// Whose a datagram is that a network card would cut, if its id isn't known: a connection's on its path that began
    /// before the capture.
    pub(super) fn near_offloaded(&mut self, datagram: &Datagram<'_>) -> Option<(Vec<Owner>, usize)> {
        let near = self.near(datagram);
        if near.is_empty() || self.strays.enter((datagram.from, datagram.to), self.keylog.added()) > TRIES_OF_KNOWN {
            return None;
        }
        let Follower { connections, keylog, buffer, .. } = self;
        let mut tries = near.iter().flat_map(|owner| (0..=MOST_ID).map(move |id_len| (*owner, id_len)));
        let (owner, id_len) = tries.find(|((number, sender), id_len)| {
            let (bytes, id_len, sender) = (datagram.bytes, *id_len, *sender);
            let offloaded = Offloaded { bytes, begin: 0, id_len, sender, is_guess: true };
            let connection = connections.get_mut(number);
            connection.is_some_and(|one| one.segment_len(offloaded, keylog, buffer).is_some())
        })?;
        Some((vec![owner], id_len))
    }

    // The connections on a path that began before the capture and didn't end.
    fn near(&self, datagram: &Datagram<'_>) -> Vec<Owner> {
        let is_live = |one: &Connection| one.began_before() && one.ended(datagram.time).is_none();
        let near = self.index.on_path((datagram.from, datagram.to));
        near.filter(|(number, _)| self.connections.get(number).is_some_and(|one| is_live(one))).collect()
    }

    /// Gives up a 0-RTT packet whose Initial packet didn't come, unless its connection began before the capture. Only
    /// at the end no Initial packet can come any more.
    pub(super) fn give_up(&mut self, held: &Held, is_end: bool, sink: &mut dyn Sink) {
        let datagram = held.datagram();
        let Some(packet) = packet_at(&datagram, held.offset, held.dcid.len()) else { return };
        let owners: Vec<_> = self.index.on_path((datagram.from, datagram.to)).collect();
        let owner = self.open(&datagram, &packet, &owners, sink).or_else(|| {
            let found = is_end.then(|| self.search_long(&datagram, &packet, &[Label::ClientEarly]))??;
            self.adopt(&datagram, &packet, (None, found), sink)
        });
        if owner.is_none() {
            self.unopened(None, &datagram, &packet, Unopened::NoInitial, sink);
        }
    }

    fn earlier_short(
        &mut self,
        datagram: &Datagram<'_>,
        packet: &PacketRef<'_>,
        owners: &[Owner],
        sink: &mut dyn Sink,
    ) -> Option<Owner> {
        let lacks_keys =
            |(number, sender): &Owner| self.connections.get(number).is_some_and(|one| one.lacks_keys(*sender));
        let (near, id_lens) = if owners.is_empty() {
            (self.near(datagram), 0..=MOST_ID)
        } else {
            let id_len = packet.dst_cid().len();
            (owners.iter().copied().filter(lacks_keys).collect(), id_len..=id_len)
        };
        if near.is_empty() && !owners.is_empty() {
            return None;
        }
        let by_known = near.iter().find_map(|owner| {
            let id_len = self.id_len_of(datagram, *owner)?;
            self.open(datagram, &short_packet(datagram.bytes, id_len)?, &[*owner], sink)
        });
        by_known.or_else(|| {
            let found = self.search_short(datagram, &near, id_lens, owners.is_empty())?;
            let packet = short_packet(datagram.bytes, found.1.id_len())?;
            self.adopt(datagram, &packet, found, sink)
        })
    }

    // How many bytes the id of a packet has if it is a connection's: the ids of that side aren't all known.
    fn id_len_of(&mut self, datagram: &Datagram<'_>, (number, sender): Owner) -> Option<usize> {
        let Follower { connections, keylog, buffer, .. } = self;
        let connection = connections.get_mut(&number).filter(|one| !one.lacks_keys(sender))?;
        (0..=MOST_ID).find(|id_len| {
            let packet = short_packet(datagram.bytes, *id_len);
            packet.is_some_and(|packet| connection.open(&packet, sender, keylog, buffer).is_some())
        })
    }

    /// Limits how many trials of opening a packet the search for connections that began before the capture may cost
    /// until it finds one: [`MOST_TRIALS`] otherwise. Each datagram adds 16.
    pub fn limit_trials(&mut self, most: u64) {
        self.strays.budget.most = most;
    }

    // Searches the secrets of the connections that are near, and then those of the key log. Returns the connection too
    // if it is one of those.
    fn search_short(
        &mut self,
        datagram: &Datagram<'_>,
        near: &[Owner],
        id_lens: RangeInclusive<usize>,
        in_log: bool,
    ) -> Option<(Option<usize>, Found)> {
        let Follower { connections, keylog, buffer, strays, counts, .. } = self;
        let path = (datagram.from, datagram.to);
        let (tries, most) = (strays.enter(path, keylog.added()), strays.budget.left(counts.datagrams));
        if most == 0 || tries > TRIES_OF_KNOWN || datagram.bytes.len() > MOST_USUAL {
            return None;
        }
        let mut before = strays.take_fronts(&path);
        let mut search = Search { keylog, buffer, cost: 0, most };
        let mut stray = Stray { datagram: datagram.bytes, before: &[], acknowledged: None, id_lens };
        let of_near = near.iter().find_map(|(number, sender)| {
            let connection = connections.get(number).filter(|one| one.lacks_keys(*sender))?;
            stray.acknowledged = connection.end(*sender).also_expected(SpaceId::Data);
            let versions = [connection.version()];
            let sources = Source::all(keylog, connection.random()?, ONE_RTT[*sender as usize], &versions);
            let fits = |source: &Source| connection.suite().is_none_or(|suite| suite == source.suite.number());
            Some((Some(*number), search.short(&stray, sources.filter(fits))?))
        });
        let looks = Cell::new(0);
        let found = of_near.or_else(|| {
            if !in_log || tries > TRIES {
                return None;
            }
            let sources = strays.sources((keylog, connections, &looks), &ONE_RTT, &VERSIONS);
            (stray.before, stray.acknowledged) = (&before, None);
            Some((None, search.short(&stray, sources)?))
        });
        let cost = search.cost + looks.get() / LOOKS_OF_TRIAL;
        if before.len() < TRIES {
            before.push(Front::new(datagram.bytes));
        }
        strays.leave(&path, before, cost);
        found
    }

    // Searches the secrets of the key log for a packet with a long header.
    fn search_long(&mut self, datagram: &Datagram<'_>, packet: &PacketRef<'_>, labels: &[Label]) -> Option<Found> {
        let Follower { connections, keylog, buffer, strays, counts, .. } = self;
        let path = (datagram.from, datagram.to);
        let most = strays.budget.left(counts.datagrams);
        if strays.enter(path, keylog.added()) > TRIES || most == 0 {
            return None;
        }
        let versions = [packet.header().version()];
        let mut search = Search { keylog, buffer, cost: 0, most };
        let looks = Cell::new(0);
        let found = search.long(*packet, strays.sources((keylog, connections, &looks), labels, &versions));
        strays.budget.cost += search.cost + looks.get() / LOOKS_OF_TRIAL;
        found
    }

    // Opens a packet that was found. It begins a connection, or is of one that began before the capture too.
    fn adopt(
        &mut self,
        datagram: &Datagram<'_>,
        packet: &PacketRef<'_>,
        (known, found): (Option<usize>, Found),
        sink: &mut dyn Sink,
    ) -> Option<Owner> {
        self.strays.budget.cost = 0;
        let Source { random, label, .. } = *found.source();
        let known = known.or_else(|| self.strays.named.get(&random).copied());
        let Some(connection) = known.and_then(|number| self.connections.get_mut(&number)) else {
            return self.begin(datagram, packet, Some(found), sink);
        };
        if connection.ended(datagram.time).is_some() {
            return None;
        }
        let owner = (connection.number(), label.sender());
        connection.adopt(packet, found);
        self.open(datagram, packet, &[owner], sink)
    }
}

#[cfg(test)]
mod tests {
    use super::*;

    // A key log of 4,096 connections that all ended, and datagrams of no connection, each from another port: looking at
    // the key log costs too.
    #[test]
    fn datagrams_of_no_connection() {
        let mut follower = Follower::default();
        for n in 0..4096u32 {
            let random = [n.to_be_bytes(); 8].concat();
            let hex: String = random.iter().map(|byte| format!("{byte:02x}")).collect();
            follower.keylog.add(format!("CLIENT_TRAFFIC_SECRET_0 {hex} {}", "01".repeat(32)).as_bytes());
            follower.strays.over.extend(<[u8; 32]>::try_from(random));
        }
        follower.limit_trials(2000);
        let to = ([10, 0, 0, 2], 53).into();
        let costs: Vec<_> = (1..=10)
            .map(|port| {
                let from = ([10, 0, 0, 1], port).into();
                let bytes = &[0x40; 40];
                follower.take(&Datagram { record: 1, time: 0, from, to, bytes, missing: 0, outgoing: None }, &mut ());
                follower.strays.budget.cost
            })
            .collect();
        assert_eq!(costs[..8], [1, 2, 3, 4, 5, 6, 7, 8].map(|count| 256 * count));
        assert_eq!(costs[8..], [2304, 2304], "it ends after 2,000 trials and 16 for each datagram");
    }
}
