//! Which connections are forgotten, and what of them, so that memory is bounded whatever a capture has.

use super::Follower;
use crate::connection::Connection;
use crate::end::MOST_PACKETS;
use crate::index::MOST_PLACES;
use crate::sink::{Ended, Sink};

/// How many connections are followed at once. For a further one others are forgotten, first those that anyone could
/// have begun, as [`MOST_BEGUN`] says, then those that said nothing for the longest time.
pub const MOST_CONNECTIONS: usize = 1 << 17;

/// How many of them are those that anyone can begin: no packet was opened with a secret of the key log.
pub const MOST_BEGUN: usize = 1 << 15;

/// The most bytes of CRYPTO data of all connections that wait for their messages to be whole, about. Above it half of
/// them are given up; connections that anyone could have begun are forgotten with them.
pub const MOST_HELD: usize = 1 << 26;

/// How many packets of each number space are remembered: so many of all connections together, but at least some.
const MOST_REMEMBERED: usize = 1 << 18;
const LEAST_REMEMBERED: usize = 8;

/// The same of pairs of addresses of each connection, of which anyone can send Initial packets.
const MOST_PATHS: usize = 1 << 18;
const LEAST_PATHS: usize = 8;

/// The same of ids, which only those who have the secrets can issue.
const MOST_IDS: usize = 1 << 21;
const LEAST_IDS: usize = 16;

// After how many datagrams connections that ended are looked for, at least.
const SWEEP: usize = 1 << 10;

/// What of the connections is bounded in sum.
#[derive(Default)]
pub(super) struct Room {
    // How many anyone could have begun.
    begun: usize,
    // How many bytes wait.
    held: usize,
    since_sweep: usize,
}

impl Room {
    /// Counts a connection.
    pub(super) fn enter(&mut self, connection: &Connection) {
        self.begun += usize::from(!connection.is_named);
        self.held += connection.held();
    }

    /// Counts it no longer, as it was when it entered.
    pub(super) fn leave(&mut self, connection: &Connection) {
        self.begun -= usize::from(!connection.is_named);
        self.held -= connection.held();
    }
}

// By which connections are forgotten, the least first.
fn rank(connection: &Connection) -> (bool, u64) {
    (connection.is_named, connection.times().1)
}

impl Follower {
    /// How many packets of a number space are remembered now.
    pub(super) fn most_packets(&self) -> usize {
        (MOST_REMEMBERED / self.connections.len().max(1)).clamp(LEAST_REMEMBERED, MOST_PACKETS)
    }

    /// How many pairs of addresses of a connection are remembered now.
    pub(super) fn most_paths(&self) -> usize {
        (MOST_PATHS / self.connections.len().max(1)).clamp(LEAST_PATHS, MOST_PLACES)
    }

    /// How many ids of a connection are remembered now.
    pub(super) fn most_ids(&self) -> usize {
        (MOST_IDS / self.connections.len().max(1)).clamp(LEAST_IDS, MOST_PLACES)
    }

    /// Forgets the connections that ended, now and then, and of the others what is more than is remembered now.
    pub(super) fn sweep(&mut self, now: u64, sink: &mut dyn Sink) {
        self.room.since_sweep += 1;
        if self.room.since_sweep < SWEEP.max(self.connections.len()) {
            return;
        }
        self.room.since_sweep = 0;
        let ended: Vec<_> =
            self.connections.iter().filter_map(|(number, one)| Some((*number, one.ended(now)?))).collect();
        ended.into_iter().for_each(|(number, how)| self.forget(number, how, sink));
        let (packets, paths, ids) = (self.most_packets(), self.most_paths(), self.most_ids());
        for (number, connection) in &mut self.connections {
            connection.remember(packets);
            self.index.remember_paths(*number, paths);
            self.index.remember_ids(*number, ids);
        }
    }

    /// Forgets a quarter of the connections if there are too many, or of those that anyone could have begun.
    pub(super) fn make_room(&mut self, sink: &mut dyn Sink) {
        let is_full = self.connections.len() >= MOST_CONNECTIONS;
        if !is_full && self.room.begun < MOST_BEGUN {
            return;
        }
        let all = self.connections.iter().filter(|(_, one)| is_full || !one.is_named);
        let mut ranked: Vec<_> = all.map(|(number, one)| (rank(one), *number)).collect();
        ranked.sort_unstable();
        ranked.truncate(if is_full { MOST_CONNECTIONS } else { MOST_BEGUN } / 4);
        ranked.into_iter().for_each(|(_, number)| self.forget(number, Ended::Crowded, sink));
    }

    /// Gives up half of the messages that aren't whole if there are too many.
    pub(super) fn give_up_messages(&mut self, sink: &mut dyn Sink) {
        if self.room.held <= MOST_HELD {
            return;
        }
        let all = self.connections.iter().filter(|(_, one)| one.held() > 0);
        let mut ranked: Vec<_> = all.map(|(number, one)| (rank(one), *number)).collect();
        ranked.sort_unstable();
        for ((is_named, _), number) in ranked {
            if self.room.held <= MOST_HELD / 2 {
                return;
            }
            match self.connections.get_mut(&number) {
                Some(connection) if is_named => {
                    self.room.leave(connection);
                    connection.give_up_messages();
                    self.room.enter(connection);
                }
                _ => self.forget(number, Ended::Crowded, sink),
            }
        }
    }

    /// Forgets a connection.
    pub(super) fn forget(&mut self, number: usize, how: Ended, sink: &mut dyn Sink) {
        self.index.forget(number);
        if let Some(connection) = self.connections.remove(&number) {
            self.room.leave(&connection);
            self.strays.forget(&connection, how, &mut self.keylog);
            sink.ended(&connection, how);
        }
    }
}
