//! 0-RTT packets that came before the ClientHello was whole.

use crate::capture::Datagram;
use quic_wire::ConnectionId;
use std::collections::VecDeque;
use std::net::SocketAddr;

const MOST_PACKETS: usize = 64;
const MOST_BYTES: usize = 1 << 18;

/// A packet that waits, with the datagram in which it came.
pub(crate) struct Held {
    pub(crate) dcid: ConnectionId,
    /// Where it begins in the datagram.
    pub(crate) offset: usize,
    record: u64,
    time: u64,
    from: SocketAddr,
    to: SocketAddr,
    bytes: Vec<u8>,
    missing: usize,
    outgoing: Option<bool>,
}

impl Held {
    pub(crate) fn datagram(&self) -> Datagram<'_> {
        let Held { record, time, from, to, missing, outgoing, .. } = *self;
        Datagram { record, time, from, to, bytes: &self.bytes, missing, outgoing }
    }
}

/// The packets that wait, the oldest first.
#[derive(Default)]
pub(crate) struct Waiting {
    packets: VecDeque<Held>,
    bytes: usize,
}

impl Waiting {
    /// Adds a packet. Returns those that make room for it.
    pub(crate) fn push(&mut self, dcid: ConnectionId, datagram: &Datagram<'_>, offset: usize) -> Vec<Held> {
        let Datagram { record, time, from, to, bytes, missing, outgoing } = *datagram;
        self.bytes += bytes.len();
        let bytes = bytes.to_vec();
        self.packets.push_back(Held { dcid, offset, record, time, from, to, bytes, missing, outgoing });
        let mut given_up = Vec::new();
        while self.packets.len() > MOST_PACKETS || self.bytes > MOST_BYTES {
            given_up.extend(self.pop());
        }
        given_up
    }

    /// The oldest packet.
    pub(crate) fn pop(&mut self) -> Option<Held> {
        let held = self.packets.pop_front()?;
        self.bytes -= held.bytes.len();
        Some(held)
    }

    /// Removes packets, and returns them.
    pub(crate) fn take(&mut self, is_taken: impl FnMut(&Held) -> bool) -> Vec<Held> {
        let (taken, left): (VecDeque<_>, VecDeque<_>) = self.packets.drain(..).partition(is_taken);
        self.bytes = left.iter().map(|held| held.bytes.len()).sum();
        self.packets = left;
        taken.into()
    }

    pub(crate) fn is_empty(&self) -> bool {
        self.packets.is_empty()
    }
}
