//! What is known of a side of a connection, as the sender of packets.

use crate::recovery::{Recovery, Rtt};
use crate::tls::CryptoStream;
use quic_wire::ids::SpaceId;
use quic_wire::transport_parameters::TransportParameters;
use quic_wire::{ConnectionId, ResetToken};

pub use crate::recovery::{MOST_PACKETS, Sent};

/// How many ids of a side are remembered at most, those of the greatest sequence numbers. With many connections it is
/// as many as packets, but at least some.
pub const MOST_IDS: usize = 64;
const LEAST_IDS: usize = 16;

/// The close of a side.
#[derive(Clone, Copy, Debug, PartialEq, Eq)]
pub struct Closed {
    /// Its packet.
    pub sent: Sent,
    /// Whether the application closed.
    pub by_application: bool,
}

/// A side of a connection.
#[derive(Default)]
pub struct End {
    pub(crate) scid: Option<ConnectionId>,
    /// By their sequence numbers.
    ids: Vec<(u64, ConnectionId, Option<ResetToken>)>,
    pub(crate) recovery: Recovery,
    /// In each space a number that is near to the next, as an ACK or a search has said it.
    told: [Option<u64>; 3],
    pub(crate) crypto: [CryptoStream; 2],
    pub(crate) parameters: Option<TransportParameters>,
    pub(crate) closed: Option<Closed>,
    pub(crate) has_handshake: bool,
    /// The id of the last packet to it, if the connection began before the capture.
    pub(crate) last_dcid: Option<ConnectionId>,
}

impl End {
    /// The source id of its first packet that was opened. If the connection began before the capture, it may be the id
    /// of the first packet to it that was opened.
    pub fn first_scid(&self) -> Option<&ConnectionId> {
        self.scid.as_ref()
    }

    /// The ids that it gave, with their sequence numbers and reset tokens: at most [`MOST_IDS`].
    pub fn ids(&self) -> impl Iterator<Item = (u64, &ConnectionId, Option<&ResetToken>)> {
        self.ids.iter().map(|(sequence, id, token)| (*sequence, id, token.as_ref()))
    }

    /// Its transport parameters, if they could be read.
    pub fn parameters(&self) -> Option<&TransportParameters> {
        self.parameters.as_ref()
    }

    /// Its first close.
    pub fn closed(&self) -> Option<&Closed> {
        self.closed.as_ref()
    }

    /// Whether a Handshake packet of it was opened.
    pub fn has_handshake(&self) -> bool {
        self.has_handshake
    }

    /// The largest number that it sent in a space.
    pub fn largest(&self, space: SpaceId) -> Option<u64> {
        self.recovery.spaces[space as usize].largest
    }

    /// The largest number that its peer acknowledged in a space.
    pub fn acknowledged(&self, space: SpaceId) -> Option<u64> {
        self.recovery.spaces[space as usize].acknowledged
    }

    /// A packet that it sent, if it is remembered, with what is known by now of its acknowledgment and loss.
    pub fn sent(&self, space: SpaceId, number: u64) -> Option<&Sent> {
        self.recovery.spaces[space as usize].sent(number)
    }

    /// The round-trip time by the acknowledgments of its packets.
    pub fn rtt(&self) -> Option<&Rtt> {
        self.recovery.rtt.as_ref()
    }

    /// Whether a number may have been used before.
    pub(crate) fn was_sent(&self, space: SpaceId, number: u64) -> bool {
        self.recovery.spaces[space as usize].was_sent(number)
    }

    /// The number by which a truncated one is expanded (RFC 9000, appendix A.3).
    pub(crate) fn expected(&self, space: SpaceId) -> u64 {
        self.largest(space).map_or(0, |number| number + 1)
    }

    /// Another number for that, if its peer has acknowledged more than is known, or if the connection began before the
    /// capture.
    pub(crate) fn also_expected(&self, space: SpaceId) -> Option<u64> {
        self.told[space as usize].filter(|told| *told > self.expected(space))
    }

    pub(crate) fn expect(&mut self, space: SpaceId, number: u64) {
        let told = &mut self.told[space as usize];
        *told = (*told).max(Some(number));
    }

    /// Adds a packet. Only the last ones of its space are remembered.
    pub(crate) fn add_sent(&mut self, sent: Sent, most: usize) {
        self.recovery.spaces[sent.space as usize].add(sent, most);
    }

    /// Notes that a packet elicits an acknowledgment.
    pub(crate) fn add_waiting(&mut self, sent: &Sent) {
        self.recovery.spaces[sent.space as usize].add_waiting(sent.number);
    }

    /// Notes an id. The first one that comes with a sequence number stays.
    pub(crate) fn add_id(&mut self, sequence: u64, id: ConnectionId, token: Option<ResetToken>) {
        let Err(place) = self.ids.binary_search_by_key(&sequence, |(sequence, ..)| *sequence) else { return };
        self.ids.reserve_exact(1);
        self.ids.insert(place, (sequence, id, token));
        if self.ids.len() > MOST_IDS {
            self.ids.remove(0);
        }
    }

    /// Forgets all ids but so many.
    pub(crate) fn remember_ids(&mut self, most: usize) {
        let further = self.ids.len().saturating_sub(most.clamp(LEAST_IDS, MOST_IDS));
        if further > 0 {
            self.ids.drain(..further);
            self.ids.shrink_to_fit();
        }
    }

    /// Notes the reset token of the id that a transport parameter has it for.
    pub(crate) fn add_token(&mut self, token: ResetToken) {
        if let Some((0, _, unset @ None)) = self.ids.first_mut() {
            *unset = Some(token);
        }
    }

    pub(crate) fn tokens(&self) -> impl Iterator<Item = &ResetToken> {
        self.ids.iter().filter_map(|(_, _, token)| token.as_ref())
    }
}

#[cfg(test)]
mod tests {
    use super::*;

    #[test]
    fn the_latest_ids_are_remembered() {
        let mut end = End::default();
        (0..100).for_each(|sequence| end.add_id(sequence, ConnectionId::new(&[sequence as u8]), None));
        let known = |end: &End| end.ids().map(|(sequence, ..)| sequence).collect::<Vec<_>>();
        assert_eq!(known(&end), (36..100).collect::<Vec<_>>());
        end.remember_ids(20);
        assert_eq!(known(&end), (80..100).collect::<Vec<_>>());
        end.remember_ids(1);
        assert_eq!(known(&end), (84..100).collect::<Vec<_>>());
    }
}
