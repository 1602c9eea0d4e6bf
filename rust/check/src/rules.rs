//! The rules, as one table.
//!
//! Many depend on what the peer of a packet's sender had sent before. All of the peer's packets may be late in the
//! file, or not in it, so no rule accuses by the records alone:
//!
//! - `stream-count`, `stream-data-limit`, `data-limit`, `id-count`, `number-length`, `amplification`,
//!   `path-amplification`, `early-done`, `early-update` and `second-update` are about that moment. They need
//!   `Need::Time`: a packet that the sender may have known refutes them (`claim::Order`).
//! - `ack-unsent` is too. It needs `Need::Proof`, a packet that shows what had not been sent.
//! - `unopened-stream`, `path-response`, `response-twice`, `response-path`, `retire-unknown`, `destination-id`,
//!   `original-destination-id`, `retry-source-id` and `initial-token` are decided by the whole connection, at its end.
//! - `update-answer`, `retire-prior`, `after-drain` and `discarded-keys` of a client are about what the packet or one
//!   before it acknowledges. `retry-version` is about a packet that comes before any answer.
//! - `payload-size`, `datagram-size`, `unknown-frame`, `fixed-bit`, `coalesced-ids`, `path-size`, `retire-own`,
//!   `retire-without-bytes` and `chosen-version` need what doesn't change: parameters, ids, addresses and versions.
//!   Those that need parameters have `Need::PeerParameters`.
//!
//! In the first three groups packets that were acknowledged and aren't in the file are `Need::PeerPackets`, and those
//! that may be missing at its end, where nothing shows it, are `Need::End`.

mod datagrams;
mod frames;
mod handshake;
mod ids;
mod keys;
mod packets;
mod parameters;
mod streams;

use crate::rule::Rule;

/// All rules.
///
/// ```
/// let rule = quic_wire_check::rules::find("final-size").unwrap();
/// assert_eq!(rule.section.to_string(), "RFC 9000, section 4.5");
/// ```
pub fn all() -> impl Iterator<Item = &'static Rule> {
    let packets = [datagrams::RULES, packets::RULES, keys::RULES, handshake::RULES];
    let frames = [frames::RULES, streams::RULES, ids::RULES, parameters::RULES];
    packets.into_iter().chain(frames).flatten()
}

/// The rule with a name.
pub fn find(name: &str) -> Option<&'static Rule> {
    all().find(|rule| rule.name == name)
}
