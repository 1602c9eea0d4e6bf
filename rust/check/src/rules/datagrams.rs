//! Datagrams as a whole.

use crate::about::About;
use crate::claim::Claim;
use crate::rule::{Broken, Check, Checked, History, Need, Rule};
use quic_wire::Side;
use quic_wire::datagram::{HeaderChecks, HeaderKind, Packets, receiver_id};
use quic_wire::ids::MIN_INITIAL_SIZE;
use quic_wire::packet::LONG_HEADER_FORM;
use quic_wire_capture::keys::VERSIONS;
use quic_wire_capture::opened::Opened;

// An id of fewer bytes may be there by chance.
const LEAST_ID: usize = 4;

// A datagram of more bytes may be several, which the network card cuts apart or has joined.
const MOST_USUAL: usize = 1500;

const AMPLIFICATION: &[Need] = &[
    Need::Begin,
    Need::PeerPackets,
    Need::OwnPackets,
    Need::NoEarlyData,
    Need::NoStrays,
    Need::Order,
    Need::Time,
    Need::End,
];

pub(super) static RULES: &[Rule] = &[
    Rule::must(
        "initial-size",
        "14.1",
        "A datagram with an Initial packet of a client, or an ack-eliciting one of a server, has at least 1200 bytes.",
        Check::Done(initial_size),
    ),
    Rule::must(
        "amplification",
        "8.1",
        "A server sends at most three times as many bytes as it received until the client's address is validated.",
        Check::Datagram(amplification),
    )
    .with(History::Whole, AMPLIFICATION),
    Rule::must(
        "path-amplification",
        "9.3",
        "A server sends at most three times as many bytes to another address as came from there until it is validated.",
        Check::Datagram(path_amplification),
    )
    .with(History::Whole, AMPLIFICATION),
    Rule::must(
        "payload-size",
        "18.2",
        "A datagram has at most as many bytes as the receiver's max_udp_payload_size says.",
        Check::Datagram(payload_size),
    )
    .should()
    .with(History::Before, &[Need::PeerParameters]),
    Rule::must(
        "coalesced-ids",
        "12.2",
        "The packets of a datagram have one Destination Connection ID.",
        Check::Rest(coalesced_ids),
    )
    .with(History::Before, &[]),
];

fn initial_size(about: &About<'_>, opened: &Opened<'_>) -> Checked {
    let (size, is_client) = (about.size(), about.sender == Side::Client);
    let is_bound = opened.kind() == HeaderKind::Initial && (is_client || about.current.elicits);
    if !is_bound || size >= usize::from(MIN_INITIAL_SIZE) {
        return Ok(None);
    }
    let whose = if is_client { "a client's Initial packet" } else { "a server's ack-eliciting Initial packet" };
    Broken::new(format!("a datagram of {size} bytes with {whose}"), "1200 bytes or more").at(0).found()
}

fn amplification(about: &About<'_>) -> Checked {
    let (server, client) = (about.own_half().bytes, about.peer_half().bytes);
    if about.sender == Side::Client || about.history.validated.is_some() || server <= client.saturating_mul(3) {
        return Ok(None);
    }
    let seen = format!("{server} bytes sent for {client} received");
    Broken::new(seen, format!("at most {} bytes", client.saturating_mul(3)))
        .at(0)
        .if_still(Claim::Bytes(server))
        .found()
}

fn path_amplification(about: &About<'_>) -> Checked {
    let peer = about.history.peer(about.datagram.to).filter(|_| about.sender == Side::Server);
    let Some(peer) = peer.filter(|peer| !peer.is_valid && peer.sent > peer.received.saturating_mul(3)) else {
        return Ok(None);
    };
    let (to, sent, received) = (about.datagram.to, peer.sent, peer.received);
    Broken::new(format!("{sent} bytes sent to {to}, {received} received"), format!("at most {}", received * 3))
        .at(0)
        .if_still(Claim::BytesTo(to, sent))
        .found()
}

fn payload_size(about: &About<'_>) -> Checked {
    // A client knows the parameter once it sends 1-RTT packets; what it sent before may come later. Everyone receives
    // 1200 bytes.
    let (size, is_short) =
        (about.size(), about.datagram.bytes.first().is_some_and(|first| first & LONG_HEADER_FORM == 0));
    if size <= usize::from(MIN_INITIAL_SIZE) || about.sender == Side::Client && !is_short {
        return Ok(None);
    }
    let most = about.limits()?.max_udp_payload_size.into_inner();
    if size as u64 <= most || sizes(about).into_iter().any(|size| size as u64 <= most) {
        return Ok(None);
    }
    Broken::new(format!("a datagram of {size} bytes"), format!("at most {most}, the peer's max_udp_payload_size"))
        .at(0)
        .found()
}

// The sizes of the datagrams that one may be: all but the last have one size, and each begins with a packet. Those with
// short headers are cut apart by then, since only one size opens them.
fn sizes(about: &About<'_>) -> Vec<usize> {
    let (bytes, checks) = (about.datagram.bytes, HeaderChecks { grease_quic_bit: true, ..HeaderChecks::RFC });
    if about.size() <= MOST_USUAL {
        return Vec::new();
    }
    let id_len = about.peer().first_scid().map_or(0, |id| id.len());
    let packets = Packets::with_checks(bytes, id_len, &VERSIONS, checks).map_while(Result::ok);
    let begins: Vec<_> = packets.map(|packet| packet.place().range().start).collect();
    let is_begin = |at: usize| begins.binary_search(&at).is_ok();
    let fits = |size: &usize| *size > 0 && (*size..bytes.len()).step_by(*size).all(is_begin);
    begins.iter().copied().filter(fits).collect()
}

// Bytes that are no packet may follow, so this one needs an id that the receiver chose.
fn coalesced_ids(about: &About<'_>, offset: usize) -> Checked {
    let rest = about.datagram.bytes.get(offset..).unwrap_or_default();
    let Some((first, behind)) = rest.split_first() else { return Ok(None) };
    let first_id = Some(about.connection.first_dcid()).filter(|_| about.sender == Side::Client);
    let is_known = |id: &[u8]| about.peer().ids().map(|(_, one, _)| one).chain(first_id).any(|one| **one == *id);
    let is_packet = if first & LONG_HEADER_FORM != 0 {
        let version = behind.first_chunk().map(|version| u32::from_be_bytes(*version));
        let has_version = version.is_some_and(|version| VERSIONS.contains(&version));
        has_version && receiver_id(rest, 0).is_some_and(|id| id.len() >= LEAST_ID && is_known(id))
    } else {
        about.peer().ids().any(|(_, id, _)| id.len() >= LEAST_ID && behind.starts_with(id))
    };
    if !is_packet || sizes(about).into_iter().any(|size| offset % size == 0) {
        return Ok(None);
    }
    Broken::new("a packet with another Destination Connection ID", "that of the datagram's first packet")
        .at(offset)
        .found()
}
