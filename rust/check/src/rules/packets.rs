//! Headers, packet numbers, and the order of packets.

use crate::about::{About, id_text};
use crate::claim::{Claim, GRACE, is_issued};
use crate::history::{Retry, Token};
use crate::rule::{Broken, Check, Checked, History, Need, Rule};
use quic_wire::datagram::{HeaderKind, PacketRef};
use quic_wire::frame::{Frame, Iter};
use quic_wire::ids::SpaceId;
use quic_wire::{ConnectionId, Side};
use quic_wire_capture::end::Sent;
use quic_wire_capture::opened::Opened;

/// The least bytes of the id that a client chooses for the server (RFC 9000, section 7.2).
const LEAST_FIRST_ID: usize = 8;

pub(super) static RULES: &[Rule] = &[
    Rule::must(
        "fixed-bit",
        "17.2",
        "The fixed bit is 1, unless the receiver sent grease_quic_bit.",
        Check::Packet(fixed_bit),
    )
    .with(History::Before, &[Need::PeerParameters, Need::NoToken]),
    Rule::must("reserved-bits", "17.2", "The reserved bits are 0.", Check::Packet(reserved_bits)),
    Rule::must("server-token", "17.2.2", "A server's Initial packet has no token.", Check::Packet(server_token)),
    Rule::must(
        "first-id",
        "7.2",
        "A client's first Initial packet has a Destination Connection ID of at least 8 bytes.",
        Check::Packet(first_id),
    )
    .with(History::Before, &[Need::Begin]),
    Rule::must(
        "destination-id",
        "7.2",
        "Packets with long headers go to an id of the peer or, before its first packet, to the client's first one.",
        Check::Packet(destination_id),
    )
    .with(History::Whole, &[Need::Begin, Need::PeerPackets, Need::End]),
    Rule::must(
        "source-id",
        "7.2",
        "The long headers of a side have one Source Connection ID; packets with another one are discarded.",
        Check::Done(source_id),
    )
    .should()
    .with(History::Before, &[Need::Begin]),
    Rule::must(
        "source-after-retry",
        "17.2.5.2",
        "After a Retry a client keeps its Source Connection ID.",
        Check::Done(source_after_retry),
    )
    .with(History::Before, &[Need::Begin]),
    Rule::must("number-reuse", "12.3", "A packet number is used once in its number space.", Check::Again(number_reuse))
        .with(History::Before, &[]),
    Rule::must(
        "number-length",
        "17.1",
        "A packet number has enough bytes for twice its distance from the largest acknowledged one, or for all of it.",
        Check::Packet(number_length),
    )
    .with(History::Whole, &[Need::Begin, Need::PeerPackets, Need::OwnPackets, Need::Order, Need::Time, Need::End]),
    Rule::must(
        "after-close",
        "10.2.1",
        "After a CONNECTION_CLOSE its sender sends only packets with that frame.",
        Check::Done(after_close),
    )
    .should()
    .with(History::Before, &[]),
    Rule::must(
        "after-drain",
        "10.2.2",
        "After a CONNECTION_CLOSE its receiver sends at most a packet with that frame.",
        Check::Done(after_drain),
    )
    .with(History::Before, &[]),
    Rule::must("retry-token", "17.2.5.2", "A Retry has a token.", Check::Retry(retry_token)),
    Rule::must(
        "initial-token",
        "8.1.2",
        "After a Retry all Initial packets of the client have the Retry's token.",
        Check::Packet(initial_token),
    )
    .with(History::Whole, &[Need::Begin, Need::Time]),
    Rule::must(
        "token-kept",
        "8.1.3",
        "A client that has a token puts one into all of its Initial packets.",
        Check::Packet(token_kept),
    )
    .with(History::Before, &[Need::Begin]),
    Rule::must(
        "retry-version",
        "4.1",
        "After a Retry the client goes on with the Retry's version.",
        Check::Packet(retry_version),
    )
    .of(9369)
    .with(History::Before, &[Need::Begin, Need::Time]),
    Rule::must(
        "retry-id",
        "17.2.5.1",
        "A Retry has another Source Connection ID than the id to which the client sent.",
        Check::Retry(retry_id),
    )
    .with(History::Before, &[]),
];

// Where the number begins in the datagram.
fn number_at(opened: &Opened<'_>) -> usize {
    opened.payload_offset() - opened.unprotected().number_len
}

/// Where a packet begins in its datagram.
pub(super) fn begin(opened: &Opened<'_>) -> usize {
    opened.packet().place().range().start
}

fn fixed_bit(about: &About<'_>, opened: &Opened<'_>) -> Checked {
    if opened.packet().header().fixed_bit() || about.limits()?.grease_quic_bit {
        return Ok(None);
    }
    // With a token of a connection in which the server sent it, a client may clear the bit (RFC 9287, section 3.1).
    if about.history.has_token && about.sender == Side::Client {
        return Err(Need::NoToken);
    }
    let section = if opened.kind() == HeaderKind::Short { "17.3.1" } else { "17.2" };
    Broken::new("the fixed bit is 0", "1, since the peer didn't send grease_quic_bit")
        .by(section)
        .at(begin(opened))
        .found()
}

fn reserved_bits(_: &About<'_>, opened: &Opened<'_>) -> Checked {
    if opened.unprotected().reserved_bits_valid() {
        return Ok(None);
    }
    let section = if opened.kind() == HeaderKind::Short { "17.3.1" } else { "17.2" };
    Broken::new("reserved bits that aren't 0", "0").by(section).at(begin(opened)).found()
}

fn server_token(about: &About<'_>, opened: &Opened<'_>) -> Checked {
    let packet = opened.packet();
    if about.sender == Side::Client || opened.kind() != HeaderKind::Initial || packet.token().is_empty() {
        return Ok(None);
    }
    let at = begin(opened) + packet.header().token_pos().start;
    Broken::new(format!("a token of {} bytes", packet.token().len()), "no token").at(at).found()
}

fn first_id(about: &About<'_>, opened: &Opened<'_>) -> Checked {
    let packet = opened.packet();
    let is_first = about.sender == Side::Client && about.end().first_scid().is_none();
    // With a token it may come after a Retry, whose id the server chose. A Retry without one is discarded (section
    // 17.2.5.2).
    let is_bound = is_first && opened.kind() == HeaderKind::Initial && packet.token().is_empty();
    let len = packet.dst_cid().len();
    if !is_bound || len >= LEAST_FIRST_ID {
        return Ok(None);
    }
    let at = begin(opened) + packet.header().dst_cid_pos().start;
    Broken::new(format!("a Destination Connection ID of {len} bytes"), "8 bytes or more").at(at).found()
}

fn destination_id(about: &About<'_>, opened: &Opened<'_>) -> Checked {
    let (packet, connection) = (opened.packet(), about.connection);
    let sources = &about.peer_half().sources;
    if packet.header().is_short() || sources.is_empty() {
        return Ok(None);
    }
    let Ok(id) = ConnectionId::try_from(packet.dst_cid()) else { return Ok(None) };
    let of_client = *connection.first_dcid() == id || connection.retry_ids().contains(&id);
    let is_of_client = about.sender == Side::Client && of_client;
    if is_of_client || sources.contains(&id) || is_issued(connection, !about.sender, &id) {
        return Ok(None);
    }
    let expected = sources.first().map_or_else(String::new, id_text);
    let at = begin(opened) + packet.header().dst_cid_pos().start;
    Broken::new(format!("{} as the Destination Connection ID", id_text(&id)), expected)
        .at(at)
        .if_still(Claim::Destination(id))
        .found()
}

fn other_source(about: &About<'_>, opened: &Opened<'_>) -> Option<Broken> {
    let header = opened.packet().header();
    let first = about.own_half().sources.first().filter(|_| !header.is_short())?;
    // A server that keeps no state closes each time from another id.
    if *opened.packet().src_cid() == **first || about.current.has_close {
        return None;
    }
    let id = ConnectionId::try_from(opened.packet().src_cid()).unwrap_or_default();
    let seen = format!("{} as the Source Connection ID", id_text(&id));
    Some(Broken::new(seen, id_text(first)).at(begin(opened) + header.src_cid_pos().start))
}

fn is_after_retry(about: &About<'_>) -> bool {
    about.sender == Side::Client && about.history.is_retried
}

fn source_id(about: &About<'_>, opened: &Opened<'_>) -> Checked {
    Ok(other_source(about, opened).filter(|_| !is_after_retry(about)))
}

fn source_after_retry(about: &About<'_>, opened: &Opened<'_>) -> Checked {
    Ok(other_source(about, opened).filter(|_| is_after_retry(about)))
}

fn number_reuse(about: &About<'_>, opened: &Opened<'_>, before: &Sent) -> Checked {
    if opened.tag() == before.tag || is_other_close(about, opened) {
        return Ok(None);
    }
    let seen = format!("packet number {} again, with other contents than in record {}", opened.number(), before.record);
    let broken = Broken::new(seen, "a packet number that wasn't used before").at(number_at(opened));
    let is_after_retry = opened.kind() == HeaderKind::Initial && is_to_retry(about, opened);
    if is_after_retry { broken.by("17.2.5.3").found() } else { broken.found() }
}

// A server that keeps no state closes each time with the same number, from another id.
fn is_other_close(about: &About<'_>, opened: &Opened<'_>) -> bool {
    let first = about.own_half().sources.first().filter(|_| about.sender == Side::Server);
    let is_other = first.is_some_and(|first| **first != *opened.packet().src_cid());
    let mut frames = Iter::new(opened.payload()).into_iter().flatten().map_while(Result::ok);
    is_other && opened.kind() == HeaderKind::Initial && frames.any(|frame| matches!(frame, Frame::Close(_)))
}

// The Retry that a client took, if it sends a packet to another id than its first one after that: one to the Retry's id
// shows it.
fn retry_of<'a>(about: &About<'a>, opened: &Opened<'_>) -> Option<&'a Retry> {
    let (first, to) = (about.connection.first_dcid(), opened.packet().dst_cid());
    about.history.retry_for(to).filter(|_| about.sender == Side::Client && *to != **first)
}

/// Whether there is one.
pub(super) fn is_to_retry(about: &About<'_>, opened: &Opened<'_>) -> bool {
    retry_of(about, opened).is_some()
}

fn number_length(about: &About<'_>, opened: &Opened<'_>) -> Checked {
    let (space, number, len) = (opened.space(), opened.number(), opened.unprotected().number_len);
    let (acknowledged, range) = (about.end().acknowledged(space), 1u64 << (8 * len));
    // Before an acknowledgment the number only has to be whole.
    let is_enough = acknowledged.map_or(number < range, |largest| number.saturating_sub(largest) <= range / 2);
    if is_enough {
        return Ok(None);
    }
    let largest = acknowledged.map_or("nothing is acknowledged".into(), |one| format!("{one} is acknowledged"));
    let seen = format!("packet number {number} in {len} bytes, while {largest}");
    let claim = Claim::Number { space, number, most: range / 2 };
    Broken::new(seen, format!("{} bytes or more", len + 1)).at(number_at(opened)).if_still(claim).found()
}

// Away from its sender, only numbers show the order in which packets were sent. Anyone who saw the client's first packet
// can make Initial packets.
fn after_close(about: &About<'_>, opened: &Opened<'_>) -> Checked {
    let Some(closed) = about.end().closed().filter(|closed| closed.sent.space != SpaceId::Initial) else {
        return Ok(None);
    };
    let is_later = match opened.space() == closed.sent.space {
        true => opened.number() > closed.sent.number,
        false => about.is_at_sender() && about.datagram.time > closed.sent.time.saturating_add(GRACE),
    };
    if !is_later || about.current.has_close || about.datagram.record == closed.sent.record {
        return Ok(None);
    }
    let seen = format!("a packet without CONNECTION_CLOSE after that in record {}", closed.sent.record);
    Broken::new(seen, "only packets with CONNECTION_CLOSE").at(begin(opened)).found()
}

// A packet that acknowledges the close was sent after it came.
fn after_drain(about: &About<'_>, opened: &Opened<'_>) -> Checked {
    let Some(closed) = about.peer().closed() else { return Ok(None) };
    if closed.sent.space == SpaceId::Initial || !about.current.acknowledges_close || about.current.has_close {
        return Ok(None);
    }
    let seen = format!("a packet that acknowledges the CONNECTION_CLOSE in record {}", closed.sent.record);
    Broken::new(seen, "nothing but a CONNECTION_CLOSE").at(begin(opened)).found()
}

fn retry_token(_: &About<'_>, packet: &PacketRef<'_>) -> Checked {
    let begin = packet.place().range().start;
    match packet.header().retry(packet.data()) {
        Some(([], _)) => Broken::new("an empty token", "a token").at(begin + packet.header().header_end()).found(),
        _ => Ok(None),
    }
}

fn token_at(opened: &Opened<'_>) -> usize {
    begin(opened) + opened.packet().header().token_pos().start
}

fn initial_token(about: &About<'_>, opened: &Opened<'_>) -> Checked {
    let retry = retry_of(about, opened).filter(|_| opened.kind() == HeaderKind::Initial);
    let given = Token::of(opened.packet().token());
    let Some(Retry { token, id, .. }) = retry.filter(|retry| retry.token != given) else { return Ok(None) };
    let seen = if given.len == 0 { "no token".into() } else { format!("another token, of {} bytes", given.len) };
    let broken = Broken::new(seen, format!("the token of the Retry, {} bytes", token.len)).at(token_at(opened));
    broken.if_still(Claim::Token(*id)).found()
}

// A client that begins anew with another version may have no token for that.
fn token_kept(about: &About<'_>, opened: &Opened<'_>) -> Checked {
    let is_initial = about.sender == Side::Client && opened.kind() == HeaderKind::Initial;
    let version = opened.packet().header().version();
    let is_later = |(of, number): &(u32, u64)| *of == version && *number < opened.number();
    let first = about.history.first_token.filter(is_later).filter(|_| is_initial && opened.packet().token().is_empty());
    // `initial-token` is about the Retry's.
    let Some((_, number)) = first.filter(|_| !is_to_retry(about, opened)) else { return Ok(None) };
    Broken::new("no token", format!("one, as in packet {number}")).at(token_at(opened)).found()
}

// Once the server has answered, versions may change again (RFC 9368). It answers only what the client sends to the
// Retry's id, so the first such packet comes before any answer.
fn retry_version(about: &About<'_>, opened: &Opened<'_>) -> Checked {
    let is_acknowledged = !about.peer_half().acknowledged[SpaceId::Initial as usize].is_empty();
    let is_next = about.peer().first_scid().is_none() && !is_acknowledged;
    let Some(retry) = retry_of(about, opened).filter(|_| is_next) else { return Ok(None) };
    let version = opened.packet().header().version();
    if opened.kind() != HeaderKind::Initial || version == retry.version {
        return Ok(None);
    }
    let seen = &about.own_half().seen[SpaceId::Initial as usize];
    let has_before = opened.number().checked_sub(1).is_none_or(|number| seen.contains(number));
    if about.history.is_retried || !has_before {
        return Err(Need::Time);
    }
    Broken::new(format!("version {version:#x}"), format!("that of the Retry, {:#x}", retry.version))
        .at(begin(opened) + 1)
        .found()
}

fn retry_id(about: &About<'_>, packet: &PacketRef<'_>) -> Checked {
    if *packet.src_cid() != **about.connection.first_dcid() {
        return Ok(None);
    }
    let at = packet.place().range().start + packet.header().src_cid_pos().start;
    Broken::new("the client's Destination Connection ID as the Source Connection ID", "another id").at(at).found()
}
