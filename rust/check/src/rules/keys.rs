//! Keys: when they are discarded and updated.

use super::packets::begin;
use crate::about::{About, Held};
use crate::claim::{Claim, GRACE, SECOND, is_unconfirmed};
use crate::half::{Moment, Phase};
use crate::rule::{Broken, Check, Checked, History, Need, Rule, Section, Types};
use quic_wire::Side;
use quic_wire::datagram::HeaderKind;
use quic_wire::frame::Frame;
use quic_wire::ids::SpaceId;
use quic_wire_capture::opened::Opened;
use std::ops::RangeInclusive;

// What decides whether a side knew by then what its peer had sent.
const KNOWLEDGE: &[Need] = &[Need::Begin, Need::PeerPackets, Need::OwnPackets, Need::Order, Need::Time, Need::End];

pub(super) static RULES: &[Rule] = &[
    Rule::must(
        "discarded-keys",
        "4.9",
        "A side sends no Initial and no Handshake packets once it has to discard their keys.",
        Check::Packet(discarded_keys),
    )
    .of(9001)
    .with(History::Before, &[Need::Begin, Need::Order, Need::Time]),
    Rule::must(
        "zero-rtt-late",
        "17.2.3",
        "A client sends no 0-RTT packet after a 1-RTT packet.",
        Check::Packet(zero_rtt_late),
    )
    .with(History::Before, &[]),
    Rule::must(
        "old-keys",
        "6.4",
        "A packet has no older keys than one with a smaller number.",
        Check::Packet(old_keys),
    )
    .of(9001)
    .with(History::Before, &[]),
    Rule::must(
        "update-answer",
        "6.2",
        "A packet that acknowledges one with new keys has new keys.",
        Check::Frame(Types::ACK, update_answer),
    )
    .of(9001)
    .with(History::Before, &[Need::Begin]),
    Rule::must(
        "early-update",
        "6.1",
        "A side begins no key update before its handshake is confirmed.",
        Check::Packet(early_update),
    )
    .of(9001)
    .with(History::Whole, KNOWLEDGE),
    Rule::must(
        "second-update",
        "6.1",
        "A side begins no further key update before a packet with the current keys was acknowledged.",
        Check::Packet(second_update),
    )
    .of(9001)
    .with(History::Whole, KNOWLEDGE),
];

fn discarded_keys(about: &About<'_>, opened: &Opened<'_>) -> Checked {
    let Some(Moment { time, record }) = about.own_half().discarded(opened.space()) else { return Ok(None) };
    let is_new = about.end().largest(opened.space()).is_none_or(|largest| opened.number() > largest);
    if !is_new || record == about.datagram.record {
        return Ok(None);
    }
    // Where it was sent, the order of the records is that in which it was.
    let least = if about.is_at_sender() { GRACE } else { SECOND };
    if about.datagram.time < time.saturating_add(least) {
        return Err(Need::Time);
    }
    let (number, seen) = match (opened.space(), about.sender) {
        (SpaceId::Initial, Side::Client) => ("4.9.1", "an Initial packet after the Handshake packet of record"),
        (SpaceId::Initial, _) => ("4.9.1", "an Initial packet after the ACK of a Handshake packet in record"),
        (_, Side::Client) => ("4.9.2", "a Handshake packet after the ACK of HANDSHAKE_DONE in record"),
        (_, _) => ("4.9.2", "a Handshake packet after the HANDSHAKE_DONE of record"),
    };
    Broken::new(format!("{seen} {record}"), "none").by_section(Section { rfc: 9001, number }).at(begin(opened)).found()
}

fn zero_rtt_late(about: &About<'_>, opened: &Opened<'_>) -> Checked {
    let least = about.own_half().least_short.filter(|least| *least < opened.number());
    let Some(least) = least.filter(|_| opened.kind() == HeaderKind::ZeroRtt) else { return Ok(None) };
    Broken::new(format!("0-RTT packet {} after 1-RTT packet {least}", opened.number()), "1-RTT packets")
        .at(begin(opened))
        .found()
}

fn old_keys(about: &About<'_>, opened: &Opened<'_>) -> Checked {
    let is_older = |phase: &Phase| opened.updates() < phase.updates && opened.number() > phase.first;
    let phase = about.own_half().phase.filter(|_| opened.kind() == HeaderKind::Short);
    let Some(phase) = phase.filter(is_older) else { return Ok(None) };
    let seen = format!("packet {} with older keys than packet {}", opened.number(), phase.first);
    Broken::new(seen, "the new keys").at(begin(opened)).found()
}

fn early_update(about: &About<'_>, opened: &Opened<'_>) -> Checked {
    let is_first = opened.updates() > 0 && about.own_half().updates() == 0;
    if !is_first || !is_unconfirmed(about.history, about.sender) {
        return Ok(None);
    }
    let before = match about.sender {
        Side::Client => "HANDSHAKE_DONE and any ACK in a 1-RTT packet of the server",
        Side::Server => "any Handshake packet of the client",
    };
    Broken::new(format!("updated keys before {before}"), "the first keys")
        .at(begin(opened))
        .if_still(Claim::Unconfirmed)
        .found()
}

fn second_update(about: &About<'_>, opened: &Opened<'_>) -> Checked {
    let (updates, phase) = (opened.updates(), about.own_half().phase);
    let is_next = |phase: &Phase| updates > phase.updates && about.peer_half().updates() < updates;
    let Some(Phase { updates: current, first, since, .. }) = phase.filter(is_next) else { return Ok(None) };
    let acknowledged = about.end().acknowledged(SpaceId::Data);
    if acknowledged.is_some_and(|largest| largest >= since) {
        return Ok(None);
    }
    let seen = format!("update {updates} of the keys, while no packet with those of update {current} is acknowledged");
    Broken::new(seen, format!("an ACK of packet {first} or a later one before it"))
        .at(begin(opened))
        .if_still(Claim::Update { updates, since })
        .found()
}

fn update_answer(about: &About<'_>, opened: &Opened<'_>, held: &Held<'_>) -> Checked {
    let Frame::Ack(ack) = held.frame else { return Ok(None) };
    let newer = about.peer_half().phase.filter(|phase| phase.updates > opened.updates());
    let Some(phase) = newer.filter(|_| opened.kind() == HeaderKind::Short) else { return Ok(None) };
    // Later ones have no older keys, unless the peer breaks `old-keys`.
    let seen = &about.peer_half().seen[SpaceId::Data as usize];
    let is_new = |number: u64| number > phase.first && !phase.is_mixed && seen.contains(number);
    let newest = |range: RangeInclusive<u64>| match range.contains(&phase.first) {
        true => Some(phase.first),
        false => Some(*range.end()).filter(|number| is_new(*number)),
    };
    let Some(number) = ack.iter().find_map(newest) else { return Ok(None) };
    Broken::new(format!("older keys than those of packet {number}, which it acknowledges"), "the new keys")
        .in_payload(held.range.start)
        .found()
}
