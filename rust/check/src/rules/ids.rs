//! Connection ids that are issued and retired.

use crate::about::{About, Held, id_text};
use crate::claim::{Claim, active_ids, is_given, last_id};
use crate::rule::{Broken, Check, Checked, History, Need, Rule, Types};
use quic_wire::ResetToken;
use quic_wire::frame::{Frame, NewConnectionId};
use quic_wire_capture::opened::Opened;

pub(super) static RULES: &[Rule] = &[
    Rule::must(
        "id-without-bytes",
        "19.15",
        "A side whose first id is empty issues no further ones.",
        Check::Frame(Types::NEW_CONNECTION_ID, id_without_bytes),
    )
    .with(History::Before, &[Need::Begin]),
    Rule::must(
        "id-changed",
        "19.15",
        "An id and its reset token don't change for a sequence number.",
        Check::Frame(Types::NEW_CONNECTION_ID, id_changed),
    )
    .with(History::Before, &[Need::Begin]),
    Rule::must("id-twice", "19.15", "An id has one sequence number.", Check::Frame(Types::NEW_CONNECTION_ID, id_twice))
        .with(History::Before, &[Need::Begin]),
    Rule::must(
        "id-count",
        "5.1.1",
        "A side has at most as many active ids as its peer's active_connection_id_limit says.",
        Check::Frame(Types::NEW_CONNECTION_ID, id_count),
    )
    .with(
        History::Whole,
        &[Need::Begin, Need::PeerParameters, Need::PeerPackets, Need::OwnPackets, Need::Order, Need::Time, Need::End],
    ),
    Rule::must(
        "id-sequence",
        "5.1.1",
        "The sequence number of a new id is one greater than that before.",
        Check::Frame(Types::NEW_CONNECTION_ID, id_sequence),
    )
    .with(History::Whole, &[Need::Begin, Need::OwnPackets, Need::OwnNumbers, Need::NoEarlyData, Need::End]),
    Rule::must(
        "token-twice",
        "10.3",
        "A reset token belongs to one id.",
        Check::Frame(Types::NEW_CONNECTION_ID, token_twice),
    )
    .with(History::Before, &[]),
    Rule::must(
        "retire-prior",
        "5.1.2",
        "A side stops using ids below a Retire Prior To before it acknowledges the packet that has it.",
        Check::Packet(retire_prior),
    )
    .with(History::Before, &[Need::Begin]),
    Rule::must("retired-id", "5.1.2", "An id isn't used again after RETIRE_CONNECTION_ID.", Check::Packet(retired_id))
        .should()
        .with(History::Before, &[Need::Begin]),
    Rule::must(
        "retire-without-bytes",
        "19.16",
        "A side whose peer's first id is empty sends no RETIRE_CONNECTION_ID.",
        Check::Frame(Types::RETIRE_CONNECTION_ID, retire_without_bytes),
    )
    .with(History::Before, &[Need::Begin]),
    Rule::must(
        "retire-unknown",
        "19.16",
        "RETIRE_CONNECTION_ID names a sequence number that the peer issued.",
        Check::Frame(Types::RETIRE_CONNECTION_ID, retire_unknown),
    )
    .with(History::Whole, &[Need::Begin, Need::PeerPackets, Need::OwnPackets, Need::End]),
    Rule::must(
        "retire-own",
        "19.16",
        "RETIRE_CONNECTION_ID names another id than that to which its packet goes.",
        Check::Frame(Types::RETIRE_CONNECTION_ID, retire_own),
    )
    .with(History::Before, &[Need::Begin]),
];

fn new_id<'a>(held: &Held<'a>) -> Option<&'a NewConnectionId> {
    match held.frame {
        Frame::NewConnectionId(new) => Some(new),
        _ => None,
    }
}

fn retired(held: &Held<'_>) -> Option<u64> {
    match held.frame {
        Frame::RetireConnectionId { sequence } => Some(*sequence),
        _ => None,
    }
}

fn id_without_bytes(about: &About<'_>, _: &Opened<'_>, held: &Held<'_>) -> Checked {
    if new_id(held).is_none() || about.end().first_scid().is_none_or(|id| !id.is_empty()) {
        return Ok(None);
    }
    Broken::new("NEW_CONNECTION_ID from a side whose first id is empty", "none").in_payload(held.range.start).found()
}

fn id_changed(about: &About<'_>, _: &Opened<'_>, held: &Held<'_>) -> Checked {
    let Some(new) = new_id(held).filter(|new| new.sequence > 0) else { return Ok(None) };
    let Some((_, id, token)) = about.end().ids().find(|(sequence, ..)| *sequence == new.sequence) else {
        return Ok(None);
    };
    if *id == new.id && token.is_none_or(|token| *token == new.reset_token) {
        return Ok(None);
    }
    let sequence = new.sequence;
    let broken = if *id == new.id {
        Broken::new(format!("another reset token for sequence number {sequence}"), "the token of before")
    } else {
        let seen = format!("{} for sequence number {sequence}", id_text(&new.id));
        Broken::new(seen, format!("{}, as before", id_text(id)))
    };
    broken.in_payload(held.range.start).found()
}

fn id_twice(about: &About<'_>, _: &Opened<'_>, held: &Held<'_>) -> Checked {
    let Some(new) = new_id(held) else { return Ok(None) };
    let Some((other, ..)) = about.end().ids().find(|(sequence, id, _)| *sequence != new.sequence && **id == new.id)
    else {
        return Ok(None);
    };
    let seen = format!("{} for sequence number {}", id_text(&new.id), new.sequence);
    Broken::new(seen, format!("sequence number {other}, as before")).in_payload(held.range.start).found()
}

fn id_count(about: &About<'_>, _: &Opened<'_>, held: &Held<'_>) -> Checked {
    let Some(new) = new_id(held) else { return Ok(None) };
    let most = about.limits()?.active_connection_id_limit.into_inner();
    let (sequence, prior) = (new.sequence, new.retire_prior_to.max(about.own_half().prior));
    let active = active_ids(about.connection, about.history, about.sender, sequence, prior);
    if active <= most {
        return Ok(None);
    }
    Broken::new(format!("{active} active ids"), format!("at most {most}, the peer's active_connection_id_limit"))
        .in_payload(held.range.start)
        .if_still(Claim::Ids { sequence, prior })
        .found()
}

// With the sequence number before, any gap below it shows at an id before it.
fn id_sequence(about: &About<'_>, _: &Opened<'_>, held: &Held<'_>) -> Checked {
    let Some(new) = new_id(held).filter(|new| new.sequence > 0) else { return Ok(None) };
    if is_given(about.connection, about.history, about.sender, new.sequence - 1) {
        return Ok(None);
    }
    Broken::new(format!("sequence number {}, without {}", new.sequence, new.sequence - 1), "the next one")
        .in_payload(held.range.start)
        .if_still(Claim::Gap(new.sequence))
        .found()
}

fn token_twice(about: &About<'_>, _: &Opened<'_>, held: &Held<'_>) -> Checked {
    let Some(new) = new_id(held) else { return Ok(None) };
    let has_token = |token: Option<&ResetToken>| token.is_some_and(|token| *token == new.reset_token);
    let Some((other, ..)) = about.end().ids().find(|(one, _, token)| *one != new.sequence && has_token(*token)) else {
        return Ok(None);
    };
    let seen = format!("the reset token of sequence number {other}, for {}", new.sequence);
    Broken::new(seen, "another token").in_payload(held.range.start).found()
}

// The sequence number of the id to which a 1-RTT packet goes.
fn sequence_to(about: &About<'_>, opened: &Opened<'_>) -> Option<u64> {
    let id = opened.packet().dst_cid();
    let mut ids = about.peer().ids().filter(|_| opened.packet().header().is_short());
    ids.find(|(_, one, _)| !one.is_empty() && ***one == *id).map(|(sequence, ..)| sequence)
}

fn retire_prior(about: &About<'_>, opened: &Opened<'_>) -> Checked {
    let Some((prior, by)) = about.own_half().heeded.filter(|(_, by)| opened.number() > *by) else { return Ok(None) };
    let Some(sequence) = sequence_to(about, opened).filter(|sequence| *sequence < prior) else { return Ok(None) };
    let seen = format!("a packet to the id with sequence number {sequence}, after the ACK in packet {by}");
    Broken::new(seen, format!("at least {prior}, the Retire Prior To")).at(id_at(opened)).found()
}

fn retired_id(about: &About<'_>, opened: &Opened<'_>) -> Checked {
    if about.peer_half().retired.is_empty() {
        return Ok(None);
    }
    let Some(sequence) = sequence_to(about, opened) else { return Ok(None) };
    let by = about.peer_half().retired.get(&sequence).filter(|by| **by < opened.number());
    let Some(by) = by else { return Ok(None) };
    let seen = format!("a packet to the id with sequence number {sequence}, which packet {by} retires");
    Broken::new(seen, "another id").at(id_at(opened)).found()
}

// Where the id begins in the datagram.
fn id_at(opened: &Opened<'_>) -> usize {
    opened.packet().place().range().start + opened.packet().header().dst_cid_pos().start
}

fn retire_without_bytes(about: &About<'_>, _: &Opened<'_>, held: &Held<'_>) -> Checked {
    if retired(held).is_none() || about.peer().first_scid().is_none_or(|id| !id.is_empty()) {
        return Ok(None);
    }
    Broken::new("RETIRE_CONNECTION_ID to a side whose first id is empty", "none").in_payload(held.range.start).found()
}

fn retire_unknown(about: &About<'_>, _: &Opened<'_>, held: &Held<'_>) -> Checked {
    let Some(sequence) = retired(held) else { return Ok(None) };
    let last = last_id(about.connection, !about.sender);
    if last.is_some_and(|last| sequence <= last) {
        return Ok(None);
    }
    let most =
        last.map_or("none: the peer issued none".into(), |last| format!("at most {last}, the last that was issued"));
    Broken::new(format!("RETIRE_CONNECTION_ID of sequence number {sequence}"), most)
        .in_payload(held.range.start)
        .if_still(Claim::Retired(sequence))
        .found()
}

fn retire_own(about: &About<'_>, opened: &Opened<'_>, held: &Held<'_>) -> Checked {
    let Some(sequence) = retired(held) else { return Ok(None) };
    let is_own = |id: &[u8]| !id.is_empty() && *id == *opened.packet().dst_cid();
    if !about.peer().ids().any(|(one, id, _)| one == sequence && is_own(id)) {
        return Ok(None);
    }
    Broken::new(format!("RETIRE_CONNECTION_ID of the id to which this packet goes, {sequence}"), "that of another id")
        .in_payload(held.range.start)
        .found()
}
