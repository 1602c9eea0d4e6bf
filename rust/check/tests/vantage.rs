//! Where a capture was taken decides what it shows.
#[path = "../../capture/tests/common/mod.rs"]
mod common;
#[path = "../../capture/tests/common/made.rs"]
mod made;
#[path = "common/talk.rs"]
mod talk;

use made::{Client, Handshake, Initial, Server, Short};
use quic_wire::Side;
use quic_wire::packet::PacketNumber::U32;
use quic_wire_capture::capture::Datagram;
use quic_wire_capture::follow::Follower;
use quic_wire_check::checker::Checker;
use quic_wire_check::finding::Report;
use quic_wire_check::rule::Need;
use quic_wire_check::vantage::Vantage;
use talk::{PING, Talk, ack, ack_of, padded};

const CLOSE: &[u8] = &[0x1c, 0, 0, 0];
const MILLI: u64 = 1_000_000;

// What is found in a connection, by a capture that says which datagrams its hosts sent: those of these sides, if any.
fn report(talk: &Talk, checker: Checker, hosts: Option<&[Side]>) -> Report {
    let (mut follower, mut checker) = (Follower::default(), checker);
    follower.keylog.add(talk.made.key_log().as_bytes());
    for (kept, record) in talk.all.iter().zip(1..) {
        let sender = if kept.from == talk.made.addresses[0] { Client } else { Server };
        let outgoing = hosts.map(|hosts| hosts.contains(&sender));
        checker.take(&Datagram { record, outgoing, ..kept.datagram() }, &mut follower);
    }
    checker.finish(&mut follower)
}

// That a rule is broken in the last datagram if a capture was taken at a side, and else isn't found, for a reason if
// there is one.
fn is_found_at(talk: &Talk, side: Side, rule: &str, reason: Option<Need>) {
    let at = |vantage| report(talk, Checker::default().at(vantage), None);
    let found: Vec<_> = at(Vantage::of(side)).findings.iter().map(|one| (one.rule.name, one.record)).collect();
    assert_eq!(found, [(rule, spot(talk, rule))], "{side:?}");
    for other in [Vantage::of(!side), Vantage::Path] {
        let report = at(other);
        assert!(report.findings.is_empty(), "{other:?}: {:#?}", report.findings);
        let is_silent = reason.is_none_or(|reason| report.unchecked.contains_key(&(rule, reason)));
        assert!(is_silent, "{other:?}: {:?}", report.unchecked);
    }
}

// The record in which it is: an ACK comes before what shows that its packets weren't sent.
fn spot(talk: &Talk, rule: &str) -> u64 {
    talk.all.len() as u64 - u64::from(rule == "ack-unsent")
}

// RFC 9000, section 13.1: the server's next packet has a smaller number than the one that was acknowledged before, and
// doesn't acknowledge the client's ACK.
#[test]
fn acks_of_what_was_not_sent() {
    let with = |after: u64| {
        let mut talk = Talk::open();
        talk.short(Client, &ack_of(40));
        talk.made.time += after;
        talk.sealed(Server, 2, U32(2), 0, PING);
        talk
    };
    is_found_at(&with(20 * MILLI), Server, "ack-unsent", Some(Need::Proof));
    // The records of both directions may be a bit out of order.
    let report = report(&with(0), Checker::default().at(Vantage::Server), None);
    assert!(report.findings.is_empty() && report.unchecked.contains_key(&("ack-unsent", Need::Proof)));
}

// RFC 9001, section 4.9.1.
#[test]
fn discarded_keys() {
    let with = |after: u64| {
        let mut talk = Talk::open();
        talk.made.time += after;
        talk.send(Client, Initial, &padded(&ack(0), 1200));
        talk
    };
    is_found_at(&with(20 * MILLI), Client, "discarded-keys", Some(Need::Time));
    // The handshake takes some milliseconds here.
    let report = report(&with(0), Checker::default().at(Vantage::Client), None);
    assert!(report.findings.is_empty() && report.unchecked.contains_key(&("discarded-keys", Need::Time)));
}

// RFC 9000, section 10.2.1: a close in a Handshake packet, and a 1-RTT packet without one.
#[test]
fn closes_of_another_space() {
    let mut talk = Talk::new();
    let hello = talk.client_hello();
    talk.send(Client, Initial, &hello).server_flight().client_flight().send(Client, Handshake, CLOSE);
    talk.made.time += 20 * MILLI;
    talk.send(Client, Short, PING);
    is_found_at(&talk, Client, "after-close", None);
}

#[test]
fn it_is_found_out_from_the_records() {
    let talk = Talk::open();
    let taken = |hosts: Option<&[Side]>| report(&talk, Checker::default(), hosts).taken.into_keys().collect::<Vec<_>>();
    assert_eq!(taken(Some(&[Client])), [Vantage::Client]);
    assert_eq!(taken(Some(&[Server])), [Vantage::Server]);
    // Both on one host, none on it, and a file that doesn't say.
    assert_eq!(taken(Some(&[Client, Server])), [Vantage::Path]);
    assert_eq!(taken(Some(&[])), [Vantage::Path]);
    assert_eq!(taken(None), [Vantage::Path]);
}

#[test]
fn what_is_said_counts_more() {
    let talk = Talk::open();
    let report = report(&talk, Checker::default().at(Vantage::Path), Some(&[Client]));
    assert_eq!(report.taken.into_iter().collect::<Vec<_>>(), [(Vantage::Path, 1)]);
}
