//! A connection of which too much would have to be remembered: rules that need that are silent, and say so.
#[path = "../../capture/tests/common/mod.rs"]
mod common;
#[path = "../../capture/tests/common/made.rs"]
mod made;
#[path = "common/talk.rs"]
mod talk;

use made::{Client, Server};
use quic_wire_check::finding::Report;
use quic_wire_check::rule::{History, Need};
use quic_wire_check::rules;
use std::collections::BTreeSet;
use talk::{PING, Talk};

/// How many ranges an ACK has here.
const RANGES: u32 = 20_000;

// An ACK of every other number, down from the largest one (RFC 9000, section 19.3).
fn gappy(largest: u32) -> Vec<u8> {
    let four = |number: u32| (0x8000_0000 | number).to_be_bytes();
    let ranges = vec![0; 2 * (RANGES as usize - 1)];
    [&[2][..], &four(largest), &[0], &four(RANGES - 1), &[0], &ranges].concat()
}

// The numbers of `parts` ACKs, none of which was sent: up to 80,000 runs.
fn acknowledging(parts: u32) -> Talk {
    let mut talk = Talk::open();
    (1..=parts).rev().for_each(|part| {
        talk.short(Client, &gappy(50_000 * part));
    });
    talk.short(Client, PING);
    talk
}

#[test]
fn runs_of_numbers() {
    let index = Talk::open().next();
    let with = |parts: u32| {
        let mut talk = acknowledging(parts);
        talk.short(Server, PING).later();
        talk
    };
    with(1).finds("ack-unsent", "RFC 9000, section 13.1", index);
    lacks_room(&with(4).report());
}

// The numbers are the server's, which sends nothing more.
#[test]
fn runs_of_numbers_of_a_side_that_is_silent() {
    lacks_room(&acknowledging(4).report());
}

fn lacks_room(report: &Report) {
    assert!(report.findings.is_empty(), "{:#?}", report.findings);
    let silent = report.unchecked.keys().filter(|(_, need)| *need == Need::Room).map(|(name, _)| *name);
    let with_history = rules::all().filter(|rule| rule.history != History::None).map(|rule| rule.name);
    assert_eq!(silent.collect::<BTreeSet<_>>(), with_history.collect::<BTreeSet<_>>());
}
