//! What is found in datagrams, by rule and sender.
#![allow(dead_code, reason = "each test uses a part")]

use crate::common::Kept;
use quic_wire_capture::follow::Follower;
use quic_wire_check::checker::Checker;
use quic_wire_check::finding::{Finding, Report};
use std::collections::BTreeSet;

/// The name of a rule, and a side.
pub type Kind = (&'static str, usize);

pub fn kind(one: &Finding) -> Kind {
    (one.rule.name, one.sender as usize)
}

pub fn kinds(report: &Report) -> BTreeSet<Kind> {
    report.findings.iter().map(kind).collect()
}

/// What is found in datagrams with key logs, and how many packets are opened.
pub fn checked(all: &[Kept], keys: &[&[u8]]) -> (Report, u64) {
    let (mut follower, mut checker) = (Follower::default(), Checker::default());
    keys.iter().for_each(|keys| follower.keylog.add(keys));
    for (kept, record) in all.iter().zip(1..) {
        checker.take(&Kept { record, ..kept.clone() }.datagram(), &mut follower);
    }
    let report = checker.finish(&mut follower);
    (report, follower.counts().opened)
}

/// The same without their number.
pub fn report(all: &[Kept], keys: &[&[u8]]) -> Report {
    checked(all, keys).0
}
