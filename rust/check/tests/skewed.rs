//! The captures of vectors/captures with all packets of one side late, as a file has them that was merged from captures
//! of two clocks: no more is found that breaks a MUST. With the variable ALL of the environment more delays are tried.
#[path = "../../capture/tests/common/changed.rs"]
mod changed;
#[path = "../../capture/tests/common/mod.rs"]
mod common;
#[path = "common/kinds.rs"]
mod kinds;

use changed::{Seed, captures};
use common::Kept;
use kinds::Kind;
use quic_wire_check::rule::Level;
use std::collections::BTreeMap;

const MILLI: u64 = 1_000_000;

/// How late, in milliseconds: more and less than the round-trip times, and than a second.
const ALL: &[u64] = &[5, 12, 20, 30, 80, 300, 1100];
const SOME: &[u64] = &[12, 20];

// The rules that are broken, and by whom, with what is found.
fn broken(seed: &Seed, all: &[Kept]) -> BTreeMap<Kind, String> {
    let report = kinds::report(all, &[&seed.keys]);
    let of_must = report.findings.iter().filter(|one| one.rule.level == Level::Must);
    of_must.map(|one| (kinds::kind(one), format!("record {}, {}: {}", one.record, one.rule.name, one.seen))).collect()
}

// The records in the order of their times, if all of one side are later.
fn delayed(all: &[Kept], is_client: bool, delay: u64) -> Vec<Kept> {
    let (server, mut late) = (all[0].to, all.to_vec());
    late.iter_mut().filter(|one| (one.to == server) == is_client).for_each(|one| one.time += delay * MILLI);
    late.sort_by_key(|one| one.time);
    late
}

#[test]
fn nothing_more_is_found() {
    let delays = if std::env::var("ALL").is_ok() { ALL } else { SOME };
    let seeds: Vec<_> = captures("").unwrap().iter().map(|path| Seed::read(path).unwrap()).collect();
    let mut complaints = Vec::new();
    for seed in &seeds {
        let known = broken(seed, &seed.datagrams);
        for (side, delay) in ["client", "server"].into_iter().flat_map(|side| delays.iter().map(move |one| (side, one)))
        {
            let found = broken(seed, &delayed(&seed.datagrams, side == "client", *delay));
            let more = found.iter().filter(|(kind, _)| !known.contains_key(kind));
            complaints.extend(more.map(|(_, what)| format!("{}, {side} {delay} ms late: {what}", seed.name)));
        }
    }
    assert!(complaints.is_empty(), "{complaints:#?}");
}
