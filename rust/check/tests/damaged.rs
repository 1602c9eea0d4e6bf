//! The lawful connections of tests/common/cases.rs with records missing, twice or late: nothing is found. With the
//! variable PAIRS of the environment any two records are missing, too.
#[path = "common/cases.rs"]
mod cases;
#[path = "../../capture/tests/common/mod.rs"]
mod common;
#[path = "../../capture/tests/common/files.rs"]
mod files;
#[path = "common/kinds.rs"]
mod kinds;
#[path = "../../capture/tests/common/made.rs"]
mod made;
#[path = "common/talk.rs"]
mod talk;

use common::Kept;
use kinds::report;
use std::collections::BTreeSet;

/// How late a record may be, in nanoseconds.
const LATE: u64 = 8_000_000;

// The datagrams without some.
fn without(all: &[Kept], missing: &[usize]) -> Vec<Kept> {
    let there = (0..all.len()).filter(|at| !missing.contains(at));
    there.map(|at| all[at].clone()).collect()
}

// What may become of a capture's records, each kind with some words.
fn damaged(all: &[Kept]) -> Vec<(String, Vec<Kept>)> {
    let mut kinds = Vec::new();
    let is_long = std::env::var("PAIRS").is_ok();
    for at in 0..all.len() {
        let [front, back] = [&all[..at], &all[at..]];
        let late = all[at].time + LATE;
        let after = back.iter().take_while(|one| one.time <= late).count();
        kinds.push((format!("{at} late"), [front, &back[1..after], &back[..1], &back[after..]].concat()));
        kinds.push((format!("{at} missing"), without(all, &[at])));
        kinds.push((format!("those from {at} on missing"), front.to_vec()));
        if is_long {
            kinds.push((format!("{at} twice"), [front, &back[..1], back].concat()));
            kinds.push((format!("those before {at} missing"), back.to_vec()));
            let others = at + 1..all.len();
            kinds.extend(others.map(|other| (format!("{at} and {other} missing"), without(all, &[at, other]))));
        }
    }
    kinds
}

#[test]
fn nothing_is_found_with_damage() {
    let mut complaints = BTreeSet::new();
    for case in cases::all().iter().filter(|case| case.is_lawful) {
        let talk = case.talk().0;
        let keys = talk.made.key_log();
        for (what, damaged) in damaged(&talk.all) {
            let report = report(&damaged, &[keys.as_bytes()]);
            let found = report.findings.iter();
            complaints.extend(found.map(|one| format!("{}, {what}: {}: {}", case.file(), one.rule.name, one.seen)));
        }
    }
    assert!(complaints.is_empty(), "{complaints:#?}");
}
