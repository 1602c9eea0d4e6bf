//! The captures of vectors/captures/broken: each that breaks a rule gives exactly its finding, those that nearly do
//! give none, and `examples/broken.rs` makes the same files again.
#[path = "common/cases.rs"]
mod cases;
#[path = "../../capture/tests/common/mod.rs"]
mod common;
#[path = "../../capture/tests/common/files.rs"]
mod files;
#[path = "../../capture/tests/common/made.rs"]
mod made;
#[path = "common/talk.rs"]
mod talk;

use cases::{At, Case, all};
use quic_wire_capture::capture::{Capture, Item};
use quic_wire_capture::follow::Follower;
use quic_wire_capture::input;
use quic_wire_check::checker::Checker;
use quic_wire_check::finding::Report;
use quic_wire_check::rules;
use std::collections::BTreeSet;
use std::fs;
use std::path::{Path, PathBuf};

/// All captures together, in bytes.
const MOST: u64 = 1_500_000;

fn folder() -> PathBuf {
    Path::new(env!("CARGO_MANIFEST_DIR")).join("../../vectors/captures")
}

fn stored(case: &Case) -> Vec<u8> {
    let path = folder().join("broken").join(case.file());
    fs::read(&path).unwrap_or_else(|error| panic!("{}: {error}", path.display()))
}

// What is found in a capture, with the secrets that it has.
fn report(file: &[u8]) -> Report {
    let (mut capture, mut follower, mut checker) = (Capture::default(), Follower::default(), Checker::default());
    input::read(file, &mut capture, |item| match item {
        Item::Datagram(datagram) => checker.take(&datagram, &mut follower),
        Item::Secrets(text) => follower.keylog.add(text),
    })
    .unwrap();
    assert!(!capture.is_cut());
    checker.finish(&mut follower)
}

// What is wrong with what is found in a capture.
fn complaint(case: &Case) -> Option<String> {
    let (report, spot) = (report(&stored(case)), case.talk().1);
    let found = match (&report.findings[..], case.is_lawful) {
        ([], true) => return None,
        ([found], false) => found,
        (others, _) => return Some(format!("{}: {others:#?}, {:?}", case.file(), report.unchecked)),
    };
    let what = (found.rule.name, found.section.rfc, found.section.number, found.count);
    let packet = (found.record, found.sender, found.packet, found.number);
    let is_there = match &spot.at {
        At::Payload(frame) => found.payload_offset.is_some_and(|at| frame.contains(&at)),
        At::Datagram(at) => found.offset == *at && found.payload_offset.is_none(),
        At::Packet => true,
    };
    let is_right = what == (case.rule, case.rfc, case.section, 1)
        && packet == (spot.index as u64 + 1, spot.sender, spot.kind, spot.number)
        && is_there;
    (!is_right).then(|| format!("{}: {spot:?}, not {found:#?}", case.file()))
}

#[test]
fn each_capture_gives_its_finding_or_none() {
    let complaints: Vec<_> = all().iter().filter_map(complaint).collect();
    assert!(complaints.is_empty(), "{} of {}:\n{}", complaints.len(), all().len(), complaints.join("\n"));
}

#[test]
fn each_rule_is_broken_and_nearly_broken() {
    let names = |is_lawful| all().iter().filter(|case| case.is_lawful == is_lawful).map(|case| case.rule).collect();
    let rules: BTreeSet<&str> = rules::all().map(|rule| rule.name).collect();
    assert_eq!((names(false), names(true)), (rules.clone(), rules));
}

#[test]
fn the_files_are_those_that_the_example_makes() {
    let names: BTreeSet<_> = all().iter().map(Case::file).collect();
    assert_eq!(names.len(), all().len(), "a name is there twice");
    let entries = fs::read_dir(folder().join("broken")).unwrap();
    let there: BTreeSet<_> = entries.map(|entry| entry.unwrap().file_name().into_string().unwrap()).collect();
    assert_eq!(there, names);
    let other: Vec<_> = all().iter().filter(|case| stored(case) != case.capture()).map(Case::file).collect();
    assert_eq!(other, Vec::<String>::new(), "files that differ");
    assert!(fs::read_to_string(folder().join("broken.json")).unwrap() == cases::manifest(), "broken.json differs");
    let size: u64 = all().iter().map(|case| stored(case).len() as u64).sum();
    assert!(size <= MOST, "{size} bytes");
}
