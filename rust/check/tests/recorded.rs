//! The captures of vectors/captures, of real stacks: what is found in them was looked up in the RFC by hand. Nothing more
//! is found with records missing, doubled or late, and in parts of them; the example `fuzz` tries more of that.
#[path = "../../capture/tests/common/changed.rs"]
mod changed;
#[path = "../../capture/tests/common/mod.rs"]
mod common;
#[path = "common/kinds.rs"]
mod kinds;

use changed::{Seed, captures};
use common::Kept;
use kinds::{Kind, kinds};
use std::collections::BTreeSet;
use std::path::Path;

/// How late a record may be, in nanoseconds.
const LATE: u64 = 8_000_000;

/// What is found, with the number of the first record: docs/REPORTS.md of the repository has these faults.
const KNOWN: &[(&str, &str, u64)] = &[
    ("aioquic-migration.pcap", "path-size", 17),
    ("aioquic-version-2-retry.pcap", "retry-hello", 3),
    ("ngtcp2-migration.pcap", "path-size", 23),
    ("ngtcp2-rebinding.pcap", "path-size", 18),
    ("openssl-nginx.pcap", "after-close", 12),
    ("quinn-migration.pcap", "path-amplification", 41),
];

fn seeds() -> Vec<Seed> {
    captures("").unwrap().iter().map(|path| Seed::read(path).unwrap()).collect()
}

fn name(seed: &Seed) -> String {
    Path::new(&seed.name).file_name().unwrap().to_str().unwrap().to_string()
}

#[test]
fn what_is_found() {
    let seeds = seeds();
    let found = seeds.iter().flat_map(|seed| {
        let report = kinds::report(&seed.datagrams, &[&seed.keys]);
        let of = move |one: &quic_wire_check::finding::Finding| (name(seed), one.rule.name.to_string(), one.record);
        report.findings.iter().map(of).collect::<Vec<_>>()
    });
    let known = KNOWN.iter().map(|(name, rule, record)| (name.to_string(), rule.to_string(), *record));
    assert_eq!(found.collect::<BTreeSet<_>>(), known.collect::<BTreeSet<_>>());
}

// That nothing more is found than in the whole capture.
fn nothing_more(seed: &Seed, known: &BTreeSet<Kind>, damaged: &[Kept], what: &str) {
    let report = kinds::report(damaged, &[&seed.keys]);
    let more: Vec<_> = report.findings.iter().filter(|one| !known.contains(&kinds::kind(one))).collect();
    assert!(more.is_empty(), "{}, {what}: {more:#?}", seed.name);
}

#[test]
fn nothing_more_with_damage() {
    for seed in &seeds() {
        let (all, known) = (&seed.datagrams, kinds(&kinds::report(&seed.datagrams, &[&seed.keys])));
        // Each of some records with the next kind of damage.
        for (kind, at) in (0..all.len()).step_by(1 + all.len() / 10).enumerate() {
            let [front, back] = [&all[..at], &all[at..]];
            let late = all[at].time + LATE;
            let after = back.iter().take_while(|one| one.time <= late).count();
            let (what, damaged) = match kind % 5 {
                0 => ("late", [front, &back[1..after], &back[..1], &back[after..]].concat()),
                1 => ("missing", [front, &back[1..]].concat()),
                2 => ("twice", [front, &back[..1], back].concat()),
                3 => ("the first one", back.to_vec()),
                _ => ("behind the last one", front.to_vec()),
            };
            nothing_more(seed, &known, &damaged, &format!("record {} {what}", all[at].record));
        }
    }
}
