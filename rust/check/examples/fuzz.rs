//! Gives the checker changed captures, and looks for findings that depend on what they may not depend on. It prints how
//! many runs of each kind there were.
//!
//! `fuzz RUNS [SEED]`, on all processors, with the captures of vectors/captures and of its folder `broken`. Kinds:
//!
//! - a changed file: nothing may panic
//! - changed datagrams: nothing may panic, and what is found is the same with a second connection between them, from
//!   IPv6 addresses, an hour later, and from a pcapng file
//! - a recorded capture of which records are missing, doubled, late, or out of order by 8 ms: nothing more is found
//!   than in the whole one
//!
//! Build it with overflow checks:
//!
//! `CARGO_PROFILE_RELEASE_OVERFLOW_CHECKS=true CARGO_PROFILE_RELEASE_DEBUG_ASSERTIONS=true cargo run --release ..`
#[path = "../../capture/tests/common/changed.rs"]
mod changed;
#[path = "../../capture/tests/common/mod.rs"]
mod common;
#[path = "../../capture/tests/common/files.rs"]
mod files;
#[path = "../tests/common/kinds.rs"]
mod kinds;

use changed::{Seed, captures, change, feed, run};
use common::{Kept, Random};
use files::{Order, interface, ip_datagram, packet, section};
use kinds::{checked, kind, kinds, report};
use quic_wire_capture::capture::Item;
use quic_wire_capture::follow::Follower;
use quic_wire_check::checker::Checker;
use quic_wire_check::finding::{Finding, Report};
use std::collections::BTreeSet;
use std::error::Error;
use std::net::{IpAddr, Ipv4Addr, Ipv6Addr, SocketAddr};
use std::time::Instant;

/// How far apart records may be whose order is wrong, in nanoseconds.
const LATE: usize = 8_000_000;

/// In nanoseconds.
const HOUR: u64 = 3_600_000_000_000;

/// What is counted.
#[derive(Default)]
struct Sum {
    files: u64,
    datagrams: u64,
    damaged: u64,
    findings: u64,
    /// Runs in which another connection's secrets changed which packets are opened.
    opened_otherwise: u64,
}

/// A finding, without the numbers of its record and connection.
type Found = (&'static str, String, usize, Option<u64>, usize, Option<usize>, u64);

fn found(one: &Finding) -> Found {
    let Finding { rule, section, sender, number, offset, payload_offset, count, .. } = one;
    (rule.name, section.to_string(), *sender as usize, *number, *offset, *payload_offset, *count)
}

// What is found in the connections of some addresses.
fn found_in(report: &Report, all: &[Kept], is_one: impl Fn(SocketAddr) -> bool) -> BTreeSet<Found> {
    let of = |one: &&Finding| all.get(one.record as usize - 1).is_some_and(|kept| is_one(kept.from));
    report.findings.iter().filter(of).map(found).collect()
}

fn with_file(random: &mut Random, seed: &Seed, other: &Seed, sum: &mut Sum) {
    let mut file = seed.file.clone();
    change(random, &mut file, &other.file);
    let (mut follower, mut checker) = (Follower::default(), Checker::default());
    follower.keylog.add(&seed.changed_keys(random, other));
    // What follows a fault isn't read.
    let _ = feed(&file, file.len(), &mut |item| match item {
        Item::Datagram(datagram) => checker.take(&datagram, &mut follower),
        Item::Secrets(text) => follower.keylog.add(text),
    });
    sum.findings += checker.finish(&mut follower).findings.len() as u64;
    sum.files += 1;
}

fn with_datagrams(random: &mut Random, [seed, other, third]: [&Seed; 3], sum: &mut Sum) {
    let all = seed.changed_datagrams(random, other);
    let keys = seed.changed_keys(random, other);
    let (report, opened) = checked(&all, &[&keys]);
    let expected = found_in(&report, &all, |_| true);
    sum.findings += expected.len() as u64;
    sum.datagrams += 1;
    let says = |what: &str| format!("{}, {what}", seed.name);

    if all.iter().all(|one| one.time < u64::MAX - HOUR) {
        let later: Vec<_> = all.iter().map(|one| Kept { time: one.time + HOUR, ..one.clone() }).collect();
        assert_eq!(found_in(&checked(&later, &[&keys]).0, &later, |_| true), expected, "{}", says("an hour later"));
    }
    let six: Vec<_> = all.iter().map(|one| Kept { from: to_v6(one.from), to: to_v6(one.to), ..one.clone() }).collect();
    assert_eq!(found_in(&checked(&six, &[&keys]).0, &six, |_| true), expected, "{}", says("IPv6"));
    if let Some(file) = pcapng(&all) {
        let mut again = Vec::new();
        let read = feed(&file, file.len(), &mut |item| {
            if let Item::Datagram(datagram) = item {
                again.push(Kept::new(&datagram));
            }
        });
        assert_eq!((read, again.len()), (Ok(()), all.len()), "{}", says("a pcapng file"));
        assert_eq!(found_in(&checked(&again, &[&keys]).0, &again, |_| true), expected, "{}", says("a pcapng file"));
    }
    let (merged, theirs) = (merged(&all, third), checked(&third.datagrams, &[&third.keys]).1);
    let (report, both) = checked(&merged, &[&keys, &third.keys]);
    if both != opened + theirs {
        sum.opened_otherwise += 1;
    } else {
        let found = found_in(&report, &merged, |from| !is_elsewhere(from));
        assert_eq!(found, expected, "{}", says(&format!("{} between them", third.name)));
    }
}

fn to_v6(address: SocketAddr) -> SocketAddr {
    let ip = match address.ip() {
        IpAddr::V4(four) => {
            let [a, b, c, d] = four.octets();
            let [high, low] = [[a, b], [c, d]].map(u16::from_be_bytes);
            Ipv6Addr::new(0x2001, 0xdb8, 0, 0, 0, 4, high, low)
        }
        IpAddr::V6(six) => six,
    };
    (ip, address.port()).into()
}

// The datagrams as a file, if all are of IPv4 and not too long.
fn pcapng(all: &[Kept]) -> Option<Vec<u8>> {
    let order = Order::Big;
    let fits = |one: &Kept| one.from.is_ipv4() && one.to.is_ipv4() && one.bytes.len() < 60_000;
    if !all.iter().all(fits) {
        return None;
    }
    let mut file = [section(order), interface(order, 101, &[(9, &[9])])].concat();
    for one in all {
        file.extend(packet(order, 0, one.time, &ip_datagram(one.from, one.to, &one.bytes)));
    }
    Some(file)
}

const ELSEWHERE: u8 = 198;

fn is_elsewhere(address: SocketAddr) -> bool {
    matches!(address.ip(), IpAddr::V4(four) if four.octets()[0] == ELSEWHERE)
}

// Datagrams with those of another capture between them, as if that had been made at the same time elsewhere.
fn merged(all: &[Kept], other: &Seed) -> Vec<Kept> {
    let least = |all: &[Kept]| all.iter().map(|one| one.time).min().unwrap_or_default();
    let (begin, begin_of_other) = (least(all), least(&other.datagrams));
    let to_elsewhere = |address: SocketAddr| {
        let last = if let IpAddr::V4(four) = address.ip() { four.octets()[3] } else { 6 };
        SocketAddr::from((Ipv4Addr::new(ELSEWHERE, 18, 0, last), address.port()))
    };
    let mut others: Vec<_> = other.datagrams.clone();
    others.sort_by_key(|one| one.time);
    let moved = others.into_iter().map(|one| Kept {
        time: begin.saturating_add(one.time - begin_of_other),
        from: to_elsewhere(one.from),
        to: to_elsewhere(one.to),
        ..one
    });
    let (mut moved, mut out, mut last) = (moved.peekable(), Vec::new(), 0);
    for one in all {
        last = one.time.max(last);
        while let Some(other) = moved.next_if(|other| other.time <= last) {
            out.push(other);
        }
        out.push(one.clone());
    }
    out.extend(moved);
    out
}

// What the network and a capture do to records.
fn damaged(random: &mut Random, seed: &Seed) -> Vec<Kept> {
    let mut all = seed.datagrams.clone();
    let share = [2, 5, 10, 50][random.below(4)];
    match random.below(7) {
        0 => all.retain(|_| random.below(share) > 0),
        1 => drop(all.drain(..random.below(all.len()))),
        2 => all.truncate(1 + random.below(all.len())),
        3 => {
            let at = random.below(all.len());
            let end = (at + 1 + random.below(10)).min(all.len());
            drop(all.drain(at..end));
        }
        4 => all = all.into_iter().flat_map(|one| vec![one; 1 + usize::from(random.below(share) == 0)]).collect(),
        // In the file late, at the time at which it came; or late itself.
        5 => all.sort_by_cached_key(|one| one.time + random.below(LATE) as u64),
        _ => {
            all.iter_mut().for_each(|one| one.time += random.below(LATE) as u64);
            all.sort_by_key(|one| one.time);
        }
    }
    all
}

fn with_damage(random: &mut Random, seed: &Seed, sum: &mut Sum) {
    let whole = kinds(&report(&seed.datagrams, &[&seed.keys]));
    let report = report(&damaged(random, seed), &[&seed.keys]);
    let more: Vec<_> = report.findings.iter().filter(|one| !whole.contains(&kind(one))).collect();
    assert!(more.is_empty(), "{}: {more:#?}", seed.name);
    sum.damaged += 1;
}

fn main() -> Result<(), Box<dyn Error>> {
    let mut arguments = std::env::args().skip(1);
    let runs: u64 = arguments.next().ok_or("fuzz RUNS [SEED]")?.parse()?;
    let first: u64 = arguments.next().map_or(Ok(1), |text| text.parse())?;
    let seeds = |folder: &str| -> Result<Vec<Seed>, Box<dyn Error>> {
        captures(folder)?.iter().map(|path| Seed::read(path)).collect()
    };
    let (recorded, broken) = (seeds("")?, seeds("broken")?);
    let count = recorded.len() + broken.len();
    let seed = |number: usize| recorded.get(number).unwrap_or_else(|| &broken[number - recorded.len()]);
    let clock = Instant::now();
    let (sums, slowest) = run(runs, first, |random, sum: &mut Sum| {
        // Those of `broken` share some ids, so the third one is another.
        let numbers = [count, count, recorded.len()].map(|count| random.below(count));
        let [one, other, third] = numbers.map(seed);
        match random.below(3) {
            0 => with_file(random, one, other, sum),
            1 if numbers[2] != numbers[0] && numbers[2] != numbers[1] => {
                with_datagrams(random, [one, other, third], sum);
            }
            _ => {
                let one = &recorded[random.below(recorded.len())];
                with_damage(random, one, sum);
            }
        }
    });
    let total = |count: fn(&Sum) -> u64| sums.iter().map(count).sum::<u64>();
    println!(
        "{} changed files, {} times changed datagrams ({} opened otherwise with other secrets), {} times damage, of \
         {count} captures in {:.0?}; {} findings; the slowest took {slowest:.1?}",
        total(|sum| sum.files),
        total(|sum| sum.datagrams),
        total(|sum| sum.opened_otherwise),
        total(|sum| sum.damaged),
        clock.elapsed(),
        total(|sum| sum.findings),
    );
    Ok(())
}
