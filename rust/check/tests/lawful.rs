//! Lawful connections over paths that lose, delay and repeat datagrams, captured in part: nothing is found. Each side does
//! what it may by what it has received. The variable ROUNDS of the environment makes it longer.
#[path = "../../capture/tests/common/mod.rs"]
mod common;
#[path = "common/ends.rs"]
mod ends;
#[path = "../../capture/tests/common/made.rs"]
mod made;
#[path = "common/talk.rs"]
mod talk;

use common::{Kept, Random};
use ends::{Ends, Sent};
use made::Made;
use quic_wire::Side;
use quic_wire::packet::VERSION_2;
use quic_wire_capture::follow::Follower;
use quic_wire_check::checker::Checker;
use quic_wire_check::finding::Report;
use quic_wire_check::vantage::Vantage;
use std::collections::{BTreeMap, BTreeSet};
use talk::Talk;

const MILLI: u64 = 1_000_000;
/// How long a connection is watched, and by how much the records of two queues may be out of order, in nanoseconds.
const LONG: u64 = 6_000 * MILLI;
const LATE: usize = 8_000_000;

/// What happens to datagrams: shares are of 100.
struct Path {
    lost: usize,
    repeated: usize,
    uncaptured: usize,
    delay: u64,
    jitter: u64,
    vantage: Vantage,
}

impl Path {
    fn any(random: &mut Random) -> Path {
        Path {
            lost: [0, 2, 10, 25][random.below(4)],
            repeated: [0, 3][random.below(2)],
            uncaptured: [0, 0, 2, 10][random.below(4)],
            delay: MILLI * (1 + random.below(30) as u64),
            jitter: MILLI * [0, 2, 30][random.below(3)],
            vantage: [Vantage::Client, Vantage::Server, Vantage::Path][random.below(3)],
        }
    }
}

/// Datagrams on their way, by when they come, and the records of a capture, by their order.
#[derive(Default)]
struct Net {
    coming: BTreeMap<(u64, u64), Sent>,
    records: BTreeMap<(u64, u64), Kept>,
    count: u64,
}

impl Net {
    fn send(&mut self, sent: Sent, now: u64, path: &Path, random: &mut Random) {
        let times = 1 + usize::from(random.below(100) < path.repeated);
        self.count += 1;
        let begun = now + self.count;
        let is_lost = random.below(100) < path.lost;
        for _ in 0..times {
            self.count += 1;
            let jitter = if path.jitter == 0 { 0 } else { random.below(path.jitter as usize) as u64 };
            let comes = begun + path.delay + jitter;
            let is_own = path.vantage == Vantage::of(sent.sender);
            let seen = match path.vantage {
                Vantage::Path if is_lost && random.below(2) == 0 => None,
                Vantage::Path => Some(begun + path.delay / 2 + jitter / 2),
                _ if is_own => Some(begun),
                _ => Some(comes).filter(|_| !is_lost),
            };
            if let Some(time) = seen.filter(|_| random.below(100) >= path.uncaptured) {
                let late = if is_own { 0 } else { random.below(LATE) as u64 };
                let Sent { bytes, from, to, .. } = sent.clone();
                self.records.insert((time + late, self.count), Kept { record: 1, time, from, to, bytes });
            }
            if !is_lost {
                self.coming.insert((comes, self.count), sent.clone());
            }
            // At its host a datagram is sent once.
            if is_own {
                break;
            }
        }
    }

    // The records, of which some may be missing at the front, at the end, or between.
    fn file(self, random: &mut Random) -> Vec<Kept> {
        let mut all: Vec<_> = self.records.into_values().collect();
        let at = random.below(all.len() + 1);
        match random.below(6) {
            0 => drop(all.drain(..at)),
            1 => all.truncate(at),
            2 => drop(all.drain(at..(at + random.below(20)).min(all.len()))),
            _ => {}
        }
        all
    }
}

// A connection, and what was captured of it.
fn talked(random: &mut Random) -> (Ends, Path, Net) {
    let mut made = Made::new(1);
    if random.below(4) == 0 {
        made.version = VERSION_2;
    }
    let (mut ends, path, mut net) = (Ends::new(Talk::of(made), random), Path::any(random), Net::default());
    let begun = ends.now;
    let mut next = [begun, begun];
    while ends.now < begun + LONG {
        let first = net.coming.first_key_value().map(|(key, _)| *key);
        let acts = next[0].min(next[1]);
        ends.now = first.map_or(acts, |(time, _)| time.min(acts));
        let sent = match first.filter(|(time, _)| *time <= acts) {
            Some(key) => {
                let sent = net.coming.remove(&key).unwrap();
                ends.take(&sent, random)
            }
            None => {
                let side = if next[0] <= next[1] { Side::Client } else { Side::Server };
                next[side as usize] += MILLI * (1 + random.below(40) as u64);
                ends.act(side, random)
            }
        };
        let now = ends.now;
        sent.into_iter().for_each(|one| net.send(one, now, &path, random));
    }
    (ends, path, net)
}

fn report(keys: &str, all: &[Kept], vantage: Option<Vantage>) -> (Report, u64) {
    let (mut follower, mut checker) = (Follower::default(), Checker::default());
    if let Some(vantage) = vantage {
        checker = checker.at(vantage);
    }
    follower.keylog.add(keys.as_bytes());
    for (kept, record) in all.iter().zip(1..) {
        checker.take(&Kept { record, ..kept.clone() }.datagram(), &mut follower);
    }
    let report = checker.finish(&mut follower);
    (report, follower.counts().opened)
}

#[test]
fn nothing_is_found() {
    let rounds = std::env::var("ROUNDS").ok().and_then(|text| text.parse().ok()).unwrap_or(60);
    let first = std::env::var("SEED").ok().and_then(|text| text.parse().ok()).unwrap_or(1);
    let (mut opened, mut complaints) = (0, BTreeSet::new());
    for seed in first..first + rounds {
        let mut random = Random(seed);
        let (ends, path, net) = talked(&mut random);
        let all = net.file(&mut random);
        let vantage = Some(path.vantage).filter(|_| random.below(4) > 0);
        let (report, count) = report(&ends.talk.made.key_log(), &all, vantage);
        opened += count;
        for one in &report.findings {
            let (rule, record, number) = (one.rule.name, one.record, one.number);
            complaints.insert(format!("{rule}: seed {seed}, {record}, {:?} {number:?}: {}", one.sender, one.seen));
        }
    }
    assert!(complaints.is_empty(), "{complaints:#?}");
    assert!(opened > 20 * rounds, "{opened} packets were opened");
}
