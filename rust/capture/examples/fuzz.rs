//! Gives the engine changed captures: their bytes, datagrams and key logs are changed. None may make it panic, and what
//! it finds may not depend on the pieces in which a file comes. Most runs have made captures of a few small packets, or
//! the first datagrams of recorded ones, which are soon read; one in 64 has all of a recorded one. It prints how many
//! runs there were, and how long the slowest took.
//!
//! `fuzz RUNS [SEED [CAPTURE ..]]`, on all processors, or those of `taskset`; without CAPTURE those of
//! vectors/captures. A key log is next to its capture, with the end `.keys`. Build it with overflow checks:
//!
//! `CARGO_PROFILE_RELEASE_OVERFLOW_CHECKS=true CARGO_PROFILE_RELEASE_DEBUG_ASSERTIONS=true cargo run --release ..`
#[path = "../tests/common/changed.rs"]
mod changed;
#[path = "../tests/common/mod.rs"]
mod common;
#[path = "../tests/common/files.rs"]
mod files;
#[path = "../tests/common/made.rs"]
mod made;

use changed::{Seed, captures, change, feed, run};
use common::{Kept, Random};
use files::{Order, interface, ip_datagram, packet, secrets, section};
use made::{Made, begun, eventful};
use quic_wire_capture::capture::{Datagram, Item};
use quic_wire_capture::ciphers::Suite;
use quic_wire_capture::connection::Connection;
use quic_wire_capture::follow::Follower;
use quic_wire_capture::keys::VERSIONS;
use quic_wire_capture::sink::{Event, Sink};
use std::error::Error;
use std::path::PathBuf;
use std::time::Instant;

/// How many datagrams of a recorded capture are most of its fronts.
const FRONT: usize = 8;

/// One in how many runs has a front of a recorded capture, and of those one in how many a whole one.
const RECORDED: usize = 8;
const WHOLE: usize = 8;

/// One in how many runs searches as long as usual for connections that began before the capture; the others end after
/// so many trials of opening a packet, which would take most of the time.
const SEARCHES: usize = 1024;
const TRIALS: u64 = 32;

/// What is counted, and looked up in what is found.
#[derive(Default)]
struct Sum {
    runs: u64,
    opened: u64,
    frames: u64,
}

impl Sink for Sum {
    fn opened(&mut self, connection: &Connection, _: &Datagram<'_>, _: u64, event: &Event<'_>) {
        if let Event::Frame { opened, range, .. } = event {
            assert!(range.start < range.end && range.end <= opened.payload().len());
            assert!(connection.number() < usize::MAX && opened.number() < 1 << 62);
            self.frames += 1;
        }
    }
}

// A follower with a key log.
fn follower(random: &mut Random, keys: &[u8]) -> Follower {
    let mut follower = Follower::default();
    if random.below(SEARCHES) != 0 {
        follower.limit_trials(TRIALS);
    }
    follower.keylog.add(keys);
    follower
}

// A changed file. What is found in it whole and in pieces is the same.
fn with_file(random: &mut Random, seed: &Seed, other: &Seed, sum: &mut Sum) {
    let mut file = seed.file.clone();
    change(random, &mut file, &other.file);
    let keys = seed.changed_keys(random, other);
    let mut follower = follower(random, &keys);
    let mut all = Vec::new();
    let whole = feed(&file, file.len(), &mut |item| match item {
        Item::Datagram(datagram) => {
            all.push((datagram.record, datagram.bytes.len()));
            follower.take(&datagram, sum);
        }
        Item::Secrets(text) => follower.keylog.add(text),
    });
    follower.finish(sum);
    sum.opened += follower.counts().opened;
    let mut places = all.iter();
    let pieces = feed(&file, 1 + random.below(1000), &mut |item| {
        if let Item::Datagram(datagram) = item {
            assert_eq!(places.next(), Some(&(datagram.record, datagram.bytes.len())));
        }
    });
    assert_eq!((pieces, places.next()), (whole, None));
}

fn with_datagrams(random: &mut Random, seed: &Seed, other: &Seed, sum: &mut Sum) {
    let all = seed.changed_datagrams(random, other);
    let keys = seed.changed_keys(random, other);
    let mut follower = follower(random, &keys);
    for kept in &all {
        let missing = if random.below(50) == 0 { random.below(2000) } else { 0 };
        follower.take(&Datagram { missing, ..kept.datagram() }, sum);
    }
    follower.finish(sum);
    sum.opened += follower.counts().opened;
}

// The captures that are changed.
struct Seeds {
    whole: Vec<Seed>,
    fronts: Vec<Seed>,
    made: Vec<Seed>,
}

impl Seeds {
    fn new(paths: &[PathBuf]) -> Result<Seeds, Box<dyn Error>> {
        let whole = paths.iter().map(|path| Seed::read(path)).collect::<Result<Vec<_>, _>>()?;
        let fronts = whole.iter().flat_map(|seed| seed.fronts(FRONT)).collect();
        let made = made_seeds().iter().flat_map(|seed| seed.fronts(usize::MAX)).collect();
        Ok(Seeds { whole, fronts, made })
    }

    fn any(&self, random: &mut Random) -> &Seed {
        let from = match (random.below(RECORDED), random.below(WHOLE)) {
            (0, 0) => &self.whole,
            (0, _) => &self.fronts,
            _ => &self.made,
        };
        &from[random.below(from.len())]
    }
}

// Connections of each version and suite with small packets: whole ones, and ones that began before the capture.
fn made_seeds() -> Vec<Seed> {
    let kinds = VERSIONS.into_iter().flat_map(|version| Suite::ALL.map(|suite| (version, suite)));
    let all = kinds.zip(1..).flat_map(|((version, suite), seed)| {
        let made = Made { version, suite, ..Made::new(seed) };
        let empty = Made { ids: [vec![], vec![]], ..made.clone() };
        let one_sided = Made { ids: [vec![], b"server".to_vec()], ..made.clone() };
        [eventful(made.clone()), eventful(one_sided), eventful(empty.clone()), begun(made), begun(empty)]
    });
    all.enumerate().map(|(number, (made, all))| seed_of(number, &made.key_log(), all)).collect()
}

// A capture of these datagrams, every other one with its secrets.
fn seed_of(number: usize, keys: &str, datagrams: Vec<Kept>) -> Seed {
    let order = [Order::Big, Order::Little][number / 2 % 2];
    let mut file = [section(order), interface(order, 101, &[])].concat();
    if number % 2 == 0 {
        file.extend(secrets(order, keys.as_bytes()));
    }
    for kept in &datagrams {
        file.extend(packet(order, 0, kept.time / 1000, &ip_datagram(kept.from, kept.to, &kept.bytes)));
    }
    Seed { name: format!("made {number}"), file, keys: keys.as_bytes().to_vec(), datagrams }
}

fn main() -> Result<(), Box<dyn Error>> {
    let mut arguments = std::env::args().skip(1);
    let runs: u64 = arguments.next().ok_or("fuzz RUNS [SEED [CAPTURE ..]]")?.parse()?;
    let first: u64 = arguments.next().map_or(Ok(1), |text| text.parse())?;
    let mut paths: Vec<_> = arguments.map(PathBuf::from).collect();
    if paths.is_empty() {
        paths = captures("")?;
    }
    paths.sort();
    let seeds = Seeds::new(&paths)?;
    let clock = Instant::now();
    let (sums, slowest) = run(runs, first, |random, sum: &mut Sum| {
        let (one, other) = (seeds.any(random), seeds.any(random));
        match random.below(2) {
            0 => with_file(random, one, other, sum),
            _ => with_datagrams(random, one, other, sum),
        }
        sum.runs += 1;
    });
    let total = |count: fn(&Sum) -> u64| sums.iter().map(count).sum::<u64>();
    println!(
        "{} runs of {} recorded and {} made captures in {:.0?}, {} packets opened, {} frames; the slowest took \
         {slowest:.1?}",
        total(|sum| sum.runs),
        seeds.whole.len(),
        seeds.made.len(),
        clock.elapsed(),
        total(|sum| sum.opened),
        total(|sum| sum.frames),
    );
    Ok(())
}
