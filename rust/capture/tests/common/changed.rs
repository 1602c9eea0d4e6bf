//! Captures that are changed: their bytes, datagrams and key logs; and runs on all processors.
#![allow(dead_code, reason = "each example uses a part")]

use crate::common::{Kept, Random};
use quic_wire_capture::capture::{Capture, Item};
use quic_wire_capture::file::FileError;
use std::error::Error;
use std::path::{Path, PathBuf};
use std::sync::atomic::{AtomicU64, Ordering};
use std::time::{Duration, Instant};
use std::{fs, thread};

const FOLDER: &str = concat!(env!("CARGO_MANIFEST_DIR"), "/../../vectors/captures");

/// A capture with its key log, and its datagrams.
pub struct Seed {
    pub name: String,
    pub file: Vec<u8>,
    pub keys: Vec<u8>,
    pub datagrams: Vec<Kept>,
}

impl Seed {
    /// Reads a capture, whose secrets are in it, or next to it in a file of the same name that ends with `.keys`.
    pub fn read(path: &Path) -> Result<Seed, Box<dyn Error>> {
        let file = fs::read(path)?;
        let mut keys = fs::read(path.with_extension("keys")).unwrap_or_default();
        let mut datagrams = Vec::new();
        feed(&file, file.len(), &mut |item| match item {
            Item::Datagram(datagram) => datagrams.push(Kept::new(&datagram)),
            Item::Secrets(text) => keys.extend_from_slice(text),
        })?;
        Ok(Seed { name: path.display().to_string(), file, keys, datagrams })
    }

    /// Captures that end after its first datagram, its second and so on, up to so many: short ones are soon read.
    pub fn fronts(&self, most: usize) -> Vec<Seed> {
        let (mut capture, mut ends) = (Capture::default(), Vec::new());
        for (end, byte) in (1..).zip(&self.file) {
            capture.feed(&[*byte]);
            while let Ok(Some(item)) = capture.next() {
                ends.extend(matches!(item, Item::Datagram(_)).then_some(end));
            }
        }
        let front = |(count, end): (usize, &usize)| Seed {
            name: format!("{}, {count} datagrams", self.name),
            file: self.file[..*end].to_vec(),
            keys: self.keys.clone(),
            datagrams: self.datagrams[..count].to_vec(),
        };
        (1..).zip(&ends).take(most).map(front).collect()
    }

    /// A key log that was changed, or has another one's secrets too; mostly it is as it was.
    pub fn changed_keys(&self, random: &mut Random, other: &Seed) -> Vec<u8> {
        let mut keys = self.keys.clone();
        match random.below(8) {
            0 => change(random, &mut keys, &other.keys),
            1 => keys.extend_from_slice(&other.keys),
            _ => {}
        }
        keys
    }

    /// Datagrams that are changed, lost, repeated, in another order, from elsewhere, or of another capture.
    pub fn changed_datagrams(&self, random: &mut Random, other: &Seed) -> Vec<Kept> {
        let mut all = self.datagrams.clone();
        for _ in 0..1 + random.below(6) {
            let (one, two) = (random.below(all.len()), random.below(all.len()));
            match random.below(8) {
                0 => all.swap(one, two),
                1 if all.len() > 1 => drop(all.remove(one)),
                2 => all.insert(one, all[two].clone()),
                3 => all.insert(one, other.datagrams[random.below(other.datagrams.len())].clone()),
                4 => (all[one].from, all[one].to) = (all[two].to, all[two].from),
                5 => all[one].time = all[two].time.wrapping_add(random.below(1 << 30) as u64),
                6 => all[one].bytes = [&all[one].bytes[..], &all[two].bytes].concat(),
                _ => change(random, &mut all[one].bytes, &other.file),
            }
        }
        all.retain(|kept| !kept.bytes.is_empty());
        all
    }
}

/// Reads a file in pieces of a size.
pub fn feed(file: &[u8], size: usize, each: &mut dyn FnMut(Item<'_>)) -> Result<(), FileError> {
    let mut capture = Capture::default();
    for piece in file.chunks(size.max(1)) {
        capture.feed(piece);
        while let Some(item) = capture.next()? {
            each(item);
        }
    }
    Ok(())
}

// Numbers at which something may change.
const NUMBERS: [u32; 10] = [0, 1, 3, 4, 11, 12, 0xffff, 262_144, 262_145, u32::MAX];

/// Changes bytes in up to six places, some of them to those of another file.
pub fn change(random: &mut Random, bytes: &mut Vec<u8>, other: &[u8]) {
    for _ in 0..1 + random.below(6) {
        let len = bytes.len().max(1);
        let at = random.below(len).min(bytes.len());
        let end = (at + random.below(64)).min(bytes.len());
        match random.below(9) {
            0 | 1 => bytes[at..end.min(at + 1)].iter_mut().for_each(|byte| *byte ^= 1 << random.below(8)),
            2 => bytes[at..end.min(at + 1)].fill(random.byte()),
            3 => bytes[at..end].fill([0, 0xff][random.below(2)]),
            4 => drop(bytes.drain(at..end)),
            5 => bytes.extend_from_within(at..end),
            6 => drop(bytes.splice(at..end, (0..random.below(16)).map(|_| 0xa5))),
            7 if !other.is_empty() => {
                bytes.truncate(at);
                bytes.extend_from_slice(&other[random.below(other.len())..]);
            }
            _ => {
                let at = (at & !3).min(bytes.len().saturating_sub(4));
                let number = NUMBERS[random.below(NUMBERS.len())];
                let number = if random.below(2) == 0 { number.to_le_bytes() } else { number.to_be_bytes() };
                bytes[at..].iter_mut().zip(number).for_each(|(byte, new)| *byte = new);
            }
        }
    }
}

/// The captures of a folder of vectors/captures, which is empty for that itself.
pub fn captures(folder: &str) -> Result<Vec<PathBuf>, std::io::Error> {
    let all = fs::read_dir(Path::new(FOLDER).join(folder))?;
    let all = all.map(|file| file.map(|file| file.path())).collect::<Result<Vec<_>, _>>()?;
    let is_plain = |path: &PathBuf| path.extension().is_some_and(|end| end == "pcap" || end == "pcapng");
    let mut paths: Vec<_> = all.into_iter().filter(is_plain).collect();
    paths.sort();
    Ok(paths)
}

/// Runs something so often, on all processors. Each has numbers and sums of its own. Returns the sums, and how long the
/// slowest run took.
pub fn run<S: Default + Send>(runs: u64, seed: u64, once: impl Fn(&mut Random, &mut S) + Sync) -> (Vec<S>, Duration) {
    let begun = AtomicU64::new(0);
    let work = |thread: u64| {
        let (mut random, mut sum) = (Random(seed.wrapping_mul(1 << 20).wrapping_add(thread)), S::default());
        let mut slowest = Duration::ZERO;
        while begun.fetch_add(1, Ordering::Relaxed) < runs {
            let clock = Instant::now();
            once(&mut random, &mut sum);
            slowest = slowest.max(clock.elapsed());
        }
        (sum, slowest)
    };
    let work = &work;
    let threads = thread::available_parallelism().map_or(1, |count| count.get()) as u64;
    let all: Vec<_> = thread::scope(|scope| {
        let threads: Vec<_> = (0..threads).map(|number| scope.spawn(move || work(number))).collect();
        threads.into_iter().map(|thread| thread.join().expect("no thread panics")).collect()
    });
    let slowest = all.iter().map(|(_, slowest)| *slowest).max().unwrap_or_default();
    (all.into_iter().map(|(sum, _)| sum).collect(), slowest)
}
