//! Tries the secrets of a key log on a packet whose connection began before the capture. Unknown are its secret, how
//! many bytes its id has, how often its keys were updated, and the high part of its number. What is found was judged by
//! the packet's tag.

use crate::ciphers::{Mask, SAMPLE_LEN, Suite};
use crate::keylog::{KeyLog, Label};
use crate::keyring::{CHECKS, Candidate};
use crate::keys::{PacketKeys, VERSIONS, mask_of};
use crate::opened::Unmasked;
use quic_wire::datagram::{PacketRef, Packets};
use std::ops::RangeInclusive;

/// How many bytes the longest id has.
pub(crate) const MOST_ID: usize = 20;

/// The first byte, the longest id, the longest number and a sample.
const FRONT: usize = 1 + MOST_ID + 4 + SAMPLE_LEN;

/// How many guesses are tried on a packet, and how often all of them together if it is the first on its path. It is
/// twice as often for each packet before it that agrees.
const MOST_GUESSES: usize = 1 << 12;
const FEWEST_TRIALS: usize = 1 << 10;
const MOST_AGREEING: usize = 7;

/// How many guesses are tried, and how often each, with which packets before it on its path don't agree: those may be
/// of other connections.
const MOST_ALONE: usize = 1 << 8;
const TRIALS_ALONE: usize = 4;

/// How many numbers are tried for a packet with a long header, whose space has few.
const LONG_TRIALS: u64 = 4;

/// What keys cost, in trials of opening a packet.
const MASK_COST: u64 = 2;
const KEYS_COST: u64 = 8;

/// What keys follow from.
#[derive(Clone, Copy, Debug, PartialEq, Eq)]
pub(crate) struct Source {
    pub(crate) random: [u8; 32],
    pub(crate) label: Label,
    pub(crate) suite: Suite,
    pub(crate) version: u32,
}

impl Source {
    /// The keys that a secret of a connection may have in these versions.
    pub(crate) fn all<'v>(
        keylog: &KeyLog,
        random: &[u8; 32],
        label: Label,
        versions: &'v [u32],
    ) -> impl Iterator<Item = Source> + use<'v> {
        let (random, len) = (*random, keylog.secret(random, label).map(<[u8]>::len));
        let suites = Suite::ALL.into_iter().filter(move |suite| Some(suite.secret_len()) == len);
        suites.flat_map(move |suite| {
            versions.iter().map(move |version| Source { random, label, suite, version: *version })
        })
    }

    fn keys(&self, keylog: &KeyLog) -> Option<PacketKeys> {
        PacketKeys::new(keylog.secret(&self.random, self.label)?, self.suite, self.version)
    }

    fn mask(&self, keylog: &KeyLog) -> Option<Mask> {
        mask_of(keylog.secret(&self.random, self.label)?, self.suite, self.version)
    }
}

/// What opened a packet. No other module makes one.
pub(crate) struct Found {
    source: Source,
    number: u64,
    id_len: usize,
    keys: PacketKeys,
    updates: u64,
}

impl Found {
    pub(crate) fn source(&self) -> &Source {
        &self.source
    }

    /// The packet's number.
    pub(crate) fn number(&self) -> u64 {
        self.number
    }

    /// How many bytes its id has.
    pub(crate) fn id_len(&self) -> usize {
        self.id_len
    }

    /// Its keys, and how often they were updated.
    pub(crate) fn into_phase(self) -> (PacketKeys, u64) {
        (self.keys, self.updates)
    }
}

/// The front of a packet with a short header.
pub(crate) struct Front(Vec<u8>);

impl Front {
    pub(crate) fn new(packet: &[u8]) -> Front {
        Front(packet.get(..FRONT).unwrap_or(packet).to_vec())
    }

    fn with_id_len(&self, id_len: usize) -> Option<PacketRef<'_>> {
        short_packet(&self.0, id_len)
    }
}

/// A packet with a short header whose keys aren't known.
pub(crate) struct Stray<'a> {
    /// Its datagram, which has no other packet.
    pub(crate) datagram: &'a [u8],
    /// The fronts of those before it on its path.
    pub(crate) before: &'a [Front],
    /// A number that its own may be near to.
    pub(crate) acknowledged: Option<u64>,
    /// How many bytes its id may have.
    pub(crate) id_lens: RangeInclusive<usize>,
}

/// The packet that a datagram has if the ids of its short headers have so many bytes.
pub(crate) fn short_packet(datagram: &[u8], id_len: usize) -> Option<PacketRef<'_>> {
    let first = Packets::with_checks(datagram, id_len, &VERSIONS, CHECKS).next();
    first?.ok().filter(|packet| packet.header().is_short())
}

/// The front of a packet, and of those before it on its path to the same id, if ids have so many bytes.
struct Reading<'a> {
    id_len: usize,
    own: PacketRef<'a>,
    same: Vec<PacketRef<'a>>,
}

impl<'a> Reading<'a> {
    fn all(front: &'a Front, before: &'a [Front], id_lens: RangeInclusive<usize>) -> Vec<Reading<'a>> {
        let reading = |id_len| {
            let own = front.with_id_len(id_len)?;
            let same = before.iter().filter_map(|one| one.with_id_len(id_len));
            let same = same.filter(|one| one.dst_cid() == own.dst_cid()).collect();
            Some(Reading { id_len, own, same })
        };
        id_lens.filter_map(reading).collect()
    }
}

/// Keys that a packet may have, and how many bytes its id has then.
struct Guess {
    source: Source,
    id_len: usize,
    /// How many packets before it agree, if all to the same id do and there are some, or if it is the first.
    agreeing: Option<usize>,
}

/// A search.
pub(crate) struct Search<'a> {
    pub(crate) keylog: &'a KeyLog,
    pub(crate) buffer: &'a mut Vec<u8>,
    /// What it cost so far, in trials of opening a packet of 1,024 bytes.
    pub(crate) cost: u64,
    /// With what cost it ends.
    pub(crate) most: u64,
}

impl Search<'_> {
    fn is_over(&self) -> bool {
        self.cost >= self.most
    }

    /// Tries keys on a packet with a short header.
    pub(crate) fn short(&mut self, stray: &Stray<'_>, sources: impl Iterator<Item = Source>) -> Option<Found> {
        let Stray { datagram, before, acknowledged, ref id_lens } = *stray;
        let front = Front::new(datagram);
        let guesses = self.guesses(&Reading::all(&front, before, id_lens.clone()), before.is_empty(), sources);
        let (mut agreed, mut alone): (Vec<_>, Vec<_>) = guesses.into_iter().partition(|one| one.agreeing.is_some());
        agreed.sort_by_key(|guess| std::cmp::Reverse(guess.agreeing));
        agreed.truncate(MOST_GUESSES);
        if alone.len() > MOST_ALONE {
            alone.clear();
        }
        let count = agreed.len();
        agreed.iter().chain(&alone).find_map(|guess| {
            let trials = guess.agreeing.map(|agreeing| (FEWEST_TRIALS << agreeing.min(MOST_AGREEING)) / count);
            let packet = short_packet(datagram, guess.id_len)?;
            self.try_guess(guess, packet, acknowledged, trials.unwrap_or(TRIALS_ALONE).max(1))
        })
    }

    // The keys with which the reserved bits are zero (RFC 9000, section 17.3.1).
    fn guesses(
        &mut self,
        readings: &[Reading<'_>],
        is_first: bool,
        sources: impl Iterator<Item = Source>,
    ) -> Vec<Guess> {
        let (mut guesses, mut header) = (Vec::new(), Vec::new());
        for source in sources.take_while(|_| !readings.is_empty()) {
            if self.is_over() {
                break;
            }
            self.cost += MASK_COST;
            let Some(mask) = source.mask(self.keylog) else { continue };
            let mut fits = |packet: &PacketRef<'_>| has_zero_bits(&mask, packet, &mut header);
            for Reading { id_len, own, same } in readings {
                if fits(own) {
                    let is_agreed = (is_first || !same.is_empty()) && same.iter().all(&mut fits);
                    guesses.push(Guess { source, id_len: *id_len, agreeing: is_agreed.then_some(same.len()) });
                }
            }
        }
        guesses
    }

    // Tries a guess with the lowest numbers, and with keys that were updated as the Key Phase bit says.
    fn try_guess(
        &mut self,
        guess: &Guess,
        packet: PacketRef<'_>,
        acknowledged: Option<u64>,
        trials: usize,
    ) -> Option<Found> {
        if self.is_over() {
            return None;
        }
        self.cost += KEYS_COST;
        let Guess { source, id_len, .. } = *guess;
        let first = source.keys(self.keylog)?;
        let number = *Unmasked::new(&first, packet, 0, self.buffer)?.number();
        let bit = usize::from(number.key_phase());
        let phases = match trials {
            ..8 => 1,
            8..16 => 2,
            _ => 4,
        };
        let updated = std::iter::successors(Some(first), PacketKeys::updated);
        let mut keys: Vec<_> = updated.skip(bit).step_by(2).take(phases).collect();
        let window = 1u64 << (8 * number.number_len);
        let highs = (0..trials.div_ceil(phases) as u64).map(|high| number.number + high * window);
        for expected in acknowledged.into_iter().chain(highs) {
            if self.is_over() {
                return None;
            }
            let candidate = Candidate { packet, sender: source.label.sender(), expected };
            self.cost += (keys.len() * (1 + packet.data().len() / 1024)) as u64;
            if let Some((at, number)) = self.opens(candidate, &keys) {
                let updates = (bit + 2 * at) as u64;
                return Some(Found { source, number, id_len, keys: keys.swap_remove(at), updates });
            }
        }
        None
    }

    // Which keys open a packet, and its number.
    fn opens(&mut self, candidate: Candidate<'_>, keys: &[PacketKeys]) -> Option<(usize, u64)> {
        let mut numbers = keys.iter().map(|keys| candidate.number_by(keys, self.buffer)).enumerate();
        numbers.find_map(|(at, number)| Some((at, number?)))
    }

    /// Tries keys on a packet with a long header.
    pub(crate) fn long(&mut self, packet: PacketRef<'_>, mut sources: impl Iterator<Item = Source>) -> Option<Found> {
        sources.find_map(|source| {
            if self.is_over() {
                return None;
            }
            self.cost += KEYS_COST;
            let keys = source.keys(self.keylog)?;
            let number = *Unmasked::new(&keys, packet, 0, self.buffer)?.number();
            if !number.reserved_bits_valid() {
                return None;
            }
            let window = 1u64 << (8 * number.number_len);
            let mut numbers = (0..LONG_TRIALS).map(|high| number.number + high * window);
            let number = numbers.find_map(|expected| {
                let candidate = Candidate { packet, sender: source.label.sender(), expected };
                candidate.number_by(&keys, self.buffer)
            })?;
            Some(Found { source, number, id_len: packet.dst_cid().len(), keys, updates: 0 })
        })
    }
}

fn has_zero_bits(mask: &Mask, packet: &PacketRef<'_>, header: &mut Vec<u8>) -> bool {
    let place = packet.header().place(0);
    let sample = place.sample(packet.data(), SAMPLE_LEN).ok().and_then(|sample| sample.first_chunk());
    let number = sample.and_then(|sample| mask.of(sample)).and_then(|mask| {
        header.clear();
        place.unprotect_header(packet.data(), &mask, 0, header).ok()
    });
    number.is_some_and(|number| number.reserved_bits_valid())
}
