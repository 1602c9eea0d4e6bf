//! Which packets of a side were acknowledged, and which count as lost (RFC 9002, sections 5 and 6.1). Times are those
//! of the capture: the nearer it was made to the sender, the nearer they are to the sender's.

use quic_wire::Side;
use quic_wire::frame::Ack;
use quic_wire::ids::SpaceId;
use quic_wire::range_set::ArrayRangeSet;
use std::collections::VecDeque;
use std::ops::RangeInclusive;

/// How many packets of a number space are remembered at most.
pub const MOST_PACKETS: usize = 1 << 14;

/// How many runs of numbers are remembered: as many as packets, but at least and at most some. A number below them
/// counts as sent before.
const LEAST_RUNS: usize = 1 << 4;
const MOST_RUNS: usize = 1 << 8;

/// A packet counts as lost once one with a number this much greater is acknowledged (RFC 9002, section 6.1.1).
pub const PACKET_THRESHOLD: u64 = 3;

/// The least time after which a packet counts as lost, in nanoseconds (RFC 9002, section 6.1.2).
pub const GRANULARITY: u64 = 1_000_000;

/// The round-trip time until there is a sample, in nanoseconds (RFC 9002, section 6.2.2).
pub const INITIAL_RTT: u64 = 333_000_000;

/// A packet that was sent.
#[derive(Clone, Copy, Debug, PartialEq, Eq)]
pub struct Sent {
    /// Who sent it.
    pub sender: Side,
    /// Its space.
    pub space: SpaceId,
    /// Its number.
    pub number: u64,
    /// The record of its datagram.
    pub record: u64,
    /// When that was captured, in nanoseconds since 1970.
    pub time: u64,
    /// Its index among all packets of the capture.
    pub index: u64,
    /// As [`Opened::tag`](crate::opened::Opened::tag).
    pub tag: u64,
    /// When its first acknowledgment was captured, in nanoseconds since 1970.
    pub acknowledged: Option<u64>,
    /// When it counted as lost, and why. If it was acknowledged too, it counted as lost without being so.
    pub lost: Option<Loss>,
}

/// When a packet counted as lost.
#[derive(Clone, Copy, Debug, PartialEq, Eq)]
pub struct Loss {
    /// The time, in nanoseconds since 1970: that of the acknowledgment of a later packet, or when a timer that it set
    /// ended.
    pub time: u64,
    /// Why.
    pub by: Threshold,
}

/// Why a packet counts as lost after a later one was acknowledged (RFC 9002, section 6.1).
#[derive(Clone, Copy, Debug, PartialEq, Eq, Hash)]
pub enum Threshold {
    /// The later one's number is greater by [`PACKET_THRESHOLD`] or more (section 6.1.1).
    Packets,
    /// It was sent 9/8 of the round-trip time ago, or longer (section 6.1.2).
    Time,
}

/// The round-trip time as the acknowledgments of a side's packets have shown it, in nanoseconds (RFC 9002, section 5).
#[derive(Clone, Copy, Debug, PartialEq, Eq)]
pub struct Rtt {
    /// The latest sample (section 5.1).
    pub latest: u64,
    /// The least sample (section 5.2).
    pub min: u64,
    /// The smoothed time, without the delays of acknowledgments (section 5.3).
    pub smoothed: u64,
}

impl Rtt {
    // The next sample, and by how much the peer says that it delayed the acknowledgment.
    fn after(before: Option<Rtt>, sample: u64, ack_delay: u64) -> Rtt {
        let Some(Rtt { min, smoothed, .. }) = before else {
            return Rtt { latest: sample, min: sample, smoothed: sample };
        };
        let min = min.min(sample);
        let has_delay = sample >= min.saturating_add(ack_delay);
        let adjusted = if has_delay { sample - ack_delay } else { sample };
        let smoothed = (7 * u128::from(smoothed) + u128::from(adjusted)) / 8;
        Rtt { latest: sample, min, smoothed: u64::try_from(smoothed).unwrap_or(u64::MAX) }
    }

    // How long after it was sent a packet counts as lost.
    fn threshold(rtt: Option<Rtt>) -> u64 {
        let longest = rtt.map_or(INITIAL_RTT, |rtt| rtt.smoothed.max(rtt.latest));
        longest.saturating_add(longest / 8).max(GRANULARITY)
    }
}

/// What is learned of a packet.
pub(crate) enum Outcome {
    Acknowledged(Sent),
    Lost(Sent),
}

/// Numbers of packets in their order. Most are added at the end and removed near the front.
#[derive(Default)]
struct Numbers(VecDeque<u64>);

impl Numbers {
    fn insert(&mut self, number: u64) {
        if let Err(place) = self.0.binary_search(&number) {
            self.0.insert(place, number);
        }
    }

    // Whether it was there.
    fn remove(&mut self, number: u64) -> bool {
        self.0.binary_search(&number).is_ok_and(|place| self.0.remove(place).is_some())
    }

    fn contains(&self, number: u64) -> bool {
        self.0.binary_search(&number).is_ok()
    }

    fn below(&self, bound: u64) -> Vec<u64> {
        self.0.range(..self.0.partition_point(|number| *number < bound)).copied().collect()
    }

    fn within(&self, range: RangeInclusive<u64>) -> Vec<u64> {
        let from = self.0.partition_point(|number| number < range.start());
        self.0.range(from..).take_while(|number| *number <= range.end()).copied().collect()
    }
}

/// The packets of a side in a number space.
#[derive(Default)]
pub(crate) struct Space {
    /// The last ones, by their numbers.
    sent: VecDeque<Sent>,
    /// The numbers that were used, from `floor` on.
    used: ArrayRangeSet,
    floor: u64,
    /// Those of `sent` that weren't acknowledged.
    open: Numbers,
    /// Of these, those that elicit an acknowledgment and don't count as lost.
    waiting: Numbers,
    pub(crate) largest: Option<u64>,
    pub(crate) acknowledged: Option<u64>,
    /// When the next one counts as lost.
    loss_time: Option<u64>,
}

impl Space {
    fn place(&self, number: u64) -> Result<usize, usize> {
        self.sent.binary_search_by_key(&number, |sent| sent.number)
    }

    /// A packet, if it is remembered.
    pub(crate) fn sent(&self, number: u64) -> Option<&Sent> {
        self.place(number).ok().and_then(|place| self.sent.get(place))
    }

    fn sent_mut(&mut self, number: u64) -> Option<&mut Sent> {
        self.place(number).ok().and_then(|place| self.sent.get_mut(place))
    }

    /// Whether a number may have been used before.
    pub(crate) fn was_sent(&self, number: u64) -> bool {
        number < self.floor || self.used.contains(number)
    }

    /// Adds a packet whose number wasn't used before. Only so many are remembered.
    pub(crate) fn add(&mut self, sent: Sent, most: usize) {
        self.remember_packets(most.saturating_sub(1));
        // Most spaces have one packet or two.
        if self.sent.len() == self.sent.capacity() {
            self.sent.reserve_exact(self.sent.len().max(1));
        }
        self.used.insert_one(sent.number);
        self.remember_runs(most);
        self.open.insert(sent.number);
        self.largest = self.largest.max(Some(sent.number));
        let place = self.place(sent.number).unwrap_or_else(|place| place);
        self.sent.insert(place, sent);
    }

    // Whether there were more.
    fn remember_runs(&mut self, most: usize) -> bool {
        let before = self.used.len();
        while self.used.len() > most.clamp(LEAST_RUNS, MOST_RUNS) {
            self.floor = self.used.pop_min().map_or(self.floor, |run| run.end);
        }
        self.used.len() < before
    }

    /// Forgets all packets and runs of numbers but the latest.
    pub(crate) fn remember(&mut self, most: usize) {
        if self.remember_runs(most) {
            // In as little memory as they need.
            self.used = self.used.iter().collect();
        }
        self.remember_packets(most);
    }

    fn remember_packets(&mut self, most: usize) {
        while self.sent.len() > most {
            let Some(Sent { number, .. }) = self.sent.pop_front() else { break };
            self.open.remove(number);
            self.waiting.remove(number);
        }
        if self.sent.capacity() > 4 * (most + 1) {
            self.sent.shrink_to(most + 1);
            self.open.0.shrink_to(most + 1);
            self.waiting.0.shrink_to(most + 1);
        }
    }

    /// Notes that a packet elicits an acknowledgment.
    pub(crate) fn add_waiting(&mut self, number: u64) {
        if self.open.contains(number) {
            self.waiting.insert(number);
        }
    }

    // Takes the ranges of an ACK. Returns the sample of the round-trip time if it has one: its largest number is newly
    // acknowledged, and one that is elicits an acknowledgment (RFC 9002, section 5.1).
    fn take_ranges(&mut self, ack: &Ack<'_>, now: u64, outcomes: &mut Vec<Outcome>) -> Option<u64> {
        let (mut elicits, mut sample) = (false, None);
        for range in ack {
            for number in self.open.within(range) {
                self.open.remove(number);
                let was_waiting = self.waiting.remove(number);
                let Some(sent) = self.sent_mut(number) else { continue };
                sent.acknowledged = Some(now);
                elicits |= was_waiting || sent.lost.is_some();
                if number == ack.largest() {
                    sample = Some(now.saturating_sub(sent.time));
                }
                outcomes.push(Outcome::Acknowledged(*sent));
            }
        }
        sample.filter(|_| elicits)
    }

    // Finds what counts as lost at a time, and when the next one will (RFC 9002, section A.10).
    fn detect(&mut self, now: u64, threshold: u64, outcomes: &mut Vec<Outcome>) {
        self.loss_time = None;
        let Some(acknowledged) = self.acknowledged else { return };
        for number in self.waiting.below(acknowledged) {
            let Some(sent) = self.sent_mut(number) else { continue };
            let due = sent.time.saturating_add(threshold);
            let by = match acknowledged - number {
                PACKET_THRESHOLD.. => Threshold::Packets,
                _ if due <= now => Threshold::Time,
                _ => {
                    self.loss_time = Some(self.loss_time.map_or(due, |time| time.min(due)));
                    continue;
                }
            };
            sent.lost = Some(Loss { time: now, by });
            outcomes.push(Outcome::Lost(*sent));
            self.waiting.remove(number);
        }
    }
}

/// The packets of a side.
#[derive(Default)]
pub(crate) struct Recovery {
    pub(crate) spaces: [Space; 3],
    pub(crate) rtt: Option<Rtt>,
}

impl Recovery {
    /// Takes an ACK, by which its sender delayed it, and returns what that says of packets.
    pub(crate) fn take_ack(&mut self, space: SpaceId, ack: &Ack<'_>, now: u64, ack_delay: u64) -> Vec<Outcome> {
        let mut outcomes = Vec::new();
        let Recovery { spaces, rtt } = self;
        let space = &mut spaces[space as usize];
        let largest = space.largest.map(|sent| sent.min(ack.largest()));
        space.acknowledged = space.acknowledged.max(largest);
        if let Some(sample) = space.take_ranges(ack, now, &mut outcomes) {
            *rtt = Some(Rtt::after(*rtt, sample, ack_delay));
        }
        space.detect(now, Rtt::threshold(*rtt), &mut outcomes);
        outcomes
    }

    /// Begins again, as a client does after a Retry (RFC 9002, section 6.3): what it sent before doesn't count as lost.
    pub(crate) fn begin_again(&mut self) {
        self.rtt = None;
        for space in &mut self.spaces {
            space.waiting.0.clear();
            space.loss_time = None;
        }
    }

    /// Returns what counts as lost before a time, without a further acknowledgment.
    pub(crate) fn expire(&mut self, now: u64) -> Vec<Outcome> {
        let mut outcomes = Vec::new();
        let threshold = Rtt::threshold(self.rtt);
        for space in &mut self.spaces {
            while let Some(time) = space.loss_time.filter(|time| *time <= now) {
                space.detect(time, threshold, &mut outcomes);
            }
        }
        outcomes
    }
}
