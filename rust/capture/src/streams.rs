//! What the streams of a capture carried: how many bytes each side sent on each, which of them again, and which are
//! missing. [`Streams`] is a sink of its own, for those who want to know this.

use crate::capture::Datagram;
use crate::connection::Connection;
use crate::sink::{Event, Sink};
use quic_wire::frame::Frame;
use quic_wire::{Side, StreamId};
use std::collections::BTreeMap;
use std::iter;
use std::ops::Range;

/// How many streams are remembered at most, of all connections; of each, each side counts as one.
pub const MOST_STREAMS: usize = 1 << 17;

/// How many ranges of bytes of a stream are remembered. Of more, those with the smallest gap between them count as one.
pub const MOST_RANGES: usize = 32;

/// What a side sent on a stream, as far as the capture's opened packets have it.
#[derive(Clone, Debug, Default, PartialEq, Eq)]
pub struct Stream {
    frames: u64,
    sent: u64,
    again: u64,
    /// Bytes that count as there although they weren't seen.
    filled: u64,
    fin: Option<u64>,
    reset: Option<(u64, u64)>,
    stopped: Option<u64>,
    /// In ascending order, with gaps between them.
    seen: Vec<Range<u64>>,
}

impl Stream {
    /// How many STREAM frames there are.
    pub fn frames(&self) -> u64 {
        self.frames
    }

    /// How many bytes the frames have; bytes that came again count again.
    pub fn sent(&self) -> u64 {
        self.sent
    }

    /// How many of these came before: retransmissions. If [`Stream::is_rough`], some that fill a gap may be among them.
    pub fn again(&self) -> u64 {
        self.again
    }

    /// How many different bytes there are.
    pub fn bytes(&self) -> u64 {
        self.sent - self.again
    }

    /// Where the stream ends as far as it was seen: after its last byte or, if a frame has FIN, at its final size.
    pub fn end(&self) -> u64 {
        self.last().max(self.fin.unwrap_or_default())
    }

    /// The gaps before [`Stream::end`] that are remembered, in ascending order: bytes in no packet that was opened.
    pub fn gaps(&self) -> impl Iterator<Item = Range<u64>> {
        let begins = self.seen.iter().map(|range| range.start).chain([self.end()]);
        let ends = [0].into_iter().chain(self.seen.iter().map(|range| range.end));
        ends.zip(begins).map(|(end, begin)| end..begin).filter(|gap| !gap.is_empty())
    }

    /// How many bytes before [`Stream::end`] weren't seen.
    pub fn missing(&self) -> u64 {
        self.filled + self.gaps().map(|gap| gap.end - gap.start).sum::<u64>()
    }

    /// Whether there were too many gaps at once: bytes that came later in those that were forgotten count in
    /// [`Stream::again`] and in [`Stream::missing`].
    pub fn is_rough(&self) -> bool {
        self.filled > 0
    }

    /// Its final size, if a frame with FIN or a RESET_STREAM said it, the first one that did (RFC 9000, section 4.5).
    pub fn final_size(&self) -> Option<u64> {
        self.fin.or(self.reset.map(|(_, size)| size))
    }

    /// The error code of its first RESET_STREAM.
    pub fn reset(&self) -> Option<u64> {
        self.reset.map(|(code, _)| code)
    }

    /// The error code of its receiver's first STOP_SENDING.
    pub fn stopped(&self) -> Option<u64> {
        self.stopped
    }

    fn last(&self) -> u64 {
        self.seen.last().map_or(0, |range| range.end)
    }

    // Takes a STREAM frame. A frame's last offset is below 2^62 (RFC 9000, section 4.5).
    fn take(&mut self, offset: u64, len: u64, has_fin: bool) {
        self.frames += 1;
        self.sent += len;
        if has_fin {
            self.fin.get_or_insert(offset + len);
        }
        if len > 0 {
            self.add(offset..offset + len);
        }
        if self.seen.len() > MOST_RANGES {
            self.fill();
        }
    }

    // Adds a range to those that were seen, and counts which of its bytes were.
    fn add(&mut self, new: Range<u64>) {
        let from = self.seen.partition_point(|range| range.end < new.start);
        let to = from + self.seen[from..].partition_point(|range| range.start <= new.end);
        let touched = &self.seen[from..to];
        let common = |range: &Range<u64>| range.end.min(new.end).saturating_sub(range.start.max(new.start));
        self.again += touched.iter().map(common).sum::<u64>();
        let start = touched.first().map_or(new.start, |range| range.start.min(new.start));
        let end = touched.last().map_or(new.end, |range| range.end.max(new.end));
        if to == from + 1 {
            self.seen[from] = start..end;
        } else {
            self.seen.splice(from..to, iter::once(start..end));
        }
    }

    // Forgets the smallest gap.
    fn fill(&mut self) {
        let gaps = self.seen.windows(2).map(|pair| pair[1].start - pair[0].end).enumerate();
        if let Some((at, gap)) = gaps.min_by_key(|(_, gap)| *gap) {
            self.filled += gap;
            self.seen[at].end = self.seen[at + 1].end;
            self.seen.remove(at + 1);
        }
    }
}

// By connection, stream and whether the server is the sender.
type Key = (usize, StreamId, bool);

// The keys of a connection, whose number isn't the greatest.
fn keys_of(connection: usize) -> Range<Key> {
    let first = |connection| (connection, StreamId::default(), false);
    first(connection)..first(connection.saturating_add(1))
}

/// The streams of a capture: a sink, which takes what a [`crate::follow::Follower`] finds.
///
/// ```
/// use quic_wire::{Dir, Side, StreamId};
/// use quic_wire_capture::{capture::{Capture, Item}, follow::Follower, input, streams::Streams};
/// let file = &include_bytes!("../tests/data/small.pcap")[..];
/// let (mut capture, mut follower, mut streams) = (Capture::default(), Follower::default(), Streams::default());
/// follower.keylog.add(include_bytes!("../tests/data/small.keys"));
/// input::read(file, &mut capture, |item| match item {
///     Item::Datagram(datagram) => follower.take(&datagram, &mut streams),
///     Item::Secrets(text) => follower.keylog.add(text),
/// })?;
/// let request = streams.of(0).find(|(id, side, _)| id.dir() == Dir::Bi && *side == Side::Client);
/// assert!(request.is_some_and(|(_, _, stream)| stream.missing() == 0 && stream.final_size().is_some()));
/// # Ok::<(), input::InputError>(())
/// ```
#[derive(Clone, Debug, Default)]
pub struct Streams {
    all: BTreeMap<Key, Stream>,
    further: u64,
}

impl Streams {
    /// The streams of a connection, each with who sends on it, in the order of their ids, the client first.
    pub fn of(&self, connection: usize) -> impl Iterator<Item = (StreamId, Side, &Stream)> {
        let all = self.all.range(keys_of(connection));
        all.map(|((_, id, is_server), stream)| (*id, if *is_server { Side::Server } else { Side::Client }, stream))
    }

    /// How many frames aren't counted, since there were more than [`MOST_STREAMS`] streams.
    pub fn further(&self) -> u64 {
        self.further
    }

    /// Forgets the streams of a connection.
    pub fn forget(&mut self, connection: usize) {
        let keys: Vec<_> = self.all.range(keys_of(connection)).map(|(key, _)| *key).collect();
        keys.iter().for_each(|key| drop(self.all.remove(key)));
    }

    fn with(&mut self, connection: &Connection, id: StreamId, sender: Side, act: impl FnOnce(&mut Stream)) {
        let key = (connection.number(), id, sender == Side::Server);
        if self.all.len() < MOST_STREAMS || self.all.contains_key(&key) {
            act(self.all.entry(key).or_default());
        } else {
            self.further += 1;
        }
    }
}

impl Sink for Streams {
    fn opened(&mut self, connection: &Connection, _: &Datagram<'_>, _: u64, event: &Event<'_>) {
        let Event::Frame { opened, frame, permitted: Ok(()), .. } = event else { return };
        let sender = opened.sender();
        match frame {
            Frame::Stream(one) => self.with(connection, one.id, sender, |stream| {
                stream.take(one.offset, one.bytes.len() as u64, one.fin);
            }),
            Frame::ResetStream(one) => self.with(connection, one.id, sender, |stream| {
                stream.reset.get_or_insert((one.error_code.into(), one.final_offset.into()));
            }),
            Frame::StopSending(one) => self.with(connection, one.id, !sender, |stream| {
                stream.stopped.get_or_insert(one.error_code.into());
            }),
            _ => {}
        }
    }
}

#[cfg(test)]
mod tests {
    use super::*;
    use std::collections::BTreeSet;

    // Numbers that look random.
    struct Random(u64);

    impl Random {
        fn below(&mut self, end: u64) -> u64 {
            self.0 ^= self.0 << 13;
            self.0 ^= self.0 >> 7;
            self.0 ^= self.0 << 17;
            self.0 % end
        }
    }

    // The bytes one by one say what is there, what came again and what is missing.
    #[test]
    fn as_bytes_one_by_one() {
        let mut random = Random(9000);
        for round in 0..2000 {
            let (mut stream, mut bytes, mut sent, mut fin) = (Stream::default(), BTreeSet::new(), 0, None);
            for _ in 0..random.below(40) {
                let (offset, len, has_fin) = (random.below(300), random.below(30), random.below(20) == 0);
                stream.take(offset, len, has_fin);
                bytes.extend(offset..offset + len);
                sent += len;
                fin = fin.or(has_fin.then_some(offset + len));
            }
            let end = bytes.last().map_or(0, |last| last + 1).max(fin.unwrap_or_default());
            let there = bytes.len() as u64;
            assert!(!stream.is_rough(), "round {round}: fewer gaps than are remembered");
            let found = (stream.bytes(), stream.again(), stream.end(), stream.missing(), stream.final_size());
            assert_eq!(found, (there, sent - there, end, end - there, fin), "round {round}");
            let missing: Vec<_> = stream.gaps().flatten().collect();
            let wanted: Vec<_> = (0..end).filter(|byte| !bytes.contains(byte)).collect();
            assert_eq!(missing, wanted, "round {round}: the gaps");
        }
    }

    // More gaps than are remembered: the smallest ones are forgotten, and what is missing still counts.
    #[test]
    fn more_gaps_than_are_remembered() {
        let mut stream = Stream::default();
        let gaps = 10 * MOST_RANGES as u64;
        for at in 0..gaps {
            // Gaps of 1, 2, 3 bytes and so on, before one byte each.
            stream.take((at + 1) * (at + 2) / 2 + at, 1, false);
        }
        assert!(stream.is_rough() && stream.seen.len() == MOST_RANGES, "{} ranges", stream.seen.len());
        assert_eq!((stream.bytes(), stream.missing()), (gaps, gaps * (gaps + 1) / 2));
        assert_eq!(stream.gaps().last().map(|gap| gap.end - gap.start), Some(gaps), "the greatest gap is remembered");
    }

    // RFC 9000, section 4.5: the greatest final size.
    #[test]
    fn the_greatest_offset() {
        let mut stream = Stream::default();
        stream.take((1 << 62) - 2, 1, true);
        stream.take((1 << 62) - 1, 0, true);
        assert_eq!((stream.end(), stream.final_size()), ((1 << 62) - 1, Some((1 << 62) - 1)));
        assert_eq!((stream.frames(), stream.missing()), (2, (1 << 62) - 2));
    }
}
