//! capture [FILE..]: what the payloads of a capture contain: frames by kind, the bytes of each stream, and what is lost
//! to errors. Each file is a decrypted payload. Without a file it reads built-in payloads.
use quic_wire::frame::{Frame, Iter};
use quic_wire::{Error, StreamId};
use std::collections::BTreeMap;
use std::fmt::{self, Display, Formatter};
use std::{env, fs, io};

/// What was sent on a stream.
#[derive(Debug, Default, PartialEq)]
struct Sent {
    /// How many bytes frames carried, with retransmissions.
    carried: u64,
    /// The end of its data, as far as it was seen.
    end: u64,
    is_finished: bool,
}

/// What is lost to an error.
#[derive(Debug, Default, PartialEq)]
struct Lost {
    payloads: usize,
    /// From the beginning of an invalid frame to the end of its payload.
    bytes: usize,
}

#[derive(Default)]
struct Summary {
    payloads: usize,
    frames: BTreeMap<String, usize>,
    streams: BTreeMap<StreamId, Sent>,
    lost: BTreeMap<String, Lost>,
}

impl Summary {
    fn add(&mut self, payload: &[u8]) {
        self.payloads += 1;
        let mut frames = match Iter::new(payload) {
            Ok(frames) => frames,
            Err(empty) => return self.lose(empty.into(), 0),
        };
        // An error is the last item, and the frames before it count.
        while let Some(item) = frames.next() {
            match item {
                Ok(frame) => self.count(&frame),
                Err(invalid) => self.lose(invalid.into(), payload.len() - frames.offset()),
            }
        }
    }

    fn count(&mut self, frame: &Frame<'_>) {
        *self.frames.entry(frame.ty().to_string()).or_default() += 1;
        if let Frame::Stream(stream) = frame {
            let sent = self.streams.entry(stream.id).or_default();
            sent.carried += stream.bytes.len() as u64;
            sent.end = sent.end.max(stream.offset + stream.bytes.len() as u64);
            sent.is_finished |= stream.fin;
        }
    }

    fn lose(&mut self, error: Error, bytes: usize) {
        let lost = self.lost.entry(error.to_string()).or_default();
        lost.payloads += 1;
        lost.bytes += bytes;
    }
}

impl Display for Summary {
    fn fmt(&self, f: &mut Formatter<'_>) -> fmt::Result {
        writeln!(f, "{} payloads", self.payloads)?;
        for (kind, count) in &self.frames {
            writeln!(f, "{count:8} {kind}")?;
        }
        for (id, sent) in &self.streams {
            let end = if sent.is_finished { "its end" } else { "open" };
            writeln!(f, "stream {}: {} bytes for {}, {end}", u64::from(*id), sent.carried, sent.end)?;
        }
        for (error, lost) in &self.lost {
            writeln!(f, "{error}: {} payloads, {} bytes lost", lost.payloads, lost.bytes)?;
        }
        Ok(())
    }
}

const OWN: [&[u8]; 4] = [
    // A PING, three PADDING, and two bytes of stream 4, then these again with the last one.
    &[0x01, 0x00, 0x00, 0x00, 0x0a, 0x04, 0x02, b'h', b'i'],
    &[0x0d, 0x04, 0x00, b'h', b'i', b'!'],
    // A PING, and a CRYPTO that is cut off; no frame at all.
    &[0x01, 0x06, 0x00, 0x05, 0x61],
    &[],
];

fn main() -> io::Result<()> {
    let mut summary = Summary::default();
    let files: Vec<_> = env::args_os().skip(1).collect();
    if files.is_empty() {
        OWN.iter().for_each(|payload| summary.add(payload));
    }
    for file in files {
        summary.add(&fs::read(file)?);
    }
    print!("{summary}");
    Ok(())
}

#[test]
fn frames_are_counted_and_losses_reported() {
    let mut summary = Summary::default();
    OWN.iter().for_each(|payload| summary.add(payload));
    let frames = [("PADDING", 3), ("PING", 2), ("STREAM", 2)].map(|(kind, count)| (kind.to_string(), count));
    assert_eq!(summary.frames, BTreeMap::from(frames));
    assert_eq!(summary.streams, BTreeMap::from([(StreamId::from(4), Sent { carried: 5, end: 3, is_finished: true })]));
    let cut_off = ("frame: unexpected end in CRYPTO".to_string(), Lost { payloads: 1, bytes: 4 });
    let empty = ("packet payload is empty".to_string(), Lost { payloads: 1, bytes: 0 });
    assert_eq!(summary.lost, BTreeMap::from([cut_off, empty]));
}
