//! What each side sent on each stream. The bytes are those that are sent here; how many STREAM frames the captures of
//! vectors/captures have is what tshark read in them.
mod common;
#[path = "common/made.rs"]
mod made;

use common::Kept;
use made::{Client, Handshake, Made, Server, Short, frame};
use quic_wire::frame::{Frame, ResetStream, StopSending, Stream};
use quic_wire::{Side, StreamId, VarInt};
use quic_wire_capture::follow::Follower;
use quic_wire_capture::streams::{MOST_RANGES, MOST_STREAMS, Streams};

// The streams in datagrams of made connections.
fn follow(made: &[&Made], all: &[Kept]) -> Streams {
    let (mut follower, mut streams) = (Follower::default(), Streams::default());
    made.iter().for_each(|one| follower.keylog.add(one.key_log().as_bytes()));
    all.iter().for_each(|kept| follower.take(&kept.datagram(), &mut streams));
    follower.finish(&mut streams);
    streams
}

fn stream(id: u32, offset: u64, bytes: &[u8], fin: bool) -> Vec<u8> {
    frame(&Frame::Stream(Stream { id: StreamId::from(id), offset, fin, bytes }))
}

/// The id, the sender, and numbers: frames, different bytes, bytes sent again, missing bytes, final size.
type Row = (u64, Side, [u64; 4], Option<u64>);

fn rows(streams: &Streams, connection: usize) -> Vec<Row> {
    let row = |(id, side, one): (StreamId, Side, &quic_wire_capture::streams::Stream)| {
        let numbers = [one.frames(), one.bytes(), one.again(), one.missing()];
        (u64::from(id), side, numbers, one.final_size())
    };
    streams.of(connection).map(row).collect()
}

#[test]
fn bytes_of_both_sides() {
    let mut made = Made::new(1);
    let mut all = made.handshake();
    // 100 bytes in two frames, the second of which comes twice, in another packet and with 10 bytes more.
    all.push(made.send(Client, Short, &[stream(0, 0, &[7; 60], false), stream(0, 60, &[7; 40], false)].concat()));
    all.push(made.send(Client, Short, &stream(0, 60, &[7; 50], true)));
    // A gap of 20 bytes.
    all.push(made.send(Server, Short, &stream(0, 0, &[8; 30], false)));
    all.push(made.send(Server, Short, &stream(0, 50, &[8; 10], false)));
    // Its own stream, whose end is known by its FIN alone.
    all.push(made.send(Server, Short, &stream(3, 5, &[], true)));
    let streams = follow(&[&made], &all);
    let wanted = [
        (0, Client, [3, 110, 40, 0], Some(110)),
        (0, Server, [2, 40, 0, 20], None),
        (3, Server, [1, 0, 0, 5], Some(5)),
    ];
    assert_eq!(rows(&streams, 0), wanted);
    let mut gaps = streams.of(0).nth(1).unwrap().2.gaps();
    assert_eq!((gaps.next(), gaps.next()), (Some(30..50), None));
    assert_eq!(rows(&streams, 1), []);
}

#[test]
fn resets_and_stops() {
    let mut made = Made::new(1);
    let (id, error_code) = (StreamId::from(4u32), VarInt::from_u32(9));
    let mut all = made.handshake();
    all.push(made.send(Client, Short, &stream(4, 0, &[7; 10], false)));
    all.push(made.send(Server, Short, &frame(&Frame::StopSending(StopSending { id, error_code }))));
    let reset = ResetStream { id, error_code: VarInt::from_u32(8), final_offset: VarInt::from_u32(25) };
    all.push(made.send(Client, Short, &frame(&Frame::ResetStream(reset))));
    let streams = follow(&[&made], &all);
    // Bytes that were never sent aren't missing.
    assert_eq!(rows(&streams, 0), [(4, Client, [1, 10, 0, 0], Some(25))]);
    let (_, _, one) = streams.of(0).next().unwrap();
    assert_eq!((one.reset(), one.stopped(), one.end()), (Some(8), Some(9), 10));
}

// A packet that anyone sent again, and a frame that may not be there, change nothing.
#[test]
fn only_what_counts() {
    let mut made = Made::new(1);
    let mut all = made.handshake();
    all.push(made.send(Client, Short, &stream(0, 0, &[7; 10], false)));
    all.push(all.last().unwrap().clone());
    all.push(made.send(Client, Handshake, &stream(0, 10, &[7; 10], false)));
    assert_eq!(rows(&follow(&[&made], &all), 0), [(0, Client, [1, 10, 0, 0], None)]);
}

#[test]
fn connections_have_their_own() {
    let (mut one, mut two) = (Made::new(1), Made::new(2));
    let mut all = [one.handshake(), two.handshake()].concat();
    all.push(one.send(Client, Short, &stream(0, 0, &[7; 10], false)));
    all.push(two.send(Client, Short, &stream(0, 0, &[7; 20], false)));
    let mut streams = follow(&[&one, &two], &all);
    assert_eq!(rows(&streams, 1), [(0, Client, [1, 20, 0, 0], None)]);
    streams.forget(1);
    assert_eq!((rows(&streams, 0).len(), rows(&streams, 1).len()), (1, 0));
}

// However many streams and gaps there are, so many are remembered; what is beyond is counted.
#[test]
fn bounded_in_memory() {
    let mut made = Made::new(1);
    let mut all = made.handshake();
    let ids: Vec<u32> = (0..MOST_STREAMS as u32 + 100).map(|index| 4 * index).collect();
    for ids in ids.chunks(300) {
        all.push(made.send(Client, Short, &ids.iter().flat_map(|id| stream(*id, 1, &[7], false)).collect::<Vec<_>>()));
    }
    let streams = follow(&[&made], &all);
    assert_eq!((streams.of(0).count(), streams.further()), (MOST_STREAMS, 100));
    let mut all = Made::new(1).handshake();
    let mut made = Made::new(1);
    made.handshake();
    all.extend((1..=100).map(|at| made.send(Client, Short, &stream(0, 10 * at, &[7], false))));
    let streams = follow(&[&made], &all);
    let (_, _, one) = streams.of(0).next().unwrap();
    assert_eq!((one.is_rough(), one.gaps().count(), one.bytes()), (true, MOST_RANGES, 100));
    assert_eq!(one.missing(), 1001 - 100, "before byte 1001 all but 100 bytes");
}

#[cfg(feature = "gzip")]
mod recorded {
    use super::*;
    use quic_wire_capture::capture::{Capture, Item};
    use quic_wire_capture::input;
    use serde_json::Value;
    use std::fs::{self, File};

    const FOLDER: &str = concat!(env!("CARGO_MANIFEST_DIR"), "/../../vectors/captures");

    // How many frames of a capture tshark read as STREAM (RFC 9000, section 19.8), in packets that came once.
    fn described(description: &Value) -> Option<u64> {
        let mut count = 0;
        let packets = description["datagrams"].as_array()?.iter().filter_map(|row| row["packets"].as_array()).flatten();
        for frame in packets.filter_map(|packet| packet["frames"].as_array()).flatten() {
            count += u64::from((8..16).contains(&frame["type"].as_u64()?));
        }
        Some(count)
    }

    #[test]
    fn as_many_frames_as_tshark_reads() {
        let (mut tried, mut frames) = (0, 0);
        for path in fs::read_dir(FOLDER).unwrap().map(|file| file.unwrap().path()) {
            if path.extension().is_none_or(|end| end != "json") {
                continue;
            }
            let description: Value = serde_json::from_slice(&fs::read(&path).unwrap()).unwrap();
            let (Some(name), Some(wanted)) = (description["capture"].as_str(), described(&description)) else {
                continue;
            };
            let (mut file, mut follower, mut streams) = (Capture::default(), Follower::default(), Streams::default());
            if let Some(keys) = description["keys"].as_str() {
                follower.keylog.add(&fs::read(format!("{FOLDER}/{keys}")).unwrap());
            }
            let source = File::open(format!("{FOLDER}/{name}")).unwrap();
            input::read(source, &mut file, |item| match item {
                Item::Datagram(datagram) => follower.take(&datagram, &mut streams),
                Item::Secrets(text) => follower.keylog.add(text),
            })
            .unwrap();
            follower.finish(&mut streams);
            let connections = 0..follower.counts().connections;
            let found: u64 = connections.flat_map(|one| streams.of(one)).map(|(_, _, stream)| stream.frames()).sum();
            assert_eq!(found, wanted, "STREAM frames of {name}");
            (tried, frames) = (tried + 1, frames + wanted);
        }
        assert!(tried >= 35 && frames > 400, "{frames} frames in {tried} captures");
    }
}
