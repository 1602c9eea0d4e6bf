//! Changed captures, key logs, filters and bytes: none makes the module panic, and what it says fits together. `ROUNDS`
//! in the environment says how many rounds there are.

mod common;

use common::{FOLDER, Random, captures, object, objects};
use quic_wire::Side;
use quic_wire_capture::tls::Hello;
use quic_wire_page::bytes::{self, Choices, Of};
use quic_wire_page::engine::{Engine, Purpose};

const WORDS: [&str; 12] =
    ["client", "-lost", "acked", "pn:0-9", "#1", "c:0", "type:initial", "stream", "\"a b\"", "broken", "\"", "-"];

fn rounds(usual: usize) -> usize {
    std::env::var("ROUNDS").ok().and_then(|text| text.parse().ok()).unwrap_or(usual)
}

fn change(random: &mut Random, bytes: &mut Vec<u8>) {
    for _ in 0..1 + random.below(8) {
        let at = random.below(bytes.len());
        match random.below(6) {
            0 => bytes.truncate(at),
            1 => bytes.insert(at, random.next() as u8),
            2 if !bytes.is_empty() => {
                bytes.remove(at);
            }
            3 => bytes.extend_from_within(at..(at + random.below(2000)).min(bytes.len())),
            _ => bytes.iter_mut().skip(at).take(1 + random.below(4)).for_each(|byte| *byte ^= random.next() as u8),
        }
    }
}

// What a page asks about a capture.
fn ask(engine: &mut Engine, random: &mut Random) {
    let text: Vec<_> = (0..random.below(4)).map(|_| WORDS[random.below(WORDS.len())]).collect();
    let _ = engine.filter(&text.join(" "));
    assert!(engine.shown() <= engine.count());
    let rows = objects(&engine.rows(0, engine.count()));
    assert_eq!(rows.len(), engine.shown(), "{text:?}");
    for row in rows.iter().take(50) {
        let index = row["index"].as_u64().unwrap() as usize;
        let place = engine.position(index).unwrap();
        assert_eq!(objects(&engine.rows(place, place + 1))[0]["index"], index);
        let detail = object(&engine.detail(index).unwrap());
        let packets = detail["packets"].as_array().unwrap();
        assert!(packets.iter().any(|packet| packet["index"] == index), "packet {index} is in its datagram");
    }
    object(&engine.summary());
    for connection in 0..3 {
        assert_eq!(engine.points(connection).len() % 48, 0);
        let streams = engine.streams(connection, 0, usize::MAX);
        assert_eq!(objects(&streams).len(), engine.stream_count(connection));
        for side in [Side::Client, Side::Server] {
            assert!(engine.parameters(connection, side).is_none_or(|text| object(&text).is_object()));
        }
    }
}

#[test]
fn changed_captures() {
    let (seeds, mut random) = (captures(FOLDER), Random(0x9e37_79b9_7f4a_7c15));
    for round in 0..rounds(300) {
        let seed = &seeds[round % seeds.len()];
        let (mut file, mut keys) = (seed.file.clone(), seed.keys.clone());
        let changed = if random.below(8) == 0 { &mut keys } else { &mut file };
        change(&mut random, changed);
        let mut engine = Engine::new(Purpose::Table);
        engine.add_keylog(&keys);
        let size = 1 + random.below(9000);
        let fed = file.chunks(size).try_for_each(|piece| engine.feed(piece));
        if random.below(2) == 0 {
            ask(&mut engine, &mut random);
        }
        engine.finish();
        engine.finish();
        ask(&mut engine, &mut random);
        objects(&engine.lines());
        objects(engine.check_lines());
        assert!(fed.is_ok() || !fed.unwrap_err().is_empty());
        if round % 8 == 0 {
            let mut engine = Engine::new(Purpose::Traces("changed".into(), None));
            engine.add_keylog(&keys);
            let _ = file.chunks(size).try_for_each(|piece| engine.feed(piece));
            engine.finish();
            pieces(&engine.traces());
        }
    }
}

// Pieces of traces, each of which ends with a record.
fn pieces(mut rest: &[u8]) {
    while let Some((numbers, after)) = rest.split_first_chunk::<8>() {
        let len = u32::from_le_bytes(numbers[4..].try_into().unwrap()) as usize;
        assert!(after[..len].starts_with(b"\x1e{") && after[..len].ends_with(b"}\n"));
        rest = &after[len..];
    }
    assert!(rest.is_empty(), "a piece that is cut off");
}

#[test]
fn any_bytes() {
    let mut random = Random(0x2545_f491_4f6c_dd1d);
    let versions = [1, 0x6b33_43cf];
    for _ in 0..rounds(20_000) {
        let mut bytes: Vec<u8> = (0..random.below(90)).map(|_| (random.next() >> random.below(56)) as u8).collect();
        if random.below(2) == 0 && bytes.len() > 5 {
            bytes[0] |= 0xc0;
            bytes[1..5].copy_from_slice(&[0, 0, 0, 1]);
        }
        let flags = random.next();
        let choices = Choices {
            rfc: flags & 1 != 0,
            short_types: flags & 2 != 0,
            grease: flags & 4 != 0,
            id_len: random.below(40),
        };
        payload(&bytes, choices);
        let (header, why) = bytes::header(&bytes, &versions, choices);
        if why.is_none() {
            assert!(header.end <= header.packet_end && header.packet_end <= bytes.len() && header.packet_end > 0);
        }
        bytes::unprotect(&bytes, random.below(60), &[0x1f; 5]);
        for of in [Of::Frame, Of::Packet, Of::Entry, Of::Value(random.next() % 20)] {
            spans(of, &bytes, &versions, choices);
        }
        for side in [Side::Client, Side::Server] {
            if let Some((_, offset)) = bytes::parameters(&bytes, side, choices) {
                assert!(offset <= bytes.len());
            }
        }
        bytes::integer(&bytes);
        if let Hello::Parameters(_, list) = Hello::read(&bytes) {
            assert!(list.len() < bytes.len());
        }
    }
}

fn payload(bytes: &[u8], choices: Choices) {
    let (frames, end, ending) = bytes::frames(bytes, choices);
    assert!(end <= bytes.len() && frames.windows(2).all(|two| two[0].0 < two[1].0));
    assert_eq!(ending.is_none(), end == bytes.len() && !bytes.is_empty(), "whole if there is no fault");
    assert_eq!(bytes::shortest(bytes, choices).is_ok(), ending.is_none());
    for (begin, ty) in frames {
        assert!(bytes::frame(&bytes[begin..]).is_some(), "a frame of type {ty}");
        let ranges = bytes::ranges(&bytes[begin..]);
        assert_eq!(ranges.is_empty(), ty != 2 && ty != 3);
        assert!(ranges.iter().all(|(least, greatest)| least <= greatest));
    }
}

fn spans(of: Of, bytes: &[u8], versions: &[u32], choices: Choices) {
    let numbers = bytes::numbers_of(&bytes::fields(of, bytes, versions, choices));
    let mut end = 0;
    for span in numbers[3..].chunks_exact(3) {
        assert!(span[0] == end && span[0] <= span[1] && span[1] <= bytes.len() as u64, "{of:?} of {bytes:02x?}");
        end = span[1];
    }
    assert!(numbers[0] <= bytes.len() as u64);
}
