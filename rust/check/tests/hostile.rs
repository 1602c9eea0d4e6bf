//! Captures of anything: changed files, and authentic packets with any contents. Whatever they have, nothing panics.
//! The variable ROUNDS of the environment makes it longer.
#[path = "../../capture/tests/common/mod.rs"]
mod common;
#[path = "../../capture/tests/common/made.rs"]
mod made;
#[path = "common/talk.rs"]
mod talk;

use common::{CAPTURE, KEYS, Kept, Plain, Random, Sealer, datagrams, opened};
use made::{Client, Initial, Server};
use quic_wire::packet::PacketNumber;
use quic_wire_capture::capture::{Capture, Item};
use quic_wire_capture::follow::Follower;
use quic_wire_check::checker::Checker;
use quic_wire_check::finding::Report;
use std::time::{Duration, Instant};
use talk::Talk;

fn rounds() -> u64 {
    std::env::var("ROUNDS").ok().and_then(|text| text.parse().ok()).unwrap_or(200)
}

// Checks what can be read of a file.
fn checked(file: &[u8], keys: &[u8]) -> (u64, Report) {
    let (mut capture, mut follower, mut checker) = (Capture::default(), Follower::default(), Checker::default());
    follower.keylog.add(keys);
    capture.feed(file);
    while let Ok(Some(item)) = capture.next() {
        if let Item::Datagram(datagram) = item {
            checker.take(&datagram, &mut follower);
        }
    }
    let report = checker.finish(&mut follower);
    (follower.counts().opened, report)
}

#[test]
fn changed_files() {
    let mut random = Random(11);
    let mut opened = 0;
    for _ in 0..rounds() {
        let mut file = CAPTURE.to_vec();
        for _ in 0..=random.below(6) {
            let at = random.below(file.len());
            match random.below(3) {
                0 => file[at] ^= 1 << random.below(8),
                1 => file[at] = random.byte(),
                _ => file.truncate(at.max(24)),
            }
        }
        opened += checked(&file, KEYS).0;
    }
    assert!(opened > rounds(), "{opened} packets were opened");
}

// A frame of any type with any fields.
fn frame(random: &mut Random, out: &mut Vec<u8>) {
    out.push(random.below(0x32) as u8);
    for _ in 0..random.below(8) {
        match random.below(4) {
            0 | 1 => out.push(random.below(64) as u8),
            2 => out.extend((0x4000 | random.below(1 << 14) as u16).to_be_bytes()),
            _ => out.extend((0xc000_0000_0000_0000 | (u64::MAX >> 2 >> random.below(40))).to_be_bytes()),
        }
    }
}

fn payload(random: &mut Random) -> Vec<u8> {
    let mut payload = Vec::new();
    (0..1 + random.below(6)).for_each(|_| frame(random, &mut payload));
    payload.resize(payload.len().max(4), 0);
    payload
}

#[test]
fn authentic_packets_with_any_contents() {
    let (all, plain, sealer) = (datagrams(), opened(), Sealer::of_capture(1));
    let mut random = Random(12);
    let mut findings = 0;
    for _ in 0..rounds() / 10 {
        let (mut follower, mut checker) = (Follower::default(), Checker::default());
        follower.keylog.add(KEYS);
        let front = random.below(all.len() + 1);
        all[..front].iter().for_each(|kept| checker.take(&kept.datagram(), &mut follower));
        for number in 0..40 {
            let model = &plain[random.below(plain.len())];
            let number = if random.below(4) == 0 { random.below(1 << 31) as u64 } else { 20 + number };
            let bytes = sealer.seal(&Plain { payload: payload(&mut random), number, ..model.clone() });
            let time = 1_000_000 * random.below(3000) as u64;
            let kept = Kept { bytes, record: 100 + number, time, ..all[model.place].clone() };
            checker.take(&kept.datagram(), &mut follower);
        }
        all[front..].iter().for_each(|kept| checker.take(&kept.datagram(), &mut follower));
        findings += checker.finish(&mut follower).findings.len();
    }
    assert!(findings > 0);
}

// How long the datagrams from an index on take: the least of three times, since other programs take time from some.
fn time_from(talk: &Talk, index: usize) -> Duration {
    let time = |_| {
        let (mut follower, mut checker) = (Follower::default(), Checker::default());
        follower.keylog.add(talk.made.key_log().as_bytes());
        let (before, after) = talk.all.split_at(index);
        before.iter().for_each(|kept| checker.take(&kept.datagram(), &mut follower));
        let begun = Instant::now();
        after.iter().for_each(|kept| checker.take(&kept.datagram(), &mut follower));
        begun.elapsed()
    };
    (0..3).map(time).min().unwrap_or_default()
}

// CRYPTO frames without bytes: those of the twelfth packet take about as long as those of the first.
#[test]
fn crypto_frames_without_bytes() {
    let mut talk = Talk::new();
    let frames = [6, 0, 0].repeat(5000);
    talk.send(Client, Initial, &frames);
    let first = time_from(&talk, 0);
    for _ in 0..11 {
        talk.send(Client, Initial, &frames);
    }
    let last = time_from(&talk, 11);
    assert!(last < 4 * first, "the first takes {first:?}, the last {last:?}");
}

// ACKs of a packet that has no HANDSHAKE_DONE, while many have one: it takes about as long as if none had.
#[test]
fn acks_among_many_packets() {
    let with = |dones: u32| {
        let mut talk = Talk::new();
        let hello = talk.client_hello();
        talk.send(Client, Initial, &hello).server_flight().client_flight();
        for number in (1..=dones).map(|number| 2 * number).chain([9000]) {
            let payload = if number == 9000 { talk::PING } else { &[0x1e] };
            talk.sealed(Server, number.into(), PacketNumber::U32(number), 0, payload);
        }
        let index = talk.next();
        for _ in 0..3 {
            talk.short(Client, &[2, 11, 0, 0, 0].repeat(10_000));
        }
        time_from(&talk, index)
    };
    let (without, with) = (with(0), with(4000));
    assert!(with < 8 * without, "{without:?} without them, {with:?} with them");
}
