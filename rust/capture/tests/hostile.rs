//! What an endpoint could send: authentic packets with any contents. Whatever they say, nothing panics. The variables
//! ROUNDS and CONNECTIONS of the environment make it longer.
mod common;
#[path = "common/made.rs"]
mod made;

use common::{CAPTURE, KEYS, Kept, Plain, Random, Rows, Sealer, datagrams, follow_with, opened};
use made::{Made, Server, Short};
use quic_wire::datagram::HeaderKind;
use quic_wire_capture::capture::{Capture, Item};
use quic_wire_capture::connection::Connection;
use quic_wire_capture::follow::{Follower, MOST_BEGUN, MOST_HELD};
use quic_wire_capture::sink::{Ended, Sink};
use std::time::Instant;

const TYPES: &[u8] = &[
    0, 1, 2, 3, 4, 5, 6, 7, 8, 9, 10, 12, 14, 15, 16, 17, 18, 19, 20, 21, 22, 23, 24, 25, 26, 27, 28, 29, 30, 31, 0x30,
    0x31,
];

// Fields that begin with a frame's type.
fn frame(random: &mut Random, out: &mut Vec<u8>) {
    out.push(TYPES[random.below(TYPES.len())]);
    for _ in 0..random.below(8) {
        match random.below(4) {
            0 | 1 => out.push(random.below(64) as u8),
            2 => out.extend((0x4000 | random.below(1 << 14) as u16).to_be_bytes()),
            _ => out.extend((0xc000_0000_0000_0000 | (u64::MAX >> 2 >> random.below(40))).to_be_bytes()),
        }
    }
}

fn payload(random: &mut Random, model: &Plain) -> Vec<u8> {
    let mut payload = model.payload.clone();
    if random.below(3) == 0 {
        let at = random.below(payload.len());
        payload[at] ^= random.byte();
    } else {
        payload.clear();
        (0..1 + random.below(6)).for_each(|_| frame(random, &mut payload));
        payload.resize(payload.len().max(4), 0);
    }
    payload
}

fn rounds(default: u64) -> u64 {
    std::env::var("ROUNDS").ok().and_then(|text| text.parse().ok()).unwrap_or(default)
}

// Follows a part of the capture, and then packets of any contents. Returns how many of these were opened.
fn round(random: &mut Random, sealer: &Sealer, plain: &[Plain], part: &[Kept]) -> u64 {
    let all = datagrams();
    let (mut follower, mut rows) = (Follower::default(), Rows::default());
    follower.keylog.add(KEYS);
    part.iter().for_each(|kept| follower.take(&kept.datagram(), &mut rows));
    let before = follower.counts().opened;
    for i in 0..20 {
        let model = &plain[random.below(plain.len())];
        let number = if random.below(4) == 0 { random.below(1 << 31) as u64 } else { 20 + i };
        let bytes = sealer.seal(&Plain { payload: payload(random, model), number, ..model.clone() });
        let time = 1_000_000 * random.below(2000) as u64;
        let kept = Kept { bytes, record: 100 + i, time, ..all[model.place].clone() };
        follower.take(&kept.datagram(), &mut rows);
    }
    follower.finish(&mut rows);
    follower.counts().opened - before
}

#[test]
fn any_contents() {
    let (sealer, all, plain) = (Sealer::of_capture(1), datagrams(), opened());
    let rounds = rounds(200);
    let mut random = Random(7);
    let packets: u64 = (0..rounds)
        .map(|_| {
            let cut = random.below(all.len());
            round(&mut random, &sealer, &plain, &all[..=cut])
        })
        .sum();
    assert!(packets > 10 * rounds, "{packets} packets were opened");
}

// The same of connections that began before the capture.
#[test]
fn any_contents_without_a_handshake() {
    let (sealer, all) = (Sealer::of_capture(1), datagrams());
    let plain: Vec<_> = opened().into_iter().filter(|plain| plain.kind != HeaderKind::Initial).collect();
    let rounds = rounds(40);
    let mut random = Random(8);
    let packets: u64 = (0..rounds)
        .map(|_| {
            let begin = 1 + random.below(all.len() - 1);
            let end = begin + random.below(all.len() - begin + 1);
            round(&mut random, &sealer, &plain, &all[begin..end])
        })
        .sum();
    assert!(packets > 5 * rounds, "{packets} packets were opened");
}

// Captures whose bytes, key logs and order of datagrams are changed.
#[test]
fn changed_captures() {
    let rounds = rounds(40);
    let mut random = Random(9);
    let mut opened = 0;
    for _ in 0..rounds {
        let (mut file, mut keys) = (CAPTURE.to_vec(), KEYS.to_vec());
        for _ in 0..random.below(8) {
            let at = random.below(file.len());
            file[at] ^= 1 << random.below(8);
        }
        if random.below(4) == 0 {
            let at = random.below(keys.len());
            keys[at] ^= 1 << random.below(8);
        }
        let (mut capture, mut all) = (Capture::default(), Vec::new());
        capture.feed(&file);
        while let Ok(Some(item)) = capture.next() {
            if let Item::Datagram(datagram) = item {
                all.push(Kept::new(&datagram));
            }
        }
        let count = all.len().max(1);
        all.drain(..random.below(count));
        for _ in 0..random.below(if all.is_empty() { 1 } else { 4 }) {
            let (one, two) = (random.below(all.len()), random.below(all.len()));
            all.swap(one, two);
        }
        let (follower, _) = follow_with(&keys, &all);
        opened += follower.counts().opened;
    }
    assert!(opened > 2 * rounds, "{opened} packets were opened");
}

/// How many connections were forgotten for others.
struct Crowded(usize);

impl Sink for Crowded {
    fn ended(&mut self, _: &Connection, how: Ended) {
        self.0 += usize::from(how == Ended::Crowded);
    }
}

// Messages that never are whole, in pieces of a byte: anyone can begin connections with them. What waits is bounded,
// and a connection whose handshake is under way goes on.
#[test]
fn messages_that_are_not_whole() {
    let (all, first, mut sealer) = (datagrams(), opened()[0].clone(), Sealer::of_capture(1));
    let (mut follower, mut rows, mut crowded) = (Follower::default(), Rows::default(), Crowded(0));
    follower.keylog.add(KEYS);
    let (early, late) = all.split_at(3);
    early.iter().for_each(|kept| follower.take(&kept.datagram(), &mut rows));
    // 3,000 pieces in each packet, of which each counts 64 bytes and more.
    let piece = |offset: u16| [&[6][..], &(0x4000 | offset).to_be_bytes(), &[1, 0]].concat();
    let payload: Vec<u8> = (1..=3000).flat_map(|offset| piece(2 * offset)).collect();
    let count = 5 * MOST_HELD / 4 / (3000 * 64);
    for n in 0..count as u64 {
        let dcid = n.to_be_bytes().to_vec();
        let plain = Plain { dcid: dcid.clone(), payload: payload.clone(), ..first.clone() };
        sealer.first_id = dcid;
        let bytes = sealer.seal(&plain);
        follower.take(&Kept { bytes, record: 1000, ..all[0].clone() }.datagram(), &mut crowded);
    }
    late.iter().for_each(|kept| follower.take(&kept.datagram(), &mut rows));
    assert!(crowded.0 >= count / 4, "{} of {count} connections made room", crowded.0);
    assert_eq!(rows.opened(0), 16);
}

// Connections that anyone can begin don't push out one of the same addresses.
#[test]
fn many_connections() {
    let (all, first, mut sealer) = (datagrams(), opened()[0].clone(), Sealer::of_capture(1));
    let (mut follower, mut rows) = (Follower::default(), Rows::default());
    follower.keylog.add(KEYS);
    let count = std::env::var("CONNECTIONS").ok().and_then(|text| text.parse().ok()).unwrap_or(200u64);
    let (early, late) = all.split_at(6);
    early.iter().for_each(|kept| follower.take(&kept.datagram(), &mut rows));
    for n in 0..count {
        let dcid = n.to_be_bytes().to_vec();
        let plain = Plain { dcid: dcid.clone(), scid: n.to_le_bytes().to_vec(), payload: vec![1; 30], ..first.clone() };
        sealer.first_id = dcid;
        let bytes = sealer.seal(&plain);
        follower.take(&Kept { bytes, record: 1000, ..all[0].clone() }.datagram(), &mut ());
    }
    late.iter().for_each(|kept| follower.take(&kept.datagram(), &mut rows));
    assert_eq!((rows.opened(0), follower.counts().connections as u64), (16, count + 1));
    assert!(follower.connections().count() <= 1 + MOST_BEGUN);
    if let Ok(status) = std::fs::read_to_string("/proc/self/status") {
        println!("{count} connections, {}", status.lines().find(|line| line.starts_with("VmHWM")).unwrap_or(""));
    }
}

// Datagrams that a network card would cut, if a key opened them, between sides whose ids have no bytes: all sizes that
// segments may have are tried on the first ones, and then on few. Segments of the size that is known are cut.
#[test]
fn forged_segments() {
    let mut made = Made { ids: [Vec::new(), Vec::new()], ..Made::new(1) };
    let (mut follower, all) = (Follower::default(), made.handshake());
    follower.keylog.add(made.key_log().as_bytes());
    all.iter().for_each(|kept| follower.take(&kept.datagram(), &mut ()));
    let mut segments = || {
        let packets: Vec<_> =
            [1200, 1200, 300].iter().flat_map(|len| made.packet(Server, Short, &vec![0; *len])).collect();
        made.datagram(Server, packets)
    };
    follower.take(&segments().datagram(), &mut ());
    let forged = Kept { bytes: [&[0x40][..], &[7; 1600]].concat(), ..all[1].clone() };
    let mut time = |count: usize| {
        let begun = Instant::now();
        (0..count).for_each(|_| follower.take(&forged.datagram(), &mut ()));
        begun.elapsed()
    };
    let first = time(8);
    // The least of several: other programs take time from some.
    let later = (0..20).map(|_| time(8)).min().unwrap_or_default();
    assert!(2 * later < first, "{later:?}, after {first:?} for as many");
    follower.take(&segments().datagram(), &mut ());
    assert_eq!((follower.counts().offloaded, follower.counts().segments), (2, 6));
}
