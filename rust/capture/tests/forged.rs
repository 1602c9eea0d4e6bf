//! What no endpoint sent changes nothing: between any two datagrams of a capture others are put, and what is found of
//! the capture's own stays the same. The others are made of datagrams that came before, so packets in them may be
//! authentic.
mod common;
#[path = "common/made.rs"]
mod made;

use common::{KEYS, Kept, Plain, Random, Row, Rows, Sealer, datagrams, follow_with, opened};
use made::{Client, Initial, Made, Server, Short, begun, crypto, eventful};
use quic_wire::datagram::Header;
use quic_wire::packet::VERSION_2;
use quic_wire_capture::ciphers::Suite;
use quic_wire_capture::follow::Follower;
use quic_wire_capture::keys::retry_tag;
use std::time::Instant;

const FORGED: u64 = 1000;

fn own(rows: Rows) -> Vec<Row> {
    rows.rows.into_iter().filter(|row| row.record < FORGED).collect()
}

// Puts, after each datagram in turn, what is made of those before.
fn with_forged(make: impl Fn(&Kept, u64) -> Option<Kept>) {
    with_forged_in(KEYS, &datagrams(), 16, make);
}

fn with_forged_in(keys: &[u8], all: &[Kept], packets: usize, make: impl Fn(&Kept, u64) -> Option<Kept>) {
    compare_with_forged(keys, all, packets, own, make);
}

// The same with only some of what is found.
fn compare_with_forged(
    keys: &[u8],
    all: &[Kept],
    packets: usize,
    own: impl Fn(Rows) -> Vec<Row>,
    make: impl Fn(&Kept, u64) -> Option<Kept>,
) {
    let follow = |all: &[Kept]| follow_with(keys, all).1;
    let expected = own(follow(all));
    assert_eq!(expected.len(), packets);
    for round in 0..all.len() {
        let (before, after) = all.split_at(round + 1);
        let forged = before.iter().zip(0..).filter_map(|(kept, i)| make(kept, round as u64 * 100 + i));
        let forged = forged.map(|kept| Kept { record: FORGED, ..kept });
        let mixed: Vec<_> = before.iter().cloned().chain(forged).chain(after.iter().cloned()).collect();
        assert_eq!(own(follow(&mixed)), expected, "after datagram {}", round + 1);
    }
}

#[test]
fn changed_bits() {
    for place in [0, 1, 3, 5, 6, 9, 17, 25, 40, 60] {
        with_forged(|kept, seed| {
            let mut bytes = kept.bytes.clone();
            *bytes.get_mut(place)? ^= 1 << (seed % 8);
            Some(Kept { bytes, ..kept.clone() })
        });
    }
}

#[test]
fn random_bytes() {
    with_forged(|kept, seed| {
        let mut random = Random(seed);
        let mut bytes = kept.bytes.clone();
        let from = if seed % 2 == 0 { 0 } else { 7.min(bytes.len()) };
        bytes[from..].fill_with(|| random.byte());
        Some(Kept { bytes, ..kept.clone() })
    });
}

// Also from the other side, and from elsewhere.
#[test]
fn other_addresses() {
    with_forged(|kept, _| Some(Kept { from: kept.to, to: kept.from, ..kept.clone() }));
    with_forged(|kept, seed| {
        let mut bytes = kept.bytes.clone();
        *bytes.last_mut()? ^= 1;
        Some(Kept { from: ([10, 0, 0, 1], seed as u16).into(), bytes, ..kept.clone() })
    });
}

#[test]
fn another_version() {
    for version in [VERSION_2, 0, 0x0a0a_0a0a] {
        with_forged(|kept, _| {
            let mut bytes = kept.bytes.clone();
            bytes[0] |= 0x80;
            bytes.get_mut(1..5)?.copy_from_slice(&version.to_be_bytes());
            Some(Kept { bytes, ..kept.clone() })
        });
    }
}

#[test]
fn cut_off() {
    for keep in [1, 5, 7, 20, 30, 50] {
        with_forged(|kept, _| Some(Kept { bytes: kept.bytes.get(..keep)?.to_vec(), ..kept.clone() }));
    }
}

// Retries whose tag is wrong.
#[test]
fn retries() {
    let first = opened()[0].clone();
    with_forged(|kept, _| {
        let mut bytes = vec![0xf0, 0, 0, 0, 1, first.scid.len() as u8];
        bytes.extend_from_slice(&first.scid);
        bytes.extend_from_slice(&[4, 1, 2, 3, 4]);
        bytes.extend_from_slice(&[7; 40]);
        Some(Kept { bytes, from: kept.to, to: kept.from, ..kept.clone() })
    });
}

// Retries whose tag is right: anyone who saw the first packet can make them, and the client may have discarded them.
#[test]
fn retries_of_anyone() {
    let (first, there) = (opened()[0].clone(), datagrams()[0].clone());
    let mut bytes = Vec::new();
    let header = Header::Retry { dst_cid: &first.scid, src_cid: b"nobody", version: 1 };
    header.encode(&mut bytes).unwrap();
    bytes.extend(b"token");
    bytes.extend(retry_tag(1, &first.dcid, &bytes).unwrap());
    with_forged(|kept, _| Some(Kept { bytes: bytes.clone(), from: there.to, to: there.from, ..kept.clone() }));
}

// Initial packets of the server that name another suite: anyone who saw the client's first packet has their keys.
#[test]
fn initial_packets_of_anyone() {
    let is_model = |plain: &Plain| (plain.kind, plain.sender) == (Initial, Server);
    let model = opened().into_iter().find(is_model).unwrap();
    let (all, there) = (datagrams(), datagrams()[0].clone());
    // The server's id is new with whichever packet names it first.
    let kinds = |rows: Rows| {
        let rows = own(rows).into_iter();
        rows.map(|row| Row { text: row.text.split(',').take(1).collect(), ..row }).collect::<Vec<_>>()
    };
    for suite in [Suite::Aes256Gcm, Suite::ChaCha20Poly1305] {
        let payload = crypto(0, &Made { suite, ..Made::new(1) }.server_hello());
        let bytes = Sealer::of_capture(1).seal(&Plain { number: 7, payload, ..model.clone() });
        compare_with_forged(KEYS, &all, 16, kinds, |kept, _| {
            Some(Kept { bytes: bytes.clone(), from: there.to, to: there.from, ..kept.clone() })
        });
    }
}

// Initial packets of the client in another version, which begin another connection of the same ids.
#[test]
fn initial_packets_of_another_version() {
    let (first, there) = (opened()[0].clone(), datagrams()[0].clone());
    let bytes = Sealer::new(VERSION_2, &first.dcid).seal(&Plain { number: 7, ..first });
    with_forged(|kept, _| Some(Kept { bytes: bytes.clone(), from: there.from, to: there.to, ..kept.clone() }));
}

// Connections that anyone began, whose ids are the client's with any further byte. So each packet to it may be one of
// theirs, also if it has no id.
#[test]
fn ids_of_anyone() {
    let one_sided = Made { ids: [vec![], b"server".to_vec()], ..Made::new(1) };
    for made in [Made::new(1), one_sided] {
        let id = made.ids[0].clone();
        let (made, all) = eventful(made);
        let follow = |all: &[Kept]| own(follow_with(made.key_log().as_bytes(), all).1);
        let forged = (0..=255).map(|last| {
            let (first, ids) = (vec![last, 9, 9, 9, 9, 9, 9, 9], [[&id[..], &[last]].concat(), vec![]]);
            let other = Made { original_id: first.clone(), initial_id: first.clone(), ids, ..Made::new(9) };
            let kept = Made { first_dcid: Some(first), ..other }.send(Client, Initial, &[1]);
            Kept { record: FORGED, ..kept }
        });
        let mixed: Vec<_> = all[..1].iter().cloned().chain(forged).chain(all[1..].iter().cloned()).collect();
        let without_connection = |row: Row| Row { connection: None, ..row };
        let [expected, found] = [follow(&all), follow(&mixed)].map(|rows| rows.into_iter().map(without_connection));
        assert_eq!(found.collect::<Vec<_>>(), expected.collect::<Vec<_>>(), "an id of {} bytes", id.len());
    }
}

// Initial packets of other connections between the same addresses, with the same source id.
#[test]
fn other_connections() {
    let first = opened()[0].clone();
    for dcid in [vec![9; 8], vec![1; 18]] {
        let plain = Plain { dcid: dcid.clone(), payload: vec![1; 1150], ..first.clone() };
        let bytes = Sealer::new(1, &dcid).seal(&plain);
        with_forged(|kept, _| Some(Kept { bytes: bytes.clone(), ..kept.clone() }));
    }
}

// Long datagrams that may be several.
#[test]
fn offloaded() {
    with_forged(|kept, seed| {
        let mut random = Random(seed);
        let mut bytes = kept.bytes.clone();
        bytes.resize_with(4000, || random.byte());
        Some(Kept { bytes, ..kept.clone() })
    });
}

// Long datagrams to a client whose ids have no bytes might be cut anywhere. After some in vain only few sizes are tried,
// among them that of datagrams which were cut before.
#[test]
fn offloaded_without_ids() {
    let mut made = Made { ids: [vec![], vec![5; 8]], ..Made::new(1) };
    let mut follower = Follower::default();
    follower.keylog.add(made.key_log().as_bytes());
    let overhead = made.clone().packet(Server, Short, &[0; 100]).len() - 100;
    let segments = |made: &mut Made| {
        let packets = (0..3).flat_map(|_| made.packet(Server, Short, &vec![0; 1200 - overhead])).collect();
        made.datagram(Server, packets)
    };
    let mut all = made.handshake();
    all.push(segments(&mut made));
    all.iter().for_each(|kept| follower.take(&kept.datagram(), &mut ()));
    let mut random = Random(3);
    let forged: Vec<_> = (0..300)
        .map(|_| made.datagram(Server, (0..1501).map(|at| if at == 0 { 0x40 } else { random.byte() }).collect()))
        .collect();
    let mut take_all = |forged: &[Kept]| {
        let begun = Instant::now();
        forged.iter().for_each(|kept| follower.take(&kept.datagram(), &mut ()));
        begun.elapsed()
    };
    let first = take_all(&forged[..16]);
    // The least of several: other programs take time from some.
    let later = forged[16..].chunks_exact(16).map(&mut take_all).min().unwrap_or_default();
    assert!(4 * later < first, "16 took {first:?}, 16 of those after them {later:?}");
    follower.take(&segments(&mut made).datagram(), &mut ());
    assert_eq!((follower.counts().offloaded, follower.counts().segments), (2, 6));
}

#[test]
fn made_connections() {
    let empty = Made { ids: [vec![], vec![]], ..Made::new(1) };
    let one_sided = Made { ids: [vec![], b"server".to_vec()], version: VERSION_2, ..Made::new(1) };
    for (made, all) in [Made::new(1), one_sided, empty].map(eventful) {
        let keys = made.key_log();
        for place in [1, 7] {
            with_forged_in(keys.as_bytes(), &all, 13, |kept, seed| {
                let mut bytes = kept.bytes.clone();
                *bytes.get_mut(place)? ^= 1 << (seed % 8);
                *bytes.last_mut()? ^= 1;
                Some(Kept { bytes, ..kept.clone() })
            });
        }
        // The same packets again, from elsewhere.
        with_forged_in(keys.as_bytes(), &all, 13, |kept, seed| {
            Some(Kept { from: ([10, 9, 9, 9], seed as u16).into(), ..kept.clone() })
        });
    }
}

#[test]
fn connections_that_began_before() {
    let empty = Made { ids: [vec![], vec![]], ..Made::new(1) };
    for ((made, all), packets) in [(begun(Made::new(1)), 13), (begun(empty), 9)] {
        // The key log has connections that the capture doesn't.
        let keys = made.key_log() + &Made::new(2).key_log();
        let with = |make: &dyn Fn(&Kept, u64) -> Option<Kept>| {
            with_forged_in(keys.as_bytes(), &all, packets, make);
        };
        for place in [0, 1, 7] {
            with(&|kept, seed| {
                let mut bytes = kept.bytes.clone();
                *bytes.get_mut(place)? ^= 1 << (seed % 8);
                *bytes.last_mut()? ^= 1;
                Some(Kept { bytes, ..kept.clone() })
            });
        }
        with(&|kept, seed| Some(Kept { from: ([10, 9, 9, 9], seed as u16).into(), ..kept.clone() }));
        with(&|kept, _| Some(Kept { from: kept.to, to: kept.from, ..kept.clone() }));
        with(&|kept, seed| {
            let mut random = Random(seed);
            let bytes = (0..21 + random.below(40)).map(|_| random.byte()).collect();
            Some(Kept { bytes, ..kept.clone() })
        });
    }
}

// Random packets alone begin no connection, whatever their form.
#[test]
fn nothing_begins_by_chance() {
    let keys: String = (1..4).map(|seed| Made::new(seed).key_log()).collect();
    let mut random = Random(5);
    let mut model = Made::new(1);
    let model = model.send(Client, Short, &[0; 40]);
    let all: Vec<_> = (0..100u16)
        .map(|n| {
            let mut bytes: Vec<u8> = (0..21 + random.below(40)).map(|_| random.byte()).collect();
            bytes[0] = [0x40, 0xe0, 0xd0, 0xc0][random.below(4)] | random.below(16) as u8;
            bytes[1..6].copy_from_slice(&[0, 0, 0, 1, 0]);
            Kept { bytes, from: ([10, 0, 0, 1], n / 10).into(), ..model.clone() }
        })
        .collect();
    let (follower, rows) = follow_with(keys.as_bytes(), &all);
    assert_eq!((follower.counts().connections, follower.counts().opened, rows.plain.len()), (0, 0, 0));
}
