//! Datagrams that a network card cuts into several of one size (segmentation offload).
mod common;
#[path = "common/made.rs"]
mod made;

use common::{Kept, Rows, follow_with};
use made::{Client, Handshake, Initial, Made, Server, Short, crypto};
use quic_wire_capture::follow::Follower;

const PING: &[u8] = &[1];

// Sides with ids, and without.
fn both() -> [Made; 2] {
    let ids = [[b"client".to_vec(), b"server".to_vec()], [vec![], vec![]]];
    ids.map(|ids| Made { ids, ..Made::new(1) })
}

fn rows_of(made: &Made, datagrams: &[Kept]) -> (Follower, Rows) {
    let numbered: Vec<_> = datagrams.iter().zip(1..).map(|(kept, record)| Kept { record, ..kept.clone() }).collect();
    follow_with(made.key_log().as_bytes(), &numbered)
}

// All packets are opened. Returns how many datagrams are several, and how many these are.
fn all_opened(made: &Made, datagrams: &[Kept], packets: usize) -> (u64, u64) {
    let (follower, rows) = rows_of(made, datagrams);
    assert_eq!((rows.opened(0), &rows.unopened[..], &rows.rests[..]), (packets, &[][..], &[][..]), "{:#?}", rows.rows);
    (follower.counts().offloaded, follower.counts().segments)
}

// How many bytes a packet of the server has besides its payload, of at least four bytes.
fn overhead(made: &Made, kind: quic_wire::datagram::HeaderKind) -> usize {
    made.clone().packet(Server, kind, &[0; 100]).len() - 100
}

#[test]
fn short_packets() {
    for made in both() {
        for size in [700, 1200, 1452] {
            let mut made = made.clone();
            let mut all = made.handshake();
            let len = size - overhead(&made, Short);
            let mut packets: Vec<_> = (0..9).flat_map(|_| made.packet(Server, Short, &vec![0; len])).collect();
            packets.extend(made.packet(Server, Short, &[0; 50]));
            all.push(made.datagram(Server, packets));
            assert_eq!(all_opened(&made, &all, 14), (1, 10), "{size}");
        }
    }
    // All of them are shorter than a datagram usually is.
    let mut made = Made::new(1);
    let mut all = made.handshake();
    let packets = (0..3).flat_map(|_| made.packet(Server, Short, &[0; 30])).collect();
    all.push(made.datagram(Server, packets));
    assert_eq!(all_opened(&made, &all, 7), (1, 3));
}

// The first segment has a Handshake packet before the short one.
#[test]
fn a_long_header_in_front() {
    let mut made = Made::new(1);
    let mut all = made.handshake();
    let mut packets = made.packet(Server, Handshake, &[0; 300]);
    let overhead = overhead(&made, Short);
    packets.extend(made.packet(Server, Short, &vec![0; 1200 - packets.len() - overhead]));
    packets.extend(made.packet(Server, Short, &vec![0; 1200 - overhead]));
    packets.extend(made.packet(Server, Short, PING));
    all.push(made.datagram(Server, packets));
    assert_eq!(all_opened(&made, &all, 8), (1, 3));
}

// The first segments have only a Handshake packet each.
#[test]
fn only_long_headers_in_front() {
    for made in both() {
        for front in [1, 2] {
            let mut made = made.clone();
            let mut all = made.handshake();
            let [long, short] = [Handshake, Short].map(|kind| vec![0; 1200 - overhead(&made, kind)]);
            let mut packets = Vec::new();
            (0..front).for_each(|_| packets.extend(made.packet(Server, Handshake, &long)));
            (0..3).for_each(|_| packets.extend(made.packet(Server, Short, &short)));
            packets.extend(made.packet(Server, Short, &[0; 50]));
            all.push(made.datagram(Server, packets));
            assert_eq!(all_opened(&made, &all, 8 + front), (1, 4 + front as u64), "{front}");
        }
    }
}

// As ngtcp2's server begins: the first segment has a packet of each kind, and the second one so few bytes that both
// have no more than one datagram may have.
#[test]
fn the_first_packets_of_a_server() {
    for made in both() {
        let mut made = made.clone();
        let mut all = vec![made.send(Client, Initial, &crypto(0, &made.client_hello()))];
        let (hello, extensions) = (crypto(0, &made.server_hello()), crypto(0, &made.encrypted_extensions()));
        let mut packets = [made.packet(Server, Initial, &hello), made.packet(Server, Handshake, &extensions)].concat();
        let len = 1200 - packets.len() - overhead(&made, Short);
        packets.extend(made.packet(Server, Short, &vec![0; len]));
        let first = made.datagram(Server, packets.clone());
        assert_eq!(all_opened(&made, &[all[0].clone(), first], 4), (0, 0));
        packets.extend(made.packet(Server, Short, PING));
        all.push(made.datagram(Server, packets));
        assert_eq!(all_opened(&made, &all, 5), (1, 2));
    }
}
