//! Connections that began before the capture: their packets are made with secrets of the key log, and nothing of their
//! handshake is captured.
mod common;
#[path = "common/made.rs"]
mod made;

use common::{Kept, Row, Rows, follow_with};
use made::{Client, Handshake, Initial, Made, Server, Short, ZeroRtt, crypto};
use quic_wire::packet::VERSION_2;
use quic_wire_capture::ciphers::Suite;
use quic_wire_capture::follow::{Follower, MOST_TRIALS};
use quic_wire_capture::sink::Unopened;

const PING: &[u8] = &[1];

// A connection whose handshake was before the capture.
fn begun(mut made: Made, numbers: [u64; 2]) -> Made {
    made.first_dcid = None;
    made.numbers = numbers.map(|number| [1, 1, number]);
    made
}

fn rows_of(keys: &str, datagrams: &[Kept]) -> (Follower, Rows) {
    let numbered: Vec<_> = datagrams.iter().zip(1..).map(|(kept, record)| Kept { record, ..kept.clone() }).collect();
    follow_with(keys.as_bytes(), &numbered)
}

fn numbers(rows: &Rows) -> Vec<u64> {
    rows.rows.iter().filter_map(|row: &Row| row.number).collect()
}

// All packets are of one connection, which began before the capture.
fn all_opened(keys: &str, all: &[Kept], expected: &[u64]) -> Follower {
    let (follower, rows) = rows_of(keys, all);
    assert_eq!((numbers(&rows), &rows.unopened[..]), (expected.to_vec(), &[][..]), "{:#?}", rows.rows);
    assert!(follower.connections().all(|connection| connection.began_before()));
    assert_eq!((follower.counts().connections, follower.counts().began_before), (1, 1));
    follower
}

#[test]
fn packets_of_both_sides() {
    for (suite, version) in Suite::ALL.into_iter().flat_map(|suite| [(suite, 1), (suite, VERSION_2)]) {
        for [client, server] in [[0, 0], [4, 20], [20, 8], [8, 0]] {
            let ids = [vec![0x5a; client], vec![0xa5; server]];
            for first in [Client, Server] {
                let mut made = begun(Made { suite, version, ids: ids.clone(), ..Made::new(1) }, [40, 7]);
                let all: Vec<_> = [first, !first, first, !first].map(|side| made.send(side, Short, PING)).into();
                let expected = if first == Client { [40, 7, 41, 8] } else { [7, 40, 8, 41] };
                let follower = all_opened(&made.key_log(), &all, &expected);
                let connection = follower.connections().next().unwrap();
                assert_eq!((connection.version(), connection.suite()), (version, Some(suite.number())));
                assert_eq!(connection.random(), Some(&[1; 32]));
                assert!(connection.first_dcid().is_empty());
            }
        }
    }
}

// Numbers of one byte: the rest of them must be found.
#[test]
fn great_numbers() {
    for (number, missed) in [(1000, 0), (20_000, 1), (1_000_000, 6)] {
        let mut made = begun(Made::new(1), [number, 0]);
        let all: Vec<_> = (0..10).map(|_| made.send(Client, Short, PING)).collect();
        let (_, rows) = rows_of(&made.key_log(), &all);
        let found = numbers(&rows);
        assert!(found.len() >= 10 - missed, "{number}: {found:?}");
        assert_eq!(found, ((number + 10 - found.len() as u64)..number + 10).collect::<Vec<_>>());
        assert!(rows.unopened.iter().all(|why| *why == Unopened::NoConnection));
    }
}

// 16 trials for each datagram are those that it takes to choose keys, so none are left to try them.
#[test]
fn limited_trials() {
    let mut made = begun(Made::new(1), [40, 7]);
    let all: Vec<_> = (0..20).map(|_| made.send(Client, Short, PING)).collect();
    for (trials, connections) in [(0, 0), (MOST_TRIALS, 1)] {
        let mut follower = Follower::default();
        follower.limit_trials(trials);
        follower.keylog.add(made.key_log().as_bytes());
        all.iter().for_each(|kept| follower.take(&kept.datagram(), &mut ()));
        assert_eq!(follower.counts().connections, connections, "{trials} trials");
    }
}

// An ACK of the other side says which number a packet has.
#[test]
fn numbers_by_acknowledgments() {
    let mut made = begun(Made::new(1), [5, 1 << 40]);
    let ack = [&[2, 0xc0, 0, 1, 0, 0, 0, 0, 0][..], &[0, 0, 0]].concat();
    let mut all = vec![made.send(Client, Short, &ack), made.send(Server, Short, PING), made.send(Server, Short, PING)];
    all_opened(&made.key_log(), &all, &[5, 1 << 40, (1 << 40) + 1]);
    // Packets that aren't in the capture.
    made.numbers[1][2] = 1 << 41;
    let ack = [&[2, 0xc0, 0, 2, 0, 0, 0, 0, 0][..], &[0, 0, 0]].concat();
    all.extend([made.send(Client, Short, &ack), made.send(Server, Short, PING)]);
    all_opened(&made.key_log(), &all, &[5, 1 << 40, (1 << 40) + 1, 6, 1 << 41]);
}

#[test]
fn updated_keys() {
    for updates in 0..8 {
        let mut made = begun(Made { updates: [updates, updates], ..Made::new(1) }, [3, 4]);
        let mut all: Vec<_> = (0..4).map(|_| made.send(Server, Short, PING)).collect();
        made.updates = made.updates.map(|updates| updates + 1);
        all.extend((0..2).map(|_| made.send(Server, Short, PING)));
        all_opened(&made.key_log(), &all, &[4, 5, 6, 7, 8, 9]);
    }
}

// The first packet is one of the handshake.
#[test]
fn in_the_handshake() {
    let mut made = Made::new(1);
    let mut all = made.handshake();
    all.extend([made.send(Server, Short, PING), made.send(Client, Short, PING)]);
    all.push(made.send(Client, Initial, PING));
    let (follower, rows) = rows_of(&made.key_log(), &all[1..]);
    assert_eq!(rows.unopened, [Unopened::NoConnection, Unopened::NoFirstId]);
    assert_eq!((rows.opened(0), follower.counts().began_before), (4, 1));
    let connection = follower.connections().next().unwrap();
    assert_eq!(connection.end(Client).ids().next().map(|(_, id, _)| &id[..]), Some(&made.ids[0][..]));
    assert!(connection.end(Server).parameters().is_some());
}

// 0-RTT packets wait, and then they are tried.
#[test]
fn early_data() {
    let mut made = Made::new(1);
    let early: Vec<_> = (0..3).map(|_| made.send(Client, ZeroRtt, PING)).collect();
    all_opened(&made.key_log(), &early, &[0, 1, 2]);
    made.first_dcid = None;
    let all = [early, vec![made.send(Client, Short, PING), made.send(Server, Short, PING)]].concat();
    all_opened(&made.key_log(), &all, &[3, 0, 0, 1, 2]);
    // The Initial packet comes.
    let mut made = Made::new(1);
    let early: Vec<_> = (0..3).map(|_| made.send(Client, ZeroRtt, PING)).collect();
    let hello = crypto(0, &made.client_hello());
    let all = [early, vec![made.send(Client, Initial, &hello)]].concat();
    let (follower, rows) = rows_of(&made.key_log(), &all);
    assert_eq!((numbers(&rows), follower.counts().began_before), (vec![0, 0, 1, 2], 0));
}

// Ids that were given before the capture, on the same path and on another.
#[test]
fn other_ids_and_addresses() {
    let mut made = begun(Made::new(1), [40, 7]);
    let mut all = vec![made.send(Client, Short, PING), made.send(Server, Short, PING)];
    made.ids = [b"client's second".to_vec(), b"server's second".to_vec()];
    all.extend([made.send(Client, Short, PING), made.send(Server, Short, PING)]);
    made.addresses[0] = ([192, 0, 2, 1], 5).into();
    made.ids[1] = b"its third".to_vec();
    all.extend([made.send(Client, Short, PING), made.send(Server, Short, PING)]);
    all_opened(&made.key_log(), &all, &[40, 7, 41, 8, 42, 9]);
}

// Several between the same addresses, in a log of many.
#[test]
fn several_connections() {
    let mut all = Vec::new();
    let mut made: Vec<_> = (1..4).map(|seed| begun(Made::new(seed), [90, 80])).collect();
    let addresses = made[0].addresses;
    made.iter_mut().for_each(|made| made.addresses = addresses);
    for _ in 0..6 {
        all.extend(made.iter_mut().flat_map(|made| [made.send(Client, Short, PING), made.send(Server, Short, PING)]));
    }
    let keys: String = (0..20).map(|seed| Made::new(seed).key_log()).collect();
    let (follower, rows) = rows_of(&keys, &all);
    assert_eq!((follower.counts().connections, follower.counts().began_before), (3, 3));
    assert!(numbers(&rows).len() >= all.len() - 6, "{:#?}", rows.rows);
    for connection in follower.connections() {
        assert!(rows.opened(connection.number()) >= 10);
    }
}

// What isn't of the key log opens nothing, and ends.
#[test]
fn other_secrets() {
    let mut made = begun(Made::new(1), [40, 7]);
    let all: Vec<_> = (0..30).map(|_| made.send(Client, Short, PING)).collect();
    let keys: String = (2..6).map(|seed| Made::new(seed).key_log()).collect();
    for keys in ["", &keys] {
        let (follower, rows) = rows_of(keys, &all);
        assert_eq!((rows.unopened, follower.counts().connections), (vec![Unopened::NoConnection; 30], 0));
    }
}

// The key log may still grow.
#[test]
fn a_growing_key_log() {
    let mut made = begun(Made::new(1), [40, 7]);
    let (mut follower, mut rows) = (Follower::default(), Rows::default());
    follower.keylog.add(Made::new(2).key_log().as_bytes());
    for _ in 0..30 {
        follower.take(&made.send(Client, Short, PING).datagram(), &mut rows);
    }
    follower.keylog.add(made.key_log().as_bytes());
    follower.take(&made.send(Client, Short, PING).datagram(), &mut rows);
    assert_eq!((rows.unopened.len(), numbers(&rows)), (30, vec![70]));
}

// The secrets of connections that the capture has otherwise aren't tried.
#[test]
fn connections_that_ended() {
    let mut made = Made::new(1);
    let mut all = made.handshake();
    all.push(made.send(Client, Handshake, &[0x1c, 0, 0, 0]));
    made.time += 11_000_000_000;
    let other: Vec<_> = (0..1100).map(|_| made.send(Client, Short, PING)).collect();
    all.extend(other);
    let (follower, rows) = rows_of(&made.key_log(), &all);
    assert_eq!((rows.ended.len(), rows.unopened.len(), follower.counts().began_before), (1, 1100, 0));
}

// A secret comes after more packets than a number of one byte can count.
#[test]
fn secrets_that_come_late() {
    let mut made = Made::new(1);
    let (mut follower, mut rows) = (Follower::default(), Rows::default());
    let keys = made.key_log();
    let (handshake, traffic): (Vec<_>, Vec<_>) = keys.lines().partition(|line| !line.contains("_TRAFFIC_SECRET_0"));
    follower.keylog.add(handshake.join("\n").as_bytes());
    made.handshake().iter().for_each(|kept| follower.take(&kept.datagram(), &mut rows));
    (0..1000).for_each(|_| follower.take(&made.send(Server, Short, PING).datagram(), &mut rows));
    assert_eq!((rows.opened(0), &rows.unopened[..]), (4, &[Unopened::NoSecret; 1000][..]));
    follower.keylog.add(traffic.join("\n").as_bytes());
    (0..3).for_each(|_| follower.take(&made.send(Server, Short, PING).datagram(), &mut rows));
    assert_eq!((rows.opened(0), follower.counts().connections), (7, 1));
    assert_eq!(numbers(&rows)[4..], [1000, 1001, 1002]);
}

// The server's packets are ones that a network card cuts; the client's say which numbers they have.
#[test]
fn segmentation_offload() {
    for ids in [[vec![0xc1; 5], vec![0xd1; 8]], [vec![], vec![]]] {
        let mut made = begun(Made { ids, ..Made::new(1) }, [5, 1000]);
        let mut all = vec![made.send(Client, Short, &[2, 0x43, 0xe7, 0, 0, 0])];
        for _ in 0..2 {
            let overhead = made.clone().packet(Server, Short, &[0; 100]).len() - 100;
            let mut packets: Vec<_> =
                (0..4).flat_map(|_| made.packet(Server, Short, &vec![0; 1200 - overhead])).collect();
            packets.extend(made.packet(Server, Short, &[0; 50]));
            all.push(made.datagram(Server, packets));
        }
        let expected: Vec<u64> = std::iter::once(5).chain(1000..1010).collect();
        let follower = all_opened(&made.key_log(), &all, &expected);
        assert_eq!((follower.counts().offloaded, follower.counts().segments), (2, 10));
    }
}
