//! Whose packets are, whatever happens on the way: connections are made packet by packet.
mod common;
#[path = "common/made.rs"]
mod made;

use common::{Kept, Rows, follow_with};
use made::{Client, Handshake, Initial, Made, Server, Short, ZeroRtt, crypto, frame};
use quic_wire::datagram::VersionNegotiation;
use quic_wire::frame::{Frame, NewConnectionId};
use quic_wire::packet::VERSION_2;
use quic_wire::{ConnectionId, Side};
use quic_wire_capture::capture::Datagram;
use quic_wire_capture::ciphers::Suite;
use quic_wire_capture::connection::Connection;
use quic_wire_capture::follow::Follower;
use quic_wire_capture::sink::{Ended, Event, Rest, Sink, Unopened};

const PING: &[u8] = &[1];

fn rows_of(made: &[&Made], datagrams: &[Kept]) -> (Follower, Rows) {
    let keys: String = made.iter().map(|made| made.key_log()).collect();
    let numbered: Vec<_> = datagrams.iter().zip(1..).map(|(kept, record)| Kept { record, ..kept.clone() }).collect();
    follow_with(keys.as_bytes(), &numbered)
}

// All packets are opened.
fn all_opened(made: &Made, datagrams: &[Kept], packets: usize) -> Rows {
    let (follower, rows) = rows_of(&[made], datagrams);
    assert_eq!((rows.opened(0), &rows.unopened[..], &rows.rests[..]), (packets, &[][..], &[][..]), "{:#?}", rows.rows);
    assert_eq!(follower.counts().connections, 1);
    rows
}

fn new_id(sequence: u64, id: &[u8], token: [u8; 16]) -> Vec<u8> {
    let (id, reset_token) = (ConnectionId::new(id), token.into());
    frame(&Frame::NewConnectionId(NewConnectionId { sequence, retire_prior_to: 0, id, reset_token }))
}

#[test]
fn suites_and_versions() {
    for (suite, version) in Suite::ALL.into_iter().flat_map(|suite| [(suite, 1), (suite, VERSION_2)]) {
        let mut made = Made { suite, version, ..Made::new(1) };
        let mut all = made.handshake();
        all.extend([made.send(Server, Short, PING), made.send(Client, Short, PING)]);
        all_opened(&made, &all, 6);
    }
}

#[test]
fn a_clear_fixed_bit() {
    let mut made = Made { clear_fixed_bit: true, ..Made::new(1) };
    let mut all = made.handshake();
    all.push(made.send(Client, Short, PING));
    all_opened(&made, &all, 5);
}

#[test]
fn retry() {
    let mut made = Made::new(1);
    let hello = crypto(0, &made.client_hello());
    let mut all = vec![made.send(Client, Initial, &hello), made.retry(b"retried"), made.send(Client, Initial, &hello)];
    all.extend(made.handshake_of_server());
    all.extend([made.send(Server, Short, PING), made.retry(b"too late")]);
    // The client's first packet comes again, and belongs to the same connection.
    all.push(all[0].clone());
    let (follower, rows) = rows_of(&[&made], &all);
    assert_eq!((rows.opened(0), &rows.unopened[..]), (7, &[Unopened::Retry, Unopened::InvalidRetry][..]));
    assert_eq!(follower.counts().connections, 1);
    assert_eq!(follower.connections().next().unwrap().retry_id().unwrap()[..], *b"retried");
}

// A server without a state answers each Initial packet with a Retry, of another id each time. The client takes one, and
// the others may have been lost.
#[test]
fn retries_of_several_ids() {
    let ids: [&[u8]; 3] = [b"first", b"second", b"third"];
    for taken in 0..ids.len() {
        let mut made = Made::new(1);
        let hello = crypto(0, &made.client_hello());
        let mut all = vec![made.send(Client, Initial, &hello)];
        for (place, id) in ids.iter().enumerate() {
            all.push(if place == taken { made.retry(id) } else { made.clone().retry(id) });
        }
        all.push(made.send(Client, Initial, &hello));
        all.extend(made.handshake_of_server());
        all.extend([made.send(Server, Short, PING), made.send(Client, Short, PING)]);
        let (follower, rows) = rows_of(&[&made], &all);
        assert_eq!((rows.opened(0), &rows.unopened[..]), (7, &[Unopened::Retry; 3][..]), "{taken}: {:#?}", rows.rows);
        assert_eq!(follower.counts().connections, 1);
        assert_eq!(follower.connections().next().unwrap().retry_id().unwrap()[..], *ids[taken]);
    }
}

// The connection seems to begin twice, with the same ids and the same ClientHello. The server's packets are of the one
// that it has answered.
#[test]
fn a_retry_that_is_missing() {
    let mut made = Made::new(1);
    let hello = crypto(0, &made.client_hello());
    let mut all = vec![made.send(Client, Initial, &hello)];
    made.retry(b"retried");
    all.push(made.send(Client, Initial, &hello));
    let (hello, extensions) = (crypto(0, &made.server_hello()), crypto(0, &made.encrypted_extensions()));
    all.extend([made.send(Server, Initial, &hello), made.send(Server, Handshake, &extensions)]);
    made.first_dcid = None;
    all.extend([made.send(Client, Handshake, PING), made.send(Server, Short, PING), made.send(Client, Short, PING)]);
    let (_, rows) = rows_of(&[&made], &all);
    assert_eq!((rows.opened(0), rows.opened(1), &rows.unopened[..]), (1, 6, &[][..]), "{:#?}", rows.rows);
}

// Another ClientHello, of which the key log has the secrets; one that anyone has sent doesn't matter.
#[test]
fn another_hello_after_a_retry() {
    let (mut made, other) = (Made::new(1), Made { salt: 1, ..Made::new(1) });
    let [first, second] = [&made, &other].map(|made| crypto(0, &made.client_hello()));
    let mut all = vec![made.send(Client, Initial, &first), made.retry(b"retried")];
    let rest = |mut made: Made, all: &[Kept]| {
        let mut all = all.to_vec();
        all.push(made.send(Client, Initial, &second));
        all.extend(made.handshake_of_server());
        all.extend([made.send(Server, Short, PING), made.send(Client, Short, PING)]);
        rows_of(&[&made], &all).1
    };
    let rows = rest(Made { salt: 1, ..made.clone() }, &all);
    assert_eq!((rows.opened(0), &rows.unopened[..]), (7, &[Unopened::Retry][..]), "{:#?}", rows.rows);
    all.push(made.send(Client, Initial, &first));
    let rows = rest(made, &all);
    assert_eq!((rows.opened(0), &rows.unopened[..]), (8, &[Unopened::Retry][..]), "{:#?}", rows.rows);
}

// A server may answer in version 2 (RFC 9369, section 4.1).
#[test]
fn another_version_after_the_first_packet() {
    let mut made = Made::new(1);
    let hello = crypto(0, &made.client_hello());
    let first = made.send(Client, Initial, &hello);
    made.version = VERSION_2;
    let mut all = vec![first.clone()];
    all.extend(made.handshake_of_server());
    all.extend([first, made.send(Client, Short, PING)]);
    all_opened(&made, &all, 6);
}

fn negotiation(made: &mut Made) -> Kept {
    let mut packet = Vec::new();
    let (dst_cid, src_cid) = (&made.ids[0][..], &made.initial_id[..]);
    VersionNegotiation { random: 0, dst_cid, src_cid, versions: &[1] }.encode(&mut packet).unwrap();
    made.datagram(Server, packet)
}

#[test]
fn version_negotiation() {
    let mut made = Made { version: 0x0a1a_2a3a, ..Made::new(1) };
    let unknown = made.send(Client, Initial, &[0; 30]);
    let negotiation = negotiation(&mut made);
    made.version = 1;
    let mut all = vec![unknown, negotiation];
    all.extend(made.handshake());
    let (_, rows) = rows_of(&[&made], &all);
    assert_eq!((rows.opened(0), &rows.unopened[..]), (4, &[Unopened::VersionNegotiation][..]));
    assert_eq!(rows.rests, [Rest::Version(0x0a1a_2a3a)]);
}

// A client that begins anew in another version may keep its ids and begin its numbers again (RFC 9000, section 6.2).
// That is another connection.
#[test]
fn another_attempt_after_a_version_negotiation() {
    for has_retry in [false, true] {
        let mut first = Made { version: VERSION_2, ..Made::new(1) };
        let hello = crypto(0, &first.client_hello());
        let mut all = vec![first.send(Client, Initial, &hello), first.send(Client, Initial, &hello)];
        all.push(negotiation(&mut first));
        let mut second = Made { salt: 1, time: first.time, ..Made::new(1) };
        let hello = crypto(0, &second.client_hello());
        let mut unopened = vec![Unopened::VersionNegotiation];
        if has_retry {
            all.extend([second.send(Client, Initial, &hello), second.retry(b"retried")]);
            unopened.push(Unopened::Retry);
        }
        all.push(second.send(Client, Initial, &hello));
        all.extend(second.handshake_of_server());
        all.extend([second.send(Server, Short, PING), second.send(Client, Short, PING)]);
        // A packet of the first attempt comes late.
        all.push(all[1].clone());
        let (_, rows) = rows_of(&[&second], &all);
        let found = (rows.opened(0), rows.opened(1), rows.unopened);
        assert_eq!(found, (3, 6 + usize::from(has_retry), unopened), "{:#?}", rows.rows);
    }
}

#[test]
fn early_data() {
    // After the ClientHello; before it; between the two parts of it.
    let mut made = Made::new(1);
    let hello = made.client_hello();
    let (front, back) = hello.split_at(20);
    let early: Vec<_> = (0..3).map(|_| made.send(Client, ZeroRtt, PING)).collect();
    let parts = [crypto(0, front), crypto(20, back)].map(|part| made.send(Client, Initial, &part));
    let later = made.handshake_of_server();
    for places in [[2, 2, 2], [0, 0, 0], [1, 1, 1], [0, 1, 2]] {
        let mut all: Vec<_> = parts.to_vec();
        places.iter().zip(&early).rev().for_each(|(place, kept)| all.insert(*place, kept.clone()));
        all.extend(later.clone());
        all_opened(&made, &all, 8);
    }
    let other = Made::new(2);
    let (_, rows) = rows_of(&[&other], &early);
    assert_eq!(rows.unopened, [Unopened::NoInitial; 3]);
    let (_, rows) = rows_of(&[&other], &vec![early[0].clone(); 100]);
    assert_eq!(rows.unopened, [Unopened::NoInitial; 100]);
}

#[test]
fn key_updates() {
    let mut made = Made::new(1);
    let mut all = made.handshake();
    let late = made.send(Client, Short, PING);
    for _ in 0..3 {
        made.updates = made.updates.map(|updates| updates + 1);
        all.extend([made.send(Client, Short, PING), made.send(Server, Short, PING)]);
        all.extend([made.send(Client, Short, PING), made.send(Server, Short, PING)]);
        if made.updates == [1, 1] {
            all.push(late.clone());
        }
    }
    all_opened(&made, &all, 17);
    let mut counts = Counts(Vec::new());
    let mut follower = Follower::default();
    follower.keylog.add(made.key_log().as_bytes());
    all.iter().for_each(|kept| follower.take(&kept.datagram(), &mut counts));
    assert_eq!(counts.0, [1, 1, 1, 1, 0, 2, 2, 2, 2, 3, 3, 3, 3]);
}

// The packets with its first keys aren't in the capture.
#[test]
fn key_updates_that_are_missing() {
    let mut made = Made::new(1);
    let mut all = made.handshake();
    made.updates = [3, 0];
    all.extend([made.send(Client, Short, PING), made.send(Client, Short, PING)]);
    made.updates = [4, 0];
    all.push(made.send(Client, Short, PING));
    let mut counts = Counts(Vec::new());
    let mut follower = Follower::default();
    follower.keylog.add(made.key_log().as_bytes());
    all.iter().for_each(|kept| follower.take(&kept.datagram(), &mut counts));
    assert_eq!(counts.0, [3, 3, 4]);
}

/// How often the keys of each 1-RTT packet had been updated.
struct Counts(Vec<u64>);

impl Sink for Counts {
    fn opened(&mut self, _: &Connection, _: &Datagram<'_>, _: u64, event: &Event<'_>) {
        match event {
            Event::Packet(opened) if opened.kind() == Short => self.0.push(opened.updates()),
            _ => {}
        }
    }
}

#[test]
fn other_addresses_and_ids() {
    let mut made = Made::new(1);
    let mut all = made.handshake();
    all.push(made.send(Server, Short, &new_id(1, b"second id", [7; 16])));
    made.addresses[0] = ([192, 0, 2, 1], 5).into();
    all.extend([made.send(Client, Short, PING), made.send(Server, Short, PING)]);
    made.addresses[0] = ([192, 0, 2, 2], 6).into();
    made.ids[1] = b"second id".to_vec();
    all.extend([made.send(Client, Short, PING), made.send(Server, Short, PING)]);
    all_opened(&made, &all, 9);
}

// Ids without bytes: addresses say whose packets are.
#[test]
fn empty_ids() {
    let mut made = Made { ids: [vec![], vec![]], ..Made::new(1) };
    let mut all = made.handshake();
    all.extend([made.send(Client, Short, PING), made.send(Server, Short, PING)]);
    all_opened(&made, &all, 6);
    // The client's address changes, but the server's id is known.
    let mut made = Made { ids: [vec![], b"server".to_vec()], ..Made::new(1) };
    let mut all = made.handshake();
    made.addresses[0] = ([192, 0, 2, 1], 5).into();
    all.extend([made.send(Client, Short, PING), made.send(Server, Short, PING)]);
    all_opened(&made, &all, 6);
}

#[test]
fn several_at_once_and_ports_used_again() {
    for ids in [None, Some([vec![], vec![]])] {
        let (mut one, mut two) = (Made::new(1), Made::new(2));
        two.addresses = one.addresses;
        if let Some(ids) = ids {
            (one.ids, two.ids) = (ids.clone(), ids);
        }
        let (first, second) = (one.handshake(), two.handshake());
        let mut all: Vec<_> = first.into_iter().zip(second).flat_map(|(a, b)| [a, b]).collect();
        for _ in 0..3 {
            all.extend([one.send(Client, Short, PING), two.send(Client, Short, PING)]);
            all.extend([two.send(Server, Short, PING), one.send(Server, Short, PING)]);
        }
        let (_, rows) = rows_of(&[&one, &two], &all);
        assert_eq!((rows.opened(0), rows.opened(1), rows.unopened.len()), (10, 10, 0));
    }
}

#[test]
fn what_follows_packets() {
    let mut made = Made::new(1);
    let hello = crypto(0, &made.client_hello());
    let mut first = made.send(Client, Initial, &hello);
    first.bytes.extend([0; 500]);
    let mut all = vec![first];
    all.extend(made.handshake_of_server());
    let mut packet = made.packet(Client, Handshake, PING);
    packet.extend(made.packet(Client, Short, PING));
    all.push(made.datagram(Client, packet));
    let mut packet = made.packet(Client, Handshake, PING);
    packet.extend([0x47; 50]);
    all.push(made.datagram(Client, packet));
    let (_, rows) = rows_of(&[&made], &all);
    assert_eq!((rows.opened(0), &rows.rests[..]), (7, &[Rest::Zeros, Rest::OtherId][..]));
    assert_eq!(rows.unopened, []);
}

#[test]
fn stateless_resets() {
    let mut made = Made::new(1);
    let mut all = made.handshake();
    all.push(made.send(Client, Short, &new_id(1, b"second id", [7; 16])));
    let reset = |token: [u8; 16]| [&[0x4a; 30][..], &token].concat();
    let wrong = made.datagram(Server, reset([7; 16]));
    let (_, rows) = rows_of(&[&made], &[all.clone(), vec![wrong]].concat());
    assert_eq!(rows.unopened, [Unopened::NoConnection]);
    for (side, token) in [(Server, [made.seed ^ 0xee; 16]), (Client, [7; 16])] {
        let kept = made.datagram(side, reset(token));
        let (follower, rows) = rows_of(&[&made], &[all.clone(), vec![kept]].concat());
        assert_eq!(rows.unopened, [Unopened::StatelessReset]);
        let connection = follower.connections().next().unwrap();
        let (_, last) = connection.times();
        assert_eq!(connection.ended(last + 20_000_000_000), Some(Ended::Reset));
    }
}

// A close in an Initial packet that anyone has made who saw the client's first one: the server goes on.
#[test]
fn a_close_of_anyone() {
    let mut made = Made::new(1);
    let mut all = made.handshake();
    all.insert(1, made.clone().send(Server, Initial, &[0x1c, 0, 0, 0]));
    made.time += 20_000_000_000;
    all.push(made.send(Client, Short, PING));
    let (follower, rows) = rows_of(&[&made], &all);
    assert_eq!((rows.opened(0), &rows.unopened[..]), (6, &[][..]));
    assert!(follower.connections().next().unwrap().end(Server).closed().is_none());
}

#[test]
fn reasons() {
    let mut made = Made::new(1);
    let hello = crypto(0, &made.client_hello());
    let mut all = made.handshake();
    all.extend([made.send(Client, Short, PING), made.send(Server, Short, PING)]);
    let why = |keys: &[u8], all: &[Kept]| follow_with(keys, all).1.unopened;
    let keys = made.key_log();
    // It began before the capture, and the key log is another's.
    assert_eq!(why(Made::new(2).key_log().as_bytes(), &all[1..]), [Unopened::NoConnection; 5]);
    assert_eq!(why(b"", &all), [Unopened::NoSecret; 4]);
    // The ClientHello isn't whole.
    let mut other = Made::new(1);
    let mut cut = vec![other.send(Client, Initial, &hello[..20])];
    cut.extend_from_slice(&all[1..]);
    assert_eq!(why(keys.as_bytes(), &cut), [Unopened::NoClientHello; 4]);
    // A suite that isn't known: TLS_AES_128_CCM_SHA256.
    let mut other = Made::new(1);
    let (client, mut server) = (crypto(0, &other.client_hello()), other.server_hello());
    server[39..41].copy_from_slice(&[0x13, 0x04]);
    let unknown = [other.send(Client, Initial, &client), other.send(Server, Initial, &crypto(0, &server))];
    assert_eq!(why(keys.as_bytes(), &[&unknown[..], &all[2..]].concat()), [Unopened::UnknownSuite; 3]);
    // The tag is wrong.
    let mut wrong = all.clone();
    *wrong[4].bytes.last_mut().unwrap() ^= 1;
    assert_eq!(why(keys.as_bytes(), &wrong), [Unopened::WrongTag]);
    // A part wasn't captured.
    let (mut follower, mut rows) = (Follower::default(), Rows::default());
    follower.keylog.add(keys.as_bytes());
    for kept in &all {
        let (front, back) = kept.bytes.split_at(kept.bytes.len() - 3);
        follower.take(&Datagram { bytes: front, missing: back.len(), ..kept.datagram() }, &mut rows);
    }
    assert_eq!(rows.rests, [Rest::NotCaptured; 3]);
    assert_eq!(rows.unopened, [Unopened::NoConnection, Unopened::NotCaptured, Unopened::NotCaptured]);
}

// Secrets may come later, as long as they come before the packets.
#[test]
fn a_growing_key_log() {
    let mut made = Made::new(1);
    let mut all = made.handshake();
    all.push(made.send(Client, Short, PING));
    let (mut follower, mut rows) = (Follower::default(), Rows::default());
    for (kept, line) in all.iter().zip(["", "", "", &made.key_log()]) {
        follower.keylog.add(line.as_bytes());
        follower.take(&kept.datagram(), &mut rows);
    }
    assert_eq!((rows.opened(0), rows.unopened), (3, vec![Unopened::NoSecret; 2]));
}

// A frame that a packet may not carry changes nothing.
#[test]
fn forbidden_frames() {
    let mut made = Made::new(1);
    let mut all = made.handshake();
    all.push(made.send(Server, Handshake, &new_id(1, b"second id", [7; 16])));
    made.ids[1] = b"second id".to_vec();
    all.push(made.send(Client, Short, PING));
    let (follower, rows) = rows_of(&[&made], &all);
    assert!(rows.rows[4].text.contains("Err(Packet)"), "{:?}", rows.rows[4]);
    assert_eq!(rows.unopened, [Unopened::NoConnection]);
    assert_eq!(follower.connections().next().unwrap().end(Side::Server).ids().count(), 1);
}

#[test]
fn packets_that_come_again() {
    let mut made = Made::new(1);
    let mut all = made.handshake();
    all.push(made.send(Client, Short, PING));
    all.push(all[3].clone());
    let (_, rows) = rows_of(&[&made], &all);
    assert!(rows.rows[5].text.contains("again Some(4)"), "{}", rows.rows[5].text);
}

// Who sends a packet again from elsewhere doesn't add an address.
#[test]
fn packets_that_come_again_from_elsewhere() {
    let mut made = Made { ids: [vec![], b"server".to_vec()], ..Made::new(1) };
    let mut all = made.handshake();
    all.push(made.send(Client, Short, PING));
    let elsewhere = ([192, 0, 2, 1], 5).into();
    all.push(Kept { from: elsewhere, ..all[3].clone() });
    all.push(Kept { to: elsewhere, ..made.send(Server, Short, PING) });
    let (_, rows) = rows_of(&[&made], &all);
    assert_eq!((rows.opened(0), &rows.unopened[..]), (6, &[Unopened::NoConnection][..]));
}

// Connections that ended are forgotten, and so are their ids and addresses.
#[test]
fn ended_connections() {
    let mut made = Made::new(1);
    let mut all = made.handshake();
    all.push(made.send(Client, Short, &[0x1d, 0, 0]));
    made.time += 5_000_000_000;
    all.push(made.send(Server, Short, PING));
    made.time += 11_000_000_000;
    all.extend((0..1100).map(|_| made.send(Client, Short, PING)));
    let (follower, rows) = rows_of(&[&made], &all);
    assert_eq!((rows.opened(0), &rows.ended[..]), (6, &[(0, Ended::Closed)][..]));
    assert_eq!(rows.unopened, [Unopened::NoConnection; 1100]);
    assert_eq!((follower.connections().count(), follower.counts().connections), (0, 1));
    assert!(follower.keylog.knows(&[1; 32]));

    // If the key log has many connections, the secrets are forgotten too.
    let others = (1..=16_384).map(|salt| Made { salt, ..Made::new(2) }.key_log().lines().next().unwrap().to_string());
    let keys = others.chain([made.key_log()]).collect::<Vec<_>>().join("\n");
    let (follower, rows) = follow_with(keys.as_bytes(), &all);
    assert_eq!((&rows.ended[..], follower.keylog.len()), (&[(0, Ended::Closed)][..], 16_384));
    assert!(!follower.keylog.knows(&[1; 32]));
    assert_eq!(follower.keylog.randoms().count(), 16_384);
}
