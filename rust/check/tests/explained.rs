//! What looks like a fault, and isn't one or may not be one: rules find nothing in it.
#[path = "../../capture/tests/common/mod.rs"]
mod common;
#[path = "../../capture/tests/common/made.rs"]
mod made;
#[path = "common/talk.rs"]
mod talk;

use common::Kept;
use made::{Client, Handshake, Initial, Server, crypto};
use quic_wire::packet::VERSION_2;
use quic_wire::{ConnectionId, VarInt};
use quic_wire_check::rule::Need;
use std::net::SocketAddr;
use talk::{PING, Talk, ack, padded, report_of};

const CLOSE: &[u8] = &[0x1c, 0, 0, 0];
const CHALLENGE: &[u8] = b"\x1a12345678";
const RESPONSE: &[u8] = b"\x1b12345678";

// RFC 9000, section 8.1: the server sends 10,736 bytes for 1,240, and the Handshake packet that validates the client's
// address comes after them. If it is in the file less than 10 ms later, it may have come before some of them.
#[test]
fn an_address_that_is_validated_late() {
    let after = |time: u64| {
        let mut talk = Talk::new();
        let hello = talk.client_hello();
        talk.send(Client, Initial, &hello).server_flight();
        let packets = talk.client_packets();
        for _ in 0..8 {
            talk.short(Server, &padded(PING, 1170));
        }
        talk.made.time += time;
        let datagram = talk.made.datagram(Client, packets);
        talk.all.push(datagram);
        talk.confirm().later();
        talk
    };
    after(1_000_000_000).finds("amplification", "RFC 9000, section 8.1", 4);
    after(0).is_silent("amplification", Need::Time);
}

// Section 18.2: what a client sent before it had the server's parameters may come after them.
#[test]
fn datagrams_before_the_parameters() {
    let mut talk = Talk::new();
    talk.parameters[Server as usize].max_udp_payload_size = VarInt::from_u32(1300);
    let hello = talk.client_hello();
    talk.send(Client, Initial, &hello).send(Client, Initial, &padded(&hello, 1300));
    let mut late = talk.all.pop().unwrap();
    talk.server_flight();
    late.time = talk.made.time;
    talk.all.push(late);
    talk.client_flight().confirm().later().finds_nothing();
    let index = talk.next();
    talk.short(Client, &padded(PING, 1300)).finds("payload-size", "RFC 9000, section 18.2", index);
}

// Section 12.3: a server that keeps no state answers each Initial packet with a close of packet number 0, from an id of
// its own each time. Two packets of one id are of one server.
#[test]
fn closes_without_a_state() {
    let with = |id: &[u8]| {
        let mut talk = Talk::new();
        let hello = talk.client_hello();
        talk.send(Client, Initial, &hello).send(Server, Initial, CLOSE).send(Client, Initial, &hello);
        (talk.made.ids[1], talk.made.numbers[1][0]) = (id.to_vec(), 0);
        talk.send(Server, Initial, &[CLOSE, PING].concat());
        talk
    };
    with(b"again").finds_nothing();
    with(&Talk::new().made.ids[1]).finds("number-reuse", "RFC 9000, section 12.3", 3);
}

// Sections 7.3 and 8.1.2: a Retry that didn't come, so that the client sends its Initial packet again as it was.
#[test]
fn a_retry_that_the_client_did_not_take() {
    let mut talk = Talk::new();
    let hello = talk.client_hello();
    talk.send(Client, Initial, &hello);
    let retry = talk.made.clone().retry(b"retried");
    talk.all.push(retry);
    talk.made.time += 1_000_000;
    talk.send(Client, Initial, &hello).answer().later().finds_nothing();
}

// Section 17.2.5.2: a client discards a Retry without a token, so an Initial packet without a token that opens with the
// keys of the id to which it goes is its first one, or breaks that rule. If a client takes such a Retry, and its first
// packet isn't in the capture, the Retry's id counts as its first one: what is found is of sides that broke a rule.
#[test]
fn a_retry_without_a_token() {
    let found = |is_taken: bool, missing: usize| {
        let mut talk = Talk::new();
        let hello = talk.client_hello();
        talk.send(Client, Initial, &hello);
        let mut server = talk.made.clone();
        let retry = server.retry_with(b"retried", b"");
        talk.all.push(retry);
        if is_taken {
            (talk.made.initial_id, talk.made.first_dcid) = (server.initial_id, server.first_dcid);
            talk.parameters[Server as usize].retry_src_cid = Some(ConnectionId::new(b"retried"));
        }
        talk.made.time = server.time;
        talk.send(Client, Initial, &hello).answer().later();
        talk.all.drain(..missing);
        let report = talk.report();
        report.findings.iter().map(|one| (one.sender, one.rule.name)).collect::<Vec<_>>()
    };
    let of_retry = [(Server, "retry-token")];
    let of_both = [(Client, "first-id"), (Server, "original-destination-id"), (Server, "retry-source-id")];
    assert_eq!([found(false, 0), found(true, 0)], [of_retry, of_retry]);
    assert_eq!([found(false, 1), found(false, 2)], [[], []]);
    assert_eq!([found(true, 1), found(true, 2)], [of_both, of_both]);
}

// Section 8.1.2: a server without a state answers two Initial packets with a Retry each, of one id and two tokens. The
// network may reorder them.
#[test]
fn the_token_of_another_retry() {
    let with = |others: &[&[u8]]| {
        let mut talk = Talk::new();
        let hello = talk.client_hello();
        talk.send(Client, Initial, &hello);
        for token in others {
            let retry = talk.made.clone().retry_with(b"retried", token);
            talk.all.push(retry);
        }
        talk.made.retry(b"retried");
        talk.parameters[Server as usize].retry_src_cid = Some(ConnectionId::new(b"retried"));
        talk.send(Client, Initial, &hello).answer();
        talk
    };
    with(&[b"first", b"token"]).is_silent("initial-token", Need::Time);
    with(&[b"token", b"first"]).finds_nothing();
    with(&[b"first"]).finds("initial-token", "RFC 9000, section 8.1.2", 2);
}

// Section 17.2.5.2: a client takes one of several Retries with ids of their own, and the others may have been lost. The
// packet that shows which one it took may be in the file after the server's answer.
#[test]
fn the_id_of_another_retry() {
    let with = |token: &[u8], is_late: bool| {
        let mut talk = Talk::new();
        let hello = talk.client_hello();
        talk.send(Client, Initial, &hello);
        let lost = talk.made.clone().retry_with(b"lost", b"other");
        talk.all.push(lost);
        let retry = talk.made.retry(b"retried");
        talk.all.push(retry);
        talk.parameters[Server as usize].retry_src_cid = Some(ConnectionId::new(b"retried"));
        talk.made.token = token.to_vec();
        talk.send(Client, Initial, &hello).server_flight();
        if is_late {
            talk.all[3..].rotate_left(1);
        }
        talk.client_flight().confirm();
        talk
    };
    with(b"token", false).finds_nothing();
    with(b"token", true).finds_nothing();
    with(b"other", false).finds("initial-token", "RFC 9000, section 8.1.2", 3);
}

// RFC 9369, section 4.1: after a Retry of version 1 the server answers with version 2. Its packets aren't in the
// capture, and the client's acknowledge them.
#[test]
fn an_answer_that_is_missing() {
    let mut talk = Talk::new();
    let hello = talk.client_hello();
    talk.send(Client, Initial, &hello);
    let retry = talk.made.retry(b"retried");
    talk.all.push(retry);
    talk.parameters[Server as usize].retry_src_cid = Some(ConnectionId::new(b"retried"));
    talk.send(Client, Initial, &hello).made.version = VERSION_2;
    let index = talk.next();
    talk.server_flight().all.remove(index);
    talk.client_flight().confirm().later().finds_nothing();
    // Nor is the packet that it answers, and the client's next one acknowledges nothing.
    let mut talk = Talk::new();
    talk.send(Client, Initial, &hello);
    let retry = talk.made.retry(b"retried");
    talk.all.push(retry);
    talk.send(Client, Initial, &hello).all.pop();
    talk.made.version = VERSION_2;
    talk.send(Client, Initial, &padded(PING, 1200)).is_silent("retry-version", Need::Time);
}

// RFC 9368, section 4: half of the ClientHello isn't in the capture, and comes again with a packet of the version that
// the server has chosen.
#[test]
fn a_hello_that_is_whole_late() {
    let mut talk = Talk::new();
    let versions = [1u32, VERSION_2, 1].map(u32::to_be_bytes).concat();
    talk.more[Client as usize] = [&[0x11, 12][..], &versions].concat();
    let message = talk.client_message();
    let [front, back] = [crypto(0, &message[..50]), crypto(50, &message[50..])];
    talk.send(Client, Initial, &padded(&front, 1200)).send(Client, Initial, &padded(&back, 1200)).all.pop();
    talk.made.version = VERSION_2;
    talk.server_flight().send(Client, Initial, &padded(&back, 1200));
    talk.client_flight().confirm().later().finds_nothing();
    // The server's answer is late.
    talk.all.swap(1, 2);
    talk.finds_nothing();
}

// Section 18.2: datagrams of one size, and a shorter one, that the network card cuts apart or has joined. The client
// permits 1,300 bytes.
#[test]
fn joined_datagrams() {
    let with = |sizes: &[usize]| {
        let mut talk = Talk::new();
        talk.parameters[Client as usize].max_udp_payload_size = VarInt::from_u32(1300);
        let hello = talk.client_hello();
        talk.send(Client, Initial, &hello).server_flight();
        let overhead = talk.made.clone().packet(Server, Handshake, &[0; 100]).len() - 100;
        for size in sizes {
            let packet = talk.made.packet(Server, Handshake, &padded(PING, size - overhead));
            talk.all[1].bytes.extend(packet);
        }
        talk.client_flight().confirm().later();
        talk
    };
    with(&[1200, 700]).finds_nothing();
    // The last one is too long, or the first isn't whole.
    with(&[1201]).finds("payload-size", "RFC 9000, section 18.2", 1);
    with(&[1100, 1200]).finds("payload-size", "RFC 9000, section 18.2", 1);
}

// Section 8.2.2: a PATH_CHALLENGE that comes twice with the same data, which section 8.2.1 forbids, is answered twice.
#[test]
fn answers_to_a_challenge_that_came_twice() {
    let (challenge, response) = (padded(CHALLENGE, 1200), padded(RESPONSE, 1200));
    let mut talk = Talk::open();
    talk.short(Server, &challenge).short(Client, &response).short(Server, &challenge).short(Client, &response);
    talk.later().finds("challenge-data", "RFC 9000, section 8.2.1", Talk::open().next() + 2);
    talk.short(Client, &response).later();
    let names: Vec<_> = talk.report().findings.iter().map(|one| one.rule.name).collect();
    assert_eq!(names, ["challenge-data", "response-twice"]);
}

// RFC 9001, section 6: after a Retry the CRYPTO data begin again. Those of a longer ClientHello, which RFC 9000, section
// 17.2.5.3, forbids, are no further message: the first byte behind the old one is 24, the type of KeyUpdate.
#[test]
fn a_longer_hello_after_a_retry() {
    let mut talk = Talk::new();
    let hello = talk.client_hello();
    talk.send(Client, Initial, &hello);
    let retry = talk.made.retry(b"retried");
    talk.all.push(retry);
    talk.parameters[Server as usize].retry_src_cid = Some(ConnectionId::new(b"retried"));
    // A transport parameter that nobody knows.
    talk.more[Client as usize] = vec![24, 4, 0, 0, 0, 0];
    let longer = talk.client_hello();
    talk.send(Client, Initial, &longer).answer().finds("retry-hello", "RFC 9000, section 17.2.5.3", 2);
}

// Section 8.2.2: a host that is the client's NAT captures each packet twice, with the addresses of either side.
#[test]
fn packets_on_both_sides_of_a_nat() {
    let (challenge, response) = (padded(CHALLENGE, 1200), padded(RESPONSE, 1200));
    let mut talk = Talk::open();
    talk.short(Client, &challenge).short(Server, &response).later();
    let (inside, outside): (_, SocketAddr) = (talk.made.addresses[0], ([192, 0, 2, 1], 5).into());
    let twice = |one: &Kept| match one.from == inside {
        true => [one.clone(), Kept { from: outside, ..one.clone() }],
        false => [Kept { to: outside, ..one.clone() }, one.clone()],
    };
    let all: Vec<_> = talk.all.iter().flat_map(twice).collect();
    // Any of the records may be missing.
    for missing in 0..=all.len() {
        let there = all.iter().enumerate().filter(|(index, _)| *index != missing);
        let there: Vec<_> = there.map(|(_, kept)| kept.clone()).collect();
        let report = report_of(talk.made.key_log().as_bytes(), &there);
        assert!(report.findings.is_empty(), "{missing}: {:#?}", report.findings);
    }
}

// A client that moves sends an ACK first, so its address is known by more than copies.
#[test]
fn answers_to_an_old_address() {
    let mut talk = Talk::open();
    let old = talk.made.addresses[0];
    talk.made.addresses[0].set_port(5);
    let index = talk.short(Client, &ack(0)).short(Client, &padded(CHALLENGE, 1200)).next();
    talk.made.addresses[0] = old;
    talk.short(Server, &padded(RESPONSE, 1200)).later().finds("response-path", "RFC 9000, section 8.2.2", index);
}
