//! Where packets aren't in the capture, rules are silent.
#[path = "../../capture/tests/common/mod.rs"]
mod common;
#[path = "../../capture/tests/common/made.rs"]
mod made;
#[path = "common/talk.rs"]
mod talk;

use made::{Client, Initial, Server, Short, frame};
use quic_wire::frame::{Frame, NewConnectionId};
use quic_wire::{ConnectionId, Side};
use quic_wire_check::rule::Need;
use talk::{PING, Talk, all_to, padded};

const HANDSHAKE_DONE: &[u8] = &[0x1e];

// A client that sends one datagram, and a server that sends six for it, after a packet of either.
fn amplified(sender: Side, payload: &[u8]) -> Talk {
    let mut talk = Talk::new();
    let hello = talk.client_hello();
    talk.send(Client, Initial, &hello).server_flight();
    // Its next packets aren't in the capture.
    talk.client_packets();
    talk.send(sender, Short, payload);
    for _ in 0..4 {
        talk.short(Server, &padded(PING, 1170));
    }
    talk.made.time += 1_000_000_000;
    talk.short(Server, PING);
    talk
}

// RFC 9000, section 8.1: Handshake packets validate the client's address.
#[test]
fn handshake_packets() {
    amplified(Server, HANDSHAKE_DONE).is_silent("amplification", Need::PeerPackets);
    amplified(Client, PING).is_silent("amplification", Need::PeerPackets);
    // No packet shows that the server has heard more of the client.
    amplified(Server, PING).finds("amplification", "RFC 9000, section 8.1", 5);
}

// Where some of the server's packets are missing, so may be some of the client's.
#[test]
fn packets_of_the_other_direction() {
    let mut talk = amplified(Server, PING);
    talk.all.remove(3);
    talk.is_silent("amplification", Need::OwnPackets);
}

// The client's packet that permits something, the server's that uses it, and others of the server. Those of the client
// after that are only in `answered`.
fn permitted(permit: &[u8], used: &[u8], answer: Option<&[u8]>) -> Talk {
    let mut talk = Talk::open();
    talk.short(Client, permit);
    talk.all.pop();
    talk.short(Server, used);
    talk.made.time += 2_000_000_000;
    let last = talk.made.numbers[1][2] - 1;
    talk.short(Server, PING);
    match answer {
        Some(close) => talk.short(Client, close),
        None => talk.short(Client, &all_to(last)),
    };
    talk
}

// A packet that isn't in the capture shows by a greater number, or by an ACK of it. Without either the rules that ask
// for what a side's peer sent are silent.
#[test]
fn last_packets() {
    let data = |stream: u8| [&[0x0a, stream, 0x41, 0x90][..], &[0x61; 400]].concat();
    let rules: [(&str, &[u8], &[u8]); 5] = [
        ("unopened-stream", &[0x0a, 0, 1, 0x61], &[0x0a, 0, 1, 0x61]),
        ("path-response", &padded(b"\x1a12345678", 1200), &padded(b"\x1b12345678", 1200)),
        ("retire-unknown", &new_id(2, 0, b"second"), &[0x19, 2]),
        ("stream-count", &[0x13, 5], &[0x0a, 19, 1, 0x61]),
        ("data-limit", &[0x10, 0x47, 0xd0], &[data(1), data(5), data(9)].concat()),
    ];
    for (rule, permit, used) in rules {
        let close: &[u8] = &[0x1d, 0, 0];
        for answer in [None, Some(close)] {
            let mut talk = permitted(permit, used, answer);
            assert!(talk.report().findings.is_empty(), "{rule}: {:#?}", talk.report().findings);
            talk.all.pop();
            let report = talk.report();
            assert!(report.findings.is_empty(), "{rule}: {:#?}", report.findings);
            assert!(report.unchecked.contains_key(&(rule, Need::End)), "{rule}: {:?}", report.unchecked);
        }
    }
}

fn new_id(sequence: u64, retire_prior_to: u64, id: &[u8]) -> Vec<u8> {
    let (id, reset_token) = (ConnectionId::new(id), [sequence as u8; 16].into());
    frame(&Frame::NewConnectionId(NewConnectionId { sequence, retire_prior_to, id, reset_token }))
}

// RFC 9000, section 5.1.1: a packet that was lost may have had the id before.
#[test]
fn ids_that_are_missing() {
    let mut talk = Talk::open();
    talk.short(Server, PING).short(Server, &new_id(2, 0, b"second")).later();
    let index = talk.next() - 4;
    talk.finds("id-sequence", "RFC 9000, section 5.1.1", index);
    // It was acknowledged.
    let mut acknowledged = talk.all.clone();
    acknowledged.remove(index - 1);
    let report = talk::report_of(talk.made.key_log().as_bytes(), &acknowledged);
    assert!(report.findings.is_empty() && report.unchecked.contains_key(&("id-sequence", Need::OwnPackets)));
    // It wasn't, and none of those after it is in the capture.
    let mut talk = Talk::open();
    talk.short(Server, PING);
    talk.all.pop();
    talk.short(Server, &new_id(2, 0, b"second")).short(Client, PING).is_silent("id-sequence", Need::OwnPackets);
    // A later one was acknowledged, so it counts as lost.
    let last = talk.made.numbers[1][2] - 1;
    talk.short(Client, &talk::ack(last as u8)).is_silent("id-sequence", Need::OwnNumbers);
}

// Section 8.2.2: a challenge that isn't in the capture may have had the same data.
#[test]
fn challenges_that_are_missing() {
    let (challenge, answer) = (padded(b"\x1a12345678", 1200), padded(b"\x1b12345678", 1200));
    let mut talk = Talk::open();
    talk.short(Server, &challenge).short(Client, &answer).short(Server, PING).short(Client, &answer).later();
    let index = Talk::open().next();
    talk.finds("response-twice", "RFC 9000, section 8.2.2", index + 3);
    talk.all.remove(index + 2);
    talk.is_silent("response-twice", Need::PeerPackets);
}

// Records of both directions come from two queues: an answer may be in the file before its challenge, and the packets
// around a Retry after those that show it.
#[test]
fn records_that_are_late() {
    let mut talk = Talk::open();
    talk.made.addresses[0].set_port(5);
    talk.short(Client, &padded(PING, 400)).short(Server, &padded(b"\x1a12345678", 1178));
    talk.short(Client, &padded(b"\x1b12345678", 1200));
    let last = talk.next() - 1;
    talk.all.swap(last - 1, last);
    for _ in 0..8 {
        talk.short(Server, &padded(PING, 1178));
    }
    talk.later().finds_nothing();

    let mut talk = Talk::new();
    let hello = talk.client_hello();
    talk.send(Client, Initial, &hello);
    let retry = talk.made.retry(b"retried");
    talk.all.push(retry);
    talk.parameters[Server as usize].retry_src_cid = Some(ConnectionId::new(b"retried"));
    talk.send(Client, Initial, &hello).server_flight();
    talk.all[1..].rotate_left(2);
    talk.client_flight().confirm().later().is_silent("retry-source-id", Need::OwnPackets);
}

// Section 5.1.2: without the packet that acknowledges it, nothing shows that a Retire Prior To came.
#[test]
fn acknowledgments_that_are_missing() {
    let mut talk = Talk::open();
    talk.short(Server, &new_id(1, 1, b"first")).short(Client, &talk::all_to(2)).short(Client, PING);
    let index = Talk::open().next();
    talk.finds("retire-prior", "RFC 9000, section 5.1.2", index + 2);
    talk.all.remove(index + 1);
    talk.finds_nothing();
    // The packet that has it is lost, and the one that has it again isn't.
    let mut talk = Talk::open();
    talk.short(Server, &new_id(1, 1, b"first")).short(Server, &new_id(1, 1, b"first")).short(Client, &talk::ack(3));
    talk.short(Client, PING).finds("retire-prior", "RFC 9000, section 5.1.2", index + 3);
}

// RFC 9001, section 6.1: a packet that isn't in the capture may have confirmed the handshake, or acknowledged one with
// the keys.
#[test]
fn what_permits_a_key_update() {
    let mut talk = Talk::new();
    let hello = talk.client_hello();
    talk.send(Client, Initial, &hello).server_flight().client_flight();
    let index = talk.next();
    talk.short(Server, HANDSHAKE_DONE).made.updates = [1, 0];
    talk.short(Client, &talk::all_to(0)).made.updates = [1, 1];
    talk.later().finds_nothing();
    talk.all.remove(index);
    talk.is_silent("early-update", Need::PeerPackets);

    let mut talk = Talk::open();
    talk.made.updates = [1, 0];
    talk.short(Client, PING).made.updates = [1, 1];
    let index = talk.short(Server, PING).next();
    let last = talk.made.numbers[0][2] - 1;
    talk.short(Server, &talk::all_to(last)).made.updates = [2, 1];
    let last = talk.made.numbers[1][2] - 1;
    talk.short(Client, &talk::all_to(last)).made.updates = [2, 2];
    talk.later().finds_nothing();
    talk.all.remove(index);
    talk.is_silent("second-update", Need::PeerPackets);
}

// RFC 9001, section 6.2: none of the client's packets before its second update is in the capture.
#[test]
fn updates_that_are_missing() {
    let mut talk = Talk::open();
    let index = talk.next();
    talk.made.updates = [1, 0];
    talk.short(Client, PING).made.updates = [1, 1];
    let last = talk.made.numbers[0][2] - 1;
    talk.short(Server, &talk::all_to(last)).made.updates = [2, 1];
    talk.short(Client, PING).made.updates = [2, 2];
    talk.later().finds_nothing();
    talk.all.remove(index);
    // That of the handshake's end.
    talk.all.remove(index - 2);
    talk.finds_nothing();
}

// RFC 9001, section 6.2: the first packet with new keys is lost, and the second one is acknowledged with old keys.
#[test]
fn a_lost_packet_with_new_keys() {
    let mut talk = Talk::open();
    talk.made.updates = [1, 0];
    let number = talk.short(Client, PING).short(Client, PING).made.numbers[0][2] - 1;
    let index = talk.next();
    talk.short(Server, &talk::ack(number as u8)).finds("update-answer", "RFC 9001, section 6.2", index);
    // A packet with old keys and a greater number, which breaks `old-keys`, may be the one that is acknowledged.
    let mut talk = Talk::open();
    talk.made.updates = [1, 0];
    talk.short(Client, PING).made.updates = [0, 0];
    let number = talk.short(Client, PING).made.numbers[0][2] - 1;
    let index = talk.next();
    talk.short(Server, &talk::ack(number as u8)).finds("old-keys", "RFC 9001, section 6.4", index - 1);
}

// RFC 9000, section 19.20: so may one that ended the handshake.
#[test]
fn what_permits_handshake_done() {
    let mut talk = Talk::open();
    talk.later().all.remove(2);
    talk.is_silent("early-done", Need::PeerPackets);
}
