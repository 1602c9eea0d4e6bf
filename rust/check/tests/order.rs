//! What a side knew when it sent a packet shows by packet numbers: what its peer sent before it acknowledged the packet,
//! or answered it, may have come before, however late it is in the file.
#[path = "../../capture/tests/common/mod.rs"]
mod common;
#[path = "../../capture/tests/common/made.rs"]
mod made;
#[path = "common/talk.rs"]
mod talk;

use made::{Client, Initial, Server, crypto};
use quic_wire::ConnectionId;
use quic_wire_check::rule::Need;
use talk::{PING, Talk, ack, all_to, padded};

const SECOND: u64 = 1_000_000_000;
const HANDSHAKE_DONE: &[u8] = &[0x1e];

// RFC 9000, section 4.6: the client opens a fifth stream, and then the server sends these packets.
fn fifth(packets: &[&[u8]]) -> Talk {
    let mut talk = Talk::open();
    talk.short(Client, &[0x0a, 16, 1, 0x61]);
    talk.made.time += 2 * SECOND;
    for packet in packets {
        talk.short(Server, packet);
    }
    talk
}

#[test]
fn a_limit_by_numbers() {
    let (index, number) = (Talk::open().next(), Talk::open().made.numbers[0][2]);
    let (more, acknowledged) = (&[0x12, 5][..], &all_to(number)[..]);
    let found = |packets: &[&[u8]]| fifth(packets).later().finds("stream-count", "RFC 9000, section 4.6", index);
    found(&[]);
    found(&[acknowledged, more]);
    found(&[&[more, acknowledged].concat()]);
    // It may have come before, however late its record is.
    fifth(&[more, acknowledged]).later().is_silent("stream-count", Need::Time);
    // The network reordered them, or only the file did.
    let mut talk = fifth(&[more, acknowledged]);
    let last = talk.next() - 1;
    talk.all.swap(last - 1, last);
    talk.later().is_silent("stream-count", Need::Time);
    // The capture ends so soon that more may have come.
    let mut talk = fifth(&[]);
    talk.made.time -= 2 * SECOND - 20_000_000;
    talk.short(Server, PING).is_silent("stream-count", Need::End);
}

// Section 8.1: the server sends 4,800 bytes for 1,200, and the client's answer comes within a millisecond. Without an
// ACK of the last datagram it may have been sent before that.
#[test]
fn an_answer_on_a_fast_link() {
    let with = |acknowledged: u8| {
        let mut talk = Talk::new();
        let hello = talk.client_hello();
        talk.send(Client, Initial, &hello);
        for number in 0..4 {
            let payload = if number == 0 { crypto(0, &talk.server_hello()) } else { PING.to_vec() };
            talk.send(Server, Initial, &padded(&payload, 1170));
        }
        talk.made.first_dcid = None;
        talk.send(Client, Initial, &padded(&ack(acknowledged), 1170));
        talk
    };
    with(3).finds("amplification", "RFC 9000, section 8.1", 4);
    with(2).is_silent("amplification", Need::Time);
}

// Section 8.1: the Handshake packet that validates the client's address is in the file after the 1-RTT packet that
// acknowledges the last datagram, by more than records at a host are late.
#[test]
fn a_handshake_packet_that_is_late() {
    let mut talk = Talk::new();
    let hello = talk.client_hello();
    talk.send(Client, Initial, &hello).server_flight();
    let packets = talk.client_packets();
    for _ in 0..4 {
        talk.short(Server, &padded(PING, 1170));
    }
    talk.short(Client, &all_to(talk.made.numbers[1][2] - 1)).made.time += 20_000_000;
    let datagram = talk.made.datagram(Client, packets);
    talk.all.push(datagram);
    talk.later().is_silent("amplification", Need::Time);
}

// Section 9.3: so does the answer to a challenge, without an ACK; one to an earlier challenge doesn't.
#[test]
fn an_answer_to_a_challenge() {
    let with = |answer: &[u8]| {
        let mut talk = Talk::open();
        talk.made.addresses[0].set_port(5);
        talk.short(Client, PING).short(Server, b"\x1a00000000").short(Server, &padded(b"\x1a12345678", 1178));
        talk.short(Client, &padded(answer, 1200));
        talk
    };
    let index = Talk::open().next() + 2;
    with(b"\x1b12345678").later().finds("path-amplification", "RFC 9000, section 9.3", index);
    with(b"\x1b00000000").later().is_silent("path-amplification", Need::Time);
}

// The address is valid once its challenge was answered, which is in the file after that and after what the server sent.
#[test]
fn a_challenge_that_is_late() {
    let mut talk = Talk::open();
    talk.made.addresses[0].set_port(5);
    talk.short(Client, PING).short(Server, b"\x1a12345678").short(Client, &padded(b"\x1b12345678", 1200));
    let index = talk.next() - 2;
    for _ in 0..4 {
        talk.short(Server, &padded(PING, 1178));
    }
    talk.short(Client, &all_to(talk.made.numbers[1][2] - 1));
    talk.all[index..].rotate_left(1);
    talk.later().is_silent("path-amplification", Need::Time);
}

// What the server sent after the answer to its challenge is in the file before the challenge, whose record then has the
// sum. The first packet of the client that acknowledges the challenge doesn't show what it had sent by the others.
#[test]
fn a_sum_with_later_packets() {
    let mut talk = Talk::open();
    talk.made.addresses[0].set_port(5);
    talk.short(Client, PING);
    let index = talk.next();
    talk.short(Server, b"\x1a12345678").short(Client, &padded(b"\x1b12345678", 1200));
    for _ in 0..4 {
        talk.short(Server, &padded(PING, 1178));
    }
    talk.all[index..].rotate_left(2);
    talk.later().is_silent("path-amplification", Need::Time);
}

// Section 4.1: 1,000 bytes are permitted on all streams, and then more. The first 500 are in the file after the last 100.
#[test]
fn a_sum_of_data_with_later_packets() {
    let data = |stream: u8, len: u16| {
        let len_bytes = (0x4000 | len).to_be_bytes();
        [&[0x0a, stream][..], &len_bytes, &vec![0x61; usize::from(len)]].concat()
    };
    let mut talk = Talk::open();
    let index = talk.next();
    talk.short(Client, &data(0, 500)).short(Client, &data(4, 500));
    let both = all_to(talk.made.numbers[0][2] - 1);
    talk.short(Server, &both).short(Server, &[0x10, 0x47, 0xd0]).short(Client, &data(8, 100));
    let last = talk.all.pop().unwrap();
    let first = talk.all.remove(index);
    talk.all.splice(index + 1..index + 1, [last, first]);
    talk.later().is_silent("data-limit", Need::Time);
}

// Section 19.20: HANDSHAKE_DONE more than a second before the client's Handshake packet. If a packet of the client is in
// the file after an ACK of it, times say nothing.
#[test]
fn times_that_say_nothing() {
    let with = |is_late: bool| {
        let mut talk = Talk::new();
        let hello = talk.client_hello();
        talk.send(Client, Initial, &hello).server_flight().short(Server, HANDSHAKE_DONE);
        let index = talk.next() - 1;
        talk.made.time += SECOND;
        talk.client_flight().short(Client, &ack(0)).short(Server, &all_to(0));
        if is_late {
            let last = talk.next() - 1;
            talk.all.swap(last - 1, last);
        }
        talk.later();
        (talk, index)
    };
    let (talk, index) = with(false);
    talk.finds("early-done", "RFC 9000, section 19.20", index);
    with(true).0.is_silent("early-done", Need::Time);
}

// Section 8.2.2: a challenge with the same data from the address to which the answer goes, after that in the file.
#[test]
fn a_challenge_after_its_answer() {
    let mut talk = Talk::open();
    let challenge = padded(b"\x1a12345678", 1200);
    talk.short(Client, &challenge).made.addresses[0].set_port(5);
    talk.short(Client, PING).short(Client, &challenge).short(Server, &padded(b"\x1b12345678", 1200));
    let last = talk.next() - 1;
    talk.all.swap(last - 1, last);
    let report = talk.later().report();
    assert!(report.findings.iter().all(|one| one.rule.name == "challenge-data"), "{:#?}", report.findings);
}

// Section 8.1.2: the Retry whose token the client has is the last record.
#[test]
fn a_retry_that_is_late() {
    let mut talk = Talk::new();
    let hello = talk.client_hello();
    talk.send(Client, Initial, &hello);
    let lost = talk.made.clone().retry_with(b"retried", b"lost");
    talk.all.push(lost);
    let retry = talk.made.retry(b"retried");
    talk.parameters[Server as usize].retry_src_cid = Some(ConnectionId::new(b"retried"));
    talk.send(Client, Initial, &hello).answer();
    talk.finds("initial-token", "RFC 9000, section 8.1.2", 2);
    talk.all.push(retry);
    talk.is_silent("initial-token", Need::Time);
}
