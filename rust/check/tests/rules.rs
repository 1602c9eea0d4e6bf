//! Each rule finds what breaks it, where RFC 9000 says so, and nothing in what comes near.
#[path = "../../capture/tests/common/mod.rs"]
mod common;
#[path = "../../capture/tests/common/made.rs"]
mod made;
#[path = "common/talk.rs"]
mod talk;

use common::{CAPTURE, KEYS, read};
use made::{Client, Handshake, Initial, Server, crypto, frame};
use quic_wire::frame::{Frame, NewConnectionId};
use quic_wire::packet::PacketNumber::{U8, U32};
use quic_wire::{ConnectionId, VarInt};
use quic_wire_check::rule::Need;
use quic_wire_check::rules;
use std::collections::BTreeSet;
use talk::{PING, Talk, ack, ack_of, padded, report_of};

const CLOSE: &[u8] = &[0x1c, 0, 0, 0];
const HANDSHAKE_DONE: &[u8] = &[0x1e];

fn new_id(sequence: u64, retire_prior_to: u64, id: &[u8], token: u8) -> Vec<u8> {
    let (id, reset_token) = (ConnectionId::new(id), [token; 16].into());
    frame(&Frame::NewConnectionId(NewConnectionId { sequence, retire_prior_to, id, reset_token }))
}

#[test]
fn lawful_connections() {
    assert!(report_of(KEYS, &read(CAPTURE)).findings.is_empty());
    let report = Talk::open().later().later().finds_nothing();
    assert!(report.unchecked.is_empty(), "{:?}", report.unchecked);
}

#[test]
fn the_table() {
    let names: BTreeSet<_> = rules::all().map(|rule| rule.name).collect();
    assert_eq!(names.len(), rules::all().count());
    for rule in rules::all() {
        let is_kebab = rule.name.split('-').all(|word| word.bytes().all(|byte| byte.is_ascii_lowercase()));
        assert!(is_kebab && rule.says.ends_with('.') && rule.says.len() <= 130, "{rule:?}");
    }
}

// RFC 9000, section 14.1.
#[test]
fn initial_size() {
    let mut talk = Talk::new();
    let hello = talk.client_hello();
    talk.send(Client, Initial, &hello[..1100]).answer();
    talk.later().finds("initial-size", "RFC 9000, section 14.1", 0);

    // Just 1200 bytes.
    let mut talk = Talk::new();
    let extra = talk.made.clone().send(Client, Initial, &hello).bytes.len() - 1200;
    talk.send(Client, Initial, &hello[..1200 - extra]).answer();
    assert_eq!(talk.all[0].bytes.len(), 1200);
    talk.later().finds_nothing();

    let mut talk = Talk::new();
    talk.send(Client, Initial, &hello).send(Server, Initial, &[&ack(0)[..], PING].concat());
    talk.finds("initial-size", "RFC 9000, section 14.1", 1);
    // A server's that elicits no acknowledgment.
    let mut talk = Talk::new();
    talk.send(Client, Initial, &hello).send(Server, Initial, &ack(0));
    talk.finds_nothing();
}

// Section 8.1.
#[test]
fn amplification() {
    let sent = |datagrams: usize| {
        let mut talk = Talk::new();
        let hello = talk.client_hello();
        talk.send(Client, Initial, &hello);
        for number in 0..datagrams {
            let payload = if number == 0 { crypto(0, &talk.server_hello()) } else { PING.to_vec() };
            talk.send(Server, Initial, &padded(&payload, 1170));
        }
        talk.made.time += 1_000_000_000;
        talk.made.first_dcid = None;
        let more = padded(&ack(0), 1170);
        talk.send(Client, Initial, &more);
        talk
    };
    assert!(sent(4).all[1].bytes.len() >= 1200);
    sent(4).finds("amplification", "RFC 9000, section 8.1", 4);
    sent(3).finds_nothing();
    // A datagram is in the file twice.
    let mut twice = sent(3);
    let third = twice.all[3].clone();
    twice.all.insert(3, third);
    twice.finds_nothing();
    // The client's second packet is in the file too late, by less than the order of the records may be wrong.
    let mut late = sent(4);
    let last = late.all.len() - 1;
    late.all[last].time = late.all[last - 1].time + 1000;
    late.finds_nothing();
}

// Sections 17.2 and 17.3.1; RFC 9287, section 3.
#[test]
fn bits_of_the_first_byte() {
    let with = |bits: u8| {
        let mut talk = Talk::open();
        let next = talk.made.numbers[0][2];
        talk.sealed(Client, next, U32(next as u32), bits, PING);
        talk
    };
    let index = with(0).next() - 1;
    with(0x08).finds("reserved-bits", "RFC 9000, section 17.3.1", index);
    // The spin bit.
    with(0x20).finds_nothing();

    let mut talk = Talk::open();
    talk.made.clear_fixed_bit = true;
    talk.short(Client, PING).finds("fixed-bit", "RFC 9000, section 17.3.1", index);
    let mut talk = Talk::new();
    talk.parameters[1].grease_quic_bit = true;
    talk.handshake().made.clear_fixed_bit = true;
    talk.short(Client, PING).finds_nothing();
}

// Section 7.2.
#[test]
fn first_id() {
    let with = |id: &[u8]| {
        let mut talk = Talk::new();
        (talk.made.original_id, talk.made.initial_id) = (id.to_vec(), id.to_vec());
        talk.made.first_dcid = Some(id.to_vec());
        talk.parameters[1].original_dst_cid = Some(ConnectionId::new(id));
        talk.handshake();
        talk
    };
    let finding = with(b"1234567").finds("first-id", "RFC 9000, section 7.2", 0);
    assert_eq!((finding.offset, finding.payload_offset), (6, None));
    with(b"12345678").finds_nothing();
}

// Section 7.2.
#[test]
fn destination_id() {
    let with = |id: &[u8]| {
        let mut talk = Talk::open();
        talk.made.first_dcid = Some(id.to_vec());
        talk.send(Client, Handshake, PING).made.first_dcid = None;
        talk.send(Server, Handshake, &ack(1)).later();
        talk
    };
    let index = Talk::open().next();
    with(b"elsewhere").finds("destination-id", "RFC 9000, section 7.2", index);
    with(&Talk::new().made.ids[1]).finds_nothing();

    // An id of NEW_CONNECTION_ID, before the handshake ends: sections 5.1.1 and 7.2 permit it in any packet.
    let mut talk = Talk::new();
    let (hello, issued) = (talk.client_hello(), new_id(1, 0, b"issued", 1));
    talk.send(Client, Initial, &hello).server_flight().short(Server, &issued);
    talk.made.first_dcid = Some(b"issued".to_vec());
    talk.client_flight().made.first_dcid = None;
    talk.confirm().later().finds_nothing();
    // It isn't in the capture.
    talk.all.remove(2);
    talk.is_silent("destination-id", Need::PeerPackets);
}

// RFC 9001, section 4.9.1.
#[test]
fn discarded_keys() {
    let with = |time: u64| {
        let mut talk = Talk::open();
        talk.made.time += time;
        talk.send(Client, Initial, &padded(&ack(0), 1200));
        talk
    };
    with(2_000_000_000).finds("discarded-keys", "RFC 9001, section 4.9.1", Talk::open().next());
    with(0).is_silent("discarded-keys", Need::Time);
}

// Sections 12.3 and 17.1.
#[test]
fn packet_numbers() {
    let mut talk = Talk::open();
    let index = talk.next();
    talk.sealed(Client, 0, U32(0), 0, PING).finds("number-reuse", "RFC 9000, section 12.3", index);
    // The same packet again.
    let mut talk = Talk::open();
    let last = talk.all.last().unwrap().clone();
    talk.all.push(last);
    talk.finds_nothing();

    // Number 0 is acknowledged, so that 129 numbers need two bytes, and 128 numbers one.
    let with = |number: u16| {
        let mut talk = Talk::open();
        talk.sealed(Client, number.into(), U8(number as u8), 0, PING).short(Server, &ack_of(number));
        talk.made.time += 1_000_000_000;
        talk.short(Server, PING);
        talk
    };
    with(129).finds("number-length", "RFC 9000, section 17.1", index);
    with(128).finds_nothing();
    // An ACK of number 1 comes too late in the file, by less than the order of the records may be wrong.
    let mut talk = Talk::open();
    talk.short(Client, PING).sealed(Client, 129, U8(129), 0, PING).short(Server, &ack(1)).short(Server, &ack_of(129));
    talk.made.time += 1_000_000_000;
    talk.short(Server, PING).finds_nothing();
    // The acknowledgment of a packet that isn't in the capture is in one that isn't either.
    let mut talk = with(129);
    talk.all.pop();
    talk.sealed(Client, 130, U32(130), 0, &ack(3));
    talk.is_silent("number-length", Need::PeerPackets);
}

// Section 10.2.
#[test]
fn closing() {
    let mut talk = Talk::open();
    talk.short(Client, CLOSE);
    let index = talk.next();
    talk.short(Client, CLOSE).finds_nothing();
    talk.short(Client, PING).short(Client, PING);
    let finding = talk.finds("after-close", "RFC 9000, section 10.2.1", index + 1);
    assert_eq!((finding.count, finding.last_record), (2, index as u64 + 3));

    // Packets that the network reordered: the one without a close was sent before.
    let mut talk = Talk::open();
    talk.short(Client, PING).short(Client, CLOSE);
    let last = talk.next() - 1;
    talk.all.swap(last - 1, last);
    talk.finds_nothing();

    let mut talk = Talk::open();
    talk.short(Server, CLOSE);
    let index = talk.next();
    talk.short(Client, &ack(2)).finds("after-drain", "RFC 9000, section 10.2.2", index);
    // It may be sent before the close came, or have a close itself.
    Talk::open().short(Server, CLOSE).short(Client, PING).short(Client, &[&ack(2)[..], CLOSE].concat()).finds_nothing();
}

// Sections 12.4 and 19.
#[test]
fn frames_by_themselves() {
    let with = |payload: &[u8]| {
        let mut talk = Talk::open();
        talk.short(Client, payload);
        talk
    };
    let index = Talk::open().next();
    let finding = with(&[1, 0x21]).finds("unknown-frame", "RFC 9000, section 12.4", index);
    assert_eq!(finding.payload_offset, Some(1));
    with(&[0x40, 1]).finds("long-frame-type", "RFC 9000, section 12.4", index);
    // A first range below 0; a token without bytes; more than 2^60 streams; data past 2^62 - 1; no whole frame.
    let cases: [(&[u8], &str); 5] = [
        (&[2, 0, 0, 0, 1], "19.3.1"),
        (&[0x12, 0xd0, 0, 0, 0, 0, 0, 0, 1], "19.11"),
        (&[0x0e, 0, 0xff, 0xff, 0xff, 0xff, 0xff, 0xff, 0xff, 0xff, 1, 0x61], "19.8"),
        (&[0x18, 1, 2, 8, 0, 0, 0, 0, 0, 0, 0, 0, 0, 0, 0, 0, 0, 0, 0, 0, 0, 0, 0, 0, 0, 0, 0, 0], "19.15"),
        (&[0x06, 0, 0x40, 0x80, 0x3a], "19.6"),
    ];
    for (payload, section) in cases {
        with(payload).finds("frame-fields", &format!("RFC 9000, section {section}"), index);
    }
    with(&[0x12, 0xd0, 0, 0, 0, 0, 0, 0, 0]).finds_nothing();

    let mut talk = Talk::open();
    talk.sealed(Client, 1, U32(1), 0, &[]).finds("empty-payload", "RFC 9000, section 12.4", index);
}

// An extension may define the frame.
#[test]
fn frames_of_extensions() {
    let mut talk = Talk::new();
    talk.parameters[1].min_ack_delay = Some(VarInt::from_u32(1));
    talk.handshake().short(Client, &[0x1f]).finds_nothing();
    let index = Talk::open().next();
    Talk::open().short(Client, &[0x1f]).finds("unknown-frame", "RFC 9000, section 12.4", index);
}

// Section 12.4, table 3; sections 19.7 and 19.20.
#[test]
fn frames_where_they_may_be() {
    let mut talk = Talk::open();
    let index = talk.next();
    talk.send(Client, Handshake, &[0x0a, 0, 1, 0x61]).finds("frame-in-packet", "RFC 9000, section 17.2.4", index);
    Talk::open().send(Client, Handshake, PING).finds_nothing();
    let with = |sender, payload: &[u8]| {
        let mut talk = Talk::open();
        talk.short(sender, payload);
        talk
    };
    with(Client, HANDSHAKE_DONE).finds("frame-sender", "RFC 9000, section 19.20", index);
    with(Client, &[7, 1, 0xaa]).finds("frame-sender", "RFC 9000, section 19.7", index);
    with(Server, &[7, 1, 0xaa, 0x1e]).finds_nothing();
}

// Section 13.1.
#[test]
fn ack_unsent() {
    // The client's packet 1 acknowledges number 40; the server's packets 2 and 40 acknowledge that packet.
    let with = |numbers: &[u64]| {
        let mut talk = Talk::open();
        talk.short(Client, &ack_of(40));
        for number in numbers {
            talk.sealed(Server, *number, U32(*number as u32), 0, &ack(1));
        }
        talk
    };
    let index = Talk::open().next();
    with(&[2]).finds("ack-unsent", "RFC 9000, section 13.1", index);
    // The number comes later, it isn't in the capture, or nothing shows what was sent.
    with(&[40]).finds_nothing();
    with(&[40, 2]).finds_nothing();
    with(&[41]).finds_nothing();
    with(&[]).is_silent("ack-unsent", Need::Proof);
}

// RFC 9221, section 3: type, length and data have at most 100 bytes.
#[test]
fn datagram_size() {
    let with = |talk: &mut Talk, len: u8| {
        let payload = [&[0x31, 0x40, len][..], &vec![0; len.into()]].concat();
        talk.short(Client, &payload);
    };
    let mut talk = Talk::open();
    with(&mut talk, 97);
    talk.finds_nothing();
    let index = talk.next();
    with(&mut talk, 98);
    talk.finds("datagram-size", "RFC 9221, section 3", index);
    let mut talk = Talk::new();
    talk.parameters[1].max_datagram_frame_size = None;
    talk.handshake();
    with(&mut talk, 1);
    talk.finds("datagram-size", "RFC 9221, section 3", index - 1);
}

// Sections 8.2 and 19.18.
#[test]
fn paths() {
    let (challenge, answer) = (padded(b"\x1a12345678", 1200), padded(b"\x1b12345678", 1200));
    let index = Talk::open().next();
    Talk::open().short(Server, &challenge).short(Client, &answer).later().finds_nothing();
    Talk::open().and_more(Client, &answer).finds("path-response", "RFC 9000, section 19.18", index);
    // The challenge isn't in the capture.
    let mut talk = Talk::open();
    talk.short(Server, &challenge).short(Client, &answer).later().all.remove(index);
    talk.is_silent("path-response", Need::PeerPackets);

    Talk::open().short(Client, &challenge[..9]).finds("path-size", "RFC 9000, section 8.2.1", index);
    // On a path that isn't validated a server may send less.
    let mut talk = Talk::open();
    talk.made.addresses[0] = ([192, 0, 2, 1], 5).into();
    talk.short(Server, &challenge[..9]).is_silent("path-size", Need::ValidAddress);
}

// Sections 2.1 and 19.8; stream 3 is a server's unidirectional one, 1 is its first bidirectional one.
#[test]
fn streams_by_their_ids() {
    let index = Talk::open().next();
    let one = |payload: &[u8]| {
        let mut talk = Talk::open();
        talk.and_more(Client, payload);
        talk
    };
    one(&[0x0a, 3, 1, 0x61]).finds("stream-direction", "RFC 9000, section 19.8", index);
    one(&[0x11, 2, 5]).finds("stream-direction", "RFC 9000, section 19.10", index);
    one(&[0x0a, 2, 1, 0x61]).finds_nothing();
    one(&[0x0a, 1, 1, 0x61]).finds("unopened-stream", "RFC 9000, section 19.8", index);
    Talk::open().short(Server, &[0x0a, 1, 0]).and_more(Client, &[0x0a, 1, 1, 0x61]).finds_nothing();
    // The stream is opened later in the file: its packets were reordered.
    Talk::open().short(Client, &[0x0a, 1, 1, 0x61]).and_more(Server, &[0x0a, 1, 0]).finds_nothing();
    // What opened it isn't in the capture.
    let mut talk = Talk::open();
    talk.short(Server, &[0x0a, 1, 0]).and_more(Client, &[0x0a, 1, 1, 0x61]).all.remove(index);
    talk.is_silent("unopened-stream", Need::PeerPackets);
}

// Section 4.5.
#[test]
fn final_size() {
    let index = Talk::open().next();
    let with = |payloads: &[&[u8]]| {
        let mut talk = Talk::open();
        payloads.iter().for_each(|payload| {
            talk.short(Client, payload);
        });
        talk
    };
    let fin: &[u8] = &[0x0b, 0, 2, 0x61, 0x62];
    with(&[fin, &[0x0e, 0, 2, 1, 0x63]]).finds("final-size", "RFC 9000, section 4.5", index + 1);
    with(&[fin, &[4, 0, 0, 3]]).finds("final-size", "RFC 9000, section 4.5", index + 1);
    with(&[&[0x0a, 0, 3, 1, 2, 3], fin]).finds("final-size", "RFC 9000, section 4.5", index + 1);
    with(&[fin, fin, &[0x0e, 0, 1, 1, 0x62], &[4, 0, 0, 2]]).finds_nothing();
}

// Sections 4.1 and 4.6: 1,000 bytes on all streams, 500 on each, four streams of each type.
#[test]
fn limits() {
    let index = Talk::open().next();
    let data = |id: u8, len: u16| [&[0x0a, id][..], &(0x4000 | len).to_be_bytes(), &vec![0; len.into()]].concat();
    let one = |payload: &[u8]| {
        let mut talk = Talk::open();
        talk.and_more(Client, payload);
        talk
    };
    one(&data(0, 500)).finds_nothing();
    one(&data(0, 501)).finds("stream-data-limit", "RFC 9000, section 4.1", index);
    one(&[data(0, 500), data(4, 500)].concat()).finds_nothing();
    one(&[data(0, 500), data(4, 500), data(8, 1)].concat()).finds("data-limit", "RFC 9000, section 4.1", index);
    one(&data(12, 1)).finds_nothing();
    one(&data(16, 1)).finds("stream-count", "RFC 9000, section 4.6", index);

    // With more permission, MAX_DATA 2,000, MAX_STREAM_DATA 600 of stream 0, MAX_STREAMS 5.
    let more: &[u8] = &[0x10, 0x47, 0xd0, 0x11, 0, 0x42, 0x58, 0x12, 5];
    let used = [data(0, 600), data(4, 500), data(8, 1), data(16, 1)].concat();
    Talk::open().short(Server, more).and_more(Client, &used).finds_nothing();
    // It comes later in the file, by less than the order of the records may be wrong.
    Talk::open().short(Client, &used).and_more(Server, more).finds_nothing();
    // It isn't in the capture, but was acknowledged.
    let mut talk = Talk::open();
    talk.short(Server, more).and_more(Client, &used).all.remove(index);
    talk.is_silent("data-limit", Need::PeerPackets);
}

// Sections 5.1.1, 19.15 and 19.16. Two ids may be active.
#[test]
fn ids() {
    let index = Talk::open().next();
    let with = |payloads: &[&[u8]]| {
        let mut talk = Talk::open();
        payloads.iter().for_each(|payload| {
            talk.short(Server, payload);
        });
        talk.later();
        talk
    };
    let (one, two) = (new_id(1, 0, b"first", 7), new_id(2, 1, b"second", 8));
    with(&[&one, &one, &two]).finds_nothing();
    with(&[&one, &new_id(1, 0, b"other", 7)]).finds("id-changed", "RFC 9000, section 19.15", index + 1);
    with(&[&one, &new_id(1, 0, b"first", 8)]).finds("id-changed", "RFC 9000, section 19.15", index + 1);
    with(&[&one, &new_id(2, 1, b"first", 8)]).finds("id-twice", "RFC 9000, section 19.15", index + 1);
    with(&[&one, &new_id(2, 0, b"second", 8)]).finds("id-count", "RFC 9000, section 5.1.1", index + 1);
    let mut talk = Talk::open();
    talk.short(Server, &one).short(Server, &two).short(Server, &[0x19, 0]);
    talk.finds("retire-own", "RFC 9000, section 19.16", index + 2);
    with(&[&[0x19, 5]]).finds("retire-unknown", "RFC 9000, section 19.16", index);

    let mut talk = Talk::new();
    talk.made.ids[0] = Vec::new();
    talk.parameters[0].initial_src_cid = Some(ConnectionId::default());
    talk.handshake().short(Client, &one).finds("id-without-bytes", "RFC 9000, section 19.15", index);
}

// Section 12.2.
#[test]
fn coalesced_ids() {
    let with = |id: &[u8], known: &[u8]| {
        let mut talk = Talk::open();
        talk.short(Server, &new_id(1, 0, known, 7));
        let first = talk.made.packet(Client, Handshake, PING);
        talk.made.ids[1] = id.to_vec();
        let second = talk.made.packet(Client, Handshake, PING);
        let datagram = talk.made.datagram(Client, [first, second].concat());
        talk.all.push(datagram);
        talk
    };
    let index = Talk::open().next() + 1;
    with(b"second", b"second").finds("coalesced-ids", "RFC 9000, section 12.2", index);
    // Bytes that are no packet.
    with(b"second", b"third").finds_nothing();
}

// Sections 7.3, 7.4 and 18.2.
#[test]
fn parameters() {
    let id = |bytes: &[u8]| Some(ConnectionId::new(bytes));
    let with = |change: &dyn Fn(&mut Talk)| {
        let mut talk = Talk::new();
        change(&mut talk);
        talk.handshake();
        talk
    };
    with(&|talk| talk.parameters[0].initial_src_cid = id(b"x")).finds("initial-source-id", "RFC 9000, section 7.3", 0);
    with(&|talk| talk.parameters[1].original_dst_cid = id(b"x")).finds(
        "original-destination-id",
        "RFC 9000, section 7.3",
        1,
    );
    with(&|talk| talk.parameters[1].retry_src_cid = id(b"x")).finds("retry-source-id", "RFC 9000, section 7.3", 1);
    with(&|talk| talk.parameters[0].ack_delay_exponent = VarInt::from_u32(21)).finds(
        "parameter",
        "RFC 9000, section 18.2",
        0,
    );
    with(&|talk| talk.parameters[0].ack_delay_exponent = VarInt::from_u32(20)).finds_nothing();
}

// Section 18.2.
#[test]
fn payload_size() {
    let with = |most: u32| {
        let mut talk = Talk::new();
        talk.parameters[0].max_udp_payload_size = VarInt::from_u32(most);
        talk.handshake().short(Server, &padded(PING, 1300));
        talk
    };
    let len = with(1500).all.last().unwrap().bytes.len() as u32;
    with(len - 1).finds("payload-size", "RFC 9000, section 18.2", Talk::open().next());
    with(len).finds_nothing();
}

// A connection that began before the capture breaks no rule that needs its beginning.
#[test]
fn connections_that_began_before() {
    let mut talk = Talk::open();
    talk.all.clear();
    talk.short(Client, &[0x0a, 0, 1, 0x61]).and_more(Server, &[&ack(1)[..], &[0x19, 7]].concat());
    talk.short(Server, &[0x0a, 0x40, 0x50, 1, 0x61]).later().finds_nothing();
}

// After a Retry: sections 17.2.5.1 and 17.2.5.2, and 7.3.
#[test]
fn retries() {
    let with = |id: &[u8], is_known: bool| {
        let mut talk = Talk::new();
        let hello = talk.client_hello();
        talk.send(Client, Initial, &hello);
        let retry = talk.made.retry(id);
        talk.all.push(retry);
        talk.parameters[1].retry_src_cid = is_known.then(|| ConnectionId::new(id));
        talk.send(Client, Initial, &hello).answer();
        talk
    };
    with(b"retried", true).finds_nothing();
    with(b"retried", false).finds("retry-source-id", "RFC 9000, section 7.3", 3);
    let same = Talk::new().made.original_id;
    with(&same, true).finds("retry-id", "RFC 9000, section 17.2.5.1", 1);
    // Without its Retry the connection seems to begin with the second Initial packet.
    let mut talk = with(b"retried", true);
    talk.all.drain(..2);
    talk.is_silent("original-destination-id", Need::NoToken);
}
