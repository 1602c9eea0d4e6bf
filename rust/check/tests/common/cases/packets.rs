//! Of the rules of src/rules/packets.rs.
use super::{At, Case, Spot, broken, last, lawful, send};
use crate::common::{Kept, seal_with};
use crate::made::{Client, Handshake, Initial, Server, Short};
use crate::talk::{PING, Talk, ack, ack_of, padded};
use quic_wire::datagram::{Header, HeaderKind};
use quic_wire::packet::PacketNumber::{U8, U16, U32};
use quic_wire::{ConnectionId, Side};

const SECOND: u64 = 1_000_000_000;
const CLOSE: &[u8] = &[0x1c, 0, 0, 0];

// Where the Destination Connection ID of a long header begins, after the first byte, the version and its length, and
// where the Source Connection ID does after an id of 4 bytes and its length (RFC 9000, section 17.2).
const DESTINATION: usize = 6;
const SOURCE: usize = DESTINATION + 4 + 1;
// Where the number of a 1-RTT packet to the server begins, after the first byte and an id of 5 bytes.
const NUMBER: usize = 6;

pub fn all() -> Vec<Case> {
    [headers(), ids(), order(), closes(), retries()].into_iter().flatten().collect()
}

fn headers() -> Vec<Case> {
    vec![
        broken(
            ("fixed-bit", "clear", "17.3.1"),
            "The client's packet has a fixed bit of 0, and the server didn't send grease_quic_bit.",
            clear_bit,
        ),
        lawful(
            ("fixed-bit", "grease", "17.3.1"),
            "The client's packet has a fixed bit of 0, and the server sent grease_quic_bit.",
            |talk| {
                talk.parameters[1].grease_quic_bit = true;
                clear_bit(talk)
            },
        ),
        broken(("reserved-bits", "set", "17.3.1"), "A reserved bit of a 1-RTT packet is 1.", |talk| {
            with_bits(talk, 0x08)
        }),
        lawful(("reserved-bits", "spin", "17.3.1"), "The spin bit of a 1-RTT packet is 1.", |talk| {
            with_bits(talk, 0x20)
        }),
        broken(("server-token", "three-bytes", "17.2.2"), "The server's Initial packet has a token.", server_token),
        lawful(
            ("server-token", "client", "17.2.2"),
            "The client's Initial packet has a token, as one of an earlier connection.",
            |talk| {
                talk.made.token = b"earlier".to_vec();
                let hello = talk.client_hello();
                // The token is behind an id of 8 bytes, one of 4, and its own length.
                let spot = send(talk, Client, Initial, &hello, At::Datagram(DESTINATION + 8 + 5 + 1));
                talk.answer().later();
                spot
            },
        ),
    ]
}

fn ids() -> Vec<Case> {
    vec![
        broken(("first-id", "seven", "7.2"), "The client's first Initial packet goes to an id of 7 bytes.", |talk| {
            first_id(talk, b"1234567")
        }),
        lawful(("first-id", "eight", "7.2"), "The client's first Initial packet goes to an id of 8 bytes.", |talk| {
            first_id(talk, b"12345678")
        }),
        broken(
            ("destination-id", "elsewhere", "7.2"),
            "The client sends a Handshake packet to an id that the server didn't choose.",
            |talk| {
                let hello = talk.client_hello();
                talk.send(Client, Initial, &hello).server_flight().client_flight();
                talk.made.first_dcid = Some(b"other".to_vec());
                let spot = send(talk, Client, Handshake, &ack(0), At::Datagram(DESTINATION));
                talk.made.first_dcid = None;
                talk.confirm().later();
                spot
            },
        ),
        lawful(
            ("destination-id", "late", "7.2"),
            "An Initial packet to the client's first id comes after the server's first packet, since it took longer.",
            |talk| {
                let hello = talk.client_hello();
                talk.send(Client, Initial, &hello).send(Client, Initial, &hello).server_flight();
                talk.all.swap(1, 2);
                swap_times(&mut talk.all[1..]);
                let spot = last(talk, Client, Initial, 1, At::Datagram(DESTINATION));
                talk.client_flight().confirm().later();
                spot
            },
        ),
        broken(
            ("source-id", "handshake", "7.2"),
            "The client's Handshake packet has another Source Connection ID than its Initial packet.",
            |talk| {
                let hello = talk.client_hello();
                talk.send(Client, Initial, &hello).server_flight().client_flight();
                let id = std::mem::replace(&mut talk.made.ids[0], b"else".to_vec());
                let spot = send(talk, Client, Handshake, &ack(0), At::Datagram(DESTINATION + 5 + 1));
                talk.made.ids[0] = id;
                talk.confirm().later();
                spot
            },
        ),
        lawful(
            ("source-id", "retry", "7.2"),
            "The server's Initial packet has another Source Connection ID than its Retry.",
            |talk| {
                retried(talk, b"retried", b"token", At::Packet);
                Spot { index: 3, sender: Server, kind: Initial, number: Some(0), at: At::Datagram(SOURCE) }
            },
        ),
        broken(
            ("discarded-keys", "late", "4.9.1"),
            "The client sends an Initial packet two seconds after its first Handshake packet.",
            |talk| {
                talk.handshake().made.time += 2 * SECOND;
                let spot = send(talk, Client, Initial, &padded(&ack(0), 1200), At::Datagram(0));
                talk.later();
                spot
            },
        )
        .of(9001),
        lawful(
            ("discarded-keys", "reordered", "4.9.1"),
            "The client's second Initial packet comes two seconds after the datagram with the third one and its first \
             Handshake packet.",
            |talk| {
                let hello = talk.client_hello();
                talk.send(Client, Initial, &hello).send(Client, Initial, &hello);
                let late = talk.all.pop().unwrap();
                talk.answer().made.time += 2 * SECOND;
                talk.all.push(Kept { time: talk.made.time, ..late });
                let spot = last(talk, Client, Initial, 1, At::Datagram(0));
                talk.later();
                spot
            },
        )
        .of(9001),
    ]
}

fn order() -> Vec<Case> {
    vec![
        broken(
            ("number-reuse", "contents", "12.3"),
            "A 1-RTT packet has the number of another one, with other contents.",
            |talk| {
                talk.handshake().sealed(Client, 0, U32(0), 0, PING);
                let spot = last(talk, Client, Short, 0, At::Datagram(NUMBER));
                talk.later();
                spot
            },
        ),
        lawful(("number-reuse", "copy", "12.3"), "The network delivers a packet twice.", |talk| {
            talk.handshake().short(Client, PING);
            let copy = talk.all.last().unwrap().clone();
            talk.made.time += 1_000_000;
            talk.all.push(Kept { time: talk.made.time, ..copy });
            let spot = last(talk, Client, Short, 1, At::Datagram(NUMBER));
            talk.later();
            spot
        }),
        broken(
            ("number-length", "one-byte", "17.1"),
            "Packet number 129 has one byte, while 0 is the largest that is acknowledged.",
            |talk| number_length(talk, 129),
        ),
        lawful(
            ("number-length", "one-byte", "17.1"),
            "Packet number 128 has one byte, while 0 is the largest that is acknowledged.",
            |talk| number_length(talk, 128),
        ),
        broken(
            ("number-length", "truncated", "17.1"),
            "Packet number 256 has one byte, while nothing is acknowledged.",
            |talk| unacknowledged(talk, 256),
        ),
        lawful(
            ("number-length", "whole", "17.1"),
            "Packet number 255 has one byte, and so is whole, while nothing is acknowledged.",
            |talk| unacknowledged(talk, 255),
        ),
    ]
}

fn closes() -> Vec<Case> {
    vec![
        broken(
            ("after-close", "ping", "10.2.1"),
            "The client sends a packet without CONNECTION_CLOSE after one with that.",
            |talk| {
                talk.handshake().short(Client, CLOSE);
                send(talk, Client, Short, PING, At::Datagram(0))
            },
        ),
        lawful(
            ("after-close", "reordered", "10.2.1"),
            "A packet that was sent before the CONNECTION_CLOSE comes after it.",
            |talk| {
                talk.handshake().short(Client, PING).short(Client, CLOSE);
                let index = talk.next() - 2;
                talk.all.swap(index, index + 1);
                swap_times(&mut talk.all[index..]);
                last(talk, Client, Short, 1, At::Datagram(0))
            },
        ),
        broken(
            ("after-drain", "ack", "10.2.2"),
            "The client acknowledges the server's CONNECTION_CLOSE, and so sends after it came.",
            |talk| {
                talk.handshake().short(Server, CLOSE);
                send(talk, Client, Short, &ack(2), At::Datagram(0))
            },
        ),
        lawful(
            ("after-drain", "close", "10.2.2"),
            "The client answers the server's CONNECTION_CLOSE with one of its own.",
            |talk| {
                talk.handshake().short(Server, CLOSE);
                send(talk, Client, Short, &[&ack(2)[..], CLOSE].concat(), At::Datagram(0))
            },
        ),
    ]
}

fn retries() -> Vec<Case> {
    let same = |talk: &mut Talk| {
        let id = talk.made.original_id.clone();
        retried(talk, &id, b"token", At::Datagram(SOURCE))
    };
    vec![
        broken(("retry-token", "empty", "17.2.5.2"), "A Retry has a token of 0 bytes.", |talk| {
            retried(talk, b"retried", b"", At::Datagram(SOURCE + 7))
        }),
        lawful(("retry-token", "one-byte", "17.2.5.2"), "A Retry has a token of 1 byte.", |talk| {
            retried(talk, b"retried", b"t", At::Datagram(SOURCE + 7))
        }),
        broken(
            ("retry-id", "same", "17.2.5.1"),
            "The Source Connection ID of a Retry is the id to which the client sent.",
            same,
        ),
        lawful(
            ("retry-id", "other", "17.2.5.1"),
            "The Source Connection ID of a Retry is another id than that to which the client sent.",
            |talk| retried(talk, b"retried", b"token", At::Datagram(SOURCE)),
        ),
    ]
}

fn swap_times(two: &mut [Kept]) {
    if let [first, second] = two {
        std::mem::swap(&mut first.time, &mut second.time);
    }
}

fn clear_bit(talk: &mut Talk) -> Spot {
    talk.handshake().made.clear_fixed_bit = true;
    let spot = send(talk, Client, Short, PING, At::Datagram(0));
    talk.made.clear_fixed_bit = false;
    talk.later();
    spot
}

fn with_bits(talk: &mut Talk, bits: u8) -> Spot {
    talk.handshake();
    let next = &mut talk.made.numbers[Client as usize][2];
    let number = *next;
    *next += 1;
    talk.sealed(Client, number, U32(number as u32), bits, PING);
    let spot = last(talk, Client, Short, number, At::Datagram(0));
    talk.later();
    spot
}

fn server_token(talk: &mut Talk) -> Spot {
    let hello = talk.client_hello();
    talk.send(Client, Initial, &hello);
    let [client, server] = talk.made.ids.clone();
    let header = Header::Initial { dst_cid: &client, src_cid: &server, token: b"abc", number: U8(0), version: 1 };
    let keys = talk.made.keys(Initial, Server);
    let datagram = talk.made.datagram(Server, seal_with(&keys, &header, 0, &ack(0), false));
    talk.all.push(datagram);
    talk.made.numbers[Server as usize][0] += 1;
    // Behind an id of 5 bytes and the token's own length.
    let spot = last(talk, Server, Initial, 0, At::Datagram(SOURCE + 5 + 1));
    talk.answer().later();
    spot
}

fn first_id(talk: &mut Talk, id: &[u8]) -> Spot {
    (talk.made.original_id, talk.made.initial_id) = (id.to_vec(), id.to_vec());
    talk.made.first_dcid = Some(id.to_vec());
    talk.parameters[1].original_dst_cid = Some(ConnectionId::new(id));
    talk.handshake().later();
    Spot { index: 0, sender: Client, kind: Initial, number: Some(0), at: At::Datagram(DESTINATION) }
}

fn number_length(talk: &mut Talk, number: u16) -> Spot {
    talk.handshake().sealed(Client, number.into(), U8(number as u8), 0, PING);
    let spot = last(talk, Client, Short, number.into(), At::Datagram(NUMBER));
    talk.short(Server, &ack_of(number)).made.time += SECOND;
    talk.short(Server, PING);
    spot
}

// The number and the one before it, of which the server has acknowledged none.
fn unacknowledged(talk: &mut Talk, number: u16) -> Spot {
    let hello = talk.client_hello();
    talk.send(Client, Initial, &hello).server_flight().client_flight();
    let before = number - 1;
    talk.sealed(Client, before.into(), U16(before), 0, PING).sealed(Client, number.into(), U8(number as u8), 0, PING);
    let spot = last(talk, Client, Short, number.into(), At::Datagram(NUMBER));
    talk.made.time += SECOND;
    let both = [&[0x1e, 2][..], &(0x4000 | number).to_be_bytes(), &[0, 0, 1]].concat();
    talk.short(Server, &both).short(Server, PING);
    spot
}

fn retried(talk: &mut Talk, id: &[u8], token: &[u8], at: At) -> Spot {
    let hello = talk.client_hello();
    talk.send(Client, Initial, &hello);
    let retry = talk.made.retry_with(id, token);
    talk.all.push(retry);
    talk.parameters[Server as usize].retry_src_cid = Some(ConnectionId::new(id));
    talk.send(Client, Initial, &hello).answer().later();
    Spot { index: 1, sender: Side::Server, kind: HeaderKind::Retry, number: None, at }
}
