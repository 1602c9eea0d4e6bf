//! Of the rules of src/rules/frames.rs.
use super::{At, Case, Spot, broken, last, lawful, plant, send};
use crate::made::{Client, Handshake, Initial, Server, Short, ZeroRtt};
use crate::talk::{PING, Talk, ack, ack_of, padded};
use quic_wire::packet::PacketNumber::U32;
use quic_wire::{Side, VarInt};

// Frames' types in hexadecimal, then their fields (RFC 9000, section 19).
const CHALLENGE: &[u8] = b"\x1a12345678";
const RESPONSE: &[u8] = b"\x1b12345678";
const STREAM: &[u8] = &[0x0a, 0, 1, 0x61];

// The bytes of a 1-RTT packet to the server beside its payload: first byte, an id of 5 bytes, a number of one, the tag.
const AROUND_SHORT: usize = 1 + 5 + 1 + 16;
// A payload for a datagram of 1200 bytes.
const FULL: usize = 1200 - AROUND_SHORT;

pub fn all() -> Vec<Case> {
    [types(), fields(), permitted(), acks(), datagrams(), paths(), closes()].into_iter().flatten().collect()
}

fn closes() -> Vec<Case> {
    vec![
        broken(
            ("close-reason", "handshake", "10.2.3"),
            "A CONNECTION_CLOSE in a Handshake packet has the code APPLICATION_ERROR, and a reason phrase.",
            |talk| closed(talk, b"\x1c\x0c\0\x03bye"),
        ),
        lawful(
            ("close-reason", "empty", "10.2.3"),
            "A CONNECTION_CLOSE in a Handshake packet has the code APPLICATION_ERROR, and no reason phrase.",
            |talk| closed(talk, b"\x1c\x0c\0\0"),
        ),
        lawful(
            ("close-reason", "internal", "10.2.3"),
            "A CONNECTION_CLOSE in a Handshake packet has the code INTERNAL_ERROR, and a reason phrase.",
            |talk| closed(talk, b"\x1c\x01\0\x03bye"),
        ),
        broken(("reason-text", "ff", "19.19"), "The reason phrase of a CONNECTION_CLOSE has the byte ff.", |talk| {
            send(talk.handshake(), Client, Short, b"\x1d\0\x03b\xffe", At::Payload(0..6))
        }),
        lawful(
            ("reason-text", "accent", "19.19"),
            "The reason phrase of a CONNECTION_CLOSE has a letter with an accent, in two bytes.",
            |talk| send(talk.handshake(), Client, Short, b"\x1d\0\x02\xc3\xa9", At::Payload(0..5)),
        ),
    ]
}

// The client closes with its Handshake packet.
fn closed(talk: &mut Talk, frame: &[u8]) -> Spot {
    let hello = talk.client_hello();
    talk.send(Client, Initial, &hello).server_flight().client_flight();
    send(talk, Client, Handshake, frame, At::Payload(0..frame.len()))
}

fn types() -> Vec<Case> {
    vec![
        broken(("empty-payload", "none", "12.4"), "A 1-RTT packet has a payload of 0 bytes.", |talk| {
            talk.handshake().sealed(Client, 1, U32(1), 0, &[]);
            talk.made.numbers[Client as usize][2] += 1;
            let spot = last(talk, Client, Short, 1, At::Packet);
            talk.later();
            spot
        }),
        lawful(("empty-payload", "padding", "12.4"), "A 1-RTT packet has only PADDING.", |talk| {
            plant(talk.handshake(), Client, &[0], 0..1)
        }),
        broken(("unknown-frame", "0x21", "12.4"), "A frame has the type 0x21, behind a PING.", |talk| {
            plant(talk.handshake(), Client, &[1, 0x21], 1..2)
        }),
        lawful(
            ("unknown-frame", "extension", "12.4"),
            "A frame has the type 0x1f, IMMEDIATE_ACK of draft-ietf-quic-ack-frequency, whose min_ack_delay the server \
             sent.",
            |talk| {
                talk.parameters[Server as usize].min_ack_delay = Some(VarInt::from_u32(1));
                plant(talk.handshake(), Client, &[0x1f], 0..1)
            },
        ),
        broken(("long-frame-type", "ping", "12.4"), "A PING's type has two bytes.", |talk| {
            plant(talk.handshake(), Client, &[0x40, 1], 0..2)
        }),
        lawful(
            ("long-frame-type", "fields", "12.4"),
            "The stream id and the length of a STREAM have two bytes each, more than they need; its type has one.",
            |talk| plant(talk.handshake(), Client, &[0x0a, 0x40, 0, 0x40, 1, 0x61], 0..6),
        ),
    ]
}

fn fields() -> Vec<Case> {
    vec![
        broken(("frame-fields", "ack-below-zero", "19.3.1"), "An ACK of number 0 has a first range of 1.", |talk| {
            plant(talk.handshake(), Client, &[2, 0, 0, 0, 1], 0..5)
        }),
        broken(("frame-fields", "crypto-cut", "19.6"), "A CRYPTO's length is beyond the payload's end.", |talk| {
            plant(talk.handshake(), Client, &[0x06, 0, 0x40, 0x80, 0x3a], 0..5)
        }),
        broken(
            ("frame-fields", "stream-end", "19.8"),
            "A STREAM with a byte of data has an offset of 2^62 - 1.",
            |talk| {
                let payload = [0x0e, 0, 0xff, 0xff, 0xff, 0xff, 0xff, 0xff, 0xff, 0xff, 1, 0x61];
                plant(talk.handshake(), Client, &payload, 0..12)
            },
        ),
        broken(("frame-fields", "max-streams", "19.11"), "A MAX_STREAMS permits 2^60 + 1 streams.", |talk| {
            plant(talk.handshake(), Client, &[0x12, 0xd0, 0, 0, 0, 0, 0, 0, 1], 0..9)
        }),
        broken(("frame-fields", "streams-blocked", "19.14"), "A STREAMS_BLOCKED is at 2^60 + 1 streams.", |talk| {
            plant(talk.handshake(), Client, &[0x16, 0xd0, 0, 0, 0, 0, 0, 0, 1], 0..9)
        }),
        broken(("frame-fields", "empty-token", "19.7"), "A server's NEW_TOKEN has a token of 0 bytes.", |talk| {
            plant(talk.handshake(), Server, &[7, 0], 0..2)
        }),
        broken(
            ("frame-fields", "retire-prior-to", "19.15"),
            "NEW_CONNECTION_ID with sequence number 1 has a Retire Prior To of 2.",
            |talk| plant(talk.handshake(), Client, &new_id(1, 2, 8), 0..28),
        ),
        broken(("frame-fields", "id-length-0", "19.15"), "NEW_CONNECTION_ID has an id of 0 bytes.", |talk| {
            plant(talk.handshake(), Client, &new_id(1, 0, 0), 0..20)
        }),
        broken(("frame-fields", "id-length-21", "19.15"), "NEW_CONNECTION_ID has an id of 21 bytes.", |talk| {
            plant(talk.handshake(), Client, &new_id(1, 0, 21), 0..41)
        }),
        lawful(("frame-fields", "max-streams", "19.11"), "A MAX_STREAMS permits 2^60 streams.", |talk| {
            plant(talk.handshake(), Client, &[0x12, 0xd0, 0, 0, 0, 0, 0, 0, 0], 0..9)
        }),
        lawful(
            ("frame-fields", "retire-prior-to", "19.15"),
            "NEW_CONNECTION_ID with sequence number 1 has a Retire Prior To of 1, and an id of 20 bytes.",
            |talk| {
                let spot = send(talk.handshake(), Client, Short, &new_id(1, 1, 20), At::Payload(0..40));
                talk.made.ids[Client as usize] = vec![0xcc; 20];
                talk.short(Server, &[0x19, 0]).later();
                spot
            },
        ),
    ]
}

fn permitted() -> Vec<Case> {
    vec![
        broken(("frame-in-packet", "stream", "17.2.4"), "A Handshake packet has a STREAM.", |talk| {
            in_handshake(talk, STREAM)
        }),
        broken(("frame-in-packet", "done", "17.2.2"), "A server's Initial packet has a HANDSHAKE_DONE.", |talk| {
            let hello = talk.client_hello();
            talk.send(Client, Initial, &hello);
            let spot = send(talk, Server, Initial, &padded(&[&ack(0)[..], &[0x1e]].concat(), 1200), At::Payload(5..6));
            talk.answer().later();
            spot
        }),
        broken(("frame-in-packet", "ack", "17.2.3"), "A 0-RTT packet has an ACK.", |talk| {
            let hello = talk.client_hello();
            talk.send(Client, Initial, &hello);
            let spot = send(talk, Client, ZeroRtt, &ack(0), At::Payload(0..5));
            talk.answer().later();
            spot
        }),
        broken(
            ("frame-in-packet", "close", "17.2.4"),
            "A Handshake packet has a CONNECTION_CLOSE of type 0x1d, of the application.",
            |talk| {
                let hello = talk.client_hello();
                talk.send(Client, Initial, &hello).server_flight().client_flight();
                send(talk, Client, Handshake, &[0x1d, 0, 0], At::Payload(0..3))
            },
        ),
        lawful(("frame-in-packet", "ping", "17.2.4"), "A Handshake packet has a PING.", |talk| {
            in_handshake(talk, PING)
        }),
        broken(("frame-sender", "handshake-done", "19.20"), "The client sends a HANDSHAKE_DONE.", |talk| {
            plant(talk.handshake(), Client, &[0x1e], 0..1)
        }),
        broken(("frame-sender", "new-token", "19.7"), "The client sends a NEW_TOKEN.", |talk| {
            plant(talk.handshake(), Client, &[7, 1, 0xaa], 0..3)
        }),
        lawful(
            ("frame-sender", "server", "19.7"),
            "The server sends a NEW_TOKEN, and a HANDSHAKE_DONE again.",
            |talk| plant(talk.handshake(), Server, &[7, 1, 0xaa, 0x1e], 0..4),
        ),
    ]
}

fn acks() -> Vec<Case> {
    vec![
        broken(
            ("ack-unsent", "later-number", "13.1"),
            "The client acknowledges packet number 40. The server then sends number 2, which acknowledges that packet.",
            |talk| unsent(talk, 2),
        ),
        lawful(
            ("ack-unsent", "reordered", "13.1"),
            "The client acknowledges packet number 40, whose record comes a millisecond later: a capture has two queues.",
            |talk| unsent(talk, 40),
        ),
    ]
}

fn datagrams() -> Vec<Case> {
    vec![
        broken(
            ("datagram-size", "101", "3"),
            "The server's max_datagram_frame_size is 100, and the client's DATAGRAM has 101 bytes.",
            |talk| sized(talk, 98),
        )
        .of(9221),
        broken(
            ("datagram-size", "not-offered", "3"),
            "The server didn't send max_datagram_frame_size, and the client sends a DATAGRAM.",
            |talk| {
                talk.parameters[Server as usize].max_datagram_frame_size = None;
                sized(talk, 1)
            },
        )
        .of(9221),
        lawful(
            ("datagram-size", "100", "3"),
            "The server's max_datagram_frame_size is 100, and the client's DATAGRAM has 100 bytes.",
            |talk| sized(talk, 97),
        )
        .of(9221),
    ]
}

fn paths() -> Vec<Case> {
    vec![
        broken(
            ("path-response", "unasked", "19.18"),
            "The client sends a PATH_RESPONSE, and the server sent no PATH_CHALLENGE.",
            |talk| plant(talk.handshake(), Client, &padded(RESPONSE, FULL), 0..9),
        ),
        broken(
            ("path-response", "other-data", "19.18"),
            "The client's PATH_RESPONSE has other data than the server's PATH_CHALLENGE.",
            |talk| {
                talk.handshake().short(Server, &padded(CHALLENGE, 1200));
                plant(talk, Client, &padded(b"\x1b12345679", FULL), 0..9)
            },
        ),
        lawful(
            ("path-response", "asked", "19.18"),
            "The client's PATH_RESPONSE has the data of the server's PATH_CHALLENGE.",
            |talk| {
                talk.handshake().short(Server, &padded(CHALLENGE, 1200));
                plant(talk, Client, &padded(RESPONSE, FULL), 0..9)
            },
        ),
        broken(("response-twice", "packets", "8.2.2"), "The client answers a PATH_CHALLENGE in two packets.", |talk| {
            talk.handshake().short(Server, &padded(CHALLENGE, 1200)).short(Client, &padded(RESPONSE, FULL));
            plant(talk, Client, &padded(RESPONSE, FULL), 0..9)
        }),
        lawful(
            ("response-twice", "copy", "8.2.2"),
            "The network delivers a packet with a PATH_RESPONSE twice.",
            |talk| {
                talk.handshake().short(Server, &padded(CHALLENGE, 1200));
                let spot = send(talk, Client, Short, &padded(RESPONSE, FULL), At::Payload(0..9));
                let copy = talk.all.last().unwrap().clone();
                talk.all.push(copy);
                talk.later();
                spot
            },
        ),
        broken(
            ("response-path", "old-address", "8.2.2"),
            "The client sends a PATH_CHALLENGE from another port, and the server's PATH_RESPONSE goes to the first one.",
            |talk| moved(talk, false),
        ),
        lawful(
            ("response-path", "new-address", "8.2.2"),
            "The client sends a PATH_CHALLENGE from another port, to which the server's PATH_RESPONSE goes.",
            |talk| moved(talk, true),
        ),
        broken(("challenge-data", "same", "8.2.1"), "Two PATH_CHALLENGEs of the client have the same data.", |talk| {
            talk.handshake().short(Client, &padded(CHALLENGE, FULL));
            plant(talk, Client, &padded(CHALLENGE, FULL), 0..9)
        }),
        lawful(
            ("challenge-data", "of-peer", "8.2.1"),
            "The client's PATH_CHALLENGE has the data of the server's.",
            |talk| {
                talk.handshake().short(Server, &padded(CHALLENGE, 1200));
                plant(talk, Client, &padded(CHALLENGE, FULL), 0..9)
            },
        ),
        broken(("path-size", "challenge", "8.2.1"), "A PATH_CHALLENGE is in a datagram of 1199 bytes.", |talk| {
            challenge(talk, FULL - 1)
        }),
        broken(("path-size", "response", "8.2.2"), "A PATH_RESPONSE is in a datagram of 1199 bytes.", |talk| {
            talk.handshake().short(Server, &padded(CHALLENGE, 1200));
            plant(talk, Client, &padded(RESPONSE, FULL - 1), 0..9)
        }),
        lawful(("path-size", "1200", "8.2.1"), "A PATH_CHALLENGE is in a datagram of 1200 bytes.", |talk| {
            challenge(talk, FULL)
        }),
    ]
}

// NEW_CONNECTION_ID with an id of so many bytes.
fn new_id(sequence: u8, retire_prior_to: u8, len: u8) -> Vec<u8> {
    [&[0x18, sequence, retire_prior_to, len][..], &vec![0xcc; len.into()], &[0xdd; 16]].concat()
}

// The client's challenge from another port, and the server's answer to that or to the first one.
fn moved(talk: &mut Talk, is_answered_there: bool) -> Spot {
    let first = talk.handshake().made.addresses[0];
    talk.made.addresses[0].set_port(5);
    talk.short(Client, &padded(CHALLENGE, FULL));
    if !is_answered_there {
        talk.made.addresses[0] = first;
    }
    let spot = send(talk, Server, Short, &padded(RESPONSE, 1200), At::Payload(0..9));
    talk.made.addresses[0] = first;
    talk.later();
    spot
}

// The client's challenge in a payload of so many bytes, which the server answers.
fn challenge(talk: &mut Talk, len: usize) -> Spot {
    let spot = send(talk.handshake(), Client, Short, &padded(CHALLENGE, len), At::Payload(0..9));
    talk.short(Server, &padded(RESPONSE, 1200)).later();
    spot
}

// Before the handshake is confirmed.
fn in_handshake(talk: &mut Talk, payload: &[u8]) -> Spot {
    let hello = talk.client_hello();
    talk.send(Client, Initial, &hello).server_flight().client_flight();
    let spot = send(talk, Client, Handshake, payload, At::Payload(0..payload.len()));
    talk.confirm().later();
    spot
}

// The server's next packet has a number, and acknowledges the client's.
fn unsent(talk: &mut Talk, number: u64) -> Spot {
    let spot = send(talk.handshake(), Client, Short, &ack_of(40), At::Payload(0..6));
    talk.sealed(Side::Server, number, U32(number as u32), 0, &ack(1));
    spot
}

// A DATAGRAM with so many bytes of data, behind a type and a length of 3 bytes.
fn sized(talk: &mut Talk, len: u8) -> Spot {
    let payload = [&[0x31, 0x40, len][..], &vec![0; len.into()]].concat();
    plant(talk.handshake(), Client, &payload, 0..payload.len())
}
