//! Of the handshake: rules of src/rules/handshake.rs. Those about a Retry are in retry.rs.
use super::{At, Case, Spot, broken, last, lawful, plant, send, swap_last};
use crate::made::{Client, Handshake, Initial, Server, Short, ZeroRtt, crypto};
use crate::talk::{PING, Talk, ack, padded};
use quic_wire::packet::VERSION_2;
use quic_wire_capture::keys::VERSION_1;

const HANDSHAKE_DONE: &[u8] = &[0x1e];

// Where the length of legacy_session_id is in a ClientHello (RFC 8446, sections 4 and 4.1.2).
const SESSION_ID: usize = 38;

// How many bytes a Finished has (RFC 8446, sections 4 and 4.4.4).
const FINISHED: u64 = 36;

pub fn all() -> Vec<Case> {
    [session_ids(), messages(), versions(), done()].into_iter().flatten().collect()
}

fn session_ids() -> Vec<Case> {
    vec![
        broken(
            ("session-id", "compatibility", "8.4"),
            "The ClientHello has a legacy_session_id of 32 bytes, as TLS has it over TCP.",
            |talk| {
                talk.session_id = vec![5; 32];
                in_two_frames(talk)
            },
        )
        .of(9001),
        lawful(
            ("session-id", "empty", "8.4"),
            "The ClientHello has an empty legacy_session_id, in two CRYPTO frames that are out of order.",
            in_two_frames,
        )
        .of(9001),
    ]
}

// The ClientHello, whose end comes first, from the length of the session id on.
fn in_two_frames(talk: &mut Talk) -> Spot {
    let hello = talk.client_message();
    let (front, back) = hello.split_at(SESSION_ID);
    let back = crypto(SESSION_ID as u64, back);
    let payload = padded(&[&back[..], &crypto(0, front)].concat(), 1200);
    let spot = send(talk, Client, Initial, &payload, At::Payload(0..back.len()));
    talk.answer().later();
    spot
}

fn messages() -> Vec<Case> {
    vec![
        broken(("tls-message", "key-update", "6"), "The client sends a KeyUpdate of TLS.", |talk| {
            let frame = crypto(0, &[24, 0, 0, 1, 0]);
            plant(talk.handshake(), Client, &frame, 0..frame.len())
        })
        .of(9001),
        broken(
            ("tls-message", "certificate-request", "4.4"),
            "The server sends a CertificateRequest of TLS after a NewSessionTicket.",
            |talk| {
                let frame = crypto(0, &[4, 0, 0, 2, 24, 24, 13, 0, 0, 3, 0, 0, 0]);
                plant(talk.handshake(), Server, &frame, 0..frame.len())
            },
        )
        .of(9001),
        broken(
            ("tls-message", "end-of-early-data", "8.3"),
            "The client sends an EndOfEarlyData of TLS after its Finished.",
            |talk| {
                let (hello, frame) = (talk.client_hello(), crypto(FINISHED, &[5, 0, 0, 0]));
                talk.send(Client, Initial, &hello).server_flight().client_flight();
                let spot = send(talk, Client, Handshake, &frame, At::Payload(0..frame.len()));
                talk.confirm().later();
                spot
            },
        )
        .of(9001),
        lawful(
            ("tls-message", "ticket", "6"),
            "The server sends a NewSessionTicket of TLS, in whose data the number of KeyUpdate is.",
            |talk| {
                let frame = crypto(0, &[4, 0, 0, 4, 24, 0, 0, 0]);
                plant(talk.handshake(), Server, &frame, 0..frame.len())
            },
        )
        .of(9001),
    ]
}

// Of a connection that begins with version 1, and for which the server chooses version 2.
fn versions() -> Vec<Case> {
    let cases = vec![
        broken(
            ("crypto-version", "both", "4.1"),
            "The server sends CRYPTO in an Initial packet of version 1, then in one of version 2.",
            |talk| upgraded(talk, &[&ack(0)[..], &crypto(0, &talk.server_hello())].concat()),
        ),
        lawful(
            ("crypto-version", "ack", "4.1"),
            "The server sends an ACK in an Initial packet of version 1, then CRYPTO in one of version 2.",
            |talk| upgraded(talk, &ack(0)),
        ),
        broken(
            ("early-version", "negotiated", "4.1"),
            "The client sends a 0-RTT packet of version 2, once the server has answered with that.",
            |talk| early(talk, VERSION_2),
        ),
        lawful(
            ("early-version", "first", "4.1"),
            "The client sends a 0-RTT packet of version 1, while the server has answered with version 2.",
            |talk| early(talk, VERSION_1),
        ),
    ];
    cases.into_iter().map(|case| case.of(9369)).collect()
}

// The server answers with these frames in version 1, then with its first flight in version 2.
fn upgraded(talk: &mut Talk, frames: &[u8]) -> Spot {
    let hello = talk.client_hello();
    talk.send(Client, Initial, &hello).send(Server, Initial, &padded(frames, 1200)).made.version = VERSION_2;
    let acknowledgment = ack(0).len();
    talk.server_flight();
    let hello = crypto(0, &talk.server_hello()).len();
    let spot = last(talk, Server, Initial, 1, At::Payload(acknowledgment..acknowledgment + hello));
    talk.client_flight().confirm().later();
    spot
}

// The server answers with version 2, and then the client sends a 0-RTT packet of a version.
fn early(talk: &mut Talk, version: u32) -> Spot {
    let hello = talk.client_hello();
    talk.send(Client, Initial, &hello).made.version = VERSION_2;
    talk.server_flight().made.version = version;
    let spot = send(talk, Client, ZeroRtt, PING, At::Datagram(1));
    talk.made.version = VERSION_2;
    talk.client_flight().confirm().later();
    spot
}

fn done() -> Vec<Case> {
    vec![
        broken(
            ("early-done", "server", "19.20"),
            "The server sends HANDSHAKE_DONE a second before any Handshake packet of the client.",
            |talk| {
                let hello = talk.client_hello();
                talk.send(Client, Initial, &hello).server_flight();
                let spot = send(talk, Server, Short, HANDSHAKE_DONE, At::Payload(0..1));
                talk.made.time += 1_000_000_000;
                talk.client_flight().short(Client, &ack(0)).later();
                spot
            },
        ),
        lawful(
            ("early-done", "reordered", "19.20"),
            "HANDSHAKE_DONE is in the file before the client's first Handshake packet, by a millisecond.",
            |talk| {
                let hello = talk.client_hello();
                talk.send(Client, Initial, &hello).server_flight().client_flight();
                let mut spot = send(talk, Server, Short, HANDSHAKE_DONE, At::Payload(0..1));
                swap_last(talk);
                spot.index -= 1;
                talk.confirm().later();
                spot
            },
        ),
    ]
}
