//! Of keys that are updated or discarded: rules of src/rules/keys.rs and src/rules/packets.rs.
use super::{At, Case, Spot, broken, last, lawful, send, swap_last};
use crate::common::Kept;
use crate::made::{Client, Handshake, Initial, Server, Short, ZeroRtt};
use crate::talk::{PING, Talk, ack, all_to};

const SECOND: u64 = 1_000_000_000;

pub fn all() -> Vec<Case> {
    [discarded(), early(), updated(), too_early(), too_often()].into_iter().flatten().collect()
}

fn discarded() -> Vec<Case> {
    vec![
        broken(
            ("discarded-keys", "server", "4.9.1"),
            "The server sends an Initial packet two seconds after it acknowledged a Handshake packet.",
            |talk| {
                talk.handshake().made.time += 2 * SECOND;
                let spot = send(talk, Server, Initial, &ack(0), At::Datagram(0));
                talk.later();
                spot
            },
        )
        .of(9001),
        broken(
            ("discarded-keys", "handshake", "4.9.2"),
            "The client sends a Handshake packet two seconds after it acknowledged HANDSHAKE_DONE.",
            |talk| handshake(talk.handshake(), Client),
        )
        .of(9001),
        broken(
            ("discarded-keys", "handshake-of-server", "4.9.2"),
            "The server sends a Handshake packet two seconds after HANDSHAKE_DONE.",
            |talk| handshake(talk.handshake(), Server),
        )
        .of(9001),
        lawful(
            ("discarded-keys", "unconfirmed", "4.9.2"),
            "The client sends a Handshake packet again after two seconds in which no HANDSHAKE_DONE came.",
            |talk| {
                let hello = talk.client_hello();
                talk.send(Client, Initial, &hello).server_flight().client_flight().made.time += 2 * SECOND;
                let spot = send(talk, Client, Handshake, PING, At::Datagram(0));
                talk.confirm().later();
                spot
            },
        )
        .of(9001),
    ]
}

fn early() -> Vec<Case> {
    vec![
        broken(
            ("zero-rtt-late", "number", "17.2.3"),
            "The client sends a 0-RTT packet with a greater number than that of a 1-RTT packet.",
            |talk| {
                let spot = send(talk.handshake(), Client, ZeroRtt, PING, At::Datagram(0));
                talk.later();
                spot
            },
        ),
        lawful(
            ("zero-rtt-late", "reordered", "17.2.3"),
            "A 0-RTT packet with a smaller number comes after a 1-RTT packet.",
            |talk| {
                let hello = talk.client_hello();
                talk.send(Client, Initial, &hello).send(Client, ZeroRtt, PING);
                let late = talk.all.pop().unwrap();
                talk.answer();
                talk.all.push(Kept { time: talk.made.time, ..late });
                let spot = last(talk, Client, ZeroRtt, 0, At::Datagram(0));
                talk.later();
                spot
            },
        ),
    ]
}

fn updated() -> Vec<Case> {
    vec![
        broken(
            ("old-keys", "greater-number", "6.4"),
            "After a packet with new keys the client sends one with a greater number and the old keys.",
            |talk| {
                update(talk);
                talk.made.updates = [0, 1];
                let spot = send(talk, Client, Short, PING, At::Datagram(0));
                talk.made.updates = [1, 1];
                talk.later();
                spot
            },
        )
        .of(9001),
        lawful(
            ("old-keys", "reordered", "6.4"),
            "A packet with the old keys and a smaller number comes after one with new keys.",
            |talk| {
                talk.handshake().short(Client, PING).made.updates = [1, 0];
                talk.short(Client, PING).made.updates = [1, 1];
                swap_last(talk);
                let spot = last(talk, Client, Short, 1, At::Datagram(0));
                talk.later();
                spot
            },
        )
        .of(9001),
        broken(
            ("update-answer", "old-keys", "6.2"),
            "The server acknowledges a packet with new keys in one with old keys.",
            |talk| answer(talk, 0),
        )
        .of(9001),
        lawful(
            ("update-answer", "new-keys", "6.2"),
            "The server acknowledges a packet with new keys in one with new keys.",
            |talk| answer(talk, 1),
        )
        .of(9001),
    ]
}

fn too_early() -> Vec<Case> {
    vec![
        broken(
            ("early-update", "client", "6.1"),
            "The client updates its keys before HANDSHAKE_DONE and any ACK of its 1-RTT packets.",
            |talk| {
                half_open(talk).client_flight().made.updates = [1, 0];
                let spot = send(talk, Client, Short, PING, At::Datagram(0));
                talk.made.time += SECOND;
                talk.made.updates = [1, 1];
                talk.short(Server, &ack(0)).confirm().later();
                spot
            },
        )
        .of(9001),
        broken(
            ("early-update", "server", "6.1"),
            "The server updates its keys before any Handshake packet of the client.",
            |talk| {
                half_open(talk).made.updates = [0, 1];
                let spot = send(talk, Server, Short, PING, At::Datagram(0));
                talk.made.time += SECOND;
                talk.made.updates = [1, 1];
                talk.client_flight().confirm().later();
                spot
            },
        )
        .of(9001),
        lawful(
            ("early-update", "acknowledged", "6.1"),
            "The client updates its keys before HANDSHAKE_DONE, after an ACK of a 1-RTT packet.",
            |talk| {
                half_open(talk).client_flight().short(Client, PING).short(Server, &ack(0)).made.updates = [1, 0];
                let spot = send(talk, Client, Short, PING, At::Datagram(0));
                talk.made.time += SECOND;
                talk.made.updates = [1, 1];
                talk.confirm().later();
                spot
            },
        )
        .of(9001),
        lawful(
            ("early-update", "answer", "6.1"),
            "The client answers an update of the server before HANDSHAKE_DONE.",
            |talk| {
                half_open(talk).client_flight().made.updates = [0, 1];
                talk.short(Server, PING).made.updates = [1, 1];
                let spot = send(talk, Client, Short, PING, At::Datagram(0));
                talk.made.time += SECOND;
                talk.confirm().later();
                spot
            },
        )
        .of(9001),
    ]
}

fn too_often() -> Vec<Case> {
    vec![
        broken(
            ("second-update", "unacknowledged", "6.1"),
            "The client updates its keys again, before a packet with those that it has was acknowledged.",
            |talk| {
                update(talk);
                again(talk)
            },
        )
        .of(9001),
        lawful(
            ("second-update", "acknowledged", "6.1"),
            "The client updates its keys again, after a packet with those that it has was acknowledged.",
            |talk| {
                update(talk);
                talk.short(Server, &all_to(talk.made.numbers[Client as usize][2] - 1));
                again(talk)
            },
        )
        .of(9001),
        lawful(
            ("second-update", "answer", "6.1"),
            "The server answers a second update, while none of its packets with the keys before was acknowledged.",
            |talk| {
                update(talk);
                talk.short(Server, &all_to(talk.made.numbers[Client as usize][2] - 1)).made.updates = [2, 1];
                talk.short(Client, PING).made.updates = [2, 2];
                let spot = send(talk, Server, Short, PING, At::Datagram(0));
                talk.later();
                spot
            },
        )
        .of(9001),
    ]
}

// The client's second update, which the server answers a second later.
fn again(talk: &mut Talk) -> Spot {
    talk.made.updates = [2, 1];
    let spot = send(talk, Client, Short, PING, At::Datagram(0));
    talk.made.updates = [2, 2];
    talk.later();
    spot
}

// Up to the server's first datagram.
fn half_open(talk: &mut Talk) -> &mut Talk {
    let hello = talk.client_hello();
    talk.send(Client, Initial, &hello).server_flight()
}

fn handshake(talk: &mut Talk, sender: quic_wire::Side) -> Spot {
    talk.made.time += 2 * SECOND;
    let spot = send(talk, sender, Handshake, PING, At::Datagram(0));
    talk.later();
    spot
}

// The client updates its keys, and the server answers that.
fn update(talk: &mut Talk) {
    talk.handshake().made.updates = [1, 0];
    talk.short(Client, PING).made.updates = [1, 1];
    talk.short(Server, PING);
}

// The client updates its keys, and the server acknowledges that with keys that it updated so often.
fn answer(talk: &mut Talk, updates: usize) -> Spot {
    talk.handshake().made.updates = [1, 0];
    talk.short(Client, PING).made.updates = [1, updates];
    let acknowledged = all_to(talk.made.numbers[Client as usize][2] - 1);
    let spot = send(talk, Server, Short, &acknowledged, At::Payload(0..acknowledged.len()));
    talk.made.updates = [1, 1];
    talk.later();
    spot
}
