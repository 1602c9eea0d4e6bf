//! Of the rules of src/rules/parameters.rs.
use super::{At, Case, Spot, broken, lawful};
use crate::made::{Client, Handshake, Initial, Server};
use crate::talk::Talk;
use quic_wire::{ConnectionId, Side};

pub fn all() -> Vec<Case> {
    [values(), versions(), ids(), after_retry()].into_iter().flatten().collect()
}

// Entries of the client's list: id, length, value (RFC 9000, section 18).
fn values() -> Vec<Case> {
    vec![
        broken(("parameter", "exponent", "18.2"), "ack_delay_exponent is 21.", |talk| with(talk, &[0x0a, 1, 21])),
        broken(("parameter", "payload-size", "18.2"), "max_udp_payload_size is 1199.", |talk| {
            with(talk, &[3, 2, 0x44, 0xaf])
        }),
        broken(("parameter", "id-limit", "18.2"), "active_connection_id_limit is 1.", |talk| with(talk, &[0x0e, 1, 1])),
        broken(("parameter", "reset-token", "18.2"), "The client sends a stateless_reset_token.", |talk| {
            with(talk, &[&[2, 16][..], &[7; 16]].concat())
        }),
        broken(("parameter", "twice", "7.4"), "max_idle_timeout is there twice.", |talk| {
            with(talk, &[1, 1, 5, 1, 1, 5])
        }),
        lawful(
            ("parameter", "greatest-and-least", "18.2"),
            "ack_delay_exponent is 20, max_udp_payload_size 1200, and active_connection_id_limit 2.",
            |talk| with(talk, &[0x0a, 1, 20, 3, 2, 0x44, 0xb0, 0x0e, 1, 2]),
        ),
        lawful(("parameter", "reserved", "18.1"), "The list has a parameter with the reserved id 58.", |talk| {
            with(talk, &[58, 2, 1, 2])
        }),
    ]
}

// version_information (RFC 9368, section 3): a chosen version, then those that are available.
fn versions() -> Vec<Case> {
    const BOTH: &[u8] = &[0, 0, 0, 1, 0x6b, 0x33, 0x43, 0xcf, 0, 0, 0, 1];
    let of = |cases: Vec<Case>| cases.into_iter().map(|case| case.of(9368));
    let information = vec![
        broken(("version-information", "chosen-0", "3"), "The client's chosen version is 0.", |talk| {
            informed(talk, Client, &[0, 0, 0, 0, 0, 0, 0, 1])
        }),
        broken(("version-information", "five-bytes", "3"), "The client's version_information has 5 bytes.", |talk| {
            informed(talk, Client, &BOTH[..5])
        }),
        lawful(
            ("version-information", "both", "3"),
            "The client's chosen version is 1, and versions 2 and 1 are available.",
            |talk| informed(talk, Client, BOTH),
        ),
    ];
    let chosen = vec![
        broken(
            ("chosen-version", "client", "4"),
            "The client's packet has version 1, and its chosen version is 2.",
            |talk| informed(talk, Client, &[&BOTH[4..8], &BOTH[4..]].concat()),
        ),
        broken(
            ("chosen-version", "server", "4"),
            "The server's packet has version 1, and its chosen version is 2.",
            |talk| informed(talk, Server, &BOTH[4..]),
        ),
        lawful(
            ("chosen-version", "available", "4"),
            "The server's packet has version 1, which is its chosen version, and version 2 is available, too.",
            |talk| informed(talk, Server, BOTH),
        ),
    ];
    let available = vec![
        broken(
            ("chosen-available", "client", "3"),
            "The client's chosen version is 1, and only version 2 is available.",
            |talk| informed(talk, Client, &BOTH[..8]),
        ),
        lawful(
            ("chosen-available", "server", "3"),
            "The server's chosen version is 1, and only version 2 is available.",
            |talk| informed(talk, Server, &BOTH[..8]),
        ),
    ];
    of(information).chain(of(chosen)).chain(of(available)).collect()
}

fn ids() -> Vec<Case> {
    vec![
        broken(
            ("initial-source-id", "client", "7.3"),
            "The client's initial_source_connection_id isn't the Source Connection ID of its Initial packet.",
            |talk| {
                talk.parameters[0].initial_src_cid = Some(ConnectionId::new(b"x"));
                whole(talk, Client)
            },
        ),
        broken(
            ("initial-source-id", "server", "7.3"),
            "The server's initial_source_connection_id isn't the Source Connection ID of its Initial packet.",
            |talk| {
                talk.parameters[1].initial_src_cid = Some(ConnectionId::new(b"x"));
                whole(talk, Server)
            },
        ),
        lawful(
            ("initial-source-id", "empty", "7.3"),
            "The client's initial_source_connection_id is empty, as is its Source Connection ID.",
            |talk| {
                talk.made.ids[0] = Vec::new();
                talk.parameters[0].initial_src_cid = Some(ConnectionId::default());
                whole(talk, Client)
            },
        ),
        broken(
            ("original-destination-id", "other", "7.3"),
            "original_destination_connection_id isn't the id to which the client sent first.",
            |talk| {
                talk.parameters[1].original_dst_cid = Some(ConnectionId::new(b"x"));
                whole(talk, Server)
            },
        ),
    ]
}

fn after_retry() -> Vec<Case> {
    vec![
        broken(
            ("original-destination-id", "of-retry", "7.3"),
            "original_destination_connection_id is the id to which the client sent after a Retry.",
            |talk| {
                talk.parameters[1].original_dst_cid = Some(ConnectionId::new(b"retried"));
                retried(talk, Some(b"retried"))
            },
        ),
        lawful(
            ("original-destination-id", "retry", "7.3"),
            "original_destination_connection_id is the id to which the client sent before a Retry.",
            |talk| retried(talk, Some(b"retried")),
        ),
        broken(
            ("retry-source-id", "none", "7.3"),
            "There is a Retry, and the server doesn't send retry_source_connection_id.",
            |talk| retried(talk, None),
        ),
        broken(
            ("retry-source-id", "no-retry", "7.3"),
            "There is no Retry, and the server sends retry_source_connection_id.",
            |talk| {
                talk.parameters[1].retry_src_cid = Some(ConnectionId::new(b"x"));
                whole(talk, Server)
            },
        ),
        lawful(
            ("retry-source-id", "retry", "7.3"),
            "retry_source_connection_id is the Source Connection ID of the Retry.",
            |talk| retried(talk, Some(b"retried")),
        ),
    ]
}

// The packet with a side's parameters, after the rest of the connection.
fn whole(talk: &mut Talk, side: Side) -> Spot {
    talk.handshake().later();
    let (index, kind) = if side == Client { (0, Initial) } else { (1, Handshake) };
    Spot { index, sender: side, kind, number: Some(0), at: At::Packet }
}

fn with(talk: &mut Talk, more: &[u8]) -> Spot {
    talk.more[Client as usize] = more.to_vec();
    whole(talk, Client)
}

// With version_information of a side.
fn informed(talk: &mut Talk, side: Side, value: &[u8]) -> Spot {
    talk.more[side as usize] = [&[0x11, value.len() as u8], value].concat();
    whole(talk, side)
}

// With a Retry, after which the server sends this retry_source_connection_id.
fn retried(talk: &mut Talk, given: Option<&[u8]>) -> Spot {
    let hello = talk.client_hello();
    talk.send(Client, Initial, &hello);
    let retry = talk.made.retry(b"retried");
    talk.all.push(retry);
    talk.parameters[Server as usize].retry_src_cid = given.map(ConnectionId::new);
    talk.send(Client, Initial, &hello).answer().later();
    Spot { index: 3, sender: Server, kind: Handshake, number: Some(0), at: At::Packet }
}
