//! Of the rules of src/rules/ids.rs. Each side permits two active ids.
use super::{At, Case, Spot, broken, last, lawful, plant, send, swap_last};
use crate::made::{Client, Server, Short, frame};
use crate::talk::{PING, Talk, all_to};
use quic_wire::ConnectionId;
use quic_wire::frame::{Frame, NewConnectionId};

pub fn all() -> Vec<Case> {
    [issued(), sequences(), retired(), stopped()].into_iter().flatten().collect()
}

fn issued() -> Vec<Case> {
    vec![
        broken(
            ("id-without-bytes", "client", "19.15"),
            "The client's first id is empty, and it sends NEW_CONNECTION_ID.",
            |talk| without_bytes(talk, Client),
        ),
        lawful(
            ("id-without-bytes", "server", "19.15"),
            "The client's first id is empty, and the server sends NEW_CONNECTION_ID.",
            |talk| without_bytes(talk, Server),
        ),
        broken(("id-changed", "id", "19.15"), "Sequence number 1 has another id than before.", |talk| {
            issue(talk, &[new_id(1, 0, b"first", 7), new_id(1, 0, b"other", 7)])
        }),
        broken(("id-changed", "token", "19.15"), "Sequence number 1 has another reset token than before.", |talk| {
            issue(talk, &[new_id(1, 0, b"first", 7), new_id(1, 0, b"first", 8)])
        }),
        lawful(("id-changed", "again", "19.15"), "NEW_CONNECTION_ID is sent again.", |talk| {
            issue(talk, &[new_id(1, 0, b"first", 7), new_id(1, 0, b"first", 7)])
        }),
        broken(("id-twice", "sequence", "19.15"), "An id is given with sequence number 1 and with 2.", |talk| {
            issue_and_retire(talk, &[new_id(1, 0, b"first", 7), new_id(2, 1, b"first", 8)])
        }),
        lawful(("id-twice", "longer", "19.15"), "The id with sequence number 2 begins with that with 1.", |talk| {
            issue_and_retire(talk, &[new_id(1, 0, b"first", 7), new_id(2, 1, b"first2", 8)])
        }),
        broken(
            ("id-count", "three", "5.1.1"),
            "The client's active_connection_id_limit is 2, and the server has three active ids.",
            |talk| issue(talk, &[new_id(1, 0, b"first", 7), new_id(2, 0, b"second", 8)]),
        ),
        lawful(
            ("id-count", "retired", "5.1.1"),
            "The client's active_connection_id_limit is 2, and the server's third id comes with a Retire Prior To of 1.",
            |talk| issue_and_retire(talk, &[new_id(1, 0, b"first", 7), new_id(2, 1, b"second", 8)]),
        ),
    ]
}

fn sequences() -> Vec<Case> {
    vec![
        broken(
            ("id-sequence", "gap", "5.1.1"),
            "The server gives an id with sequence number 2, and none with 1.",
            |talk| {
                let new = new_id(2, 0, b"second", 8);
                plant(talk.handshake(), Server, &new, 0..new.len())
            },
        ),
        lawful(
            ("id-sequence", "reordered", "5.1.1"),
            "The server gives an id with sequence number 2 in a packet before that with 1.",
            |talk| issue_and_retire(talk, &[new_id(2, 1, b"second", 8), new_id(1, 0, b"first", 7)]),
        ),
        broken(
            ("token-twice", "sequence", "10.3"),
            "The ids with sequence numbers 1 and 2 have one reset token.",
            |talk| issue_and_retire(talk, &[new_id(1, 0, b"first", 7), new_id(2, 1, b"second", 7)]),
        ),
        lawful(("token-twice", "again", "10.3"), "NEW_CONNECTION_ID is sent again, with its reset token.", |talk| {
            issue(talk, &[new_id(1, 0, b"first", 7), new_id(1, 0, b"first", 7)])
        }),
    ]
}

fn stopped() -> Vec<Case> {
    vec![
        broken(
            ("retire-prior", "after-ack", "5.1.2"),
            "The client acknowledges a Retire Prior To of 1, and then sends to the id with sequence number 0.",
            |talk| {
                talk.handshake().short(Server, &new_id(1, 1, b"first", 7));
                let acknowledged = all_to(talk.made.numbers[Server as usize][2] - 1);
                let spot = send(talk.short(Client, &acknowledged), Client, Short, PING, At::Datagram(1));
                talk.made.ids[Server as usize] = b"first".to_vec();
                talk.short(Client, &[0x19, 0]).later();
                spot
            },
        ),
        lawful(
            ("retire-prior", "reordered", "5.1.2"),
            "A packet to the id with sequence number 0 comes after one with a greater number that acknowledges a Retire \
             Prior To of 1.",
            |talk| {
                talk.handshake().short(Server, &new_id(1, 1, b"first", 7));
                let acknowledged = all_to(talk.made.numbers[Server as usize][2] - 1);
                talk.short(Client, PING).made.ids[Server as usize] = b"first".to_vec();
                talk.short(Client, &[&acknowledged[..], &[0x19, 0]].concat());
                swap_last(talk);
                let spot = last(talk, Client, Short, 1, At::Datagram(1));
                talk.later();
                spot
            },
        ),
        broken(
            ("retired-id", "after", "5.1.2"),
            "The client retires the id with sequence number 0, and then sends to it.",
            |talk| {
                talk.handshake().short(Server, &new_id(1, 0, b"first", 7));
                let retired = std::mem::replace(&mut talk.made.ids[Server as usize], b"first".to_vec());
                talk.short(Client, &[0x19, 0]);
                let next = std::mem::replace(&mut talk.made.ids[Server as usize], retired);
                let spot = send(talk, Client, Short, PING, At::Datagram(1));
                talk.made.ids[Server as usize] = next;
                talk.later();
                spot
            },
        ),
        lawful(
            ("retired-id", "reordered", "5.1.2"),
            "A packet to the id with sequence number 0 comes after one with a greater number that retires it.",
            |talk| {
                talk.handshake().short(Server, &new_id(1, 0, b"first", 7)).short(Client, PING);
                talk.made.ids[Server as usize] = b"first".to_vec();
                talk.short(Client, &[0x19, 0]);
                swap_last(talk);
                let spot = last(talk, Client, Short, 1, At::Datagram(1));
                talk.later();
                spot
            },
        ),
        broken(
            ("retire-without-bytes", "server", "19.16"),
            "The client's first id is empty, and the server sends RETIRE_CONNECTION_ID.",
            |talk| {
                empty_id(talk);
                plant(talk.handshake(), Server, &[0x19, 0], 0..2)
            },
        ),
        lawful(
            ("retire-without-bytes", "client", "19.16"),
            "The client's first id is empty, and it retires one of the server's.",
            |talk| {
                empty_id(talk);
                talk.handshake().short(Server, &new_id(1, 0, b"first", 7));
                talk.made.ids[Server as usize] = b"first".to_vec();
                plant(talk, Client, &[0x19, 0], 0..2)
            },
        ),
    ]
}

fn retired() -> Vec<Case> {
    vec![
        broken(
            ("retire-unknown", "5", "19.16"),
            "The server retires the client's id with sequence number 5, and the client gave only one.",
            |talk| plant(talk.handshake(), Server, &[0x19, 5], 0..2),
        ),
        lawful(
            ("retire-unknown", "1", "19.16"),
            "The server retires the client's id with sequence number 1, which the client gave.",
            |talk| {
                talk.handshake().short(Client, &new_id(1, 0, b"next", 7));
                plant(talk, Server, &[0x19, 1], 0..2)
            },
        ),
        broken(
            ("retire-own", "same", "19.16"),
            "The server retires the client's id with sequence number 0 in a packet that goes to that id.",
            |talk| {
                talk.handshake().short(Client, &new_id(1, 0, b"next", 7));
                let spot = send(talk, Server, Short, &[0x19, 0], At::Payload(0..2));
                talk.made.ids[Client as usize] = b"next".to_vec();
                talk.later();
                spot
            },
        ),
        lawful(
            ("retire-own", "other", "19.16"),
            "The server retires the client's id with sequence number 0 in a packet that goes to the next one.",
            |talk| {
                talk.handshake().short(Client, &new_id(1, 0, b"next", 7));
                talk.made.ids[Client as usize] = b"next".to_vec();
                plant(talk, Server, &[0x19, 0], 0..2)
            },
        ),
    ]
}

fn new_id(sequence: u64, retire_prior_to: u64, id: &[u8], token: u8) -> Vec<u8> {
    let (id, reset_token) = (ConnectionId::new(id), [token; 16].into());
    frame(&Frame::NewConnectionId(NewConnectionId { sequence, retire_prior_to, id, reset_token }))
}

// The server sends two frames, of which the second is meant.
fn issue(talk: &mut Talk, frames: &[Vec<u8>; 2]) -> Spot {
    talk.handshake().short(Server, &frames[0]);
    plant(talk, Server, &frames[1], 0..frames[1].len())
}

// The same, after which the client retires the first id and sends to the next one.
fn issue_and_retire(talk: &mut Talk, frames: &[Vec<u8>; 2]) -> Spot {
    talk.handshake().short(Server, &frames[0]);
    let spot = send(talk, Server, Short, &frames[1], At::Payload(0..frames[1].len()));
    talk.made.ids[Server as usize] = b"first".to_vec();
    talk.short(Client, &[0x19, 0]).later();
    spot
}

fn empty_id(talk: &mut Talk) {
    talk.made.ids[Client as usize] = Vec::new();
    talk.parameters[Client as usize].initial_src_cid = Some(ConnectionId::default());
}

fn without_bytes(talk: &mut Talk, sender: quic_wire::Side) -> Spot {
    empty_id(talk);
    let new = new_id(1, 0, b"first", 7);
    plant(talk.handshake(), sender, &new, 0..new.len())
}
