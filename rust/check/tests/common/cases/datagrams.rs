//! Of the rules of src/rules/datagrams.rs.
use super::{At, Case, Spot, broken, last, lawful, send};
use crate::made::{Client, Initial, Server, Short, crypto, frame};
use crate::talk::{PING, Talk, ack, padded};
use quic_wire::frame::{Frame, NewConnectionId};
use quic_wire::{ConnectionId, VarInt};

// The bytes of a client's Initial packet beside its payload: first byte, version, ids of 8 and 4 bytes with their
// lengths, the token's and the packet's length, a number of a byte, and the tag (RFC 9000, section 17.2.2).
const AROUND_INITIAL: usize = 1 + 4 + 9 + 5 + 1 + 2 + 1 + 16;
// Of a server's, with ids of 4 and 5 bytes.
const AROUND_INITIAL_OF_SERVER: usize = 1 + 4 + 5 + 6 + 1 + 2 + 1 + 16;
// Of a 1-RTT packet to the client, with an id of 4 bytes.
const AROUND_SHORT: u32 = 1 + 4 + 1 + 16;

pub fn all() -> Vec<Case> {
    vec![
        broken(
            ("initial-size", "client", "14.1"),
            "The client's first Initial packet is in a datagram of 1199 bytes.",
            |talk| initial(talk, 1199),
        ),
        broken(
            ("initial-size", "server", "14.1"),
            "The server's Initial packet has a PING, and is in a datagram of fewer than 1200 bytes.",
            |talk| initial_of_server(talk, &[&ack(0)[..], PING].concat()),
        ),
        lawful(
            ("initial-size", "client-1200", "14.1"),
            "The client's first Initial packet is in a datagram of 1200 bytes.",
            |talk| initial(talk, 1200),
        ),
        lawful(
            ("initial-size", "server-ack", "14.1"),
            "The server's Initial packet has only an ACK, and is in a datagram of fewer than 1200 bytes.",
            |talk| initial_of_server(talk, &ack(0)),
        ),
        broken(
            ("amplification", "3601", "8.1"),
            "After a datagram of 1200 bytes from the client the server sends 3601 bytes in three datagrams.",
            |talk| amplified(talk, 1201),
        ),
        lawful(
            ("amplification", "3600", "8.1"),
            "After a datagram of 1200 bytes from the client the server sends 3600 bytes in three datagrams.",
            |talk| amplified(talk, 1200),
        ),
        broken(
            ("path-amplification", "1201", "9.3"),
            "After a datagram of 400 bytes from another port the server sends 1201 bytes there.",
            |talk| moved(talk, 1201),
        ),
        lawful(
            ("path-amplification", "1200", "9.3"),
            "After a datagram of 400 bytes from another port the server sends 1200 bytes there.",
            |talk| moved(talk, 1200),
        ),
        broken(
            ("payload-size", "beyond", "18.2"),
            "The client's max_udp_payload_size is 1321, and the server sends a datagram of 1322 bytes.",
            |talk| sized(talk, 1300 + AROUND_SHORT - 1),
        ),
        lawful(
            ("payload-size", "exact", "18.2"),
            "The client's max_udp_payload_size is 1322, and the server sends a datagram of 1322 bytes.",
            |talk| sized(talk, 1300 + AROUND_SHORT),
        ),
        broken(
            ("coalesced-ids", "new-id", "12.2"),
            "The third packet of the datagram has another Destination Connection ID of the server than the first two.",
            |talk| coalesced(talk, true),
        ),
        lawful(
            ("coalesced-ids", "next-datagram", "12.2"),
            "A packet with another Destination Connection ID of the server is in a datagram of its own.",
            |talk| coalesced(talk, false),
        ),
    ]
}

fn initial(talk: &mut Talk, size: usize) -> Spot {
    let hello = talk.client_hello();
    let spot = send(talk, Client, Initial, &hello[..size - AROUND_INITIAL], At::Datagram(0));
    talk.answer().later();
    spot
}

fn initial_of_server(talk: &mut Talk, payload: &[u8]) -> Spot {
    let hello = talk.client_hello();
    talk.send(Client, Initial, &hello);
    let spot = send(talk, Server, Initial, payload, At::Datagram(0));
    talk.answer().later();
    spot
}

// Two datagrams of 1200 bytes and one of this size. The client answers after a second.
fn amplified(talk: &mut Talk, size: usize) -> Spot {
    let hello = talk.client_hello();
    talk.send(Client, Initial, &hello[..1200 - AROUND_INITIAL]);
    let server_hello = crypto(0, &talk.server_hello());
    for (payload, size) in [(&server_hello[..], 1200), (PING, 1200), (PING, size)] {
        talk.send(Server, Initial, &padded(payload, size - AROUND_INITIAL_OF_SERVER));
    }
    let spot = last(talk, Server, Initial, 2, At::Datagram(0));
    talk.made.time += 1_000_000_000;
    talk.made.first_dcid = None;
    talk.send(Client, Initial, &padded(&ack(0), 1200));
    spot
}

// The client moves, and the server sends a challenge in a datagram of this size, which is answered a second later.
fn moved(talk: &mut Talk, size: usize) -> Spot {
    // The bytes around the client's payload, whose id has one more.
    let around = AROUND_SHORT as usize;
    talk.handshake().made.addresses[0].set_port(5);
    talk.short(Client, &padded(PING, 400 - around - 1));
    let spot = send(talk, Server, Short, &padded(b"\x1a12345678", size - around), At::Datagram(0));
    talk.made.time += 1_000_000_000;
    talk.short(Client, &padded(b"\x1b12345678", 1200));
    talk.later();
    spot
}

fn sized(talk: &mut Talk, most: u32) -> Spot {
    talk.parameters[0].max_udp_payload_size = VarInt::from_u32(most);
    talk.handshake();
    let spot = send(talk, Server, Short, &padded(PING, 1300), At::Datagram(0));
    talk.later();
    spot
}

// The server gives another id before the handshake ends.
fn coalesced(talk: &mut Talk, is_broken: bool) -> Spot {
    let hello = talk.client_hello();
    talk.send(Client, Initial, &hello).server_flight();
    let (id, reset_token) = (ConnectionId::new(b"newid"), [7; 16].into());
    let new = NewConnectionId { sequence: 1, retire_prior_to: 0, id, reset_token };
    talk.short(Server, &frame(&Frame::NewConnectionId(new)));
    let front = talk.client_packets();
    let first = std::mem::replace(&mut talk.made.ids[1], b"newid".to_vec());
    let short = talk.made.packet(Client, Short, PING);
    talk.made.ids[1] = first;
    let at = front.len();
    for bytes in if is_broken { vec![[front, short].concat()] } else { vec![front, short] } {
        let datagram = talk.made.datagram(Client, bytes);
        talk.all.push(datagram);
    }
    let at = At::Datagram(if is_broken { at } else { 0 });
    let spot = Spot { number: (!is_broken).then_some(0), ..last(talk, Client, Short, 0, at) };
    talk.confirm().later();
    spot
}
