//! A client that begins anew with another version.
#[path = "../../capture/tests/common/mod.rs"]
mod common;
#[path = "../../capture/tests/common/made.rs"]
mod made;
#[path = "common/talk.rs"]
mod talk;

use made::{Client, Initial, Server};
use quic_wire::ConnectionId;
use quic_wire::packet::VERSION_2;
use talk::{Talk, padded};

const VERSION_1: u32 = 1;

// A server that speaks version 1 alone answers packets of version 2 (RFC 9000, section 6).
fn negotiated(packets: usize) -> Talk {
    let mut talk = Talk::new();
    talk.made.version = VERSION_2;
    let hello = talk.client_hello();
    for _ in 0..packets {
        talk.send(Client, Initial, &hello);
    }
    let [client, _] = talk.made.ids.clone();
    let id = |id: &[u8]| [&[id.len() as u8][..], id].concat();
    let ids = [id(&client), id(&talk.made.original_id)].concat();
    let answer = [&[0xc0, 0, 0, 0, 0][..], &ids, &VERSION_1.to_be_bytes()].concat();
    let datagram = talk.made.datagram(Server, answer);
    talk.all.push(datagram);
    talk.made.version = VERSION_1;
    talk.made.numbers = [[0; 3]; 2];
    talk
}

// With the same ids and numbers, and other contents.
#[test]
fn numbers_after_a_version_negotiation() {
    let mut talk = negotiated(1);
    let hello = talk.client_hello();
    talk.send(Client, Initial, &padded(&hello, 1210)).answer().finds_nothing();
}

// With another Source Connection ID and another ClientHello, which is longer: the first byte behind the old one is 24,
// the type of KeyUpdate. The second number of the first attempt is used again after the server's answer.
#[test]
fn ids_and_messages_after_a_version_negotiation() {
    let mut talk = negotiated(2);
    (talk.made.salt, talk.made.ids[0]) = (1, b"anew".to_vec());
    talk.parameters[Client as usize].initial_src_cid = Some(ConnectionId::new(b"anew"));
    // A transport parameter that nobody knows.
    talk.more[Client as usize] = vec![24, 4, 0, 0, 0, 0];
    let hello = talk.client_hello();
    let report = talk.send(Client, Initial, &hello).answer().later().finds_nothing();
    assert_eq!(report.taken.into_values().sum::<u64>(), 2, "each attempt is a connection");
}
