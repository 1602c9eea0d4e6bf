//! Of what a client sends after a Retry, and of tokens: rules of src/rules/packets.rs and src/rules/handshake.rs.
use super::{At, Case, Spot, broken, last, lawful, send};
use crate::made::{Client, Initial, Server, crypto};
use crate::talk::{Talk, padded};
use quic_wire::ConnectionId;
use quic_wire::packet::VERSION_2;

const ID: &[u8] = b"retried";

// Where the Source Connection ID is in the client's Initial packets to that id: behind the first byte, the version, the id
// and the lengths of both.
const SOURCE: usize = 1 + 4 + 1 + 7 + 1;
// Where the token begins in the client's Initial packets to that id: behind the first byte, the version, both ids with
// their lengths, of which the client's has 4 bytes, and the token's own length (RFC 9000, section 17.2.2).
const TOKEN: usize = 1 + 4 + 1 + 7 + 1 + 4 + 1;
// Where the number does, behind a token of 5 bytes and the packet's length of two.
const NUMBER: usize = TOKEN + 5 + 2;

pub fn all() -> Vec<Case> {
    [numbers(), tokens(), first_tokens(), sources(), versions(), hellos()].into_iter().flatten().collect()
}

fn numbers() -> Vec<Case> {
    vec![
        broken(
            ("number-reuse", "retry", "17.2.5.3"),
            "After a Retry the client begins its packet numbers again.",
            |talk| {
                let hello = begin(talk);
                talk.made.numbers[Client as usize][0] = 0;
                end(talk, &hello, At::Datagram(NUMBER))
            },
        ),
        lawful(("number-reuse", "retry", "17.2.5.3"), "After a Retry the client's packet numbers go on.", |talk| {
            let hello = begin(talk);
            end(talk, &hello, At::Datagram(NUMBER))
        }),
    ]
}

fn tokens() -> Vec<Case> {
    vec![
        broken(("initial-token", "none", "8.1.2"), "After a Retry the client's Initial packet has no token.", |talk| {
            let hello = begin(talk);
            with_token(talk, &hello, b"")
        }),
        broken(
            ("initial-token", "other", "8.1.2"),
            "After a Retry the client's Initial packet has another token, as one of NEW_TOKEN.",
            |talk| {
                let hello = begin(talk);
                with_token(talk, &hello, b"other")
            },
        ),
        lawful(
            ("initial-token", "late", "8.1.2"),
            "An Initial packet without a token, to the client's first id, comes after the one that answers a Retry.",
            |talk| {
                let hello = talk.client_hello();
                talk.send(Client, Initial, &hello).send(Client, Initial, &hello);
                let mut late = talk.all.pop().unwrap();
                retry(talk);
                talk.send(Client, Initial, &hello);
                late.time = talk.made.time;
                talk.all.push(late);
                let spot = last(talk, Client, Initial, 1, At::Datagram(0));
                talk.answer().later();
                spot
            },
        ),
    ]
}

// Of a token that a NEW_TOKEN gave.
fn first_tokens() -> Vec<Case> {
    vec![
        broken(
            ("token-kept", "none", "8.1.3"),
            "The client's first Initial packet has a token, and its second one has none.",
            |talk| two_tokens(talk, b""),
        ),
        lawful(
            ("token-kept", "same", "8.1.3"),
            "The client's second Initial packet has the token of its first one.",
            |talk| two_tokens(talk, b"first"),
        ),
        lawful(
            ("token-kept", "retry", "8.1.3"),
            "The client's first Initial packet has no token, and after a Retry the next one has the Retry's.",
            |talk| {
                let hello = begin(talk);
                end(talk, &hello, At::Datagram(TOKEN))
            },
        ),
    ]
}

// Two Initial packets, of which the second one has this token.
fn two_tokens(talk: &mut Talk, token: &[u8]) -> Spot {
    let hello = talk.client_hello();
    talk.made.token = b"first".to_vec();
    talk.send(Client, Initial, &hello).made.token = token.to_vec();
    // The client's first id has 8 bytes, that of a Retry 7.
    let spot = send(talk, Client, Initial, &hello, At::Datagram(TOKEN + 1));
    talk.made.token = b"first".to_vec();
    talk.answer().later();
    spot
}

fn sources() -> Vec<Case> {
    vec![
        broken(
            ("source-after-retry", "other", "17.2.5.2"),
            "After a Retry the client's Initial packet has another Source Connection ID.",
            |talk| {
                let hello = begin(talk);
                let id = std::mem::replace(&mut talk.made.ids[0], b"else".to_vec());
                let spot = send(talk, Client, Initial, &hello, At::Datagram(SOURCE));
                talk.made.ids[0] = id;
                talk.answer().later();
                spot
            },
        ),
        lawful(
            ("source-after-retry", "same", "17.2.5.2"),
            "After a Retry the client's Initial packet has the Source Connection ID of the one before.",
            |talk| {
                let hello = begin(talk);
                end(talk, &hello, At::Datagram(SOURCE))
            },
        ),
    ]
}

fn versions() -> Vec<Case> {
    vec![
        broken(
            ("retry-version", "other", "4.1"),
            "After a Retry of version 1 the client sends an Initial packet of version 2.",
            |talk| {
                let hello = begin(talk);
                talk.made.version = VERSION_2;
                end(talk, &hello, At::Datagram(1))
            },
        )
        .of(9369),
        lawful(
            ("retry-version", "negotiated", "4.1"),
            "After a Retry of version 1 the client goes on with that, and the server answers with version 2.",
            |talk| {
                let hello = begin(talk);
                talk.send(Client, Initial, &hello).made.version = VERSION_2;
                talk.server_flight().client_flight();
                let spot = last(talk, Client, Initial, 2, At::Datagram(1));
                talk.confirm().later();
                spot
            },
        )
        .of(9369),
    ]
}

fn hellos() -> Vec<Case> {
    vec![
        broken(
            ("retry-hello", "other", "17.2.5.3"),
            "After a Retry the client sends a ClientHello with other random bytes.",
            |talk| {
                let mut hello = begin(talk);
                let len = message(&hello).len();
                // Behind the type, offset and length of CRYPTO, and the head of the message.
                hello[4 + 4 + 2] ^= 1;
                end(talk, &hello, At::Payload(0..4 + len))
            },
        ),
        lawful(
            ("retry-hello", "halves", "17.2.5.3"),
            "After a Retry the client sends the same ClientHello in two packets.",
            |talk| {
                let hello = begin(talk);
                let message = message(&hello);
                let (first, second) = (crypto(0, &message[..50]), crypto(50, &message[50..]));
                talk.send(Client, Initial, &padded(&first, 1200));
                end(talk, &padded(&second, 1200), At::Payload(0..second.len()))
            },
        ),
    ]
}

// The message in a payload that begins with CRYPTO, whose length has two bytes.
fn message(payload: &[u8]) -> Vec<u8> {
    let [_, _, high, low, rest @ ..] = payload else { panic!("no CRYPTO: {payload:?}") };
    rest[..usize::from(u16::from_be_bytes([high & 0x3f, *low]))].to_vec()
}

fn retry(talk: &mut Talk) {
    let retry = talk.made.retry(ID);
    talk.all.push(retry);
    talk.parameters[Server as usize].retry_src_cid = Some(ConnectionId::new(ID));
}

// An Initial packet and a Retry. Returns the payload with the ClientHello.
fn begin(talk: &mut Talk) -> Vec<u8> {
    let hello = talk.client_hello();
    talk.send(Client, Initial, &hello);
    retry(talk);
    hello
}

// The same with a token, which later packets have not.
fn with_token(talk: &mut Talk, payload: &[u8], token: &[u8]) -> Spot {
    let retried = std::mem::replace(&mut talk.made.token, token.to_vec());
    let spot = send(talk, Client, Initial, payload, At::Datagram(TOKEN));
    talk.made.token = retried;
    talk.answer().later();
    spot
}

// The Initial packet that is meant, and the rest of the connection.
fn end(talk: &mut Talk, payload: &[u8], at: At) -> Spot {
    let spot = send(talk, Client, Initial, payload, at);
    talk.answer().later();
    spot
}
