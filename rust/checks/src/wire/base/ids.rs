//! Ids, sides, spaces, codepoints and tokens: rows, single calls and texts.
use crate::host::prelude::*;
use crate::proved::quic_base::ids::{
    ConnectionId, DEFAULT_SUPPORTED_VERSIONS, Dir, EcnCodepoint, INITIAL_MTU, IssuedCid, LOC_CID_COUNT, MAX_CID_SIZE,
    MAX_STREAM_COUNT, MAX_UDP_PAYLOAD, MIN_INITIAL_SIZE, RESET_TOKEN_SIZE, ResetToken, Side, SpaceId, StreamId,
};
use crate::proved::quic_base::varint::VarInt;
use crate::wire::base::shared::{debugs, displays, is_written, read};
use std::cmp::Ordering;
use std::hash::{DefaultHasher, Hash, Hasher};

fn has_its_parts(id: StreamId) -> bool {
    u64::from(id) == 23
        && id.initiator() == Side::Server
        && id.dir() == Dir::Uni
        && id.index() == 5
        && StreamId::from(VarInt::from(id)) == id
}

fn has_its_texts(id: StreamId) -> bool {
    is_written(id, b"\x17")
        && displays(&id, "server unidirectional stream 5")
        && debugs(&id, "StreamId(23)")
        && read::<StreamId>(b"\x17\x00") == (Ok(id), 1)
}

fn is_the_last(last: StreamId) -> bool {
    let text = "client bidirectional stream 1152921504606846975";
    is_written(last, b"\xff\xff\xff\xff\xff\xff\xff\xfc") && displays(&last, text)
}

#[test]
fn stream_ids() {
    let id = StreamId::proved_new(Side::Server, Dir::Uni, 5);
    assert!(has_its_parts(id));
    assert!(has_its_texts(id));
    let last = StreamId::proved_new(Side::Client, Dir::Bi, MAX_STREAM_COUNT - 1);
    assert!(is_the_last(last));
    assert!(id < last);
}

fn are_distinct(client: Side, server: Side) -> bool {
    client.is_client() && !client.is_server() && !server.is_client() && server.is_server()
}

fn directions_come() -> bool {
    let mut both = Dir::iter();
    both.next() == Some(Dir::Bi) && both.next() == Some(Dir::Uni) && both.next().is_none()
}

fn directions_have_their_texts() -> bool {
    let uni = Dir::Uni;
    displays(&Dir::Bi, "bidirectional")
        && displays(&uni, "unidirectional")
        && displays(&format_args!("{uni:>16}"), "  unidirectional")
        && debugs(&(Dir::Bi, Dir::Uni), "(Bi, Uni)")
        && debugs(&Side::Server, "Server")
}

#[test]
fn sides_and_directions() {
    assert!(are_distinct(Side::Client, Side::Server));
    assert_eq!((!Side::Client, !Side::Server), (Side::Server, Side::Client));
    assert_eq!((Side::Client as u8, Side::Server as u8), (0, 1));
    assert_eq!((Dir::Bi as u8, Dir::Uni as u8), (0, 1));
    assert!(directions_come());
    assert!(directions_have_their_texts());
}

fn spaces_come() -> bool {
    let mut spaces = SpaceId::iter();
    spaces.next() == Some(SpaceId::Initial)
        && spaces.next() == Some(SpaceId::Handshake)
        && spaces.next() == Some(SpaceId::Data)
        && spaces.next().is_none()
}

#[test]
fn spaces() {
    assert!(spaces_come());
    assert!(SpaceId::Initial < SpaceId::Data);
}

// Bytes of IP headers, and the codepoints in them.
const CODEPOINTS: &[(u8, Option<EcnCodepoint>)] =
    &[(0xfe, Some(EcnCodepoint::Ect0)), (0xff, Some(EcnCodepoint::Ce)), (0xfd, Some(EcnCodepoint::Ect1)), (0x04, None)];

#[test]
fn codepoints() {
    for &(bits, codepoint) in CODEPOINTS {
        assert_eq!(EcnCodepoint::from_bits(bits), codepoint);
    }
    assert_eq!(EcnCodepoint::Ect0 as u8, 2);
    assert_eq!(EcnCodepoint::Ect1 as u8, 1);
    assert_eq!(EcnCodepoint::Ce as u8, 3);
    assert!(EcnCodepoint::Ce.is_ce());
    assert!(!EcnCodepoint::Ect0.is_ce());
}

fn compare(x: &ConnectionId, y: &ConnectionId, order: Ordering) -> bool {
    x.cmp(y) == order && x.partial_cmp(y) == Some(order) && (x == y) == (order == Ordering::Equal)
}

fn are_in_order(ids: &[ConnectionId]) -> bool {
    for (i, x) in ids.iter().enumerate() {
        for (j, y) in ids.iter().enumerate() {
            if !compare(x, y, i.cmp(&j)) {
                return false;
            }
        }
    }
    true
}

// In order: the empty one, `00`, `ff`, `0000`.
fn ids_are_in_order() -> bool {
    are_in_order(&[
        ConnectionId::proved_new(b""),
        ConnectionId::proved_new(b"\x00"),
        ConnectionId::proved_new(b"\xff"),
        ConnectionId::proved_new(b"\x00\x00"),
    ])
}

fn an_id_is_changed() -> bool {
    let mut id = ConnectionId::proved_new(b"\x0a\xff");
    id.copy_from_slice(b"\x0b\x0c");
    id.as_slice() == b"\x0b\x0c".as_slice() && a_byte_is_changed(id)
}

fn a_byte_is_changed(id: ConnectionId) -> bool {
    let mut other = id;
    let Some(byte) = other.as_mut_slice().get_mut(1) else {
        return false;
    };
    *byte = 0xff;
    other == ConnectionId::proved_new(b"\x0b\xff")
}

fn an_id_is_equal(id: &ConnectionId) -> bool {
    hash_of(id) == hash_of(&ConnectionId::proved_new(b"\x0a\xff")) && id.as_slice() == b"\x0a\xff".as_slice()
}

fn ids_have_their_texts(id: &ConnectionId) -> bool {
    let longest =
        ConnectionId::proved_new(b"\x00\x01\x02\x03\x04\x05\x06\x07\x08\x09\x0a\x0b\x0c\x0d\x0e\x0f\x10\x11\x12\x13");
    displays(id, "0aff") && debugs(id, "[10, 255]") && displays(&longest, "000102030405060708090a0b0c0d0e0f10111213")
}

fn is_written_long(out: &mut Vec<u8>, id: &ConnectionId) -> bool {
    id.encode_long(out).is_ok() && out.as_slice() == b"\x02\x0a\xff".as_slice()
}

fn is_taken(id: &ConnectionId) -> bool {
    let mut left = b"\x0a\xff\x01".as_slice();
    ConnectionId::proved_from_buf(&mut left, 2) == *id && left == b"\x01".as_slice()
}

#[test]
fn connection_ids() {
    assert!(ids_are_in_order());
    assert!(an_id_is_changed());
    let id = ConnectionId::proved_new(b"\x0a\xff");
    assert!(an_id_is_equal(&id));
    assert!(ids_have_their_texts(&id));
    assert!(is_written_long(&mut Vec::new(), &id));
    assert!(is_taken(&id));
}

// Bytes, the id at their front that has its length before it, and what is left of them.
const LONG_IDS: &[(&[u8], Option<&[u8]>, &[u8])] = &[
    (b"\x02\xaa\xbb\xcc", Some(b"\xaa\xbb"), b"\xcc"),
    (b"\x03\xaa\xbb", None, b"\xaa\xbb"),
    (b"\x15123456789012345678901", None, b"123456789012345678901"),
    (b"\x1412345678901234567890", Some(b"12345678901234567890"), b""),
    (b"", None, b""),
];

fn is_id(decoded: Option<ConnectionId>, wanted: Option<&[u8]>) -> bool {
    match (decoded, wanted) {
        (Some(id), Some(bytes)) => bytes.len() <= MAX_CID_SIZE && id == ConnectionId::proved_new(bytes),
        (None, None) => true,
        _ => false,
    }
}

fn is_long_id(bytes: &[u8], id: Option<&[u8]>, rest: &[u8]) -> bool {
    let mut left = bytes;
    let decoded = ConnectionId::decode_long(&mut left);
    is_id(decoded, id) && left == rest
}

#[test]
fn long_ids() {
    for &(bytes, id, rest) in LONG_IDS {
        assert!(is_long_id(bytes, id, rest), "at {}", bytes.len());
    }
}

fn is_a_token(bytes: [u8; 16]) -> bool {
    let token = ResetToken::from(bytes);
    token.as_slice() == bytes.as_slice()
        && <[u8; 16]>::from(token) == bytes
        && token != ResetToken::from([7; RESET_TOKEN_SIZE])
}

fn an_issued_id_debugs() -> bool {
    let issued =
        IssuedCid { sequence: 3, id: ConnectionId::proved_new(b"\x2a"), reset_token: ResetToken::from([7; 16]) };
    let text = "IssuedCid { sequence: 3, id: [42], reset_token: \
        ResetToken([7, 7, 7, 7, 7, 7, 7, 7, 7, 7, 7, 7, 7, 7, 7, 7]) }";
    debugs(&issued, text)
}

#[test]
fn tokens_and_limits() {
    assert!(is_a_token(*b"0123456789abcdef"));
    assert!(an_issued_id_debugs());
    assert_eq!((MAX_CID_SIZE, RESET_TOKEN_SIZE), (20, 16));
    assert_eq!((LOC_CID_COUNT, MAX_STREAM_COUNT), (8, 1152921504606846976));
    assert_eq!((MIN_INITIAL_SIZE, INITIAL_MTU, MAX_UDP_PAYLOAD), (1200, 1200, 65527));
    let versions: [u32; 8] = [1, 0xff00001d, 0xff00001e, 0xff00001f, 0xff000020, 0xff000021, 0xff000022, 0x6b3343cf];
    assert_eq!(DEFAULT_SUPPORTED_VERSIONS, versions.as_slice());
}

// The same for texts: streams with their text and bytes.
const STREAMS: &[(u64, &str, &[u8])] = &[
    (24, "client bidirectional stream 6", b"\x18"),
    (1694, "client unidirectional stream 423", b"\x46\x9e"),
    (41, "server bidirectional stream 10", b"\x29"),
    (1152921504606846975, "server unidirectional stream 288230376151711743", b"\xcf\xff\xff\xff\xff\xff\xff\xff"),
    (64, "client bidirectional stream 16", b"\x40\x40"),
    (46, "client unidirectional stream 11", b"\x2e"),
    (406, "client unidirectional stream 101", b"\x41\x96"),
    (445337273157562676, "client bidirectional stream 111334318289390669", b"\xc6\x2e\x27\xe3\xf3\xcc\x31\x34"),
];

fn is_stream(n: u64, text: &str, bytes: &[u8]) -> bool {
    let Some(number) = VarInt::from_u64(n).ok() else {
        return false;
    };
    let id = StreamId::from(number);
    displays(&id, text) && is_written(id, bytes)
}

// Ids with both their texts.
const IDS: &[(&[u8], &str, &str)] = &[
    (b"", "", "[]"),
    (b"\x19", "19", "[25]"),
    (b"\x66\x4b", "664b", "[102, 75]"),
    (b"\x76\x1f", "761f", "[118, 31]"),
    (b"\x6a\x45\x44", "6a4544", "[106, 69, 68]"),
];

fn is_shown(bytes: &[u8], display: &str, debug: &str) -> bool {
    if bytes.len() > MAX_CID_SIZE {
        return false;
    }
    let id = ConnectionId::proved_new(bytes);
    displays(&id, display) && debugs(&id, debug)
}

#[test]
fn texts_of_the_rust_crate() {
    for &(n, text, bytes) in STREAMS {
        assert!(is_stream(n, text, bytes), "at {n}");
    }
    for &(bytes, display, debug) in IDS {
        assert!(is_shown(bytes, display, debug), "at {display}");
    }
}

fn hash_of(id: &ConnectionId) -> u64 {
    let mut state = DefaultHasher::new();
    id.hash(&mut state);
    state.finish()
}
