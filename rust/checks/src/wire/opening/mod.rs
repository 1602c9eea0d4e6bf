//! Packets for each level, phase and reason to drop one, opened with keys of which no two open the same.
use crate::host::bytes::BytesMut;
use crate::host::prelude::*;
use crate::proved::quic_base::ids::SpaceId;
use crate::proved::quic_header_decode::decode_error::PacketDecodeError;
use crate::proved::quic_levels::keys::{LevelKeys, OneRttKeys};
use crate::proved::quic_levels::levels::Level;
use crate::proved::quic_levels::opening::{LevelError, open_next};
use crate::proved::quic_levels::receiving::Receiver;
use crate::proved::quic_packets::crypto::toy::ToyHeaderKey;
use crate::proved::quic_packets::opening::{Opened, Packets};
use crate::proved::quic_packets::packet::{DecodeOptions, Expected, FixedLengthConnectionIdParser, PartialDecode};
use crate::tested::quic_level_callers::shifted::{ShiftedKey, shifted};

type Keys = LevelKeys<ToyHeaderKey, ShiftedKey>;

// Keys 1 to 3 for Initial, 0-RTT and Handshake packets. Of 1-RTT packets key 4 is for the current phase, whose bit is
// 0 and whose least number is 100; key 5 is for the next phase, and key 6 for the former one.
fn all_keys() -> Keys {
    LevelKeys {
        initial: Some(shifted(1)),
        zero_rtt: Some(shifted(2)),
        handshake: Some(shifted(3)),
        one_rtt: Some(OneRttKeys {
            header: ToyHeaderKey,
            phase: false,
            from: 100,
            current: ShiftedKey(4),
            next: Some(ShiftedKey(5)),
            former: Some(ShiftedKey(6)),
        }),
    }
}

// The same, except those of a level.
fn without(level: Level) -> Keys {
    let mut keys = all_keys();
    match level {
        Level::Initial => keys.initial = None,
        Level::ZeroRtt => keys.zero_rtt = None,
        Level::Handshake => keys.handshake = None,
        Level::OneRtt => keys.one_rtt = None,
    }
    keys
}

// 1-RTT keys without those of the next phase, and without those of the former one.
fn without_a_phase(next: bool) -> Keys {
    let one_rtt = OneRttKeys {
        header: ToyHeaderKey,
        phase: false,
        from: 100,
        current: ShiftedKey(4),
        next: if next { None } else { Some(ShiftedKey(5)) },
        former: if next { Some(ShiftedKey(6)) } else { None },
    };
    LevelKeys { initial: None, zero_rtt: None, handshake: None, one_rtt: Some(one_rtt) }
}

// Headers up to the packet number, of packets to the id `aa`. Long ones say that 20 bytes follow.
const INITIAL: &[u8] = b"\xc0\0\0\0\x01\x01\xaa\0\0\x40\x14";

const ZERO_RTT: &[u8] = b"\xd0\0\0\0\x01\x01\xaa\0\x40\x14";

const HANDSHAKE: &[u8] = b"\xe0\0\0\0\x01\x01\xaa\0\x40\x14";

const PHASE_0: &[u8] = b"\x40\xaa";

const PHASE_1: &[u8] = b"\x44\xaa";

// Appends a packet: a header, a number of one byte, PING, PADDING, PADDING, and the tag of a key.
fn append(out: &mut Vec<u8>, head: &[u8], number: u8, key: u8) -> bool {
    let tag = number.wrapping_add(key);
    let behind = [number, 1, 0, 0, 0, 0, 0, 0, 0, 0, 0, tag, 0, 0, 0, 0, 0, 0, 0, 0];
    out.extend_from_slice(head);
    out.extend_from_slice(&behind);
    true
}

// The packet that is opened next, or why it isn't, if 100 is expected in each space.
fn next(packets: &mut Packets, keys: &Keys) -> Option<Result<Opened, LevelError>> {
    let options =
        DecodeOptions { parser: &FixedLengthConnectionIdParser::proved_new(1), versions: &[1], grease: false };
    let expected = Expected { initial: 100, handshake: 100, app: 100 };
    open_next(packets, &options, keys, &expected)
}

// What a packet with a number is answered with.
#[derive(Clone, Copy, Debug, PartialEq, Eq)]
enum Answer {
    Opened(u64),
    NoKeys,
    Unsealed,
    // Another error, or a packet without a number, or none.
    Other,
}

fn answer_of(found: Option<Result<Opened, LevelError>>) -> Answer {
    match found {
        Some(Ok(opened)) => match opened.number {
            Some(number) => Answer::Opened(number),
            None => Answer::Other,
        },
        Some(Err(LevelError::NoKeys)) => Answer::NoKeys,
        Some(Err(LevelError::Unsealed)) => Answer::Unsealed,
        _ => Answer::Other,
    }
}

// A header, a number, the key that the packet was sealed with, and the answer.
type Row = (&'static [u8], u8, u8, Answer);

fn is_answered(keys: &Keys, row: &Row) -> bool {
    let &(head, number, key, wanted) = row;
    let mut out = Vec::new();
    if !append(&mut out, head, number, key) {
        return false;
    }
    let mut packets = Packets::new(BytesMut::from(out.as_slice()));
    answer_of(next(&mut packets, keys)) == wanted && packets.rest.is_none()
}

const BY_LEVEL: &[Row] = &[
    (INITIAL, 101, 1, Answer::Opened(101)),
    (INITIAL, 101, 2, Answer::Unsealed),
    (ZERO_RTT, 101, 2, Answer::Opened(101)),
    (ZERO_RTT, 101, 4, Answer::Unsealed),
    (HANDSHAKE, 101, 3, Answer::Opened(101)),
    (HANDSHAKE, 101, 1, Answer::Unsealed),
    (PHASE_0, 101, 4, Answer::Opened(101)),
    (PHASE_0, 101, 2, Answer::Unsealed),
];

// 0-RTT has keys of its own, although it shares the numbers of 1-RTT (RFC 9001, section 4; RFC 9000, section 12.3).
#[test]
fn each_level_has_its_key() {
    let keys = all_keys();
    for row in BY_LEVEL {
        assert!(is_answered(&keys, row), "at {row:?}");
    }
}

const WITHOUT: &[(Level, Row)] = &[
    (Level::Initial, (INITIAL, 101, 1, Answer::NoKeys)),
    (Level::Initial, (HANDSHAKE, 101, 3, Answer::Opened(101))),
    (Level::ZeroRtt, (ZERO_RTT, 101, 2, Answer::NoKeys)),
    (Level::ZeroRtt, (PHASE_0, 101, 4, Answer::Opened(101))),
    (Level::Handshake, (HANDSHAKE, 101, 3, Answer::NoKeys)),
    (Level::Handshake, (PHASE_1, 99, 6, Answer::Opened(99))),
    (Level::OneRtt, (PHASE_0, 101, 4, Answer::NoKeys)),
    (Level::OneRtt, (ZERO_RTT, 101, 2, Answer::Opened(101))),
];

fn is_answered_without(level: Level, row: &Row) -> bool {
    is_answered(&without(level), row)
}

// Keys that aren't there yet, or are discarded (RFC 9001, section 4.9).
#[test]
fn a_level_without_keys() {
    for (level, row) in WITHOUT {
        let is_so = is_answered_without(*level, row);
        assert!(is_so, "at {level:?}, {row:?}");
    }
}

const BY_PHASE: &[Row] = &[
    (PHASE_0, 99, 4, Answer::Opened(99)),
    (PHASE_0, 100, 4, Answer::Opened(100)),
    (PHASE_0, 100, 5, Answer::Unsealed),
    (PHASE_0, 99, 6, Answer::Unsealed),
    (PHASE_1, 99, 6, Answer::Opened(99)),
    (PHASE_1, 99, 5, Answer::Unsealed),
    (PHASE_1, 100, 5, Answer::Opened(100)),
    (PHASE_1, 100, 6, Answer::Unsealed),
    (PHASE_1, 100, 4, Answer::Unsealed),
];

// Numbers tell the former phase from the next one (RFC 9001, section 6.5).
#[test]
fn each_phase_has_its_key() {
    let keys = all_keys();
    for row in BY_PHASE {
        assert!(is_answered(&keys, row), "at {row:?}");
    }
}

const WITHOUT_NEXT: &[Row] = &[
    (PHASE_1, 100, 5, Answer::NoKeys),
    (PHASE_1, 100, 4, Answer::NoKeys),
    (PHASE_1, 99, 6, Answer::Opened(99)),
    (PHASE_0, 100, 4, Answer::Opened(100)),
];

// A phase that isn't opened yet (RFC 9001, section 6.3).
#[test]
fn without_the_next_phase() {
    let keys = without_a_phase(true);
    for row in WITHOUT_NEXT {
        assert!(is_answered(&keys, row), "at {row:?}");
    }
}

const WITHOUT_FORMER: &[Row] = &[
    (PHASE_1, 99, 6, Answer::NoKeys),
    (PHASE_1, 99, 4, Answer::NoKeys),
    (PHASE_1, 100, 5, Answer::Opened(100)),
    (PHASE_0, 99, 4, Answer::Opened(99)),
];

// A packet of an older phase, whose key is discarded (RFC 9001, section 6.5).
#[test]
fn without_the_former_phase() {
    let keys = without_a_phase(false);
    for row in WITHOUT_FORMER {
        assert!(is_answered(&keys, row), "at {row:?}");
    }
}

// Bytes that are no packet, or one without a sample, and why they are dropped.
const UNREAD: &[(&[u8], &str)] = &[
    (b"", "unexpected end of packet"),
    (b"\0\xaa", "fixed bit unset"),
    (b"\x40", "packet too small"),
    (b"\xe0\0\0\0\x01\x01\xaa\0\x40\x14\0", "packet too short to contain payload length"),
    (b"\x40\xaa\0\0\0\0\0\0\0\0\0\0\0\0\0\0\0\0\0\0\0", "packet too short to extract header protection sample"),
];

fn is_unread(bytes: &[u8], text: &str) -> bool {
    let datagram = BytesMut::from(bytes);
    let mut packets = Packets::new(datagram);
    let answer = next(&mut packets, &all_keys());
    let Some(Err(LevelError::Decode(PacketDecodeError::InvalidHeader(found)))) = answer else {
        return false;
    };
    found == text && packets.rest.is_none()
}

#[test]
fn bytes_that_are_no_packet() {
    for &(bytes, text) in UNREAD {
        assert!(is_unread(bytes, text), "at {text}");
    }
}

// Appends four packets, of which the first two are dropped: 0-RTT has no keys, and the Handshake packet has the tag of
// another key.
fn are_written(out: &mut Vec<u8>) -> bool {
    append(out, ZERO_RTT, 101, 2)
        && append(out, HANDSHAKE, 101, 9)
        && append(out, INITIAL, 102, 1)
        && append(out, PHASE_1, 103, 5)
}

fn are_answers(datagram: Vec<u8>) -> bool {
    let keys = without(Level::ZeroRtt);
    let mut packets = Packets::new(BytesMut::from(datagram.as_slice()));
    answer_of(next(&mut packets, &keys)) == Answer::NoKeys
        && answer_of(next(&mut packets, &keys)) == Answer::Unsealed
        && answer_of(next(&mut packets, &keys)) == Answer::Opened(102)
        && answer_of(next(&mut packets, &keys)) == Answer::Opened(103)
        && next(&mut packets, &keys).is_none()
}

// What follows a dropped packet is opened (RFC 9000, section 12.2).
#[test]
fn packets_behind_dropped_ones() {
    let mut out = Vec::new();
    let are_written = are_written(&mut out);
    let are_answered = are_answers(out);
    assert!(are_written, "written");
    assert!(are_answered, "answered");
}

// A Retry and a version negotiation, and what follows their headers.
const PLAIN: &[(&[u8], &[u8])] =
    &[(b"\xf0\0\0\0\x01\0\0\xab", b"\xab"), (b"\xc0\0\0\0\0\0\0\0\0\0\x01", b"\0\0\0\x01")];

fn is_plain(bytes: &[u8], payload: &[u8]) -> bool {
    let datagram = BytesMut::from(bytes);
    let mut packets = Packets::new(datagram);
    let Some(Ok(opened)) = next(&mut packets, &without(Level::Initial)) else {
        return false;
    };
    opened.number.is_none() && opened.payload.as_slice() == payload && packets.rest.is_none()
}

#[test]
fn packets_without_protection() {
    for &(bytes, payload) in PLAIN {
        assert!(is_plain(bytes, payload), "at {bytes:?}");
    }
}

// A packet that comes, and the numbers that are expected then.
type Step = (&'static [u8], u8, u8, [u64; 3]);

const STEPS: &[Step] = &[
    (INITIAL, 7, 1, [8, 0, 0]),
    (INITIAL, 5, 1, [8, 0, 0]),
    (INITIAL, 7, 1, [8, 0, 0]),
    // Not sealed by these keys.
    (HANDSHAKE, 9, 9, [8, 0, 0]),
    (ZERO_RTT, 3, 2, [8, 0, 4]),
    (PHASE_0, 6, 4, [8, 0, 7]),
    (ZERO_RTT, 4, 2, [8, 0, 7]),
    (HANDSHAKE, 1, 3, [8, 2, 7]),
];

fn is_expected(receiver: &mut Receiver, keys: &Keys, step: &Step) -> bool {
    let &(head, number, key, wanted) = step;
    let mut out = Vec::new();
    if !append(&mut out, head, number, key) {
        return false;
    }
    let options =
        DecodeOptions { parser: &FixedLengthConnectionIdParser::proved_new(1), versions: &[1], grease: false };
    let mut packets = Packets::new(BytesMut::from(out.as_slice()));
    let _answer = receiver.receive_next(&mut packets, &options, keys);
    let expected = receiver.expected();
    [expected.initial, expected.handshake, expected.app] == wanted
}

// Only opened packets change which number is expected (RFC 9000, section 17.1).
#[test]
fn expected_numbers() {
    let keys = all_keys();
    let mut receiver = Receiver::new();
    for step in STEPS {
        let is_so = is_expected(&mut receiver, &keys, step);
        assert!(is_so, "at {step:?}");
    }
}

// Headers of packets, with the levels of their keys and the spaces of their numbers (RFC 9001, section 4, table 1; RFC
// 9000, section 12.3).
const LEVELS: &[(&[u8], Option<(Level, SpaceId)>)] = &[
    (b"\xc0\0\0\0\x01\0\0\0\0", Some((Level::Initial, SpaceId::Initial))),
    (b"\xd0\0\0\0\x01\0\0\0", Some((Level::ZeroRtt, SpaceId::Data))),
    (b"\xe0\0\0\0\x01\0\0\0", Some((Level::Handshake, SpaceId::Handshake))),
    (b"\x40\xaa", Some((Level::OneRtt, SpaceId::Data))),
    (b"\xf0\0\0\0\x01\0\0", None),
    (b"\xc0\0\0\0\0\0\0", None),
];

fn is_of_level(bytes: &[u8], wanted: Option<(Level, SpaceId)>) -> bool {
    let datagram = BytesMut::from(bytes);
    let parser = FixedLengthConnectionIdParser::proved_new(1);
    let Ok((partial, _)) = PartialDecode::new(datagram, &parser, &[1], false) else {
        return false;
    };
    match Level::of(partial.header()) {
        Some(level) => Some((level, level.space())) == wanted,
        None => wanted.is_none(),
    }
}

#[test]
fn levels_of_headers() {
    for &(bytes, wanted) in LEVELS {
        assert!(is_of_level(bytes, wanted), "at {bytes:?}");
    }
}

#[test]
fn texts_of_errors() {
    let errors = [
        (LevelError::NoKeys, "no keys for the packet's level or key phase"),
        (LevelError::Unsealed, "packet not sealed by these keys"),
        (LevelError::OutOfMemory, "out of memory"),
        (LevelError::Decode(PacketDecodeError::InvalidHeader("malformed cid")), "invalid header: malformed cid"),
    ];
    for (error, text) in &errors {
        assert_eq!(error.to_string(), *text);
    }
}
