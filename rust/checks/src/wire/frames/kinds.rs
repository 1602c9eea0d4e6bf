//! Frames, read from payloads.
use crate::host::prelude::*;
use crate::host::test::Fail;
use crate::proved::quic_base::coding::{Codec, NoRoom};
use crate::proved::quic_frames::frame::{Frame, FrameType, Iter};
use crate::proved::quic_frames::transport_error::{Code, Error, Reason};

fn type_of(number: &[u8]) -> Option<FrameType> {
    let mut left = number;
    FrameType::decode(&mut left).ok()
}

// A payload of one STREAM, the number of the type that names the frame (never with the LEN bit), and the frame.
type StreamRow = (&'static [u8], u8, u64, u64, bool, &'static [u8]);

const STREAMS: &[StreamRow] = &[
    (b"\x0c\x04\x40\x10ab", 0x0c, 4, 16, false, b"ab"),
    (b"\x08\x09x", 0x08, 9, 0, false, b"x"),
    (b"\x09\x09x", 0x09, 9, 0, true, b"x"),
    (b"\x0a\x09\x01x", 0x08, 9, 0, false, b"x"),
    (b"\x0b\x09\x01x", 0x09, 9, 0, true, b"x"),
    (b"\x0c\x09\x07x", 0x0c, 9, 7, false, b"x"),
    (b"\x0d\x09\x07x", 0x0d, 9, 7, true, b"x"),
    (b"\x0e\x09\x07\x01x", 0x0c, 9, 7, false, b"x"),
    (b"\x0f\x09\x07\x01x", 0x0d, 9, 7, true, b"x"),
    // An offset of zero that is written doesn't set the OFF bit.
    (b"\x0d\x00\x00a", 0x09, 0, 0, true, b"a"),
];

// Whether the payload is read as that frame and nothing else.
fn is_stream(row: &StreamRow) -> bool {
    let &(payload, number, id, offset, fin, bytes) = row;
    let Some(mut iter) = Iter::new(payload).ok() else {
        return false;
    };
    let Some(Ok(frame)) = iter.next() else {
        return false;
    };
    let has_type = Some(frame.ty()) == type_of(&[number]);
    let Frame::Stream(stream) = frame else {
        return false;
    };
    has_type
        && u64::from(stream.id) == id
        && stream.offset == offset
        && stream.fin == fin
        && stream.bytes == bytes
        && iter.offset() == payload.len()
        && iter.next().is_none()
}

#[test]
fn streams() {
    for row in STREAMS {
        assert!(is_stream(row), "at {row:?}");
    }
}

fn reads_padding_and_ping(iter: &mut Iter<'_>) -> bool {
    matches!(iter.next(), Some(Ok(Frame::Padding)))
        && iter.offset() == 7
        && matches!(iter.next(), Some(Ok(Frame::Ping)))
        && iter.offset() == 11
        && iter.next().is_none()
        && Frame::Padding.ty() == FrameType::PADDING
        && Frame::Ping.ty() == FrameType::PING
}

fn reads_crypto_padding_and_ping() -> bool {
    let payload = b"\x06\x40\x05\x02hi\x00\x80\x00\x00\x01";
    let Some(mut iter) = Iter::new(payload).ok() else {
        return false;
    };
    let Some(Ok(Frame::Crypto(crypto))) = iter.next() else {
        return false;
    };
    crypto.offset == 5
        && crypto.bytes == b"hi".as_slice()
        && Frame::Crypto(crypto).ty() == FrameType::CRYPTO
        && iter.offset() == 6
        && reads_padding_and_ping(&mut iter)
}

#[test]
fn crypto_padding_and_ping() {
    assert!(reads_crypto_padding_and_ping());
}

fn ends_at_an_error() -> bool {
    let Some(mut iter) = Iter::new(b"\x01\x0a\x00\x05ab\x01").ok() else {
        return false;
    };
    let Some(Ok(Frame::Ping)) = iter.next() else {
        return false;
    };
    let Some(Err(invalid)) = iter.next() else {
        return false;
    };
    assert!(invalid.ty.is_some() && invalid.ty == type_of(b"\x0a"));
    assert_eq!(invalid.reason, "unexpected end");
    assert_eq!(iter.offset(), 1);
    assert!(iter.next().is_none());
    assert!(iter.next().is_none());
    true
}

#[test]
fn one_error_and_then_nothing() {
    let ends = ends_at_an_error();
    assert!(ends);
}

// Whether the next frame is rejected, with this type and this reason.
fn refuses(iter: Option<Iter<'_>>, ty: FrameType, reason: &str) -> bool {
    let Some(mut iter) = iter else {
        return false;
    };
    let Some(Err(invalid)) = iter.next() else {
        return false;
    };
    invalid.ty == Some(ty) && invalid.reason == reason
}

// PING, CRYPTO with one byte, and a type that is cut off.
const CUT_OFF: &[u8] = b"\x01\x06\x00\x01a\x40";

fn goes_on_at_crypto() -> bool {
    let Some(mut iter) = Iter::resume(CUT_OFF, 1, Some(FrameType::PING), false) else {
        return false;
    };
    assert_eq!(iter.last_type(), Some(FrameType::PING));
    let Some(Ok(Frame::Crypto(crypto))) = iter.next() else {
        return false;
    };
    assert_eq!(crypto.bytes, b"a".as_slice());
    assert_eq!(iter.offset(), 5);
    assert_eq!(iter.last_type(), Some(FrameType::CRYPTO));
    true
}

fn goes_on_at_the_end() -> bool {
    let Some(mut iter) = Iter::resume(CUT_OFF, 6, None, false) else {
        return false;
    };
    iter.next().is_none()
}

fn refuses_the_cut_off_type() -> bool {
    let iter = Iter::resume(CUT_OFF, 5, Some(FrameType::CRYPTO), false);
    refuses(iter, FrameType::CRYPTO, "unexpected end")
}

fn refuses_a_long_type() -> bool {
    let iter = Iter::resume(b"\x01\x40\x01", 1, None, true);
    refuses(iter, FrameType::PING, "frame type not in shortest form")
}

#[test]
fn an_iterator_that_goes_on() {
    let goes_on = goes_on_at_crypto();
    assert!(goes_on);
    assert!(refuses_the_cut_off_type());
    assert!(goes_on_at_the_end());
    assert!(Iter::resume(CUT_OFF, 7, None, false).is_none());
    assert!(refuses_a_long_type());
}

// Whether exactly that much PADDING is skipped, and the iterator is at this offset then.
fn passes(iter: &mut Iter<'_>, count: usize, offset: usize) -> bool {
    iter.pass_padding() == count && iter.offset() == offset
}

// Eleven bytes of PADDING, PING, two of PADDING, an unknown type, and PADDING after that.
const PADDED: &[u8] = b"\0\0\0\0\0\0\0\0\0\0\0\x01\0\0\x21\0";

fn passes_what_stands_next() -> bool {
    let Some(mut iter) = Iter::new(PADDED).ok() else {
        return false;
    };
    passes(&mut iter, 11, 11)
        && iter.last_type() == Some(FrameType::PADDING)
        && passes(&mut iter, 0, 11)
        && matches!(iter.next(), Some(Ok(Frame::Ping)))
        && passes(&mut iter, 2, 14)
        && iter.last_type() == Some(FrameType::PADDING)
        && matches!(iter.next(), Some(Err(_)))
        && passes(&mut iter, 0, 14)
        && iter.next().is_none()
}

// A type of two bytes isn't skipped.
fn passes_nothing_else() -> bool {
    let Some(mut iter) = Iter::new(b"\x40\0\x01").ok() else {
        return false;
    };
    passes(&mut iter, 0, 0)
        && iter.last_type().is_none()
        && matches!(iter.next(), Some(Ok(Frame::Padding)))
        && passes(&mut iter, 0, 2)
        && matches!(iter.next(), Some(Ok(Frame::Ping)))
        && passes(&mut iter, 0, 3)
        && iter.last_type() == Some(FrameType::PING)
}

fn passes_to_the_end() -> bool {
    let Some(mut iter) = Iter::new(b"\0\0\0").ok() else {
        return false;
    };
    passes(&mut iter, 3, 3) && iter.next().is_none() && passes(&mut iter, 0, 3)
}

#[test]
fn padding_is_passed() {
    assert!(passes_what_stands_next(), "what stands next");
    assert!(passes_nothing_else(), "nothing else");
    assert!(passes_to_the_end(), "to the end");
}

#[test]
fn an_empty_payload_is_a_protocol_violation() -> Result<(), Fail> {
    let Err(error) = Iter::new(b"") else {
        return Err("an error".into());
    };
    assert_eq!(error.code, Code::PROTOCOL_VIOLATION);
    assert_eq!(error.frame, None);
    assert_eq!(error.reason.as_str(), "packet payload is empty");
    Ok(())
}

fn is_error(error: &Error, code: Code, reason: &str) -> bool {
    error.code == code && error.reason.as_str() == reason
}

#[test]
fn errors() {
    let malformed = &Error::FRAME_ENCODING_ERROR("malformed");
    assert!(is_error(malformed, Code::FRAME_ENCODING_ERROR, "malformed"));
    let violation = &Error::PROTOCOL_VIOLATION("x");
    assert!(is_error(violation, Code::PROTOCOL_VIOLATION, "x"));
}

#[test]
fn an_owned_reason() -> Result<(), Fail> {
    let owned = Reason::Owned("made".to_string());
    assert_eq!(owned.as_str(), "made");
    Ok(())
}

// The types of one byte with their own name; frames about limits are listed separately.
fn named(number: u8) -> Option<(FrameType, &'static str)> {
    Some(match number {
        0x00 => (FrameType::PADDING, "PADDING"),
        0x01 => (FrameType::PING, "PING"),
        0x02 => (FrameType::ACK, "ACK"),
        0x03 => (FrameType::ACK_ECN, "ACK_ECN"),
        0x04 => (FrameType::RESET_STREAM, "RESET_STREAM"),
        0x05 => (FrameType::STOP_SENDING, "STOP_SENDING"),
        0x06 => (FrameType::CRYPTO, "CRYPTO"),
        0x07 => (FrameType::NEW_TOKEN, "NEW_TOKEN"),
        0x18 => (FrameType::NEW_CONNECTION_ID, "NEW_CONNECTION_ID"),
        0x19 => (FrameType::RETIRE_CONNECTION_ID, "RETIRE_CONNECTION_ID"),
        0x1a => (FrameType::PATH_CHALLENGE, "PATH_CHALLENGE"),
        0x1b => (FrameType::PATH_RESPONSE, "PATH_RESPONSE"),
        0x1c => (FrameType::CONNECTION_CLOSE, "CONNECTION_CLOSE"),
        0x1d => (FrameType::APPLICATION_CLOSE, "APPLICATION_CLOSE"),
        0x1e => (FrameType::HANDSHAKE_DONE, "HANDSHAKE_DONE"),
        0x1f => (FrameType::IMMEDIATE_ACK, "IMMEDIATE_ACK"),
        _ => return named_limit(number),
    })
}

fn named_limit(number: u8) -> Option<(FrameType, &'static str)> {
    Some(match number {
        0x10 => (FrameType::MAX_DATA, "MAX_DATA"),
        0x11 => (FrameType::MAX_STREAM_DATA, "MAX_STREAM_DATA"),
        0x12 => (FrameType::MAX_STREAMS_BIDI, "MAX_STREAMS_BIDI"),
        0x13 => (FrameType::MAX_STREAMS_UNI, "MAX_STREAMS_UNI"),
        0x14 => (FrameType::DATA_BLOCKED, "DATA_BLOCKED"),
        0x15 => (FrameType::STREAM_DATA_BLOCKED, "STREAM_DATA_BLOCKED"),
        0x16 => (FrameType::STREAMS_BLOCKED_BIDI, "STREAMS_BLOCKED_BIDI"),
        0x17 => (FrameType::STREAMS_BLOCKED_UNI, "STREAMS_BLOCKED_UNI"),
        _ => return None,
    })
}

fn check_texts(ty: FrameType, display: &str, debug: &str) {
    assert_eq!(ty.to_string(), display);
    assert_eq!(format!("{ty:?}"), debug);
}

fn check_names() {
    for number in 0..=0xff {
        if let Some((ty, name)) = named(number) {
            assert!(type_of(&[number]) == Some(ty), "at {name}");
            assert!(FrameType::of(u64::from(number)) == ty, "at {name}");
            check_texts(ty, name, name);
        }
    }
    assert_eq!(Some(FrameType::ACK_FREQUENCY), type_of(b"\x40\xaf"));
}

// Types without a constant, except the first, and both their texts.
const TEXTS: &[(&[u8], &str, &str)] = &[
    (b"\x40\xaf", "ACK_FREQUENCY", "ACK_FREQUENCY"),
    (b"\x0b", "STREAM", "Type(0b)"),
    (b"\x30", "DATAGRAM", "Type(30)"),
    (b"\x31", "DATAGRAM", "Type(31)"),
    (b"\xff\xff\xff\xff\xff\xff\xff\xff", "<unknown 3fffffffffffffff>", "Type(3fffffffffffffff)"),
];

fn check_texts_of_types() -> Result<(), Fail> {
    for &(bytes, display, debug) in TEXTS {
        let Some(ty) = type_of(bytes) else {
            return Err("a type".into());
        };
        check_texts(ty, display, debug);
    }
    Ok(())
}

#[test]
fn names_of_types() -> Result<(), Fail> {
    check_names();
    check_texts_of_types()?;
    Ok(())
}

fn write_types(out: &mut Vec<u8>) -> Result<(), NoRoom> {
    FrameType::ACK_FREQUENCY.encode(out)?;
    FrameType::PING.encode(out)
}

#[test]
fn a_type_is_written_as_its_number() {
    let mut out = Vec::new();
    assert!(write_types(&mut out).is_ok());
    assert_eq!(out.as_slice(), b"\x40\xaf\x01".as_slice());
}
