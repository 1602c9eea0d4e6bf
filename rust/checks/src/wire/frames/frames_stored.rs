//! Frames that are written at the front of a slice.
use crate::host::prelude::*;
use crate::proved::quic_frames::frame::{Frame, Iter};

fn can_be_stored(frame: &Frame<'_>) -> bool {
    match frame {
        Frame::Stream(stream) => (stream.bytes.len() as u64) < 1 << 62,
        Frame::Datagram(datagram) => (datagram.bytes.len() as u64) < 1 << 62,
        _ => true,
    }
}

// Whether these bytes are written at the front, and no others.
fn is_whole(frame: &Frame<'_>, last: bool, wanted: &[u8]) -> bool {
    let mut room = [0xff; 40];
    frame.encode_into(last, &mut room) == Ok(wanted.len()) && is_front(&room, wanted)
}

fn is_front(room: &[u8], wanted: &[u8]) -> bool {
    let Some((front, rest)) = room.split_at_checked(wanted.len()) else {
        return false;
    };
    front == wanted && is_untouched(rest)
}

fn is_untouched(room: &[u8]) -> bool {
    for &byte in room {
        if byte != 0xff {
            return false;
        }
    }
    true
}

// Whether nothing is written if there is room for one byte less.
fn is_refused(frame: &Frame<'_>, last: bool, len: usize) -> bool {
    let mut little = [0xff; 40];
    let Some(short) = little.get_mut(..len.saturating_sub(1)) else {
        return false;
    };
    frame.encode_into(last, short) == Err(len) && is_untouched(&little)
}

// Whether the bytes behind the type, which has one byte here, are written as the body, whole or not at all.
fn is_body(frame: &Frame<'_>, last: bool, wanted: &[u8]) -> bool {
    let Some((ty, body)) = wanted.split_first() else {
        return false;
    };
    let mut room = [0xff; 40];
    frame.written_type(last).into_inner() == u64::from(*ty)
        && frame.encode_body_into(last, &mut room) == Ok(body.len())
        && is_front(&room, body)
        && is_body_refused(frame, last, body.len())
}

// Whether nothing is written of a body if there is room for one byte less.
fn is_body_refused(frame: &Frame<'_>, last: bool, len: usize) -> bool {
    let mut little = [0xff; 40];
    let Some(short) = little.get_mut(..len.saturating_sub(1)) else {
        return false;
    };
    len == 0 || frame.encode_body_into(last, short) == Err(len) && is_untouched(&little)
}

// Whether the first frame of a payload is written as these bytes, whole or not at all.
fn is_stored(payload: &[u8], last: bool, wanted: &[u8]) -> bool {
    let Some(mut iter) = Iter::new(payload).ok() else {
        return false;
    };
    let Some(Ok(frame)) = iter.next() else {
        return false;
    };
    if !frame.in_range() || !can_be_stored(&frame) {
        return false;
    }
    is_whole(&frame, last, wanted) && is_refused(&frame, last, wanted.len()) && is_body(&frame, last, wanted)
}

// What is read, and what is written for it before other frames and as the last.
const ROWS: &[(&[u8], &[u8], &[u8])] = &[
    (b"\x01", b"\x01", b"\x01"),
    (b"\x40\x0a\x40\x00\x40\x01a", b"\x0a\x00\x01a", b"\x08\x00a"),
    (b"\x0f\x04\x10\x02ab", b"\x0f\x04\x10\x02ab", b"\x0d\x04\x10ab"),
    (b"\x30hi", b"\x31\x02hi", b"\x30hi"),
    (
        b"\x40\x1a\x01\x02\x03\x04\x05\x06\x07\x08",
        b"\x1a\x01\x02\x03\x04\x05\x06\x07\x08",
        b"\x1a\x01\x02\x03\x04\x05\x06\x07\x08",
    ),
    (
        b"\x18\x40\x05\x80\x00\x00\x02\x02\xaa\xbb\x11\x11\x11\x11\x11\x11\x11\x11\x11\x11\x11\x11\x11\x11\x11\x1f",
        b"\x18\x05\x02\x02\xaa\xbb\x11\x11\x11\x11\x11\x11\x11\x11\x11\x11\x11\x11\x11\x11\x11\x1f",
        b"\x18\x05\x02\x02\xaa\xbb\x11\x11\x11\x11\x11\x11\x11\x11\x11\x11\x11\x11\x11\x11\x11\x1f",
    ),
    (
        b"\x03\x0e\x2a\x03\x00\x01\x01\x03\x00\x00\x02\x2a\x18\x0c",
        b"\x03\x0e\x2a\x03\x00\x01\x01\x03\x00\x00\x02\x2a\x18\x0c",
        b"\x03\x0e\x2a\x03\x00\x01\x01\x03\x00\x00\x02\x2a\x18\x0c",
    ),
    (
        b"\x02\x40\x02\x00\x80\x00\x00\x01\x40\x00\x00\xc0\x00\x00\x00\x00\x00\x00\x00",
        b"\x02\x02\x00\x01\x00\x00\x00",
        b"\x02\x02\x00\x01\x00\x00\x00",
    ),
];

#[test]
fn frames_are_stored_at_the_front() {
    for &(payload, counted, open) in ROWS {
        assert!(is_stored(payload, false, counted));
        assert!(is_stored(payload, true, open));
    }
}
