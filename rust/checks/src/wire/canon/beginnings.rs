//! Beginnings of payloads.
use super::is_same;
use super::lines::{CANON, STRICT};
use crate::host::test::Fail;
use crate::proved::quic_canon::canonical::{CanonError, canonical_of};
use crate::proved::quic_frames::frame::{FrameType, Iter};
use crate::proved::quic_frames::transport_error::Error;
use crate::tested::quic_checks::codes::type_of;

fn frames_of(strict: bool, payload: &[u8]) -> Result<Iter<'_>, Error> {
    if strict { Iter::strict(payload) } else { Iter::new(payload) }
}

// Whether they report an invalid frame, with this type and this reason.
fn is_broken(strict: bool, payload: &[u8], ty: &Option<FrameType>, reason: &str) -> bool {
    let Ok(frames) = frames_of(strict, payload) else {
        return false;
    };
    for item in frames {
        if let Err(invalid) = item {
            return invalid.ty == *ty && invalid.reason == reason;
        }
    }
    false
}

// Whether all of it is frames.
fn is_whole(strict: bool, payload: &[u8]) -> bool {
    let Ok(frames) = frames_of(strict, payload) else {
        return false;
    };
    for item in frames {
        if item.is_err() {
            return false;
        }
    }
    true
}

// Whether `new` and `strict` report an unexpected end, with this type.
fn is_cut(payload: &[u8], ty: &Option<FrameType>) -> bool {
    is_broken(false, payload, ty, "unexpected end") && is_broken(true, payload, ty, "unexpected end")
}

#[test]
fn beginnings_of_an_ack() {
    let ack = b"\x03\x0e\x2a\x03\x00\x01\x01\x03\x00\x00\x02\x2a\x18\x0c".as_slice();
    for k in 1..ack.len() {
        assert!(is_cut(&ack[..k], &Some(FrameType::ACK_ECN)), "at {k}");
    }
    assert!(is_whole(true, ack));
}

#[test]
fn beginnings_of_an_ack_frequency() -> Result<(), Fail> {
    let frequency = b"\x40\xaf\x2a\x14\x80\x00\xc3\x50\x01".as_slice();
    let ty = type_of(0xaf)?;
    assert!(is_cut(&frequency[..1], &None));
    for k in 2..frequency.len() {
        assert!(is_cut(&frequency[..k], &Some(ty)), "at {k}");
    }
    assert!(is_whole(true, frequency));
    Ok(())
}

// Frames that hold their own length, one of each type that has fields, each with its type.
const ENDED: &[(u8, &[u8])] = &[
    (0x02, b"\x02\x0e\x2a\x01\x01\x00\x40\x02"),
    (0x03, b"\x03\x0e\x2a\x01\x01\x00\x02\x40\x2a\x18\x0c"),
    (0x04, b"\x04\x04\x40\x40\x80\x00\x40\x00"),
    (0x05, b"\x05\x04\x40\x40"),
    (0x06, b"\x06\x40\x40\x02hi"),
    (0x07, b"\x07\x03abc"),
    (0x0a, b"\x0a\x04\x02hi"),
    (0x0b, b"\x0b\x44\x00\x02hi"),
    (0x0e, b"\x0e\x04\x40\x10\x02hi"),
    (0x0f, b"\x0f\x04\x07\x40\x02hi"),
    (0x10, b"\x10\x80\x00\x40\x00"),
    (0x11, b"\x11\x04\x40\x40"),
    (0x12, b"\x12\x40\x40"),
    (0x13, b"\x13\x40\x40"),
    (0x14, b"\x14\x40\x40"),
    (0x15, b"\x15\x04\x40\x40"),
    (0x16, b"\x16\x40\x40"),
    (0x17, b"\x17\x40\x40"),
    (0x18, b"\x18\x05\x02\x02\xaa\xbb0123456789abcdef"),
    (0x19, b"\x19\x40\x40"),
    (0x1a, b"\x1a\x01\x02\x03\x04\x05\x06\x07\x08"),
    (0x1b, b"\x1b\x01\x02\x03\x04\x05\x06\x07\x08"),
    (0x1c, b"\x1c\x0a\x00\x03bad"),
    (0x1d, b"\x1d\x80\x00\x40\x00\x02ab"),
    (0x31, b"\x31\x02hi"),
];

#[test]
fn beginnings_of_what_says_its_end() {
    for &(number, frame) in ENDED {
        let ty = Some(FrameType::of(u64::from(number)));
        for k in 1..frame.len() {
            assert!(is_cut(&frame[..k], &ty), "at {k} bytes of type {number:x}");
        }
        assert!(is_whole(true, frame), "at {number}");
    }
}

// Frames that extend to the end of the payload, each with its type and how many bytes come before the data. With these
// it is whole, however many bytes of data follow (RFC 9000, section 19.8; RFC 9221, section 4).
const OPEN: &[(u8, usize, &[u8])] = &[
    (0x08, 2, b"\x08\x04hi"),
    (0x09, 3, b"\x09\x44\x00hi"),
    (0x0c, 4, b"\x0c\x04\x40\x10hi"),
    (0x0d, 3, b"\x0d\x04\x07hi"),
    (0x30, 1, b"\x30hi"),
];

#[test]
fn beginnings_of_what_goes_on_to_the_end() {
    for &(number, head, frame) in OPEN {
        let ty = Some(FrameType::of(u64::from(number)));
        for k in 1..=frame.len() {
            let begun = &frame[..k];
            let is_reported = if k < head { is_cut(begun, &ty) } else { is_whole(true, begun) };
            assert!(is_reported, "at {k} bytes of type {number:x}");
        }
    }
}

// NEW_CONNECTION_ID with a forbidden field: one that retires its own number, an id of no bytes, and one of 21. With at
// least that many bytes it is malformed, wherever it is cut off; with fewer, it ends early (RFC 9000, section 19.15).
const MALFORMED: &[(usize, &[u8])] = &[
    (3, b"\x18\x01\x02\x02\xaa\xbb0123456789abcdef"),
    (5, b"\x18\x40\x02\x00\x000123456789abcdef"),
    (4, b"\x18\x05\x02\x000123456789abcdef"),
    (4, b"\x18\x05\x02\x15abcdefghijklmnopqrstu0123456789abcdef"),
];

#[test]
fn beginnings_of_an_id_that_cannot_be() {
    let ty = Some(FrameType::NEW_CONNECTION_ID);
    for &(at, frame) in MALFORMED {
        for k in 1..=frame.len() {
            let reason = if k < at { "unexpected end" } else { "malformed" };
            let is_reported = is_broken(false, &frame[..k], &ty, reason) && is_broken(true, &frame[..k], &ty, reason);
            assert!(is_reported, "at {k} bytes, wrong from {at} on");
        }
    }
}

// A payload that is read without an error has a shortest payload. That isn't longer, is its own shortest payload, and
// is read by `strict` too. Any other payload causes the same error when it is read and when its shortest payload is
// requested.
fn is_reported_alike(payload: &[u8]) -> bool {
    match &canonical_of(payload) {
        Ok(bytes) => is_whole(false, payload) && is_least(bytes.bytes(), payload.len()),
        Err(CanonError::Invalid(invalid)) => is_broken(false, payload, &invalid.ty, invalid.reason),
        Err(CanonError::Empty) => payload.is_empty(),
        Err(CanonError::OutOfMemory) => false,
    }
}

fn is_least(least: &[u8], len: usize) -> bool {
    match &canonical_of(least) {
        Ok(again) => is_same(again) && least.len() <= len && is_whole(true, least),
        Err(_) => false,
    }
}

#[test]
fn each_beginning_of_each_row() {
    for rows in [CANON, STRICT] {
        for &(line, _) in rows {
            if let Ok(bytes) = crate::host::hex::decode(line) {
                for k in 0..=bytes.len() {
                    assert!(is_reported_alike(&bytes[..k]), "at {line}");
                }
            }
        }
    }
}
