//! Acknowledgements, and frames of every kind by their fields.
use crate::host::prelude::*;
use crate::host::test::Fail;
use crate::proved::quic_base::ids::EcnCodepoint;
use crate::proved::quic_frames::frame::{
    Ack, AckError, EcnCounts, Frame, FrameType, InvalidFrame, Iter, split_first_range,
};
use crate::proved::quic_frames::transport_error::Error;

// Whether an acknowledgement has exactly these ranges, in this order.
pub fn has_ranges(ack: &Ack<'_>, ranges: &[(u64, u64)]) -> bool {
    let mut rest = ack.into_iter();
    for &(start, end) in ranges {
        if rest.next() != Some(start..=end) {
            return false;
        }
    }
    rest.next().is_none()
}

fn gives_two_ranges(ack: &Ack<'_>) -> bool {
    let mut iter = ack.iter();
    for (start, end) in [(5, 5), (0, 3)] {
        if iter.next() != Some(start..=end) {
            return false;
        }
    }
    iter.next().is_none() && iter.next().is_none()
}

#[test]
fn parts_of_an_acknowledgement() -> Result<(), Fail> {
    let ack = Ack::proved_from_parts(5, 7, b"\x00\x00\x03", None)?;
    assert!(has_ranges(&ack, &[(5, 5), (0, 3)]));
    assert_eq!(ack.largest(), 5);
    assert_eq!(ack.delay(), 7);
    assert_eq!(ack.additional(), b"\x00\x00\x03".as_slice());
    assert!(ack.ecn().is_none());
    assert!(gives_two_ranges(&ack));
    Ok(())
}

// The blocks of an ACK that was read are the payload's bytes: numbers keep the widths that they have there.
const BLOCKS_READ: &[(&[u8], &[u8])] = &[
    (b"\x02\x05\x00\x00\x00", b"\x00"),
    (b"\x02\x05\x00\x00\x40\x00", b"\x40\x00"),
    (b"\x02\x05\x00\x01\x40\x00\x00\x40\x03", b"\x40\x00\x00\x40\x03"),
];

fn has_blocks(payload: &[u8], blocks: &[u8]) -> bool {
    let Some(mut iter) = Iter::new(payload).ok() else {
        return false;
    };
    let Some(Ok(Frame::Ack(ack))) = iter.next() else {
        return false;
    };
    ack.additional() == blocks
}

#[test]
fn blocks_as_they_were_read() {
    for &(payload, blocks) in BLOCKS_READ {
        assert!(has_blocks(payload, blocks), "at {payload:?}");
    }
}

// Blocks below 5, and why they are rejected.
const REFUSED_BLOCKS: &[(&[u8], AckError)] = &[
    (b"\x00\x00\x05", AckError::Malformed),
    (b"\x00\x04", AckError::Malformed),
    (b"", AckError::UnexpectedEnd),
    (b"\x40", AckError::UnexpectedEnd),
    (b"\x00\x00", AckError::UnexpectedEnd),
];

fn are_refused(blocks: &[u8], refused: AckError) -> bool {
    let Err(error) = Ack::proved_from_parts(5, 0, blocks, None) else {
        return false;
    };
    error == refused
}

fn texts_of_refusals() -> Result<String, Fail> {
    let (end, malformed) = (AckError::UnexpectedEnd, AckError::Malformed);
    Ok(format!("{end}, {malformed}, {end:?}"))
}

#[test]
fn parts_that_are_refused() -> Result<(), Fail> {
    let texts = texts_of_refusals()?;
    for &(blocks, refused) in REFUSED_BLOCKS {
        assert!(are_refused(blocks, refused), "at {refused:?}");
    }
    assert_eq!(texts.as_str(), "unexpected end, malformed, UnexpectedEnd");
    Ok(())
}

// Reads one range at a time from bytes that may not be blocks: below 5, a gap of 0 leaves out 4, and 3 is next.
const FIRST_RANGES: &[(&[u8], u64, u64, &[u8])] = &[
    (b"\x00\x00\x03", 5, 3, b"\x03"),
    (b"\x40\x00\x00\x03", 5, 3, b"\x03"),
    (b"\x01\x40\x02", 4, 0, b""),
    (b"\x05", 0, 0, b""),
];

const NO_FIRST_RANGES: &[(&[u8], AckError)] = &[
    (b"", AckError::UnexpectedEnd),
    (b"\x40", AckError::UnexpectedEnd),
    (b"\x06", AckError::Malformed),
    (b"\x00\x40", AckError::UnexpectedEnd),
    (b"\x00\x04", AckError::Malformed),
    (b"\x04\x00", AckError::Malformed),
];

fn is_split(blocks: &[u8], least: u64, next: u64, left: &[u8]) -> bool {
    let Ok((first, second, rest)) = split_first_range(5, blocks) else {
        return false;
    };
    first == least && second == next && rest == left
}

fn is_not_split(blocks: &[u8], refused: AckError) -> bool {
    let Err(error) = split_first_range(5, blocks) else {
        return false;
    };
    error == refused
}

#[test]
fn a_first_range() {
    for &(blocks, least, next, left) in FIRST_RANGES {
        assert!(is_split(blocks, least, next, left), "at {next}");
    }
    for &(blocks, refused) in NO_FIRST_RANGES {
        assert!(is_not_split(blocks, refused));
    }
}

fn is_an_acknowledgement_with_counts(frame: &Frame<'_>) -> bool {
    let Frame::Ack(ack) = frame else {
        return false;
    };
    let wanted = EcnCounts { ect0: 0x2a, ect1: 0x18, ce: 0x0c };
    has_ranges(ack, &[(14, 14), (10, 11), (5, 5), (1, 3)]) && ack.delay() == 0x2a && ack.ecn() == Some(wanted)
}

fn reads_an_acknowledgement_with_counts() -> bool {
    let payload = b"\x03\x0e\x2a\x03\x00\x01\x01\x03\x00\x00\x02\x2a\x18\x0c";
    let Some(mut iter) = Iter::new(payload).ok() else {
        return false;
    };
    let Some(Ok(frame)) = iter.next() else {
        return false;
    };
    frame.ty() == FrameType::ACK && !frame.is_ack_eliciting() && is_an_acknowledgement_with_counts(&frame)
}

#[test]
fn an_acknowledgement_with_counts() {
    assert!(reads_an_acknowledgement_with_counts());
}

#[test]
fn counts_grow() {
    let mut counts = EcnCounts::ZERO;
    counts += EcnCodepoint::Ect0;
    counts += EcnCodepoint::Ce;
    counts += EcnCodepoint::Ce;
    counts += EcnCodepoint::Ect1;
    counts += EcnCodepoint::Ce;
    let wanted = EcnCounts { ect0: 1, ect1: 1, ce: 3 };
    assert_eq!(counts, wanted);
}

// Frames, and their Debug.
const SHOWN: &[(&[u8], &str)] = &[
    (b"\x10\x20", "MaxData(32)"),
    (b"\x11\x08\x21", "MaxStreamData { id: StreamId(8), offset: 33 }"),
    (b"\x12\x03", "MaxStreams { dir: Bi, count: 3 }"),
    (b"\x13\x02", "MaxStreams { dir: Uni, count: 2 }"),
    (b"\x14\x22", "DataBlocked { offset: 34 }"),
    (b"\x15\x0c\x23", "StreamDataBlocked { id: StreamId(12), offset: 35 }"),
    (b"\x16\x01", "StreamsBlocked { dir: Bi, limit: 1 }"),
    (b"\x17\x04", "StreamsBlocked { dir: Uni, limit: 4 }"),
    (b"\x19\x07", "RetireConnectionId { sequence: 7 }"),
    (b"\x04\x04\x05\x06", "ResetStream(ResetStream { id: StreamId(4), error_code: 5, final_offset: 6 })"),
    (b"\x05\x04\x05", "StopSending(StopSending { id: StreamId(4), error_code: 5 })"),
];

// Checks the Debug of the first frame of a payload.
fn check_debug(payload: &[u8], text: &str) -> Result<(), Fail> {
    let Some(Ok(frame)) = Iter::new(payload)?.next() else {
        return Err("a frame".into());
    };
    assert_eq!(format!("{frame:?}"), text);
    Ok(())
}

#[test]
fn frames_of_few_numbers() -> Result<(), Fail> {
    for &(payload, text) in SHOWN {
        check_debug(payload, text)?;
    }
    Ok(())
}

fn reads_handshake_done(iter: &mut Iter<'_>) -> bool {
    let Some(Ok(frame)) = iter.next() else {
        return false;
    };
    frame.ty() == FrameType::HANDSHAKE_DONE && frame.is_ack_eliciting()
}

fn reads_a_token(iter: &mut Iter<'_>) -> bool {
    let Some(Ok(Frame::NewToken(token))) = iter.next() else {
        return false;
    };
    token.token == b"ab".as_slice()
}

fn reads_a_close(iter: &mut Iter<'_>) -> bool {
    let Some(Ok(frame)) = iter.next() else {
        return false;
    };
    frame.ty() == FrameType::CONNECTION_CLOSE && !frame.is_ack_eliciting()
}

fn reads_a_datagram(iter: &mut Iter<'_>) -> bool {
    let Some(Ok(Frame::Datagram(datagram))) = iter.next() else {
        return false;
    };
    datagram.bytes == b"xy".as_slice()
}

fn check_frames_of_the_connection(iter: &mut Iter<'_>) {
    assert!(matches!(iter.next(), Some(Ok(Frame::PathResponse(0x102)))));
    assert!(reads_handshake_done(iter));
    assert!(matches!(iter.next(), Some(Ok(Frame::ImmediateAck))));
    assert!(reads_a_token(iter));
    assert!(reads_a_close(iter));
    assert!(reads_a_datagram(iter));
    assert!(iter.next().is_none());
}

#[test]
fn frames_of_the_connection() -> Result<(), Fail> {
    let payload = b"\x1b\x00\x00\x00\x00\x00\x00\x01\x02\x1e\x1f\x07\x02ab\x1c\x00\x00\x00\x30xy";
    let mut iter = Iter::new(payload)?;
    check_frames_of_the_connection(&mut iter);
    Ok(())
}

fn reads_a_new_connection_id(iter: &mut Iter<'_>) -> bool {
    let Some(Ok(Frame::NewConnectionId(new))) = iter.next() else {
        return false;
    };
    new.sequence == 5
        && new.retire_prior_to == 2
        && new.id.as_slice() == b"\xaa\xbb".as_slice()
        && new.reset_token.as_slice().last() == Some(&0x12)
}

fn reads_an_ack_frequency(iter: &mut Iter<'_>) -> bool {
    let Some(Ok(Frame::AckFrequency(frequency))) = iter.next() else {
        return false;
    };
    frequency.sequence.into_inner() == 0x2a
        && frequency.ack_eliciting_threshold.into_inner() == 0x14
        && frequency.request_max_ack_delay.into_inner() == 50000
        && frequency.reordering_threshold.into_inner() == 1
}

#[test]
fn a_new_connection_id_and_an_ack_frequency() -> Result<(), Fail> {
    let payload =
        b"\x18\x05\x02\x02\xaa\xbb\x11\x11\x11\x11\x11\x11\x11\x11\x11\x11\x11\x11\x11\x11\x11\x12\x40\xaf\x2a\x14\x80\
        \x00\xc3\x50\x01";
    let mut iter = Iter::new(payload)?;
    assert!(reads_a_new_connection_id(&mut iter));
    assert!(reads_an_ack_frequency(&mut iter));
    assert!(iter.next().is_none());
    Ok(())
}

// A conversion, called through its trait bound.
fn converted<T: Copy, U: From<T>>(value: &T) -> U {
    U::from(*value)
}

fn error_of(payload: &[u8]) -> Option<InvalidFrame> {
    let mut iter = Iter::new(payload).ok()?;
    let Some(Err(invalid)) = iter.next() else {
        return None;
    };
    Some(invalid)
}

fn check_error(invalid: &InvalidFrame) {
    let error = converted::<InvalidFrame, Error>(invalid);
    assert!(error == invalid.to_error());
    let text = "received a frame that was badly formatted in ACK: malformed";
    assert_eq!(error.to_string(), text);
}

#[test]
fn what_is_no_frame() -> Result<(), Fail> {
    let Some(invalid) = error_of(b"\x02\x05\x00\x01\x02\x02") else {
        return Err("an error".into());
    };
    let wanted = InvalidFrame { ty: Some(FrameType::ACK), reason: "malformed" };
    assert!(invalid == wanted);
    check_error(&invalid);
    Ok(())
}
