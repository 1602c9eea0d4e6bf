//! Frames that are written.
use crate::host::prelude::*;
use crate::host::test::Fail;
use crate::proved::quic_base::ids::{ConnectionId, ResetToken, StreamId};
use crate::proved::quic_base::varint::VarInt;
use crate::proved::quic_frames::frame::{
    AckFrequency, ApplicationClose, Close, ConnectionClose, Crypto, EcnCounts, FrameType, NewConnectionId, NewToken,
    ResetStream, StopSending,
};
use crate::proved::quic_frames::transport_error::{Code, Error};
use crate::tested::quic_checks::codes::code_of;

// Whether a close by the transport is written so in that much room, which is enough.
fn fits(out: &mut Vec<u8>, close: &ConnectionClose<'_>, room: usize, wanted: &[u8]) -> bool {
    if close.reason.len() as u64 >= 1 << 62 || close.min_len() > room {
        return false;
    }
    close.encode(out, room).is_ok() && out.as_slice() == wanted
}

// The code of a close, the room, and what is written.
const APPLICATION_CLOSES: &[(u32, usize, &[u8])] =
    &[(0, 8, b"\x1d\x00\x04abcd"), (16384, 8, b"\x1d\x80\x00\x40\x00\x02ab")];

fn application_fits(out: &mut Vec<u8>, code: u32, room: usize, wanted: &[u8]) -> bool {
    let close = ApplicationClose { error_code: VarInt::from_u32(code), reason: b"abcdef" };
    if close.min_len() > room {
        return false;
    }
    close.encode(out, room).is_ok() && out.as_slice() == wanted
}

// The same by the transport.
fn connection_fits(out: &mut Vec<u8>, error_code: Code, room: usize, wanted: &[u8]) -> bool {
    let close = ConnectionClose { error_code, frame_type: None, reason: b"abc" };
    fits(out, &close, room, wanted)
}

fn connection_closes_fit(alert: Code, none: Code) -> bool {
    connection_fits(&mut Vec::new(), alert, 5, b"\x1c\x41\x2a\x00\x00")
        && connection_fits(&mut Vec::new(), alert, 7, b"\x1c\x41\x2a\x00\x02ab")
        && connection_fits(&mut Vec::new(), none, 7, b"\x1c\x00\x00\x02ab")
}

fn close_of_an_error_fits(out: &mut Vec<u8>) -> bool {
    let mut error = Error::FRAME_ENCODING_ERROR("malformed");
    error.frame = Some(FrameType::ACK);
    let close = ConnectionClose::from(&error);
    fits(out, &close, 25, b"\x1c\x07\x02\x09malformed")
}

#[test]
fn closes_in_little_room() -> Result<(), Fail> {
    let (alert, none) = (code_of(298)?, code_of(0)?);
    for &(code, room, wanted) in APPLICATION_CLOSES {
        let is_so = application_fits(&mut Vec::new(), code, room, wanted);
        assert!(is_so, "at {code}");
    }
    assert!(connection_closes_fit(alert, none));
    assert!(close_of_an_error_fits(&mut Vec::new()));
    Ok(())
}

#[test]
fn the_least_room_of_closes() {
    for &(code, room) in &[(0, 4), (16384, 6)] {
        let close = ApplicationClose { error_code: VarInt::from_u32(code), reason: b"abcdef" };
        assert_eq!(close.min_len(), room);
        assert_eq!(Close::from(close).min_len(), room);
    }
    let close = ConnectionClose { error_code: Code::crypto(42), frame_type: None, reason: b"abc" };
    assert_eq!(close.min_len(), 5);
}

fn writes_a_frequency(out: &mut Vec<u8>) -> bool {
    let frequency = AckFrequency {
        sequence: VarInt::from_u32(42),
        ack_eliciting_threshold: VarInt::from_u32(20),
        request_max_ack_delay: VarInt::from_u32(50000),
        reordering_threshold: VarInt::from_u32(1),
    };
    let wanted = b"\x40\xaf\x2a\x14\x80\x00\xc3\x50\x01";
    frequency.encode(out).is_ok() && out.as_slice() == wanted.as_slice()
}

fn writes_a_reset(out: &mut Vec<u8>) -> bool {
    let Some(error_code) = VarInt::from_u64(1699299918078358476).ok() else {
        return false;
    };
    let reset =
        ResetStream { id: StreamId::from(VarInt::from_u32(2024)), error_code, final_offset: VarInt::from_u32(5) };
    let wanted = b"\x04\x47\xe8\xd7\x95\x20\x45\xaf\xe9\x33\xcc\x05";
    reset.encode(out).is_ok() && out.as_slice() == wanted.as_slice()
}

fn writes_a_stop(out: &mut Vec<u8>) -> bool {
    let stop = StopSending { id: StreamId::from(VarInt::from_u32(4)), error_code: VarInt::from_u32(5) };
    stop.encode(out).is_ok() && out.as_slice() == b"\x05\x04\x05".as_slice()
}

fn writes_counts(out: &mut Vec<u8>) -> bool {
    let counts = EcnCounts { ect0: 42, ect1: 24, ce: 12 };
    counts.encode(out).is_ok() && out.as_slice() == b"\x2a\x18\x0c".as_slice()
}

#[test]
fn frames_of_a_few_numbers() {
    assert!(writes_a_frequency(&mut Vec::new()));
    assert!(writes_a_reset(&mut Vec::new()));
    assert!(writes_a_stop(&mut Vec::new()));
    assert!(writes_counts(&mut Vec::new()));
}

fn writes_a_new_id(out: &mut Vec<u8>) -> bool {
    let new = NewConnectionId {
        sequence: 5,
        retire_prior_to: 2,
        id: ConnectionId::proved_new(b"\xaa\xbb"),
        reset_token: ResetToken::from([0x11; 16]),
    };
    new.encode(out).is_ok() && is_the_new_id(out.as_slice())
}

fn is_the_new_id(bytes: &[u8]) -> bool {
    bytes.len() == 22 && bytes.starts_with(b"\x18\x05\x02\x02\xaa\xbb\x11") && bytes.ends_with(&[0x11; 16])
}

fn writes_crypto_data(out: &mut Vec<u8>) -> bool {
    let frame = Crypto { offset: 33, bytes: b"\x59" };
    frame.encode(out).is_ok() && out.as_slice() == b"\x06\x21\x01\x59".as_slice()
}

fn writes_a_token(out: &mut Vec<u8>) -> bool {
    let frame = NewToken { token: b"hi" };
    frame.encode(out).is_ok() && out.as_slice() == b"\x07\x02hi".as_slice() && frame.size() == 4
}

#[test]
fn a_new_id_a_token_and_crypto_data() {
    assert!(writes_a_new_id(&mut Vec::new()));
    assert!(writes_crypto_data(&mut Vec::new()));
    assert!(writes_a_token(&mut Vec::new()));
}
