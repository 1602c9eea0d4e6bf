//! Bodies of frames, whose types the caller has read.
use crate::proved::quic_frames::frame::{Frame, FrameType};

// What an ACK of 4 and 5 has behind its type (RFC 9000, section 19.3), and one more byte.
const ACK_BODY: &[u8] = b"\x05\x00\x00\x01\xff";

fn is_ack() -> bool {
    let Ok((Frame::Ack(ack), rest)) = Frame::read_body(FrameType::ACK, ACK_BODY) else {
        return false;
    };
    ack.largest() == 5 && ack.ecn().is_none() && rest == b"\xff".as_slice()
}

// Whether a body of this type is rejected for this reason.
fn refuses(ty: FrameType, body: &[u8], reason: &str) -> bool {
    let Err(invalid) = Frame::read_body(ty, body) else {
        return false;
    };
    invalid.ty == Some(ty) && invalid.reason == reason
}

#[test]
fn bodies_are_read() {
    assert!(is_ack());
    assert!(refuses(FrameType::ACK, b"\x05\x00\x00\x06", "malformed"));
    assert!(refuses(FrameType::ACK_ECN, ACK_BODY, "unexpected end"));
    assert!(refuses(FrameType::of(0x20), b"\x00", "invalid frame ID"));
}
