//! Texts of 2,000 bytes and more, which are displayed whole.
use super::modes::{displays, error_with_text_displays};
use crate::proved::quic_base::varint::VarInt;
use crate::proved::quic_frames::frame::{ApplicationClose, ConnectionClose};
use crate::proved::quic_frames::transport_error::Code;

fn connection_close_displays(bytes: &[u8], reason: &str) -> bool {
    let close = ConnectionClose { error_code: Code::NO_VIABLE_PATH, frame_type: None, reason: bytes };
    displays(&close, &format!("no viable network path exists: {reason}"))
}

fn application_close_displays(bytes: &[u8], reason: &str) -> bool {
    let close = ApplicationClose { error_code: VarInt::from_u32(7), reason: bytes };
    displays(&close, &format!("{reason} (code 7)"))
}

// Whether a close of either kind, whose reason has these bytes, displays this reason.
fn closes_display(bytes: &[u8], reason: &str) -> bool {
    bytes.len() == 2000 && connection_close_displays(bytes, reason) && application_close_displays(bytes, reason)
}

fn closes_display_text() -> bool {
    let reason = "twenty bytes of text".repeat(100);
    closes_display(reason.as_bytes(), &reason)
}

// Bytes that aren't text are displayed as one character each.
fn closes_display_what_is_no_text() -> bool {
    closes_display(&[0xff; 2000], &"\u{fffd}".repeat(2000))
}

#[test]
fn closes_with_long_reasons() {
    assert!(closes_display_text(), "text");
    assert!(closes_display_what_is_no_text(), "no text");
}

fn error_displays(reason: &str) -> bool {
    error_with_text_displays(Code::NO_VIABLE_PATH, reason, &format!("no viable network path exists: {reason}"))
}

fn error_displays_a_long_text() -> bool {
    error_displays(&"twenty bytes of text".repeat(100))
}

#[test]
fn an_error_with_a_long_text() {
    assert!(error_displays_a_long_text());
}
