//! Errors of the calls, as they are displayed.
use crate::proved::quic_canon::canonical::CanonError;
use crate::proved::quic_frames::frame::{FrameType, InvalidFrame};
use std::error::Error;

// An error's text, by the trait of errors.
fn says<E: Error>(error: &E, text: &str) {
    assert_eq!(error.to_string(), text);
}

#[test]
fn errors_are_reported() {
    let long =
        CanonError::Invalid(InvalidFrame { ty: Some(FrameType::PADDING), reason: "frame type not in shortest form" });
    says(&CanonError::Empty, "packet payload is empty");
    says(&long, "frame type not in shortest form in PADDING");
    says(&CanonError::OutOfMemory, "out of memory");
}
