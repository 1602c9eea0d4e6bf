//! Worked rows, and what no clause says.

mod beginnings;
mod canonical;
mod errors;
mod lines;
mod strict;

use crate::proved::quic_canon::canonical::{CanonBytes, CanonError};

// A payload, and its shortest form.
pub const ROWS: &[(&[u8], &[u8])] = &[
    (b"\x00\x08\x00a", b"\x00\x08\x00a"),
    (b"\x0a\x00\x01a\x01", b"\x0a\x00\x01a\x01"),
    (b"\x08\x00\x08", b"\x08\x00\x08"),
    (b"\x0a\x00\x01a", b"\x08\x00a"),
    (b"\x40\x00\x0a\x00\x01a", b"\x00\x08\x00a"),
    (b"\x01\x0c\x04\x00hi", b"\x01\x08\x04hi"),
];

// Whether it is the payload itself.
pub fn is_same(bytes: &CanonBytes<'_>) -> bool {
    match bytes {
        CanonBytes::Same(_) => true,
        CanonBytes::Rewritten(_) => false,
    }
}

// Whether the payload was rejected with this error.
pub fn is_refused(answer: &Result<CanonBytes<'_>, CanonError>, error: &CanonError) -> bool {
    match answer {
        Ok(_) => false,
        Err(e) => e == error,
    }
}

// The same for a payload that was to be appended.
pub fn is_not_appended(answer: &Result<(), CanonError>, error: &CanonError) -> bool {
    match answer {
        Ok(()) => false,
        Err(e) => e == error,
    }
}
