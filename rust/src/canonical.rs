//! The shortest payload with the same meaning (RFC 9000, sections 12.4 and 19): the same frames in the same order, each
//! in its shortest form.
//!
//! ```
//! use quic_wire::canonical::{canonical, canonical_of, mean_the_same};
//! // A PING whose type takes two bytes, and a STREAM whose offset of 0 and length are written.
//! let payload = [0x40, 0x01, 0x0e, 0x04, 0x00, 0x02, b'h', b'i'];
//! let mut out = Vec::new();
//! canonical(&payload, &mut out)?;
//! assert_eq!(out, [0x01, 0x08, 0x04, b'h', b'i']);
//! assert_eq!(canonical_of(&payload)?.bytes(), out);
//! assert_eq!(mean_the_same(&payload, &out), Ok(true));
//! # Ok::<(), quic_wire::Error>(())
//! ```
use core::ops::Deref;

pub use crate::proved::quic_canon::canonical::{CanonBytes, CanonError, canonical, canonical_of, canonical_with};
pub use crate::proved::quic_canon::client::mean_the_same;

impl Deref for CanonBytes<'_> {
    type Target = [u8];

    fn deref(&self) -> &[u8] {
        self.bytes()
    }
}

impl AsRef<[u8]> for CanonBytes<'_> {
    fn as_ref(&self) -> &[u8] {
        self.bytes()
    }
}
