//! The crate `hex`.
use crate::kit::alloc::AllocError;

pub use ::hex::{FromHexError, decode, decode_to_slice};

/// The digits of bytes.
pub fn encode<T: AsRef<[u8]>>(bytes: T) -> Result<String, AllocError> {
    Ok(::hex::encode(bytes))
}
