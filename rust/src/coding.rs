//! Values that bytes encode, read from the front of a buffer and appended to its end. Buffers are those of the crate
//! `bytes`.
//!
//! ```
//! use quic_wire::coding::{BufExt, BufMutExt, UnexpectedEnd};
//! let mut out = Vec::new();
//! out.write(0x0102_u16)?;
//! out.write_var(64)?;
//! let mut rest = bytes::Bytes::from(out);
//! assert_eq!((rest.get::<u16>(), rest.get_var(), rest.get_var()), (Ok(0x0102), Ok(64), Err(UnexpectedEnd)));
//! # Ok::<(), quic_wire::Error>(())
//! ```
use crate::{VarInt, WriteError};

pub use crate::kit::alloc::AllocError;
pub use crate::kit::bytes::BufMut;
pub use crate::proved::quic_base::coding::{BufExt, Codec, Cursor, NoRoom, Result, UnexpectedEnd};

/// Writes to any buffer by the type of the value.
pub trait BufMutExt: BufMut {
    /// Appends the encoding of `x`.
    ///
    /// # Errors
    ///
    /// If the buffer has too little room. It may have a prefix of the encoding then.
    fn write<T: Codec>(&mut self, x: T) -> core::result::Result<(), NoRoom>
    where
        Self: Sized,
    {
        x.encode(self)
    }

    /// Appends the shortest encoding of `x` as a varint (RFC 9000, section 16).
    ///
    /// # Errors
    ///
    /// If `x` is 2^62 or more; or if the buffer has too little room.
    fn write_var(&mut self, x: u64) -> core::result::Result<(), WriteError>
    where
        Self: Sized,
    {
        let x = VarInt::from_u64(x).map_err(|_| WriteError::OutOfRange("a varint is 2^62 or more"))?;
        Ok(x.encode(self)?)
    }
}

impl<B: BufMut> BufMutExt for B {}
