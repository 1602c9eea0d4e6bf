//! The crate `bytes`. Writing reports a full buffer, where the crate panics.
use super::alloc::AllocError;
use super::vec::CloneExt;
use std::ops::RangeBounds;

pub use ::bytes::{Buf, Bytes, BytesMut};

/// A buffer to whose end bytes are written, as every `BufMut` of the crate `bytes` is. A write is whole, or an error that
/// leaves the bytes as they were.
pub trait BufMut {
    /// Makes room for `additional` more bytes. An error if there can't be as many.
    #[doc(hidden)]
    fn kit_make_room(&mut self, additional: usize) -> Result<(), AllocError>;

    /// Appends bytes.
    fn put_slice(&mut self, src: &[u8]) -> Result<(), AllocError>;

    /// Appends a byte.
    #[inline]
    fn put_u8(&mut self, n: u8) -> Result<(), AllocError> {
        self.put_slice(&[n])
    }

    /// Appends a number, its highest byte first.
    #[inline]
    fn put_u16(&mut self, n: u16) -> Result<(), AllocError> {
        self.put_slice(&n.to_be_bytes())
    }

    /// Appends a number, its highest byte first.
    #[inline]
    fn put_u32(&mut self, n: u32) -> Result<(), AllocError> {
        self.put_slice(&n.to_be_bytes())
    }

    /// Appends a number, its highest byte first.
    #[inline]
    fn put_u64(&mut self, n: u64) -> Result<(), AllocError> {
        self.put_slice(&n.to_be_bytes())
    }

    /// Appends the lowest `nbytes` bytes of a number, the highest of them first. It panics if these are more than 8.
    #[inline]
    fn put_uint(&mut self, n: u64, nbytes: usize) -> Result<(), AllocError> {
        self.put_slice(&n.to_be_bytes()[8 - nbytes..])
    }
}

/// Every buffer of the crate `bytes`. A vector that can't grow ends the program, as it does there.
impl<B: ::bytes::BufMut> BufMut for B {
    #[inline]
    fn kit_make_room(&mut self, additional: usize) -> Result<(), AllocError> {
        if additional <= self.remaining_mut() { Ok(()) } else { Err(AllocError) }
    }

    #[inline]
    fn put_slice(&mut self, src: &[u8]) -> Result<(), AllocError> {
        if src.len() > self.remaining_mut() {
            return Err(AllocError);
        }
        ::bytes::BufMut::put_slice(self, src);
        Ok(())
    }
}

/// What `BytesMut` has in Rattle.
pub trait BytesMutExt: Sized {
    /// `split_to`, which doesn't fail here.
    fn kit_split_to(&mut self, at: usize) -> Result<Self, AllocError>;
    /// `split_to` and `freeze`.
    fn freeze_to(&mut self, at: usize) -> Result<Bytes, AllocError>;
    /// The bytes.
    fn as_slice(&self) -> &[u8];
    /// The bytes, to change them.
    fn as_mut_slice(&mut self) -> &mut [u8];
}

impl BytesMutExt for BytesMut {
    #[inline]
    fn kit_split_to(&mut self, at: usize) -> Result<BytesMut, AllocError> {
        Ok(self.split_to(at))
    }

    #[inline]
    fn freeze_to(&mut self, at: usize) -> Result<Bytes, AllocError> {
        Ok(self.split_to(at).freeze())
    }

    #[inline]
    fn as_slice(&self) -> &[u8] {
        self
    }

    #[inline]
    fn as_mut_slice(&mut self) -> &mut [u8] {
        self
    }
}

/// What `Bytes` has in Rattle.
pub trait BytesExt: Sized {
    /// `slice`, which doesn't fail here.
    fn kit_slice<R: RangeBounds<usize>>(&self, range: R) -> Result<Self, AllocError>;
    /// The bytes.
    fn as_slice(&self) -> &[u8];
}

impl BytesExt for Bytes {
    #[inline]
    fn kit_slice<R: RangeBounds<usize>>(&self, range: R) -> Result<Bytes, AllocError> {
        Ok(self.slice(range))
    }

    #[inline]
    fn as_slice(&self) -> &[u8] {
        self
    }
}

impl CloneExt for Bytes {
    #[inline]
    fn kit_clone(&self) -> Result<Bytes, AllocError> {
        Ok(self.clone())
    }
}
