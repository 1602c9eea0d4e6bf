//! The crate `bytes`, with calls that only tests have.
use crate::kit::alloc::AllocError;
use crate::kit::vec::CloneExt;
use crate::proved::quic_header_decode::protected::ProtectedHeader;

pub use crate::kit::bytes::*;

/// Buffers with a copy of bytes.
pub trait CopyExt: Sized {
    /// A buffer with a copy of the bytes.
    fn kit_copy_from_slice(src: &[u8]) -> Result<Self, AllocError>;
    /// A buffer with the vector's bytes.
    fn kit_from_vec(vec: Vec<u8>) -> Self;
}

impl CopyExt for BytesMut {
    fn kit_copy_from_slice(src: &[u8]) -> Result<BytesMut, AllocError> {
        Ok(BytesMut::from(src))
    }

    fn kit_from_vec(vec: Vec<u8>) -> BytesMut {
        BytesMut::from(vec.as_slice())
    }
}

impl CopyExt for Bytes {
    fn kit_copy_from_slice(src: &[u8]) -> Result<Bytes, AllocError> {
        Ok(Bytes::copy_from_slice(src))
    }

    fn kit_from_vec(vec: Vec<u8>) -> Bytes {
        Bytes::from(vec)
    }
}

/// A buffer with less room.
pub trait LimitExt: ::bytes::BufMut + Sized {
    /// The buffer with room for at most `limit` bytes.
    fn limit(self, limit: usize) -> ::bytes::buf::Limit<Self> {
        ::bytes::BufMut::limit(self, limit)
    }
}

impl<B: ::bytes::BufMut> LimitExt for B {}

impl CloneExt for ProtectedHeader {
    fn kit_clone(&self) -> Result<ProtectedHeader, AllocError> {
        Ok(self.clone())
    }
}
