//! Integers of variable length, below 2^62 (RFC 9000, section 16).
//!
//! ```
//! use quic_wire::varint::{self, VarInt};
//! let mut out = Vec::new();
//! assert_eq!(varint::write(1025, &mut out), Ok(2));
//! assert_eq!(varint::read(&out), Some((1025, 2)));
//! assert_eq!(VarInt::from_u32(1025).size(), 2);
//! ```
use crate::WriteError;
use crate::coding::Codec;
use crate::proved::quic_base::varint::{split_var, var_size};
use bytes::BufMut;

pub use crate::proved::quic_base::varint::{VarInt, VarIntBoundsExceeded};

/// The greatest number, 2^62 - 1.
pub const MAX: u64 = VarInt::MAX.into_inner();

const TOO_LARGE: WriteError = WriteError::OutOfRange("a varint is 2^62 or more");

/// The number at the front of the bytes, and how many bytes it has: 1, 2, 4 or 8. `None` if they end within it.
///
/// ```
/// use quic_wire::varint;
/// assert_eq!(varint::read(&[0x44, 0x01, 7]), Some((1025, 2)));
/// assert_eq!(varint::read(&[0x44]), None);
/// ```
#[inline]
pub fn read(bytes: &[u8]) -> Option<(u64, usize)> {
    let (value, rest) = split_var(bytes).ok()?;
    Some((value, bytes.len() - rest.len()))
}

/// How many bytes a number has in its shortest encoding. `None` above [`MAX`].
///
/// ```
/// use quic_wire::varint::{MAX, len};
/// assert_eq!([63, 64, 1 << 30, MAX, MAX + 1].map(len), [Some(1), Some(2), Some(8), Some(8), None]);
/// ```
#[inline]
pub const fn len(value: u64) -> Option<usize> {
    if value <= MAX { Some(var_size(value)) } else { None }
}

/// Appends a number in its shortest encoding, and returns how many bytes it has.
///
/// ```
/// let mut out = vec![7];
/// assert_eq!((quic_wire::varint::write(80, &mut out), out), (Ok(2), vec![7, 0x40, 80]));
/// ```
///
/// # Errors
///
/// If it is above [`MAX`], or there is too little room. Nothing is written then.
#[inline]
pub fn write<B: BufMut>(value: u64, out: &mut B) -> Result<usize, WriteError> {
    let value = VarInt::from_u64(value).map_err(|_| TOO_LARGE)?;
    if out.remaining_mut() < value.size() {
        return Err(WriteError::NoRoom);
    }
    value.encode(out)?;
    Ok(value.size())
}

/// Appends a number in 1, 2, 4 or 8 bytes, as for a length that is known last, and returns how many they are. It is
/// written in Rust: no proof covers it.
///
/// ```
/// use quic_wire::varint;
/// let mut out = Vec::new();
/// assert_eq!(varint::write_in(5, 4, &mut out), Ok(4));
/// assert_eq!(out, [0x80, 0, 0, 5]);
/// assert!(varint::write_in(64, 1, &mut out).is_err());
/// ```
///
/// # Errors
///
/// If it doesn't fit in `width` bytes, there is no such width, or there is too little room. Nothing is written then.
pub fn write_in<B: BufMut>(value: u64, width: usize, out: &mut B) -> Result<usize, WriteError> {
    let shortest = len(value).ok_or(TOO_LARGE)?;
    // The two highest bits say how many bytes there are.
    let tag = match width {
        1 => 0,
        2 => 1 << 14,
        4 => 2 << 30,
        8 => 3 << 62,
        _ => return Err(WriteError::OutOfRange("a varint has 1, 2, 4 or 8 bytes")),
    };
    if shortest > width {
        return Err(WriteError::OutOfRange("a number has no encoding of this width"));
    }
    if out.remaining_mut() < width {
        return Err(WriteError::NoRoom);
    }
    out.put_slice(&(tag | value).to_be_bytes()[8 - width..]);
    Ok(width)
}
