//! What the tests of numbers, ids and buffers share.
//!
use crate::host::prelude::*;
use crate::proved::quic_base::coding::{self, BufMutExt, Codec};
use std::fmt::{Debug, Display};

pub(crate) fn displays<T: Display>(value: &T, text: &str) -> bool {
    value.to_string() == text
}

pub(crate) fn debugs<T: Debug>(value: &T, text: &str) -> bool {
    format!("{value:?}") == text
}

// Whether a value is written as these bytes.
pub(crate) fn is_written<T: Codec>(x: T, bytes: &[u8]) -> bool {
    let mut out = Vec::new();
    out.write(x).is_ok() && out.as_slice() == bytes
}

// What a decoder returns, and how many bytes it leaves.
pub(crate) fn read<T: Codec>(bytes: &[u8]) -> (coding::Result<T>, usize) {
    let mut left = bytes;
    let value = T::decode(&mut left);
    (value, left.len())
}
