//! What the proved sources call and Rust's libraries lack, or have in another form: allocations that can fail, and
//! writing to a buffer that can be full.
//!
//! It is written by hand, and trusted to keep the contracts that Rattle's libraries state of these names.

pub mod bytes;
pub mod net;
pub mod smallvec;
#[cfg(test)]
mod tests;
pub mod text;
pub mod vec;

/// The error of an allocation.
pub mod alloc {
    use std::fmt;

    /// Memory ran out, or a buffer is full.
    #[derive(Clone, Copy, Debug, PartialEq, Eq)]
    pub struct AllocError;

    impl fmt::Display for AllocError {
        fn fmt(&self, f: &mut fmt::Formatter<'_>) -> fmt::Result {
            f.write_str("out of memory")
        }
    }

    impl std::error::Error for AllocError {}

    impl From<::alloc::collections::TryReserveError> for AllocError {
        fn from(_: ::alloc::collections::TryReserveError) -> AllocError {
            AllocError
        }
    }
}

/// The crate `bstr`.
pub mod bstr {
    pub use ::bstr::BStr;
}

/// The crate `thiserror`.
pub mod thiserror {
    pub use ::thiserror::Error;
}

/// The traits that give Rust's types the methods of Rattle's.
pub mod prelude {
    pub use super::bytes::{BytesExt, BytesMutExt};
    pub use super::net::{Ipv4AddrExt, Ipv6AddrExt};
    pub use super::text::StringExt;
    pub use super::vec::{CloneExt, VecExt};
    pub use ::alloc::string::String;
    pub use ::alloc::vec::Vec;
}
