//! What tests and programs call beyond the shim of the crate: strings, the runtime's handle, the errors of tests.
pub mod bytes;
pub mod env;
pub mod fs;
pub mod guarded;
pub mod hex;
pub mod io;
pub mod rt;
pub mod test;
pub mod text;

pub use crate::kit::{alloc, thiserror};
pub use crate::{fallible_format, host_println};

/// The crate `bstr`.
pub mod bstr {
    pub use ::bstr::{BStr, ByteSlice};
}

/// The traits that give Rust's types the methods of Rattle's.
pub mod prelude {
    pub use super::bytes::{BytesExt as _, BytesMutExt as _, CopyExt, LimitExt as _};
    pub use super::guarded::*;
    pub use super::rt::HostRuntime;
    pub use super::text::{BufWriterExt, CollectExt as _, StrExt as _, TextExt};
    pub use crate::kit::prelude::*;
}
