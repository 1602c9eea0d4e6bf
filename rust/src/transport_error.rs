//! Why an endpoint closes a connection (RFC 9000, section 20.1).
//!
//! ```
//! use quic_wire::transport_error::{Code, Error};
//! assert_eq!(u64::from(Code::FRAME_ENCODING_ERROR), 7);
//! assert_eq!(Code::try_from(7), Ok(Code::FRAME_ENCODING_ERROR));
//! let error = Error::FRAME_ENCODING_ERROR("malformed");
//! assert_eq!((error.code, error.reason.as_str()), (Code::FRAME_ENCODING_ERROR, "malformed"));
//! ```
use crate::VarIntBoundsExceeded;
use alloc::string::String;
use core::fmt;

pub use crate::proved::quic_errors::transport_error::{Code, Error, Reason};

impl Code {
    /// The code with this number. `None` if it is 2^62 or more.
    ///
    /// ```
    /// use quic_wire::transport_error::Code;
    /// assert_eq!((Code::new(0xa), Code::new(1 << 62)), (Some(Code::PROTOCOL_VIOLATION), None));
    /// ```
    pub fn new(number: u64) -> Option<Code> {
        if number < 1 << 62 { Some(Code::of(number)) } else { None }
    }
}

/// An error exactly when the number is 2^62 or more.
impl TryFrom<u64> for Code {
    type Error = VarIntBoundsExceeded;

    fn try_from(number: u64) -> Result<Code, VarIntBoundsExceeded> {
        Code::new(number).ok_or(VarIntBoundsExceeded)
    }
}

impl Clone for Reason {
    fn clone(&self) -> Reason {
        match self {
            Reason::Static(text) => Reason::Static(text),
            Reason::Owned(text) => Reason::Owned(text.clone()),
        }
    }
}

impl From<String> for Reason {
    fn from(text: String) -> Reason {
        Reason::Owned(text)
    }
}

impl fmt::Display for Reason {
    fn fmt(&self, f: &mut fmt::Formatter<'_>) -> fmt::Result {
        f.write_str(self.as_str())
    }
}

impl Clone for Error {
    fn clone(&self) -> Error {
        Error { code: self.code, frame: self.frame, reason: self.reason.clone() }
    }
}
