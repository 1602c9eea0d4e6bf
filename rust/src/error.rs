//! Errors of writing, and all errors as one type.
use crate::canonical::CanonError;
use crate::coding::{NoRoom, UnexpectedEnd};
use crate::datagram::{HeaderError, UnprotectError};
use crate::frame::InvalidFrame;
use crate::levels::LevelError;
use crate::packet::{OpenError, PacketDecodeError, SealError};
use crate::transport_error::{self, Code};
use crate::transport_parameters;
use alloc::alloc::handle_alloc_error;
use core::alloc::Layout;
use core::fmt;

/// Why nothing was written, or not all.
///
/// ```
/// use quic_wire::WriteError;
/// use quic_wire::frame::Frame;
/// assert_eq!(Frame::Ping.encode(true, &mut &mut [0; 0][..]), Err(WriteError::NoRoom));
/// let late = Frame::DataBlocked { offset: 1 << 62 };
/// assert!(matches!(late.encode(true, &mut Vec::new()), Err(WriteError::OutOfRange(_))));
/// ```
#[derive(Clone, Copy, Debug, PartialEq, Eq, Hash)]
#[non_exhaustive]
pub enum WriteError {
    /// The buffer has too little room.
    NoRoom,
    /// Why it has no encoding: a number or a length is too large, or an id has a forbidden length. Nothing was written.
    OutOfRange(&'static str),
}

impl fmt::Display for WriteError {
    fn fmt(&self, f: &mut fmt::Formatter<'_>) -> fmt::Result {
        f.write_str(match self {
            WriteError::NoRoom => "no room in buffer",
            WriteError::OutOfRange(what) => what,
        })
    }
}

impl core::error::Error for WriteError {}

impl From<NoRoom> for WriteError {
    fn from(_: NoRoom) -> WriteError {
        WriteError::NoRoom
    }
}

/// Any error of this crate: one type for a function that goes from a datagram to its frames and back. It borrows
/// nothing.
///
/// ```
/// use quic_wire::VarInt;
/// use quic_wire::frame::{Frame, Iter};
/// use quic_wire::transport_error::Code;
///
/// fn first_limit(payload: &[u8], out: &mut Vec<u8>) -> Result<(), quic_wire::Error> {
///     for frame in Iter::new(payload)? {
///         if let Frame::MaxData(limit) = frame? {
///             Frame::MaxData(limit).encode(true, out)?;
///         }
///     }
///     Ok(())
/// }
///
/// let error = first_limit(&[0x01, 0x10], &mut Vec::new()).unwrap_err();
/// assert_eq!(error.to_string(), "frame: unexpected end in MAX_DATA");
/// assert_eq!(error.code(), Some(Code::FRAME_ENCODING_ERROR));
/// assert_eq!(first_limit(&[], &mut Vec::new()).unwrap_err().code(), Some(Code::PROTOCOL_VIOLATION));
/// ```
#[derive(Clone, Debug, PartialEq, Eq)]
#[non_exhaustive]
pub enum Error {
    /// A payload has an invalid frame.
    Frame(InvalidFrame),
    /// The error to close a connection with, as that of a payload without frames.
    Transport(transport_error::Error),
    /// The rest of a datagram doesn't begin with a packet.
    Packet(PacketDecodeError),
    /// The rest of a datagram doesn't begin with a packet, read as offsets.
    Header(HeaderError),
    /// Header protection can't be removed or applied.
    Protection(UnprotectError),
    /// A packet isn't opened.
    Open(OpenError),
    /// A packet isn't opened with the keys of its level.
    Level(LevelError),
    /// A packet isn't sealed.
    Seal(SealError),
    /// A list of transport parameters is rejected.
    TransportParameters(transport_parameters::Error),
    /// A value ends after its buffer.
    UnexpectedEnd,
    /// A canonical payload wasn't written, since memory ran out.
    OutOfMemory,
    /// Not everything was written.
    Write(WriteError),
}

impl Error {
    /// The code to close the connection with if the peer caused the error; `None` if a packet is dropped (RFC 9000,
    /// sections 5.2 and 12.2) or the peer didn't cause it.
    ///
    /// ```
    /// use quic_wire::transport_error::Code;
    /// use quic_wire::{Error, WriteError};
    /// assert_eq!(Error::Write(WriteError::NoRoom).code(), None);
    /// ```
    pub fn code(&self) -> Option<Code> {
        match self {
            Error::Frame(invalid) => Some(invalid.to_error().code),
            Error::Transport(error) => Some(error.code),
            Error::TransportParameters(_) => Some(Code::TRANSPORT_PARAMETER_ERROR),
            _ => None,
        }
    }
}

impl fmt::Display for Error {
    fn fmt(&self, f: &mut fmt::Formatter<'_>) -> fmt::Result {
        match self {
            Error::Frame(invalid) => write!(f, "frame: {invalid}"),
            Error::Transport(error) if error.reason.as_str().is_empty() => error.code.fmt(f),
            Error::Transport(error) => error.reason.fmt(f),
            Error::Packet(error) => write!(f, "packet: {error}"),
            Error::Header(error) => write!(f, "packet: {error}"),
            Error::Protection(error) => write!(f, "header protection: {error}"),
            Error::Open(error) => write!(f, "packet: {error}"),
            Error::Level(error) => write!(f, "packet: {error}"),
            Error::Seal(error) => write!(f, "not sealed: {error}"),
            Error::TransportParameters(error) => error.fmt(f),
            Error::UnexpectedEnd => UnexpectedEnd.fmt(f),
            Error::OutOfMemory => f.write_str("out of memory"),
            Error::Write(error) => write!(f, "not written: {error}"),
        }
    }
}

impl core::error::Error for Error {}

/// Each error is one of `Error`'s.
macro_rules! from {
    ($($of:ty => $variant:ident;)*) => {
        $(impl From<$of> for Error {
            fn from(error: $of) -> Error {
                Error::$variant(error)
            }
        })*
    };
}

from! {
    InvalidFrame => Frame;
    transport_error::Error => Transport;
    PacketDecodeError => Packet;
    HeaderError => Header;
    UnprotectError => Protection;
    OpenError => Open;
    LevelError => Level;
    SealError => Seal;
    transport_parameters::Error => TransportParameters;
    WriteError => Write;
}

impl From<UnexpectedEnd> for Error {
    fn from(_: UnexpectedEnd) -> Error {
        Error::UnexpectedEnd
    }
}

impl From<NoRoom> for Error {
    fn from(_: NoRoom) -> Error {
        Error::Write(WriteError::NoRoom)
    }
}

impl From<CanonError> for Error {
    fn from(error: CanonError) -> Error {
        match error {
            CanonError::Empty => {
                let reason = transport_error::Reason::Static("packet payload is empty");
                Error::Transport(transport_error::Error { code: Code::PROTOCOL_VIOLATION, frame: None, reason })
            }
            CanonError::Invalid(invalid) => Error::Frame(invalid),
            CanonError::OutOfMemory => Error::OutOfMemory,
        }
    }
}

// What a change returns, unless memory ran out: the program ends then, as it does if a `Vec` can't grow.
#[inline]
pub(crate) fn grown<T>(result: Result<T, NoRoom>) -> T {
    match result {
        Ok(value) => value,
        Err(NoRoom) => handle_alloc_error(Layout::new::<u64>()),
    }
}
