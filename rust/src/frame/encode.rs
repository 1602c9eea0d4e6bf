//! Frames that are written in their shortest form: what can't be encoded is an error.
use super::StreamMeta;
use super::{ApplicationClose, Close, ConnectionClose, Crypto, Datagram, Frame, FrameType, NewConnectionId, NewToken};
use crate::WriteError;
use alloc::vec::Vec;
use bytes::BufMut;

type Result<T = ()> = core::result::Result<T, WriteError>;

const TOO_LARGE: WriteError = WriteError::OutOfRange("a number or a length in the frame is 2^62 or more");

// Whether a number, or the length of bytes, is a varint.
fn is_varint(n: u64) -> bool {
    n < 1 << 62
}

fn is_len(bytes: &[u8]) -> bool {
    is_varint(bytes.len() as u64)
}

// An error unless it holds.
#[inline]
fn require(holds: bool) -> Result {
    if holds { Ok(()) } else { Err(TOO_LARGE) }
}

#[cold]
fn why_not(frame: &Frame<'_>) -> WriteError {
    match frame {
        Frame::NewConnectionId(new) if new.id.is_empty() => WriteError::OutOfRange("a connection id is empty"),
        Frame::NewConnectionId(new) if new.retire_prior_to > new.sequence => {
            WriteError::OutOfRange("a connection id retires itself")
        }
        _ => TOO_LARGE,
    }
}

impl<'a> Frame<'a> {
    // Whether it is a close that names PADDING, whose type means that none is known (RFC 9000, section 19.19).
    #[inline]
    pub(crate) fn names_padding(&self) -> bool {
        matches!(self, Frame::Close(Close::Connection(close)) if close.frame_type == Some(FrameType::PADDING))
    }

    // The frame; of one that names PADDING, that which names no type. The proved functions write no other, and both
    // are the same bytes.
    #[cold]
    pub(crate) fn without_padding(&self) -> Frame<'a> {
        match self {
            Frame::Close(Close::Connection(close)) if self.names_padding() => {
                Frame::Close(ConnectionClose { frame_type: None, ..*close }.into())
            }
            frame => *frame,
        }
    }
}

impl Frame<'_> {
    // What the proved functions require: the frame is in range, and so is a length that is written.
    #[inline]
    pub(crate) fn check(&self, last: bool) -> Result {
        let counted = match self {
            Frame::Stream(stream) => last || is_len(stream.bytes),
            Frame::Datagram(datagram) => last || is_len(datagram.bytes),
            _ => true,
        };
        if counted && self.in_range() { Ok(()) } else { Err(why_not(self)) }
    }

    /// Appends the shortest encoding of the frame. `last` says whether the frame is the last of its payload: the length
    /// of a STREAM or DATAGRAM isn't written then, nor is an offset of 0 ever. It doesn't allocate.
    ///
    /// ```
    /// use quic_wire::frame::{Datagram, Frame};
    /// let frame = Frame::Datagram(Datagram { bytes: b"hi" });
    /// let mut out = Vec::new();
    /// frame.encode(false, &mut out)?;
    /// frame.encode(true, &mut out)?;
    /// assert_eq!(out, [0x31, 2, b'h', b'i', 0x30, b'h', b'i']);
    /// # Ok::<(), quic_wire::WriteError>(())
    /// ```
    ///
    /// # Errors
    ///
    /// If the frame isn't in range ([`Frame::in_range`]), except that a close may name PADDING, which is written as one
    /// that names no type (RFC 9000, section 19.19): nothing is written then. If there is too little room: a prefix of
    /// the frame may be written then.
    #[doc = include_str!("../proved/contracts/Frame.encode.md")]
    #[inline]
    pub fn encode<B: BufMut>(&self, last: bool, out: &mut B) -> Result {
        match self.check(last) {
            Ok(()) => Ok(self.proved_encode(last, out)?),
            Err(_) if self.names_padding() => self.without_padding().encode(last, out),
            Err(why) => Err(why),
        }
    }

    /// Stores the shortest encoding of the frame at the front of a slice, and returns how many bytes it has. It doesn't
    /// allocate.
    ///
    /// ```
    /// use quic_wire::frame::Frame;
    /// let mut out = [7; 3];
    /// assert_eq!((Frame::Ping.encode_into(true, &mut out), out), (Ok(1), [1, 7, 7]));
    /// ```
    ///
    /// # Errors
    ///
    /// If [`Frame::encode`] can't write the frame, or the slice is shorter than [`Frame::encoded_len`]. Nothing changes
    /// then.
    #[doc = include_str!("../proved/contracts/Frame.encode_into.md")]
    #[inline]
    pub fn encode_into(&self, last: bool, dest: &mut [u8]) -> Result<usize> {
        match self.check(last) {
            Ok(()) => self.proved_encode_into(last, dest).map_err(|_| WriteError::NoRoom),
            Err(_) if self.names_padding() => self.without_padding().encode_into(last, dest),
            Err(why) => Err(why),
        }
    }

    /// Stores the body of the frame, what [`Frame::encode_into`] stores behind the type, which is
    /// [`Frame::written_type`], and returns how many bytes it has. It doesn't allocate.
    ///
    /// ```
    /// use quic_wire::frame::{Frame, FrameType};
    /// let frame = Frame::DataBlocked { offset: 5 };
    /// let mut out = [7; 2];
    /// assert_eq!((frame.encode_body_into(true, &mut out), out), (Ok(1), [5, 7]));
    /// assert_eq!(frame.written_type(true), FrameType::DATA_BLOCKED);
    /// ```
    ///
    /// # Errors
    ///
    /// If [`Frame::encode`] can't write the frame, or the slice is shorter than the body. Nothing changes then.
    #[doc = include_str!("../proved/contracts/Frame.encode_body_into.md")]
    #[inline]
    pub fn encode_body_into(&self, last: bool, dest: &mut [u8]) -> Result<usize> {
        match self.check(last) {
            Ok(()) => self.proved_encode_body_into(last, dest).map_err(|_| WriteError::NoRoom),
            Err(_) if self.names_padding() => self.without_padding().encode_body_into(last, dest),
            Err(why) => Err(why),
        }
    }

    /// How many bytes [`Frame::encode`] appends. It doesn't allocate.
    ///
    /// ```
    /// use quic_wire::VarInt;
    /// use quic_wire::frame::Frame;
    /// assert_eq!(Frame::MaxData(VarInt::from_u32(64)).encoded_len(true), Ok(3));
    /// ```
    ///
    /// # Errors
    ///
    /// If [`Frame::encode`] can't write the frame.
    #[doc = include_str!("../proved/contracts/Frame.encoded_len.md")]
    #[inline]
    pub fn encoded_len(&self, last: bool) -> Result<usize> {
        match self.check(last) {
            Ok(()) => usize::try_from(self.proved_encoded_len(last)).map_err(|_| TOO_LARGE),
            Err(_) if self.names_padding() => self.without_padding().encoded_len(last),
            Err(why) => Err(why),
        }
    }
}

impl Crypto<'_> {
    /// Appends the frame, as [`Frame::encode`] does.
    ///
    /// # Errors
    ///
    /// As [`Frame::encode`].
    #[doc = include_str!("../proved/contracts/Crypto.encode.md")]
    pub fn encode<B: BufMut>(&self, out: &mut B) -> Result {
        require(is_varint(self.offset) && is_len(self.bytes))?;
        Ok(self.proved_encode(out)?)
    }
}

impl NewToken<'_> {
    /// Appends the frame, as [`Frame::encode`] does.
    ///
    /// # Errors
    ///
    /// As [`Frame::encode`].
    #[doc = include_str!("../proved/contracts/NewToken.encode.md")]
    pub fn encode<B: BufMut>(&self, out: &mut B) -> Result {
        require(is_len(self.token))?;
        Ok(self.proved_encode(out)?)
    }

    /// How many bytes [`NewToken::encode`] appends.
    ///
    /// # Panics
    ///
    /// If the token has 2^62 bytes or more.
    #[doc = include_str!("../proved/contracts/NewToken.size.md")]
    pub fn size(&self) -> usize {
        assert!(is_len(self.token), "a token has fewer than 2^62 bytes");
        self.proved_size()
    }
}

impl NewConnectionId {
    /// Appends the frame, as [`Frame::encode`] does.
    ///
    /// # Errors
    ///
    /// As [`Frame::encode`].
    #[doc = include_str!("../proved/contracts/NewConnectionId.encode.md")]
    pub fn encode<B: BufMut>(&self, out: &mut B) -> Result {
        Frame::NewConnectionId(*self).check(false)?;
        Ok(self.proved_encode(out)?)
    }
}

impl Datagram<'_> {
    /// Appends the frame, with the length of its data if `with_length` is set. A frame without it must be the last of
    /// its payload (RFC 9221, section 4).
    ///
    /// # Errors
    ///
    /// If the data has 2^62 bytes or more and its length is written, or there is no memory. Nothing is written then.
    #[doc = include_str!("../proved/contracts/Datagram.encode.md")]
    pub fn encode(&self, with_length: bool, out: &mut Vec<u8>) -> Result {
        require(!with_length || is_len(self.bytes))?;
        Ok(self.proved_encode(with_length, out)?)
    }

    /// How many bytes [`Datagram::encode`] appends.
    ///
    /// # Panics
    ///
    /// If the data has 2^62 bytes or more and its length is written.
    #[doc = include_str!("../proved/contracts/Datagram.size.md")]
    pub fn size(&self, with_length: bool) -> usize {
        assert!(!with_length || is_len(self.bytes), "a datagram has fewer than 2^62 bytes");
        self.proved_size(with_length)
    }
}

impl StreamMeta {
    /// Appends the frame up to its data, which you append, with the data's length if `with_length` is set. A frame
    /// without it must be the last of its payload (RFC 9000, section 19.8).
    ///
    /// ```
    /// use quic_wire::frame::StreamMeta;
    /// let mut out = Vec::new();
    /// StreamMeta { id: 4_u32.into(), offsets: 5..7, fin: true }.encode(true, &mut out)?;
    /// out.extend(b"hi");
    /// assert_eq!(out, [0x0f, 4, 5, 2, b'h', b'i']);
    /// # Ok::<(), quic_wire::WriteError>(())
    /// ```
    ///
    /// # Errors
    ///
    /// If the offsets are reversed, or the first one or the length is 2^62 or more: nothing is written then. If there
    /// is too little room: a prefix may be written then.
    #[doc = include_str!("../proved/contracts/StreamMeta.encode.md")]
    pub fn encode<B: BufMut>(&self, with_length: bool, out: &mut B) -> Result {
        let Some(len) = self.offsets.end.checked_sub(self.offsets.start) else {
            return Err(WriteError::OutOfRange("the offsets of a STREAM are reversed"));
        };
        require(is_varint(self.offsets.start) && (!with_length || is_varint(len)))?;
        Ok(self.proved_encode(with_length, out)?)
    }
}

// The three kinds of closes have the same functions.
macro_rules! closes {
    ($($name:ty: $reason:ident, $contracts:literal;)*) => {
        $(impl $name {
            /// The least `max_len` with which `encode` writes the frame, in bytes.
            ///
            /// # Panics
            ///
            /// If the reason has 2^62 bytes or more.
            #[doc = include_str!(concat!("../proved/contracts/", $contracts, ".min_len.md"))]
            pub fn min_len(&self) -> usize {
                assert!(is_len($reason(self)), "a reason has fewer than 2^62 bytes");
                self.proved_min_len()
            }

            /// Appends the frame (RFC 9000, section 19.19). Its reason is cut so that it has at most `max_len` bytes.
            ///
            /// # Errors
            ///
            /// If `max_len` is below `min_len`, or the reason has 2^62 bytes or more: nothing is written then. If there
            /// is too little room: a prefix of the frame may be written then.
            #[doc = include_str!(concat!("../proved/contracts/", $contracts, ".encode.md"))]
            pub fn encode<B: BufMut>(&self, out: &mut B, max_len: usize) -> Result {
                require(is_len($reason(self)))?;
                if max_len < self.proved_min_len() {
                    return Err(WriteError::NoRoom);
                }
                Ok(self.proved_encode(out, max_len)?)
            }
        })*
    };
}

fn reason_of<'a>(close: &Close<'a>) -> &'a [u8] {
    close.reason()
}

fn of_transport<'a>(close: &ConnectionClose<'a>) -> &'a [u8] {
    close.reason
}

fn of_application<'a>(close: &ApplicationClose<'a>) -> &'a [u8] {
    close.reason
}

closes! {
    Close<'_>: reason_of, "Close";
    ConnectionClose<'_>: of_transport, "ConnectionClose";
    ApplicationClose<'_>: of_application, "ApplicationClose";
}
