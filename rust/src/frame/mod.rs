//! Frames, and the payloads that they make up (RFC 9000, section 19).
//!
//! ```
//! use quic_wire::frame::{Frame, Iter, Rules};
//! let payload = [0x01, 0x10, 0x05];
//! for frame in Iter::with_rules(&payload, Rules::RFC)? {
//!     println!("{:?}", frame?);
//! }
//! let mut again = Vec::new();
//! let mut frames = Iter::new(&payload)?.peekable();
//! while let Some(frame) = frames.next() {
//!     frame?.encode(frames.peek().is_none(), &mut again)?;
//! }
//! assert_eq!(again, payload);
//! # Ok::<(), quic_wire::Error>(())
//! ```
//!
//! A frame borrows its payload. Numbers that were read are below 2^62, except those of PATH_CHALLENGE and
//! PATH_RESPONSE.
mod ack;
mod encode;
mod ty;

use crate::ids::Side;
use crate::permitted::{self, Forbidden, PacketType};
use core::iter::FusedIterator;

pub use crate::proved::quic_frame_fields::frame::{
    Ack, AckError, AckFrequency, AckIter, ApplicationClose, Close, ConnectionClose, Crypto, Datagram, EcnCounts,
    NewConnectionId, NewToken, ResetStream, StopSending, Stream, StreamMeta, split_first_range,
};
pub use crate::proved::quic_frames::frame::{
    Breach, Checked, Frame, FrameStruct, FrameType, InvalidFrame, Iter, RETIRE_CONNECTION_ID_SIZE_BOUND, Rules,
};
pub use ack::AckRange;

impl Frame<'_> {
    /// Whether a packet that has only such frames counts toward bytes in flight: all frames except ACK (RFC 9000,
    /// section 12.4, table 3, letter C). It is written in Rust: no proof covers it.
    ///
    /// ```
    /// use quic_wire::frame::Frame;
    /// assert!(Frame::Padding.is_counted_in_flight());
    /// ```
    pub fn is_counted_in_flight(&self) -> bool {
        !matches!(self, Frame::Ack(_))
    }

    /// Whether a packet that has only such frames probes a path (RFC 9000, section 9.1). It is written in Rust: no
    /// proof covers it.
    ///
    /// ```
    /// use quic_wire::frame::Frame;
    /// assert!(Frame::PathChallenge(7).is_probing() && !Frame::Ping.is_probing());
    /// ```
    pub fn is_probing(&self) -> bool {
        matches!(self, Frame::Padding | Frame::NewConnectionId(_) | Frame::PathChallenge(_) | Frame::PathResponse(_))
    }

    /// Whether its data counts for flow control: only that of STREAM (RFC 9000, section 12.4, table 3, letter F). It is
    /// written in Rust: no proof covers it.
    ///
    /// ```
    /// use quic_wire::frame::{Crypto, Frame};
    /// assert!(!Frame::Crypto(Crypto { offset: 0, bytes: b"hi" }).is_flow_controlled());
    /// ```
    pub fn is_flow_controlled(&self) -> bool {
        matches!(self, Frame::Stream(_))
    }

    /// Whether packets of this type may carry it, whoever sends it (RFC 9000, section 12.4, table 3). DATAGRAM,
    /// ACK_FREQUENCY and IMMEDIATE_ACK may be in 0-RTT and 1-RTT packets (RFC 9221, section 4; as in quinn-proto). A
    /// frame in another packet is a `PROTOCOL_VIOLATION`, which [`Iter`] doesn't check; [`permitted::permits`] also
    /// asks for the sender.
    ///
    /// ```
    /// use quic_wire::frame::{Frame, Iter};
    /// use quic_wire::permitted::PacketType;
    /// let payload = [0x01, 0x10, 0x05]; // PING and MAX_DATA
    /// let frames = Iter::new(&payload)?.collect::<Result<Vec<_>, _>>()?;
    /// assert!(frames.iter().all(|frame| frame.is_permitted_in(PacketType::OneRtt)));
    /// assert!(!frames.iter().all(|frame| frame.is_permitted_in(PacketType::Handshake)));
    /// # Ok::<(), quic_wire::Error>(())
    /// ```
    pub fn is_permitted_in(&self, packet: PacketType) -> bool {
        permitted::permits_type(self.ty().into(), packet, Side::Server, Rules::default()) != Err(Forbidden::Packet)
    }
}

impl<'a> Close<'a> {
    /// The reason phrase.
    ///
    /// ```
    /// use quic_wire::VarInt;
    /// use quic_wire::frame::{ApplicationClose, Close};
    /// let close = ApplicationClose { error_code: VarInt::from_u32(5), reason: b"bye" };
    /// assert_eq!(Close::from(close).reason(), b"bye");
    /// ```
    pub fn reason(&self) -> &'a [u8] {
        match self {
            Close::Connection(close) => close.reason,
            Close::Application(close) => close.reason,
        }
    }
}

impl FusedIterator for Iter<'_> {}
impl FusedIterator for Checked<'_> {}
impl FusedIterator for AckIter<'_> {}

impl core::error::Error for Breach {}

impl core::fmt::Display for Breach {
    fn fmt(&self, f: &mut core::fmt::Formatter<'_>) -> core::fmt::Result {
        f.write_str(self.reason())
    }
}
