//! Which packets may carry a frame, and which side may send it (RFC 9000, sections 2.1, 12.4 and 19).
//!
//! ```
//! use quic_wire::Side;
//! use quic_wire::frame::{Frame, Rules};
//! use quic_wire::permitted::{Forbidden, PacketType, permits};
//! assert_eq!(permits(&Frame::Ping, PacketType::Initial, Side::Client, Rules::RFC), Ok(()));
//! let done = permits(&Frame::HandshakeDone, PacketType::OneRtt, Side::Client, Rules::RFC);
//! assert_eq!(done, Err(Forbidden::Sender));
//! ```
use core::fmt;

pub use crate::proved::quic_permitted::permitted::{
    Forbidden, PacketType, Packets, Part, Permission, permits, permits_on, permits_type,
};

impl fmt::Display for Forbidden {
    fn fmt(&self, f: &mut fmt::Formatter<'_>) -> fmt::Result {
        f.write_str(match self {
            Forbidden::Type => "a frame of an unknown type",
            Forbidden::Packet => "a frame that packets of this type may not carry",
            Forbidden::Sender => "a frame that this side may not send",
            Forbidden::Stream => "a frame that this side may not send on this stream",
        })
    }
}

impl core::error::Error for Forbidden {}
