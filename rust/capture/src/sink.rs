//! What following a capture finds, and where that goes.

use crate::capture::Datagram;
use crate::connection::Connection;
use crate::end::Sent;
use crate::opened::Opened;
use quic_wire::datagram::PacketRef;
use quic_wire::fields::Fault;
use quic_wire::frame::{Frame, InvalidFrame};
use quic_wire::permitted::Forbidden;
use quic_wire::transport_parameters::{Refusal, TransportParameters};
use quic_wire::{ConnectionId, Side};
use std::fmt;
use std::ops::Range;

/// What is learned from an opened packet, in order.
#[derive(Debug)]
pub enum Event<'a> {
    /// A packet whose number is new.
    Packet(&'a Opened<'a>),
    /// A packet whose number was used before, with the packet that used it, if that is remembered. Nothing more comes
    /// of it.
    Again(&'a Opened<'a>, Option<&'a Sent>),
    /// A frame; PADDING is one for all that follow each other.
    Frame {
        /// Its packet.
        opened: &'a Opened<'a>,
        /// The frame.
        frame: &'a Frame<'a>,
        /// Its bytes in the payload.
        range: Range<usize>,
        /// Whether its sender may send it in such a packet. If not, it changes nothing.
        permitted: Result<(), Forbidden>,
    },
    /// The rest of a payload, which isn't a frame, or not one that RFC 9000 allows.
    Invalid {
        /// Its packet.
        opened: &'a Opened<'a>,
        /// What is wrong.
        error: InvalidFrame,
        /// Where it begins in the payload.
        offset: usize,
        /// The field at fault, counted from there.
        fault: Option<Fault>,
    },
    /// A payload without bytes (RFC 9000, section 12.4).
    Empty(&'a Opened<'a>),
    /// The transport parameters of the packet's sender. If RFC 9000 rejects them, they come again if they can be read
    /// nevertheless.
    Parameters {
        /// The packet with which the message became whole.
        opened: &'a Opened<'a>,
        /// The list.
        list: &'a [u8],
        /// What they are, or why they are rejected.
        read: Result<&'a TransportParameters, &'a Refusal>,
    },
    /// A packet of the peer was acknowledged, for the first time.
    Acknowledged {
        /// It, with the time of its acknowledgment.
        sent: Sent,
        /// Whether it counted as lost before: it wasn't.
        was_lost: bool,
    },
    /// A packet of either side counts as lost; [`Sent::lost`] says when and why (RFC 9002, section 6.1). If that was
    /// after the last acknowledgment, this comes with the next packet of the connection.
    Lost(Sent),
    /// An id of a side.
    NewId(ConnectionId, Side),
    /// The end of a packet's frames.
    Done(&'a Opened<'a>),
}

/// Why a packet isn't opened.
#[derive(Clone, Copy, Debug, PartialEq, Eq, PartialOrd, Ord, Hash)]
#[non_exhaustive]
pub enum Unopened {
    /// A version negotiation, which has no protection.
    VersionNegotiation,
    /// A Retry whose tag is right.
    Retry,
    /// A Retry whose tag is wrong, or which comes too late.
    InvalidRetry,
    /// A stateless reset with a token of its sender.
    StatelessReset,
    /// The capture doesn't have all bytes of it.
    NotCaptured,
    /// No connection is known by its id or its addresses, and no secret of the key log was found for it.
    NoConnection,
    /// A 0-RTT packet whose connection didn't begin.
    NoInitial,
    /// The connection's ClientHello wasn't seen as a whole.
    NoClientHello,
    /// The key log has no secret for it.
    NoSecret,
    /// The server chose a cipher suite that isn't known here.
    UnknownSuite,
    /// No key of the connection opens it.
    WrongTag,
    /// An Initial packet of a connection that began before the capture: its keys follow from the client's first id.
    NoFirstId,
}

impl fmt::Display for Unopened {
    fn fmt(&self, f: &mut fmt::Formatter<'_>) -> fmt::Result {
        f.write_str(match self {
            Unopened::VersionNegotiation => "a version negotiation",
            Unopened::Retry => "a Retry",
            Unopened::InvalidRetry => "a Retry whose tag is wrong, or which comes too late",
            Unopened::StatelessReset => "a stateless reset",
            Unopened::NotCaptured => "not all of its bytes were captured",
            Unopened::NoConnection => "its connection isn't known: it may have begun before the capture",
            Unopened::NoInitial => "a 0-RTT packet whose connection didn't begin",
            Unopened::NoClientHello => "the connection's ClientHello isn't in the capture as a whole",
            Unopened::NoSecret => "the key log has no secret for it",
            Unopened::UnknownSuite => "its cipher suite isn't known",
            Unopened::WrongTag => "no key of the connection opens it",
            Unopened::NoFirstId => "its keys follow from the client's first id, which came before the capture",
        })
    }
}

/// What the rest of a datagram is that is no packet.
#[derive(Clone, Copy, Debug, PartialEq, Eq)]
pub enum Rest {
    /// Zeros, with which some stacks pad datagrams.
    Zeros,
    /// Bytes whose id isn't that of the datagram's first packet (RFC 9000, section 12.2).
    OtherId,
    /// A packet of a version that isn't read.
    Version(u32),
    /// A packet that ends after the datagram.
    CutOff,
    /// A packet of which the capture doesn't have all bytes.
    NotCaptured,
    /// No header can be read.
    Header(&'static str),
}

impl Rest {
    /// What it is, in words that are the same for all versions.
    pub fn kind(self) -> &'static str {
        match self {
            Rest::Zeros => "padding of zeros",
            Rest::OtherId => "bytes with another id than the first packet's",
            Rest::Version(_) => "a packet of another version",
            Rest::CutOff => "a packet that is cut off",
            Rest::NotCaptured => "a packet of which not all bytes were captured",
            Rest::Header(reason) => reason,
        }
    }
}

impl fmt::Display for Rest {
    fn fmt(&self, f: &mut fmt::Formatter<'_>) -> fmt::Result {
        match self {
            Rest::Version(version) => write!(f, "a packet of version {version:#010x}"),
            other => f.write_str(other.kind()),
        }
    }
}

/// How a connection ended.
#[derive(Clone, Copy, Debug, PartialEq, Eq)]
pub enum Ended {
    /// A side closed it.
    Closed,
    /// A side sent a stateless reset.
    Reset,
    /// Nothing was sent for too long.
    Silent,
    /// It was forgotten for others, since there were too many.
    Crowded,
}

/// What takes the findings. They come in the capture's order, except that 0-RTT packets which can't be opened yet wait
/// for the ClientHello. A packet's index counts those that were reported before it.
pub trait Sink {
    /// An event of an opened packet. The connection is as it was before.
    fn opened(&mut self, connection: &Connection, datagram: &Datagram<'_>, index: u64, event: &Event<'_>) {
        let _ = (connection, datagram, index, event);
    }

    /// A packet that isn't opened, and whose it may be.
    fn unopened(
        &mut self,
        owner: Option<(&Connection, Side)>,
        datagram: &Datagram<'_>,
        index: u64,
        packet: &PacketRef<'_>,
        why: Unopened,
    ) {
        let _ = (owner, datagram, index, packet, why);
    }

    /// The rest of a datagram from an offset on, which is no packet, and whose it may be.
    fn rest(
        &mut self,
        owner: Option<(&Connection, Side)>,
        datagram: &Datagram<'_>,
        index: u64,
        offset: usize,
        why: Rest,
    ) {
        let _ = (owner, datagram, index, offset, why);
    }

    /// A connection that is forgotten. Later packets of it belong to none.
    fn ended(&mut self, connection: &Connection, how: Ended) {
        let _ = (connection, how);
    }
}

/// Takes nothing.
impl Sink for () {}
