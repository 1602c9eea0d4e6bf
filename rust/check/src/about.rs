//! What rules may see.

use crate::half::Half;
use crate::history::History;
use crate::rule::Need;
use crate::vantage::Vantage;
use quic_wire::fields::Fault;
use quic_wire::frame::{Frame, FrameType, InvalidFrame};
use quic_wire::transport_parameters::TransportParameters;
use quic_wire::{ConnectionId, Side, varint};
use quic_wire_capture::capture::Datagram;
use quic_wire_capture::connection::Connection;
use quic_wire_capture::end::End;
use std::ops::Range;

/// What the frames of the packet had so far.
#[derive(Clone, Copy, Debug, Default)]
pub(crate) struct Current {
    /// Whether one elicits an acknowledgment.
    pub(crate) elicits: bool,
    pub(crate) has_close: bool,
    /// Whether one acknowledges the peer's packet with its close.
    pub(crate) acknowledges_close: bool,
}

/// Where something is, and what is known by then.
pub(crate) struct About<'a> {
    pub(crate) connection: &'a Connection,
    pub(crate) datagram: &'a Datagram<'a>,
    pub(crate) sender: Side,
    pub(crate) history: &'a History,
    pub(crate) current: Current,
    pub(crate) vantage: Vantage,
}

/// A frame with its bytes in the payload.
pub(crate) struct Held<'a> {
    pub(crate) frame: &'a Frame<'a>,
    pub(crate) range: Range<usize>,
    /// Its type.
    pub(crate) ty: u64,
}

/// What is no frame.
pub(crate) struct Faulty<'a> {
    pub(crate) error: &'a InvalidFrame,
    pub(crate) offset: usize,
    /// The field at fault, counted from there.
    pub(crate) fault: Option<&'a Fault>,
    /// The type, if it can be read.
    pub(crate) ty: Option<u64>,
}

impl<'a> About<'a> {
    pub(crate) fn end(&self) -> &'a End {
        self.connection.end(self.sender)
    }

    pub(crate) fn peer(&self) -> &'a End {
        self.connection.end(!self.sender)
    }

    pub(crate) fn own_half(&self) -> &'a Half {
        self.history.half(self.sender)
    }

    pub(crate) fn peer_half(&self) -> &'a Half {
        self.history.half(!self.sender)
    }

    /// Whether the capture was taken where the packet was sent.
    pub(crate) fn is_at_sender(&self) -> bool {
        self.vantage == Vantage::of(self.sender)
    }

    /// The transport parameters of the packet's receiver.
    pub(crate) fn limits(&self) -> Result<&'a TransportParameters, Need> {
        self.peer().parameters().ok_or(Need::PeerParameters)
    }

    /// How many bytes the datagram has.
    pub(crate) fn size(&self) -> usize {
        self.datagram.bytes.len() + self.datagram.missing
    }
}

/// The type at the front of a frame.
pub(crate) fn type_of(frame: &[u8]) -> Option<u64> {
    varint::read(frame).map(|(ty, _)| ty)
}

/// The name of a type of frames.
pub(crate) fn name_of(ty: u64) -> String {
    FrameType::new(ty).map_or_else(|| format!("a frame of type {ty:#x}"), |ty| ty.to_string())
}

/// The digits of an id.
pub(crate) fn id_text(id: &ConnectionId) -> String {
    if id.is_empty() { "an empty id".into() } else { format!("the id {id}") }
}
