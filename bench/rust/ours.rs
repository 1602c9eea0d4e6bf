//! Work by the crate's calls.
mod lists;
mod works;

mod api {
    use bytes::Bytes;
    use quic_wire::frame::{Ack, Iter};

    pub use quic_wire::frame::Frame;
    pub use quic_wire::packet::{
        DEFAULT_SUPPORTED_VERSIONS, FixedLengthConnectionIdParser, Header, InitialHeader, PacketNumber, PartialDecode,
    };
    pub use quic_wire::range_set::ArrayRangeSet;
    pub use quic_wire::transport_parameters::TransportParameters;
    pub use quic_wire::{ConnectionId, Side};

    pub fn frames(payload: &Bytes) -> Option<Iter<'_>> {
        Iter::new(payload).ok()
    }

    // Something of each field.
    #[inline(always)]
    pub fn sum(frame: &Frame<'_>) -> u64 {
        match frame {
            Frame::Ack(x) => x.largest() ^ x.delay() ^ x.additional().len() as u64,
            Frame::ResetStream(x) => u64::from(x.id) ^ x.final_offset.into_inner(),
            Frame::StopSending(x) => u64::from(x.id) ^ x.error_code.into_inner(),
            Frame::Crypto(x) => x.offset ^ x.bytes.len() as u64,
            Frame::NewToken(x) => x.token.len() as u64,
            Frame::Stream(x) => u64::from(x.id) ^ x.offset ^ x.bytes.len() as u64,
            Frame::MaxData(x) => x.into_inner(),
            Frame::MaxStreamData { id, offset } | Frame::StreamDataBlocked { id, offset } => u64::from(*id) ^ offset,
            Frame::DataBlocked { offset } => *offset,
            Frame::MaxStreams { count, .. } => *count,
            Frame::StreamsBlocked { limit, .. } => *limit,
            Frame::NewConnectionId(x) => x.sequence ^ x.id.len() as u64,
            Frame::RetireConnectionId { sequence } => *sequence,
            Frame::PathChallenge(x) | Frame::PathResponse(x) => *x,
            Frame::Datagram(x) => x.bytes.len() as u64,
            Frame::AckFrequency(x) => x.request_max_ack_delay.into_inner(),
            _ => 1,
        }
    }

    pub fn write(frame: &Frame<'_>, set: &ArrayRangeSet, out: &mut Vec<u8>) {
        let written = match frame {
            Frame::Ack(ack) => Ack::encode(ack.delay(), set, ack.ecn().as_ref(), out),
            frame => frame.encode(false, out),
        };
        written.expect("a frame that was read isn't written");
    }

    pub fn idle_timeout(params: &TransportParameters) -> u64 {
        params.max_idle_timeout.into_inner()
    }
}

fn main() {
    lists::run(works::ALL);
}
