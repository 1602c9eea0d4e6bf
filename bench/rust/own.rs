//! Work by quinn-proto's own calls: a module of quinn-proto, since they are private.
#![allow(missing_docs, unreachable_pub)]
mod lists;
mod works;

mod api {
    use crate::Dir;
    use crate::coding::BufMutExt;
    use crate::frame::{Ack, Close, FrameType, Iter, StreamMeta};
    use bytes::Bytes;

    pub(super) use crate::frame::Frame;
    pub(super) use crate::packet::{FixedLengthConnectionIdParser, Header, InitialHeader, PacketNumber, PartialDecode};
    pub(super) use crate::range_set::ArrayRangeSet;
    pub(super) use crate::transport_parameters::TransportParameters;
    pub(super) use crate::{ConnectionId, DEFAULT_SUPPORTED_VERSIONS, Side};

    pub(super) fn frames(payload: &Bytes) -> Option<Iter> {
        Iter::new(payload.clone()).ok()
    }

    // Something of each field.
    #[inline(always)]
    pub(super) fn sum(frame: &Frame) -> u64 {
        match frame {
            Frame::Ack(x) => x.largest ^ x.delay ^ x.additional.len() as u64,
            Frame::ResetStream(x) => u64::from(x.id) ^ x.final_offset.into_inner(),
            Frame::StopSending(x) => u64::from(x.id) ^ x.error_code.into_inner(),
            Frame::Crypto(x) => x.offset ^ x.data.len() as u64,
            Frame::NewToken(x) => x.token.len() as u64,
            Frame::Stream(x) => u64::from(x.id) ^ x.offset ^ x.data.len() as u64,
            Frame::MaxData(x) => x.into_inner(),
            Frame::MaxStreamData { id, offset } | Frame::StreamDataBlocked { id, offset } => u64::from(*id) ^ offset,
            Frame::DataBlocked { offset } => *offset,
            Frame::MaxStreams { count, .. } => *count,
            Frame::StreamsBlocked { limit, .. } => *limit,
            Frame::NewConnectionId(x) => x.sequence ^ x.id.len() as u64,
            Frame::RetireConnectionId { sequence } => *sequence,
            Frame::PathChallenge(x) | Frame::PathResponse(x) => *x,
            Frame::Datagram(x) => x.data.len() as u64,
            Frame::AckFrequency(x) => x.request_max_ack_delay.into_inner(),
            _ => 1,
        }
    }

    // As its Connection does for each kind.
    pub(super) fn write(frame: &Frame, set: &ArrayRangeSet, out: &mut Vec<u8>) {
        match frame {
            Frame::Padding => out.write(FrameType::PADDING),
            Frame::Ping => out.write(FrameType::PING),
            Frame::Ack(x) => Ack::encode(x.delay, set, x.ecn.as_ref(), out),
            Frame::ResetStream(x) => x.encode(out),
            Frame::StopSending(x) => x.encode(out),
            Frame::Crypto(x) => x.encode(out),
            Frame::NewToken(x) => x.encode(out),
            Frame::Stream(x) => {
                let offsets = x.offset..x.offset + x.data.len() as u64;
                StreamMeta { id: x.id, offsets, fin: x.fin }.encode(true, out);
                out.extend_from_slice(&x.data);
            }
            Frame::NewConnectionId(x) => x.encode(out),
            Frame::Close(Close::Connection(x)) => x.encode(out, 1200),
            Frame::Close(Close::Application(x)) => x.encode(out, 1200),
            Frame::Datagram(x) => x.encode(true, out),
            Frame::AckFrequency(x) => x.encode(out),
            Frame::HandshakeDone => out.write(FrameType::HANDSHAKE_DONE),
            Frame::ImmediateAck => out.write(FrameType::IMMEDIATE_ACK),
            frame => write_numbers(frame, out),
        }
    }

    // The kinds that have no struct of their own.
    #[inline(always)]
    fn write_numbers(frame: &Frame, out: &mut Vec<u8>) {
        match frame {
            Frame::MaxData(x) => {
                out.write(FrameType::MAX_DATA);
                out.write(*x);
            }
            Frame::MaxStreamData { id, offset } => {
                out.write(FrameType::MAX_STREAM_DATA);
                out.write(*id);
                out.write_var(*offset);
            }
            Frame::StreamDataBlocked { id, offset } => {
                out.write(FrameType::STREAM_DATA_BLOCKED);
                out.write(*id);
                out.write_var(*offset);
            }
            Frame::DataBlocked { offset } => {
                out.write(FrameType::DATA_BLOCKED);
                out.write_var(*offset);
            }
            Frame::MaxStreams { dir, count } => {
                out.write(if *dir == Dir::Bi { FrameType::MAX_STREAMS_BIDI } else { FrameType::MAX_STREAMS_UNI });
                out.write_var(*count);
            }
            Frame::StreamsBlocked { dir, limit } => {
                out.write(if *dir == Dir::Bi {
                    FrameType::STREAMS_BLOCKED_BIDI
                } else {
                    FrameType::STREAMS_BLOCKED_UNI
                });
                out.write_var(*limit);
            }
            Frame::RetireConnectionId { sequence } => {
                out.write(FrameType::RETIRE_CONNECTION_ID);
                out.write_var(*sequence);
            }
            Frame::PathChallenge(x) => {
                out.write(FrameType::PATH_CHALLENGE);
                out.write(*x);
            }
            Frame::PathResponse(x) => {
                out.write(FrameType::PATH_RESPONSE);
                out.write(*x);
            }
            _ => unreachable!("a kind of its own"),
        }
    }

    pub(super) fn idle_timeout(params: &TransportParameters) -> u64 {
        params.max_idle_timeout.into_inner()
    }
}

/// What the program of this name does.
pub fn main() {
    lists::run(works::ALL);
}
