//! Frames of `quic_wire`, and how they become those of this crate
use bytes::{BufMut, Bytes};
pub(crate) use quic_wire::frame::Frame;
use quic_wire::{VarInt as Number, frame as theirs, ids};

use crate::frame::{self, Frame as Own};
use crate::{ConnectionId, Dir, StreamId, TransportErrorCode, VarInt};

/// Write a frame that isn't the last of its packet
#[inline]
pub(crate) fn put<W: BufMut>(buf: &mut W, x: &Frame<'_>) {
    x.encode(false, buf).expect("room");
}

/// A `VarInt`, which this crate keeps below 2^62
#[inline]
pub(crate) fn number(x: VarInt) -> Number {
    Number::from_u64(x.into_inner()).expect("below 2^62")
}

#[inline]
fn own_number(x: Number) -> VarInt {
    VarInt(x.into_inner())
}

#[inline]
pub(crate) fn id(x: StreamId) -> ids::StreamId {
    Number::from_u64(x.0).expect("below 2^62").into()
}

#[inline]
pub(crate) fn own_id(x: ids::StreamId) -> StreamId {
    StreamId(x.into())
}

pub(crate) fn dir(x: Dir) -> ids::Dir {
    match x {
        Dir::Bi => ids::Dir::Bi,
        Dir::Uni => ids::Dir::Uni,
    }
}

fn own_dir(x: ids::Dir) -> Dir {
    match x {
        ids::Dir::Bi => Dir::Bi,
        ids::Dir::Uni => Dir::Uni,
    }
}

fn ack(payload: &Bytes, x: theirs::Ack<'_>) -> frame::Ack {
    frame::Ack {
        largest: x.largest(),
        delay: x.delay(),
        additional: payload.slice_ref(x.additional()),
        ecn: x.ecn().map(|x| frame::EcnCounts {
            ect0: x.ect0,
            ect1: x.ect1,
            ce: x.ce,
        }),
    }
}

fn close(payload: &Bytes, x: theirs::Close<'_>) -> frame::Close {
    let reason = payload.slice_ref(x.reason());
    match x {
        theirs::Close::Connection(x) => frame::Close::Connection(frame::ConnectionClose {
            error_code: TransportErrorCode::of(x.error_code),
            frame_type: x.frame_type.map(frame::FrameType::of),
            reason,
        }),
        theirs::Close::Application(x) => frame::Close::Application(frame::ApplicationClose {
            error_code: own_number(x.error_code),
            reason,
        }),
    }
}

fn reset_stream(x: theirs::ResetStream) -> frame::ResetStream {
    frame::ResetStream {
        id: own_id(x.id),
        error_code: own_number(x.error_code),
        final_offset: own_number(x.final_offset),
    }
}

fn stop_sending(x: theirs::StopSending) -> frame::StopSending {
    frame::StopSending {
        id: own_id(x.id),
        error_code: own_number(x.error_code),
    }
}

fn new_connection_id(x: theirs::NewConnectionId) -> frame::NewConnectionId {
    frame::NewConnectionId {
        sequence: x.sequence,
        retire_prior_to: x.retire_prior_to,
        id: ConnectionId::new(&x.id),
        reset_token: <[u8; 16]>::from(x.reset_token).into(),
    }
}

fn ack_frequency(x: theirs::AckFrequency) -> frame::AckFrequency {
    frame::AckFrequency {
        sequence: own_number(x.sequence),
        ack_eliciting_threshold: own_number(x.ack_eliciting_threshold),
        request_max_ack_delay: own_number(x.request_max_ack_delay),
        reordering_threshold: own_number(x.reordering_threshold),
    }
}

/// A frame whose data is a part of `payload`, from which it was read
#[inline(always)]
pub(crate) fn owned(payload: &Bytes, x: Frame<'_>) -> Own {
    match x {
        Frame::Padding => Own::Padding,
        Frame::Ping => Own::Ping,
        Frame::Ack(x) => Own::Ack(ack(payload, x)),
        Frame::ResetStream(x) => Own::ResetStream(reset_stream(x)),
        Frame::StopSending(x) => Own::StopSending(stop_sending(x)),
        Frame::Crypto(x) => Own::Crypto(frame::Crypto {
            offset: x.offset,
            data: payload.slice_ref(x.bytes),
        }),
        Frame::NewToken(x) => Own::NewToken(frame::NewToken {
            token: payload.slice_ref(x.token),
        }),
        Frame::Stream(x) => Own::Stream(frame::Stream {
            id: own_id(x.id),
            offset: x.offset,
            fin: x.fin,
            data: payload.slice_ref(x.bytes),
        }),
        Frame::MaxData(x) => Own::MaxData(own_number(x)),
        Frame::MaxStreamData { id, offset } => {
            let id = own_id(id);
            Own::MaxStreamData { id, offset }
        }
        Frame::MaxStreams { dir, count } => {
            let dir = own_dir(dir);
            Own::MaxStreams { dir, count }
        }
        Frame::DataBlocked { offset } => Own::DataBlocked { offset },
        Frame::StreamDataBlocked { id, offset } => {
            let id = own_id(id);
            Own::StreamDataBlocked { id, offset }
        }
        Frame::StreamsBlocked { dir, limit } => {
            let dir = own_dir(dir);
            Own::StreamsBlocked { dir, limit }
        }
        Frame::NewConnectionId(x) => Own::NewConnectionId(new_connection_id(x)),
        Frame::RetireConnectionId { sequence } => Own::RetireConnectionId { sequence },
        Frame::PathChallenge(x) => Own::PathChallenge(x),
        Frame::PathResponse(x) => Own::PathResponse(x),
        Frame::Close(x) => Own::Close(close(payload, x)),
        Frame::Datagram(x) => Own::Datagram(frame::Datagram {
            data: payload.slice_ref(x.bytes),
        }),
        Frame::HandshakeDone => Own::HandshakeDone,
        Frame::AckFrequency(x) => Own::AckFrequency(ack_frequency(x)),
        Frame::ImmediateAck => Own::ImmediateAck,
    }
}
