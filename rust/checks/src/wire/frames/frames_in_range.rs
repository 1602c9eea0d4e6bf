//! Which frames can be written, and their greatest length.
use crate::proved::quic_base::ids::{ConnectionId, Dir, ResetToken, StreamId};
use crate::proved::quic_base::varint::VarInt;
use crate::proved::quic_frames::frame::{
    Ack, AckError, ApplicationClose, Close, ConnectionClose, Crypto, Datagram, EcnCounts, Frame, FrameStruct,
    FrameType, Iter, NewConnectionId, RETIRE_CONNECTION_ID_SIZE_BOUND, ResetStream, StopSending, Stream,
};
use crate::proved::quic_frames::transport_error::Code;

// The greatest number that can be written, and the next one.
const NUMBERS: &[(u64, bool)] = &[((1 << 62) - 1, true), (1 << 62, false)];

fn stream_id() -> StreamId {
    StreamId::from(VarInt::from_u32(4))
}

fn stream(offset: u64) -> Stream<'static> {
    Stream { id: stream_id(), offset, fin: false, bytes: b"ab" }
}

fn crypto(offset: u64) -> Crypto<'static> {
    Crypto { offset, bytes: b"ab" }
}

fn new_id(sequence: u64, retire_prior_to: u64, id: ConnectionId) -> NewConnectionId {
    NewConnectionId { sequence, retire_prior_to, id, reset_token: ResetToken::from([7; 16]) }
}

fn close_of(frame_type: Option<FrameType>) -> ConnectionClose<'static> {
    ConnectionClose { error_code: Code::PROTOCOL_VIOLATION, frame_type, reason: b"why" }
}

// Each kind is read once, and what is read is in range.
fn check_offsets() -> bool {
    let Some(mut iter) = Iter::new(b"\x11\x04\x21").ok() else {
        return false;
    };
    let Some(Ok(frame)) = iter.next() else {
        return false;
    };
    assert!(frame.in_range());
    for &(n, fits) in NUMBERS {
        assert_eq!(Frame::Stream(stream(n)).in_range(), fits);
        assert_eq!(Frame::Crypto(crypto(n)).in_range(), fits);
        let id = stream_id();
        assert_eq!(Frame::MaxStreamData { id, offset: n }.in_range(), fits);
        assert_eq!(Frame::StreamDataBlocked { id, offset: n }.in_range(), fits);
        assert_eq!(Frame::DataBlocked { offset: n }.in_range(), fits);
    }
    true
}

#[test]
fn offsets_in_range() {
    let is_read = check_offsets();
    assert!(is_read);
}

fn check_counts() -> bool {
    let Some(mut iter) = Iter::new(b"\x12\x03").ok() else {
        return false;
    };
    let Some(Ok(frame)) = iter.next() else {
        return false;
    };
    assert!(frame.in_range());
    for &(n, fits) in NUMBERS {
        for &dir in &[Dir::Bi, Dir::Uni] {
            assert_eq!(Frame::MaxStreams { dir, count: n }.in_range(), fits);
            assert_eq!(Frame::StreamsBlocked { dir, limit: n }.in_range(), fits);
        }
        assert_eq!(Frame::RetireConnectionId { sequence: n }.in_range(), fits);
    }
    true
}

#[test]
fn counts_in_range() {
    let is_read = check_counts();
    assert!(is_read);
}

fn check_counts_of_an_acknowledgement() -> Result<bool, AckError> {
    let Some(mut iter) = Iter::new(b"\x03\x05\x07\x00\x00\x01\x02\x03").ok() else {
        return Ok(false);
    };
    let Some(Ok(frame)) = iter.next() else {
        return Ok(false);
    };
    assert!(frame.in_range());
    for &(n, fits) in NUMBERS {
        for &(ect0, ect1, ce) in &[(n, 0, 0), (0, n, 0), (0, 0, n)] {
            let counts = EcnCounts { ect0, ect1, ce };
            let ack = Ack::proved_from_parts(5, 7, b"\x00", Some(counts))?;
            assert_eq!(Frame::Ack(ack).in_range(), fits);
        }
    }
    let ack = Ack::proved_from_parts((1 << 62) - 1, (1 << 62) - 1, b"\x00", None)?;
    assert!(Frame::Ack(ack).in_range());
    Ok(true)
}

#[test]
fn counts_of_an_acknowledgement_in_range() {
    let is_read = check_counts_of_an_acknowledgement();
    assert!(is_read == Ok(true));
}

fn check_new_ids() -> bool {
    let Some(mut iter) = Iter::new(b"\x18\x05\x02\x02\xaa\xbb0123456789abcdef").ok() else {
        return false;
    };
    let Some(Ok(frame)) = iter.next() else {
        return false;
    };
    assert!(frame.in_range());
    let id = ConnectionId::proved_new(b"\xaa\xbb");
    for &(n, fits) in NUMBERS {
        assert_eq!(Frame::NewConnectionId(new_id(n, 0, id)).in_range(), fits);
        assert_eq!(Frame::NewConnectionId(new_id(n, n, id)).in_range(), fits);
    }
    assert!(Frame::NewConnectionId(new_id(5, 5, id)).in_range());
    assert!(!Frame::NewConnectionId(new_id(5, 6, id)).in_range());
    let empty = ConnectionId::proved_new(b"");
    assert!(!Frame::NewConnectionId(new_id(5, 2, empty)).in_range());
    let longest = ConnectionId::proved_new(b"01234567890123456789");
    assert!(Frame::NewConnectionId(new_id(5, 2, longest)).in_range());
    true
}

#[test]
fn new_ids_in_range() {
    let is_read = check_new_ids();
    assert!(is_read);
}

fn check_closes() -> bool {
    let Some(mut iter) = Iter::new(b"\x1c\x07\x00\x03why").ok() else {
        return false;
    };
    let Some(Ok(frame)) = iter.next() else {
        return false;
    };
    assert!(frame.in_range());
    for &(ty, fits) in &[(None, true), (Some(FrameType::PADDING), false), (Some(FrameType::PING), true)] {
        assert_eq!(Frame::Close(Close::from(close_of(ty))).in_range(), fits);
    }
    let close = ApplicationClose { error_code: VarInt::MAX, reason: b"why" };
    assert!(Frame::Close(Close::from(close)).in_range());
    true
}

#[test]
fn closes_in_range() {
    let is_read = check_closes();
    assert!(is_read);
}

// What can always be written.
fn check_all_others() -> bool {
    let Some(mut iter) = Iter::new(b"\x01").ok() else {
        return false;
    };
    let Some(Ok(frame)) = iter.next() else {
        return false;
    };
    assert!(frame.in_range());
    let (id, error_code) = (stream_id(), VarInt::MAX);
    for frame in &[
        Frame::StopSending(StopSending { id, error_code }),
        Frame::MaxData(VarInt::MAX),
        Frame::PathChallenge(u64::MAX),
        Frame::PathResponse(u64::MAX),
        Frame::Datagram(Datagram { bytes: b"" }),
        Frame::Padding,
        Frame::Ping,
        Frame::ImmediateAck,
        Frame::HandshakeDone,
    ] {
        assert!(frame.in_range());
    }
    true
}

#[test]
fn all_others_are_in_range() {
    let is_read = check_all_others();
    assert!(is_read);
}

// The bound of a kind of frame, by its name and by its method.
fn bounds_of<T: FrameStruct>(frame: &T) -> (usize, usize) {
    (T::SIZE_BOUND, frame.bound())
}

#[test]
fn bounds_of_sizes() {
    assert_eq!(ConnectionClose::SIZE_BOUND, 25);
    assert_eq!(ApplicationClose::SIZE_BOUND, 17);
    assert_eq!(Stream::SIZE_BOUND, 25);
    assert_eq!(ResetStream::SIZE_BOUND, 25);
    assert_eq!(StopSending::SIZE_BOUND, 17);
    assert_eq!(NewConnectionId::SIZE_BOUND, 54);
    assert_eq!(Datagram::SIZE_BOUND, 9);
    assert_eq!(Crypto::SIZE_BOUND, 17);
    assert_eq!(RETIRE_CONNECTION_ID_SIZE_BOUND, 9);
}

#[test]
fn bounds_of_frames() {
    let (id, error_code) = (stream_id(), VarInt::MAX);
    let close = ApplicationClose { error_code, reason: b"why" };
    assert_eq!(bounds_of(&close_of(None)), (25, 25));
    assert_eq!(bounds_of(&close), (17, 17));
    assert_eq!(bounds_of(&stream(7)), (25, 25));
    let reset = ResetStream { id, error_code, final_offset: VarInt::MAX };
    assert_eq!(bounds_of(&reset), (25, 25));
    assert_eq!(bounds_of(&StopSending { id, error_code }), (17, 17));
    let new = new_id(5, 2, ConnectionId::proved_new(b"\xaa\xbb"));
    assert_eq!(bounds_of(&new), (54, 54));
    assert_eq!(bounds_of(&Datagram { bytes: b"hi" }), (9, 9));
    assert_eq!(bounds_of(&crypto(7)), (17, 17));
}
