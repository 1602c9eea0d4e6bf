//! Headers of streams, and datagrams, that are written by themselves.
use crate::host::prelude::*;
use crate::proved::quic_base::ids::StreamId;
use crate::proved::quic_base::varint::VarInt;
use crate::proved::quic_frames::frame::{Datagram, Frame, Iter, Stream, StreamMeta, StreamMetaVec};

// Where the data begins and ends, whether it is the stream's last, whether its length is written, and the header.
type HeaderRow = (u64, u64, bool, bool, &'static [u8]);

const HEADS: &[HeaderRow] = &[
    (16, 18, false, true, b"\x0e\x04\x10\x02"),
    (16, 18, false, false, b"\x0c\x04\x10"),
    (16, 18, true, true, b"\x0f\x04\x10\x02"),
    (16, 18, true, false, b"\x0d\x04\x10"),
    (0, 64, false, true, b"\x0a\x04\x40\x40"),
    (0, 64, true, true, b"\x0b\x04\x40\x40"),
    (0, 64, true, false, b"\x09\x04"),
    (64, 64, false, true, b"\x0e\x04\x40\x40\x00"),
];

fn is_header(out: &mut Vec<u8>, row: &HeaderRow) -> bool {
    let &(start, end, fin, with_length, head) = row;
    if start > end || end >= 1 << 62 {
        return false;
    }
    let meta = StreamMeta { id: StreamId::from(VarInt::from_u32(4)), offsets: start..end, fin };
    meta.encode(with_length, out).is_ok() && out.as_slice() == head
}

#[test]
fn headers_of_streams() {
    for row in HEADS {
        let is_written = is_header(&mut Vec::new(), row);
        assert!(is_written, "at {row:?}");
    }
}

fn is_of_no_data(meta: &StreamMeta) -> bool {
    u64::from(meta.id) == 0 && meta.offsets.start == 0 && meta.offsets.end == 0 && !meta.fin
}

fn is_header_of_no_data(out: &mut Vec<u8>, with_length: bool, head: &[u8]) -> bool {
    let meta = StreamMeta::default();
    meta.encode(with_length, out).is_ok() && out.as_slice() == head
}

#[test]
fn the_header_of_no_data() {
    assert!(is_of_no_data(&StreamMeta::default()));
    let counted = is_header_of_no_data(&mut Vec::new(), true, b"\x0a\x00\x00");
    assert!(counted);
    let open = is_header_of_no_data(&mut Vec::new(), false, b"\x08\x00");
    assert!(open);
}

fn store_a_header_and_its_data(out: &mut Vec<u8>) -> bool {
    let meta = StreamMeta { id: StreamId::from(VarInt::from_u32(4)), offsets: 16..18, fin: true };
    meta.encode(true, out).is_ok() && out.kit_extend_from_slice(b"ab\x01").is_ok()
}

fn is_the_stream(stream: &Stream<'_>) -> bool {
    u64::from(stream.id) == 4 && stream.offset == 16 && stream.fin && stream.bytes == b"ab".as_slice()
}

fn is_the_stream_and_a_ping(payload: &[u8]) -> bool {
    let Some(mut iter) = Iter::new(payload).ok() else {
        return false;
    };
    let Some(Ok(Frame::Stream(stream))) = iter.next() else {
        return false;
    };
    is_the_stream(&stream) && matches!(iter.next(), Some(Ok(Frame::Ping))) && iter.next().is_none()
}

fn are_a_frame(out: &mut Vec<u8>) -> bool {
    store_a_header_and_its_data(out) && is_the_stream_and_a_ping(out.as_slice())
}

// A header and the data after it are a frame.
#[test]
fn a_header_and_its_data() {
    assert!(are_a_frame(&mut Vec::new()));
}

fn is_one_header(metas: &[StreamMeta]) -> bool {
    let [meta] = metas else {
        return false;
    };
    is_of_no_data(meta)
}

fn holds_one_header(metas: &mut StreamMetaVec) -> bool {
    metas.kit_push(StreamMeta::default()).is_ok() && is_one_header(metas.as_slice())
}

// One header is held without an allocation.
#[test]
fn one_header_is_held() {
    assert!(holds_one_header(&mut StreamMetaVec::new()));
}

// Appends a datagram of two bytes, and returns whether it is there then.
fn appends(out: &mut Vec<u8>, with_length: bool, whole: &[u8]) -> bool {
    let datagram = Datagram { bytes: b"hi" };
    datagram.encode(with_length, out).is_ok() && out.as_slice() == whole
}

// The second one after the buffer's contents.
fn appends_both(out: &mut Vec<u8>) -> bool {
    appends(out, true, b"\x31\x02hi") && appends(out, false, b"\x31\x02hi\x30hi")
}

// How long a datagram is with its length and without it.
fn sizes(bytes: &[u8]) -> (usize, usize) {
    let datagram = Datagram { bytes };
    (datagram.size(true), datagram.size(false))
}

#[test]
fn datagrams() {
    assert!(appends_both(&mut Vec::new()));
    assert_eq!(sizes(b"hi"), (4, 3));
    assert_eq!(sizes(&[0x61; 64]), (67, 65));
}
