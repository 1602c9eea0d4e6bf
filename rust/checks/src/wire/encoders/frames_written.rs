//! Frames of every kind, written as the last of a payload or not.
use super::is_counted;
use crate::host::prelude::*;
use crate::proved::quic_base::coding::NoRoom;
use crate::proved::quic_frames::frame::{Frame, Iter};
use crate::tested::quic_callers::frames::written_and_read;

// Frames in their shortest encodings, which are the same for the last frame of a payload and for others: one of each
// kind except STREAM and DATAGRAM, and numbers of each width.
const SHORTEST: &str = "\
00
01
0205000005
02050001000300
030e2a03000101030000022a180c
04040506
050405
0600026869
07026869
1020
1000
103f
104040
107fff
1080004000
10bfffffff
10c000000040000000
10ffffffffffffffff
110821
1203
1302
1422
150c23
1601
1704
18050202aabb1111111111111111111111111111111f
180000010a000102030405060708090a0b0c0d0e0f
1907
1a0102030405060708
1b0000000000000102
1c0a00026162
1c07020161
1c412a0000
1d0503616263
1d000461626364
1e
1f
40af2a148000c35001";

// What is read, and what is written for it before other frames and as the last: STREAM and DATAGRAM, and encodings that
// aren't the shortest.
const OTHERS: &str = "\
0f0410026162 0f0410026162 0d04106162
0d0440106162 0f0410026162 0d04106162
080061 0a000161 080061
090061 0b000161 090061
0a000161 0a000161 080061
0b000161 0b000161 090061
0c040761 0e04070161 0c040761
0d040761 0f04070161 0d040761
0e04070161 0e04070161 0c040761
0f04070161 0f04070161 0d040761
0c000061 0a000161 080061
0d000061 0b000161 090061
0e00000161 0a000161 080061
0f0080000000400161 0b000161 090061
400a4000400161 0a000161 080061
0800 0a0000 0800
0f041000 0f041000 0d0410
08ffffffffffffffff61 0affffffffffffffff0161 08ffffffffffffffff61
0c00ffffffffffffffff61 0e00ffffffffffffffff0161 0c00ffffffffffffffff61
08006161616161616161616161616161616161616161616161616161616161616161616161616161616161616161616161616161616161616161\
6161616161616161 \
0a004040616161616161616161616161616161616161616161616161616161616161616161616161616161616161616161616161616161616161\
61616161616161616161 \
08006161616161616161616161616161616161616161616161616161616161616161616161616161616161616161616161616161616161616161\
6161616161616161
31026869 31026869 306869
306869 31026869 306869
3140026869 31026869 306869
40306869 31026869 306869
80000031800000026869 31026869 306869
30 3100 30
30616161616161616161616161616161616161616161616161616161616161616161616161616161616161616161616161616161616161616161\
61616161616161 \
31404061616161616161616161616161616161616161616161616161616161616161616161616161616161616161616161616161616161616161\
616161616161616161 \
30616161616161616161616161616161616161616161616161616161616161616161616161616161616161616161616161616161616161616161\
61616161616161
4000 00 00
80000001 01 01
02400500004005 0205000005 0205000005
40044004800000054006 04040506 04040506
05c0000000000000044005 050405 050405
06400040026869 0600026869 0600026869
0740026869 07026869 07026869
104020 1020 1020
11400880000021 110821 110821
40124003 1203 1203
13c000000000000002 1302 1302
144022 1422 1422
15400c4023 150c23 150c23
164001 1601 1601
174004 1704 1704
1840058000000202aabb1111111111111111111111111111111f \
18050202aabb1111111111111111111111111111111f \
18050202aabb1111111111111111111111111111111f
4019c000000000000007 1907 1907
401a0102030405060708 1a0102030405060708 1a0102030405060708
401b0102030405060708 1b0102030405060708 1b0102030405060708
1c40074002400161 1c07020161 1c07020161
401d4005400161 1d050161 1d050161
401e 1e 1e
8000001f 1f 1f
800000af402a4014c00000000000c3504001 40af2a148000c35001 40af2a148000c35001";

// Writes a frame, and returns whether it has as many bytes as `encoded_len` returns.
fn write(out: &mut Vec<u8>, frame: &Frame<'_>, last: bool) -> bool {
    if !frame.in_range() || !is_counted(frame) {
        return false;
    }
    frame.encode(last, out).is_ok() && frame.encoded_len(last) == out.len() as u128
}

fn shows(frame: &Frame<'_>, text: &str) -> bool {
    format!("{frame:?}") == text
}

// Whether both have the same Debug.
fn show_the_same(one: &Frame<'_>, other: &Frame<'_>) -> bool {
    shows(other, &format!("{one:?}"))
}

// Whether the next frame is a PING, or there is none.
fn follows(iter: &mut Iter<'_>, last: bool) -> bool {
    let next = iter.next();
    if last { next.is_none() } else { matches!(next, Some(Ok(Frame::Ping))) }
}

// Whether the payload is this frame up to `end`, and then a PING, or nothing if the frame is the last.
fn is_read(payload: &[u8], frame: &Frame<'_>, end: usize, last: bool) -> bool {
    let Some(mut iter) = Iter::new(payload).ok() else {
        return false;
    };
    let Some(Ok(again)) = iter.next() else {
        return false;
    };
    iter.offset() == end && follows(&mut iter, last) && show_the_same(&again, frame)
}

// Whether a frame that is written and read again is the same, by its Debug.
fn is_read_back(out: &mut Vec<u8>, frame: &Frame<'_>, last: bool) -> bool {
    if !write(out, frame, last) {
        return false;
    }
    let end = out.len();
    (last || out.kit_push(0x01).is_ok()) && is_read(out.as_slice(), frame, end, last)
}

// Whether a frame is written as these bytes.
fn is_written_as(out: &mut Vec<u8>, frame: &Frame<'_>, last: bool, wanted: &[u8]) -> bool {
    write(out, frame, last) && out.as_slice() == wanted
}

// The same for bytes in hexadecimal.
fn is_written(frame: &Frame<'_>, last: bool, digits: &str) -> bool {
    match crate::host::hex::decode(digits.as_bytes()) {
        Ok(wanted) => is_written_as(&mut Vec::new(), frame, last, wanted.as_slice()),
        Err(_) => false,
    }
}

// Whether a payload is one frame, which is written so before others and as the last.
fn is_one_frame(payload: &[u8], counted: &str, open: &str) -> bool {
    let Some(mut iter) = Iter::new(payload).ok() else {
        return false;
    };
    let Some(Ok(frame)) = iter.next() else {
        return false;
    };
    iter.next().is_none() && is_written(&frame, false, counted) && is_written(&frame, true, open)
}

// The same for a payload in hexadecimal.
fn is_rewritten(payload: &str, counted: &str, open: &str) -> bool {
    match crate::host::hex::decode(payload.as_bytes()) {
        Ok(payload) => is_one_frame(payload.as_slice(), counted, open),
        Err(_) => false,
    }
}

// Whether the first frame of a payload is read back from what is written for it.
fn first_comes_back(payload: &[u8]) -> bool {
    let Some(mut iter) = Iter::new(payload).ok() else {
        return false;
    };
    let Some(Ok(frame)) = iter.next() else {
        return false;
    };
    is_read_back(&mut Vec::new(), &frame, false) && is_read_back(&mut Vec::new(), &frame, true)
}

// The same for a payload in hexadecimal.
fn comes_back(payload: &str) -> bool {
    match crate::host::hex::decode(payload.as_bytes()) {
        Ok(payload) => first_comes_back(payload.as_slice()),
        Err(_) => false,
    }
}

// The three words of a line.
fn words(line: &str) -> Option<(&str, &str, &str)> {
    let (payload, encodings) = line.split_once(" ")?;
    let (counted, open) = encodings.split_once(" ")?;
    Some((payload, counted, open))
}

fn line_is_rewritten(line: &str) -> bool {
    let Some((payload, counted, open)) = words(line) else {
        return false;
    };
    is_rewritten(payload, counted, open)
}

// The Debug of an acknowledgement has its blocks as they are encoded.
fn line_comes_back(line: &str) -> bool {
    let Some((payload, counted, open)) = words(line) else {
        return false;
    };
    (payload.starts_with("02") || comes_back(payload)) && comes_back(counted) && comes_back(open)
}

#[test]
fn shortest_frames_are_written_as_they_were_read() {
    for line in SHORTEST.lines() {
        assert!(is_rewritten(line, line, line), "at {line}");
    }
}

#[test]
fn shortest_frames_come_back() {
    for line in SHORTEST.lines() {
        assert!(comes_back(line), "at {line}");
    }
}

#[test]
fn others_are_written_in_their_shortest_form() {
    for line in OTHERS.lines() {
        assert!(line_is_rewritten(line), "at {line}");
    }
}

#[test]
fn others_come_back() {
    for line in OTHERS.lines() {
        assert!(line_comes_back(line), "at {line}");
    }
}

// Whether the first frame of a payload, written and read again by a caller, has this Debug.
fn is_read_by_a_client(payload: &[u8], text: &str) -> bool {
    let Some(mut iter) = Iter::new(payload).ok() else {
        return false;
    };
    let Some(Ok(frame)) = iter.next() else {
        return false;
    };
    if !frame.in_range() || !is_counted(&frame) {
        return false;
    }
    match written_and_read(&frame, &mut Vec::new()) {
        Ok(again) => shows(&again, text),
        Err(NoRoom) => false,
    }
}

#[test]
fn a_client_reads_what_it_writes() {
    let payload = b"\x40\x14\x80\x00\x00\x22";
    let text = "DataBlocked { offset: 34 }";
    assert!(is_read_by_a_client(payload, text));
}
