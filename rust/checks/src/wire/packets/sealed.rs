//! Datagrams of the worked rows, sealed and opened with keys that protect nothing.
use crate::host::bytes::{Bytes, BytesMut};
use crate::host::prelude::*;
use crate::proved::quic_base::ids::{ConnectionId, Dir, Side, StreamId};
use crate::proved::quic_base::varint::VarInt;
use crate::proved::quic_frames::frame::{Ack, Frame, Stream};
use crate::proved::quic_packets::packet::{
    Expected, FixedLengthConnectionIdParser, Header, InitialHeader, OpenError, Opened, PacketDecodeError, PacketNumber,
    SealError, VERSION_2, open_datagram, open_packet, seal_packet,
};
use crate::tested::quic_bench::parsers::WithoutMemory;
use crate::tested::quic_test_refused_packets::worked::{ALL_ZERO, all_toy, handshake, short, toy};

// Most functions here borrow the bytes that they seal into, and return whether every fact held: a test owns only its
// checks and these bytes.

// Appends PING, PADDING, PADDING in a Handshake packet.
pub fn seal_handshake(out: &mut Vec<u8>, version: u32) -> Result<usize, SealError> {
    let header = handshake(version);
    let frames = [Frame::Ping, Frame::Padding, Frame::Padding];
    seal_packet(&header, 0, &frames, &toy(), out)
}

// Opens a datagram whose first packet gets its id, while the allocation for the id of the second fails.
fn first_stands(opened: &mut Vec<Opened>, datagram: BytesMut) -> bool {
    let done = open_datagram(datagram, &WithoutMemory, &[1], false, &all_toy(), &ALL_ZERO, opened);
    let [first] = opened.as_slice() else {
        return false;
    };
    done == Err(OpenError::OutOfMemory) && first.number == Some(0) && first.payload.as_slice() == b"\x01\0\0".as_slice()
}

// A packet that was opened is there if an allocation fails for the next one.
#[test]
fn opened_packet_stands() {
    let datagram = BytesMut::from(&WHOLE[..]);
    assert!(first_stands(&mut Vec::new(), datagram));
}

// Opens a datagram whose short headers have ids of one byte.
fn open_all(opened: &mut Vec<Opened>, datagram: Vec<u8>) -> Result<(), OpenError> {
    open_datagram(
        BytesMut::from(datagram.as_slice()),
        &FixedLengthConnectionIdParser::proved_new(1),
        &[1],
        false,
        &all_toy(),
        &ALL_ZERO,
        opened,
    )
}

// A Handshake packet and a 1-RTT packet, 30 bytes each.
pub const WHOLE: [u8; 60] =
    *b"\xe0\0\0\0\x01\x01\xaa\0\x40\x14\0\x01\0\0\0\0\0\0\0\0\0\0\0\0\0\0\0\0\0\0\x40\xaa\x05\x02\x03\0\x01\0\0\x01\x08\0hi\0\0\0\0\0\0\0\x05\0\0\0\0\0\0\0\0";

// The headers of both packets, their numbers and their payloads.
const PACKETS: &[(&[u8], u64, &[u8])] =
    &[(b"\xe0\0\0\0\x01\x01\xaa\0\x40\x14\0", 0, b"\x01\0\0"), (b"\x40\xaa\x05", 5, b"\x02\x03\0\x01\0\0\x01\x08\0hi")];

// Whether an ACK and a STREAM are appended in a 1-RTT packet.
pub fn are_ack_and_stream_sealed(out: &mut Vec<u8>) -> bool {
    let Ok(ack) = Ack::proved_from_parts(3, 0, b"\0\0\x01", None) else {
        return false;
    };
    let header = short(b"\xaa", 5);
    let stream = Stream { id: StreamId::proved_new(Side::Client, Dir::Bi, 0), offset: 0, fin: false, bytes: b"hi" };
    let frames = [Frame::Ack(ack), Frame::Stream(stream)];
    seal_packet(&header, 5, &frames, &toy(), out) == Ok(30)
}

fn are_two_sealed(out: &mut Vec<u8>) -> bool {
    seal_handshake(out, 1) == Ok(30) && are_ack_and_stream_sealed(out) && out.as_slice() == WHOLE.as_slice()
}

pub fn is_packet(packet: &Opened, row: &(&[u8], u64, &[u8])) -> bool {
    let &(head, number, payload) = row;
    packet.header_data.as_slice() == head
        && packet.number == Some(number)
        && packet.payload.as_slice() == payload
        && packet.header.dst_cid().as_slice() == b"\xaa".as_slice()
}

// Whether the packets are the first ones of these.
pub fn are_first_packets(opened: &[Opened]) -> bool {
    for (packet, row) in opened.iter().zip(PACKETS) {
        if !is_packet(packet, row) {
            return false;
        }
    }
    opened.len() <= 2
}

fn are_two_opened(opened: &mut Vec<Opened>, datagram: Vec<u8>) -> bool {
    open_all(opened, datagram).is_ok() && opened.len() == 2 && are_first_packets(opened.as_slice())
}

#[test]
fn two_packets() {
    let mut out = Vec::new();
    let are_sealed = are_two_sealed(&mut out);
    let are_opened = are_two_opened(&mut Vec::new(), out);
    assert!(are_sealed, "sealed");
    assert!(are_opened, "opened");
}

// Appends PING, PADDING, PADDING in a 1-RTT packet.
fn seal_short(out: &mut Vec<u8>) -> Result<usize, SealError> {
    let header = short(b"\xaa", 5);
    let frames = [Frame::Ping, Frame::Padding, Frame::Padding];
    seal_packet(&header, 5, &frames, &toy(), out)
}

fn is_short_sealed_first(out: &mut Vec<u8>) -> bool {
    seal_short(out).is_ok() && seal_handshake(out, 1).is_ok()
}

fn is_nothing_opened(opened: &mut Vec<Opened>, datagram: Vec<u8>) -> bool {
    open_all(opened, datagram) == Err(OpenError::Unsealed) && opened.is_empty()
}

// A packet with a short header has no length, so what follows belongs to it.
#[test]
fn short_packet_first() {
    let mut out = Vec::new();
    let are_sealed = is_short_sealed_first(&mut out);
    let is_refused = is_nothing_opened(&mut Vec::new(), out);
    assert!(are_sealed, "sealed");
    assert!(is_refused, "refused");
}

fn seal_ping(out: &mut Vec<u8>) -> Result<usize, SealError> {
    let header = handshake(1);
    seal_packet(&header, 0, &[Frame::Ping], &toy(), out)
}

// Appends a STREAM of these bytes in a Handshake packet.
fn seal_data(out: &mut Vec<u8>, bytes: &[u8]) -> Result<usize, SealError> {
    let header = handshake(1);
    let stream = Stream { id: StreamId::proved_new(Side::Client, Dir::Bi, 0), offset: 0, fin: false, bytes };
    seal_packet(&header, 0, &[Frame::Stream(stream)], &toy(), out)
}

fn is_too_short(out: &mut Vec<u8>) -> bool {
    seal_ping(out) == Err(SealError::TooShort) && out.is_empty()
}

// Whether these bytes are too many for a packet, and without their first one are not.
fn is_too_long_by_one(out: &mut Vec<u8>, bytes: &[u8]) -> bool {
    let Some((_, most)) = bytes.split_first() else {
        return false;
    };
    seal_data(out, bytes) == Err(SealError::TooLong)
        && out.is_empty()
        && seal_data(out, most) == Ok(16393)
        && out.starts_with(b"\xe0\0\0\0\x01\x01\xaa\0\x7f\xff\0\x08\0")
}

#[test]
fn too_short_and_too_long() {
    let mut out = Vec::new();
    let is_too_short = is_too_short(&mut out);
    let data = [0; 16365];
    let is_too_long = is_too_long_by_one(&mut out, &data);
    assert!(is_too_short, "too short");
    assert!(is_too_long, "too long");
}

fn is_sealed_in_version_two(out: &mut Vec<u8>) -> bool {
    seal_handshake(out, VERSION_2) == Ok(30) && out.starts_with(b"\xf0\x6b\x33\x43\xcf\x01\xaa\0\x40\x14\0")
}

// Version 2 has other types of long headers.
#[test]
fn version_two() {
    assert!(is_sealed_in_version_two(&mut Vec::new()));
}

fn seal_number_300(out: &mut Vec<u8>) -> Result<usize, SealError> {
    let header = short(b"\xaa", 300);
    let frames = [Frame::Ping, Frame::Padding, Frame::Padding];
    seal_packet(&header, 300, &frames, &toy(), out)
}

// The number that a datagram's packet is opened with, if this one is expected.
fn opened_number(datagram: Vec<u8>, app: u32) -> Result<Option<u64>, OpenError> {
    let expected = Expected { initial: 0, handshake: 0, app: u64::from(app) };
    let answer = open_packet(
        BytesMut::from(datagram.as_slice()),
        &FixedLengthConnectionIdParser::proved_new(1),
        &[1],
        false,
        &all_toy(),
        &expected,
    );
    match answer {
        Ok((opened, _rest)) => Ok(opened.number),
        Err(e) => Err(e),
    }
}

// The result for a packet with the number 300; no number if it isn't sealed.
fn opens_300(app: u32) -> Result<Option<u64>, OpenError> {
    let mut out = Vec::new();
    if seal_number_300(&mut out).is_err() {
        return Ok(None);
    }
    opened_number(out, app)
}

// The number that is expected decides which one is read.
#[test]
fn number_300() {
    assert!(opens_300(300) == Ok(Some(300)));
    assert!(opens_300(0) == Err(OpenError::Unsealed));
}

// Appends an Initial packet of six frames.
fn seal_initial(out: &mut Vec<u8>, version: u32) -> Result<usize, SealError> {
    let header = Header::Initial(InitialHeader {
        dst_cid: ConnectionId::proved_new(b"\x06\xb8\x58\xec\x6f\x80\x45\x2b"),
        src_cid: ConnectionId::proved_new(b""),
        token: Bytes::new(),
        number: PacketNumber::U8(0),
        version,
    });
    let frames = [
        Frame::PathChallenge(0),
        Frame::DataBlocked { offset: 0 },
        Frame::MaxData(VarInt::from_u32(0)),
        Frame::Ping,
        Frame::Padding,
        Frame::Padding,
    ];
    seal_packet(&header, 0, &frames, &toy(), out)
}

fn is_opened_with_header(datagram: Vec<u8>, head: &[u8]) -> bool {
    let answer = open_packet(
        BytesMut::from(datagram.as_slice()),
        &FixedLengthConnectionIdParser::proved_new(0),
        &[1, VERSION_2],
        false,
        &all_toy(),
        &ALL_ZERO,
    );
    let Ok((opened, rest)) = answer else {
        return false;
    };
    opened.header_data.as_slice() == head && rest.is_none()
}

fn has_initial_header(version: u32, head: &[u8]) -> bool {
    let mut out = Vec::new();
    seal_initial(&mut out, version) == Ok(head.len() + 16 + 16) && is_opened_with_header(out, head)
}

// Versions, and an Initial packet's header in them.
const INITIAL_HEADERS: &[(u32, &[u8])] = &[
    (1, b"\xc0\0\0\0\x01\x08\x06\xb8\x58\xec\x6f\x80\x45\x2b\0\0\x40\x21\0"),
    (VERSION_2, b"\xd0\x6b\x33\x43\xcf\x08\x06\xb8\x58\xec\x6f\x80\x45\x2b\0\0\x40\x21\0"),
];

// The header's bytes as they were sealed, with the length filled in.
#[test]
fn initial_header() {
    for &(version, head) in INITIAL_HEADERS {
        assert!(has_initial_header(version, head), "at {version}");
    }
}

// Bytes that weren't sealed, and the payload or the text of the error.
const NOT_SEALED: &[(&[u8], Result<&[u8], &str>)] = &[
    (b"\xf0\0\0\0\x01\0\0\xab", Ok(b"\xab")),
    (b"\xc0\0\0\0\0\0\0\0\0\0\x01", Ok(b"\0\0\0\x01")),
    (b"\xe0\0\0\0\x01\0\0\0", Err("packet too short to extract header protection sample")),
];

fn is_answer(whole: BytesMut, wanted: Result<&[u8], &str>) -> bool {
    let answer = open_packet(whole, &FixedLengthConnectionIdParser::proved_new(0), &[1], false, &all_toy(), &ALL_ZERO);
    match answer {
        Ok((opened, rest)) => opened.number.is_none() && Ok(opened.payload.as_slice()) == wanted && rest.is_none(),
        Err(OpenError::Decode(PacketDecodeError::InvalidHeader(text))) => Err(text) == wanted,
        Err(_) => false,
    }
}

fn is_opened_as(bytes: &[u8], wanted: Result<&[u8], &str>) -> bool {
    let whole = BytesMut::from(bytes);
    is_answer(whole, wanted)
}

// A packet without protection, returned unchanged, and a packet without a sample.
#[test]
fn not_sealed() {
    for &(bytes, wanted) in NOT_SEALED {
        let is_opened = is_opened_as(bytes, wanted);
        assert!(is_opened, "at {bytes:?}");
    }
}
