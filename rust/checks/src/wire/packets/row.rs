//! The sixty bytes of two worked packets: cut off anywhere, in the other order, in version 2, and with a changed tag.
use super::sealed::{WHOLE, are_ack_and_stream_sealed, are_first_packets, is_packet, seal_handshake};
use crate::host::bytes::BytesMut;
use crate::host::prelude::*;
use crate::proved::quic_base::ids::ConnectionId;
use crate::proved::quic_packets::packet::{
    DecodeOptions, FixedLengthConnectionIdParser, Header, LongType, OpenError, Opened, PacketDecodeError, PacketNumber,
    Packets, PartialDecode, VERSION_2, open_datagram, open_packet,
};
use crate::tested::quic_test_refused_packets::worked::{ALL_ZERO, all_toy};

// Opens a datagram whose short headers have ids of one byte, with these versions known.
fn open(opened: &mut Vec<Opened>, datagram: &[u8], versions: &[u32]) -> Result<(), OpenError> {
    let bytes = BytesMut::from(datagram);
    open_datagram(bytes, &FixedLengthConnectionIdParser::proved_new(1), versions, false, &all_toy(), &ALL_ZERO, opened)
}

fn refused(text: &'static str) -> Result<(), OpenError> {
    Err(OpenError::Decode(PacketDecodeError::InvalidHeader(text)))
}

// The result for the first bytes of the row, and how many packets there are then. The Handshake packet has 30 of them:
// its version ends at 5, its ids at 8, its length at 10. The 1-RTT packet's id ends at 32; four bytes and the sample of
// 16 bytes end at 52, and its own tag ends at 60.
fn wanted(len: usize) -> (Result<(), OpenError>, usize) {
    match len {
        0..=4 => (refused("unexpected end of packet"), 0),
        5..=7 => (refused("malformed cid"), 0),
        8..=9 => (refused("unexpected end of packet"), 0),
        10..=29 => (refused("packet too short to contain payload length"), 0),
        30 => (Ok(()), 1),
        31 => (refused("packet too small"), 1),
        32..=51 => (refused("packet too short to extract header protection sample"), 1),
        52..=59 => (Err(OpenError::Unsealed), 1),
        _ => (Ok(()), 2),
    }
}

fn is_answered(opened: &mut Vec<Opened>, len: usize) -> bool {
    let Some(datagram) = WHOLE.get(..len) else {
        return false;
    };
    let (answer, count) = wanted(len);
    open(opened, datagram, &[1]) == answer && opened.len() == count && are_first_packets(opened.as_slice())
}

#[test]
fn every_beginning() {
    for len in 0..=WHOLE.len() {
        let opened = &mut Vec::new();
        assert!(is_answered(opened, len), "at {len}");
    }
}

// The same packets, the 1-RTT packet first.
const SHORT_FIRST: [u8; 60] =
    *b"\x40\xaa\x05\x02\x03\0\x01\0\0\x01\x08\0hi\0\0\0\0\0\0\0\x05\0\0\0\0\0\0\0\0\xe0\0\0\0\x01\x01\xaa\0\x40\x14\0\x01\0\0\0\0\0\0\0\0\0\0\0\0\0\0\0\0\0\0";

fn is_sealed_short_first(out: &mut Vec<u8>) -> bool {
    are_ack_and_stream_sealed(out) && seal_handshake(out, 1) == Ok(30) && out.as_slice() == SHORT_FIRST.as_slice()
}

// Whether all of it is one packet.
fn is_one_packet(datagram: &[u8]) -> bool {
    let bytes = BytesMut::from(datagram);
    let Ok((packet, rest)) = PartialDecode::new(bytes, &FixedLengthConnectionIdParser::proved_new(1), &[1], false)
    else {
        return false;
    };
    packet.data() == datagram && !packet.has_long_header() && rest.is_none()
}

fn is_not_opened(opened: &mut Vec<Opened>, datagram: &[u8]) -> bool {
    open(opened, datagram, &[1]) == Err(OpenError::Unsealed) && opened.is_empty()
}

// A packet with a short header has no length, so the tag is expected at the end of the other one.
#[test]
fn the_same_packets_short_first() {
    let out = &mut Vec::new();
    assert!(is_sealed_short_first(out), "sealed");
    assert!(is_one_packet(&SHORT_FIRST), "one packet");
    let opened = &mut Vec::new();
    assert!(is_not_opened(opened, &SHORT_FIRST), "refused");
}

// The same packets, the Handshake packet in version 2, whose headers have other types (RFC 9369, section 3.2).
const OF_VERSION_2: [u8; 60] =
    *b"\xf0\x6b\x33\x43\xcf\x01\xaa\0\x40\x14\0\x01\0\0\0\0\0\0\0\0\0\0\0\0\0\0\0\0\0\0\x40\xaa\x05\x02\x03\0\x01\0\0\x01\x08\0hi\0\0\0\0\0\0\0\x05\0\0\0\0\0\0\0\0";

fn is_sealed_under_version_2(out: &mut Vec<u8>) -> bool {
    seal_handshake(out, VERSION_2) == Ok(30)
        && are_ack_and_stream_sealed(out)
        && out.as_slice() == OF_VERSION_2.as_slice()
}

fn is_handshake_of_version_2(header: &Header) -> bool {
    let Header::Long { ty, number, version, .. } = header else {
        return false;
    };
    *ty == LongType::Handshake && *number == PacketNumber::U8(0) && *version == VERSION_2
}

const FIRST_OF_VERSION_2: (&[u8], u64, &[u8]) = (b"\xf0\x6b\x33\x43\xcf\x01\xaa\0\x40\x14\0", 0, b"\x01\0\0");

const SECOND: (&[u8], u64, &[u8]) = (b"\x40\xaa\x05", 5, b"\x02\x03\0\x01\0\0\x01\x08\0hi");

fn are_those_of_version_2(opened: &[Opened]) -> bool {
    let [first, second] = opened else {
        return false;
    };
    is_handshake_of_version_2(&first.header) && is_packet(first, &FIRST_OF_VERSION_2) && is_packet(second, &SECOND)
}

fn is_opened_under_version_2(opened: &mut Vec<Opened>) -> bool {
    open(opened, &OF_VERSION_2, &[1, VERSION_2]).is_ok() && are_those_of_version_2(opened.as_slice())
}

// Whether the datagram is rejected if version 1 is the only known one.
fn is_unsupported(opened: &mut Vec<Opened>) -> bool {
    let unsupported = PacketDecodeError::UnsupportedVersion {
        src_cid: ConnectionId::proved_new(b""),
        dst_cid: ConnectionId::proved_new(b"\xaa"),
        version: VERSION_2,
    };
    let answer = open(opened, &OF_VERSION_2, &[1]);
    answer == Err(OpenError::Decode(unsupported)) && opened.is_empty()
}

#[test]
fn the_same_packets_under_version_2() {
    let out = &mut Vec::new();
    assert!(is_sealed_under_version_2(out), "sealed");
    let opened = &mut Vec::new();
    assert!(is_opened_under_version_2(opened), "opened");
    let opened = &mut Vec::new();
    assert!(is_unsupported(opened), "unsupported");
}

// The number that the first packet of a datagram is opened with.
fn first_number(datagram: &[u8]) -> Result<Option<u64>, OpenError> {
    let bytes = BytesMut::from(datagram);
    let parser = FixedLengthConnectionIdParser::proved_new(1);
    match open_packet(bytes, &parser, &[1], false, &all_toy(), &ALL_ZERO) {
        Ok((opened, _rest)) => Ok(opened.number),
        Err(e) => Err(e),
    }
}

// The datagram with one bit of this byte changed.
fn changed_at(at: usize) -> [u8; 60] {
    let mut changed = WHOLE;
    if let Some(byte) = changed.get_mut(at) {
        *byte ^= 1;
    }
    changed
}

// The tag is the last 16 bytes of the first packet. `OutOfMemory` isn't reported unless an allocation fails.
#[test]
fn a_changed_tag() {
    assert!(first_number(&WHOLE) == Ok(Some(0)));
    for at in 14..30 {
        let refused = Err(OpenError::Unsealed);
        assert!(first_number(&changed_at(at)) == refused, "at {at}");
    }
}

fn next(packets: &mut Packets) -> Option<Result<Opened, OpenError>> {
    let options =
        DecodeOptions { parser: &FixedLengthConnectionIdParser::proved_new(1), versions: &[1], grease: false };
    packets.open_next(&options, &all_toy(), &ALL_ZERO)
}

fn is_unsealed_next(packets: &mut Packets) -> bool {
    matches!(&next(packets), Some(Err(OpenError::Unsealed)))
}

fn is_too_short_next(packets: &mut Packets) -> bool {
    match next(packets) {
        Some(Err(OpenError::Decode(PacketDecodeError::InvalidHeader(text)))) => {
            text == "packet too short to contain payload length"
        }
        _ => false,
    }
}

// Whether the second packet is opened, and nothing follows it.
fn is_second_next(packets: &mut Packets) -> bool {
    match next(packets) {
        Some(Ok(opened)) => is_packet(&opened, &SECOND) && next(packets).is_none(),
        _ => false,
    }
}

// What follows a packet that isn't opened is still opened, as RFC 9000, section 12.2, requires. Nothing can follow
// bytes that don't begin with a packet, since its end isn't known.
#[test]
fn what_is_left_after_an_error() {
    let packets = &mut Packets::new(BytesMut::from(&changed_at(14)[..]));
    assert!(is_unsealed_next(packets), "unsealed");
    assert!(is_second_next(packets), "opened");
    let packets = &mut Packets::new(BytesMut::from(&WHOLE[..29]));
    assert!(is_too_short_next(packets), "too short");
    assert!(next(packets).is_none(), "given up");
}
