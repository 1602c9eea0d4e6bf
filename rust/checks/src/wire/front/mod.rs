//! One payload, one datagram and one list for each call.
use crate::host::bytes::BytesMut;
use crate::host::prelude::*;
use crate::host::test::Fail;
use crate::proved::quic_wire::calls::{
    PayloadError, cut_first, cut_plain, frames_read_back, is_lost, parameters_read_back, read_checked, read_parameters,
    read_payload, read_rfc, rfc_read_back, shorten, write_payload,
};
use crate::proved::quic_wire::frame::{Frame, FrameType, InvalidFrame, Iter, Rules};
use crate::proved::quic_wire::ids::Side;
use crate::proved::quic_wire::packet::{DecodeOptions, FixedLengthConnectionIdParser};
use crate::proved::quic_wire::permitted::{Forbidden, PacketType, permits, permits_type};
use crate::proved::quic_wire::transport_parameters::{ReservedTransportParameter, TransportParameters};
use crate::proved::quic_wire::varint::VarInt;

#[test]
fn payloads_are_read() -> Result<(), Fail> {
    let Ok((frames, error)) = read_payload(b"\x40\x00\x0a\x00\x01\x61".as_slice()) else {
        return Err("a payload".into());
    };
    assert_eq!(frames.len(), 2);
    assert!(error.is_none());
    let Ok((frames, error)) = read_payload(b"\x01\x01\x21".as_slice()) else {
        return Err("a broken payload".into());
    };
    assert_eq!(frames.len(), 2);
    assert_eq!(error.map(|invalid| invalid.reason), Some("invalid frame ID"));
    assert!(matches!(read_payload(b"".as_slice()), Err(PayloadError::Empty)));
    Ok(())
}

#[test]
fn payloads_are_read_by_rules() -> Result<(), Fail> {
    let payload = b"\x01\x07\x00\x01".as_slice();
    let Ok((frames, error)) = read_checked(payload, Rules::RFC) else {
        return Err("an empty token".into());
    };
    assert_eq!(frames.len(), 1);
    assert_eq!(error.map(|invalid| invalid.reason), Some("malformed"));
    Ok(())
}

// A payload, whether the ACK frequency extension was negotiated, how many frames RFC 9000 allows, and why no more
// follow.
type RfcRow = (&'static [u8], bool, usize, Option<(u8, &'static str)>);

const BY_RFC: &[RfcRow] = &[
    (b"\x01\x07\x01\x00\x00", false, 3, None),
    // A token may not be empty (section 19.7).
    (b"\x01\x07\x00\x01", false, 1, Some((0x07, "malformed"))),
    // An extension's types are unknown unless it was negotiated (section 12.4).
    (b"\x40\xaf", false, 0, Some((0xaf, "invalid frame ID"))),
    (b"\x40\xaf", true, 0, Some((0xaf, "unexpected end"))),
    // A stream's data end at 2^62 - 1 at most (section 19.8).
    (b"\x0e\x04\xff\xff\xff\xff\xff\xff\xff\xff\x01a", false, 0, Some((0x0e, "limit exceeded"))),
];

fn is_error(invalid: &InvalidFrame, ty: u8, reason: &str) -> bool {
    invalid.ty == Some(FrameType::of(u64::from(ty))) && invalid.reason == reason
}

fn is_read_by_rfc(row: &RfcRow) -> bool {
    let &(payload, negotiated, count, why) = row;
    let Ok((frames, error)) = read_rfc(payload, negotiated) else {
        return false;
    };
    frames.len() == count
        && match (error, why) {
            (None, None) => true,
            (Some(invalid), Some((ty, reason))) => is_error(&invalid, ty, reason),
            _ => false,
        }
}

#[test]
fn payloads_are_read_by_the_rfc() {
    for row in BY_RFC {
        assert!(is_read_by_rfc(row), "at {row:?}");
    }
}

#[test]
fn why_payloads_are_not_read() {
    assert_eq!(PayloadError::Empty.to_string(), "packet payload is empty");
    assert_eq!(PayloadError::OutOfMemory.to_string(), "out of memory");
}

#[test]
fn payloads_are_written() {
    let mut out = Vec::new();
    assert!(write_payload(&[Frame::Ping, Frame::Padding], &mut out).is_ok());
    assert_eq!(out.as_slice(), b"\x01\x00".as_slice());
    assert!(shorten(b"\x40\x00\x0a\x00\x01\x61".as_slice(), &mut out).is_ok());
    assert_eq!(out.as_slice(), b"\x01\x00\x00\x08\x00\x61".as_slice());
}

#[test]
fn frames_are_read_back() {
    let mut out = Vec::new();
    match frames_read_back(&[Frame::Ping, Frame::HandshakeDone], &mut out) {
        Ok(frames) => assert_eq!(frames.len(), 2),
        Err(_) => panic!("frames that can't be read back"),
    }
}

#[test]
fn allowed_frames_are_read_back() {
    let mut out = Vec::new();
    match rfc_read_back(&[Frame::Ping, Frame::Padding], false, &mut out) {
        Ok(frames) => {
            assert!(matches!(frames.as_slice(), [Frame::Ping, Frame::Padding]))
        }
        Err(_) => panic!("frames that can't be read back"),
    }
}

#[test]
fn what_is_lost() {
    assert!(is_lost(b"\x01\x21".as_slice()));
    assert!(!is_lost(b"\x01\x06".as_slice()));
    assert!(!is_lost(b"\x01".as_slice()));
    assert!(!is_lost(b"".as_slice()));
}

#[test]
fn datagrams_are_cut() {
    let options =
        DecodeOptions { parser: &FixedLengthConnectionIdParser::proved_new(1), versions: &[1], grease: false };
    let mut short = Vec::new();
    short.extend_from_slice(b"\x40\xaa\x01\x02".as_slice());
    assert!(cut_first(BytesMut::from(short.as_slice()), &options).is_ok());
    let mut retry = Vec::new();
    retry.extend_from_slice(b"\xf0\x00\x00\x00\x01\x01\xaa\x01\xbb\x01\x02".as_slice());
    assert!(cut_plain(BytesMut::from(retry.as_slice()), &options).is_ok());
}

#[test]
fn lists_are_read() {
    assert!(read_parameters(Side::Client, b"\x01\x01\x05".as_slice()).is_ok());
    assert!(read_parameters(Side::Client, b"\x01\x02\x05".as_slice()).is_err());
}

#[test]
fn parameters_are_read_back() {
    let mut params = TransportParameters::default();
    params.max_idle_timeout = VarInt::from_u32(30000);
    let mut greased = params;
    greased.grease_transport_parameter = Some(ReservedTransportParameter::proved_new(0, b"\xaa\xbb"));
    if greased.in_range(Side::Client) {
        let mut out = Vec::new();
        assert_eq!(parameters_read_back(Side::Client, &greased, &mut out), Ok(params));
        assert_eq!(out.as_slice(), b"\x01\x04\x80\x00\x75\x30\x1b\x02\xaa\xbb".as_slice());
    }
}

// A type of frames, the packets that carry it, as RFC 9000, section 12.4, table 3, or RFC 9221, section 4, has them,
// and whether only servers send it (sections 19.7 and 19.20). A type with `?` is unknown.
type TypeRow = (u64, &'static [u8], bool);

const TYPES: &[TypeRow] = &[
    (0x00, b"IH01", false),
    (0x02, b"IH_1", false),
    (0x06, b"IH_1", false),
    (0x07, b"___1", true),
    (0x08, b"__01", false),
    (0x1b, b"___1", false),
    (0x1c, b"IH01", false),
    (0x1d, b"__01", false),
    (0x1e, b"___1", true),
    (0x30, b"__01", false),
    (0x40, b"????", false),
];

// The packets in the order of the table's letters.
const PACKETS: &[PacketType] = &[PacketType::Initial, PacketType::Handshake, PacketType::ZeroRtt, PacketType::OneRtt];

fn by_letter(letter: u8, is_sender: bool) -> Result<(), Forbidden> {
    match letter {
        b'?' => Err(Forbidden::Type),
        b'_' => Err(Forbidden::Packet),
        _ if !is_sender => Err(Forbidden::Sender),
        _ => Ok(()),
    }
}

// Only clients send 0-RTT packets (section 17.2.3).
fn is_sender(packet: PacketType, only_servers: bool, side: Side) -> bool {
    match side {
        Side::Client => !only_servers,
        Side::Server => packet != PacketType::ZeroRtt,
    }
}

fn is_type_permitted(row: &TypeRow) -> bool {
    let &(ty, letters, only_servers) = row;
    for (&packet, &letter) in PACKETS.iter().zip(letters) {
        for &side in &[Side::Client, Side::Server] {
            let wanted = by_letter(letter, is_sender(packet, only_servers, side));
            if permits_type(ty, packet, side, Rules::RFC) != wanted {
                return false;
            }
        }
    }
    letters.len() == PACKETS.len()
}

#[test]
fn types_are_permitted() {
    for row in TYPES {
        assert!(is_type_permitted(row), "at {row:?}");
    }
}

// What is permitted of the first frame of a 1-RTT packet from a side.
fn permits_first(payload: &[u8], sender: Side) -> Option<Result<(), Forbidden>> {
    let frame = Iter::new(payload).ok()?.next()?.ok()?;
    Some(permits(&frame, PacketType::OneRtt, sender, Rules::RFC))
}

// STREAM and STOP_SENDING on stream 2, which is unidirectional and the client's (section 2.1): the client sends the
// data, and the server may ask it to stop.
#[test]
fn frames_are_permitted_on_a_stream() {
    let refused = Err(Forbidden::Stream);
    for (payload, sender, wanted) in [
        (b"\x08\x02a".as_slice(), Side::Client, Ok(())),
        (b"\x08\x02a".as_slice(), Side::Server, refused),
        (b"\x05\x02\x00".as_slice(), Side::Client, refused),
        (b"\x05\x02\x00".as_slice(), Side::Server, Ok(())),
    ] {
        assert_eq!(permits_first(payload, sender), Some(wanted));
    }
}
