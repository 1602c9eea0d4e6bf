//! Version negotiations, whose first byte has no fixed bit (RFC 9000, section 17.2.1), and every beginning of one.
use crate::host::bytes::BytesMut;
use crate::proved::quic_packets::packet::{PacketDecodeError, PartialDecode, ProtectedHeader};
use crate::tested::quic_bench::parsers::NoIds;

// Why no packet begins here; no text if one does.
fn refusal(datagram: &[u8], grease: bool) -> Option<&'static str> {
    let bytes = BytesMut::from(datagram);
    match PartialDecode::new(bytes, &NoIds, &[1], grease) {
        Ok((_packet, _rest)) => None,
        Err(PacketDecodeError::InvalidHeader(text)) => Some(text),
        Err(_) => Some("another refusal"),
    }
}

// Every prefix of a version negotiation without ids, and why it isn't one, if the fixed bit may be clear.
const BEGINNINGS: &[(&[u8], Option<&str>)] = &[
    (b"", Some("unexpected end of packet")),
    (b"\x80", Some("unexpected end of packet")),
    (b"\x80\0", Some("unexpected end of packet")),
    (b"\x80\0\0", Some("unexpected end of packet")),
    (b"\x80\0\0\0", Some("unexpected end of packet")),
    (b"\x80\0\0\0\0", Some("malformed cid")),
    (b"\x80\0\0\0\0\0", Some("malformed cid")),
    (b"\x80\0\0\0\0\0\0", None),
];

#[test]
fn beginnings_where_the_fixed_bit_may_be_clear() {
    for &(begun, text) in BEGINNINGS {
        assert_eq!(refusal(begun, true), text, "at {}", begun.len());
    }
}

// The first byte is enough.
#[test]
fn beginnings_where_the_fixed_bit_is_fixed() {
    for &(begun, _) in BEGINNINGS {
        let text = if begun.is_empty() { "unexpected end of packet" } else { "fixed bit unset" };
        assert_eq!(refusal(begun, false), Some(text), "at {}", begun.len());
    }
}

// Whether the header is one of a version negotiation with these random bits and ids.
fn is_negotiation(head: &ProtectedHeader, bits: u8, dst: &[u8], src: &[u8]) -> bool {
    let ProtectedHeader::VersionNegotiate { random, dst_cid, src_cid } = head else {
        return false;
    };
    *random == bits && dst_cid.as_slice() == dst && src_cid.as_slice() == src
}

// Whether all of the datagram is such a packet.
fn is_read(row: &Row) -> bool {
    let &(datagram, grease, bits, dst, src) = row;
    let bytes = BytesMut::from(datagram);
    let Ok((packet, rest)) = PartialDecode::new(bytes, &NoIds, &[1], grease) else {
        return false;
    };
    is_negotiation(packet.header(), bits, dst, src)
        && packet.len() == datagram.len()
        && packet.space().is_none()
        && packet.has_long_header()
        && rest.is_none()
}

// A datagram, whether the fixed bit may be clear, the random bits, and the receiver's and the sender's id.
type Row = (&'static [u8], bool, u8, &'static [u8], &'static [u8]);

const ROWS: &[Row] = &[
    (b"\x80\0\0\0\0\0\0", true, 0x00, b"", b""),
    (b"\xbf\0\0\0\0\x01\xaa\0", true, 0x3f, b"\xaa", b""),
    (b"\xc0\0\0\0\0\0\x01\xbb", false, 0x40, b"", b"\xbb"),
    (b"\xff\0\0\0\0\x01\xaa\x01\xbb\0\0\0\x01", false, 0x7f, b"\xaa", b"\xbb"),
];

// All bits of the first byte except the highest are random, also the fixed bit.
#[test]
fn random_bits() {
    for row in ROWS {
        assert!(is_read(row), "at {row:?}");
    }
}
