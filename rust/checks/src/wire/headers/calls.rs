//! Each public call once; no allocation fails.
use crate::host::bytes::{Buf, BytesMut};
use crate::host::prelude::*;
use crate::host::test::Fail;
use crate::proved::quic_base::coding::Cursor;
use crate::proved::quic_base::ids::{ConnectionId, SpaceId};
use crate::proved::quic_packets::packet::{
    FIXED_BIT, LONG_HEADER_FORM, LongHeaderType, LongType, PartialDecode, ProtectedHeader, SPIN_BIT, VERSION_2,
};
use crate::tested::quic_bench::parsers::NoIds;

const INITIAL: &[u8] =
    b"\xc0\x00\x00\x00\x01\x08\x06\xb8\x58\xec\x6f\x80\x45\x2b\x00\x02\xaa\xbb\x40\x03\x01\x02\x03\x61";

#[test]
fn a_cursor() {
    let mut cursor = Cursor::new(BytesMut::from(b"\x01\x02\x03\x04".as_slice()));
    assert_eq!((cursor.position(), cursor.remaining()), (0, 4));
    cursor.advance(1);
    assert_eq!(cursor.rest(), b"\x02\x03\x04".as_slice());
    assert_eq!(cursor.get_u16(), 0x0203);
    assert_eq!((cursor.position(), cursor.remaining()), (3, 1));
    assert_eq!(cursor.get_ref().len(), 4);
    assert_eq!(cursor.chunk(), b"\x04".as_slice());
    let bytes = cursor.into_inner();
    assert_eq!(bytes.as_slice(), b"\x01\x02\x03\x04".as_slice());
}

#[test]
fn a_header() -> Result<(), Fail> {
    let mut cursor = Cursor::new(BytesMut::from(INITIAL));
    let Ok(head) = ProtectedHeader::decode(&mut cursor, &NoIds, &[1], false) else {
        return Err(Fail::new("another answer"));
    };
    assert_eq!(cursor.position(), 20);
    assert_eq!(*head.dst_cid(), ConnectionId::proved_new(&INITIAL[6..14]));
    let ProtectedHeader::Initial(initial) = head else {
        return Err(Fail::new("another answer"));
    };
    assert_eq!((initial.token_pos.start, initial.token_pos.end), (16, 18));
    assert_eq!((initial.len, initial.version), (3, 1));
    assert_eq!(initial.src_cid, ConnectionId::proved_new(&[]));
    Ok(())
}

#[test]
fn a_cut() -> Result<(), Fail> {
    let bytes = BytesMut::from(INITIAL);
    let Ok(cut) = PartialDecode::new(bytes, &NoIds, &[1], false) else {
        return Err(Fail::new("another answer"));
    };
    let (packet, rest) = cut;
    let Some(rest) = rest else {
        return Err(Fail::new("no rest"));
    };
    assert_eq!(packet.len(), 23);
    assert_eq!(packet.data(), &INITIAL[..23]);
    assert_eq!(rest.as_slice(), b"\x61".as_slice());
    assert_eq!(packet.space(), Some(SpaceId::Initial));
    assert!(packet.has_long_header());
    assert!(packet.is_initial());
    assert!(!packet.is_0rtt());
    assert!(packet.initial_header().is_some());
    assert!(matches!(packet.header(), ProtectedHeader::Initial(_)));
    let Ok(cut) = PartialDecode::new(rest, &NoIds, &[1], false) else {
        return Err(Fail::new("another answer"));
    };
    let (packet, rest) = cut;
    assert!(rest.is_none());
    assert_eq!(packet.space(), Some(SpaceId::Data));
    assert!(!packet.has_long_header());
    assert!(!packet.is_initial());
    assert!(packet.initial_header().is_none());
    assert!(matches!(packet.header(), ProtectedHeader::Short { spin: true, .. }));
    Ok(())
}

// A type, and the first byte of its headers in versions 1 and 2.
const TYPES: &[(LongHeaderType, u8, u8)] = &[
    (LongHeaderType::Initial, 0xc0, 0xd0),
    (LongHeaderType::Standard(LongType::ZeroRtt), 0xd0, 0xe0),
    (LongHeaderType::Standard(LongType::Handshake), 0xe0, 0xf0),
    (LongHeaderType::Retry, 0xf0, 0xc0),
];

#[test]
fn types_of_long_headers() {
    for (ty, first, second) in TYPES {
        assert_eq!(ty.byte(1), *first, "at {}", *first);
        assert_eq!(ty.byte(0xff00_001d), *first, "at {}", *first);
        assert_eq!(ty.byte(VERSION_2), *second, "at {}", *first);
        assert_eq!(u8::from(*ty), *first, "at {}", *first);
        assert_eq!(LongHeaderType::from_byte(*first + 3, 1), *ty, "at {}", *first);
        assert_eq!(LongHeaderType::from_byte(*second, VERSION_2), *ty, "at {}", *first);
    }
    assert_eq!((LONG_HEADER_FORM, FIXED_BIT, SPIN_BIT), (0x80, 0x40, 0x20));
    assert_eq!(VERSION_2, 0x6b33_43cf);
}
