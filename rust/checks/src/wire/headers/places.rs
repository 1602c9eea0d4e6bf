//! Offsets that `read_header` finds in the bytes of worked lines.
use crate::proved::quic_header_decode::places::{HeaderKind, ReadError, read_header};

const VERSIONS: &[u32] = &[1, 0x6b33_43cf];

// How many bytes ids of short headers have; a datagram; and the kind, the ids, the version, the token's byte range and
// the end of its first packet.
type Row = (usize, &'static [u8], HeaderKind, &'static [u8], &'static [u8], u32, (usize, usize), usize);

const ROWS: &[Row] = &[
    (
        0,
        b"\xc0\0\0\0\x01\x08\x06\xb8\x58\xec\x6f\x80\x45\x2b\0\x02\xaa\xbb\x40\x03\x01\x02\x03\x41",
        HeaderKind::Initial,
        b"\x06\xb8\x58\xec\x6f\x80\x45\x2b",
        b"",
        1,
        (16, 18),
        23,
    ),
    (0, b"\xe0\0\0\0\x01\0\0\x02\xaa\xbb\x41", HeaderKind::Handshake, b"", b"", 1, (0, 0), 10),
    (0, b"\xf0\0\0\0\x01\x01\xaa\0\xff\xff", HeaderKind::Retry, b"\xaa", b"", 1, (0, 0), 10),
    (0, b"\xc0\0\0\0\0\x01\xaa\x01\xbb\0\0\0\x01", HeaderKind::VersionNegotiate, b"\xaa", b"\xbb", 0, (0, 0), 13),
    (0, b"\xe0\x6b\x33\x43\xcf\0\0\x02\xaa\xbb", HeaderKind::ZeroRtt, b"", b"", 0x6b33_43cf, (0, 0), 10),
    (0, b"\xc0\x6b\x33\x43\xcf\0\0\xff\xff", HeaderKind::Retry, b"", b"", 0x6b33_43cf, (0, 0), 9),
    (0, b"\xd0\x6b\x33\x43\xcf\0\0\0\x40\x01\xff", HeaderKind::Initial, b"", b"", 0x6b33_43cf, (8, 8), 11),
    (1, b"\x40\x05", HeaderKind::Short, b"\x05", b"", 0, (0, 0), 2),
];

#[test]
fn places() {
    for (id_len, datagram, kind, dst, src, version, token, end) in ROWS {
        if *id_len > 20 {
            continue;
        }
        match read_header(datagram, *id_len, VERSIONS) {
            Ok(found) => {
                assert_eq!(found.kind, *kind, "at {}", datagram.len());
                let start = if *kind == HeaderKind::Short { 1 } else { 6 };
                let dst_cid = datagram.get(start..start + found.dst_len);
                assert_eq!(dst_cid, Some(*dst), "at {}", datagram.len());
                let behind = 7 + found.dst_len;
                let src_cid =
                    if *kind == HeaderKind::Short { Some(*src) } else { datagram.get(behind..behind + found.src_len) };
                assert_eq!(src_cid, Some(*src), "at {}", datagram.len());
                assert_eq!(found.version, *version, "at {}", datagram.len());
                let place = (found.token.start, found.token.end);
                assert_eq!(place, *token, "at {}", datagram.len());
                assert_eq!(found.packet_end(datagram.len()), Some(*end), "at {}", datagram.len());
            }
            Err(error) => panic!("{datagram:02x?}: {error:?}"),
        }
    }
}

// Packets whose bytes end before they do.
const CUT_OFF: &[&[u8]] = &[b"\xe0\0\0\0\x01\0\0\x02\xaa", b"\xe0\0\0\0\x01\0\0\xff\xff\xff\xff\xff\xff\xff\xff"];

#[test]
fn cut_off() {
    for datagram in CUT_OFF {
        match read_header(datagram, 0, VERSIONS) {
            Ok(found) => assert_eq!(found.packet_end(datagram.len()), None, "at {}", datagram.len()),
            Err(error) => panic!("{datagram:02x?}: {error:?}"),
        }
    }
}

// How many bytes ids of short headers have, bytes that then don't begin with a header, and why.
const REFUSED: &[(usize, &[u8], ReadError)] = &[
    (0, b"\xc0\0\0\0\x01\0\0\x05\x01", ReadError::TokenOutOfBounds),
    (0, b"\xc0\0\0\0\x01\0\0\xff\xff\xff\xff\xff\xff\xff\xff", ReadError::TokenOutOfBounds),
    (0, b"\xc0\0\0\0\x01\0\0", ReadError::UnexpectedEnd),
    (0, b"\xc0\0\0", ReadError::UnexpectedEnd),
    (0, b"", ReadError::UnexpectedEnd),
    (0, b"\xc0\0\0\0\x01\x15", ReadError::MalformedCid),
    (
        0,
        b"\xc0\0\0\0\x01\x15\0\x01\x02\x03\x04\x05\x06\x07\x08\x09\x0a\x0b\x0c\x0d\x0e\x0f\x10\x11\x12\x13\x14\0\0\0",
        ReadError::MalformedCid,
    ),
    (
        0,
        b"\xc0\0\0\0\x0a\x15\0\x01\x02\x03\x04\x05\x06\x07\x08\x09\x0a\x0b\x0c\x0d\x0e\x0f\x10\x11\x12\x13\x14\x01\xbb",
        ReadError::UnsupportedVersion { version: 10, dst_len: 21, src_len: 1 },
    ),
    (0, b"\x80\0\0\0\x0a\0\0", ReadError::UnsupportedVersion { version: 10, dst_len: 0, src_len: 0 }),
    (1, b"\x40", ReadError::SmallPacket),
];

#[test]
fn refusals() {
    for (id_len, datagram, wanted) in REFUSED {
        if *id_len > 20 {
            continue;
        }
        let found = read_header(datagram, *id_len, VERSIONS);
        assert_eq!(found, Err(*wanted), "at {}", datagram.len());
    }
}
