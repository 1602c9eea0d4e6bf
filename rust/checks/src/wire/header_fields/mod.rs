//! Spans of the packets of RFC 9001, section A, and of worked lines.
use crate::proved::quic_fields::field::Span;
use crate::proved::quic_header_decode::places::ReadError;
use crate::proved::quic_header_fields::packet::packet_spans;

const VERSIONS: &[u32] = &[1, 0x6b33_43cf];

// A field: its index, where it begins and ends, and its number.
type Field = (usize, usize, usize, u64);

// How many bytes ids of short headers have; bytes; and the fields that they begin with.
const ROWS: &[(usize, &[u8], &[Field])] = &[
    // the client's first Initial packet (RFC 9001, section A.2)
    (
        0,
        b"\xc0\0\0\0\x01\x08\x83\x94\xc8\xf0\x3e\x51\x57\x08\0\0\x44\x9e\x7b\x9a\xec\x34",
        &[
            (0, 0, 1, 0xc0),
            (1, 1, 5, 1),
            (2, 5, 14, 8),
            (3, 14, 15, 0),
            (4, 15, 15, 0),
            (5, 15, 16, 0),
            (6, 16, 16, 0),
            (7, 16, 18, 1182),
        ],
    ),
    // the server's (section A.3)
    (
        0,
        b"\xcf\0\0\0\x01\0\x08\xf0\x67\xa5\x50\x2a\x42\x62\xb5\0\x40\x75\xc0\xd9",
        &[
            (0, 0, 1, 0xcf),
            (1, 1, 5, 1),
            (2, 5, 6, 0),
            (3, 6, 15, 8),
            (4, 15, 15, 0),
            (5, 15, 16, 0),
            (6, 16, 16, 0),
            (7, 16, 18, 117),
        ],
    ),
    // a Retry (section A.4)
    (
        0,
        b"\xff\0\0\0\x01\0\x08\xf0\x67\xa5\x50\x2a\x42\x62\xb5\x74\x6f\x6b\x65\x6e\x04\xa2\x65\xba\x2e\xff\x4d\x82\x90\x58\xfb\x3f\x0f\x24\x96\xba",
        &[
            (0, 0, 1, 0xff),
            (1, 1, 5, 1),
            (2, 5, 6, 0),
            (3, 6, 15, 8),
            (4, 15, 15, 0),
            (5, 15, 20, 5),
            (6, 20, 36, 16),
        ],
    ),
    // a Retry of version 2 (RFC 9369, section A.3), and one that ends before its tag
    (
        0,
        b"\xcf\x6b\x33\x43\xcf\0\x08\xf0\x67\xa5\x50\x2a\x42\x62\xb5\x74\x6f\x6b\x65\x6e\xc8\x64\x6c\xe8\xbf\xe3\x39\x52\xd9\x55\x54\x36\x65\xdc\xc7\xb6",
        &[
            (0, 0, 1, 0xcf),
            (1, 1, 5, 0x6b33_43cf),
            (2, 5, 6, 0),
            (3, 6, 15, 8),
            (4, 15, 15, 0),
            (5, 15, 20, 5),
            (6, 20, 36, 16),
        ],
    ),
    (
        0,
        b"\xff\0\0\0\x01\0\0\x04\xa2\x65\xba\x2e\xff\x4d\x82\x90\x58\xfb\x3f\x0f\x24\x96",
        &[
            (0, 0, 1, 0xff),
            (1, 1, 5, 1),
            (2, 5, 6, 0),
            (3, 6, 7, 0),
            (4, 7, 7, 0),
        ],
    ),
    // a short header (RFC 9001, section A.5), with ids of no bytes and of four
    (
        0,
        b"\x4c\xfe\x41\x89\x65\x5e\x5c\xd5\x5c\x41\xf6\x90\x80\x57\x5d\x79\x99\xc2\x5a\x5b\xfb",
        &[(0, 0, 1, 0x4c), (1, 1, 1, 0)],
    ),
    (
        4,
        b"\x4c\xfe\x41\x89\x65\x5e",
        &[(0, 0, 1, 0x4c), (1, 1, 5, 4)],
    ),
    // a token of two bytes, with a length in two
    (
        0,
        b"\xc0\0\0\0\x01\x08\x06\xb8\x58\xec\x6f\x80\x45\x2b\0\x02\xaa\xbb\x40\x03\x01\x02\x03\x41",
        &[
            (0, 0, 1, 0xc0),
            (1, 1, 5, 1),
            (2, 5, 14, 8),
            (3, 14, 15, 0),
            (4, 15, 15, 0),
            (5, 15, 16, 2),
            (6, 16, 18, 2),
            (7, 18, 20, 3),
        ],
    ),
    // Handshake, and 0-RTT of version 2
    (
        0,
        b"\xe0\0\0\0\x01\0\0\x02\xaa\xbb",
        &[
            (0, 0, 1, 0xe0),
            (1, 1, 5, 1),
            (2, 5, 6, 0),
            (3, 6, 7, 0),
            (4, 7, 7, 0),
            (5, 7, 8, 2),
        ],
    ),
    (
        0,
        b"\xe0\x6b\x33\x43\xcf\0\x01\xaa\x40\x02\xaa\xbb",
        &[
            (0, 0, 1, 0xe0),
            (1, 1, 5, 0x6b33_43cf),
            (2, 5, 6, 0),
            (3, 6, 8, 1),
            (4, 8, 8, 0),
            (5, 8, 10, 2),
        ],
    ),
    // version negotiations: of two versions, and of one and a half
    (
        0,
        b"\x80\0\0\0\0\x01\xaa\x01\xbb\0\0\0\x01\x6b\x33\x43\xcf",
        &[
            (0, 0, 1, 0x80),
            (1, 1, 5, 0),
            (2, 5, 7, 1),
            (3, 7, 9, 1),
            (4, 9, 17, 2),
        ],
    ),
    (
        0,
        b"\x80\0\0\0\0\x01\xaa\x01\xbb\0\0\0\x01\x6b\x33",
        &[(0, 0, 1, 0x80), (1, 1, 5, 0), (2, 5, 7, 1), (3, 7, 9, 1)],
    ),
];

const NOWHERE: Span = Span { field: 0, start: 0, end: 0, number: 0 };

#[test]
fn spans() {
    for (id_len, bytes, fields) in ROWS {
        if *id_len > 20 {
            continue;
        }
        let mut room = [NOWHERE; 10];
        let walked = packet_spans(bytes, *id_len, VERSIONS, &mut room);
        assert_eq!(walked.fault, None, "at {}", bytes.len());
        assert_eq!(walked.count, fields.len(), "at {}", bytes.len());
        for ((field, start, end, number), span) in fields.iter().zip(room.iter()) {
            assert_eq!(span.field, *field, "at {}", bytes.len());
            assert_eq!(span.start, *start, "at {}", bytes.len());
            assert_eq!(span.end, *end, "at {}", bytes.len());
            assert_eq!(span.number, *number, "at {}", bytes.len());
        }
    }
}

// How many bytes ids of short headers have; bytes; the index of the field at fault, where it begins, how many of its
// bytes come before what is at fault, and why.
const REFUSED: &[(usize, &[u8], usize, usize, usize, ReadError)] = &[
    (0, b"", 0, 0, 0, ReadError::UnexpectedEnd),
    (0, b"\xc0\0\0", 1, 1, 0, ReadError::UnexpectedEnd),
    (0, b"\xc0\0\0\0\x01", 2, 5, 0, ReadError::MalformedCid),
    (0, b"\xc0\0\0\0\x01\x02\x01", 2, 5, 1, ReadError::MalformedCid),
    (0, b"\xc0\0\0\0\x01\x01\xaa", 3, 7, 0, ReadError::MalformedCid),
    // an id of 21 bytes, of a known version, of a version negotiation and of another version
    (
        0,
        b"\xc0\0\0\0\x01\x15\0\x01\x02\x03\x04\x05\x06\x07\x08\x09\x0a\x0b\x0c\x0d\x0e\x0f\x10\x11\x12\x13\x14\0\0\0",
        2,
        5,
        0,
        ReadError::MalformedCid,
    ),
    (
        0,
        b"\xc0\0\0\0\0\0\x15\0\x01\x02\x03\x04\x05\x06\x07\x08\x09\x0a\x0b\x0c\x0d\x0e\x0f\x10\x11\x12\x13\x14\0\0\0",
        3,
        6,
        0,
        ReadError::MalformedCid,
    ),
    (
        0,
        b"\xc0\0\0\0\x0a\x15\0\x01\x02\x03\x04\x05\x06\x07\x08\x09\x0a\x0b\x0c\x0d\x0e\x0f\x10\x11\x12\x13\x14\x01\xbb",
        4,
        29,
        0,
        ReadError::UnsupportedVersion { version: 10, dst_len: 21, src_len: 1 },
    ),
    // the same, without the sender's id
    (
        0,
        b"\xc0\0\0\0\x0a\x15\0\x01\x02\x03\x04\x05\x06\x07\x08\x09\x0a\x0b\x0c\x0d\x0e\x0f\x10\x11\x12\x13\x14\x01",
        3,
        27,
        1,
        ReadError::MalformedCid,
    ),
    (0, b"\xc0\0\0\0\x01\0\0", 5, 7, 0, ReadError::UnexpectedEnd),
    (0, b"\xc0\0\0\0\x01\0\0\x05\x01", 6, 8, 0, ReadError::TokenOutOfBounds),
    (0, b"\xc0\0\0\0\x01\0\0\x01\xaa", 7, 9, 0, ReadError::UnexpectedEnd),
    (0, b"\xe0\0\0\0\x01\0\0\x40", 5, 7, 0, ReadError::UnexpectedEnd),
    (4, b"\x40\x01\x02\x03", 1, 1, 0, ReadError::SmallPacket),
];

#[test]
fn faults() {
    for (id_len, bytes, field, start, inside, reason) in REFUSED {
        if *id_len > 20 {
            continue;
        }
        let mut room = [NOWHERE; 10];
        let walked = packet_spans(bytes, *id_len, VERSIONS, &mut room);
        assert_eq!(walked.fault, Some(*reason), "at {}", bytes.len());
        assert_eq!(walked.count, *field, "at {}", bytes.len());
        assert_eq!(walked.end, *start, "at {}", bytes.len());
        assert_eq!(walked.inside, *inside, "at {}", bytes.len());
        assert_eq!(walked.numbers, *inside as u64, "at {}", bytes.len());
    }
}

// A room of fewer spans is filled, and what doesn't fit is left out.
#[test]
fn small_room() {
    for (_, bytes, fields) in ROWS {
        let mut room = [NOWHERE; 2];
        let walked = packet_spans(bytes, 0, VERSIONS, &mut room);
        assert_eq!(walked.fault, None, "at {}", bytes.len());
        assert_eq!(walked.count, fields.len(), "at {}", bytes.len());
        assert_eq!(room[0].end, 1, "at {}", bytes.len());
        assert_eq!(room[1].start, 1, "at {}", bytes.len());
    }
}
