//! Spans of values of vectors/tables/params.txt (RFC 9000, section 18.2), and what is at fault in others.
use crate::proved::quic_fields::field::Span;
use crate::proved::quic_param_fields::value::{Reason, value_spans};

// A field: its index, where it begins and ends, and its number.
type Field = (usize, usize, usize, u64);

const NOWHERE: Span = Span { field: 0, start: 0, end: 0, number: 0 };

const ADDRESS: u64 = 0x0d;

// The number of a parameter, its value, and the fields of that.
const ROWS: &[(u64, &[u8], &[Field])] = &[
    (0x01, b"\x80\0\x75\x30", &[(0, 0, 4, 30000)]),
    (0x03, b"\x44\xb0", &[(0, 0, 2, 1200)]),
    (
        0x08,
        b"\xd0\0\0\0\0\0\0\0",
        &[(0, 0, 8, 0x1000_0000_0000_0000)],
    ),
    (0x0a, b"\x14", &[(0, 0, 1, 20)]),
    (0x0b, b"\x7f\xff", &[(0, 0, 2, 16383)]),
    (0x0e, b"\x02", &[(0, 0, 1, 2)]),
    // any width, and no bound without max_ack_delay
    (0x20, b"\x40\x0a", &[(0, 0, 2, 10)]),
    (
        0xff04_de1b,
        b"\xff\xff\xff\xff\xff\xff\xff\xff",
        &[(0, 0, 8, 0x3fff_ffff_ffff_ffff)],
    ),
    (0x0c, b"", &[]),
    (0x2ab2, b"", &[]),
    (0x02, b"0123456789abcdef", &[(0, 0, 16, 16)]),
    (0x00, b"\x83\x94\xc8\xf0", &[(0, 0, 4, 4)]),
    (0x10, b"", &[(0, 0, 0, 0)]),
    (0x0f, b"0123456789abcdef0123", &[(0, 0, 20, 20)]),
    // preferred.both and preferred.v6
    (
        ADDRESS,
        b"\xc0\0\x02\x01\x01\xbb\x20\x01\x0d\xb8\0\0\0\0\0\0\0\0\0\0\0\x01\x20\xfb\x08\xc0\xc1\xc2\xc3\xc4\xc5\xc6\xc70123456789abcdef",
        &[
            (0, 0, 4, 4),
            (1, 4, 6, 443),
            (2, 6, 22, 16),
            (3, 22, 24, 8443),
            (4, 24, 33, 8),
            (5, 33, 49, 16),
        ],
    ),
    (
        ADDRESS,
        b"\0\0\0\0\0\0\x20\x01\x0d\xb8\0\0\0\0\0\0\0\0\0\0\0\x01\x20\xfb\x01\xc00123456789abcdef",
        &[
            (0, 0, 4, 4),
            (1, 4, 6, 0),
            (2, 6, 22, 16),
            (3, 22, 24, 8443),
            (4, 24, 26, 1),
            (5, 26, 42, 16),
        ],
    ),
    // reserved and unknown
    (0x1b, b"\x01\x02\x03\x04", &[(0, 0, 4, 4)]),
    (0x3f, b"", &[(0, 0, 0, 0)]),
];

#[test]
fn spans() {
    for (id, value, fields) in ROWS {
        let mut room = [NOWHERE; 6];
        let walked = value_spans(*id, value, false, &mut room);
        assert_eq!(walked.fault, None, "at {}", *id as usize);
        assert_eq!(walked.count, fields.len(), "at {}", *id as usize);
        assert_eq!(walked.end, value.len(), "at {}", *id as usize);
        for ((field, start, end, number), span) in fields.iter().zip(room.iter()) {
            assert_eq!(span.field, *field, "at {}", *id as usize);
            assert_eq!(span.start, *start, "at {}", *id as usize);
            assert_eq!(span.end, *end, "at {}", *id as usize);
            assert_eq!(span.number, *number, "at {}", *id as usize);
        }
    }
}

// The number of a parameter, and bytes that are no value of it; the index of the field at fault, where it begins, how
// many of its bytes come before those at fault, and why.
const REFUSED: &[(u64, &[u8], usize, usize, usize, Reason)] = &[
    (0x01, b"", 0, 0, 0, Reason::UnexpectedEnd),
    (0x01, b"\x40", 0, 0, 0, Reason::UnexpectedEnd),
    (0x01, b"\x0a\0", 1, 1, 0, Reason::BytesLeft),
    (0x01, b"\x40\x0a", 0, 0, 0, Reason::LongNumber),
    (0x03, b"\x44\xaf", 0, 0, 0, Reason::OutOfRange),
    (0x09, b"\xd0\0\0\0\0\0\0\x01", 0, 0, 0, Reason::OutOfRange),
    (0x0a, b"\x15", 0, 0, 0, Reason::OutOfRange),
    (0x0b, b"\x80\0\x40\0", 0, 0, 0, Reason::OutOfRange),
    (0x0e, b"\x01", 0, 0, 0, Reason::OutOfRange),
    // the list is malformed whatever the number is
    (0x0e, b"\x01\0", 1, 1, 0, Reason::BytesLeft),
    (0x0c, b"\0", 0, 0, 0, Reason::BytesLeft),
    (0x02, b"0123456789abcde", 0, 0, 0, Reason::UnexpectedEnd),
    (0x02, b"0123456789abcdefg", 1, 16, 0, Reason::BytesLeft),
    (0x00, b"0123456789abcdef01234", 0, 0, 0, Reason::LongId),
    // preferred.cut-address, .cut-cid, .cid-21, .cut-token, .trailing, .none, .cid-empty
    (ADDRESS, b"\xc0\0\x02\x01\x01\xbb\0\0\0\0\0\0\0\0\0\0", 2, 6, 0, Reason::UnexpectedEnd),
    (ADDRESS, b"\xc0\0\x02\x01\x01\xbb\0\0\0\0\0\0\0\0\0\0\0\0\0\0\0\0\0\0\x08\xc0", 4, 24, 1, Reason::UnexpectedEnd),
    (
        ADDRESS,
        b"\xc0\0\x02\x01\x01\xbb\0\0\0\0\0\0\0\0\0\0\0\0\0\0\0\0\0\0\x150123456789abcdef01234",
        4,
        24,
        0,
        Reason::LongId,
    ),
    (
        ADDRESS,
        b"\xc0\0\x02\x01\x01\xbb\0\0\0\0\0\0\0\0\0\0\0\0\0\0\0\0\0\0\x01\xc00123456789abcde",
        5,
        26,
        0,
        Reason::UnexpectedEnd,
    ),
    (
        ADDRESS,
        b"\xc0\0\x02\x01\x01\xbb\0\0\0\0\0\0\0\0\0\0\0\0\0\0\0\0\0\0\x01\xc00123456789abcdefg",
        6,
        42,
        0,
        Reason::BytesLeft,
    ),
    (ADDRESS, b"\0\0\0\0\0\0\0\0\0\0\0\0\0\0\0\0\0\0\0\0\0\0\0\0\x01\xc00123456789abcdef", 2, 6, 0, Reason::NoAddress),
    (
        ADDRESS,
        b"\xc0\0\x02\x01\x01\xbb\0\0\0\0\0\0\0\0\0\0\0\0\0\0\0\0\0\0\x000123456789abcdef",
        4,
        24,
        0,
        Reason::EmptyId,
    ),
];

#[test]
fn refused() {
    for (id, value, count, end, inside, reason) in REFUSED {
        let mut room = [NOWHERE; 6];
        let walked = value_spans(*id, value, false, &mut room);
        assert_eq!(walked.fault, Some(*reason), "at {}", *id as usize);
        assert_eq!(walked.count, *count, "at {}", *id as usize);
        assert_eq!(walked.end, *end, "at {}", *id as usize);
        assert_eq!(walked.inside, *inside, "at {}", *id as usize);
    }
    let walked = value_spans(0x01, b"\x40\x0a", true, &mut []);
    assert_eq!(walked.fault, None, "at 1");
}
