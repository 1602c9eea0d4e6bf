//! Packet numbers of the worked rows.
use crate::host::prelude::*;
use crate::proved::quic_base::coding::NoRoom;
use crate::proved::quic_packets::packet::PacketNumber;

// A number, the one that is acknowledged, and the bytes of the shortest packet number.
const SHORTEST: &[(u64, u64, &[u8])] = &[
    (127, 0, b"\x7f"),
    (128, 0, b"\x00\x80"),
    (0x8000, 0, b"\x00\x80\x00"),
    (0x80_0000, 0, b"\x00\x80\x00\x00"),
    (0x7fff_ffff, 0, b"\x7f\xff\xff\xff"),
    (0x10, 0, b"\x10"),
    (0x100, 0, b"\x01\x00"),
    (0x1_0000, 0, b"\x01\x00\x00"),
    (0x100_0005, 0xff_0000, b"\x00\x00\x05"),
];

fn shortest(n: u64, acked: u64) -> Option<PacketNumber> {
    if n < acked || n - acked >= 1 << 31 {
        return None;
    }
    Some(PacketNumber::proved_new(n, acked))
}

fn is_written(out: &mut Vec<u8>, number: PacketNumber, bytes: &[u8]) -> bool {
    number.encode(out).is_ok() && out.as_slice() == bytes
}

fn is_read(number: PacketNumber, bytes: &[u8]) -> bool {
    let mut rest = bytes;
    PacketNumber::proved_decode(number.len(), &mut rest) == Ok(number) && rest.is_empty()
}

// Whether nothing is read from one byte less, and these bytes are left.
fn is_refused_of_less(number: PacketNumber, bytes: &[u8]) -> bool {
    let Some((_, few)) = bytes.split_first() else {
        return false;
    };
    let mut rest = few;
    PacketNumber::proved_decode(number.len(), &mut rest).is_err() && rest == few
}

fn is_written_and_read(out: &mut Vec<u8>, number: PacketNumber, bytes: &[u8]) -> bool {
    is_written(out, number, bytes) && is_read(number, bytes) && is_refused_of_less(number, bytes)
}

fn shortest_is(out: &mut Vec<u8>, n: u64, acked: u64, bytes: &[u8]) -> bool {
    let Some(number) = shortest(n, acked) else {
        return false;
    };
    is_written_and_read(out, number, bytes)
}

// The shortest number for this one, when that one is acknowledged, is written as these bytes and read back.
#[test]
fn written_and_read() {
    for &(n, acked, bytes) in SHORTEST {
        let out = &mut Vec::new();
        assert!(shortest_is(out, n, acked, bytes), "at {n}");
    }
}

// Numbers in more bytes than they need.
#[test]
fn wide_numbers_written_and_read() {
    let two = PacketNumber::U16(0x80);
    let four = PacketNumber::U32(0x4000);
    assert!(is_written_and_read(&mut Vec::new(), two, b"\x00\x80"));
    assert!(is_written_and_read(&mut Vec::new(), four, b"\x00\x00\x40\x00"));
}

// A truncated number means another whole number for another expected number.
#[test]
fn expanded() {
    assert_eq!(PacketNumber::U8(0xff).expand(0), 255);
    assert_eq!(PacketNumber::U8(0xff).expand(256), 255);
    assert_eq!(PacketNumber::U8(0xff).expand(383), 511);
    assert_eq!(PacketNumber::U8(0).expand(128), 256);
    assert_eq!(PacketNumber::U16(0x9b32).expand(0xa82f_30eb), 0xa82f_9b32);
    assert_eq!(PacketNumber::U24(5).expand(0x100_0005), 0x100_0005);
}

// Whether nothing is written if there is room for one byte less.
fn is_refused_where_full(n: u64, acked: u64) -> bool {
    let Some(number) = shortest(n, acked) else {
        return false;
    };
    let mut limited = Vec::new().limit(number.len().saturating_sub(1));
    let answer = number.encode(&mut limited);
    let out = limited.into_inner();
    answer == Err(NoRoom) && out.is_empty()
}

#[test]
fn refused_for_want_of_room() {
    for &(n, acked, _) in SHORTEST {
        assert!(is_refused_where_full(n, acked), "at {n}");
    }
}

// First bytes of headers, and how many bytes a packet number has then: one more than their lowest two bits.
const LENGTHS: &[(u8, usize)] =
    &[(0x00, 1), (0x01, 2), (0x02, 3), (0x03, 4), (0xc0, 1), (0x45, 2), (0xfe, 3), (0xff, 4)];

#[test]
fn lengths_by_the_first_byte() {
    for &(first, len) in LENGTHS {
        assert_eq!(PacketNumber::decode_len(first), len, "at {first}");
    }
}
