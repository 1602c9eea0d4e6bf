//! Variable-length integers and fixed numbers: rows, single calls and conversions.
use crate::host::prelude::*;
use crate::proved::quic_base::coding::{BufExt, BufMutExt, UnexpectedEnd, get_array, store_array};
use crate::proved::quic_base::varint::{VarInt, VarIntBoundsExceeded};
use crate::wire::base::shared::{is_written, read};
use std::net::{Ipv4Addr, Ipv6Addr};

// Worked rows: each number with its shortest encoding.
const SHORTEST: &[(u64, &[u8])] = &[
    (63, b"\x3f"),
    (64, b"\x40\x40"),
    (16383, b"\x7f\xff"),
    (16384, b"\x80\x00\x40\x00"),
    (1 << 30, b"\xc0\x00\x00\x00\x40\x00\x00\x00"),
    ((1 << 62) - 1, b"\xff\xff\xff\xff\xff\xff\xff\xff"),
];

fn is_got(bytes: &[u8], n: u64) -> bool {
    let mut left = bytes;
    left.get_var() == Ok(n) && left.is_empty()
}

fn is_encoded(n: u64, bytes: &[u8]) -> bool {
    let Some(number) = VarInt::from_u64(n).ok() else {
        return false;
    };
    is_written(number, bytes) && number.size() == bytes.len() && is_got(bytes, n)
}

#[test]
fn shortest_encodings() {
    for &(n, bytes) in SHORTEST {
        assert!(is_encoded(n, bytes), "at {n}");
    }
}

// Worked rows: encodings that aren't the shortest, and others.
const WIDTHS: &[(&[u8], u64)] = &[
    (b"\x25", 37),
    (b"\x40\x25", 37),
    (b"\x7b\xbd", 15293),
    (b"\x9d\x7f\x3e\x7d", 494878333),
    (b"\xc2\x19\x7c\x5e\xff\x14\xe8\x8c", 151288809941952652),
];

fn is_read(bytes: &[u8], n: u64) -> bool {
    let Some(number) = VarInt::from_u64(n).ok() else {
        return false;
    };
    read::<VarInt>(bytes) == (Ok(number), 0)
}

#[test]
fn every_width_is_read() {
    for &(bytes, n) in WIDTHS {
        assert!(is_read(bytes, n), "at {n}");
    }
}

#[test]
fn refused_numbers() {
    let cut = b"\x80\xff\xff".as_slice();
    assert_eq!(read::<VarInt>(cut), (Err(UnexpectedEnd), 2));
    assert_eq!(read::<u32>(cut), (Err(UnexpectedEnd), 3));
    assert_eq!(VarInt::from_u64(1 << 62), Err(VarIntBoundsExceeded));
    assert_eq!(VarInt::try_from(1u64 << 62), Err(VarIntBoundsExceeded));
    assert_eq!(VarInt::try_from(usize::MAX).is_err(), usize::MAX as u64 >= 1 << 62);
    assert_eq!(VarInt::try_from(1u128 << 64), Err(VarIntBoundsExceeded));
}

fn varints_have_their_numbers() -> bool {
    VarInt::MAX.into_inner() == 4611686018427387903
        && VarInt::MAX_SIZE == 8
        && VarInt::default().into_inner() == 0
        && VarInt::from_u32(42).into_inner() == 42
        && VarInt::from_u64_unchecked(42).into_inner() == 42
        && u64::from(VarInt::from_u32(42)) == 42
        && VarInt::from_u32(41) < VarInt::from_u32(42)
}

fn is_made_of_42(number: VarInt) -> bool {
    VarInt::from(42u8) == number
        && VarInt::from(42u16) == number
        && VarInt::from(42u32) == number
        && VarInt::try_from(42u64) == Ok(number)
        && VarInt::try_from(42u128) == Ok(number)
        && VarInt::try_from(42usize) == Ok(number)
}

fn is_var_written(out: &mut Vec<u8>) -> bool {
    out.write_var(15293).is_ok() && out.as_slice() == b"\x7b\xbd".as_slice()
}

#[test]
fn conversions_of_varints() {
    assert!(varints_have_their_numbers());
    assert!(is_made_of_42(VarInt::from_u32(42)));
    assert!(is_var_written(&mut Vec::new()));
}

const EIGHT: &[u8] = b"\x01\x02\x03\x04\x05\x06\x07\x08";

fn numbers_are_written() -> bool {
    is_written(0x01u8, b"\x01")
        && is_written(0x0102u16, b"\x01\x02")
        && is_written(0x01020304u32, b"\x01\x02\x03\x04")
        && is_written(0x0102030405060708u64, EIGHT)
}

fn numbers_are_read() -> bool {
    read::<u8>(EIGHT) == (Ok(0x01), 7)
        && read::<u16>(EIGHT) == (Ok(0x0102), 6)
        && read::<u32>(EIGHT) == (Ok(0x01020304), 4)
        && read::<u64>(EIGHT) == (Ok(0x0102030405060708), 0)
}

fn an_array_is_taken() -> bool {
    let mut left = EIGHT;
    get_array::<&[u8], 3>(&mut left) == Ok([1, 2, 3]) && left.len() == 5
}

fn an_array_is_stored() -> bool {
    let mut stored = [0x0f; 4];
    store_array(&mut stored, 1, [7, 8]) == 3 && stored.starts_with(b"\x0f\x07\x08")
}

fn is_read_as(address: Ipv4Addr, bytes: &[u8]) -> bool {
    read::<Ipv4Addr>(bytes) == (Ok(address), 0) && read::<Ipv4Addr>(b"\x7f\x00\x00") == (Err(UnexpectedEnd), 3)
}

fn is_read_as_v6(address: Ipv6Addr, bytes: &[u8]) -> bool {
    let Some((_, cut)) = bytes.split_first() else {
        return false;
    };
    read::<Ipv6Addr>(bytes) == (Ok(address), 0) && read::<Ipv6Addr>(cut) == (Err(UnexpectedEnd), 15)
}

#[test]
fn fixed_numbers() {
    assert!(numbers_are_written());
    assert!(numbers_are_read());
    assert!(an_array_is_taken());
    assert!(an_array_is_stored());
    let v4 = b"\x7f\x00\x00\x01";
    assert!(is_written(Ipv4Addr::LOCALHOST, v4));
    assert!(is_read_as(Ipv4Addr::LOCALHOST, v4));
    let v6 = b"\x20\x01\x0d\xb8\0\0\0\0\0\0\0\0\0\0\x12\x34";
    let address = Ipv6Addr::new(0x2001, 0xdb8, 0, 0, 0, 0, 0, 0x1234);
    assert!(is_written(address, v6));
    assert!(is_read_as_v6(address, v6));
}
