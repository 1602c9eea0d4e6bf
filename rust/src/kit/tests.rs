//! What the shim promises: each call does what its name says, and one that fails leaves everything as it was.
use crate::kit::alloc::AllocError;
use crate::kit::bytes::{BufMut, Bytes, BytesMut};
use crate::kit::prelude::*;
use crate::kit::smallvec::SmallVec;
use alloc::format;
use alloc::string::ToString;
use alloc::vec;
use core::net::{Ipv4Addr, Ipv6Addr};

#[test]
fn a_full_slice_refuses_whole_writes() {
    let mut room = [0xff; 4];
    let mut rest = room.as_mut_slice();
    assert_eq!(rest.put_u16(0x0102), Ok(()), "two bytes in four");
    assert_eq!(rest.kit_make_room(2), Ok(()), "room for two");
    assert_eq!(rest.kit_make_room(3), Err(AllocError), "no room for three");
    assert_eq!(rest.put_slice(&[7, 8, 9]), Err(AllocError), "three bytes in two");
    assert_eq!(rest.put_u32(1), Err(AllocError), "four bytes in two");
    assert_eq!(rest.len(), 2, "what is left");
    assert_eq!(rest.put_u8(5), Ok(()), "one byte in two");
    assert_eq!(room, [1, 2, 5, 0xff], "the slice");
}

#[test]
fn numbers_are_written_with_the_highest_byte_first() {
    let mut out = Vec::new();
    let written = [
        out.put_u8(0x01),
        out.put_u16(0x0203),
        out.put_u32(0x0405_0607),
        out.put_u64(0x0809_0a0b_0c0d_0e0f),
        out.put_uint(0x0010_1112, 3),
        out.put_uint(0xdead, 0),
        out.put_uint(0x1314_1516_1718_191a, 8),
    ];
    assert_eq!(written, [Ok(()); 7], "the results");
    assert_eq!(out, (0x01..=0x1a).collect::<Vec<u8>>(), "the bytes");
}

#[test]
fn buffers_are_split_and_shared() {
    let mut all = BytesMut::from(&[1, 2, 3, 4, 5, 6][..]);
    let front = all.kit_split_to(2).expect("the front");
    let shared = all.freeze_to(3).expect("a part that is shared");
    all.as_mut_slice()[0] = 9;
    assert_eq!((front.as_slice(), shared.as_slice(), all.as_slice()), (&[1, 2][..], &[3, 4, 5][..], &[9][..]));
    let part = shared.kit_slice(1..).expect("a part");
    let copy: Bytes = part.kit_clone().expect("a copy");
    assert_eq!((part.as_slice(), copy.as_slice()), (&[4, 5][..], &[4, 5][..]));
}

#[test]
fn a_vector_that_cannot_grow_is_as_it_was() {
    let mut numbers = vec![1_u64, 2];
    assert_eq!(numbers.kit_reserve(usize::MAX), Err(AllocError), "more than there can be");
    assert_eq!(numbers.kit_resize(usize::MAX, 0), Err(AllocError), "as many as there can't be");
    assert_eq!(Vec::<u64>::kit_with_capacity(usize::MAX), Err(AllocError), "a vector with as many");
    assert_eq!(numbers, [1, 2], "the vector");
}

#[test]
fn a_vector_grows() {
    let mut numbers = Vec::kit_with_capacity(3).expect("an empty vector");
    assert!(numbers.is_empty() && numbers.capacity() >= 3, "room for three");
    numbers.push_reserved(1);
    assert_eq!(numbers.kit_push(4), Ok(()), "push");
    assert_eq!(numbers.kit_insert(1, 2), Ok(()), "insert");
    assert_eq!(numbers.kit_insert(3, 5), Ok(()), "insert at the end");
    assert_eq!(numbers.kit_extend_from_slice(&[6, 7]), Ok(()), "extend_from_slice");
    assert_eq!(numbers, [1, 2, 4, 5, 6, 7], "the vector");
    assert_eq!(numbers.kit_resize(2, 9), Ok(()), "resize to fewer");
    assert_eq!(numbers.kit_resize(4, 9), Ok(()), "resize to more");
    assert_eq!(numbers, [1, 2, 9, 9], "the vector after resize");
}

#[test]
fn a_small_vector_is_a_vector() {
    let mut small = SmallVec::<u64, 2>::new();
    assert!(small.is_empty(), "it begins empty");
    for n in [1, 3, 4, 5] {
        assert_eq!(small.kit_push(n), Ok(()), "push {n}");
    }
    assert_eq!(small.kit_insert(1, 2), Ok(()), "insert");
    assert_eq!(format!("{small:?}"), "[1, 2, 3, 4, 5]");
    assert_eq!(small.remove(0), 1, "remove");
    small.drain(1..3);
    small.as_mut_slice()[1] = 6;
    assert_eq!((small.as_slice(), small.len()), (&[2, 6][..], 2), "after drain");
    assert_eq!(small.kit_reserve(usize::MAX), Err(AllocError), "more than there can be");
    assert!(SmallVec::<u64, 2>::with_capacity(usize::MAX).is_err(), "with as many");
    let mut roomy = SmallVec::<u64, 2>::with_capacity(3).expect("a vector with room");
    roomy.push_reserved(7);
    assert_eq!((roomy.as_slice(), small.as_slice()), (&[7][..], &[2, 6][..]), "the vectors");
}

#[test]
fn texts_and_addresses() {
    let text = String::kit_from_str("quic").expect("a string");
    assert_eq!((text.as_str(), text.kit_clone().as_deref()), ("quic", Ok("quic")));
    assert_eq!(AllocError.to_string(), "out of memory");
    assert_eq!(Ipv4Addr::kit_from_octets([192, 0, 2, 1]), Ipv4Addr::new(192, 0, 2, 1));
    let octets = [0x20, 1, 0xd, 0xb8, 0, 0, 0, 0, 0, 0, 0, 0, 0, 0, 0, 1];
    assert_eq!(Ipv6Addr::kit_from_octets(octets), Ipv6Addr::new(0x2001, 0xdb8, 0, 0, 0, 0, 0, 1));
}
