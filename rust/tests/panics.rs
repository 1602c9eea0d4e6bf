//! The arguments of callers on which calls panic, as the README lists them.
#![cfg(panic = "unwind")]

use bytes::BytesMut;
use quic_wire::coding::{BufMut, Cursor};
use quic_wire::crypto::{CryptoError, HeaderKey, PacketKey, mask_in_place, seal_in_place};
use quic_wire::datagram::{HeaderError, HeaderPlaces, PacketPlace, Packets, PacketsMut};
use quic_wire::levels::LevelKeys;
use quic_wire::packet::{
    DecodeOptions, Expected, FixedLengthConnectionIdParser, Header, Keys, PacketNumber, PartialDecode, PartialEncode,
    SpaceKeys, open_datagram, open_packet,
};
use quic_wire::{ConnectionId, Dir, Side, StreamId};
use std::panic::{AssertUnwindSafe, catch_unwind};

/// Keys with samples and tags of 16 bytes, which change nothing.
struct Key;

impl HeaderKey for Key {
    fn sample_size(&self) -> usize {
        16
    }

    fn encrypt(&self, _: usize, _: &mut [u8]) {}

    fn decrypt(&self, _: usize, _: &mut [u8]) {}
}

impl PacketKey for Key {
    fn tag_len(&self) -> usize {
        16
    }

    fn encrypt(&self, _: u64, _: &mut [u8], _: usize) {}

    fn decrypt(&self, _: u64, _: &[u8], _: &mut BytesMut) -> Result<(), CryptoError> {
        Ok(())
    }
}

fn key() -> Keys<Key, Key> {
    Keys { header: Key, packet: Key }
}

fn panics(mut call: impl FnMut()) -> bool {
    catch_unwind(AssertUnwindSafe(&mut call)).is_err()
}

macro_rules! panic_on {
    ($($call:expr;)*) => {
        $(assert!(panics(|| _ = $call), "{}", stringify!($call));)*
    };
}

macro_rules! is_fine {
    ($($call:expr;)*) => {
        $(assert!(!panics(|| _ = $call), "{}", stringify!($call));)*
    };
}

#[test]
fn of_ids() {
    is_fine! {
        ConnectionId::new(&[0; 20]);
        ConnectionId::from_buf(&mut &[0; 20][..], 20);
        StreamId::new(Side::Client, Dir::Bi, (1 << 60) - 1);
        FixedLengthConnectionIdParser::new(20);
    }
    panic_on! {
        ConnectionId::new(&[0; 21]);
        ConnectionId::from_buf(&mut &[0; 30][..], 21);
        ConnectionId::from_buf(&mut &[0; 3][..], 4);
        StreamId::new(Side::Client, Dir::Bi, 1 << 60);
        FixedLengthConnectionIdParser::new(21);
    }
    assert!(ConnectionId::try_from(&[0; 21][..]).is_err());
}

#[test]
fn of_packet_numbers() {
    is_fine! {
        PacketNumber::new((1 << 31) - 1, 0);
        PacketNumber::U24((1 << 24) - 1).expand((1 << 62) - 1);
    }
    panic_on! {
        PacketNumber::new(1 << 31, 0);
        PacketNumber::new(1, 2);
        PacketNumber::U8(0).expand(1 << 62);
        PacketNumber::U24(1 << 24).expand(0);
        PacketNumber::decode(0, &mut &[1; 9][..]);
        PacketNumber::decode(5, &mut &[1; 9][..]);
    }
}

#[test]
fn of_headers() {
    let header = |number| Header::Short { spin: false, key_phase: false, dst_cid: ConnectionId::default(), number };
    let encode = |number| header(number).encode(&mut vec![]);
    is_fine! { encode(PacketNumber::U24((1 << 24) - 1)); }
    panic_on! {
        encode(PacketNumber::U24(1 << 24));
        header(PacketNumber::U24(1 << 24)).encoded_len();
    }
    let partial = |header_len, pn| PartialEncode { start: 0, header_len, pn };
    let finish = |partial: PartialEncode, len| partial.finish(&mut vec![0; len], &Key, Some((1, &Key)));
    is_fine! {
        finish(partial(9, Some((2, true))), 9 + 18);
        finish(partial(9, Some((2, true))), 7 + (1 << 14) - 1);
        finish(partial(9, Some((2, false))), 7 + (1 << 14));
        finish(partial(9, None), 0);
        finish(partial(3, Some((2, false))), 99);
    }
    panic_on! {
        finish(partial(9, Some((2, true))), 9 + 17);
        finish(partial(9, Some((2, true))), 7 + (1 << 14));
        finish(partial(2, Some((2, false))), 99);
        finish(partial(4, Some((2, true))), 99);
        finish(partial(99, Some((2, true))), 98);
        finish(partial(9, Some((9, false))), 99);
        finish(partial(usize::MAX, Some((4, false))), 99);
    }
}

#[test]
fn of_opening() {
    let parser = FixedLengthConnectionIdParser::new(0);
    let packet = || BytesMut::from(&[0x40; 40][..]);
    let keys = SpaceKeys { initial: key(), handshake: key(), app: key() };
    let late = [
        Expected { initial: 1 << 62, ..Expected::default() },
        Expected { handshake: 1 << 62, ..Expected::default() },
        Expected { app: 1 << 62, ..Expected::default() },
    ];
    let options = DecodeOptions { parser: &parser, versions: &[1], grease: false };
    let open = |expected: &Expected| quic_wire::packet::Packets::new(packet()).open_next(&options, &keys, expected);
    let levels = LevelKeys::<Key, Key>::new();
    let by_level =
        |expected: &Expected| quic_wire::packet::Packets::new(packet()).open_next_by_level(&options, &levels, expected);
    is_fine! {
        open(&Expected { app: (1 << 62) - 1, ..Expected::default() });
        by_level(&Expected { app: (1 << 62) - 1, ..Expected::default() });
    }
    for expected in &late {
        panic_on! {
            open(expected);
            by_level(expected);
            open_packet(packet(), &parser, &[1], false, &keys, expected);
            open_datagram(packet(), &parser, &[1], false, &keys, expected, &mut vec![]);
        }
    }
    let cut = |bytes| PartialDecode::new(bytes, &parser, &[1], false).unwrap().0;
    let retry = || BytesMut::from(&[0xf0, 0, 0, 0, 1, 0, 0, 7][..]);
    is_fine! { cut(retry()).finish(None::<&Key>).unwrap(); }
    panic_on! { cut(packet()).finish(None::<&Key>); }
}

#[test]
fn of_ciphers_in_place() {
    let mask = |pn_offset, sample_size| mask_in_place(pn_offset, &mut [0; 30], sample_size, |_, _, _| {});
    let seal = |header_len, tag_len| seal_in_place(&mut [0; 30], header_len, tag_len, |_, _| [0_u8; 16]);
    is_fine! {
        mask(1, 25);
        mask(10, 16);
        seal(14, 16);
    }
    panic_on! {
        mask(0, 16);
        mask(10, 17);
        mask(31, 0);
        seal(15, 16);
        seal(31, 0);
        seal(2, 15);
    }
}

#[test]
fn of_datagrams() {
    let packet = [0xc0, 0, 0, 0, 1, 1, 0xaa, 1, 0xbb, 1, 0x77, 2, 9, 9];
    let places = HeaderPlaces::read(&packet, 20, &[1]).unwrap();
    let other = [0xc0, 0, 0, 0, 9, 1, 0xaa, 1, 0xbb];
    let Err(HeaderError::UnsupportedVersion(unknown)) = HeaderPlaces::read(&other, 20, &[1]) else { panic!() };
    panic_on! {
        Packets::new(&packet, 21, &[1], false);
        PacketsMut::new(&mut [], 21, &[1], false);
        HeaderPlaces::read(&packet, 21, &[1]);
        HeaderPlaces::read(&[], usize::MAX, &[1]);
        places.dst_cid(&packet[..6]);
        places.src_cid(&packet[..8]);
        places.token(&packet[..10]);
        unknown.dst_cid(&other[..6]);
        unknown.src_cid(&other[..8]);
        PacketPlace::new(3..9, 2);
        PacketPlace::new(3..9, 10);
    }
    let header = quic_wire::datagram::Header::Retry { dst_cid: &[], src_cid: &[], version: 1 };
    let written = header.encode(&mut vec![]).unwrap();
    panic_on! { written.place(&[0; 6]); }
    is_fine! { written.place(&[0; 7]); }
}

#[test]
fn of_buffers() {
    let cursor = || Cursor::new(BytesMut::from(&[1, 2][..]));
    let rest = |count| {
        let mut cursor = cursor();
        bytes::Buf::advance(&mut cursor, count);
        cursor.rest().len()
    };
    assert_eq!(rest(2), 0);
    panic_on! {
        rest(3);
        BufMut::put_uint(&mut vec![], 0, 9);
    }
}
