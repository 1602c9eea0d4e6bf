//! Packets that own their bytes: cut, sealed and opened with keys that are easy to see through.
use bytes::BytesMut;
use quic_wire::crypto::{CryptoError, HeaderKey, PacketKey};
use quic_wire::frame::{ConnectionClose, Crypto, Frame, FrameType, Iter};
use quic_wire::packet::{
    DecodeOptions, Expected, FixedLengthConnectionIdParser, Header, InitialHeader, Keys, LongType, OpenError,
    PacketDecodeError, PacketNumber, Packets, PartialDecode, SealError, SpaceId, SpaceKeys, open_datagram, open_packet,
    seal_packet,
};
use quic_wire::transport_error::Code;
use quic_wire::{ConnectionId, Error, WriteError};

/// Masks the low bits of the first byte, and the packet number, with the first byte of the sample.
#[derive(Clone)]
struct Mask;

impl HeaderKey for Mask {
    fn sample_size(&self) -> usize {
        16
    }

    fn encrypt(&self, pn_offset: usize, packet: &mut [u8]) {
        let (len, mask) = (usize::from(packet[0] & 3) + 1, packet[pn_offset + 4]);
        packet[pn_offset..pn_offset + len].iter_mut().for_each(|byte| *byte ^= mask);
        packet[0] ^= mask & 0x0f;
    }

    fn decrypt(&self, pn_offset: usize, packet: &mut [u8]) {
        let mask = packet[pn_offset + 4];
        packet[0] ^= mask & 0x0f;
        let len = usize::from(packet[0] & 3) + 1;
        packet[pn_offset..pn_offset + len].iter_mut().for_each(|byte| *byte ^= mask);
    }
}

/// Adds a byte to each of the payload's, and a tag of it and of the packet number.
#[derive(Clone)]
struct Add(u8);

impl PacketKey for Add {
    fn tag_len(&self) -> usize {
        16
    }

    fn encrypt(&self, number: u64, packet: &mut [u8], header_len: usize) {
        let payload = &mut packet[header_len..];
        let (text, tag) = payload.split_at_mut(payload.len() - 16);
        text.iter_mut().for_each(|byte| *byte = byte.wrapping_add(self.0));
        tag.fill(self.0);
        tag[..8].copy_from_slice(&number.to_be_bytes());
    }

    fn decrypt(&self, number: u64, _header: &[u8], payload: &mut BytesMut) -> Result<(), CryptoError> {
        let tag = payload.split_off(payload.len().checked_sub(16).ok_or(CryptoError)?);
        if tag[..8] != number.to_be_bytes() || tag[8..] != [self.0; 8] {
            return Err(CryptoError);
        }
        payload.iter_mut().for_each(|byte| *byte = byte.wrapping_sub(self.0));
        Ok(())
    }
}

fn keys(add: u8) -> Keys<Mask, Add> {
    Keys { header: Mask, packet: Add(add) }
}

fn spaces() -> SpaceKeys<Mask, Add> {
    SpaceKeys { initial: keys(1), handshake: keys(2), app: keys(3) }
}

fn id(byte: u8) -> ConnectionId {
    ConnectionId::new(&[byte; 4])
}

fn initial(number: PacketNumber) -> Header {
    let token = bytes::Bytes::from_static(b"token");
    Header::Initial(InitialHeader { dst_cid: id(7), src_cid: id(8), token, number, version: 1 })
}

fn handshake(number: PacketNumber) -> Header {
    Header::Long { ty: LongType::Handshake, dst_cid: id(7), src_cid: id(8), number, version: 1 }
}

fn short(number: PacketNumber) -> Header {
    Header::Short { spin: true, key_phase: false, dst_cid: id(7), number }
}

const FRAMES: [Frame<'static>; 2] = [Frame::Ping, Frame::Crypto(Crypto { offset: 3, bytes: b"data" })];
const PARSER: fn() -> FixedLengthConnectionIdParser = || FixedLengthConnectionIdParser::new(4);

// An Initial, a Handshake and a short packet.
fn datagram() -> Vec<u8> {
    let (mut out, keys) = (vec![], spaces());
    let packets =
        [(initial as fn(_) -> _, &keys.initial, 5), (handshake, &keys.handshake, 70_000), (short, &keys.app, 9)];
    for (header, keys, number) in packets {
        let before = out.len();
        let len = seal_packet(&header(PacketNumber::new(number, 0)), number, &FRAMES, keys, &mut out);
        assert_eq!(len, Ok(out.len() - before));
    }
    out
}

#[test]
fn what_is_sealed_is_opened() {
    let expected = Expected { initial: 5, handshake: 70_000, app: 9 };
    let mut opened = vec![];
    let bytes = BytesMut::from(&datagram()[..]);
    open_datagram(bytes.clone(), &PARSER(), &[1], false, &spaces(), &expected, &mut opened).unwrap();
    let numbers: Vec<_> = opened.iter().map(|packet| packet.number).collect();
    assert_eq!(numbers, [Some(5), Some(70_000), Some(9)]);
    assert_eq!(opened[0].header, initial(PacketNumber::new(5, 0)));
    for packet in &opened {
        let frames: Vec<_> = Iter::new(&packet.payload).unwrap().flatten().collect();
        assert_eq!(frames, FRAMES);
    }
    let (first, rest) = open_packet(bytes.clone(), &PARSER(), &[1], false, &spaces(), &expected).unwrap();
    assert_eq!((first.number, rest.is_some()), (Some(5), true));

    // With another key the packet is skipped, and the next one opened.
    let others = SpaceKeys { initial: keys(9), ..spaces() };
    let options = DecodeOptions { parser: &PARSER(), versions: &[1], grease: false };
    let mut packets = Packets::new(bytes);
    let numbers = std::iter::from_fn(|| packets.open_next(&options, &others, &expected));
    let numbers: Vec<_> = numbers.map(|opened| opened.map(|opened| opened.number)).collect();
    assert_eq!(numbers, [Err(OpenError::Unsealed), Ok(Some(70_000)), Ok(Some(9))]);
}

#[test]
fn a_packet_is_cut_and_its_protection_removed() {
    let (partial, rest) = PartialDecode::new(BytesMut::from(&datagram()[..]), &PARSER(), &[1], false).unwrap();
    assert_eq!((partial.space(), partial.dst_cid(), rest.is_some()), (Some(SpaceId::Initial), &id(7), true));
    let key: &dyn HeaderKey = &Mask;
    let packet = partial.finish(Some(key)).unwrap();
    assert!(packet.reserved_bits_valid());
    assert_eq!(packet.header, initial(PacketNumber::U8(5)));
    // What it needs is its own: it is changed, and cloned.
    let mut header = packet.header.clone();
    if let Header::Initial(initial) = &mut header {
        initial.src_cid[0] = 9;
    }
    assert_ne!(header, packet.header);
    let cut = PartialDecode::new(BytesMut::from(&[0x40, 7, 7, 7, 7, 1][..]), &PARSER(), &[1], false).unwrap().0;
    let error = cut.finish(Some(&Mask)).unwrap_err();
    assert_eq!(error, PacketDecodeError::InvalidHeader("packet too short to extract header protection sample"));
}

#[test]
fn a_header_is_written_and_finished() {
    let (mut packet, header) = (vec![0xa5], handshake(PacketNumber::U16(0x0102)));
    let partial = header.encode(&mut packet);
    assert_eq!((partial.start, partial.header_len), (1, header.encoded_len()));
    packet.extend([1; 4]);
    packet.extend([0; 16]);
    let (header_key, packet_key): (&dyn HeaderKey, &dyn PacketKey) = (&Mask, &Add(2));
    partial.finish(&mut packet[1..], header_key, Some((0x0102, packet_key)));
    let expected = Expected { handshake: 0x0102, ..Expected::default() };
    let bytes = BytesMut::from(&packet[1..]);
    let (opened, rest) = open_packet(bytes, &PARSER(), &[1], false, &spaces(), &expected).unwrap();
    assert_eq!((opened.number, &opened.payload[..], rest), (Some(0x0102), &[1; 4][..], None));
}

// A close that names PADDING is sealed as one that names no type.
#[test]
fn a_close_that_names_padding_is_sealed() {
    let seal = |frame_type| {
        let close = ConnectionClose { error_code: Code::FRAME_ENCODING_ERROR, frame_type, reason: b"why" };
        let mut out = vec![];
        let frames = [Frame::Ping, Frame::Close(close.into())];
        seal_packet(&short(PacketNumber::U8(5)), 5, &frames, &keys(1), &mut out).map(|len| (len, out))
    };
    assert_eq!(seal(Some(FrameType::PADDING)), seal(None));
    assert!(seal(None).is_ok());
}

#[test]
fn what_cannot_be_sealed_is_named() {
    let seal = |header: &Header, number, frames: &[Frame<'_>]| {
        let mut out = vec![7];
        let error = seal_packet(header, number, frames, &keys(1), &mut out).unwrap_err();
        assert_eq!(out, [7]);
        error
    };
    let retry = Header::Retry { dst_cid: id(7), src_cid: id(8), version: 1 };
    let wide = PacketNumber::U24(1 << 24);
    let far = [Frame::DataBlocked { offset: 1 << 62 }];
    let large = "a number or a length in the frame is 2^62 or more";
    let other = "the header has another packet number, or it is 2^62 or more";
    let rows = [
        (seal(&retry, 0, &FRAMES), "a packet without a number has no frames"),
        (seal(&short(PacketNumber::U8(5)), 6, &FRAMES), other),
        (seal(&short(PacketNumber::U8(0)), 1 << 62, &FRAMES), other),
        (seal(&short(wide), 1 << 24, &FRAMES), "a packet number of three bytes is 2^24 or more"),
        (seal(&short(PacketNumber::U8(5)), 5, &[]), "a packet has at least one frame"),
        (seal(&short(PacketNumber::U8(5)), 5, &far), large),
        (seal(&short(PacketNumber::U8(5)), 5, &[far[0], Frame::Ping]), large),
    ];
    for (error, what) in rows {
        assert_eq!(error, Error::Write(WriteError::OutOfRange(what)));
    }
    let long = [Frame::Crypto(Crypto { offset: 0, bytes: &[7; 1 << 14] })];
    assert_eq!(seal(&handshake(PacketNumber::U8(5)), 5, &long), Error::Seal(SealError::TooLong));
    assert_eq!(seal(&short(PacketNumber::U8(5)), 5, &[Frame::Ping]), Error::Seal(SealError::TooShort));
}
