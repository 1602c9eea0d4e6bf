//! Packets with toy keys: opened as they are, and sealed, changed and opened.
use crate::random::{Random, VERSIONS};
use bytes::BytesMut;
use quic_wire::crypto::{ToyHeaderKey, ToyPacketKey};
use quic_wire::frame::{Frame, Iter};
use quic_wire::packet::{
    DecodeOptions, Expected, FixedLengthConnectionIdParser, Header, InitialHeader, Keys, LongType, PacketNumber,
    Packets, PartialDecode, SpaceKeys, open_datagram, open_packet, seal_packet,
};
use quic_wire::varint;

const KEYS: Keys<ToyHeaderKey, ToyPacketKey> = Keys { header: ToyHeaderKey, packet: ToyPacketKey };
const SPACES: SpaceKeys<ToyHeaderKey, ToyPacketKey> = SpaceKeys { initial: KEYS, handshake: KEYS, app: KEYS };

/// A peer's datagram.
pub fn opened(random: &mut Random) {
    let datagram = random.datagram();
    let (cid_len, grease) = (random.below(21) as usize, random.flag());
    let mut expected = || random.number() & varint::MAX;
    let expected = Expected { initial: expected(), handshake: expected(), app: expected() };
    all_opened(&datagram, cid_len, grease, &expected);
}

// One after the other, at once, and the first one alone; and the headers without their payloads.
fn all_opened(datagram: &[u8], cid_len: usize, grease: bool, expected: &Expected) -> usize {
    let parser = FixedLengthConnectionIdParser::new(cid_len);
    let options = DecodeOptions { parser: &parser, versions: VERSIONS, grease };
    let (mut packets, mut found) = (Packets::new(BytesMut::from(datagram)), vec![]);
    while let Some(item) = packets.open_next(&options, &SPACES, expected) {
        found.push(item);
        assert!(found.len() <= datagram.len().max(1));
    }
    let mut whole = vec![];
    let at_once = open_datagram(BytesMut::from(datagram), &parser, VERSIONS, grease, &SPACES, expected, &mut whole);
    let before = found.iter().take_while(|item| item.is_ok()).count();
    assert_eq!(at_once.err(), found.get(before).and_then(|item| item.as_ref().err().copied()));
    for (packet, same) in whole.iter().zip(found.iter().flatten()) {
        assert_eq!((&packet.header, &packet.payload), (&same.header, &same.payload));
        assert_eq!((&packet.header_data, packet.number), (&same.header_data, same.number));
        let _ = Iter::new(&packet.payload).map(Iterator::count);
    }
    if let Some(first) = found.first() {
        let alone = open_packet(BytesMut::from(datagram), &parser, VERSIONS, grease, &SPACES, expected);
        assert_eq!(alone.map(|(packet, _)| packet.payload).as_ref(), first.as_ref().map(|packet| &packet.payload));
    }
    let mut rest = Some(BytesMut::from(datagram));
    while let Some(Ok((packet, others))) = rest.map(|rest| PartialDecode::new(rest, &parser, VERSIONS, grease)) {
        let (len, key) = (packet.len(), packet.space().map(|_| &ToyHeaderKey));
        if let Ok(packet) = packet.finish(key) {
            assert!(packet.header_data.len() <= len || packet.header_data.len() + packet.payload.len() == len);
            let _ = packet.reserved_bits_valid();
        }
        rest = others;
    }
    found.iter().flatten().count()
}

/// Frames of a payload, sealed.
pub fn sealed(random: &mut Random) {
    let payload = random.payload();
    let frames: Vec<Frame<'_>> = Iter::new(&payload).unwrap().map_while(Result::ok).collect();
    let number = random.number() & varint::MAX;
    let low = PacketNumber::new(number, number.saturating_sub(random.below(1 << 20)));
    let (dst_cid, src_cid) = (random.id(), random.id());
    let version = VERSIONS[random.below(2) as usize];
    let header = match random.below(4) {
        0 => {
            let token = random.bytes(9).into();
            Header::Initial(InitialHeader { dst_cid, src_cid, token, number: low, version })
        }
        1 => Header::Long { ty: LongType::Handshake, dst_cid, src_cid, number: low, version },
        2 => Header::Long { ty: LongType::ZeroRtt, dst_cid, src_cid, number: low, version },
        _ => Header::Short { spin: random.flag(), key_phase: random.flag(), dst_cid, number: low },
    };
    let mut datagram = vec![];
    match seal_packet(&header, number, &frames, &KEYS, &mut datagram) {
        Ok(len) => assert_eq!(len, datagram.len()),
        Err(_) => return assert!(datagram.is_empty()),
    }
    let expected = Expected { initial: number, handshake: number, app: number };
    is_opened(&datagram, &header, &frames, &expected);
    random.change(&mut datagram);
    all_opened(&datagram, dst_cid.len(), random.flag(), &expected);
}

// What was sealed is opened to its header, number and frames.
fn is_opened(datagram: &[u8], header: &Header, frames: &[Frame<'_>], expected: &Expected) {
    let parser = FixedLengthConnectionIdParser::new(header.dst_cid().len());
    let opened = open_packet(BytesMut::from(datagram), &parser, VERSIONS, false, &SPACES, expected);
    let (opened, rest) = opened.unwrap();
    assert_eq!((&opened.header, opened.number, rest), (header, Some(expected.app), None));
    let mut written = vec![];
    for (i, frame) in frames.iter().enumerate() {
        frame.encode(i + 1 == frames.len(), &mut written).unwrap();
    }
    assert_eq!(opened.payload, written);
    assert_eq!(all_opened(datagram, header.dst_cid().len(), false, expected), 1);
}
