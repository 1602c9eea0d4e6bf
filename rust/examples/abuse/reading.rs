//! What else reads a peer's bytes: parts of headers, masks, values, ACKs.
use crate::random::{Random, VERSIONS};
use bytes::Buf;
use quic_wire::coding::{BufExt, Codec, UnexpectedEnd};
use quic_wire::datagram::{HeaderChecks, HeaderError, HeaderPlaces, Packets, PacketsMut, receiver_id};
use quic_wire::fields::{self, Fields};
use quic_wire::frame::{Ack, AckRange, FrameType, Iter};
use quic_wire::packet::PacketNumber;
use quic_wire::transport_error::Code;
use quic_wire::transport_parameters::{TransportParameters, entries};
use quic_wire::{Side, StreamId, VarInt, varint};
use std::fmt::Debug;
use std::net::{Ipv4Addr, Ipv6Addr};

/// The header at the front, and those of all packets, by any checks.
pub fn headers(random: &mut Random) {
    let datagram = random.datagram();
    let (cid_len, checks) = (random.below(21) as usize, random.header_checks());
    let receiver = receiver_id(&datagram, cid_len);
    match HeaderPlaces::read_with(&datagram, cid_len, VERSIONS, checks) {
        Ok(places) => {
            assert_eq!(receiver, Some(places.dst_cid(&datagram)));
            parts(&places, &datagram);
        }
        Err(HeaderError::CutOff(places)) => parts(&places, &datagram),
        Err(HeaderError::UnsupportedVersion(packet)) => {
            assert_eq!(receiver, Some(packet.dst_cid(&datagram)));
            assert!(packet.src_cid(&datagram).len() <= 255 && !VERSIONS.contains(&packet.version()));
        }
        Err(error) => assert!(!error.to_string().is_empty()),
    }
    if let Some(places) = HeaderPlaces::read_version_negotiation(&datagram) {
        parts(&places, &datagram);
    }
    unmasked(random, &datagram, cid_len, checks);
}

fn parts(places: &HeaderPlaces, packet: &[u8]) {
    let (end, versions) = (places.end(), places.versions(packet));
    assert!(places.header_end() <= end && end <= packet.len());
    assert!(places.dst_cid(packet).len() + places.src_cid(packet).len() + places.token(packet).len() <= end);
    assert!(versions.count() <= end / 4 && places.place(0).range() == (0..end));
    assert!(places.retry(packet).is_none_or(|(token, _)| token.len() + 16 + places.header_end() == end));
    assert!(places.is_short() || places.len_field() <= varint::MAX);
}

// A cipher that masks by itself gets the same bytes in each way.
fn unmasked(random: &mut Random, datagram: &[u8], cid_len: usize, checks: HeaderChecks) {
    let (sample_len, expected, mask) = (random.below(18) as usize, random.number(), random.next() as u8);
    let unmask = |sample: &[u8], first: &mut u8, number: &mut [u8; 4]| {
        assert_eq!(sample.len(), sample_len);
        *first ^= mask & 0x0f;
        number.iter_mut().for_each(|byte| *byte ^= mask);
    };
    let (mut all, mut copy) = (datagram.to_vec(), datagram.to_vec());
    let mut same = Packets::with_checks(datagram, cid_len, VERSIONS, checks);
    for packet in PacketsMut::with_checks(&mut all, cid_len, VERSIONS, checks) {
        let (Ok(packet), Ok(same)) = (packet, same.next().unwrap()) else { return };
        let place = same.place();
        let opened = place.unprotect_by(&mut copy, sample_len, unmask, expected);
        match packet.open_by(sample_len, unmask, expected) {
            Ok(packet) => {
                assert_eq!(Ok(packet.number()), opened.map(|opened| opened.number));
                assert_eq!((packet.token(), packet.src_cid()), (same.token(), same.src_cid()));
                place.protect_by(&mut copy, sample_len, unmask).unwrap();
            }
            Err(error) => assert_eq!(Err(error), opened),
        }
        assert_eq!(copy, datagram);
    }
}

// A value is the same in one piece and in two, and as much is left.
fn value<T: Codec + PartialEq + Debug>(bytes: &[u8], at: usize) {
    let (front, back) = bytes.split_at(at);
    let (mut one, mut two) = (bytes, front.chain(back));
    assert_eq!(BufExt::get::<T>(&mut one), two.get::<T>());
    assert_eq!(one.remaining(), two.remaining());
}

pub fn values(random: &mut Random) {
    let bytes = random.bytes(18);
    let at = random.below(bytes.len() as u64 + 1) as usize;
    value::<u8>(&bytes, at);
    value::<u16>(&bytes, at);
    value::<u32>(&bytes, at);
    value::<u64>(&bytes, at);
    value::<Ipv4Addr>(&bytes, at);
    value::<Ipv6Addr>(&bytes, at);
    value::<VarInt>(&bytes, at);
    let mut rest = &bytes[..];
    let number = rest.get_var();
    let read = varint::read(&bytes);
    assert_eq!(number.map(|number| (number, bytes.len() - rest.len())), read.ok_or(UnexpectedEnd));
    let len = 1 + random.below(4) as usize;
    if let Ok(low) = PacketNumber::decode(len, &mut &bytes[..]) {
        assert_eq!(low.len(), len);
        assert!(low.expand(random.number() & varint::MAX) < 1 << 63);
    }
    let number = random.number();
    assert_eq!(StreamId::try_from(number).is_ok(), number <= varint::MAX);
    assert_eq!(FrameType::new(number).map(u64::from), Some(number).filter(|_| number <= varint::MAX));
    assert_eq!(Code::new(number).map(u64::from), Some(number).filter(|_| number <= varint::MAX));
}

// An ACK with up to four further ranges, or nearly one.
fn ack_bytes(random: &mut Random) -> Vec<u8> {
    let (has_counts, further) = (random.flag(), random.below(4));
    let mut bytes = vec![];
    for number in [2 + u64::from(has_counts), 4096 + random.below(64), random.number(), further] {
        varint::write(number & varint::MAX, &mut bytes).unwrap();
    }
    for _ in 0..2 * further + 1 {
        varint::write(random.below(70), &mut bytes).unwrap();
    }
    for _ in 0..if has_counts { 3 } else { 0 } {
        varint::write(random.number() & varint::MAX, &mut bytes).unwrap();
    }
    if random.flag() {
        random.change(&mut bytes);
    }
    bytes
}

/// ACKs of bytes, and an ACK whose blocks are taken from elsewhere.
pub fn acks(random: &mut Random) {
    let bytes = ack_bytes(random);
    let Some(ack) = Ack::from_bytes(&bytes) else { return };
    let runs: Vec<_> = ack.iter().collect();
    assert!(runs.windows(2).all(|pair| pair[1].end() < pair[0].start()) && *runs[0].end() == ack.largest());
    let kept = ack.range_in(&bytes).unwrap();
    assert_eq!(kept.ack(&bytes), Ok(ack));
    let begin = kept.blocks.start + random.below(3) as usize;
    let blocks = begin..begin + random.below(2 + kept.blocks.len() as u64) as usize;
    if let Ok(found) = (AckRange { blocks, ..kept }).ack(&bytes) {
        assert!(found.iter().count() > 0 && found.largest() == ack.largest());
    }
}

/// Where each field is: fields follow one another, and what is at fault is what the readers reject.
pub fn fields(random: &mut Random) {
    let (payload, rules) = (random.payload(), random.rules());
    let frame = fields::of_frame(&payload, rules);
    in_a_row(&frame, payload.len());
    if let Ok(mut frames) = Iter::with_rules(&payload, rules) {
        match frames.next().unwrap() {
            Ok(_) => assert_eq!((frame.fault(), frame.end()), (None, frames.offset())),
            Err(invalid) => assert_eq!(frame.fault().map(|fault| fault.reason), Some(invalid.reason)),
        }
    }
    let list = random.list();
    let entry = fields::of_entry(&list);
    in_a_row(&entry, list.len());
    match entries(&list).next() {
        Some(Ok(read)) => assert_eq!(entry.spans().last().map(|value| value.number), Some(read.value.len() as u64)),
        _ => assert!(entry.fault().is_some()),
    }
    entry_values(random, &list);
    let (datagram, cid_len) = (random.datagram(), random.below(21) as usize);
    let packet = fields::of_packet(&datagram, cid_len, VERSIONS);
    in_a_row(&packet, datagram.len());
    let checks = HeaderChecks { grease_quic_bit: true, any_version: true, whole_retry: false };
    match HeaderPlaces::read_with(&datagram, cid_len, VERSIONS, checks) {
        Ok(_) | Err(HeaderError::CutOff(_)) => assert_eq!(packet.fault(), None),
        Err(HeaderError::UnsupportedVersion(_)) => assert_eq!(packet.fault().map(|fault| fault.field), Some(4)),
        Err(HeaderError::InvalidHeader(reason)) => {
            assert_eq!(packet.fault().map(|fault| fault.reason), Some(reason));
        }
    }
}

// A value is at fault exactly if a list of it alone is rejected.
fn entry_values(random: &mut Random, list: &[u8]) {
    const MIN_ACK_DELAY: u64 = 0xff04_de1b;
    let options = random.read_options();
    for entry in entries(list).flatten().filter(|entry| entry.id != MIN_ACK_DELAY) {
        let value = fields::of_value(entry.id, entry.value, options.any_width);
        in_a_row(&value, entry.value.len());
        let mut alone = vec![];
        entry.write(&mut alone).unwrap();
        let read = TransportParameters::read_list(Side::Client, options, &alone);
        assert_eq!(read.is_ok(), value.fault().is_none(), "{:x} {:?}", entry.id, entry.value);
    }
}

fn in_a_row(fields: &Fields, len: usize) {
    let mut end = 0;
    for (index, span) in fields.spans().iter().enumerate() {
        assert_eq!((span.field, span.start), (index, end));
        assert!(span.end >= end);
        end = span.end;
    }
    assert!(end == fields.end() && end <= len);
    if let Some(fault) = fields.fault() {
        assert_eq!((fault.field, fault.start), (fields.spans().len(), end));
        assert!(end + fault.inside <= len);
    }
}
