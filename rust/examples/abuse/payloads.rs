//! Payloads: frames that are read and written.
use crate::random::Random;
use quic_wire::canonical::{canonical, canonical_of, canonical_with, mean_the_same};
use quic_wire::frame::{Ack, Checked, ConnectionClose, Frame, Iter, Stream, StreamMeta};
use quic_wire::permitted::{PacketType, permits, permits_on, permits_type};
use quic_wire::transport_error::Error;
use quic_wire::{StreamId, WriteError, varint};
use std::ops::Range;

pub fn frames(random: &mut Random) {
    let payload = random.payload();
    let rules = random.rules();
    let (mut checked, mut plain) = (Iter::with_rules(&payload, rules).unwrap(), Iter::new(&payload).unwrap());
    let (mut all, mut last) = (Vec::new(), None);
    let end = loop {
        let (before, plain_before) = (checked.offset(), plain.offset());
        let mut resumed = Checked::resume(&payload, before, last, rules).unwrap();
        let mut plain_resumed = Iter::resume(&payload, plain_before, plain.last_type(), false).unwrap();
        let (item, found) = (checked.next(), plain.next());
        assert_eq!((&item, checked.offset()), (&resumed.next(), resumed.offset()));
        assert_eq!((&found, plain.offset()), (&plain_resumed.next(), plain_resumed.offset()));
        last = plain.last_type();
        match item {
            Some(Ok(frame)) => {
                assert_eq!(found, Some(Ok(frame)));
                all.push((before..checked.offset(), frame));
            }
            Some(Err(error)) => break Some(error),
            None => break None,
        }
    };
    assert!(checked.next().is_none());
    let is_extension = |frame: &Frame<'_>| matches!(frame, Frame::ImmediateAck | Frame::AckFrequency(_));
    assert!(!rules.no_ack_frequency || !all.iter().any(|item| is_extension(&item.1)));
    written(&payload, &all, end.is_some());
}

// Each frame is written and read, and the canonical payload is what is written for all of them.
fn written(payload: &[u8], all: &[(Range<usize>, Frame<'_>)], is_broken: bool) {
    let mut together = Vec::new();
    for (i, (place, frame)) in all.iter().enumerate() {
        let last = i + 1 == all.len();
        let (begin, len) = (together.len(), frame.encoded_len(last).unwrap());
        // A frame that is the last only because another is invalid has a length.
        assert!(len <= place.len());
        let mut room = vec![0; len];
        assert_eq!(frame.encode_into(last, &mut room[..len - 1]), Err(WriteError::NoRoom));
        assert_eq!((frame.encode_into(last, &mut room), frame.encode(last, &mut together)), (Ok(len), Ok(())));
        assert_eq!(room, together[begin..]);
        if let Frame::Ack(ack) = frame {
            let again = Ack::from_bytes(&room).unwrap();
            assert!(again.iter().eq(ack) && again.delay() == ack.delay());
            assert_eq!(ack.range_in(payload).unwrap().ack(payload), Ok(*ack));
        }
    }
    if !is_broken {
        let mut shortest = Vec::new();
        assert_eq!((canonical(payload, &mut shortest), shortest), (Ok(()), together));
    }
}

/// The meanings of a payload, and of another; errors as closes; which packets may carry its frames.
pub fn meanings(random: &mut Random) {
    let (payload, rules) = (random.payload(), random.rules());
    let mut other = payload.clone();
    random.change(&mut other);
    let broken = Iter::with_rules(&payload, rules).unwrap().find_map(Result::err);
    let (mut shortest, mut by_rules) = (vec![], vec![]);
    assert_eq!(canonical_with(&payload, rules, &mut by_rules).is_ok(), broken.is_none());
    let found = canonical(&payload, &mut shortest);
    assert_eq!(canonical_of(&payload).map(|bytes| bytes.to_vec()), found.map(|()| shortest.clone()));
    if found.is_ok() {
        assert_eq!(mean_the_same(&payload, &shortest), Ok(true));
        assert!(broken.is_some() || by_rules == shortest);
    }
    if let (Ok(one), Ok(two)) = (mean_the_same(&payload, &other), mean_the_same(&other, &payload)) {
        assert_eq!(one, two);
    }
    if let Some(invalid) = broken {
        let (error, mut close) = (Error::from(invalid), vec![]);
        ConnectionClose::from(&error).encode(&mut close, 60).unwrap();
        assert!(Iter::new(&close).unwrap().all(|frame| frame.is_ok()));
        assert!(!format!("{error} {invalid} {error:?}").is_empty());
    }
    permissions(random, &payload);
}

fn permissions(random: &mut Random, payload: &[u8]) {
    let packets = [PacketType::Initial, PacketType::ZeroRtt, PacketType::Handshake, PacketType::OneRtt];
    let (packet, sender, rules) = (packets[random.below(4) as usize], random.side(), random.rules());
    for frame in Iter::new(payload).unwrap().map_while(Result::ok) {
        let ty = u64::from(frame.ty());
        if permits(&frame, packet, sender, rules).is_ok() {
            assert!(frame.is_permitted_in(packet) && permits_type(ty, packet, sender, rules).is_ok());
        }
        assert!(format!("{frame:?}").len() > 3);
    }
    let (ty, stream) = (random.number(), random.number());
    let on = permits_on(ty, stream, packet, sender, rules);
    assert!(on.is_err() || permits_type(ty, packet, sender, rules).is_ok());
}

pub fn streams(random: &mut Random) {
    let bytes = vec![7; random.below(70) as usize];
    let (number, offset, fin) = (random.number(), random.number(), random.below(2) == 0);
    let Ok(id) = StreamId::try_from(number) else { return assert!(number > varint::MAX) };
    let meta = StreamMeta { id, offsets: offset..offset.saturating_add(bytes.len() as u64), fin };
    let (stream, last) = (Frame::Stream(Stream { id, offset, fin, bytes: &bytes }), random.below(2) == 0);
    let (mut header, mut whole) = (vec![], vec![]);
    assert_eq!(meta.encode(!last, &mut header), stream.encode(last, &mut whole).map_err(|_| header_error()));
    assert_eq!((header.is_empty(), stream.in_range()), (whole.is_empty(), !whole.is_empty()));
    if !whole.is_empty() {
        assert_eq!([header, bytes].concat(), whole);
    }
}

fn header_error() -> WriteError {
    WriteError::OutOfRange("a number or a length in the frame is 2^62 or more")
}
