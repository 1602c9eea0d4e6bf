//! The work that is counted and timed, once for both: `api` has the crate's calls or quinn-proto's own, by the same names.
use super::api::{
    self, ArrayRangeSet, ConnectionId, DEFAULT_SUPPORTED_VERSIONS, FixedLengthConnectionIdParser, Frame, Header,
    InitialHeader, PacketNumber, PartialDecode, Side, TransportParameters,
};
use super::lists::{Items, Round, Work, mixed};
use bytes::{Bytes, BytesMut};
use std::hint::black_box;

pub const ALL: &[Work] = &[
    ("read", frames, read),
    ("acks", frames, acks),
    ("shared", frames, shared),
    ("written", frames, written),
    ("cut", Items::len, cut),
    ("copied", Items::len, copied),
    ("params", Items::len, params),
    ("params-written", Items::len, params_written),
    ("short", |_| 100, short),
    ("initial", |_| 100, initial),
    ("set-in-order", |_| 200, set_in_order),
    ("set-mixed", |_| 200, set_mixed),
];

fn frames(items: &Items) -> usize {
    items.shared.iter().filter_map(api::frames).flatten().map_while(Result::ok).count()
}

fn read(items: &Items) -> Round<'_> {
    Box::new(|| {
        let mut total = 0_u64;
        for frames in items.shared.iter().filter_map(|payload| api::frames(black_box(payload))) {
            for frame in frames {
                let Ok(frame) = frame else { break };
                total = total.wrapping_add(api::sum(&frame));
            }
        }
        total
    })
}

fn acks(items: &Items) -> Round<'_> {
    Box::new(|| {
        let mut total = 0_u64;
        for frames in items.shared.iter().filter_map(|payload| api::frames(black_box(payload))) {
            for frame in frames {
                let Ok(Frame::Ack(ack)) = frame else { break };
                total = ack.iter().fold(total, |total, range| total.wrapping_add(range.start() ^ range.end()));
            }
        }
        total
    })
}

// What quinn-proto's reader of frames is given.
fn shared(items: &Items) -> Round<'_> {
    Box::new(|| items.shared.iter().map(|payload| black_box(payload.clone()).len() as u64).sum())
}

// The set that an ACK is made of.
fn set_of(frame: &Frame) -> ArrayRangeSet {
    let mut set = ArrayRangeSet::new();
    if let Frame::Ack(ack) = frame {
        ack.iter().for_each(|range| _ = set.insert(*range.start()..*range.end() + 1));
    }
    set
}

fn written(items: &Items) -> Round<'_> {
    let with_set = |frame| (set_of(&frame), frame);
    let payloads = items.shared.iter().filter_map(api::frames);
    let payloads: Vec<Vec<_>> = payloads.map(|frames| frames.map_while(Result::ok).map(with_set).collect()).collect();
    let mut out = Vec::with_capacity(1 << 16);
    Box::new(move || {
        let mut total = 0;
        for frames in &payloads {
            out.clear();
            frames.iter().for_each(|(set, frame)| api::write(frame, set, &mut out));
            total += out.len() as u64;
        }
        total
    })
}

fn cut(items: &Items) -> Round<'_> {
    let parser = FixedLengthConnectionIdParser::new(8);
    Box::new(move || {
        let mut total = 0;
        for datagram in &items.slices {
            let datagram = BytesMut::from(&datagram[..]);
            if let Ok((packet, rest)) = PartialDecode::new(datagram, &parser, DEFAULT_SUPPORTED_VERSIONS, true) {
                total += packet.len() as u64 + rest.map_or(0, |rest| rest.len() as u64);
            }
        }
        total
    })
}

// What is cut.
fn copied(items: &Items) -> Round<'_> {
    Box::new(|| items.slices.iter().map(|datagram| black_box(BytesMut::from(&datagram[..])).len() as u64).sum())
}

// What a server sent, which may be any parameter.
fn read_params(list: &[u8]) -> Option<TransportParameters> {
    TransportParameters::read(Side::Client, &mut black_box(list)).ok()
}

fn params(items: &Items) -> Round<'_> {
    Box::new(|| {
        let read = items.slices.iter().filter_map(|list| read_params(list));
        read.fold(0, |total: u64, params| total.wrapping_add(api::idle_timeout(&params)))
    })
}

fn params_written(items: &Items) -> Round<'_> {
    let all: Vec<_> = items.slices.iter().filter_map(|list| read_params(list)).collect();
    let mut out = Vec::with_capacity(4096);
    Box::new(move || {
        let mut total = 0;
        for params in &all {
            out.clear();
            _ = params.write(&mut out);
            total += out.len() as u64;
        }
        total
    })
}

fn headers(header: Header) -> Round<'static> {
    let mut out = Vec::with_capacity(256);
    Box::new(move || {
        (0..100).fold(0, |total, _| {
            out.clear();
            black_box(&header).encode(&mut out);
            total + out.len() as u64
        })
    })
}

fn short(_: &Items) -> Round<'_> {
    let (id, number) = (ConnectionId::new(&[7; 8]), PacketNumber::U16(700));
    headers(Header::Short { spin: false, key_phase: true, dst_cid: id, number })
}

fn initial(_: &Items) -> Round<'_> {
    let (id, token, number) = (ConnectionId::new(&[7; 8]), Bytes::new(), PacketNumber::U16(700));
    headers(Header::Initial(InitialHeader { dst_cid: id, src_cid: id, token, number, version: 1 }))
}

fn set_in_order(_: &Items) -> Round<'_> {
    Box::new(|| {
        let mut set = ArrayRangeSet::new();
        (0..200).for_each(|n| _ = set.insert_one(black_box(n)));
        set.len() as u64
    })
}

fn set_mixed(_: &Items) -> Round<'_> {
    Box::new(|| {
        let mut set = ArrayRangeSet::new();
        for (i, start) in mixed().enumerate() {
            set.insert(start..start + 3);
            if i % 3 == 0 {
                set.remove(start + 1..start + 2);
            }
        }
        set.len() as u64
    })
}
