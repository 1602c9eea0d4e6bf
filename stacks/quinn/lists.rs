//! What quinn-proto's readers make of lists of hexadecimal lines, and what its writers make of what was read, a line
//! for each: from files in the folder `LISTS`, into files in the folder `SHOWN`. All trees have it; drivers.edits has
//! what differs if packets are read by the library (run).
use std::panic::{RefUnwindSafe, catch_unwind};

use bytes::{Bytes, BytesMut};

use crate::{
    DEFAULT_SUPPORTED_VERSIONS, Side,
    frame::{self, Frame, Iter},
    packet::{
        FixedLengthConnectionIdParser, Header, InitialHeader, PacketNumber, PartialDecode, ProtectedHeader,
        ProtectedInitialHeader,
    },
    range_set::ArrayRangeSet,
    transport_parameters::TransportParameters,
};

fn bytes(line: &str) -> Vec<u8> {
    let digit = |at| u8::from_str_radix(&line[at..at + 2], 16).expect("hexadecimal");
    (0..line.len()).step_by(2).map(digit).collect()
}

fn shown(list: &str, name: &str, show: impl Fn(Vec<u8>) -> String + RefUnwindSafe) {
    let folder = |name| std::path::PathBuf::from(std::env::var(name).expect("a folder"));
    let list = std::fs::read_to_string(folder("LISTS").join(list)).expect("a list");
    let lines: Vec<String> =
        list.lines().map(|line| catch_unwind(|| show(bytes(line))).unwrap_or_else(|_| "panic".into())).collect();
    std::fs::write(folder("SHOWN").join(name), lines.join("\n") + "\n").expect("written");
}

// Both the frames and the error, with the type and the reason that it has.
fn frames(payload: Vec<u8>) -> String {
    let payload = Bytes::from(payload);
    let mut shown = String::new();
    let iter = match Iter::new(payload) {
        Ok(iter) => iter,
        Err(e) => return format!("{e:?} refused"),
    };
    for frame in iter {
        match frame {
            Err(e) => return shown + &format!("{e:?} refused"),
            Ok(Frame::Ack(ack)) => {
                let ranges: Vec<_> = ack.iter().collect();
                shown += &format!("ACK {} {} {:?} {:?}; ", ack.largest, ack.delay, ranges, ack.ecn);
            }
            Ok(frame) => shown += &format!("{frame:?}; "),
        }
    }
    shown
}

fn packets(datagram: Vec<u8>, id_len: usize, grease: bool) -> String {
    let mut shown = String::new();
    let mut left = Some(BytesMut::from(&datagram[..]));
    while let Some(datagram) = left {
        let parser = FixedLengthConnectionIdParser::new(id_len);
        match PartialDecode::new(datagram, &parser, DEFAULT_SUPPORTED_VERSIONS, grease) {
            Ok((packet, rest)) => {
                let (space, initial, bytes) = (packet.space(), packet.initial_header(), packet.data());
                let (is_long, is_0rtt, id) = (packet.has_long_header(), packet.is_0rtt(), packet.dst_cid());
                shown += &format!("{space:?} {is_long} {is_0rtt} {id} {initial:?} {bytes:02x?}; ");
                left = rest;
            }
            Err(e) => return shown + &format!("{e:?} refused"),
        }
    }
    shown
}

fn params(list: Vec<u8>, side: Side) -> String {
    match TransportParameters::read(side, &mut &list[..]) {
        Ok(params) => format!("{params:?}"),
        Err(e) => format!("{e:?} refused"),
    }
}

/// The frames of a payload that quinn-proto writes, written again.
fn written(payload: Vec<u8>) -> String {
    let payload = Bytes::from(payload);
    let mut out = Vec::new();
    let Ok(iter) = Iter::new(payload) else { return "refused".into() };
    for frame in iter.map_while(Result::ok) {
        match frame {
            Frame::Ack(x) => {
                let mut ranges = ArrayRangeSet::new();
                x.iter().for_each(|range| _ = ranges.insert(*range.start()..*range.end() + 1));
                frame::Ack::encode(x.delay, &ranges, x.ecn.as_ref(), &mut out);
            }
            Frame::ResetStream(x) => x.encode(&mut out),
            Frame::StopSending(x) => x.encode(&mut out),
            Frame::Crypto(x) => x.encode(&mut out),
            Frame::NewToken(x) => x.encode(&mut out),
            Frame::NewConnectionId(x) => x.encode(&mut out),
            Frame::AckFrequency(x) => x.encode(&mut out),
            Frame::Datagram(x) => x.encode(true, &mut out),
            Frame::Stream(x) => {
                let offsets = x.offset..x.offset + x.data.len() as u64;
                frame::StreamMeta { id: x.id, offsets, fin: x.fin }.encode(true, &mut out);
            }
            Frame::Close(x) => [1200, 40].iter().for_each(|room| x.encode(&mut out, *room)),
            _ => {}
        }
    }
    format!("{out:02x?}")
}

/// A list that is read, written by its sender.
fn params_written(list: Vec<u8>, side: Side) -> String {
    let mut out = Vec::new();
    match TransportParameters::read(side, &mut &list[..]) {
        Ok(params) => params.write(&mut out),
        Err(_) => return "refused".into(),
    }
    format!("{out:02x?}")
}

/// The headers of a datagram, written with the number 700 in two bytes.
fn headers_written(datagram: Vec<u8>) -> String {
    let mut out = Vec::new();
    let mut left = Some(BytesMut::from(&datagram[..]));
    let (parser, number) = (FixedLengthConnectionIdParser::new(8), PacketNumber::U16(700));
    while let Some(bytes) = left {
        let mut front = std::io::Cursor::new(bytes.clone());
        let plain = ProtectedHeader::decode(&mut front, &parser, DEFAULT_SUPPORTED_VERSIONS, true);
        let (Ok(plain), Ok((_, rest))) = (plain, PartialDecode::new(bytes, &parser, DEFAULT_SUPPORTED_VERSIONS, true))
        else {
            break;
        };
        let header = match plain {
            ProtectedHeader::Initial(ProtectedInitialHeader { dst_cid, src_cid, version, .. }) => {
                let token = Bytes::from_static(b"token");
                Header::Initial(InitialHeader { dst_cid, src_cid, token, number, version })
            }
            ProtectedHeader::Long { ty, dst_cid, src_cid, version, .. } => {
                Header::Long { ty, dst_cid, src_cid, number, version }
            }
            ProtectedHeader::Retry { dst_cid, src_cid, version } => Header::Retry { dst_cid, src_cid, version },
            ProtectedHeader::Short { spin, dst_cid } => Header::Short { spin, key_phase: true, dst_cid, number },
            ProtectedHeader::VersionNegotiate { random, dst_cid, src_cid } => {
                Header::VersionNegotiate { random, dst_cid, src_cid }
            }
        };
        header.encode(&mut out);
        left = rest;
    }
    format!("{out:02x?}")
}

#[test]
fn lists() {
    shown("payloads.in", "payloads-written", written);
    shown("mutants.in", "mutants-written", written);
    shown("datagrams.in", "headers-written", headers_written);
    for side in [Side::Client, Side::Server] {
        for list in ["params", "params-mutants"] {
            let name = format!("{list}-written-{side:?}");
            shown(&format!("{list}.in"), &name, move |list| params_written(list, side));
        }
    }
    shown("payloads.in", "payloads", frames);
    shown("mutants.in", "mutants", frames);
    for id_len in [0, 8, 20] {
        shown("datagrams.in", &format!("datagrams-{id_len}"), move |datagram| {
            packets(datagram.clone(), id_len, false) + " | " + &packets(datagram, id_len, true)
        });
    }
    for side in [Side::Client, Side::Server] {
        for list in ["params", "params-mutants"] {
            shown(&format!("{list}.in"), &format!("{list}-{side:?}"), move |list| params(list, side));
        }
    }
}
