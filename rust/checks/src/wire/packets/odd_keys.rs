//! Other kinds of keys in all calls: without sample and tag, and ones that change each byte.
use crate::host::bytes::BytesMut;
use crate::host::prelude::*;
use crate::proved::quic_frames::frame::Frame;
use crate::proved::quic_packets::crypto::{HeaderKey, PacketKey};
use crate::proved::quic_packets::packet::{
    Expected, Keys, Opened, PartialDecode, SealError, SpaceKeys, open_datagram, open_packet, seal_packet,
};
use crate::tested::quic_bench::add::AddKey;
use crate::tested::quic_bench::mask::MaskKey;
use crate::tested::quic_bench::parsers::NoIds;
use crate::tested::quic_bench::plain::PlainKey;
use crate::tested::quic_test_refused_packets::worked::short;

const EXPECTED: Expected = Expected { initial: 0, handshake: 0, app: 5 };

// Whether PING, PADDING, PADDING with the number 5 and no id are sealed as these bytes.
fn is_sealed_as<H: HeaderKey, P: PacketKey>(out: &mut Vec<u8>, keys: &Keys<H, P>, bytes: &[u8]) -> bool {
    let header = short(b"", 5);
    let frames = [Frame::Ping, Frame::Padding, Frame::Padding];
    let sealed = seal_packet(&header, 5, &frames, keys, out);
    sealed == Ok(bytes.len()) && out.as_slice() == bytes
}

fn is_that_packet(opened: &Opened) -> bool {
    opened.number == Some(5)
        && opened.header_data.as_slice() == b"\x40\x05".as_slice()
        && opened.payload.as_slice() == b"\x01\0\0".as_slice()
}

fn is_opened<H: HeaderKey, P: PacketKey>(keys: &SpaceKeys<H, P>, bytes: &[u8]) -> bool {
    let whole = BytesMut::from(bytes);
    let Ok((opened, rest)) = open_packet(whole, &NoIds, &[1], false, keys, &EXPECTED) else {
        return false;
    };
    is_that_packet(&opened) && rest.is_none()
}

fn is_opened_alone<H: HeaderKey, P: PacketKey>(all: &mut Vec<Opened>, keys: &SpaceKeys<H, P>, bytes: &[u8]) -> bool {
    let whole = BytesMut::from(bytes);
    let done = open_datagram(whole, &NoIds, &[1], false, keys, &EXPECTED, all);
    done.is_ok() && all.len() == 1
}

fn is_finished<H: HeaderKey>(cut: PartialDecode, key: &H, payload: &[u8]) -> bool {
    let Ok(packet) = cut.finish(Some(key)) else {
        return false;
    };
    packet.header_data.as_slice() == b"\x40\x05".as_slice() && packet.payload.as_slice() == payload
}

// The header has two bytes.
fn is_cut_and_finished<H: HeaderKey>(key: &H, bytes: &[u8]) -> bool {
    let Some((_, payload)) = bytes.split_at_checked(2) else {
        return false;
    };
    let whole = BytesMut::from(bytes);
    let Ok((cut, _rest)) = PartialDecode::new(whole, &NoIds, &[1], false) else {
        return false;
    };
    is_finished(cut, key, payload)
}

// What is sealed becomes these bytes, which are opened in each way.
fn check_all_calls<H: HeaderKey + Copy, P: PacketKey + Copy>(header: H, packet: P, bytes: &[u8]) {
    let keys = SpaceKeys {
        initial: Keys { header, packet },
        handshake: Keys { header, packet },
        app: Keys { header, packet },
    };
    let out = &mut Vec::new();
    assert!(is_sealed_as(out, &keys.app, bytes), "sealed");
    assert!(is_opened(&keys, bytes), "opened");
    let all = &mut Vec::new();
    assert!(is_opened_alone(all, &keys, bytes), "opened alone");
    assert!(is_cut_and_finished(&keys.app.header, bytes), "finished");
}

#[test]
fn odd_keys() {
    let plain = b"\x40\x05\x01\0\0";
    check_all_calls(PlainKey, PlainKey, plain);
    let masked = b"\x42\x07\x06\x05\x05\x02\x03";
    check_all_calls(MaskKey, AddKey, masked);
    let added = b"\x40\x05\x06\x05\x05\x02\x03";
    check_all_calls(PlainKey, AddKey, added);
}

fn is_refused_as_too_short(out: &mut Vec<u8>) -> bool {
    let keys = Keys { header: PlainKey, packet: PlainKey };
    let header = short(b"", 5);
    let few = seal_packet(&header, 5, &[Frame::Ping], &keys, out);
    few == Err(SealError::TooShort) && out.is_empty()
}

#[test]
fn too_short_for_no_sample() {
    assert!(is_refused_as_too_short(&mut Vec::new()));
}
