//! What headers say about their packets.
use crate::host::bytes::Bytes;
use crate::proved::quic_base::ids::ConnectionId;
use crate::proved::quic_packets::packet::{Header, InitialHeader, LongType, PacketNumber};

fn initial(number: PacketNumber) -> Header {
    Header::Initial(InitialHeader {
        dst_cid: ConnectionId::proved_new(b"\xaa"),
        src_cid: ConnectionId::proved_new(b""),
        token: Bytes::new(),
        number,
        version: 1,
    })
}

fn long(ty: LongType, number: PacketNumber) -> Header {
    Header::Long {
        ty,
        dst_cid: ConnectionId::proved_new(b"\xaa"),
        src_cid: ConnectionId::proved_new(b""),
        number,
        version: 1,
    }
}

fn short(key_phase: bool, number: PacketNumber) -> Header {
    Header::Short { spin: !key_phase, key_phase, dst_cid: ConnectionId::proved_new(b"\xaa"), number }
}

fn retry() -> Header {
    Header::Retry { dst_cid: ConnectionId::proved_new(b"\xaa"), src_cid: ConnectionId::proved_new(b""), version: 1 }
}

fn negotiation() -> Header {
    Header::VersionNegotiate {
        random: 0x7f,
        src_cid: ConnectionId::proved_new(b""),
        dst_cid: ConnectionId::proved_new(b"\xaa"),
    }
}

// Whether this is the header's number. Only packets with a number have frames.
fn has_number(head: &Header, number: Option<PacketNumber>) -> bool {
    head.number() == number && head.has_frames() == number.is_some()
}

#[test]
fn numbers_and_frames() {
    let (one, two) = (PacketNumber::U8(0), PacketNumber::U16(0x1234));
    let (three, four) = (PacketNumber::U24(5), PacketNumber::U32(0x1234_5678));
    assert!(has_number(&initial(one), Some(one)), "Initial");
    let handshake = long(LongType::Handshake, two);
    assert!(has_number(&handshake, Some(two)), "Handshake");
    let early = long(LongType::ZeroRtt, three);
    assert!(has_number(&early, Some(three)), "0-RTT");
    assert!(has_number(&short(false, four), Some(four)), "1-RTT");
    assert!(has_number(&retry(), None), "Retry");
    assert!(has_number(&negotiation(), None), "version negotiation");
}

fn is_of_1rtt(head: &Header, key_phase: bool) -> bool {
    head.is_short() && head.is_1rtt() && !head.is_0rtt() && head.key_phase() == key_phase
}

// Whether the header is long. It has no key phase then.
fn is_long(head: &Header, early: bool) -> bool {
    !head.is_short() && !head.is_1rtt() && head.is_0rtt() == early && !head.key_phase()
}

#[test]
fn kinds_and_key_phases() {
    let number = PacketNumber::U8(7);
    assert!(is_of_1rtt(&short(false, number), false), "one phase");
    assert!(is_of_1rtt(&short(true, number), true), "the other phase");
    assert!(is_long(&initial(number), false), "Initial");
    let handshake = long(LongType::Handshake, number);
    assert!(is_long(&handshake, false), "Handshake");
    let early = long(LongType::ZeroRtt, number);
    assert!(is_long(&early, true), "0-RTT");
    assert!(is_long(&retry(), false), "Retry");
    assert!(is_long(&negotiation(), false), "version negotiation");
}
