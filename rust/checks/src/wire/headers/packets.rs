//! Packets whose header protection was removed, as values.
use crate::host::bytes::{Bytes, BytesMut};
use crate::host::prelude::*;
use crate::proved::quic_base::ids::ConnectionId;
use crate::proved::quic_packets::packet::{Header, InitialHeader, InitialPacket, Packet, PacketNumber};

// An Initial packet with any bytes as its header's, and these as its payload.
fn initial(head: &'static [u8], payload: BytesMut) -> InitialPacket {
    InitialPacket {
        header: InitialHeader {
            dst_cid: ConnectionId::proved_new(b"\x06\xb8"),
            src_cid: ConnectionId::proved_new(b"\x07"),
            token: Bytes::from_static(b"\xaa\xbb"),
            number: PacketNumber::U8(5),
            version: 1,
        },
        header_data: Bytes::from_static(head),
        payload,
    }
}

// Whether it is the header of that packet.
fn is_its_header(header: &Header) -> bool {
    let Header::Initial(head) = header else {
        return false;
    };
    head.dst_cid.as_slice() == b"\x06\xb8".as_slice()
        && head.src_cid.as_slice() == b"\x07".as_slice()
        && head.token.as_slice() == b"\xaa\xbb".as_slice()
        && head.number == PacketNumber::U8(5)
        && head.version == 1
}

// Whether the packet has that header and these bytes.
fn has(packet: &Packet, head: &[u8], payload: &[u8]) -> bool {
    is_its_header(&packet.header) && packet.header_data.as_slice() == head && packet.payload.as_slice() == payload
}

// Whether the packet is the same as one of any kind, and its reserved bits are zero or not.
fn is_the_same(head: &'static [u8], payload: &[u8], are_zero: bool) -> bool {
    let bytes = BytesMut::from(payload);
    let packet = Packet::from(initial(head, bytes));
    has(&packet, head, payload) && packet.reserved_bits_valid() == are_zero
}

// The bytes of a header and of a payload, and whether the reserved bits of the first byte are zero: they are not if
// the header has no byte (RFC 9000, section 17.2).
const ROWS: &[(&[u8], &[u8], bool)] = &[
    (b"\xc0\0\0\0\x01\x02\x06\xb8\x01\x07\x02\xaa\xbb\x40\x03\x05", b"\x01\0", true),
    (b"\xc4\0\0\0\x01\x02\x06\xb8\x01\x07\x02\xaa\xbb\x40\x01\x05", b"", false),
    (b"\xf3", b"\x01", true),
    (b"\xc8", b"\x01", false),
    (b"", b"\x01", false),
];

#[test]
fn an_initial_packet_is_a_packet() {
    for &(head, payload, are_zero) in ROWS {
        let is_same = is_the_same(head, payload, are_zero);
        assert!(is_same, "at {head:?}");
    }
}
