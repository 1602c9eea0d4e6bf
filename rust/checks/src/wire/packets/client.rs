//! The caller that seals two packets in one datagram and opens them again.
use crate::host::prelude::*;
use crate::proved::quic_frames::frame::Frame;
use crate::proved::quic_packets::packet::Opened;
use crate::tested::quic_bench::parsers::NoIds;
use crate::tested::quic_bench::two_packets::{Failure, Outgoing, sealed_and_opened};
use crate::tested::quic_test_refused_packets::worked::{ALL_ZERO, all_toy, handshake, short};

fn through_a_client() -> Result<(Opened, Opened), Failure> {
    let first = Outgoing { header: &handshake(1), number: 0, frames: &[Frame::Ping, Frame::Padding, Frame::Padding] };
    let second =
        Outgoing { header: &short(b"", 5), number: 5, frames: &[Frame::HandshakeDone, Frame::Ping, Frame::Padding] };
    sealed_and_opened(&first, &second, &NoIds, &[1], &all_toy(), &ALL_ZERO)
}

fn is_packet(opened: &Opened, number: u64, payload: &[u8]) -> bool {
    opened.number == Some(number) && opened.payload.as_slice() == payload
}

fn both_come_through() -> bool {
    let Ok((one, other)) = through_a_client() else {
        return false;
    };
    is_packet(&one, 0, b"\x01\0\0") && is_packet(&other, 5, b"\x1e\x01\0")
}

#[test]
fn two_packets_through_a_client() {
    assert!(both_come_through());
}
