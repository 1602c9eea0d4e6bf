//! Capture files, made of frames.
#![allow(dead_code, reason = "each test uses a part")]

use std::net::{IpAddr, SocketAddr};

/// How numbers are written.
#[derive(Clone, Copy, PartialEq, Eq)]
pub enum Order {
    Big,
    Little,
}

impl Order {
    fn u32(self, number: u32) -> [u8; 4] {
        if self == Order::Big { number.to_be_bytes() } else { number.to_le_bytes() }
    }

    fn u16(self, number: u16) -> [u8; 2] {
        if self == Order::Big { number.to_be_bytes() } else { number.to_le_bytes() }
    }
}

/// A pcap file of frames that were captured at 1 s and 2 parts.
pub fn pcap(order: Order, magic: u32, link: u32, frames: &[&[u8]]) -> Vec<u8> {
    let mut file: Vec<u8> = [magic, 0x0002_0004, 0, 0, 262_144, link].iter().flat_map(|n| order.u32(*n)).collect();
    for frame in frames {
        let len = frame.len() as u32;
        file.extend([1, 2, len, len].iter().flat_map(|n| order.u32(*n)));
        file.extend_from_slice(frame);
    }
    file
}

/// A block of a pcapng file.
pub fn block(order: Order, kind: u32, body: &[u8]) -> Vec<u8> {
    let padded = body.len().next_multiple_of(4);
    let len = order.u32(padded as u32 + 12);
    let padding = vec![0; padded - body.len()];
    [&order.u32(kind), &len, body, &padding, &len].map(|part: &[u8]| part.to_vec()).concat()
}

/// The block that begins a section.
pub fn section(order: Order) -> Vec<u8> {
    let body = [order.u32(0x1a2b_3c4d), order.u32(1), order.u32(u32::MAX), order.u32(u32::MAX)].concat();
    block(order, 0x0a0d_0d0a, &body)
}

/// The block of an interface, with options.
pub fn interface(order: Order, link: u16, options: &[(u16, &[u8])]) -> Vec<u8> {
    let mut body = [order.u16(link), order.u16(0)].concat();
    body.extend(order.u32(0));
    for (code, value) in options {
        body.extend([order.u16(*code), order.u16(value.len() as u16)].concat());
        body.extend_from_slice(value);
        body.resize(body.len().next_multiple_of(4), 0);
    }
    block(order, 1, &body)
}

/// The block of a frame.
pub fn packet(order: Order, interface: u32, ticks: u64, frame: &[u8]) -> Vec<u8> {
    let len = frame.len() as u32;
    let numbers = [interface, (ticks >> 32) as u32, ticks as u32, len, len];
    let body: Vec<u8> = numbers.iter().flat_map(|n| order.u32(*n)).chain(frame.iter().copied()).collect();
    block(order, 6, &body)
}

/// The block of a key log.
pub fn secrets(order: Order, text: &[u8]) -> Vec<u8> {
    let head = [order.u32(0x544c_534b), order.u32(text.len() as u32)].concat();
    block(order, 10, &[&head, text].concat())
}

/// A datagram of UDP with its header, from port 4433 to port 443.
pub fn udp(bytes: &[u8]) -> Vec<u8> {
    let len = (bytes.len() as u16 + 8).to_be_bytes();
    [&[0x11, 0x51, 0x01, 0xbb], &len[..], &[0, 0], bytes].concat()
}

/// A packet of IPv4, from 10.0.0.1 to 10.0.0.2: UDP, or a fragment with these flags and offset.
pub fn ipv4(flags: u16, payload: &[u8]) -> Vec<u8> {
    let [len, flags] = [(payload.len() as u16 + 20).to_be_bytes(), flags.to_be_bytes()];
    [&[0x45, 0][..], &len, &[0, 7], &flags, &[64, 17, 0, 0, 10, 0, 0, 1, 10, 0, 0, 2], payload].concat()
}

/// A packet of IPv6, from ::1 to ::2.
pub fn ipv6(protocol: u8, payload: &[u8]) -> Vec<u8> {
    let mut packet = vec![0x60, 0, 0, 0];
    packet.extend((payload.len() as u16).to_be_bytes());
    packet.extend([protocol, 64]);
    for last in [1, 2] {
        packet.extend([&[0; 15][..], &[last]].concat());
    }
    packet.extend_from_slice(payload);
    packet
}

/// A whole datagram in IPv4, with the header's checksum and none of UDP. Addresses of IPv6 count as 0.
pub fn ip_datagram(from: SocketAddr, to: SocketAddr, bytes: &[u8]) -> Vec<u8> {
    let octets = |address: SocketAddr| match address.ip() {
        IpAddr::V4(address) => address.octets(),
        IpAddr::V6(_) => [0; 4],
    };
    let len = bytes.len() as u16 + 8;
    let mut packet = [&[0x45, 0][..], &(len + 20).to_be_bytes(), &[0, 0, 0x40, 0, 64, 17, 0, 0]].concat();
    packet.extend([octets(from), octets(to)].concat());
    let sum: u32 = packet.chunks(2).map(|two| u32::from(two[0]) << 8 | u32::from(two[1])).sum();
    let sum = (sum & 0xffff) + (sum >> 16);
    packet[10..12].copy_from_slice(&(!sum as u16).to_be_bytes());
    packet.extend([from.port(), to.port(), len, 0].map(u16::to_be_bytes).concat());
    packet.extend_from_slice(bytes);
    packet
}
