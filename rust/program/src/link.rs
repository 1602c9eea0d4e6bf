//! Packets as captures have them, with link, IP and UDP headers before the datagram.
use std::net::{IpAddr, Ipv4Addr, Ipv6Addr, SocketAddr};
use std::ops::Range;

// How long link headers are: none, BSD loopback, Ethernet without and with a tag, Linux cooked captures.
const LINKS: [usize; 6] = [0, 4, 14, 18, 16, 20];
// How many bytes Ethernet may have appended, since it sends at least 46.
const MOST_PADDING: usize = 46;
const UDP: u8 = 17;
const UDP_HEADER: usize = 8;

/// An IP packet.
#[derive(Debug, PartialEq)]
pub struct Packet {
    /// Where UDP's payload is, with source and destination; `None` for another protocol.
    pub udp: Option<(Range<usize>, SocketAddr, SocketAddr)>,
}

/// The IP packet in the bytes. What the link header says of it and all of its lengths must fit, so that hardly any QUIC
/// datagram or payload looks like one.
pub fn packet(bytes: &[u8]) -> Option<Packet> {
    LINKS.iter().find_map(|link| {
        let ip = bytes.get(*link..)?;
        let version = ip.first()? >> 4;
        let (end, transport, protocol, from, to) = match version {
            4 if announced(bytes, *link)? == version => ipv4(ip)?,
            6 if announced(bytes, *link)? == version => ipv6(ip)?,
            _ => return None,
        };
        if end > ip.len() || ip.len() - end > if *link == 0 { 0 } else { MOST_PADDING } {
            return None;
        }
        let udp = ip.get(transport..end)?;
        let (Some(from_port), Some(to_port), Some(len)) = (number(udp, 0), number(udp, 2), number(udp, 4)) else {
            return None;
        };
        match protocol {
            UDP if usize::from(len) == udp.len() && udp.len() >= UDP_HEADER => {
                let payload = link + transport + UDP_HEADER..link + end;
                Some(Packet { udp: Some((payload, (from, from_port).into(), (to, to_port).into())) })
            }
            UDP => None,
            _ => Some(Packet { udp: None }),
        }
    })
}

fn number(bytes: &[u8], at: usize) -> Option<u16> {
    Some(u16::from_be_bytes(bytes.get(at..at + 2)?.try_into().ok()?))
}

// The version of IP that a link header of this length announces.
fn announced(bytes: &[u8], link: usize) -> Option<u8> {
    let type_at = |at| match number(bytes, at)? {
        0x0800 => Some(4),
        0x86dd => Some(6),
        _ => None,
    };
    match (link, bytes) {
        (0, [first, ..]) => Some(first >> 4),
        // AF_INET, and AF_INET6 of Linux and three BSDs, in either byte order.
        (4, [2, 0, 0, 0, ..] | [0, 0, 0, 2, ..]) => Some(4),
        (4, [10 | 24 | 28 | 30, 0, 0, 0, ..] | [0, 0, 0, 10 | 24 | 28 | 30, ..]) => Some(6),
        (14, _) => type_at(12),
        (18, _) if matches!(number(bytes, 12), Some(0x8100 | 0x88a8)) => type_at(16),
        (16, _) => type_at(14),
        (20, _) => type_at(0),
        _ => None,
    }
}

// Where a packet ends, where its payload begins, its protocol and addresses.
type Header = (usize, usize, u8, IpAddr, IpAddr);

// RFC 791, for a packet that isn't fragmented.
fn ipv4(ip: &[u8]) -> Option<Header> {
    let header: &[u8; 20] = ip.first_chunk()?;
    let len = usize::from(header[0] & 0x0f) * 4;
    let is_whole = len >= header.len() && number(header, 6)? & 0x3fff == 0;
    let address = |at: usize| Some(Ipv4Addr::from(<[u8; 4]>::try_from(&header[at..at + 4]).ok()?).into());
    // A checksum of 0 is filled in by the network card.
    let sum: u32 = ip.get(..len)?.chunks_exact(2).map(|two| u32::from(u16::from_be_bytes([two[0], two[1]]))).sum();
    if header[10..12] != [0, 0] && (sum & 0xffff) + (sum >> 16) != 0xffff {
        return None;
    }
    is_whole.then_some((usize::from(number(header, 2)?), len, header[9], address(12)?, address(16)?))
}

// RFC 8200, without extension headers.
fn ipv6(ip: &[u8]) -> Option<Header> {
    let header: &[u8; 40] = ip.first_chunk()?;
    let address = |at: usize| Some(Ipv6Addr::from(<[u8; 16]>::try_from(&header[at..at + 16]).ok()?).into());
    Some((40 + usize::from(number(header, 4)?), 40, header[6], address(8)?, address(24)?))
}

#[cfg(test)]
mod tests {
    use super::*;

    // RFC 791 and RFC 768: whatever is cut off or changed in a packet, it is rejected, or nothing is read outside of
    // it.
    #[test]
    fn a_packet_fits_in_all_of_its_lengths() {
        let mut bytes = vec![0x45, 0, 0, 30, 0, 0, 0x40, 0, 64, UDP, 0, 0, 10, 0, 0, 1, 10, 0, 0, 2];
        bytes.extend([1, 187, 4, 210, 0, 10, 0, 0, 0x41, 0x42]);
        let read = Packet { udp: Some((28..30, ([10, 0, 0, 1], 443).into(), ([10, 0, 0, 2], 1234).into())) };
        assert_eq!(packet(&bytes), Some(read));
        for len in 0..bytes.len() {
            assert_eq!(packet(&bytes[..len]), None, "{len}");
        }
        for (at, change) in [(0, 0x46), (0, 0x65), (3, 31), (6, 0x20), (25, 9)] {
            let mut other = bytes.clone();
            other[at] = change;
            assert_eq!(packet(&other), None, "{at}");
        }
        let mut summed = bytes.clone();
        summed[10..12].copy_from_slice(&[0x26, 0xcd]);
        assert!(packet(&summed).is_some(), "a right checksum");
        summed[11] = 0xce;
        assert_eq!(packet(&summed), None, "a wrong checksum");
        for link in LINKS.into_iter().skip(1) {
            assert_eq!(packet(&[&vec![0; link][..], &bytes].concat()), None, "a link header of {link} zeros");
        }
        let ethernet = [&[0; 12][..], &[8, 0], &bytes, &[0; 16]].concat();
        assert_eq!(packet(&ethernet).and_then(|packet| packet.udp).map(|udp| udp.0), Some(42..44));
    }
}
