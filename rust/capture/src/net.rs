//! Frames of links down to UDP: Ethernet with VLANs and MPLS, raw IP, BSD's loopback, Linux's cooked captures; IPv4,
//! and IPv6 with extension headers.

use std::net::{IpAddr, Ipv4Addr, Ipv6Addr};

/// UDP's number among IP's protocols.
pub(crate) const UDP: u8 = 17;

/// How many bytes UDP's header has.
pub(crate) const UDP_HEADER: usize = 8;

/// A packet of IP, or a fragment of one.
#[derive(Debug, PartialEq, Eq)]
pub(crate) struct IpPacket<'a> {
    pub(crate) from: IpAddr,
    pub(crate) to: IpAddr,
    /// What its payload begins with, as IP numbers protocols.
    pub(crate) protocol: u8,
    /// Where its payload begins in the frame.
    pub(crate) at: usize,
    pub(crate) payload: &'a [u8],
    /// How many bytes of its payload weren't captured.
    pub(crate) missing: usize,
    pub(crate) fragment: Option<Fragment>,
}

/// Which part of a packet a fragment is.
#[derive(Clone, Copy, Debug, PartialEq, Eq)]
pub(crate) struct Fragment {
    pub(crate) id: u32,
    pub(crate) offset: usize,
    pub(crate) has_more: bool,
}

/// A datagram of UDP in the payload of an IP packet.
#[derive(Debug, PartialEq, Eq)]
pub(crate) struct UdpDatagram<'a> {
    pub(crate) from_port: u16,
    pub(crate) to_port: u16,
    pub(crate) bytes: &'a [u8],
    pub(crate) missing: usize,
}

fn u16_at(bytes: &[u8], at: usize) -> Option<u16> {
    bytes.get(at..)?.first_chunk().map(|two| u16::from_be_bytes(*two))
}

/// The IP packet in a frame, by the link's type as pcap numbers them.
pub(crate) fn ip_packet(link: u16, frame: &[u8]) -> Option<IpPacket<'_>> {
    let begin = ip_offset(link, frame)?;
    let bytes = frame.get(begin..)?;
    let packet = match bytes.first()? >> 4 {
        4 => ipv4(bytes),
        6 => ipv6(bytes),
        _ => None,
    }?;
    Some(IpPacket { at: begin + packet.at, ..packet })
}

/// Whether the capturing host sent a frame, and didn't receive it, as Linux says in captures of all interfaces.
pub(crate) fn is_outgoing(link: u16, frame: &[u8]) -> Option<bool> {
    let kind = match link {
        113 => u16_at(frame, 0)?,
        276 => u16::from(*frame.get(10)?),
        _ => return None,
    };
    match kind {
        0 => Some(false),
        4 => Some(true),
        _ => None,
    }
}

// Where the IP packet begins in a frame.
fn ip_offset(link: u16, frame: &[u8]) -> Option<usize> {
    // Where the type of what follows is, and where that begins.
    let (mut kind, mut at) = match link {
        0 | 108 => return Some(4),
        12 | 14 | 101 | 228 | 229 => return Some(0),
        1 => (12, 14),
        113 => (14, 16),
        276 => (0, 20),
        _ => return None,
    };
    loop {
        match u16_at(frame, kind)? {
            0x8100 | 0x88a8 | 0x9100 => (kind, at) = (at + 2, at + 4),
            // Labels of MPLS; the last has a bit set.
            0x8847 | 0x8848 => {
                let labels = frame.get(at..)?.chunks_exact(4).position(|label| label[2] & 1 != 0)?;
                return Some(at + 4 * (labels + 1));
            }
            0x0800 | 0x86dd => return Some(at),
            _ => return None,
        }
    }
}

// The first bytes of a packet's rest, as many as there are, and how many are missing.
fn front(rest: &[u8], len: usize) -> (&[u8], usize) {
    let there = rest.len().min(len);
    (&rest[..there], len - there)
}

fn ipv4(bytes: &[u8]) -> Option<IpPacket<'_>> {
    let header_len = usize::from(bytes.first()? & 15) * 4;
    let header: &[u8; 20] = bytes.first_chunk().filter(|_| header_len >= 20)?;
    let address = |at: usize| Ipv4Addr::new(header[at], header[at + 1], header[at + 2], header[at + 3]);
    // A length of 0 is that of a packet which the network card cuts.
    let len = match u16_at(header, 2)? {
        0 => bytes.len(),
        len => len.into(),
    };
    let (payload, missing) = front(bytes.get(header_len..)?, len.checked_sub(header_len)?);
    let flags = u16_at(header, 6)?;
    let (offset, has_more) = (usize::from(flags & 0x1fff) * 8, flags & 0x2000 != 0);
    let fragment = Fragment { id: u16_at(header, 4)?.into(), offset, has_more };
    Some(IpPacket {
        from: address(12).into(),
        to: address(16).into(),
        protocol: header[9],
        at: header_len,
        payload,
        missing,
        fragment: Some(fragment).filter(|_| offset > 0 || has_more),
    })
}

fn ipv6(bytes: &[u8]) -> Option<IpPacket<'_>> {
    let (header, rest) = bytes.split_first_chunk::<40>()?;
    let address = |at: usize| header.get(at..)?.first_chunk::<16>().map(|bytes| Ipv6Addr::from(*bytes).into());
    let len = match u16_at(header, 4)? {
        0 => rest.len(),
        len => len.into(),
    };
    let (behind, missing) = front(rest, len);
    let (protocol, payload, fragment) = after_extensions(header[6], behind)?;
    let at = header.len() + behind.len() - payload.len();
    Some(IpPacket { from: address(8)?, to: address(24)?, protocol, at, payload, missing, fragment })
}

/// What follows IPv6's extension headers, up to the one of a fragment that isn't the whole packet.
pub(crate) fn after_extensions(mut protocol: u8, mut rest: &[u8]) -> Option<(u8, &[u8], Option<Fragment>)> {
    loop {
        let len = match protocol {
            // Hop-by-hop options, routing and destination options.
            0 | 43 | 60 => 8 * (1 + usize::from(*rest.get(1)?)),
            51 => 4 * (2 + usize::from(*rest.get(1)?)),
            44 => 8,
            _ => return Some((protocol, rest, None)),
        };
        let (header, behind) = rest.split_at_checked(len)?;
        if protocol == 44 {
            let flags = u16_at(header, 2)?;
            let (offset, has_more) = (usize::from(flags & 0xfff8), flags & 1 != 0);
            let id = u32::from_be_bytes(*header.last_chunk()?);
            if offset > 0 || has_more {
                return Some((header[0], behind, Some(Fragment { id, offset, has_more })));
            }
        }
        (protocol, rest) = (header[0], behind);
    }
}

/// The datagram of UDP in a payload, from which bytes at the end may be missing.
pub(crate) fn udp_datagram(payload: &[u8], missing: usize) -> Option<UdpDatagram<'_>> {
    let (header, rest) = payload.split_first_chunk::<UDP_HEADER>()?;
    let len = match u16_at(header, 4)? {
        0 => rest.len() + missing,
        len => usize::from(len).checked_sub(UDP_HEADER)?,
    };
    let (bytes, missing) = front(rest, len);
    (!bytes.is_empty()).then_some(UdpDatagram {
        from_port: u16_at(header, 0)?,
        to_port: u16_at(header, 2)?,
        bytes,
        missing,
    })
}
