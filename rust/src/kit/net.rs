//! What addresses have only since Rust 1.91.
use core::net::{Ipv4Addr, Ipv6Addr};

/// An IPv4 address from its bytes.
pub trait Ipv4AddrExt {
    /// `from_octets`.
    fn kit_from_octets(octets: [u8; 4]) -> Ipv4Addr;
}

impl Ipv4AddrExt for Ipv4Addr {
    #[inline]
    fn kit_from_octets(octets: [u8; 4]) -> Ipv4Addr {
        octets.into()
    }
}

/// An IPv6 address from its bytes.
pub trait Ipv6AddrExt {
    /// `from_octets`.
    fn kit_from_octets(octets: [u8; 16]) -> Ipv6Addr;
}

impl Ipv6AddrExt for Ipv6Addr {
    #[inline]
    fn kit_from_octets(octets: [u8; 16]) -> Ipv6Addr {
        octets.into()
    }
}
