//! Version negotiations (RFC 9000, section 17.2.1). All of this file is written in Rust: no proof covers it.
use super::HeaderPlaces;
use crate::WriteError;
use bytes::BufMut;
use core::fmt;
use core::iter::FusedIterator;

/// A version negotiation to be written. Its ids are those of the packet that it responds to, which may have any
/// version, so they have up to 255 bytes (RFC 8999, section 6).
///
/// ```
/// use quic_wire::datagram::{HeaderPlaces, VersionNegotiation};
/// let (dst_cid, src_cid) = (&[7; 30][..], &[][..]);
/// let mut packet = Vec::new();
/// VersionNegotiation { random: 0x40, dst_cid, src_cid, versions: &[1] }.encode(&mut packet)?;
/// let header = HeaderPlaces::read_version_negotiation(&packet).unwrap();
/// assert_eq!((header.dst_cid(&packet), header.src_cid(&packet)), (dst_cid, src_cid));
/// assert_eq!(header.versions(&packet).collect::<Vec<_>>(), [1]);
/// assert!(HeaderPlaces::read(&packet, 0, &[]).is_err());
/// # Ok::<(), quic_wire::WriteError>(())
/// ```
#[derive(Clone, Copy, Debug, PartialEq, Eq, Hash)]
pub struct VersionNegotiation<'a> {
    /// The first byte without its highest bit. Receivers that don't accept greased packets require 0x40 in it.
    pub random: u8,
    /// The receiver's id.
    pub dst_cid: &'a [u8],
    /// The sender's id.
    pub src_cid: &'a [u8],
    /// The versions that the sender supports.
    pub versions: &'a [u32],
}

impl VersionNegotiation<'_> {
    /// How many bytes the packet has.
    pub fn encoded_len(&self) -> usize {
        7 + self.dst_cid.len() + self.src_cid.len() + 4 * self.versions.len()
    }

    /// Appends the packet, and returns how many bytes it has.
    ///
    /// # Errors
    ///
    /// If an id has more than 255 bytes, or there is too little room. Nothing is written then.
    pub fn encode<B: BufMut>(&self, out: &mut B) -> Result<usize, WriteError> {
        let (Ok(dst_len), Ok(src_len)) = (u8::try_from(self.dst_cid.len()), u8::try_from(self.src_cid.len())) else {
            return Err(WriteError::OutOfRange("a connection id has more than 255 bytes"));
        };
        let len = self.encoded_len();
        if out.remaining_mut() < len {
            return Err(WriteError::NoRoom);
        }
        out.put_u8(0x80 | self.random);
        out.put_u32(0);
        out.put_u8(dst_len);
        out.put_slice(self.dst_cid);
        out.put_u8(src_len);
        out.put_slice(self.src_cid);
        self.versions.iter().for_each(|version| out.put_u32(*version));
        Ok(len)
    }
}

impl HeaderPlaces {
    /// Reads the header of a version negotiation, whose ids may have up to 255 bytes. If both have at most 20,
    /// [`HeaderPlaces::read`] returns the same; it rejects longer ones. `None` if it isn't a version negotiation. The
    /// fixed bit isn't checked.
    pub fn read_version_negotiation(packet: &[u8]) -> Option<HeaderPlaces> {
        let (first, rest) = packet.split_first()?;
        let (version, rest) = rest.split_first_chunk::<4>()?;
        if *first < 0x80 || *version != [0; 4] {
            return None;
        }
        let (dst_len, rest) = split_id(rest)?;
        let (src_len, _versions) = split_id(rest)?;
        Some(HeaderPlaces::negotiation(packet, dst_len, src_len))
    }
}

// How many bytes an id has, and what follows it.
fn split_id(bytes: &[u8]) -> Option<(usize, &[u8])> {
    let (len, rest) = bytes.split_first()?;
    let len = usize::from(*len);
    Some((len, rest.get(len..)?))
}

/// The versions that a version negotiation names. Bytes at its end that aren't a whole version are ignored.
#[derive(Clone)]
pub struct Versions<'a>(&'a [u8]);

impl<'a> Versions<'a> {
    pub(super) fn of(bytes: &'a [u8]) -> Versions<'a> {
        Versions(bytes)
    }
}

impl Iterator for Versions<'_> {
    type Item = u32;

    fn next(&mut self) -> Option<u32> {
        let (version, rest) = self.0.split_first_chunk()?;
        self.0 = rest;
        Some(u32::from_be_bytes(*version))
    }
}

impl FusedIterator for Versions<'_> {}

impl fmt::Debug for Versions<'_> {
    fn fmt(&self, f: &mut fmt::Formatter<'_>) -> fmt::Result {
        f.debug_list().entries(self.clone()).finish()
    }
}
