//! A packet that is opened in place (RFC 9001, section 5.4).
use super::{HeaderPlaces, Opened, UnprotectError};
use core::fmt;

/// A packet of a datagram that is opened in place, whose header is still protected.
pub struct PacketMut<'a> {
    places: HeaderPlaces,
    packet: &'a mut [u8],
}

impl<'a> PacketMut<'a> {
    // From a packet's bytes.
    pub(super) fn new(places: HeaderPlaces, packet: &'a mut [u8]) -> Self {
        PacketMut { places, packet }
    }

    /// The packet's bytes.
    pub fn data(&self) -> &[u8] {
        self.packet
    }

    /// Its header as offsets in the packet.
    pub fn header(&self) -> &HeaderPlaces {
        &self.places
    }

    /// The receiver's id.
    pub fn dst_cid(&self) -> &[u8] {
        self.places.dst_cid(self.packet)
    }

    /// The packet's bytes, to change them.
    pub fn into_data(self) -> &'a mut [u8] {
        self.packet
    }

    /// Removes the header's protection with the mask that `mask` makes from a sample of `sample_len` bytes, and splits
    /// the packet after the header. The packet number is expanded from the one that is expected next.
    ///
    /// # Errors
    ///
    /// If the packet is too short or has no number, or `expected` is 2^62 or more. Nothing changes then.
    #[inline]
    pub fn open_with(
        self,
        sample_len: usize,
        mask: impl FnOnce(&[u8]) -> [u8; 5],
        expected: u64,
    ) -> Result<OpenedPacket<'a>, UnprotectError> {
        let opened = self.places.place(0).unprotect_with(self.packet, sample_len, mask, expected)?;
        Ok(self.opened(opened))
    }

    /// As [`PacketMut::open_with`], but with a cipher that removes its mask itself, as
    /// [`PacketPlace::unprotect_by`](super::PacketPlace::unprotect_by) calls it.
    ///
    /// # Errors
    ///
    /// As [`PacketMut::open_with`]. The cipher isn't called then.
    #[inline]
    pub fn open_by(
        self,
        sample_len: usize,
        unmask: impl FnOnce(&[u8], &mut u8, &mut [u8; 4]),
        expected: u64,
    ) -> Result<OpenedPacket<'a>, UnprotectError> {
        let opened = self.places.place(0).unprotect_by(self.packet, sample_len, unmask, expected)?;
        Ok(self.opened(opened))
    }

    #[inline]
    fn opened(self, opened: Opened) -> OpenedPacket<'a> {
        let (header_data, payload) = self.packet.split_at_mut(opened.payload);
        OpenedPacket { places: self.places, opened, header_data, payload }
    }
}

impl fmt::Debug for PacketMut<'_> {
    fn fmt(&self, f: &mut fmt::Formatter<'_>) -> fmt::Result {
        f.debug_struct("PacketMut").field("header", &self.places).field("len", &self.packet.len()).finish()
    }
}

/// A packet whose header protection was removed in place. Its payload is still sealed.
#[derive(Debug)]
pub struct OpenedPacket<'a> {
    /// The header's bytes, with the packet number: what an AEAD authenticates besides the payload.
    pub header_data: &'a [u8],
    /// What follows the header.
    pub payload: &'a mut [u8],
    places: HeaderPlaces,
    opened: Opened,
}

impl<'a> OpenedPacket<'a> {
    /// Its header as offsets in `header_data`.
    pub fn header(&self) -> &HeaderPlaces {
        &self.places
    }

    /// The receiver's id.
    ///
    /// # Panics
    ///
    /// If `header_data` was replaced by bytes that end before the id does.
    pub fn dst_cid(&self) -> &'a [u8] {
        self.places.dst_cid(self.header_data)
    }

    /// The sender's id, empty for a short header.
    ///
    /// # Panics
    ///
    /// As [`OpenedPacket::dst_cid`].
    pub fn src_cid(&self) -> &'a [u8] {
        self.places.src_cid(self.header_data)
    }

    /// The token of an Initial, empty for others.
    ///
    /// # Panics
    ///
    /// As [`OpenedPacket::dst_cid`].
    pub fn token(&self) -> &'a [u8] {
        self.places.token(self.header_data)
    }

    /// The whole packet number.
    pub fn number(&self) -> u64 {
        self.opened.number
    }

    /// The packet number, and the first byte.
    pub fn opened(&self) -> Opened {
        self.opened
    }

    /// As [`Opened::key_phase`].
    pub fn key_phase(&self) -> bool {
        self.opened.key_phase()
    }

    /// As [`Opened::reserved_bits_valid`].
    pub fn reserved_bits_valid(&self) -> bool {
        self.opened.reserved_bits_valid()
    }
}
