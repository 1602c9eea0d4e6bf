//! Header protection (RFC 9001, section 5.4). Masks are applied in Rust, which no proof covers; the packet number is
//! read and expanded by proved functions.
use crate::packet::PacketNumber;
use crate::varint;
use alloc::vec::Vec;
use core::fmt;
use core::ops::Range;

/// Where a packet and its number are in its datagram, which it doesn't borrow.
///
/// ```
/// use quic_wire::datagram::{Packets, UnprotectError};
/// // A short header with an id of two bytes and a number of one byte, under a mask of ones and fives.
/// let mut datagram = [0x5f, 0xaa, 0xbb, 0x2c ^ 0x05, 1, 2, 3, 4, 5, 6, 7];
/// let place = Packets::new(&datagram, 2, &[1], false).next().unwrap()?.place();
/// assert_eq!(place.sample(&datagram, 5), Err(UnprotectError::TooShort));
/// let opened = place.unprotect_with(&mut datagram, 4, |sample| [0x1f, 5, 5, sample[1], 5], 300)?;
/// assert_eq!((opened.number, opened.number_len, opened.payload, opened.first), (300, 1, 4, 0x40));
/// assert_eq!(datagram[..4], [0x40, 0xaa, 0xbb, 0x2c]);
/// # Ok::<(), quic_wire::Error>(())
/// ```
#[derive(Clone, Copy, Debug, PartialEq, Eq, Hash)]
pub struct PacketPlace {
    begin: usize,
    number: usize,
    end: usize,
}

/// Why header protection wasn't removed or applied.
#[derive(Clone, Copy, Debug, PartialEq, Eq, Hash)]
#[non_exhaustive]
pub enum UnprotectError {
    /// The packet has no packet number, or is too short for the sample or for a number of four bytes.
    TooShort,
    /// The packet isn't in this datagram.
    NotThere,
    /// The expected packet number is 2^62 or more.
    Expected,
}

impl fmt::Display for UnprotectError {
    fn fmt(&self, f: &mut fmt::Formatter<'_>) -> fmt::Result {
        f.write_str(match self {
            UnprotectError::TooShort => "packet too short to extract header protection sample",
            UnprotectError::NotThere => "the packet isn't in this datagram",
            UnprotectError::Expected => "the expected packet number is 2^62 or more",
        })
    }
}

impl core::error::Error for UnprotectError {}

/// A packet number, and the fields of a header that are readable once its protection was removed.
///
/// ```
/// use quic_wire::datagram::Opened;
/// let opened = Opened { number: 300, number_len: 1, payload: 4, first: 0x44 };
/// assert!(opened.key_phase() && opened.reserved_bits_valid());
/// ```
#[derive(Clone, Copy, Debug, PartialEq, Eq, Hash)]
pub struct Opened {
    /// The whole packet number.
    pub number: u64,
    /// How many bytes it has in the packet, 1 to 4.
    pub number_len: usize,
    /// Where the header ends and the payload begins in the datagram.
    pub payload: usize,
    /// The unprotected first byte.
    pub first: u8,
}

impl Opened {
    /// The Key Phase bit of a 1-RTT packet (RFC 9001, section 6); false for others.
    #[inline]
    pub fn key_phase(&self) -> bool {
        self.first & 0x84 == 0x04
    }

    /// Whether the reserved bits are 0, as they must be; otherwise it is a `PROTOCOL_VIOLATION`, once the payload was
    /// opened (RFC 9000, section 17.2).
    #[inline]
    pub fn reserved_bits_valid(&self) -> bool {
        self.first & if self.first < 0x80 { 0x18 } else { 0x0c } == 0
    }
}

// Applies a mask to the bits of a first byte that are protected.
fn mask_first(first: &mut u8, mask: &[u8; 5]) {
    *first ^= mask[0] & if *first < 0x80 { 0x1f } else { 0x0f };
}

// Applies a mask to as many bytes of a number as it has, by the unprotected first byte.
fn mask_number(first: u8, number: &mut [u8; 4], mask: &[u8; 5]) {
    let len = PacketNumber::decode_len(first);
    number.iter_mut().zip(&mask[1..]).take(len).for_each(|(byte, mask)| *byte ^= mask);
}

impl PacketPlace {
    /// A packet in a datagram, given its byte range and the offset of its packet number there; the packet's end if it
    /// has none.
    ///
    /// ```
    /// use quic_wire::datagram::PacketPlace;
    /// // A packet of 100 bytes after another one, whose header has 9 bytes before its number.
    /// assert_eq!(PacketPlace::new(50..150, 59).number(), 59);
    /// ```
    ///
    /// # Panics
    ///
    /// If the number doesn't begin in the packet.
    #[inline]
    pub fn new(packet: Range<usize>, number: usize) -> Self {
        assert!(packet.start <= number && number <= packet.end, "a packet's number begins in it");
        PacketPlace { begin: packet.start, number, end: packet.end }
    }

    /// The packet's bytes in the datagram.
    #[inline]
    pub fn range(&self) -> Range<usize> {
        self.begin..self.end
    }

    /// Where its packet number begins in the datagram, or the packet's end if it has none.
    #[inline]
    pub fn number(&self) -> usize {
        self.number
    }

    // The first byte, four bytes from the packet number on, and what follows them.
    #[inline]
    fn parts<'p>(&self, packet: &'p mut [u8]) -> Result<(&'p mut u8, &'p mut [u8; 4], &'p [u8]), UnprotectError> {
        let (first, rest) = packet.split_first_mut().ok_or(UnprotectError::TooShort)?;
        let before = (self.number - self.begin).checked_sub(1).ok_or(UnprotectError::TooShort)?;
        let (_, rest) = rest.split_at_mut_checked(before).ok_or(UnprotectError::TooShort)?;
        let (number, behind) = rest.split_first_chunk_mut().ok_or(UnprotectError::TooShort)?;
        Ok((first, number, behind))
    }

    // The packet in its datagram.
    #[inline]
    fn in_datagram<'d>(&self, datagram: &'d mut [u8]) -> Result<&'d mut [u8], UnprotectError> {
        datagram.get_mut(self.range()).ok_or(UnprotectError::NotThere)
    }

    /// The sample of `len` bytes from which you make the mask (RFC 9001, section 5.4.2).
    ///
    /// ```
    /// use quic_wire::datagram::PacketPlace;
    /// let datagram = [0x40, 7, 0, 1, 2, 3, 4, 5, 6];
    /// assert_eq!(PacketPlace::new(0..9, 2).sample(&datagram, 3)?, [4, 5, 6]);
    /// # Ok::<(), quic_wire::Error>(())
    /// ```
    ///
    /// # Errors
    ///
    /// If the packet is too short, or isn't in the datagram.
    #[inline]
    pub fn sample<'a>(&self, datagram: &'a [u8], len: usize) -> Result<&'a [u8], UnprotectError> {
        let packet = datagram.get(self.range()).ok_or(UnprotectError::NotThere)?;
        let behind = packet.get(self.number - self.begin + 4..).ok_or(UnprotectError::TooShort)?;
        behind.get(..len).ok_or(UnprotectError::TooShort)
    }

    // What is read once the protection was removed, by an expected number below 2^62.
    #[inline]
    fn opened(&self, first: u8, number: &[u8; 4], expected: u64) -> Opened {
        let number_len = PacketNumber::decode_len(first);
        // It is 1 to 4, so there are as many bytes, and the number is in range.
        let written = PacketNumber::proved_decode(number_len, &mut &number[..]).unwrap_or(PacketNumber::U8(0));
        let number = written.proved_expand(expected);
        Opened { number, number_len, payload: self.number + number_len, first }
    }

    /// Removes the packet's header protection with a mask (RFC 9001, section 5.4.1), and expands its packet number from
    /// the one that is expected next (RFC 9000, appendix A.3); with 0 it is the truncated one.
    ///
    /// ```
    /// use quic_wire::datagram::PacketPlace;
    /// let mut datagram = [0x40, 7, 0, 1, 2, 3];
    /// let opened = PacketPlace::new(0..6, 2).unprotect(&mut datagram, &[0, 5, 0, 0, 0], 0)?;
    /// assert_eq!((opened.number, opened.payload, datagram[2]), (5, 3, 5));
    /// # Ok::<(), quic_wire::Error>(())
    /// ```
    ///
    /// # Errors
    ///
    /// If the packet is too short, isn't in the datagram, or `expected` is 2^62 or more. Nothing changes then.
    #[inline]
    pub fn unprotect(&self, datagram: &mut [u8], mask: &[u8; 5], expected: u64) -> Result<Opened, UnprotectError> {
        self.unprotect_with(datagram, 0, |_| *mask, expected)
    }

    /// As [`PacketPlace::unprotect`], but with the mask that `mask` makes from a sample of `sample_len` bytes.
    ///
    /// # Errors
    ///
    /// As [`PacketPlace::unprotect`].
    #[inline]
    pub fn unprotect_with(
        &self,
        datagram: &mut [u8],
        sample_len: usize,
        mask: impl FnOnce(&[u8]) -> [u8; 5],
        expected: u64,
    ) -> Result<Opened, UnprotectError> {
        let unmask = |sample: &[u8], first: &mut u8, number: &mut [u8; 4]| {
            let mask = mask(sample);
            mask_first(first, &mask);
            mask_number(*first, number, &mask);
        };
        self.unprotect_by(datagram, sample_len, unmask, expected)
    }

    /// As [`PacketPlace::unprotect`], but with a cipher that removes its mask itself and doesn't reveal it, like that
    /// of `rustls`. It gets the sample of `sample_len` bytes, the first byte, and four bytes from the packet number on,
    /// of which it changes the number's.
    ///
    /// ```
    /// use quic_wire::datagram::PacketPlace;
    /// # struct Key;
    /// # impl Key {
    /// #     fn decrypt_in_place(&self, _sample: &[u8], _first: &mut u8, number: &mut [u8]) { number[0] ^= 5 }
    /// # }
    /// # let key = Key;
    /// let mut datagram = [0x40, 7, 0, 1, 2, 3, 4, 5];
    /// let place = PacketPlace::new(0..8, 2);
    /// let opened = place.unprotect_by(
    ///     &mut datagram,
    ///     2,
    ///     |sample, first, number| key.decrypt_in_place(sample, first, number),
    ///     0,
    /// )?;
    /// assert_eq!((opened.number, opened.payload, datagram[2]), (5, 3, 5));
    /// # Ok::<(), quic_wire::Error>(())
    /// ```
    ///
    /// # Errors
    ///
    /// As [`PacketPlace::unprotect`]. The cipher isn't called then.
    #[inline]
    pub fn unprotect_by(
        &self,
        datagram: &mut [u8],
        sample_len: usize,
        unmask: impl FnOnce(&[u8], &mut u8, &mut [u8; 4]),
        expected: u64,
    ) -> Result<Opened, UnprotectError> {
        let packet = self.in_datagram(datagram)?;
        if expected > varint::MAX {
            return Err(UnprotectError::Expected);
        }
        let (first, number, behind) = self.parts(packet)?;
        unmask(behind.get(..sample_len).ok_or(UnprotectError::TooShort)?, first, number);
        Ok(self.opened(*first, number, expected))
    }

    /// As [`PacketPlace::unprotect`], but the datagram doesn't change: the unprotected header is appended to `header`,
    /// with four bytes from the packet number on, of which [`Opened::number_len`] are the number's.
    ///
    /// ```
    /// use quic_wire::datagram::PacketPlace;
    /// let datagram = [0x5f, 0xaa, 0xbb, 0x2c ^ 0x05, 1, 2, 3];
    /// let mut header = Vec::new();
    /// let opened = PacketPlace::new(0..7, 3).unprotect_header(&datagram, &[0x1f, 5, 5, 5, 5], 300, &mut header)?;
    /// assert_eq!((opened.number, &header[..opened.payload]), (300, &[0x40, 0xaa, 0xbb, 0x2c][..]));
    /// # Ok::<(), quic_wire::Error>(())
    /// ```
    ///
    /// # Errors
    ///
    /// As [`PacketPlace::unprotect`]. Nothing is appended then.
    pub fn unprotect_header(
        &self,
        datagram: &[u8],
        mask: &[u8; 5],
        expected: u64,
        header: &mut Vec<u8>,
    ) -> Result<Opened, UnprotectError> {
        let packet = datagram.get(self.range()).ok_or(UnprotectError::NotThere)?;
        if expected > varint::MAX {
            return Err(UnprotectError::Expected);
        }
        let protected = packet.get(..self.number - self.begin + 4).ok_or(UnprotectError::TooShort)?;
        let start = header.len();
        header.extend_from_slice(protected);
        let place = PacketPlace::new(0..protected.len(), protected.len() - 4);
        let opened = place.unprotect(&mut header[start..], mask, expected);
        if opened.is_err() {
            header.truncate(start);
        }
        let opened = opened?;
        Ok(Opened { payload: self.number + opened.number_len, ..opened })
    }

    /// Applies header protection to a packet whose payload is sealed.
    ///
    /// ```
    /// use quic_wire::datagram::PacketPlace;
    /// let mut packet = [0x40, 7, 5, 1, 2, 3];
    /// PacketPlace::new(0..6, 2).protect(&mut packet, &[0x1f, 5, 0, 0, 0])?;
    /// assert_eq!(packet, [0x5f, 7, 0, 1, 2, 3]);
    /// # Ok::<(), quic_wire::Error>(())
    /// ```
    ///
    /// # Errors
    ///
    /// If the packet is too short, or isn't in the datagram. Nothing changes then.
    #[inline]
    pub fn protect(&self, datagram: &mut [u8], mask: &[u8; 5]) -> Result<(), UnprotectError> {
        self.protect_by(datagram, 0, |_, first, number| {
            mask_number(*first, number, mask);
            mask_first(first, mask);
        })
    }

    /// As [`PacketPlace::protect`], but with a cipher that applies its mask itself and doesn't reveal it, like that of
    /// `rustls`. It gets what [`PacketPlace::unprotect_by`] passes.
    ///
    /// # Errors
    ///
    /// If the packet is too short, or isn't in the datagram. The cipher isn't called then.
    #[inline]
    pub fn protect_by(
        &self,
        datagram: &mut [u8],
        sample_len: usize,
        mask: impl FnOnce(&[u8], &mut u8, &mut [u8; 4]),
    ) -> Result<(), UnprotectError> {
        let packet = self.in_datagram(datagram)?;
        let (first, number, behind) = self.parts(packet)?;
        mask(behind.get(..sample_len).ok_or(UnprotectError::TooShort)?, first, number);
        Ok(())
    }
}
