//! Headers that are written from borrowed fields.
use super::{HeaderKind, PacketPlace};
use crate::WriteError;
use crate::ids::MAX_CID_SIZE;
use crate::packet::{FIXED_BIT, LongType, PacketNumber};
use crate::proved::quic_header_encode::store::{Exact, HeaderRef, set_len};
use crate::varint;
use alloc::vec::Vec;

/// The header of a packet to be written, whose ids and token are borrowed. [`crate::packet::Header`] owns them.
///
/// ```
/// use quic_wire::datagram::Header;
/// use quic_wire::packet::PacketNumber;
/// let number = PacketNumber::new(300, 299);
/// let header = Header::Short { spin: true, key_phase: false, dst_cid: &[0xaa], number };
/// let mut out = [0; 3];
/// let written = header.encode_into(&mut out)?;
/// assert_eq!((written.header_len, written.number, out), (3, 2, [0x60, 0xaa, 0x2c]));
/// # Ok::<(), quic_wire::WriteError>(())
/// ```
#[derive(Clone, Copy, Debug, PartialEq, Eq, Hash)]
pub enum Header<'a> {
    /// The header of an Initial packet (RFC 9000, section 17.2.2).
    Initial {
        /// The receiver's id.
        dst_cid: &'a [u8],
        /// The sender's id.
        src_cid: &'a [u8],
        /// The token.
        token: &'a [u8],
        /// The truncated packet number.
        number: PacketNumber,
        /// The version of QUIC.
        version: u32,
    },
    /// The header of a Handshake or 0-RTT packet (RFC 9000, sections 17.2.3 and 17.2.4).
    Long {
        /// Which of the two.
        ty: LongType,
        /// The receiver's id.
        dst_cid: &'a [u8],
        /// The sender's id.
        src_cid: &'a [u8],
        /// The truncated packet number.
        number: PacketNumber,
        /// The version of QUIC.
        version: u32,
    },
    /// The header of a Retry packet (RFC 9000, section 17.2.5). Its token and tag follow it.
    Retry {
        /// The receiver's id.
        dst_cid: &'a [u8],
        /// The sender's id.
        src_cid: &'a [u8],
        /// The version of QUIC.
        version: u32,
    },
    /// The header of a 1-RTT packet (RFC 9000, section 17.3.1).
    Short {
        /// The spin bit (RFC 9000, section 17.4).
        spin: bool,
        /// The Key Phase bit (RFC 9001, section 6).
        key_phase: bool,
        /// The receiver's id.
        dst_cid: &'a [u8],
        /// The truncated packet number.
        number: PacketNumber,
    },
}

/// Where a header was written: offsets from its front.
#[derive(Clone, Copy, Debug, PartialEq, Eq, Hash)]
pub struct PartialEncode {
    /// How many bytes the header has, with its packet number.
    pub header_len: usize,
    /// Where its packet number begins, or the header's end if it has none.
    pub number: usize,
    // Whether it has a length, of two bytes.
    has_len: bool,
}

impl PartialEncode {
    /// Fills in the length of the packet, which ends with `packet` and begins with the header, if the header has one.
    ///
    /// ```
    /// use quic_wire::datagram::Header;
    /// use quic_wire::packet::{LongType, PacketNumber};
    /// let number = PacketNumber::U8(9);
    /// let header = Header::Long { ty: LongType::ZeroRtt, dst_cid: &[], src_cid: &[], number, version: 1 };
    /// let mut packet = Vec::new();
    /// let written = header.encode(&mut packet)?;
    /// packet.extend([0; 20]);
    /// written.set_len(&mut packet)?;
    /// assert_eq!(packet[..10], [0xd0, 0, 0, 0, 1, 0, 0, 0x40, 21, 9]);
    /// # Ok::<(), quic_wire::WriteError>(())
    /// ```
    ///
    /// # Errors
    ///
    /// If the packet ends before its number, or has 2^14 bytes or more from there on. Nothing changes then.
    #[inline]
    pub fn set_len(&self, packet: &mut [u8]) -> Result<(), WriteError> {
        if !self.has_len || set_len(packet, self.number, 2) {
            return Ok(());
        }
        Err(WriteError::OutOfRange("a packet is too long for its length, or ends before its number"))
    }

    /// Where the packet is in `packet`, which is the whole of it.
    ///
    /// # Panics
    ///
    /// If the packet ends before its number.
    #[inline]
    pub fn place(&self, packet: &[u8]) -> PacketPlace {
        PacketPlace::new(0..packet.len(), self.number)
    }
}

// What a header without a number or a token has.
const NO_NUMBER: PacketNumber = PacketNumber::U8(0);
const NO_BYTES: &[u8] = &[];

impl<'a> Header<'a> {
    // The header as the proved writer has it, with this fixed bit.
    #[inline]
    fn fields(&self, fixed: u8) -> HeaderRef<'_, Exact<'a>> {
        let long = |kind, version, dst_cid, src_cid, token, number| HeaderRef {
            kind,
            first: 0x80 | fixed,
            version,
            dst_cid: Exact(dst_cid),
            src_cid: Exact(src_cid),
            token,
            number,
            length_len: 2,
        };
        match self {
            Header::Initial { dst_cid, src_cid, token, number, version } => {
                long(HeaderKind::Initial, *version, dst_cid, src_cid, token, number)
            }
            Header::Long { ty: LongType::Handshake, dst_cid, src_cid, number, version } => {
                long(HeaderKind::Handshake, *version, dst_cid, src_cid, NO_BYTES, number)
            }
            Header::Long { ty: LongType::ZeroRtt, dst_cid, src_cid, number, version } => {
                long(HeaderKind::ZeroRtt, *version, dst_cid, src_cid, NO_BYTES, number)
            }
            Header::Retry { dst_cid, src_cid, version } => {
                long(HeaderKind::Retry, *version, dst_cid, src_cid, NO_BYTES, &NO_NUMBER)
            }
            Header::Short { spin, key_phase, dst_cid, number } => {
                let first = fixed | u8::from(*spin) << 5 | u8::from(*key_phase) << 2;
                HeaderRef { first, ..long(HeaderKind::Short, 0, dst_cid, NO_BYTES, NO_BYTES, number) }
            }
        }
    }

    // The same, if a receiver accepts what is written.
    #[inline]
    fn checked(&self, fixed: u8) -> Result<HeaderRef<'_, Exact<'a>>, WriteError> {
        let fields = self.fields(fixed);
        let is_long_id = |id: Exact<'_>| id.0.len() > MAX_CID_SIZE;
        let what = if is_long_id(fields.dst_cid) || is_long_id(fields.src_cid) {
            "a connection id has more than 20 bytes"
        } else if fields.kind != HeaderKind::Short && fields.version == 0 {
            "a long header of version 0 is a version negotiation"
        } else if matches!(fields.number, PacketNumber::U24(low) if *low >= 1 << 24) {
            "a packet number of three bytes is 2^24 or more"
        } else if fields.token.len() as u64 > varint::MAX {
            "a token of 2^62 bytes or more"
        } else {
            return Ok(fields);
        };
        Err(WriteError::OutOfRange(what))
    }

    // Where the header was written.
    fn written(fields: &HeaderRef<'_, Exact<'_>>, header_len: usize) -> PartialEncode {
        let number_len = if fields.kind.has_number() { fields.number.len() } else { 0 };
        PartialEncode { header_len, number: header_len - number_len, has_len: fields.kind.has_len() }
    }

    /// How many bytes the header has.
    ///
    /// # Errors
    ///
    /// As [`Header::encode_into`], except for too little room.
    pub fn encoded_len(&self) -> Result<usize, WriteError> {
        Ok(self.checked(FIXED_BIT)?.encoded_len())
    }

    /// Stores the header at the front of a slice. Its length, if it has one, is two zeros, which
    /// [`PartialEncode::set_len`] fills in.
    ///
    /// # Errors
    ///
    /// If no receiver would accept it: an id has more than 20 bytes, a long header has version 0, or a `U24` is 2^24 or
    /// more; or if there is too little room. Nothing changes then.
    #[inline]
    pub fn encode_into(&self, dest: &mut [u8]) -> Result<PartialEncode, WriteError> {
        self.encode_with(false, dest)
    }

    /// As [`Header::encode_into`]; the fixed bit may be clear (RFC 9287).
    ///
    /// # Errors
    ///
    /// As [`Header::encode_into`].
    #[inline]
    pub fn encode_with(&self, clear_fixed_bit: bool, dest: &mut [u8]) -> Result<PartialEncode, WriteError> {
        let fields = self.checked(if clear_fixed_bit { 0 } else { FIXED_BIT })?;
        if !fields.fits(dest.len()) {
            return Err(WriteError::NoRoom);
        }
        let header_len = fields.store::<false>(dest);
        Ok(Header::written(&fields, header_len))
    }

    /// Appends the header, as [`Header::encode_into`] stores it. The offsets count from the header's front.
    ///
    /// # Errors
    ///
    /// As [`Header::encode_into`], except for too little room.
    pub fn encode(&self, out: &mut Vec<u8>) -> Result<PartialEncode, WriteError> {
        let fields = self.checked(FIXED_BIT)?;
        let start = out.len();
        out.resize(start + fields.encoded_len(), 0);
        let header_len = fields.store::<false>(&mut out[start..]);
        Ok(Header::written(&fields, header_len))
    }
}
