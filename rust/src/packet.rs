//! Packets as values: cut from datagrams, opened, sealed, and their headers written (RFC 9000, sections 12.2 and 17;
//! RFC 9001, section 5). [`crate::datagram`] does that in borrowed bytes. [`SpaceKeys`] have one pair of keys for each
//! packet number space; a connection with 0-RTT or key updates opens its packets by [`crate::levels`].
//!
//! ```
//! use bytes::BytesMut;
//! use quic_wire::ConnectionId;
//! use quic_wire::packet::{FixedLengthConnectionIdParser, Header, PacketNumber, PartialDecode};
//! let header = Header::Short {
//!     spin: false,
//!     key_phase: false,
//!     dst_cid: ConnectionId::new(&[7; 8]),
//!     number: PacketNumber::new(300, 299),
//! };
//! let mut datagram = Vec::new();
//! header.encode(&mut datagram);
//! let parser = FixedLengthConnectionIdParser::new(8);
//! let (packet, rest) = PartialDecode::new(BytesMut::from(&datagram[..]), &parser, &[1], false)?;
//! assert_eq!((packet.dst_cid(), rest), (&ConnectionId::new(&[7; 8]), None));
//! # Ok::<(), quic_wire::Error>(())
//! ```
use crate::coding::UnexpectedEnd;
use crate::crypto::{HeaderKey, PacketKey};
use crate::error::{Error, WriteError, grown};
use crate::frame::Frame;
use crate::proved::quic_packets::{opening, seal};
use crate::varint;
use alloc::vec::Vec;
use bytes::{Buf, BufMut, BytesMut};

pub use crate::ids::{DEFAULT_SUPPORTED_VERSIONS, SpaceId};
pub use crate::proved::quic_crypto::packet_number::PacketNumber;
pub use crate::proved::quic_header_decode::cut::PartialDecode;
pub use crate::proved::quic_header_decode::decode_error::PacketDecodeError;
pub use crate::proved::quic_header_decode::packet::{InitialPacket, Packet};
pub use crate::proved::quic_header_decode::parser::{ConnectionIdParser, DecodeOptions, FixedLengthConnectionIdParser};
pub use crate::proved::quic_header_decode::protected::{ProtectedHeader, ProtectedInitialHeader};
pub use crate::proved::quic_header_encode::encode::PartialEncode;
pub use crate::proved::quic_header_encode::header::{Header, InitialHeader};
pub use crate::proved::quic_header_encode::long_type::{
    FIXED_BIT, LONG_HEADER_FORM, LongHeaderType, LongType, SPIN_BIT, VERSION_2,
};
pub use crate::proved::quic_packets::keys::{Expected, Keys, SpaceKeys};
pub use opening::{OpenError, Opened, Packets};
pub use seal::SealError;

impl PacketNumber {
    /// The low part of `n` for a receiver that has acknowledged `largest_acked`. It has the fewest bytes, 1, 2, 3 or 4,
    /// that represent more than twice the distance (RFC 9000, section 17.1), so a receiver that expects a number from
    /// `largest_acked` to `n + 1` finds `n`. [`PacketNumber::try_new`] returns `None` instead of panicking.
    ///
    /// ```
    /// use quic_wire::packet::PacketNumber;
    /// assert_eq!(PacketNumber::new(0xac5c02, 0xabe8b3), PacketNumber::U16(0x5c02));
    /// ```
    ///
    /// # Panics
    ///
    /// If `largest_acked` is above `n`, or 2^31 or more below it.
    #[doc = include_str!("proved/contracts/PacketNumber.new.md")]
    #[inline]
    pub fn new(n: u64, largest_acked: u64) -> PacketNumber {
        let is_near = n >= largest_acked && n - largest_acked < 1 << 31;
        assert!(is_near, "a packet number is 0 to 2^31 - 1 above an acknowledged one");
        PacketNumber::proved_new(n, largest_acked)
    }

    /// As [`PacketNumber::new`]; `None` if that would panic.
    #[inline]
    pub fn try_new(n: u64, largest_acked: u64) -> Option<PacketNumber> {
        let distance = n.checked_sub(largest_acked)?;
        (distance < 1 << 31).then(|| PacketNumber::proved_new(n, largest_acked))
    }

    // Whether it has the bytes that its variant says.
    #[inline(always)]
    fn in_range(self) -> bool {
        !matches!(self, PacketNumber::U24(low) if low >= 1 << 24)
    }

    // Whether it is the low part of a number.
    fn is_low_part_of(self, number: u64) -> bool {
        match self {
            PacketNumber::U8(low) => u64::from(low) == number & 0xff,
            PacketNumber::U16(low) => u64::from(low) == number & 0xffff,
            PacketNumber::U24(low) => u64::from(low) == number & 0xff_ffff,
            PacketNumber::U32(low) => u64::from(low) == number & 0xffff_ffff,
        }
    }

    /// Appends its bytes, the highest first.
    ///
    /// # Errors
    ///
    /// If a `U24` is 2^24 or more, or there is too little room. Nothing is written then.
    #[doc = include_str!("proved/contracts/PacketNumber.encode.md")]
    pub fn encode<W: BufMut>(self, w: &mut W) -> Result<(), WriteError> {
        if !self.in_range() {
            return Err(WriteError::OutOfRange("a packet number of three bytes is 2^24 or more"));
        }
        Ok(self.proved_encode(w)?)
    }

    /// Consumes a number of `len` bytes at the front of the buffer.
    ///
    /// # Errors
    ///
    /// If fewer bytes remain. Nothing is consumed then.
    ///
    /// # Panics
    ///
    /// If `len` isn't 1 to 4.
    #[doc = include_str!("proved/contracts/PacketNumber.decode.md")]
    pub fn decode<R: Buf>(len: usize, r: &mut R) -> Result<PacketNumber, UnexpectedEnd> {
        assert!((1..=4).contains(&len), "a packet number has 1 to 4 bytes");
        PacketNumber::proved_decode(len, r)
    }

    /// The whole packet number, from the one that is expected next (RFC 9000, appendix A.3): of the numbers with this
    /// low part, the one nearest to `expected`. It isn't checked against 2^62.
    ///
    /// ```
    /// use quic_wire::packet::PacketNumber;
    /// assert_eq!(PacketNumber::U16(0x9b32).expand(0xa82f_30ea + 1), 0xa82f_9b32);
    /// ```
    ///
    /// # Panics
    ///
    /// If `expected` is 2^62 or more, or a `U24` is 2^24 or more.
    #[doc = include_str!("proved/contracts/PacketNumber.expand.md")]
    #[inline]
    pub fn expand(self, expected: u64) -> u64 {
        assert!(expected <= varint::MAX, "an expected packet number is below 2^62");
        assert!(self.in_range(), "a packet number of three bytes is below 2^24");
        self.proved_expand(expected)
    }
}

impl FixedLengthConnectionIdParser {
    /// A parser of ids of `expected_len` bytes.
    ///
    /// # Panics
    ///
    /// If that is above 20.
    #[doc = include_str!("proved/contracts/FixedLengthConnectionIdParser.new.md")]
    #[inline]
    pub fn new(expected_len: usize) -> FixedLengthConnectionIdParser {
        assert!(expected_len <= crate::MAX_CID_SIZE, "a connection id has at most 20 bytes");
        FixedLengthConnectionIdParser::proved_new(expected_len)
    }
}

impl Header {
    // Why it can't be written, if so.
    #[inline(always)]
    fn unwritable(&self) -> Option<&'static str> {
        let number = match self {
            Header::Initial(initial) if initial.token.len() as u64 > varint::MAX => {
                return Some("a token of 2^62 bytes or more");
            }
            Header::Initial(InitialHeader { number, .. })
            | Header::Long { number, .. }
            | Header::Short { number, .. } => number,
            Header::Retry { .. } | Header::VersionNegotiate { .. } => return None,
        };
        if number.in_range() { None } else { Some("a packet number of three bytes is 2^24 or more") }
    }

    #[inline(always)]
    fn assert_writable(&self) {
        if let Some(why) = self.unwritable() {
            panic!("{why}");
        }
    }

    /// Appends the header, and returns where it is. Its length, if it has one, is two zeros, which
    /// [`PartialEncode::finish`] fills in.
    ///
    /// # Panics
    ///
    /// If its packet number is a `U24` of 2^24 or more, or its token has 2^62 bytes or more.
    #[doc = include_str!("proved/contracts/Header.encode.md")]
    #[inline]
    pub fn encode(&self, w: &mut Vec<u8>) -> PartialEncode {
        self.assert_writable();
        grown(self.proved_encode(w))
    }

    /// How many bytes [`Header::encode`] appends.
    ///
    /// # Panics
    ///
    /// As [`Header::encode`].
    #[doc = include_str!("proved/contracts/Header.encoded_len.md")]
    pub fn encoded_len(&self) -> usize {
        self.assert_writable();
        self.proved_encoded_len()
    }
}

impl PartialEncode {
    /// Finishes the packet `buf` (RFC 9001, sections 5.3 and 5.4): fills in the length, if the header has one; seals
    /// the payload with the packet number and the key of `crypto`, if given; and protects the header with `header_key`.
    /// The payload's last bytes are room for the tag. Retry and version negotiation don't change.
    #[doc = include_str!("proved/contracts/PartialEncode.finish.md")]
    ///
    /// # Panics
    ///
    /// If the packet ends before its header and the tag, or has fewer than four bytes and the sample from its number
    /// on; if the header has a length and there are 2^14 bytes or more from the number on; or if the number doesn't
    /// come after a first byte, and after the length. Such a header isn't written.
    #[inline(always)]
    pub fn finish<H: HeaderKey + ?Sized, P: PacketKey + ?Sized>(
        self,
        buf: &mut [u8],
        header_key: &H,
        crypto: Option<(u64, &P)>,
    ) {
        if let Some((pn_len, has_len)) = self.pn {
            let is_header = pn_len <= 4 && pn_len < self.header_len && self.header_len <= buf.len();
            assert!(is_header, "a packet has its whole header, whose number comes after other fields");
            let behind = buf.len() - self.header_len;
            let len = behind + pn_len;
            if has_len {
                assert!(pn_len + 2 < self.header_len, "a packet's length comes after a first byte, before its number");
                assert!(len < 1 << 14, "a packet fits in its length field");
            }
            let tag = crypto.as_ref().map_or(0, |(_, key)| key.tag_len());
            assert!(tag <= behind, "a packet has room for its tag");
            assert!(len >= 4 && header_key.sample_size() <= len - 4, "a packet has a sample");
        }
        let crypto = crypto.as_ref().map(|(number, key)| (*number, key));
        self.proved_finish(buf, &header_key, crypto);
    }
}

impl PartialDecode {
    /// Removes the protection of the packet's header, and splits the packet after the header, which ends with the
    /// packet number (RFC 9001, section 5.4). A Retry or version negotiation has no protection: it needs no key, and is
    /// returned unchanged.
    ///
    /// # Errors
    ///
    /// If there are fewer than four bytes and the sample from the number on.
    ///
    /// # Panics
    ///
    /// If there is no key for a packet that has protection, which are those with a [`PartialDecode::space`].
    #[doc = include_str!("proved/contracts/PartialDecode.finish.md")]
    #[inline]
    pub fn finish<H: HeaderKey + ?Sized>(self, header_key: Option<&H>) -> Result<Packet, PacketDecodeError> {
        if header_key.is_none() {
            assert!(self.space().is_none(), "a protected packet needs a header key");
        }
        self.proved_finish(header_key.as_ref())
    }
}

impl Expected {
    // What opening requires.
    pub(crate) fn assert_in_range(&self) {
        let most = self.initial.max(self.handshake).max(self.app);
        assert!(most <= varint::MAX, "an expected packet number is below 2^62");
    }
}

/// Opens a datagram's first packet with the keys and the expected number of its space, and returns it with what follows
/// it. `parser` reads the ids of short headers. With `grease` the fixed bit may be clear (RFC 9287). A Retry or version
/// negotiation is returned unchanged, without a number. An error drops what follows the packet; [`Packets::open_next`]
/// doesn't.
///
/// # Errors
///
/// If no packet can be cut, or it can't be opened.
///
/// # Panics
///
/// If an expected number is 2^62 or more.
#[doc = include_str!("proved/contracts/open_packet.md")]
pub fn open_packet<C: ConnectionIdParser, H: HeaderKey, P: PacketKey>(
    bytes: BytesMut,
    parser: &C,
    versions: &[u32],
    grease: bool,
    keys: &SpaceKeys<H, P>,
    expected: &Expected,
) -> Result<(Opened, Option<BytesMut>), OpenError> {
    expected.assert_in_range();
    opening::open_packet(bytes, parser, versions, grease, keys, expected)
}

/// Opens a datagram's packets one after another, with the same expected numbers for all of them, and appends them to
/// `out`. The first error drops what is left; [`Packets::open_next`] doesn't.
///
/// # Errors
///
/// As [`open_packet`].
///
/// # Panics
///
/// As [`open_packet`].
#[doc = include_str!("proved/contracts/open_datagram.md")]
pub fn open_datagram<C: ConnectionIdParser, H: HeaderKey, P: PacketKey>(
    bytes: BytesMut,
    parser: &C,
    versions: &[u32],
    grease: bool,
    keys: &SpaceKeys<H, P>,
    expected: &Expected,
    out: &mut Vec<Opened>,
) -> Result<(), OpenError> {
    expected.assert_in_range();
    opening::open_datagram(bytes, parser, versions, grease, keys, expected, out)
}

impl Packets {
    /// Opens the next packet as [`open_packet`] does, and moves past it. Returns `None` once nothing is left. A packet
    /// that was cut but not opened is skipped, and the next call goes on after it (RFC 9000, section 12.2). If none can
    /// be cut, the rest is dropped.
    ///
    /// # Panics
    ///
    /// As [`open_packet`].
    #[doc = include_str!("proved/contracts/Packets.open_next.md")]
    pub fn open_next<C: ConnectionIdParser, H: HeaderKey, P: PacketKey>(
        &mut self,
        options: &DecodeOptions<'_, C>,
        keys: &SpaceKeys<H, P>,
        expected: &Expected,
    ) -> Option<Result<Opened, OpenError>> {
        expected.assert_in_range();
        self.proved_open_next(options, keys, expected)
    }
}

/// Appends a packet with this header, number and frames, sealed with the keys, and returns how many bytes it has (RFC
/// 9001, sections 5.3 and 5.4). The frames are written in their shortest form, the last one as the last of its payload.
/// `out` doesn't change after an error.
///
/// # Errors
///
/// [`Error::Write`] if the header can't be written or has another number, if there is no frame, or if one isn't in
/// range; [`Error::Seal`] if the packet is too short for a sample, or too long for its length, or memory runs out.
#[doc = include_str!("proved/contracts/seal_packet.md")]
pub fn seal_packet<H: HeaderKey, P: PacketKey>(
    header: &Header,
    number: u64,
    frames: &[Frame<'_>],
    keys: &Keys<H, P>,
    out: &mut Vec<u8>,
) -> Result<usize, Error> {
    let what = match header.number() {
        _ if header.unwritable().is_some() => header.unwritable(),
        None => Some("a packet without a number has no frames"),
        Some(low) if number > varint::MAX || !low.is_low_part_of(number) => {
            Some("the header has another packet number, or it is 2^62 or more")
        }
        Some(_) if frames.is_empty() => Some("a packet has at least one frame"),
        Some(_) => None,
    };
    if let Some(what) = what {
        return Err(WriteError::OutOfRange(what).into());
    }
    if frames.iter().any(Frame::names_padding) {
        let frames: Vec<_> = frames.iter().map(Frame::without_padding).collect();
        return seal_packet(header, number, &frames, keys, out);
    }
    let (last, others) = frames.split_last().unwrap_or((&Frame::Padding, &[]));
    last.check(true)?;
    others.iter().try_for_each(|frame| frame.check(false))?;
    Ok(seal::seal_packet(header, number, frames, keys, out)?)
}
