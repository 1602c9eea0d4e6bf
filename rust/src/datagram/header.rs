//! The header of a packet as byte ranges in it.
use super::{HeaderKind, PacketPlace, Versions};
use crate::ids::MAX_CID_SIZE;
use crate::levels::Level;
use crate::proved::quic_header_decode::places::{self, ReadError, read_header};
use core::fmt;
use core::ops::Range;

/// What [`HeaderPlaces::read_with`] checks in a packet. The checks are made in Rust: no proof covers them.
#[derive(Clone, Copy, Debug, PartialEq, Eq, Hash)]
pub struct HeaderChecks {
    /// The fixed bit may be clear in every packet (RFC 9287).
    pub grease_quic_bit: bool,
    /// The fixed bit is ignored in version negotiations (RFC 9000, section 17.2.1), and in versions that aren't given
    /// (RFC 8999).
    pub any_version: bool,
    /// A Retry must have a token and a tag of 16 bytes (RFC 9000, section 17.2.5).
    pub whole_retry: bool,
}

impl HeaderChecks {
    /// Those of quinn-proto: the fixed bit must be set in each packet.
    pub const QUINN: HeaderChecks = HeaderChecks { grease_quic_bit: false, any_version: false, whole_retry: false };
    /// What RFC 9000 requires of a protected header, if no extension was negotiated. It is up to you to reject a
    /// version negotiation whose versions are cut off or missing, a Retry whose tag is invalid, an Initial with a token
    /// from a server, datagrams that are too small, and [reserved bits](super::Opened::reserved_bits_valid) that aren't
    /// 0.
    pub const RFC: HeaderChecks = HeaderChecks { grease_quic_bit: false, any_version: true, whole_retry: true };
    // The fixed bit isn't checked.
    const NONE: HeaderChecks = HeaderChecks { grease_quic_bit: true, any_version: false, whole_retry: false };

    // Whether the fixed bit of a packet is clear although it must be set.
    fn lacks_fixed_bit(self, packet: &[u8], versions: &[u32]) -> bool {
        match packet {
            [first, rest @ ..] if first & 0x40 == 0 && !self.grease_quic_bit => {
                let version = rest.first_chunk().map(|bytes| u32::from_be_bytes(*bytes));
                let is_known = version.is_some_and(|version| version != 0 && versions.contains(&version));
                !self.any_version || *first < 0x80 || is_known
            }
            _ => false,
        }
    }
}

/// Why a header wasn't read, or that its packet is cut off.
///
/// ```
/// use quic_wire::datagram::{HeaderPlaces, HeaderError};
/// // A Handshake packet of 100 bytes, of which one came.
/// let bytes = [0xe0, 0, 0, 0, 1, 1, 0xaa, 0, 0x40, 100, 7];
/// let error = HeaderPlaces::read(&bytes, 0, &[1]).unwrap_err();
/// assert_eq!(error.to_string(), "packet too short to contain payload length");
/// let HeaderError::CutOff(header) = error else { panic!() };
/// assert_eq!((header.dst_cid(&bytes), header.header_end(), header.end()), (&[0xaa][..], 10, 11));
/// ```
#[derive(Clone, Copy, Debug, PartialEq, Eq)]
pub enum HeaderError {
    /// The version isn't among those that were given. Nothing after its ids can be read.
    UnsupportedVersion(UnsupportedVersion),
    /// The bytes end within the packet. It has the whole header.
    CutOff(HeaderPlaces),
    /// No header can be read.
    InvalidHeader(&'static str),
}

impl fmt::Display for HeaderError {
    fn fmt(&self, f: &mut fmt::Formatter<'_>) -> fmt::Result {
        match self {
            HeaderError::UnsupportedVersion(packet) => write!(f, "unsupported version {:x}", packet.version),
            HeaderError::CutOff(_) => f.write_str("packet too short to contain payload length"),
            HeaderError::InvalidHeader(reason) => f.write_str(reason),
        }
    }
}

impl core::error::Error for HeaderError {}

impl From<ReadError> for HeaderError {
    fn from(error: ReadError) -> HeaderError {
        match error {
            ReadError::UnsupportedVersion { version, dst_len, src_len } => {
                HeaderError::UnsupportedVersion(UnsupportedVersion { version, dst_len, src_len })
            }
            error => HeaderError::InvalidHeader(reason_of(error)),
        }
    }
}

// quinn-proto's text of an error.
pub(crate) fn reason_of(error: ReadError) -> &'static str {
    match error {
        ReadError::UnsupportedVersion { .. } => "unsupported version",
        ReadError::UnexpectedEnd => "unexpected end of packet",
        ReadError::SmallPacket => "packet too small",
        ReadError::MalformedCid => "malformed cid",
        ReadError::TokenOutOfBounds => "token out of bounds",
    }
}

/// The front of a packet of another version, which all versions of QUIC share (RFC 8999, section 5.1). A server that
/// doesn't support it responds with a version negotiation (RFC 9000, section 6.1).
///
/// ```
/// use quic_wire::datagram::{HeaderError, HeaderPlaces};
/// let bytes = [0xc0, 0x0a, 0x0a, 0x0a, 0x0a, 1, 0xaa, 2, 0xbb, 0xcc, 0, 5];
/// let Err(HeaderError::UnsupportedVersion(packet)) = HeaderPlaces::read(&bytes, 0, &[1]) else { panic!() };
/// assert_eq!(packet.version(), 0x0a0a_0a0a);
/// assert_eq!((packet.dst_cid(&bytes), packet.src_cid(&bytes)), (&[0xaa][..], &[0xbb, 0xcc][..]));
/// ```
#[derive(Clone, Copy, Debug, PartialEq, Eq, Hash)]
pub struct UnsupportedVersion {
    version: u32,
    dst_len: usize,
    src_len: usize,
}

impl UnsupportedVersion {
    /// The version.
    pub fn version(&self) -> u32 {
        self.version
    }

    /// The receiver's id, of at most 255 bytes.
    ///
    /// # Panics
    ///
    /// If the bytes end before it does: they aren't those that were read.
    pub fn dst_cid<'a>(&self, bytes: &'a [u8]) -> &'a [u8] {
        &bytes[6..6 + self.dst_len]
    }

    /// The sender's id, of at most 255 bytes.
    ///
    /// # Panics
    ///
    /// As [`UnsupportedVersion::dst_cid`].
    pub fn src_cid<'a>(&self, bytes: &'a [u8]) -> &'a [u8] {
        &bytes[7 + self.dst_len..7 + self.dst_len + self.src_len]
    }
}

/// The protected header of a packet as offsets in it, which borrow nothing.
///
/// ```
/// use quic_wire::datagram::{HeaderKind, HeaderPlaces};
/// let packet = [0x41, 0xaa, 0xbb, 9, 9, 9, 9, 9];
/// let header = HeaderPlaces::read(&packet, 2, &[1])?;
/// assert_eq!((header.kind(), header.dst_cid(&packet)), (HeaderKind::Short, &[0xaa, 0xbb][..]));
/// assert_eq!((header.header_end(), header.end(), header.is_protected(), header.fixed_bit()), (3, 8, true, true));
/// # Ok::<(), quic_wire::Error>(())
/// ```
#[derive(Clone, Copy, Debug, PartialEq, Eq)]
pub struct HeaderPlaces {
    places: places::HeaderPlaces,
    end: usize,
}

impl HeaderPlaces {
    /// Reads the header of the packet at the front of the bytes. Ids of short headers have `cid_len` bytes. For
    /// versions other than `versions` only the ids are read. The fixed bit isn't checked: see
    /// [`HeaderPlaces::fixed_bit`].
    ///
    /// # Errors
    ///
    /// That of the first field that can't be read; or that the bytes end within the packet.
    ///
    /// # Panics
    ///
    /// If `cid_len` is above 20.
    #[inline]
    pub fn read(bytes: &[u8], cid_len: usize, versions: &[u32]) -> Result<HeaderPlaces, HeaderError> {
        HeaderPlaces::read_with(bytes, cid_len, versions, HeaderChecks::NONE)
    }

    /// Reads the header as [`HeaderPlaces::read`] does, and makes these checks.
    ///
    /// # Errors
    ///
    /// If the fixed bit is clear although it must be set; as [`HeaderPlaces::read`]; or if a Retry isn't whole.
    ///
    /// # Panics
    ///
    /// If `cid_len` is above 20.
    #[inline]
    pub fn read_with(
        bytes: &[u8],
        cid_len: usize,
        versions: &[u32],
        checks: HeaderChecks,
    ) -> Result<HeaderPlaces, HeaderError> {
        assert!(cid_len <= MAX_CID_SIZE, "the ids of short headers have at most 20 bytes");
        if checks.lacks_fixed_bit(bytes, versions) {
            return Err(HeaderError::InvalidHeader("fixed bit unset"));
        }
        let places = read_header(bytes, cid_len, versions)?;
        let Some(end) = places.packet_end(bytes.len()) else {
            return Err(HeaderError::CutOff(HeaderPlaces { places, end: bytes.len() }));
        };
        let header = HeaderPlaces { places, end };
        if checks.whole_retry && places.kind == HeaderKind::Retry && header.retry(bytes).is_none_or(|r| r.0.is_empty())
        {
            return Err(HeaderError::InvalidHeader("Retry without a token or a tag"));
        }
        Ok(header)
    }

    // A version negotiation, whose ids may be longer than others.
    pub(super) fn negotiation(packet: &[u8], dst_len: usize, src_len: usize) -> HeaderPlaces {
        let places = places::HeaderPlaces {
            kind: HeaderKind::VersionNegotiate,
            first: packet[0],
            version: 0,
            dst_len,
            src_len,
            token: places::Place { start: 0, end: 0 },
            len: 0,
            header_end: 7 + dst_len + src_len,
        };
        HeaderPlaces { places, end: packet.len() }
    }

    /// The first byte, still protected.
    #[inline]
    pub fn first(&self) -> u8 {
        self.places.first
    }

    /// Whether the fixed bit is set (RFC 9000, section 17.2).
    #[inline]
    pub fn fixed_bit(&self) -> bool {
        self.places.first & 0x40 != 0
    }

    /// The spin bit of a short header (RFC 9000, section 17.4); false for others.
    #[inline]
    pub fn spin(&self) -> bool {
        self.is_short() && self.places.first & 0x20 != 0
    }

    /// The kind of the packet.
    #[inline]
    pub fn kind(&self) -> HeaderKind {
        self.places.kind
    }

    /// The level of the packet's keys (RFC 9001, section 4, table 1). `None` for Retry and version negotiation, which have
    /// no protection.
    #[inline]
    pub fn level(&self) -> Option<Level> {
        match self.places.kind {
            HeaderKind::Initial => Some(Level::Initial),
            HeaderKind::ZeroRtt => Some(Level::ZeroRtt),
            HeaderKind::Handshake => Some(Level::Handshake),
            HeaderKind::Short => Some(Level::OneRtt),
            HeaderKind::Retry | HeaderKind::VersionNegotiate => None,
        }
    }

    /// Whether the header is short.
    #[inline]
    pub fn is_short(&self) -> bool {
        self.places.kind == HeaderKind::Short
    }

    /// Whether the packet has a number and protection: all have, except Retry and version negotiation.
    #[inline]
    pub fn is_protected(&self) -> bool {
        self.places.kind.has_number()
    }

    /// The version; 0 for a short header and a version negotiation.
    #[inline]
    pub fn version(&self) -> u32 {
        self.places.version
    }

    /// The byte range of the receiver's id in the packet.
    #[inline]
    pub fn dst_cid_pos(&self) -> Range<usize> {
        let start = if self.is_short() { 1 } else { 6 };
        start..start + self.places.dst_len
    }

    /// The byte range of the sender's id in the packet; an empty one for a short header.
    #[inline]
    pub fn src_cid_pos(&self) -> Range<usize> {
        let start = self.dst_cid_pos().end + usize::from(!self.is_short());
        start..start + self.places.src_len
    }

    /// The byte range of the token of an Initial in the packet; an empty one for others.
    #[inline]
    pub fn token_pos(&self) -> Range<usize> {
        self.places.token.start..self.places.token.end
    }

    /// The receiver's id.
    ///
    /// # Panics
    ///
    /// If the packet ends before it does: it isn't the one that was read.
    #[inline]
    pub fn dst_cid<'a>(&self, packet: &'a [u8]) -> &'a [u8] {
        &packet[self.dst_cid_pos()]
    }

    /// The sender's id, empty for a short header.
    ///
    /// # Panics
    ///
    /// As [`HeaderPlaces::dst_cid`].
    #[inline]
    pub fn src_cid<'a>(&self, packet: &'a [u8]) -> &'a [u8] {
        &packet[self.src_cid_pos()]
    }

    /// The token of an Initial, empty for others.
    ///
    /// # Panics
    ///
    /// As [`HeaderPlaces::dst_cid`].
    #[inline]
    pub fn token<'a>(&self, packet: &'a [u8]) -> &'a [u8] {
        &packet[self.token_pos()]
    }

    /// The token of a Retry and the 16 bytes of its integrity tag (RFC 9000, section 17.2.5; RFC 9001, section 5.8).
    /// `None` for another packet, and if it is too short.
    ///
    /// ```
    /// use quic_wire::datagram::HeaderPlaces;
    /// let mut packet = vec![0xf0, 0, 0, 0, 1, 0, 0, b't', b'o', b'k'];
    /// packet.extend([9; 16]);
    /// let header = HeaderPlaces::read(&packet, 0, &[1])?;
    /// assert_eq!(header.retry(&packet), Some((&b"tok"[..], &[9; 16])));
    /// # Ok::<(), quic_wire::Error>(())
    /// ```
    pub fn retry<'a>(&self, packet: &'a [u8]) -> Option<(&'a [u8], &'a [u8; 16])> {
        let behind = packet.get(self.header_end()..self.end)?;
        if self.places.kind == HeaderKind::Retry { behind.split_last_chunk() } else { None }
    }

    /// The versions that a version negotiation names (RFC 9000, section 17.2.1); none for another packet.
    ///
    /// ```
    /// use quic_wire::datagram::HeaderPlaces;
    /// let packet = [0xc0, 0, 0, 0, 0, 0, 0, 0, 0, 0, 1, 0x6b, 0x33, 0x43, 0xcf];
    /// let header = HeaderPlaces::read(&packet, 0, &[1])?;
    /// assert_eq!(header.versions(&packet).collect::<Vec<_>>(), [1, 0x6b33_43cf]);
    /// # Ok::<(), quic_wire::Error>(())
    /// ```
    pub fn versions<'a>(&self, packet: &'a [u8]) -> Versions<'a> {
        let is_there = self.places.kind == HeaderKind::VersionNegotiate;
        Versions::of(packet.get(self.header_end()..self.end).filter(|_| is_there).unwrap_or_default())
    }

    /// How many bytes an Initial, Handshake or 0-RTT packet has after its header, with those of its number; 0 for
    /// others.
    #[inline]
    pub fn len_field(&self) -> u64 {
        self.places.len
    }

    /// Where the header ends and, if the packet has a number, where that begins.
    #[inline]
    pub fn header_end(&self) -> usize {
        self.places.header_end
    }

    /// Where the packet ends in the bytes that were read.
    #[inline]
    pub fn end(&self) -> usize {
        self.end
    }

    /// Where the packet is in a datagram in which it begins at `begin`.
    #[inline]
    pub fn place(&self, begin: usize) -> PacketPlace {
        let number = if self.is_protected() { self.header_end() } else { self.end };
        PacketPlace::new(begin..begin + self.end, begin + number)
    }
}

/// The receiver's id in a packet of any version, as you need to forward it (RFC 8999, section 5). A short header's id
/// has `cid_len` bytes. `None` if the packet ends before the id does. The fixed bit is ignored. It is written in Rust:
/// no proof covers it.
///
/// ```
/// use quic_wire::datagram::receiver_id;
/// assert_eq!(receiver_id(&[0x80, 0xfa, 0xce, 0xb0, 0x0c, 2, 7, 8], 0), Some(&[7, 8][..]));
/// assert_eq!(receiver_id(&[0x40, 7, 8, 9], 2), Some(&[7, 8][..]));
/// assert_eq!(receiver_id(&[0x40, 7], 2), None);
/// ```
pub fn receiver_id(packet: &[u8], cid_len: usize) -> Option<&[u8]> {
    let (first, rest) = packet.split_first()?;
    if *first < 0x80 {
        return rest.get(..cid_len);
    }
    let (len, rest) = rest.get(4..)?.split_first()?;
    rest.get(..usize::from(*len))
}
