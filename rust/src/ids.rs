//! Ids of connections and streams, sides, directions, and the limits on them (RFC 9000, sections 2.1, 5.1, 10.3, 12.3,
//! 13.4 and 14).
use crate::varint::{VarInt, VarIntBoundsExceeded};
use bytes::Buf;
use core::{fmt, ops};

pub use crate::proved::quic_base::ids::{
    ConnectionId, DEFAULT_SUPPORTED_VERSIONS, Dir, EcnCodepoint, INITIAL_MTU, IssuedCid, LOC_CID_COUNT, MAX_CID_SIZE,
    MAX_STREAM_COUNT, MAX_UDP_PAYLOAD, MIN_INITIAL_SIZE, RESET_TOKEN_SIZE, ResetToken, Side, SpaceId, StreamId,
};

/// More bytes than a connection id may have, which is 20 (RFC 9000, section 17.2).
#[derive(Clone, Copy, Debug, PartialEq, Eq, Hash)]
pub struct TooLongId(
    /// How many they are.
    pub usize,
);

impl fmt::Display for TooLongId {
    fn fmt(&self, f: &mut fmt::Formatter<'_>) -> fmt::Result {
        write!(f, "a connection id has at most 20 bytes, not {}", self.0)
    }
}

impl core::error::Error for TooLongId {}

impl ConnectionId {
    /// The id of these bytes, at most 20. [`TryFrom`] returns an error instead of panicking.
    ///
    /// ```
    /// use quic_wire::ConnectionId;
    /// let id = ConnectionId::new(&[0xab, 0x01]);
    /// assert_eq!((&id[..], id.to_string()), (&[0xab, 0x01][..], "ab01".to_string()));
    /// assert!(ConnectionId::try_from(&[0; 21][..]).is_err());
    /// ```
    ///
    /// # Panics
    ///
    /// If they are more than 20.
    #[doc = include_str!("proved/contracts/ConnectionId.new.md")]
    #[inline(always)]
    pub fn new(bytes: &[u8]) -> ConnectionId {
        assert!(bytes.len() <= MAX_CID_SIZE, "a connection id has at most 20 bytes");
        ConnectionId::proved_new(bytes)
    }

    /// Consumes the next `len` bytes as an id.
    ///
    /// # Panics
    ///
    /// If `len` is above 20, or fewer bytes remain.
    #[doc = include_str!("proved/contracts/ConnectionId.from_buf.md")]
    #[inline]
    pub fn from_buf(buf: &mut (impl Buf + ?Sized), len: usize) -> ConnectionId {
        assert!(len <= MAX_CID_SIZE, "a connection id has at most 20 bytes");
        let mut buf = buf;
        assert!(len <= buf.remaining(), "a connection id ends within its buffer");
        ConnectionId::proved_from_buf(&mut buf, len)
    }
}

impl TryFrom<&[u8]> for ConnectionId {
    type Error = TooLongId;

    fn try_from(bytes: &[u8]) -> Result<ConnectionId, TooLongId> {
        if bytes.len() > MAX_CID_SIZE { Err(TooLongId(bytes.len())) } else { Ok(ConnectionId::proved_new(bytes)) }
    }
}

/// The empty id.
impl Default for ConnectionId {
    fn default() -> ConnectionId {
        ConnectionId::proved_new(&[])
    }
}

impl ops::Deref for ConnectionId {
    type Target = [u8];

    #[inline]
    fn deref(&self) -> &[u8] {
        self.as_slice()
    }
}

impl ops::DerefMut for ConnectionId {
    #[inline]
    fn deref_mut(&mut self) -> &mut [u8] {
        self.as_mut_slice()
    }
}

impl AsRef<[u8]> for ConnectionId {
    fn as_ref(&self) -> &[u8] {
        self
    }
}

impl StreamId {
    /// The stream that comes after `index` others of the same initiator and direction.
    ///
    /// ```
    /// use quic_wire::{Dir, Side, StreamId};
    /// let id = StreamId::new(Side::Server, Dir::Uni, 5);
    /// assert_eq!((u64::from(id), id.initiator(), id.dir(), id.index()), (23, Side::Server, Dir::Uni, 5));
    /// assert_eq!(id.to_string(), "server unidirectional stream 5");
    /// ```
    ///
    /// # Panics
    ///
    /// If `index` is 2^60 or more: there are no more streams (RFC 9000, section 2.1).
    #[doc = include_str!("proved/contracts/StreamId.new.md")]
    #[inline]
    pub fn new(initiator: Side, dir: Dir, index: u64) -> StreamId {
        assert!(index < MAX_STREAM_COUNT, "there are at most 2^60 streams of an initiator and direction");
        StreamId::proved_new(initiator, dir, index)
    }
}

/// The client's first bidirectional stream.
impl Default for StreamId {
    fn default() -> StreamId {
        StreamId::from(VarInt::default())
    }
}

impl From<u32> for StreamId {
    fn from(id: u32) -> StreamId {
        StreamId::from(VarInt::from_u32(id))
    }
}

/// An error exactly when the number is 2^62 or more.
impl TryFrom<u64> for StreamId {
    type Error = VarIntBoundsExceeded;

    fn try_from(id: u64) -> Result<StreamId, VarIntBoundsExceeded> {
        VarInt::from_u64(id).map(StreamId::from)
    }
}

/// The sixteen bytes. Comparing slices of them doesn't take constant time, as RFC 9000, section 10.3.1, requires;
/// comparing tokens does.
impl ops::Deref for ResetToken {
    type Target = [u8];

    fn deref(&self) -> &[u8] {
        self.as_slice()
    }
}

impl AsRef<[u8]> for ResetToken {
    fn as_ref(&self) -> &[u8] {
        self
    }
}

/// Two lower-case hexadecimal digits per byte.
impl fmt::Display for ResetToken {
    fn fmt(&self, f: &mut fmt::Formatter<'_>) -> fmt::Result {
        self.iter().try_for_each(|byte| write!(f, "{byte:02x}"))
    }
}
