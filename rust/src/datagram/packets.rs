//! A datagram cut into its packets (RFC 9000, section 12.2).
use super::{HeaderChecks, HeaderError, HeaderPlaces, PacketMut, PacketPlace};
use core::fmt;
use core::iter::FusedIterator;

// How a datagram is read.
#[derive(Clone, Copy, Debug)]
struct How<'v> {
    versions: &'v [u32],
    cid_len: usize,
    checks: HeaderChecks,
}

impl<'v> How<'v> {
    fn new(cid_len: usize, versions: &'v [u32], checks: HeaderChecks) -> Self {
        assert!(cid_len <= crate::MAX_CID_SIZE, "the ids of short headers have at most 20 bytes");
        How { versions, cid_len, checks }
    }

    // The header at the front of a datagram's rest.
    #[inline]
    fn read(&self, rest: &[u8]) -> Result<HeaderPlaces, HeaderError> {
        HeaderPlaces::read_with(rest, self.cid_len, self.versions, self.checks)
    }
}

// The checks of quinn-proto.
fn quinn(grease: bool) -> HeaderChecks {
    HeaderChecks { grease_quic_bit: grease, ..HeaderChecks::QUINN }
}

/// The packets of a datagram, one after another, and then one error if the rest doesn't begin with a packet. An empty
/// datagram is such an error.
///
/// ```
/// use quic_wire::datagram::Packets;
/// // A Handshake packet without a payload, and a short one.
/// let datagram = [0xe0, 0, 0, 0, 1, 0, 0, 0, 0x41, 7, 7];
/// let packets = Packets::new(&datagram, 0, &[1], false).collect::<Result<Vec<_>, _>>()?;
/// assert_eq!(packets.iter().map(|packet| packet.place().range()).collect::<Vec<_>>(), [0..8, 8..11]);
/// # Ok::<(), quic_wire::Error>(())
/// ```
#[derive(Clone)]
pub struct Packets<'a, 'v> {
    rest: &'a [u8],
    begin: usize,
    is_done: bool,
    how: How<'v>,
}

impl<'a, 'v> Packets<'a, 'v> {
    /// Begins at the front of a datagram. Ids of short headers have `cid_len` bytes. For versions other than `versions`
    /// only the ids are read. With `grease` the fixed bit may be clear (RFC 9287). Without it, a version negotiation
    /// whose fixed bit is clear is also rejected, although clients must ignore that bit (RFC 9000, section 17.2.1).
    ///
    /// # Panics
    ///
    /// If `cid_len` is above 20.
    pub fn new(datagram: &'a [u8], cid_len: usize, versions: &'v [u32], grease: bool) -> Self {
        Packets::with_checks(datagram, cid_len, versions, quinn(grease))
    }

    /// As [`Packets::new`], with these checks of each header.
    ///
    /// # Panics
    ///
    /// If `cid_len` is above 20.
    pub fn with_checks(datagram: &'a [u8], cid_len: usize, versions: &'v [u32], checks: HeaderChecks) -> Self {
        Packets { rest: datagram, begin: 0, is_done: false, how: How::new(cid_len, versions, checks) }
    }

    /// Where the next packet begins in the datagram, in bytes, or where an error was met.
    pub fn offset(&self) -> usize {
        self.begin
    }

    /// The bytes from there on, as the ids of an [`UnsupportedVersion`](super::UnsupportedVersion) are read from them.
    pub fn rest(&self) -> &'a [u8] {
        self.rest
    }
}

impl<'a> Iterator for Packets<'a, '_> {
    type Item = Result<PacketRef<'a>, HeaderError>;

    #[inline]
    fn next(&mut self) -> Option<Self::Item> {
        if self.is_done {
            return None;
        }
        let places = match self.how.read(self.rest) {
            Ok(places) => places,
            Err(error) => {
                self.is_done = true;
                return Some(Err(error));
            }
        };
        let (packet, rest) = self.rest.split_at(places.end());
        let begin = self.begin;
        (self.begin, self.rest, self.is_done) = (begin + packet.len(), rest, rest.is_empty());
        Some(Ok(PacketRef { places, packet, begin }))
    }
}

impl FusedIterator for Packets<'_, '_> {}

impl fmt::Debug for Packets<'_, '_> {
    fn fmt(&self, f: &mut fmt::Formatter<'_>) -> fmt::Result {
        f.debug_struct("Packets").field("begin", &self.begin).field("rest", &self.rest.len()).finish()
    }
}

/// A packet of a datagram, whose header is still protected.
///
/// ```
/// use quic_wire::datagram::Packets;
/// let datagram = [0xc0, 0, 0, 0, 1, 1, 0xaa, 1, 0xbb, 1, 0x77, 2, 9, 9];
/// let packet = Packets::new(&datagram, 0, &[1], false).next().unwrap()?;
/// assert_eq!((packet.dst_cid(), packet.token(), packet.data().len()), (&[0xaa][..], &[0x77][..], 14));
/// assert_eq!((packet.place().range(), packet.place().number()), (0..14, 12));
/// # Ok::<(), quic_wire::Error>(())
/// ```
#[derive(Clone, Copy, Debug, PartialEq, Eq)]
pub struct PacketRef<'a> {
    places: HeaderPlaces,
    packet: &'a [u8],
    begin: usize,
}

impl<'a> PacketRef<'a> {
    /// The packet's bytes.
    pub fn data(&self) -> &'a [u8] {
        self.packet
    }

    /// Its header as offsets in the packet.
    pub fn header(&self) -> &HeaderPlaces {
        &self.places
    }

    /// Where the packet is in its datagram, as needed to remove its protection.
    pub fn place(&self) -> PacketPlace {
        self.places.place(self.begin)
    }

    /// The receiver's id.
    pub fn dst_cid(&self) -> &'a [u8] {
        self.places.dst_cid(self.packet)
    }

    /// The sender's id, empty for a short header.
    pub fn src_cid(&self) -> &'a [u8] {
        self.places.src_cid(self.packet)
    }

    /// The token of an Initial, empty for others.
    pub fn token(&self) -> &'a [u8] {
        self.places.token(self.packet)
    }
}

/// The packets of a datagram that is opened in place. Each borrows its own part of it, so you open them in a loop,
/// which goes on after a packet that isn't opened (RFC 9000, section 12.2). It ends when no packet can be cut.
///
/// ```
/// use quic_wire::datagram::PacketsMut;
/// let mut datagram = [0x40, 7, 0, 1, 2, 3, 4, 5, 6];
/// for packet in PacketsMut::new(&mut datagram, 1, &[1], false) {
///     let packet = packet?.open_with(3, |sample| [0, sample[0], 0, 0, 0], 0)?;
///     packet.payload.fill(0);
/// }
/// assert_eq!(datagram, [0x40, 7, 4, 0, 0, 0, 0, 0, 0]);
/// # Ok::<(), quic_wire::Error>(())
/// ```
pub struct PacketsMut<'a, 'v> {
    rest: &'a mut [u8],
    is_done: bool,
    how: How<'v>,
}

impl<'a, 'v> PacketsMut<'a, 'v> {
    /// As [`Packets::new`].
    ///
    /// # Panics
    ///
    /// If `cid_len` is above 20.
    pub fn new(datagram: &'a mut [u8], cid_len: usize, versions: &'v [u32], grease: bool) -> Self {
        PacketsMut::with_checks(datagram, cid_len, versions, quinn(grease))
    }

    /// As [`Packets::with_checks`].
    ///
    /// # Panics
    ///
    /// If `cid_len` is above 20.
    pub fn with_checks(datagram: &'a mut [u8], cid_len: usize, versions: &'v [u32], checks: HeaderChecks) -> Self {
        PacketsMut { rest: datagram, is_done: false, how: How::new(cid_len, versions, checks) }
    }

    /// As [`Packets::rest`].
    pub fn rest(&self) -> &[u8] {
        self.rest
    }
}

impl<'a> Iterator for PacketsMut<'a, '_> {
    type Item = Result<PacketMut<'a>, HeaderError>;

    #[inline]
    fn next(&mut self) -> Option<Self::Item> {
        if self.is_done {
            return None;
        }
        let places = match self.how.read(self.rest) {
            Ok(places) => places,
            Err(error) => {
                self.is_done = true;
                return Some(Err(error));
            }
        };
        let (packet, rest) = core::mem::take(&mut self.rest).split_at_mut(places.end());
        (self.is_done, self.rest) = (rest.is_empty(), rest);
        Some(Ok(PacketMut::new(places, packet)))
    }
}

impl FusedIterator for PacketsMut<'_, '_> {}

impl fmt::Debug for PacketsMut<'_, '_> {
    fn fmt(&self, f: &mut fmt::Formatter<'_>) -> fmt::Result {
        f.debug_struct("PacketsMut").field("rest", &self.rest.len()).finish()
    }
}
