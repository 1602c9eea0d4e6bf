//! The packets of a connection, opened with the keys of their level, and 1-RTT packets with those of their key phase
//! (RFC 9001, sections 4 to 6). 0-RTT has keys of its own, a level has none before they are there and once they are
//! discarded, and 1-RTT has up to three packet keys during a key update. [`crate::packet::open_packet`] and
//! [`SpaceKeys`](crate::packet::SpaceKeys) have one pair of keys for each packet number space instead.
//!
//! ```
//! use bytes::BytesMut;
//! use quic_wire::ConnectionId;
//! use quic_wire::crypto::{ToyHeaderKey, ToyPacketKey};
//! use quic_wire::frame::Frame;
//! use quic_wire::levels::{KeyPhase, Level, LevelKeys, OneRttKeys, Receiver};
//! use quic_wire::packet::{
//!     DecodeOptions, FixedLengthConnectionIdParser, Header, Keys, PacketNumber, Packets, seal_packet,
//! };
//! let toy = || Keys { header: ToyHeaderKey, packet: ToyPacketKey };
//! let parser = FixedLengthConnectionIdParser::new(8);
//! let options = DecodeOptions { parser: &parser, versions: &[1], grease: false };
//! let mut keys = LevelKeys::new();
//! keys.one_rtt = Some(OneRttKeys::new(toy(), Some(ToyPacketKey)));
//! let (mut receiver, mut phases) = (Receiver::new(), vec![]);
//!
//! // The peer updates its keys after packet 0.
//! for (sent, key_phase) in [(0, false), (1, true), (2, true)] {
//!     let (dst_cid, number) = (ConnectionId::new(&[7; 8]), PacketNumber::new(sent, 0));
//!     let header = Header::Short { spin: false, key_phase, dst_cid, number };
//!     let mut datagram = Vec::new();
//!     seal_packet(&header, sent, &[Frame::Ping, Frame::Padding, Frame::Padding], &toy(), &mut datagram)?;
//!
//!     let mut packets = Packets::new(BytesMut::from(&datagram[..]));
//!     while let Some(answer) = receiver.receive_next(&mut packets, &options, &keys) {
//!         // A stack drops a packet that isn't opened, and goes on. Here `?` ends the loop.
//!         let opened = answer?;
//!         assert!(opened.reserved_bits_valid() && opened.level() == Some(Level::OneRtt));
//!         if let (Some(one_rtt), Some(number)) = (&mut keys.one_rtt, opened.number) {
//!             phases.push(one_rtt.opened(opened.header.key_phase(), number, receiver.expected().app)?);
//!         }
//!     }
//! }
//! assert_eq!(phases, [KeyPhase::Current, KeyPhase::Next, KeyPhase::Current]);
//! # Ok::<(), quic_wire::Error>(())
//! ```
//!
//! # Answers
//!
//! | packet (sections of RFC 9001) | answer |
//! |---|---|
//! | sealed with the keys of its level and phase, its number in the window of the expected one | it is opened |
//! | a Retry or a version negotiation | it is returned unchanged, without a number: `opened.level()` is `None` |
//! | of a level whose keys aren't there yet, or are discarded (4.9) | [`LevelError::NoKeys`] |
//! | 1-RTT, of the next phase, whose key isn't there yet (6.3) | [`LevelError::NoKeys`] |
//! | 1-RTT, of the former phase, whose key is discarded (6.5) | [`LevelError::NoKeys`] |
//! | 1-RTT, of any other phase | [`LevelError::Unsealed`] or [`LevelError::NoKeys`], as its Key Phase bit says |
//! | forged or damaged | [`LevelError::Unsealed`], or as what it was changed to |
//! | too short for a sample of its header key | [`LevelError::Decode`] |
//! | none: the bytes don't begin with a packet | [`LevelError::Decode`], and nothing is left of the datagram |
//!
//! A packet that isn't opened is dropped, and the next call goes on after it (RFC 9000, section 12.2). To keep one that
//! came before its keys (RFC 9001, section 5.7), look for the [header key](LevelKeys::header) of its
//! [level](crate::datagram::HeaderPlaces::level) first.
//!
//! # In borrowed bytes
//!
//! [`LevelKeys`] holds any keys, such as the boxes of `rustls`. [`LevelKeys::header`] and [`LevelKeys::packet`], which
//! are proved, choose those of a packet that [`crate::datagram`] opens in place:
//!
//! ```
//! use quic_wire::datagram::PacketsMut;
//! use quic_wire::levels::LevelKeys;
//! use quic_wire::packet::Expected;
//! # struct Header;
//! # impl Header {
//! #     fn sample_len(&self) -> usize { 16 }
//! #     fn decrypt_in_place(&self, _: &[u8], _: &mut u8, _: &mut [u8]) {}
//! # }
//! # struct Packet;
//! # impl Packet {
//! #     fn decrypt_in_place<'a>(&self, _: u64, _: &[u8], payload: &'a mut [u8]) -> Result<&'a [u8], ()> { Ok(payload) }
//! # }
//! # use quic_wire::levels::OneRttKeys;
//! # use quic_wire::packet::Keys;
//! # let one_rtt = OneRttKeys::new(Keys { header: Header, packet: Packet }, None);
//! # let keys = LevelKeys { one_rtt: Some(one_rtt), ..LevelKeys::new() };
//! # let (mut datagram, expected, mut plain_len) = (vec![0x40; 40], Expected::default(), 0);
//! for packet in PacketsMut::new(&mut datagram, 8, &[1], false) {
//!     let packet = packet?;
//!     let Some(level) = packet.header().level() else { continue };
//!     let Some(key) = keys.header(level) else { continue };
//!     let unmask = |sample: &[u8], first: &mut u8, number: &mut [u8; 4]| key.decrypt_in_place(sample, first, number);
//!     let Ok(packet) = packet.open_by(key.sample_len(), unmask, expected.of(level.space())) else { continue };
//!     let Some(key) = keys.packet(level, packet.key_phase(), packet.number()) else { continue };
//!     let Ok(payload) = key.decrypt_in_place(packet.number(), packet.header_data, packet.payload) else { continue };
//! #   plain_len += payload.len();
//! }
//! # assert_eq!(plain_len, 30);
//! # Ok::<(), quic_wire::Error>(())
//! ```
use crate::crypto::{HeaderKey, PacketKey};
use crate::packet::{ConnectionIdParser, DecodeOptions, Expected, Header, Keys, LongType, Opened, Packets};
use crate::permitted::PacketType;
use crate::proved::quic_levels::opening;
use crate::transport_error;
use core::mem;

pub use crate::proved::quic_levels::keys::{LevelKeys, OneRttKeys};
pub use crate::proved::quic_levels::levels::Level;
pub use crate::proved::quic_levels::opening::LevelError;
pub use crate::proved::quic_levels::receiving::{MAX_NUMBER, Receiver};

/// The key phase of a 1-RTT packet, relative to that of the keys (RFC 9001, section 6.5).
#[derive(Clone, Copy, Debug, PartialEq, Eq, Hash)]
pub enum KeyPhase {
    /// The phase before: the packet was delayed.
    Former,
    /// The phase of the keys.
    Current,
    /// The phase after it, which begins with this packet.
    Next,
}

// What `OneRttKeys::from` is until a packet of the current phase was opened.
const NONE_OPENED: u64 = u64::MAX;

impl<H, P> OneRttKeys<H, P> {
    /// The keys of the first phase, whose Key Phase bit is 0, before any packet was opened (RFC 9001, section 6).
    /// `next` is the packet key of the next phase, if it was derived already.
    pub fn new(keys: Keys<H, P>, next: Option<P>) -> OneRttKeys<H, P> {
        let Keys { header, packet: current } = keys;
        OneRttKeys { header, phase: false, from: NONE_OPENED, current, next, former: None }
    }

    /// The phase of a packet, by its Key Phase bit and its whole number: the one whose key
    /// [`OneRttKeys::packet`] returns.
    pub fn phase_of(&self, key_phase: bool, number: u64) -> KeyPhase {
        if key_phase == self.phase {
            KeyPhase::Current
        } else if number < self.from {
            KeyPhase::Former
        } else {
            KeyPhase::Next
        }
    }

    /// Begins the next phase, as an endpoint does that updates its keys (RFC 9001, section 6.1): `next` becomes
    /// `current`, which becomes `former`. Until a packet of the new phase was opened, those of the other phase have the
    /// key `former`. Returns false if there is no `next`; nothing changes then. When an endpoint may update its keys is
    /// up to you.
    pub fn update(&mut self) -> bool {
        self.begin(NONE_OPENED)
    }

    /// Takes note of a packet that was opened with these keys, and returns its phase. You call it for each packet
    /// number once, after repeated packets and those with invalid reserved bits. `expected` is the packet number that
    /// is expected next in the space.
    ///
    /// - After a packet of the current phase, those of the other phase that have lower numbers than it are of the
    ///   former one.
    /// - With a packet of the next phase the peer updated its keys: that phase begins as by [`OneRttKeys::update`]. You
    ///   then update the keys that you seal with (RFC 9001, section 6.2). The key `next` is `None` until you set it; if
    ///   you do so when you have sealed a packet with the new keys, the peer can't update its keys twice before that.
    /// - After a packet of the former phase nothing changes. Three times the PTO after an update you set `former` to
    ///   `None` (section 6.5).
    ///
    /// ```
    /// use quic_wire::levels::{KeyPhase, OneRttKeys};
    /// use quic_wire::packet::Keys;
    /// use quic_wire::transport_error::Code;
    /// let mut keys = OneRttKeys::new(Keys { header: (), packet: "first" }, Some("second"));
    /// assert_eq!(keys.opened(false, 7, 8), Ok(KeyPhase::Current));
    /// assert_eq!((keys.packet(true, 6), keys.packet(true, 7)), (None, Some(&"second")));
    /// assert_eq!(keys.clone().opened(true, 8, 10).map_err(|error| error.code), Err(Code::KEY_UPDATE_ERROR));
    /// assert_eq!(keys.opened(true, 8, 9), Ok(KeyPhase::Next));
    /// let keys = [(false, 7), (false, 9), (true, 9)].map(|(key_phase, number)| keys.packet(key_phase, number).copied());
    /// assert_eq!(keys, [Some("first"), None, Some("second")]);
    /// ```
    ///
    /// # Errors
    ///
    /// KEY_UPDATE_ERROR if the packet is of the next phase, but one with a greater number was opened before, which was
    /// sealed with older keys (RFC 9001, section 6.4). Nothing changes then.
    pub fn opened(&mut self, key_phase: bool, number: u64, expected: u64) -> Result<KeyPhase, transport_error::Error> {
        let phase = self.phase_of(key_phase, number);
        match phase {
            KeyPhase::Former => {}
            KeyPhase::Current => self.from = self.from.min(number),
            KeyPhase::Next if number.saturating_add(1) < expected => {
                return Err(transport_error::Error::KEY_UPDATE_ERROR("newer keys with a lower packet number"));
            }
            KeyPhase::Next => {
                self.begin(number);
            }
        }
        Ok(phase)
    }

    // Begins the next phase, if there is a key for it.
    fn begin(&mut self, from: u64) -> bool {
        let Some(next) = self.next.take() else { return false };
        self.former = Some(mem::replace(&mut self.current, next));
        self.phase = !self.phase;
        self.from = from;
        true
    }
}

impl<H, P> LevelKeys<H, P> {
    /// No keys: those of a level are set when TLS has them, and set to `None` when they are discarded (RFC 9001,
    /// section 4.9).
    pub const fn new() -> LevelKeys<H, P> {
        LevelKeys { initial: None, zero_rtt: None, handshake: None, one_rtt: None }
    }
}

/// No keys.
impl<H, P> Default for LevelKeys<H, P> {
    fn default() -> LevelKeys<H, P> {
        LevelKeys::new()
    }
}

/// The type of the packets that have keys of the level.
impl From<Level> for PacketType {
    fn from(level: Level) -> PacketType {
        match level {
            Level::Initial => PacketType::Initial,
            Level::ZeroRtt => PacketType::ZeroRtt,
            Level::Handshake => PacketType::Handshake,
            Level::OneRtt => PacketType::OneRtt,
        }
    }
}

impl Opened {
    /// The level of the keys that opened it. `None` for Retry and version negotiation.
    pub fn level(&self) -> Option<Level> {
        match self.header {
            Header::Initial(_) => Some(Level::Initial),
            Header::Long { ty: LongType::ZeroRtt, .. } => Some(Level::ZeroRtt),
            Header::Long { ty: LongType::Handshake, .. } => Some(Level::Handshake),
            Header::Short { .. } => Some(Level::OneRtt),
            Header::Retry { .. } | Header::VersionNegotiate { .. } => None,
        }
    }

    /// Whether the reserved bits of the header's first byte are 0, as they must be; otherwise it is a
    /// `PROTOCOL_VIOLATION` (RFC 9000, sections 17.2 and 17.3.1). True for Retry and version negotiation, which have
    /// none. False if `header_data` was emptied.
    pub fn reserved_bits_valid(&self) -> bool {
        let reserved = if self.header.is_short() { 0x18 } else { 0x0c };
        self.level().is_none() || self.header_data.first().is_some_and(|first| first & reserved == 0)
    }
}

impl Packets {
    /// Opens the next packet with the keys of its level, and of its key phase if it is a 1-RTT packet, and moves past
    /// it. `expected` is the packet number that is expected next in each space: [`Receiver::receive_next`] keeps these
    /// itself. Returns `None` once nothing is left. The module has a [table](crate::levels#answers) of the other
    /// answers. In the proved sources this is the function `open_next` of `quic_levels`.
    ///
    /// # Panics
    ///
    /// If an expected number is 2^62 or more.
    #[doc = include_str!("proved/contracts/open_next.md")]
    pub fn open_next_by_level<C: ConnectionIdParser, H: HeaderKey, P: PacketKey>(
        &mut self,
        options: &DecodeOptions<'_, C>,
        keys: &LevelKeys<H, P>,
        expected: &Expected,
    ) -> Option<Result<Opened, LevelError>> {
        expected.assert_in_range();
        opening::open_next(self, options, keys, expected)
    }
}
