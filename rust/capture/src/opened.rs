//! What was authenticated. Each type here has one function that makes it, after the packet's tag or token was found
//! right; and only these types change what is known of a connection.

use crate::ciphers::{SAMPLE_LEN, TAG_LEN};
use crate::keys::{PacketKeys, is_retry_authentic};
use quic_wire::datagram::{HeaderKind, Opened as Number, PacketRef};
use quic_wire::ids::SpaceId;
use quic_wire::permitted::PacketType;
use quic_wire::{ConnectionId, ResetToken, Side, VarInt};

/// The number space and the type of the packets of a kind; `None` if they have no number.
pub(crate) fn space_and_type(kind: HeaderKind) -> Option<(SpaceId, PacketType)> {
    match kind {
        HeaderKind::Initial => Some((SpaceId::Initial, PacketType::Initial)),
        HeaderKind::Handshake => Some((SpaceId::Handshake, PacketType::Handshake)),
        HeaderKind::ZeroRtt => Some((SpaceId::Data, PacketType::ZeroRtt)),
        HeaderKind::Short => Some((SpaceId::Data, PacketType::OneRtt)),
        HeaderKind::Retry | HeaderKind::VersionNegotiate => None,
    }
}

/// An id as a packet has it. Headers of the versions that are read have none of more than 20 bytes.
pub(crate) fn id_of(bytes: &[u8]) -> ConnectionId {
    ConnectionId::try_from(bytes).unwrap_or_default()
}

/// A packet whose tag is right, with its payload.
///
/// No other code can make one:
///
/// ```compile_fail
/// use quic_wire_capture::opened::Opened;
/// fn forged(authentic: Opened<'static>) -> Opened<'static> {
///     Opened { payload: b"forged", ..authentic }
/// }
/// ```
#[derive(Debug)]
pub struct Opened<'a> {
    packet: PacketRef<'a>,
    sender: Side,
    space: SpaceId,
    packet_type: PacketType,
    number: Number,
    payload: &'a [u8],
    tag: u64,
    updates: u64,
}

/// A packet whose header's protection was removed in a buffer. Its tag wasn't checked.
#[derive(Clone, Copy)]
pub(crate) struct Unmasked<'a> {
    packet: PacketRef<'a>,
    number: Number,
}

impl<'a> Unmasked<'a> {
    /// Copies a packet to a buffer, and removes the header's protection there. `None` if the packet is too short, or
    /// has no number.
    pub(crate) fn new(
        keys: &PacketKeys,
        packet: PacketRef<'a>,
        expected: u64,
        buffer: &mut Vec<u8>,
    ) -> Option<Unmasked<'a>> {
        let place = packet.header().place(0);
        let sample: &[u8; SAMPLE_LEN] = place.sample(packet.data(), SAMPLE_LEN).ok()?.try_into().ok()?;
        let mask = keys.mask(sample)?;
        buffer.clear();
        buffer.extend_from_slice(packet.data());
        let number = place.unprotect(buffer, &mask, expected.min(VarInt::MAX.into_inner())).ok()?;
        (number.number <= VarInt::MAX.into_inner()).then_some(Unmasked { packet, number })
    }

    /// The Key Phase bit, which anyone may have changed.
    pub(crate) fn key_phase(&self) -> bool {
        self.number.key_phase()
    }

    /// The number and the first byte, which anyone may have changed.
    pub(crate) fn number(&self) -> &Number {
        &self.number
    }
}

impl<'a> Opened<'a> {
    /// Opens a packet, which is in the buffer without its header's protection. `None` if its tag is wrong.
    pub(crate) fn new(
        keys: &PacketKeys,
        unmasked: Unmasked<'a>,
        sender: Side,
        buffer: &'a mut [u8],
    ) -> Option<Opened<'a>> {
        let Unmasked { packet, number } = unmasked;
        let (space, packet_type) = space_and_type(packet.header().kind())?;
        let (header, sealed) = buffer.split_at_mut_checked(number.payload)?;
        if !keys.open(number.number, header, sealed) {
            return None;
        }
        let payload = sealed.get(..sealed.len().checked_sub(TAG_LEN)?)?;
        let tag = u64::from_be_bytes(*packet.data().last_chunk()?);
        Some(Opened { packet, sender, space, packet_type, number, payload, tag, updates: 0 })
    }

    /// The same with keys that its sender had updated so often.
    pub(crate) fn with_updates(self, updates: u64) -> Opened<'a> {
        Opened { updates, ..self }
    }

    /// The packet as it was sent.
    pub fn packet(&self) -> &PacketRef<'a> {
        &self.packet
    }

    /// The kind of its header.
    pub fn kind(&self) -> HeaderKind {
        self.packet.header().kind()
    }

    /// Its type, by which frames are permitted.
    pub fn packet_type(&self) -> PacketType {
        self.packet_type
    }

    /// The side that sent it.
    pub fn sender(&self) -> Side {
        self.sender
    }

    /// Its number space.
    pub fn space(&self) -> SpaceId {
        self.space
    }

    /// Its number, below 2^62.
    pub fn number(&self) -> u64 {
        self.number.number
    }

    /// Its number, how many bytes that has, and the first byte, without protection. Offsets count in the packet.
    pub fn unprotected(&self) -> &Number {
        &self.number
    }

    /// Its frames.
    pub fn payload(&self) -> &'a [u8] {
        self.payload
    }

    /// Where its payload begins in the datagram, in bytes.
    pub fn payload_offset(&self) -> usize {
        self.packet.place().range().start + self.number.payload
    }

    /// How often its sender had updated the keys that open it (RFC 9001, section 6); 0 if it isn't a 1-RTT packet.
    pub fn updates(&self) -> u64 {
        self.updates
    }

    /// The last eight bytes of its tag. Two packets of one number with the same are the same packet.
    pub fn tag(&self) -> u64 {
        self.tag
    }
}

/// A Retry whose integrity tag is right for the client's first id (RFC 9001, section 5.8).
#[derive(Clone, Copy, Debug)]
pub struct Retried {
    id: ConnectionId,
    version: u32,
}

impl Retried {
    pub(crate) fn new(packet: &PacketRef<'_>, original_id: &ConnectionId) -> Option<Retried> {
        let (header, version) = (packet.header(), packet.header().version());
        let is_authentic =
            header.kind() == HeaderKind::Retry && is_retry_authentic(version, original_id, packet.data());
        is_authentic.then(|| Retried { id: id_of(packet.src_cid()), version })
    }

    /// The id to which the client sends from then on.
    pub fn id(&self) -> ConnectionId {
        self.id
    }

    /// The version of QUIC.
    pub fn version(&self) -> u32 {
        self.version
    }
}

/// The end of a datagram that is a reset token of its sender: a stateless reset (RFC 9000, section 10.3).
#[derive(Clone, Copy, Debug)]
pub struct Reset {
    sender: Side,
}

impl Reset {
    pub(crate) fn new<'t>(
        datagram: &[u8],
        sender: Side,
        mut tokens: impl Iterator<Item = &'t ResetToken>,
    ) -> Option<Reset> {
        let end = ResetToken::from(*datagram.last_chunk()?);
        tokens.any(|token| *token == end).then_some(Reset { sender })
    }

    /// The side that sent it.
    pub fn sender(&self) -> Side {
        self.sender
    }
}
