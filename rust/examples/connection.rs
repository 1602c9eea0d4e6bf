//! The packets of a connection by the level and key phase of their keys (RFC 9001, sections 4 to 6): a client and a
//! server exchange datagrams, with 0-RTT, of which some are lost, repeated, delayed or forged, and both update their
//! keys. In place of ciphers it has [`NoProtection`], which hides nothing. `std` is needed only for printing.
use bytes::{Bytes, BytesMut};
use quic_wire::crypto::{CryptoError, HeaderKey, PacketKey, mask_in_place, open_in_place, seal_in_place};
use quic_wire::frame::{Crypto, Frame, Iter, Rules, Stream};
use quic_wire::levels::{KeyPhase, Level, LevelError, LevelKeys, OneRttKeys, Receiver};
use quic_wire::packet::{
    DecodeOptions, FixedLengthConnectionIdParser, Header, InitialHeader, Keys, LongType, Opened, PacketNumber, Packets,
    VERSION_2, seal_packet,
};
use quic_wire::permitted::permits;
use quic_wire::range_set::BoundedRangeSet;
use quic_wire::transport_error::Error as TransportError;
use quic_wire::{ConnectionId, Error, Side, StreamId};
use std::fmt;

const VERSIONS: &[u32] = &[1, VERSION_2];

/// What TLS has for the packets of a side at a level, and from which their keys follow (RFC 9001, section 5.1).
pub trait Secret: Sized {
    /// The key of header protection.
    type HeaderKey: HeaderKey;
    /// The key of an AEAD.
    type PacketKey: PacketKey;

    /// The keys of the secret.
    fn keys(&self) -> Keys<Self::HeaderKey, Self::PacketKey>;

    /// The secret after a key update, of which only the packet key is used (RFC 9001, section 6.1).
    fn updated(&self) -> Self;
}

/// Seals the packets of a side.
pub struct Sealer<S: Secret> {
    keys: [Option<Keys<S::HeaderKey, S::PacketKey>>; 4],
    // That of the 1-RTT keys.
    secret: Option<S>,
    key_phase: bool,
    next: [u64; 3],
    dst_cid: ConnectionId,
    src_cid: ConnectionId,
}

impl<S: Secret> Sealer<S> {
    fn new(src_cid: ConnectionId, dst_cid: ConnectionId) -> Self {
        Sealer { keys: [None, None, None, None], secret: None, key_phase: false, next: [0; 3], dst_cid, src_cid }
    }

    fn install(&mut self, level: Level, secret: S) {
        self.keys[level as usize] = Some(secret.keys());
        if level == Level::OneRtt {
            self.secret = Some(secret);
        }
    }

    fn update(&mut self) {
        if let (Some(keys), Some(secret)) = (&mut self.keys[Level::OneRtt as usize], &mut self.secret) {
            *secret = secret.updated();
            keys.packet = secret.keys().packet;
            self.key_phase = !self.key_phase;
        }
    }

    fn header(&self, level: Level, number: PacketNumber) -> Header {
        let (dst_cid, src_cid, version) = (self.dst_cid, self.src_cid, 1);
        match level {
            Level::Initial => Header::Initial(InitialHeader { dst_cid, src_cid, token: Bytes::new(), number, version }),
            Level::ZeroRtt => Header::Long { ty: LongType::ZeroRtt, dst_cid, src_cid, number, version },
            Level::Handshake => Header::Long { ty: LongType::Handshake, dst_cid, src_cid, number, version },
            Level::OneRtt => Header::Short { spin: false, key_phase: self.key_phase, dst_cid, number },
        }
    }

    /// Appends a packet to a datagram.
    fn seal(&mut self, level: Level, frames: &[Frame<'_>], datagram: &mut Vec<u8>) -> Result<(), Error> {
        let number = self.next[level.space() as usize];
        // A stack passes the greatest number that was acknowledged.
        let header = self.header(level, PacketNumber::new(number, 0));
        let keys = self.keys[level as usize].as_ref();
        let keys = keys.ok_or_else(|| TransportError::INTERNAL_ERROR("no keys to seal with"))?;
        seal_packet(&header, number, frames, keys, datagram)?;
        self.next[level.space() as usize] += 1;
        Ok(())
    }
}

/// A packet of the other side.
#[derive(Debug)]
pub enum Packet {
    /// It was opened, and has a new number.
    New(Level, u64, KeyPhase, BytesMut),
    /// It was opened, but its number was there before, or is older than those that are remembered.
    Repeated(Level, u64),
    /// A Retry or a version negotiation.
    Unprotected,
    /// It isn't opened.
    Dropped(LevelError),
}

/// Opens the packets of the other side.
pub struct Opener<S: Secret> {
    /// Those that are there.
    pub keys: LevelKeys<S::HeaderKey, S::PacketKey>,
    /// How many bytes the ids of its short headers have.
    pub cid_len: usize,
    /// Whether the fixed bit may be clear, as this side said by a transport parameter (RFC 9287).
    pub grease: bool,
    receiver: Receiver,
    received: [BoundedRangeSet<32>; 3],
    // That of the latest 1-RTT packet key.
    secret: Option<S>,
}

impl<S: Secret> Opener<S> {
    /// Without keys.
    pub fn new(cid_len: usize) -> Self {
        let (keys, receiver) = (LevelKeys::new(), Receiver::new());
        Opener { keys, cid_len, grease: false, receiver, received: Default::default(), secret: None }
    }

    /// Takes the keys of a level.
    pub fn install(&mut self, level: Level, secret: S) {
        let keys = secret.keys();
        match level {
            Level::Initial => self.keys.initial = Some(keys),
            Level::ZeroRtt => self.keys.zero_rtt = Some(keys),
            Level::Handshake => self.keys.handshake = Some(keys),
            Level::OneRtt => {
                self.keys.one_rtt = Some(OneRttKeys::new(keys, None));
                self.secret = Some(secret);
            }
        }
    }

    /// Derives the packet key of the next phase, unless it is there. It is there before a packet needs it, so that the
    /// time that this takes reveals nothing (RFC 9001, section 6.3).
    pub fn prepare(&mut self) {
        if let (Some(keys), Some(secret)) = (&mut self.keys.one_rtt, &mut self.secret) {
            if keys.next.is_none() {
                *secret = secret.updated();
                keys.next = Some(secret.keys().packet);
            }
        }
    }

    /// Discards the packet key of the phase before the current one (RFC 9001, section 6.5).
    pub fn discard_former(&mut self) {
        if let Some(keys) = &mut self.keys.one_rtt {
            keys.former = None;
        }
    }

    /// Opens the next packet of a datagram. The keys may change between packets. An error closes the connection.
    pub fn open_next(&mut self, packets: &mut Packets) -> Option<Result<Packet, TransportError>> {
        let parser = FixedLengthConnectionIdParser::new(self.cid_len);
        let options = DecodeOptions { parser: &parser, versions: VERSIONS, grease: self.grease };
        match self.receiver.receive_next(packets, &options, &self.keys)? {
            Ok(opened) => Some(self.take(opened)),
            Err(error) => Some(Ok(Packet::Dropped(error))),
        }
    }

    fn take(&mut self, opened: Opened) -> Result<Packet, TransportError> {
        let (Some(level), Some(number)) = (opened.level(), opened.number) else {
            return Ok(Packet::Unprotected);
        };
        if !opened.reserved_bits_valid() {
            return Err(TransportError::PROTOCOL_VIOLATION("reserved bits set"));
        }
        let (received, one) = (&mut self.received[level.space() as usize], number..number + 1);
        if received.contains(number) || received.insert_or_drop_min(one.clone()) == Some(one) {
            return Ok(Packet::Repeated(level, number));
        }
        let phase = match &mut self.keys.one_rtt {
            Some(keys) if level == Level::OneRtt => {
                keys.opened(opened.header.key_phase(), number, self.receiver.expected().app)?
            }
            _ => KeyPhase::Current,
        };
        Ok(Packet::New(level, number, phase, opened.payload))
    }
}

/// One side of a connection.
pub struct Endpoint<S: Secret> {
    side: Side,
    sealer: Sealer<S>,
    opener: Opener<S>,
}

impl<S: Secret> Endpoint<S> {
    fn new(side: Side, ids: [&[u8]; 2]) -> Self {
        let [own, others] = ids.map(ConnectionId::new);
        Endpoint { side, sealer: Sealer::new(own, others), opener: Opener::new(own.len()) }
    }

    fn seal(&mut self, level: Level, text: &str, datagram: &mut Vec<u8>) -> Result<(), Error> {
        let (bytes, id) = (text.as_bytes(), StreamId::from(0));
        let frame = match level {
            Level::Initial | Level::Handshake => Frame::Crypto(Crypto { offset: 0, bytes }),
            Level::ZeroRtt | Level::OneRtt => Frame::Stream(Stream { id, offset: 0, fin: false, bytes }),
        };
        self.sealer.seal(level, &[frame], datagram)?;
        if level == Level::OneRtt {
            // The peer may update its keys again (RFC 9001, section 6.2).
            self.opener.prepare();
        }
        Ok(())
    }

    fn send(&mut self, level: Level, text: &str) -> Result<Vec<u8>, Error> {
        let mut datagram = Vec::new();
        self.seal(level, text, &mut datagram)?;
        Ok(datagram)
    }

    /// A line for each packet of a datagram.
    fn receive(&mut self, datagram: &[u8]) -> Result<Vec<String>, Error> {
        let (mut packets, mut lines) = (Packets::new(BytesMut::from(datagram)), Vec::new());
        while let Some(packet) = self.opener.open_next(&mut packets) {
            lines.push(self.process(&packet?)?);
        }
        Ok(lines)
    }

    fn process(&mut self, packet: &Packet) -> Result<String, Error> {
        let Packet::New(level, number, phase, payload) = packet else { return Ok(packet.to_string()) };
        if *phase == KeyPhase::Next {
            self.sealer.update();
        }
        let mut line = format!("{level:?} {number}, {phase:?}:");
        for frame in Iter::new(payload)? {
            let frame = frame?;
            if permits(&frame, (*level).into(), !self.side, Rules::RFC).is_err() {
                return Err(TransportError::PROTOCOL_VIOLATION("a frame that the packet may not carry").into());
            }
            if let Frame::Crypto(Crypto { bytes, .. }) | Frame::Stream(Stream { bytes, .. }) = frame {
                line += &format!(" {}", String::from_utf8_lossy(bytes));
            }
        }
        Ok(line)
    }

    /// Updates the keys. False if the next ones aren't there yet.
    fn update_keys(&mut self) -> bool {
        let updated = self.opener.keys.one_rtt.as_mut().is_some_and(OneRttKeys::update);
        if updated {
            self.sealer.update();
        }
        updated
    }
}

impl fmt::Display for Packet {
    fn fmt(&self, f: &mut fmt::Formatter<'_>) -> fmt::Result {
        match self {
            Packet::New(level, number, ..) => write!(f, "{level:?} {number}"),
            Packet::Repeated(level, number) => write!(f, "{level:?} {number}, repeated"),
            Packet::Unprotected => f.write_str("without protection"),
            Packet::Dropped(error) => write!(f, "dropped: {error}"),
        }
    }
}

/// A client and a server, and what they found.
pub struct Connection<S: Secret, F> {
    secret: F,
    client: Endpoint<S>,
    server: Endpoint<S>,
    /// What a datagram was, and a line for each of its packets.
    pub log: Vec<(&'static str, Vec<String>)>,
}

impl<S: Secret, F: Fn(Side, Level) -> S> Connection<S, F> {
    /// Without keys. `secret` has that of a side's packets at a level.
    pub fn new(secret: F) -> Self {
        let (client, server) = (&b"client"[..], &b"the server"[..]);
        let (client, server) =
            (Endpoint::new(Side::Client, [client, server]), Endpoint::new(Side::Server, [server, client]));
        Connection { secret, client, server, log: Vec::new() }
    }

    fn end(&mut self, side: Side) -> &mut Endpoint<S> {
        if side == Side::Client { &mut self.client } else { &mut self.server }
    }

    fn install(&mut self, level: Level) {
        for side in [Side::Client, Side::Server] {
            let (own, others) = ((self.secret)(side, level), (self.secret)(!side, level));
            let end = self.end(side);
            end.sealer.install(level, own);
            end.opener.install(level, others);
        }
    }

    fn arrives(&mut self, at: Side, what: &'static str, datagram: &[u8]) -> Result<(), Error> {
        let lines = self.end(at).receive(datagram)?;
        self.log.push((what, lines));
        Ok(())
    }

    /// A handshake with 0-RTT.
    pub fn handshake(&mut self) -> Result<(), Error> {
        self.install(Level::Initial);
        let early = (self.secret)(Side::Client, Level::ZeroRtt);
        self.client.sealer.install(Level::ZeroRtt, early);
        let hello = self.client.send(Level::Initial, "ClientHello")?;
        let early = [self.client.send(Level::ZeroRtt, "early")?, self.client.send(Level::ZeroRtt, "early too")?];
        self.arrives(Side::Server, "0-RTT before the ClientHello", &early[0])?;
        self.arrives(Side::Server, "the ClientHello", &hello)?;
        let secret = (self.secret)(Side::Client, Level::ZeroRtt);
        self.server.opener.install(Level::ZeroRtt, secret);
        self.arrives(Side::Server, "0-RTT after it", &early[1])?;

        // The client has Handshake keys once it has read the ServerHello.
        let secret = (self.secret)(Side::Server, Level::Handshake);
        self.server.sealer.install(Level::Handshake, secret);
        let mut answer = self.server.send(Level::Initial, "ServerHello")?;
        self.server.seal(Level::Handshake, "Finished", &mut answer)?;
        self.arrives(Side::Client, "two levels, of which the client has one", &answer)?;
        self.install(Level::Handshake);
        self.arrives(Side::Client, "the same datagram", &answer)?;
        let finished = self.client.send(Level::Handshake, "Finished")?;
        self.arrives(Side::Server, "the client's Handshake packet", &finished)?;

        self.server.opener.keys.initial = None;
        self.arrives(Side::Server, "an Initial packet after its keys", &hello)?;
        self.arrives(Side::Server, "0-RTT that was delayed", &early[0])?;
        self.install(Level::OneRtt);
        self.client.sealer.keys[Level::ZeroRtt as usize] = None;
        Ok(())
    }

    /// Packets that are lost, repeated, in another order, and forged.
    pub fn loss(&mut self) -> Result<(), Error> {
        let texts = ["one", "lost", "three", "four"];
        let sent = texts.map(|text| self.client.send(Level::OneRtt, text));
        let [one, _, three, four] = sent;
        let (one, three, four) = (one?, three?, four?);
        self.arrives(Side::Server, "the last one first", &four)?;
        self.server.opener.keys.zero_rtt = None;
        self.arrives(Side::Server, "one that was delayed", &one)?;
        self.arrives(Side::Server, "one that was repeated", &four)?;
        let mut forged = three.clone();
        *forged.last_mut().expect("it has bytes") ^= 1;
        self.arrives(Side::Server, "a forged one", &forged)?;
        self.arrives(Side::Server, "the true one", &three)
    }

    /// The client updates its keys, and then the server.
    pub fn updates(&mut self) -> Result<(), Error> {
        let early = self.server.send(Level::OneRtt, "hello")?;
        self.arrives(Side::Client, "the server's first one", &early)?;
        let delayed = [self.client.send(Level::OneRtt, "delayed")?, self.client.send(Level::OneRtt, "too late")?];
        assert!(self.client.update_keys(), "the client has its next keys");
        let updated = self.client.send(Level::OneRtt, "updated")?;
        self.arrives(Side::Server, "one of the next phase", &updated)?;
        self.arrives(Side::Server, "one of the former phase", &delayed[0])?;
        self.server.opener.discard_former();
        self.arrives(Side::Server, "another one, after its key", &delayed[1])?;
        let before = self.server.opener.keys.one_rtt.as_ref().is_some_and(|keys| keys.next.is_none());
        assert!(before, "the client can't update its keys again before the server has answered");
        let answer = self.server.send(Level::OneRtt, "answer")?;
        self.arrives(Side::Client, "the answer with updated keys", &answer)?;
        assert!(self.server.update_keys(), "the server has its next keys");
        let again = self.server.send(Level::OneRtt, "again")?;
        self.arrives(Side::Client, "one after a second update", &again)
    }
}

/// What is found.
pub const LOG: &[(&str, &[&str])] = &[
    ("0-RTT before the ClientHello", &["dropped: no keys for the packet's level or key phase"]),
    ("the ClientHello", &["Initial 0, Current: ClientHello"]),
    ("0-RTT after it", &["ZeroRtt 1, Current: early too"]),
    (
        "two levels, of which the client has one",
        &["Initial 0, Current: ServerHello", "dropped: no keys for the packet's level or key phase"],
    ),
    ("the same datagram", &["Initial 0, repeated", "Handshake 0, Current: Finished"]),
    ("the client's Handshake packet", &["Handshake 0, Current: Finished"]),
    ("an Initial packet after its keys", &["dropped: no keys for the packet's level or key phase"]),
    ("0-RTT that was delayed", &["ZeroRtt 0, Current: early"]),
    ("the last one first", &["OneRtt 5, Current: four"]),
    ("one that was delayed", &["OneRtt 2, Current: one"]),
    ("one that was repeated", &["OneRtt 5, repeated"]),
    ("a forged one", &["dropped: packet not sealed by these keys"]),
    ("the true one", &["OneRtt 4, Current: three"]),
    ("the server's first one", &["OneRtt 0, Current: hello"]),
    ("one of the next phase", &["OneRtt 8, Next: updated"]),
    ("one of the former phase", &["OneRtt 6, Former: delayed"]),
    ("another one, after its key", &["dropped: no keys for the packet's level or key phase"]),
    ("the answer with updated keys", &["OneRtt 1, Current: answer"]),
    ("one after a second update", &["OneRtt 2, Next: again"]),
];

/// Runs it all with these secrets, and returns what was found.
pub fn run<S: Secret>(secret: impl Fn(Side, Level) -> S) -> Result<Vec<(&'static str, Vec<String>)>, Error> {
    let mut connection = Connection::new(secret);
    connection.handshake()?;
    connection.loss()?;
    connection.updates()?;
    Ok(connection.log)
}

/// NO PROTECTION: the payload stays readable, anybody can make its tag, and the mask is the sample itself. A stack
/// needs an AEAD and the header protection cipher here (RFC 9001, section 5).
#[derive(Clone, Copy)]
pub struct NoProtection(u8);

impl NoProtection {
    fn tag(self, number: u64, header: &[u8], payload: &[u8]) -> [u8; 16] {
        let (mut tag, number) = ([self.0; 16], number.to_be_bytes());
        let bytes = header.iter().chain(payload).chain(&number);
        bytes.enumerate().for_each(|(i, byte)| tag[i % 16] ^= byte);
        tag
    }

    // As `rustls` masks: the first byte says how long the number is while it isn't masked.
    fn mask(self, sample: &[u8], first: &mut u8, number: &mut [u8], is_masked: bool) {
        let bits = (sample[0] ^ self.0) & if *first < 0x80 { 0x1f } else { 0x0f };
        let plain = if is_masked { *first ^ bits } else { *first };
        *first ^= bits;
        let len = PacketNumber::decode_len(plain);
        number.iter_mut().zip(&sample[1..]).take(len).for_each(|(byte, mask)| *byte ^= mask);
    }
}

impl HeaderKey for NoProtection {
    fn sample_size(&self) -> usize {
        16
    }

    fn encrypt(&self, pn_offset: usize, packet: &mut [u8]) {
        mask_in_place(pn_offset, packet, 16, |sample, first, number| self.mask(sample, first, number, false));
    }

    fn decrypt(&self, pn_offset: usize, packet: &mut [u8]) {
        mask_in_place(pn_offset, packet, 16, |sample, first, number| self.mask(sample, first, number, true));
    }
}

impl PacketKey for NoProtection {
    fn tag_len(&self) -> usize {
        16
    }

    fn encrypt(&self, number: u64, packet: &mut [u8], header_len: usize) {
        seal_in_place(packet, header_len, 16, |header, payload| self.tag(number, header, payload));
    }

    fn decrypt(&self, number: u64, header: &[u8], payload: &mut BytesMut) -> Result<(), CryptoError> {
        open_in_place(payload, |sealed| {
            let (plain, tag) = sealed.split_last_chunk::<16>().ok_or(CryptoError)?;
            if *tag == self.tag(number, header, plain) { Ok(plain) } else { Err(CryptoError) }
        })
    }
}

impl Secret for NoProtection {
    type HeaderKey = NoProtection;
    type PacketKey = NoProtection;

    fn keys(&self) -> Keys<NoProtection, NoProtection> {
        Keys { header: *self, packet: *self }
    }

    fn updated(&self) -> NoProtection {
        NoProtection(self.0 + 1)
    }
}

// Different ones for each side and level.
fn no_protection(side: Side, level: Level) -> NoProtection {
    NoProtection(side as u8 * 0x80 + level as u8 * 0x10)
}

fn main() -> Result<(), Error> {
    for (what, packets) in run(no_protection)? {
        println!("{what}: {}", packets.join("; "));
    }
    Ok(())
}

#[test]
fn each_packet_is_answered_as_it_should_be() -> Result<(), Error> {
    let log = run(no_protection)?;
    assert_eq!(log.len(), LOG.len());
    for ((what, found), wanted) in log.iter().zip(LOG) {
        assert_eq!((*what, found.iter().map(String::as_str).collect::<Vec<_>>()), (wanted.0, wanted.1.to_vec()));
    }
    Ok(())
}
