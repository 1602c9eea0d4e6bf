//! Packets that are opened by level and key phase: any datagrams, which are also opened step by step and in borrowed
//! bytes; and those of a sender that updates its keys, over a network that loses, repeats, delays and changes them.
use crate::random::{Random, VERSIONS};
use bytes::{Bytes, BytesMut};
use quic_wire::ConnectionId;
use quic_wire::crypto::{CryptoError, HeaderKey, PacketKey, open_in_place, seal_in_place};
use quic_wire::datagram::{PacketMut, PacketPlace, PacketsMut, UnprotectError};
use quic_wire::levels::{KeyPhase, Level, LevelError, LevelKeys, OneRttKeys, Receiver};
use quic_wire::packet::{
    DecodeOptions, Expected, FixedLengthConnectionIdParser, Header, InitialHeader, Keys, LongType, Opened,
    PacketNumber, Packets, PartialDecode, SpaceId,
};
use quic_wire::varint;

/// A key that hides nothing: its mask is the sample and its number, its tag a hash (FNV-1a).
#[derive(Clone, Copy, Debug, PartialEq, Eq)]
pub struct Key(pub u64);

impl Key {
    fn mask(self, at: usize, packet: &[u8]) -> [u8; 5] {
        let sample = packet[at + 4..].first_chunk::<16>().unwrap();
        [sample[0] ^ self.0 as u8, sample[1], sample[2], sample[3], sample[4]]
    }

    fn tag(self, number: u64, header: &[u8], payload: &[u8]) -> [u8; 16] {
        let seed = [self.0.to_be_bytes(), number.to_be_bytes(), (header.len() as u64).to_be_bytes()].concat();
        let bytes = seed.iter().chain(header).chain(payload);
        let step = |hash: u128, byte: &u8| (hash ^ u128::from(*byte)).wrapping_mul(0x0100_0000_0000_0000_0000_013b);
        bytes.fold(0x6c62_272e_07bb_0142_62b8_2175_6295_c58d, step).to_be_bytes()
    }

    fn open(self, number: u64, header: &[u8], sealed: &[u8]) -> Option<usize> {
        let (payload, tag) = sealed.split_last_chunk()?;
        (*tag == self.tag(number, header, payload)).then_some(payload.len())
    }
}

impl HeaderKey for Key {
    fn sample_size(&self) -> usize {
        16
    }

    fn encrypt(&self, at: usize, packet: &mut [u8]) {
        let mask = self.mask(at, packet);
        PacketPlace::new(0..packet.len(), at).protect(packet, &mask).unwrap();
    }

    fn decrypt(&self, at: usize, packet: &mut [u8]) {
        let mask = self.mask(at, packet);
        PacketPlace::new(0..packet.len(), at).unprotect(packet, &mask, 0).unwrap();
    }
}

impl PacketKey for Key {
    fn tag_len(&self) -> usize {
        16
    }

    fn encrypt(&self, number: u64, packet: &mut [u8], header_len: usize) {
        seal_in_place(packet, header_len, 16, |header, payload| self.tag(number, header, payload));
    }

    fn decrypt(&self, number: u64, header: &[u8], payload: &mut BytesMut) -> Result<(), CryptoError> {
        open_in_place(payload, |sealed| {
            let len = self.open(number, header, sealed).ok_or(CryptoError)?;
            Ok::<_, CryptoError>(&sealed[..len])
        })
    }
}

/// Both keys.
pub fn pair(key: u64) -> Keys<Key, Key> {
    Keys { header: Key(key), packet: Key(key) }
}

/// A packet whose payload says its number, with these bits of its first byte set besides.
pub fn sealed(header: &Header, number: u64, bits: u8, keys: &Keys<Key, Key>, datagram: &mut Vec<u8>) {
    let start = datagram.len();
    let partial = header.encode(datagram);
    datagram[start] |= bits;
    datagram.extend(number.to_be_bytes());
    datagram.extend([0; 16]);
    partial.finish(&mut datagram[start..], &keys.header, Some((number, &keys.packet)));
}

/// The header of a level.
pub fn header(level: Level, key_phase: bool, dst_cid: ConnectionId, number: PacketNumber) -> Header {
    let (src_cid, version) = (ConnectionId::new(&[3; 4]), VERSIONS[0]);
    match level {
        Level::Initial => Header::Initial(InitialHeader { dst_cid, src_cid, token: Bytes::new(), number, version }),
        Level::ZeroRtt => Header::Long { ty: LongType::ZeroRtt, dst_cid, src_cid, number, version },
        Level::Handshake => Header::Long { ty: LongType::Handshake, dst_cid, src_cid, number, version },
        Level::OneRtt => Header::Short { spin: false, key_phase, dst_cid, number },
    }
}

const LEVELS: [Level; 4] = [Level::Initial, Level::ZeroRtt, Level::Handshake, Level::OneRtt];

/// What was opened, with whether its reserved bits are 0.
type Answer = Result<(Opened, bool), LevelError>;

// Step by step, as a stack does that cuts packets itself: the header key, the whole number, the packet key (RFC 9001,
// sections 5.4.1 and 6.5).
fn by_steps(partial: PartialDecode, keys: &LevelKeys<Key, Key>, expected: &Expected) -> Answer {
    let (early, one_rtt) = (&keys.zero_rtt, keys.one_rtt.as_ref());
    let header_key = match partial.space() {
        None => {
            let packet = partial.finish(None::<&Key>).map_err(LevelError::Decode)?;
            let (header, header_data, payload) = (packet.header, packet.header_data, packet.payload);
            return Ok((Opened { header, header_data, number: None, payload }, true));
        }
        Some(_) if partial.is_0rtt() => early.as_ref().map(|keys| keys.header),
        Some(SpaceId::Initial) => keys.initial.as_ref().map(|keys| keys.header),
        Some(SpaceId::Handshake) => keys.handshake.as_ref().map(|keys| keys.header),
        Some(SpaceId::Data) => one_rtt.map(|keys| keys.header),
    };
    let mut packet = partial.finish(Some(&header_key.ok_or(LevelError::NoKeys)?)).map_err(LevelError::Decode)?;
    let space = packet.header.space();
    let number = packet.header.number().unwrap().expand(expected.of(space));
    let key = match (space, one_rtt) {
        (SpaceId::Initial, _) => keys.initial.as_ref().map(|keys| keys.packet),
        (SpaceId::Handshake, _) => keys.handshake.as_ref().map(|keys| keys.packet),
        _ if packet.header.is_0rtt() => early.as_ref().map(|keys| keys.packet),
        (_, None) => None,
        (_, Some(keys)) if packet.header.key_phase() == keys.phase => Some(keys.current),
        (_, Some(keys)) if number < keys.from => keys.former,
        (_, Some(keys)) => keys.next,
    };
    let (key, is_valid) = (key.ok_or(LevelError::NoKeys)?, packet.reserved_bits_valid());
    PacketKey::decrypt(&key, number, &packet.header_data, &mut packet.payload).map_err(|_| LevelError::Unsealed)?;
    let (header, header_data, payload) = (packet.header, packet.header_data, packet.payload);
    Ok((Opened { header, header_data, number: Some(number), payload }, is_valid))
}

// The answers and what each leaves.
fn all_by_steps(
    datagram: &[u8],
    options: &DecodeOptions<'_, FixedLengthConnectionIdParser>,
    keys: &LevelKeys<Key, Key>,
    expected: &Expected,
) -> Vec<(Answer, Option<BytesMut>)> {
    let (mut rest, mut found) = (Some(BytesMut::from(datagram)), vec![]);
    while let Some(bytes) = rest {
        match PartialDecode::new(bytes, options.parser, options.versions, options.grease) {
            Err(error) => {
                found.push((Err(LevelError::Decode(error)), None));
                return found;
            }
            Ok((partial, others)) => {
                found.push((by_steps(partial, keys, expected), others.clone()));
                rest = others;
            }
        }
    }
    found
}

fn same(one: &Opened, other: &Opened) {
    assert_eq!((&one.header, one.number), (&other.header, other.number));
    assert_eq!((&one.header_data, &one.payload), (&other.header_data, &other.payload));
}

// The packets of a datagram are opened in three ways.
fn all_opened(datagram: &[u8], cid_len: usize, grease: bool, keys: &LevelKeys<Key, Key>, expected: &Expected) {
    let parser = FixedLengthConnectionIdParser::new(cid_len);
    let options = DecodeOptions { parser: &parser, versions: VERSIONS, grease };
    let by_steps = all_by_steps(datagram, &options, keys, expected);
    let mut packets = Packets::new(BytesMut::from(datagram));
    for (answer, rest) in &by_steps {
        let opened = packets.open_next_by_level(&options, keys, expected).unwrap();
        assert_eq!((&packets.rest, opened.as_ref().err()), (rest, answer.as_ref().err()));
        if let (Ok(opened), Ok((wanted, is_valid))) = (&opened, answer) {
            same(opened, wanted);
            assert_eq!(opened.reserved_bits_valid(), *is_valid);
            assert_eq!(opened.level().map(Level::space), opened.number.map(|_| opened.header.space()));
        }
    }
    assert!(packets.open_next_by_level(&options, keys, expected).is_none());
    let mut copy = datagram.to_vec();
    let mut wanted = by_steps.iter();
    for packet in PacketsMut::new(&mut copy, cid_len, VERSIONS, grease) {
        let (wanted, _) = wanted.next().unwrap();
        let Ok(packet) = packet else { return assert!(matches!(wanted, Err(LevelError::Decode(_)))) };
        let found = in_place(packet, keys, expected);
        let wanted = match wanted {
            Ok((opened, _)) => Ok(opened.number.map(|number| (number, opened.payload.len()))),
            Err(error) => Err(*error),
        };
        assert_eq!(found, wanted.map_err(|error| if let LevelError::Decode(_) = error { None } else { Some(error) }));
    }
    assert!(wanted.next().is_none());
}

// The number and the length of the payload, or why not; an error without a name if there is no sample.
fn in_place(
    packet: PacketMut<'_>,
    keys: &LevelKeys<Key, Key>,
    expected: &Expected,
) -> Result<Option<(u64, usize)>, Option<LevelError>> {
    let Some(level) = packet.header().level() else { return Ok(None) };
    let key = keys.header(level).ok_or(Some(LevelError::NoKeys))?;
    let mask = |sample: &[u8]| [sample[0] ^ key.0 as u8, sample[1], sample[2], sample[3], sample[4]];
    let packet = packet.open_with(16, mask, expected.of(level.space()));
    let packet = packet.map_err(|error| (error != UnprotectError::TooShort).then_some(LevelError::Unsealed))?;
    let number = packet.number();
    let key = keys.packet(level, packet.key_phase(), number).ok_or(Some(LevelError::NoKeys))?;
    let len = key.open(number, packet.header_data, packet.payload).ok_or(Some(LevelError::Unsealed))?;
    Ok(Some((number, len)))
}

/// Datagrams of packets that were sealed with some of these keys, and any others.
pub fn opened(random: &mut Random) {
    let near = random.number() & (varint::MAX >> 1);
    let expected = Expected { initial: near, handshake: random.below(300), app: near + random.below(300) };
    let mut key = |often: u64| (random.below(often) > 0).then(|| random.below(4));
    let levels = [key(4).map(pair), key(4).map(pair), key(4).map(pair)];
    let (next, former, current) = (key(2).map(Key), key(2).map(Key), key(9));
    let [initial, zero_rtt, handshake] = levels;
    let from = [0, u64::MAX, expected.app.saturating_sub(random.below(9))][random.below(3) as usize];
    let one_rtt = current.map(|current| {
        let Keys { header, packet: current } = pair(current);
        OneRttKeys { header, phase: random.flag(), from, current, next, former }
    });
    let keys = LevelKeys { initial, zero_rtt, handshake, one_rtt };
    let dst_cid = random.id();
    let mut datagram = vec![];
    for _ in 0..random.below(4) {
        let level = LEVELS[random.below(4) as usize];
        let number = (expected.of(level.space()) + random.below(9)).saturating_sub(random.below(9));
        let header = header(level, random.flag(), dst_cid, PacketNumber::U16(number as u16));
        let header_key = keys.header(level).copied().unwrap_or(Key(random.below(4)));
        let packet_key = keys.packet(level, header.key_phase(), number).copied();
        let packet_key = packet_key.filter(|_| random.below(4) > 0).unwrap_or(Key(random.below(4)));
        let bits = if random.below(8) > 0 { 0 } else { 0x08 };
        sealed(&header, number, bits, &Keys { header: header_key, packet: packet_key }, &mut datagram);
    }
    if random.below(3) == 0 {
        random.change(&mut datagram);
    }
    all_opened(&datagram, dst_cid.len(), random.flag(), &keys, &expected);
    all_opened(&random.datagram(), random.below(21) as usize, random.flag(), &keys, &expected);
}

// A packet on its way, with its number and how many key updates came before it.
struct Sent {
    number: u64,
    generation: u64,
    datagram: Vec<u8>,
}

// A receiver, and what its keys have to be.
struct End {
    receiver: Receiver,
    keys: LevelKeys<Key, Key>,
    generation: u64,
    // The numbers that were opened, each with its generation.
    opened: Vec<(u64, u64)>,
}

impl End {
    fn one_rtt(&mut self) -> &mut OneRttKeys<Key, Key> {
        self.keys.one_rtt.as_mut().unwrap()
    }

    // Whether a packet of the current phase was opened.
    fn is_confirmed(&self) -> bool {
        self.opened.iter().any(|(_, generation)| *generation == self.generation)
    }

    // What an unchanged packet must be answered with: its phase if it is opened.
    fn wanted(&mut self, generation: u64) -> Result<KeyPhase, LevelError> {
        let current = self.generation;
        let keys = self.one_rtt();
        let (has_next, has_former) = (keys.next.is_some(), keys.former.is_some());
        match current.checked_sub(generation) {
            Some(0) => Ok(KeyPhase::Current),
            Some(1) if has_former => Ok(KeyPhase::Former),
            None if has_next => Ok(KeyPhase::Next),
            None => Err(LevelError::NoKeys),
            Some(age) if age % 2 == 1 && !has_former => Err(LevelError::NoKeys),
            Some(_) => Err(LevelError::Unsealed),
        }
    }

    fn take(&mut self, datagram: &[u8]) -> Option<Result<Opened, LevelError>> {
        let parser = FixedLengthConnectionIdParser::new(4);
        let options = DecodeOptions { parser: &parser, versions: VERSIONS, grease: false };
        self.receiver.receive_next(&mut Packets::new(BytesMut::from(datagram)), &options, &self.keys)
    }

    fn arrives(&mut self, sent: &Sent) {
        let wanted = self.wanted(sent.generation);
        let found = self.take(&sent.datagram).unwrap();
        assert_eq!(found.as_ref().err(), wanted.as_ref().err(), "{} of {}", sent.number, sent.generation);
        let Ok(opened) = found else { return };
        assert_eq!((opened.number, &opened.payload[..]), (Some(sent.number), &sent.number.to_be_bytes()[..]));
        if self.opened.iter().any(|(number, _)| *number == sent.number) {
            return;
        }
        let (key_phase, expected) = (opened.header.key_phase(), self.receiver.expected().app);
        let phase = self.one_rtt().opened(key_phase, sent.number, expected);
        assert_eq!(phase.as_ref().ok(), wanted.as_ref().ok());
        self.generation += u64::from(phase == Ok(KeyPhase::Next));
        self.opened.push((sent.number, sent.generation));
        assert_eq!(self.receiver.expected().app, self.opened.iter().map(|(number, _)| number + 1).max().unwrap());
    }

    // Discards keys and derives them, when an endpoint may.
    fn changes_keys(&mut self, random: &mut Random) {
        let (generation, is_confirmed) = (self.generation, self.is_confirmed());
        let keys = self.one_rtt();
        match random.below(6) {
            0 if is_confirmed => keys.former = None,
            1 | 2 => keys.next = Some(Key(generation + 1)),
            3 if is_confirmed && keys.update() => self.generation += 1,
            _ => {}
        }
    }
}

/// A connection's 1-RTT packets, with key updates of both sides.
pub fn delivered(random: &mut Random) {
    let one_rtt = OneRttKeys::new(pair(0), Some(Key(1)));
    let keys = LevelKeys { one_rtt: Some(one_rtt), ..LevelKeys::new() };
    let mut end = End { receiver: Receiver::new(), keys, generation: 0, opened: vec![] };
    let (mut next, mut generation, mut on_its_way) = (0, 0, Vec::<Sent>::new());
    while next < 120 {
        // The sender updates its keys in response, or by itself once a packet with its keys was acknowledged.
        let may_update = generation == end.generation && end.is_confirmed();
        if generation < end.generation && random.flag() || may_update && random.below(9) == 0 {
            generation += 1;
        }
        let mut datagram = vec![];
        let keys = Keys { header: Key(0), packet: Key(generation) };
        let header =
            header(Level::OneRtt, generation % 2 == 1, ConnectionId::new(&[5; 4]), PacketNumber::U8(next as u8));
        sealed(&header, next, 0, &keys, &mut datagram);
        on_its_way.push(Sent { number: next, generation, datagram });
        next += 1 + random.below(3);
        for _ in 0..random.below(4) {
            let at = random.below(on_its_way.len() as u64) as usize;
            let mut forged = on_its_way[at].datagram.clone();
            let bit = random.below(8 * forged.len() as u64) as usize;
            forged[bit / 8] ^= 1 << (bit % 8);
            let before = *end.receiver.expected();
            assert!(end.take(&forged).unwrap().is_err() && *end.receiver.expected() == before);
            end.arrives(&on_its_way[at]);
            if random.flag() {
                on_its_way.swap_remove(at);
            }
            end.changes_keys(random);
            if on_its_way.is_empty() {
                break;
            }
        }
    }
}
