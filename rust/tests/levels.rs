//! Packets that are opened by level and key phase (RFC 9001, sections 4 to 6), each answer once.
#[path = "../examples/abuse/levels.rs"]
mod fuzz;
#[allow(dead_code, reason = "the fuzzer's other inputs use the rest")]
#[path = "../examples/abuse/random.rs"]
mod random;

use bytes::BytesMut;
use fuzz::{Key, header, pair, sealed};
use quic_wire::crypto::{CryptoError, HeaderKey, PacketKey, mask_in_place, open_in_place, seal_in_place};
use quic_wire::datagram::HeaderPlaces;
use quic_wire::levels::{KeyPhase, Level, LevelError, LevelKeys, MAX_NUMBER, OneRttKeys, Receiver};
use quic_wire::packet::{
    DecodeOptions, Expected, FixedLengthConnectionIdParser, Opened, PacketDecodeError, PacketNumber, Packets,
};
use quic_wire::permitted::PacketType;
use quic_wire::transport_error::Code;
use quic_wire::{ConnectionId, Error};
use random::{Random, Seeds};

const ID: &[u8] = &[5; 4];
const LEVELS: [Level; 4] = [Level::Initial, Level::ZeroRtt, Level::Handshake, Level::OneRtt];

// Keys 1 to 4 for the levels, in their order; 5 for the next phase, and 6 for the former one.
fn all_keys() -> LevelKeys<Key, Key> {
    let one_rtt = OneRttKeys { from: 100, former: Some(Key(6)), ..OneRttKeys::new(pair(4), Some(Key(5))) };
    LevelKeys { initial: Some(pair(1)), zero_rtt: Some(pair(2)), handshake: Some(pair(3)), one_rtt: Some(one_rtt) }
}

// A packet that was sealed with a key. 1-RTT packets have the header key of their first phase.
fn packet(level: Level, key_phase: bool, number: u8, key: u64) -> Vec<u8> {
    let mut keys = pair(key);
    if level == Level::OneRtt {
        keys.header = Key(4);
    }
    let mut packet = vec![];
    let header = header(level, key_phase, ConnectionId::new(ID), PacketNumber::U8(number));
    sealed(&header, number.into(), 0, &keys, &mut packet);
    packet
}

// All answers for a datagram, in whose spaces 100 is expected.
fn answers(keys: &LevelKeys<Key, Key>, datagram: &[u8]) -> Vec<Result<Opened, LevelError>> {
    let parser = FixedLengthConnectionIdParser::new(ID.len());
    let options = DecodeOptions { parser: &parser, versions: &[1], grease: false };
    let expected = Expected { initial: 100, handshake: 100, app: 100 };
    let mut packets = Packets::new(BytesMut::from(datagram));
    std::iter::from_fn(|| packets.open_next_by_level(&options, keys, &expected)).collect()
}

// The only answer for a packet: its number, or why it isn't opened.
fn answer(keys: &LevelKeys<Key, Key>, packet: &[u8]) -> Result<u64, LevelError> {
    let mut all = answers(keys, packet);
    assert_eq!(all.len(), 1, "one packet, one answer");
    all.remove(0).map(|opened| opened.number.expect("a packet number"))
}

/// RFC 9001, section 4, table 1; RFC 9000, section 12.3.
#[test]
fn each_level_has_keys_of_its_own() {
    let keys = all_keys();
    for (level, key) in LEVELS.into_iter().zip(1..) {
        for other in 1..=6 {
            let wanted = if key == other { Ok(101) } else { Err(LevelError::Unsealed) };
            assert_eq!(answer(&keys, &packet(level, false, 101, other)), wanted, "{level:?} with key {other}");
        }
        let opened = answers(&keys, &packet(level, false, 101, key)).remove(0).unwrap();
        assert_eq!((opened.level(), &opened.payload[..]), (Some(level), &101_u64.to_be_bytes()[..]));
    }
    let types = LEVELS.map(PacketType::from);
    assert_eq!(types, [PacketType::Initial, PacketType::ZeroRtt, PacketType::Handshake, PacketType::OneRtt]);
}

/// RFC 9001, section 4.9; section 5.7.
#[test]
fn a_level_without_keys_opens_nothing() {
    let discard: [fn(&mut LevelKeys<Key, Key>); 4] = [
        |keys| keys.initial = None,
        |keys| keys.zero_rtt = None,
        |keys| keys.handshake = None,
        |keys| keys.one_rtt = None,
    ];
    for (without, discard) in LEVELS.into_iter().zip(discard) {
        let mut keys = all_keys();
        discard(&mut keys);
        for (level, key) in LEVELS.into_iter().zip(1..) {
            let wanted = if level == without { Err(LevelError::NoKeys) } else { Ok(101) };
            assert_eq!(answer(&keys, &packet(level, false, 101, key)), wanted, "{level:?} without {without:?}");
            let none = answer(&LevelKeys::default(), &packet(level, false, 101, key));
            assert_eq!(none, Err(LevelError::NoKeys), "{level:?} without any");
        }
    }
}

/// RFC 9001, sections 6.3 and 6.5.
#[test]
fn a_packet_of_the_other_phase_has_the_key_for_its_number() {
    // Of packets from 100 on the phase is the next one, of others the former one.
    let rows = [
        (99, 6, Ok(99)),
        (99, 5, Err(LevelError::Unsealed)),
        (100, 5, Ok(100)),
        (100, 6, Err(LevelError::Unsealed)),
        (100, 4, Err(LevelError::Unsealed)),
    ];
    for (number, key, wanted) in rows {
        let found = answer(&all_keys(), &packet(Level::OneRtt, true, number, key));
        assert_eq!(found, wanted, "packet {number} with key {key}");
    }
    let mut keys = all_keys();
    keys.one_rtt.as_mut().unwrap().next = None;
    let unopened = answer(&keys, &packet(Level::OneRtt, true, 100, 5));
    assert_eq!(unopened, Err(LevelError::NoKeys), "a phase that isn't opened yet");
    assert_eq!(answer(&keys, &packet(Level::OneRtt, true, 99, 6)), Ok(99), "the former phase is as before");
    keys.one_rtt.as_mut().unwrap().former = None;
    let older = answer(&keys, &packet(Level::OneRtt, true, 99, 6));
    assert_eq!(older, Err(LevelError::NoKeys), "an older phase whose key is discarded");
    assert_eq!(answer(&keys, &packet(Level::OneRtt, false, 99, 4)), Ok(99), "the current phase needs neither");
    // The phase before the former one has the Key Phase bit of the current one.
    assert_eq!(answer(&all_keys(), &packet(Level::OneRtt, false, 9, 7)), Err(LevelError::Unsealed));
}

/// RFC 9000, section 12.2.
#[test]
fn a_dropped_packet_does_not_stop_the_next() {
    let mut keys = all_keys();
    keys.zero_rtt = None;
    let mut forged = packet(Level::Handshake, false, 101, 3);
    *forged.last_mut().unwrap() ^= 1;
    let parts = [
        packet(Level::ZeroRtt, false, 101, 2),
        forged,
        packet(Level::Initial, false, 102, 1),
        packet(Level::OneRtt, true, 103, 5),
    ];
    let found: Vec<_> = answers(&keys, &parts.concat()).into_iter().map(|one| one.map(|one| one.number)).collect();
    assert_eq!(found, [Err(LevelError::NoKeys), Err(LevelError::Unsealed), Ok(Some(102)), Ok(Some(103))]);
    let mut rest = packet(Level::Initial, false, 102, 1);
    rest.extend([0; 30]);
    let found: Vec<_> = answers(&keys, &rest).into_iter().map(|one| one.map(|one| one.number)).collect();
    let unread = LevelError::Decode(PacketDecodeError::InvalidHeader("fixed bit unset"));
    assert_eq!(found, [Ok(Some(102)), Err(unread)], "what is no packet ends the datagram");
}

/// RFC 9001, section 5.4.2; RFC 9000, section 17.2.
#[test]
fn short_and_unprotected_packets() {
    let short = [&[0x40][..], ID, &[0; 19]].concat();
    let why =
        LevelError::Decode(PacketDecodeError::InvalidHeader("packet too short to extract header protection sample"));
    assert_eq!(answer(&all_keys(), &short), Err(why));
    assert_eq!(answer(&LevelKeys::new(), &short), Err(LevelError::NoKeys), "without keys there is no sample to take");
    let retry = [0xff, 0, 0, 0, 1, 1, 7, 0, 1, 2, 3];
    let negotiation = [0xff, 0, 0, 0, 0, 1, 7, 0, 0, 0, 0, 1];
    for plain in [&retry[..], &negotiation] {
        let opened = answers(&LevelKeys::new(), plain).remove(0).expect("it needs no keys");
        assert_eq!((opened.level(), opened.number, opened.reserved_bits_valid()), (None, None, true));
        assert_eq!((&opened.header_data[..], &opened.payload[..]), plain.split_at(8));
    }
    assert_eq!(Error::from(LevelError::NoKeys).to_string(), "packet: no keys for the packet's level or key phase");
    assert_eq!(Error::from(LevelError::Unsealed).code(), None, "a packet is dropped, the connection goes on");
}

/// RFC 9000, sections 17.2 and 17.3.1.
#[test]
fn reserved_bits_are_reported() {
    for (level, key) in LEVELS.into_iter().zip(1..) {
        let reserved = if level == Level::OneRtt { [0x08, 0x10, 0x18] } else { [0x04, 0x08, 0x0c] };
        for bits in reserved.into_iter().chain([0]) {
            let mut packet = vec![];
            let header = header(level, false, ConnectionId::new(ID), PacketNumber::U8(101));
            sealed(&header, 101, bits, &pair(key), &mut packet);
            let opened = answers(&all_keys(), &packet).remove(0).unwrap();
            assert_eq!(opened.reserved_bits_valid(), bits == 0, "{level:?} with {bits:x}");
        }
    }
    let mut emptied = answers(&all_keys(), &packet(Level::OneRtt, false, 101, 4)).remove(0).unwrap();
    emptied.header_data.clear();
    assert!(!emptied.reserved_bits_valid());
}

#[test]
fn the_level_is_read_in_borrowed_bytes() {
    for level in LEVELS {
        let packet = packet(level, false, 1, 1);
        let places = HeaderPlaces::read(&packet, ID.len(), &[1]).unwrap();
        assert_eq!(places.level(), Some(level));
    }
    for first in [0xf0, 0xc0] {
        let packet = [first, 0, 0, 0, u8::from(first == 0xf0), 0, 0];
        assert_eq!(HeaderPlaces::read(&packet, 0, &[1]).unwrap().level(), None, "{first:x}");
    }
}

/// RFC 9001, section 6; by the numbers of packets and the names of keys.
#[test]
fn phases_follow_packets() {
    let first = || OneRttKeys::new(quic_wire::packet::Keys { header: (), packet: 0 }, Some(1));
    let mut keys = first();
    assert_eq!((keys.phase, keys.phase_of(true, 5)), (false, KeyPhase::Former), "no packet was opened");
    for (number, expected, from) in [(7, 8, 7), (9, 10, 7), (5, 10, 5), (6, 10, 5)] {
        assert_eq!(keys.opened(false, number, expected), Ok(KeyPhase::Current));
        assert_eq!(keys.from, from, "the least that was opened, after {number}");
    }
    assert_eq!((keys.packet(true, 4), keys.packet(true, 5)), (None, Some(&1)));

    // A greater number was opened with the older keys: RFC 9001, section 6.4.
    let error = keys.opened(true, 8, 10).unwrap_err();
    assert_eq!((error.code, keys.phase, keys.current), (Code::KEY_UPDATE_ERROR, false, 0));

    assert_eq!(keys.opened(true, 12, 13), Ok(KeyPhase::Next));
    assert_eq!((keys.phase, keys.from, keys.current, keys.next, keys.former), (true, 12, 1, None, Some(0)));
    assert_eq!(keys.opened(false, 11, 13), Ok(KeyPhase::Former));
    assert_eq!((keys.from, keys.packet(false, 11), keys.packet(false, 13)), (12, Some(&0), None));
    assert!(!keys.update(), "the key of the next phase isn't there");
    assert_eq!((keys.phase, keys.current, keys.former), (true, 1, Some(0)));

    // This endpoint begins the next phase: until the peer follows, its packets are of the former one.
    keys.next = Some(2);
    assert!(keys.update());
    assert_eq!((keys.phase, keys.from, keys.current, keys.next, keys.former), (false, u64::MAX, 2, None, Some(1)));
    assert_eq!((keys.packet(true, 14), keys.packet(true, MAX_NUMBER)), (Some(&1), Some(&1)));
    assert_eq!(keys.opened(true, 14, 15), Ok(KeyPhase::Former));
    assert_eq!(keys.opened(false, 15, 16), Ok(KeyPhase::Current));
    assert_eq!((keys.packet(true, 14), keys.packet(true, 16)), (Some(&1), None));

    // The greatest number is expected again after it was opened.
    let mut last = first();
    assert_eq!(last.opened(false, 0, MAX_NUMBER), Ok(KeyPhase::Current));
    assert_eq!(last.opened(true, MAX_NUMBER, MAX_NUMBER), Ok(KeyPhase::Next));
}

#[test]
fn the_phase_of_a_packet_is_that_of_its_key() {
    let first = quic_wire::packet::Keys { header: (), packet: "current" };
    let keys = OneRttKeys { from: 12, former: Some("former"), ..OneRttKeys::new(first, Some("next")) };
    for (key_phase, number) in (0..30).map(|row| (row % 2 == 1, row / 2 + 5)) {
        let key = match keys.phase_of(key_phase, number) {
            KeyPhase::Former => "former",
            KeyPhase::Current => "current",
            KeyPhase::Next => "next",
        };
        assert_eq!(keys.packet(key_phase, number), Some(&key), "packet {number} of phase {key_phase}");
    }
}

/// RFC 9000, sections 12.3 and 17.1.
#[test]
fn a_receiver_expects_a_number_after_the_greatest() {
    let parser = FixedLengthConnectionIdParser::new(ID.len());
    let options = DecodeOptions { parser: &parser, versions: &[1], grease: false };
    let (mut receiver, keys) = (Receiver::default(), all_keys());
    assert_eq!(*receiver.expected(), Expected::default());
    let rows = [
        (packet(Level::Initial, false, 7, 1), (8, 0, 0)),
        (packet(Level::Initial, false, 5, 1), (8, 0, 0)),
        (packet(Level::Handshake, false, 9, 9), (8, 0, 0)),
        (packet(Level::ZeroRtt, false, 3, 2), (8, 0, 4)),
        (packet(Level::OneRtt, false, 6, 4), (8, 0, 7)),
        (packet(Level::OneRtt, false, 6, 4), (8, 0, 7)),
        (packet(Level::Handshake, false, 1, 3), (8, 2, 7)),
    ];
    for (packet, wanted) in rows {
        let mut packets = Packets::new(BytesMut::from(&packet[..]));
        assert!(receiver.receive_next(&mut packets, &options, &keys).is_some());
        assert!(receiver.receive_next(&mut packets, &options, &keys).is_none());
        let Expected { initial, handshake, app } = *receiver.clone().expected();
        assert_eq!((initial, handshake, app), wanted, "after {packet:x?}");
    }
}

#[test]
fn ciphers_that_work_in_place() {
    let packet: [u8; 12] = std::array::from_fn(|i| i as u8);
    let mut masked = packet;
    mask_in_place(3, &mut masked, 5, |sample, first, number| {
        assert_eq!((sample, *first, *number), (&[7, 8, 9, 10, 11][..], 0, [3, 4, 5, 6]));
        *first = 0xa0;
        number[1] = 0xa1;
    });
    assert_eq!(masked, [0xa0, 1, 2, 3, 0xa1, 5, 6, 7, 8, 9, 10, 11]);
    let mut whole = packet;
    seal_in_place(&mut whole, 3, 4, |header, payload| {
        assert_eq!((header, &*payload), (&[0, 1, 2][..], &[3, 4, 5, 6, 7][..]));
        payload.fill(0xb0);
        [0xb1, 0xb2, 0xb3, 0xb4]
    });
    assert_eq!(whole, [0, 1, 2, 0xb0, 0xb0, 0xb0, 0xb0, 0xb0, 0xb1, 0xb2, 0xb3, 0xb4]);
    let mut payload = BytesMut::from(&packet[..]);
    assert_eq!(open_in_place(&mut payload, |_| Err::<&[u8], _>("wrong tag")), Err(CryptoError));
    assert_eq!(payload.len(), 12, "the cipher changed nothing");
    assert_eq!(open_in_place::<()>(&mut payload, |sealed| Ok(&sealed[..8])), Ok(()));
    assert_eq!(payload, packet[..8]);
}

#[test]
fn keys_of_any_type() {
    let key: (Box<dyn HeaderKey>, Box<dyn PacketKey>) = (Box::new(Key(4)), Box::new(Key(4)));
    let boxed = quic_wire::packet::Keys { header: key.0, packet: key.1 };
    assert_eq!((boxed.header.sample_size(), boxed.packet.tag_len()), (16, 16));
    let keys = LevelKeys { one_rtt: Some(OneRttKeys::new(boxed, None)), ..LevelKeys::new() };
    let parser = FixedLengthConnectionIdParser::new(ID.len());
    let options = DecodeOptions { parser: &parser, versions: &[1], grease: false };
    let mut packets = Packets::new(BytesMut::from(&packet(Level::OneRtt, false, 9, 4)[..]));
    let opened = Receiver::new().receive_next(&mut packets, &options, &keys).unwrap().unwrap();
    assert_eq!(opened.number, Some(9));
}

/// A part of what `abuse` does.
#[test]
fn any_datagrams_and_any_network() {
    let mut random = Random::new(1, Seeds::default());
    for _ in 0..3000 {
        fuzz::opened(&mut random);
    }
    for _ in 0..200 {
        fuzz::delivered(&mut random);
    }
}
