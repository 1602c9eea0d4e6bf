//! Packets that `quic-wire` opens by level and key phase, with real ciphers: those of its example `connection`, one of
//! RFC 9001, and those of captures with key updates and 0-RTT, whose descriptions say what tshark reads in them.
#[allow(dead_code, reason = "its program isn't run here")]
#[path = "../../examples/connection.rs"]
mod connection;

use bytes::BytesMut;
use connection::{LOG, Opener, Packet, Secret, run};
use quic_wire::crypto::{CryptoError, HeaderKey, PacketKey, mask_in_place, open_in_place, seal_in_place};
use quic_wire::datagram::HeaderPlaces;
use quic_wire::frame::{Crypto, Frame, Iter};
use quic_wire::levels::{KeyPhase, Level, LevelError, LevelKeys, OneRttKeys};
use quic_wire::packet::{DecodeOptions, Expected, FixedLengthConnectionIdParser, Keys, Packets};
use quic_wire::{Error, Side};
use quic_wire_capture::capture::{Capture, Datagram, Item};
use quic_wire_capture::ciphers::{SAMPLE_LEN, Suite, TAG_LEN};
use quic_wire_capture::input;
use quic_wire_capture::keylog::{KeyLog, Label};
use quic_wire_capture::keys::{PacketKeys, VERSION_1, VERSIONS};
use serde_json::Value;
use std::collections::BTreeMap;
use std::fs;
use std::net::SocketAddr;
use std::path::{Path, PathBuf};
use std::rc::Rc;

const FOLDER: &str = concat!(env!("CARGO_MANIFEST_DIR"), "/../../vectors/captures");

/// The keys of a secret. It masks by itself, as the keys of rustls do.
#[derive(Clone)]
struct Key(Rc<PacketKeys>);

impl Key {
    fn new(secret: &[u8], suite: Suite, version: u32) -> Key {
        Key(Rc::new(PacketKeys::new(secret, suite, version).expect("the secret fits the suite")))
    }

    // RFC 9001, section 5.4.1.
    fn mask(&self, sample: &[u8], first: &mut u8, number: &mut [u8], is_masked: bool) {
        let mask = self.0.mask(sample.try_into().expect("a sample has 16 bytes")).expect("a mask");
        let bits = mask[0] & if *first & 0x80 == 0x80 { 0x0f } else { 0x1f };
        let plain = if is_masked { *first ^ bits } else { *first };
        *first ^= bits;
        let len = usize::from(plain & 0x03) + 1;
        number.iter_mut().zip(&mask[1..]).take(len).for_each(|(byte, mask)| *byte ^= mask);
    }
}

impl HeaderKey for Key {
    fn sample_size(&self) -> usize {
        SAMPLE_LEN
    }

    fn encrypt(&self, pn_offset: usize, packet: &mut [u8]) {
        mask_in_place(pn_offset, packet, SAMPLE_LEN, |sample, first, number| self.mask(sample, first, number, false));
    }

    fn decrypt(&self, pn_offset: usize, packet: &mut [u8]) {
        mask_in_place(pn_offset, packet, SAMPLE_LEN, |sample, first, number| self.mask(sample, first, number, true));
    }
}

impl PacketKey for Key {
    fn tag_len(&self) -> usize {
        TAG_LEN
    }

    fn encrypt(&self, number: u64, packet: &mut [u8], header_len: usize) {
        seal_in_place(packet, header_len, TAG_LEN, |header, payload| {
            let mut sealed = payload.to_vec();
            self.0.seal(number, header, &mut sealed).expect("the payload isn't too long");
            let tag = sealed.split_off(payload.len());
            payload.copy_from_slice(&sealed);
            tag
        });
    }

    fn decrypt(&self, number: u64, header: &[u8], payload: &mut BytesMut) -> Result<(), CryptoError> {
        open_in_place(payload, |sealed| {
            let plain_len = sealed.len().checked_sub(TAG_LEN).ok_or(CryptoError)?;
            if self.0.open(number, header, sealed) { Ok(&sealed[..plain_len]) } else { Err(CryptoError) }
        })
    }
}

impl Secret for Key {
    type HeaderKey = Key;
    type PacketKey = Key;

    fn keys(&self) -> Keys<Key, Key> {
        Keys { header: self.clone(), packet: self.clone() }
    }

    fn updated(&self) -> Key {
        Key(Rc::new(self.0.updated().expect("the keys of the next phase")))
    }
}

#[test]
fn a_connection_with_each_suite() -> Result<(), Error> {
    for (suite, version) in Suite::ALL.into_iter().flat_map(|suite| VERSIONS.map(|version| (suite, version))) {
        let secret = |side: Side, level: Level| {
            let byte = 0x10 * (side as u8 + 1) + level as u8;
            Key::new(&vec![byte; suite.secret_len()], suite, version)
        };
        for ((what, found), wanted) in run(secret)?.iter().zip(LOG) {
            let found: Vec<_> = found.iter().map(String::as_str).collect();
            assert_eq!((*what, &found[..]), *wanted, "{suite:?}, version {version:x}");
        }
    }
    Ok(())
}

/// RFC 9001, appendix A.5.
#[test]
fn the_short_packet_of_the_rfc() {
    let unhex = |digits: &str| -> Vec<u8> {
        (0..digits.len()).step_by(2).map(|at| u8::from_str_radix(&digits[at..at + 2], 16).unwrap()).collect()
    };
    let secret = unhex("9ac312a7f877468ebe69422748ad00a15443f18203a07d6060f688f30f21632b");
    let packet = unhex("4cfe4189655e5cd55c41f69080575d7999c25a5bfb");
    let keys = Key::new(&secret, Suite::ChaCha20Poly1305, VERSION_1).keys();
    let mut keys = LevelKeys { one_rtt: Some(OneRttKeys::new(keys, None)), ..LevelKeys::new() };
    let parser = FixedLengthConnectionIdParser::new(0);
    let options = DecodeOptions { parser: &parser, versions: &VERSIONS, grease: false };
    let open = |keys: &LevelKeys<Key, Key>, app| {
        let expected = Expected { app, ..Expected::default() };
        Packets::new(BytesMut::from(&packet[..])).open_next_by_level(&options, keys, &expected).expect("a packet")
    };
    let opened = open(&keys, 654_360_564).expect("it is sealed with the secret");
    assert_eq!((opened.number, &opened.header_data[..]), (Some(654_360_564), &unhex("4200bff4")[..]));
    assert_eq!((&opened.payload[..], opened.reserved_bits_valid()), (&[0x01][..], true));
    assert_eq!(open(&keys, 0).err(), Some(LevelError::Unsealed), "its number is another one then");
    keys.one_rtt.as_mut().unwrap().phase = true;
    assert_eq!(open(&keys, 654_360_564).err(), Some(LevelError::NoKeys), "there is no key of a former phase");
    keys.one_rtt = None;
    assert_eq!(open(&keys, 654_360_564).err(), Some(LevelError::NoKeys));
}

/// A packet, as it is described and as it is opened.
type Row = (String, Option<u64>);

/// A connection of a capture.
struct Followed {
    client: SocketAddr,
    /// What opens the packets of each side.
    openers: [Opener<Key>; 2],
    version: u32,
    random: [u8; 32],
}

impl Followed {
    /// It begins with the client's first Initial packet (RFC 9001, section 5.2).
    fn begin(client: SocketAddr, packet: &[u8]) -> Followed {
        let places = HeaderPlaces::read(packet, 0, &VERSIONS).expect("a long header");
        let (version, id) = (places.version(), places.dst_cid(packet));
        let mut openers = [Opener::new(0), Opener::new(0)];
        for side in [Side::Client, Side::Server] {
            let keys = PacketKeys::initial(version, id, side).expect("the keys of Initial packets");
            openers[side as usize].install(Level::Initial, Key(Rc::new(keys)));
            openers[side as usize].grease = true;
        }
        Followed { client, openers, version, random: [0; 32] }
    }

    fn install(&mut self, level: Level, label: Label, suite: Suite, log: &KeyLog) {
        if let Some(secret) = log.secret(&self.random, label) {
            let opener = &mut self.openers[label.sender() as usize];
            opener.install(level, Key::new(secret, suite, self.version));
            opener.prepare();
        }
    }

    /// Reads the ClientHello's random bytes and the suite of the ServerHello, and installs the keys that follow. 0-RTT
    /// has the suite of an earlier connection (RFC 8446, section 4.2.10).
    fn learn(&mut self, payload: &[u8], suite: &mut Suite, log: &KeyLog) {
        for frame in Iter::new(payload).expect("frames") {
            let Frame::Crypto(Crypto { offset: 0, bytes }) = frame.expect("a frame") else { continue };
            match bytes {
                [1, _, _, _, 3, 3, rest @ ..] => {
                    self.random = *rest.first_chunk().expect("the random bytes");
                    self.install(Level::ZeroRtt, Label::ClientEarly, *suite, log);
                }
                [2, _, _, _, 3, 3, rest @ ..] => {
                    let [high, low] = *rest[33 + usize::from(rest[32])..].first_chunk().expect("the suite");
                    *suite = Suite::of(u16::from_be_bytes([high, low])).expect("a suite whose packets are opened");
                    self.install(Level::Handshake, Label::ClientHandshake, *suite, log);
                    self.install(Level::Handshake, Label::ServerHandshake, *suite, log);
                    self.install(Level::OneRtt, Label::ClientTraffic, *suite, log);
                    self.install(Level::OneRtt, Label::ServerTraffic, *suite, log);
                }
                _ => {}
            }
        }
    }
}

/// A capture whose packets are opened one after the other.
struct Reader {
    log: KeyLog,
    connections: Vec<Followed>,
    suite: Suite,
    rows: BTreeMap<u64, Vec<Row>>,
    phases: Vec<KeyPhase>,
}

impl Reader {
    fn datagram(&mut self, datagram: &Datagram<'_>) {
        let Reader { log, connections, suite, rows, phases } = self;
        let known = connections.iter().rposition(|one| [datagram.from, datagram.to].contains(&one.client));
        let at = known.unwrap_or_else(|| {
            connections.push(Followed::begin(datagram.from, datagram.bytes));
            connections.len() - 1
        });
        let connection = &mut connections[at];
        let sender = if connection.client == datagram.from { Side::Client } else { Side::Server };
        if let Ok(places) = HeaderPlaces::read(datagram.bytes, 0, &VERSIONS) {
            if !places.is_short() {
                connection.openers[!sender as usize].cid_len = places.src_cid(datagram.bytes).len();
            }
        }
        let mut packets = Packets::new(BytesMut::from(datagram.bytes));
        let rows = rows.entry(datagram.record).or_default();
        while !is_padding(&packets) {
            let Some(packet) = connection.openers[sender as usize].open_next(&mut packets) else { break };
            match packet.expect("no packet closes the connection") {
                Packet::New(level, number, phase, payload) => {
                    rows.push((name(level).to_string(), Some(number)));
                    phases.push(phase);
                    if level == Level::Initial {
                        connection.learn(&payload, suite, log);
                    }
                }
                Packet::Repeated(level, number) => rows.push((name(level).to_string(), Some(number))),
                Packet::Unprotected => rows.push(("without protection".to_string(), None)),
                Packet::Dropped(error) => rows.push((error.to_string(), None)),
            }
            connection.openers[sender as usize].prepare();
        }
    }
}

// Zeros after the last packet, with which aioquic makes datagrams longer.
fn is_padding(packets: &Packets) -> bool {
    packets.rest.as_ref().is_some_and(|rest| rest.iter().all(|byte| *byte == 0))
}

fn name(level: Level) -> &'static str {
    match level {
        Level::Initial => "Initial",
        Level::ZeroRtt => "0-RTT",
        Level::Handshake => "Handshake",
        Level::OneRtt => "1-RTT",
    }
}

fn file(name: &str, kind: &str) -> PathBuf {
    Path::new(FOLDER).join(format!("{name}.{kind}"))
}

fn read(name: &str) -> Reader {
    let (mut log, connections, rows) = (KeyLog::default(), Vec::new(), BTreeMap::new());
    log.add(&fs::read(file(name, "keys")).expect("a key log"));
    let mut reader = Reader { log, connections, suite: Suite::Aes128Gcm, rows, phases: Vec::new() };
    let capture = fs::File::open(file(name, "pcap")).expect("a capture");
    input::read(capture, &mut Capture::default(), |item| {
        if let Item::Datagram(datagram) = item {
            reader.datagram(&datagram);
        }
    })
    .expect("a capture that can be read");
    reader
}

// What tshark reads.
fn described(name: &str) -> BTreeMap<u64, Vec<Row>> {
    let text = fs::read(file(name, "json")).expect("a description");
    let description: Value = serde_json::from_slice(&text).expect("JSON");
    let row = |packet: &Value| (packet["type"].as_str().expect("a type").to_string(), packet["number"].as_u64());
    let rows = |packets: &Value| packets.as_array().expect("packets").iter().map(row).collect();
    let datagrams = description["datagrams"].as_array().expect("datagrams");
    datagrams.iter().map(|one| (one["record"].as_u64().expect("a record"), rows(&one["packets"]))).collect()
}

#[test]
fn captures_with_key_updates_and_early_data() {
    let captures = [
        ("aioquic-key-update", 2, 0),
        ("ngtcp2-key-update", 2, 0),
        ("aioquic-0-rtt", 0, 1),
        ("ngtcp2-0-rtt", 0, 1),
        ("ngtcp2-loss", 0, 0),
        ("aioquic-version-2", 0, 0),
        ("aioquic-chacha20", 0, 0),
        ("ngtcp2-aes-256", 0, 0),
    ];
    for (name, least_updates, early) in captures {
        let reader = read(name);
        let described = described(name);
        for (record, wanted) in &described {
            assert_eq!(reader.rows.get(record), Some(wanted), "{name}, record {record}: opened, and what tshark reads");
        }
        assert_eq!(reader.rows.len(), described.len(), "{name}: records");
        let updates = reader.phases.iter().filter(|phase| **phase == KeyPhase::Next).count();
        assert!(updates >= least_updates && (least_updates > 0 || updates == 0), "{name}: {updates} key updates");
        let found = reader.rows.values().flatten().filter(|(kind, _)| kind == "0-RTT").count();
        assert_eq!(found, early, "{name}: 0-RTT packets");
    }
}
