//! A small capture of a whole connection, packets sealed with its keys, and what is found in datagrams as lines.
#![allow(dead_code, reason = "each test uses a part")]

use quic_wire::Side;
use quic_wire::datagram::{Header, HeaderKind, PacketRef};
use quic_wire::packet::{LongType, PacketNumber};
use quic_wire_capture::capture::{Capture, Datagram, Item};
use quic_wire_capture::ciphers::{SAMPLE_LEN, Suite};
use quic_wire_capture::connection::Connection;
use quic_wire_capture::follow::Follower;
use quic_wire_capture::keylog::{KeyLog, Label};
use quic_wire_capture::keys::PacketKeys;
use quic_wire_capture::sink::{Ended, Event, Rest, Sink, Unopened};
use std::net::SocketAddr;

pub const CAPTURE: &[u8] = include_bytes!("../data/small.pcap");
pub const KEYS: &[u8] = include_bytes!("../data/small.keys");

/// A datagram that owns its bytes.
#[derive(Clone, Debug)]
pub struct Kept {
    pub record: u64,
    pub time: u64,
    pub from: SocketAddr,
    pub to: SocketAddr,
    pub bytes: Vec<u8>,
}

impl Kept {
    pub fn new(datagram: &Datagram<'_>) -> Kept {
        let Datagram { record, time, from, to, bytes, .. } = *datagram;
        Kept { record, time, from, to, bytes: bytes.to_vec() }
    }

    pub fn datagram(&self) -> Datagram<'_> {
        let Kept { record, time, from, to, .. } = *self;
        Datagram { record, time, from, to, bytes: &self.bytes, missing: 0, outgoing: None }
    }
}

/// All datagrams of a capture file.
pub fn read(file: &[u8]) -> Vec<Kept> {
    let (mut capture, mut kept) = (Capture::default(), Vec::new());
    capture.feed(file);
    while let Some(item) = capture.next().unwrap() {
        if let Item::Datagram(datagram) = item {
            kept.push(Kept::new(&datagram));
        }
    }
    kept
}

pub fn datagrams() -> Vec<Kept> {
    read(CAPTURE)
}

/// A packet as a line, with what it says.
#[derive(Clone, Debug, PartialEq, Eq)]
pub struct Row {
    pub record: u64,
    pub connection: Option<usize>,
    pub number: Option<u64>,
    pub text: String,
}

/// The packets of a capture, and the payloads of those that were opened.
#[derive(Default)]
pub struct Rows {
    pub rows: Vec<Row>,
    pub plain: Vec<Plain>,
    pub unopened: Vec<Unopened>,
    pub rests: Vec<Rest>,
    pub ended: Vec<(usize, Ended)>,
}

impl Sink for Rows {
    fn opened(&mut self, connection: &Connection, datagram: &Datagram<'_>, _index: u64, event: &Event<'_>) {
        match event {
            Event::Packet(opened) | Event::Again(opened, _) => {
                let text = format!("{:?} {:?}", opened.kind(), opened.sender());
                let (connection, number) = (Some(connection.number()), Some(opened.number()));
                self.rows.push(Row { record: datagram.record, connection, number, text });
                self.plain.push(Plain::new(datagram, opened));
            }
            _ => {}
        }
        let text = match event {
            Event::Frame { frame, range, permitted, .. } => format!(", {range:?} {frame:?} {permitted:?}"),
            Event::Invalid { error, offset, fault, .. } => format!(", {offset} {error:?} {fault:?}"),
            Event::Parameters { read, .. } => format!(", {read:?}"),
            Event::Again(_, before) => format!(", again {:?}", before.map(|sent| sent.record)),
            Event::Acknowledged { sent, was_lost } => format!(", acknowledged {} {was_lost}", sent.number),
            Event::Lost(sent) => format!(", lost {}", sent.number),
            Event::NewId(id, side) => format!(", id {id} {side:?}"),
            Event::Packet(_) | Event::Empty(_) | Event::Done(_) => String::new(),
        };
        self.rows.last_mut().unwrap().text.push_str(&text);
    }

    fn unopened(
        &mut self,
        owner: Option<(&Connection, Side)>,
        datagram: &Datagram<'_>,
        _index: u64,
        packet: &PacketRef<'_>,
        why: Unopened,
    ) {
        let connection = owner.map(|(connection, _)| connection.number());
        let text = format!("{:?}: {why}", packet.header().kind());
        self.rows.push(Row { record: datagram.record, connection, number: None, text });
        self.unopened.push(why);
    }

    fn rest(
        &mut self,
        owner: Option<(&Connection, Side)>,
        datagram: &Datagram<'_>,
        _index: u64,
        offset: usize,
        why: Rest,
    ) {
        let connection = owner.map(|(connection, _)| connection.number());
        self.rows.push(Row { record: datagram.record, connection, number: None, text: format!("{offset}: {why}") });
        self.rests.push(why);
    }

    fn ended(&mut self, connection: &Connection, how: Ended) {
        self.ended.push((connection.number(), how));
    }
}

impl Rows {
    /// How many packets of a connection were opened.
    pub fn opened(&self, connection: usize) -> usize {
        self.rows.iter().filter(|row| row.connection == Some(connection) && row.number.is_some()).count()
    }
}

/// What is found in datagrams with a key log.
pub fn follow_with(keys: &[u8], datagrams: &[Kept]) -> (Follower, Rows) {
    let (mut follower, mut rows) = (Follower::default(), Rows::default());
    follower.keylog.add(keys);
    datagrams.iter().for_each(|kept| follower.take(&kept.datagram(), &mut rows));
    follower.finish(&mut rows);
    (follower, rows)
}

pub fn follow(datagrams: &[Kept]) -> Rows {
    follow_with(KEYS, datagrams).1
}

/// An opened packet, or one to be sealed.
#[derive(Clone, Debug)]
pub struct Plain {
    /// The index of its datagram.
    pub place: usize,
    pub sender: Side,
    pub kind: HeaderKind,
    pub number: u64,
    pub dcid: Vec<u8>,
    pub scid: Vec<u8>,
    pub token: Vec<u8>,
    pub payload: Vec<u8>,
}

impl Plain {
    fn new(datagram: &Datagram<'_>, opened: &quic_wire_capture::opened::Opened<'_>) -> Plain {
        let packet = opened.packet();
        Plain {
            place: usize::try_from(datagram.record).unwrap() - 1,
            sender: opened.sender(),
            kind: opened.kind(),
            number: opened.number(),
            dcid: packet.dst_cid().to_vec(),
            scid: packet.src_cid().to_vec(),
            token: packet.token().to_vec(),
            payload: opened.payload().to_vec(),
        }
    }

    fn header(&self, version: u32) -> Header<'_> {
        let (dst_cid, src_cid, token) = (&self.dcid[..], &self.scid[..], &self.token[..]);
        let number = PacketNumber::U32(self.number as u32);
        match self.kind {
            HeaderKind::Initial => Header::Initial { dst_cid, src_cid, token, number, version },
            HeaderKind::Handshake => Header::Long { ty: LongType::Handshake, dst_cid, src_cid, number, version },
            HeaderKind::ZeroRtt => Header::Long { ty: LongType::ZeroRtt, dst_cid, src_cid, number, version },
            _ => Header::Short { spin: false, key_phase: false, dst_cid, number },
        }
    }
}

/// The capture's packets, opened.
pub fn opened() -> Vec<Plain> {
    follow(&datagrams()).plain
}

/// Seals a packet with keys. Its fixed bit may be clear.
pub fn seal_with(
    keys: &PacketKeys,
    header: &Header<'_>,
    number: u64,
    payload: &[u8],
    clear_fixed_bit: bool,
) -> Vec<u8> {
    let mut packet = vec![0; header.encoded_len().unwrap()];
    let written = header.encode_with(clear_fixed_bit, &mut packet).unwrap();
    packet.resize(written.header_len + payload.len() + 16, 0);
    written.set_len(&mut packet).unwrap();
    packet.truncate(written.header_len);
    let mut sealed = payload.to_vec();
    keys.seal(number, &packet, &mut sealed).unwrap();
    packet.extend(sealed);
    let place = written.place(&packet);
    let sample: [u8; SAMPLE_LEN] = place.sample(&packet, SAMPLE_LEN).unwrap().try_into().unwrap();
    place.protect(&mut packet, &keys.mask(&sample).unwrap()).unwrap();
    packet
}

/// What seals packets as the two sides of the capture do.
pub struct Sealer {
    pub version: u32,
    pub first_id: Vec<u8>,
    log: KeyLog,
    random: [u8; 32],
}

impl Sealer {
    pub fn new(version: u32, first_id: &[u8]) -> Sealer {
        let (follower, _) = follow_with(KEYS, &datagrams());
        let random = *follower.connections().next().unwrap().random().unwrap();
        Sealer { version, first_id: first_id.to_vec(), log: follower.keylog, random }
    }

    pub fn of_capture(version: u32) -> Sealer {
        Sealer::new(version, &opened()[0].dcid)
    }

    fn keys(&self, kind: HeaderKind, sender: Side) -> PacketKeys {
        let label = match (kind, sender) {
            (HeaderKind::Handshake, Side::Client) => Label::ClientHandshake,
            (HeaderKind::Handshake, Side::Server) => Label::ServerHandshake,
            (HeaderKind::Short, Side::Client) => Label::ClientTraffic,
            (HeaderKind::Short, Side::Server) => Label::ServerTraffic,
            _ => return PacketKeys::initial(self.version, &self.first_id, sender).unwrap(),
        };
        let secret = self.log.secret(&self.random, label).unwrap();
        PacketKeys::new(secret, Suite::Aes128Gcm, self.version).unwrap()
    }

    pub fn seal(&self, plain: &Plain) -> Vec<u8> {
        let keys = self.keys(plain.kind, plain.sender);
        seal_with(&keys, &plain.header(self.version), plain.number, &plain.payload, false)
    }
}

/// Numbers that look random.
pub struct Random(pub u64);

impl Random {
    pub fn below(&mut self, bound: usize) -> usize {
        self.0 = self.0.wrapping_mul(6_364_136_223_846_793_005).wrapping_add(1_442_695_040_888_963_407);
        (self.0 >> 33) as usize % bound
    }

    pub fn byte(&mut self) -> u8 {
        self.below(256) as u8
    }
}
