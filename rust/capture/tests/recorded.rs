//! The captures of vectors/captures, whose descriptions say what tshark reads in them: each packet's type, version and
//! number, and the type and length of each of its frames.
#![cfg(feature = "gzip")]
use quic_wire::datagram::{HeaderKind, PacketRef};
use quic_wire::{Side, varint};
use quic_wire_capture::capture::{Capture, Datagram, Item};
use quic_wire_capture::connection::Connection;
use quic_wire_capture::follow::Follower;
use quic_wire_capture::input;
use quic_wire_capture::opened::Opened;
use quic_wire_capture::sink::{Event, Rest, Sink, Unopened};
use serde_json::Value;
use std::collections::BTreeMap;
use std::fs::{self, File};
use std::path::{Path, PathBuf};

const FOLDER: &str = concat!(env!("CARGO_MANIFEST_DIR"), "/../../vectors/captures");

const KINDS: [&str; 8] =
    ["Initial", "0-RTT", "Handshake", "Retry", "1-RTT", "Version Negotiation", "Stateless Reset", "unknown version"];

/// A packet, as it is described or found.
#[derive(Clone, Debug, PartialEq, Eq)]
struct Packet {
    kind: &'static str,
    version: Option<u64>,
    number: Option<u64>,
    /// Types and lengths; `None` if it isn't opened, or was sent again.
    frames: Option<Vec<(u64, u64)>>,
}

/// The packets of each record, and what shouldn't be in such a capture.
#[derive(Default)]
struct Found {
    records: BTreeMap<u64, Vec<Packet>>,
    faults: Vec<String>,
}

fn kind_name(kind: HeaderKind) -> &'static str {
    match kind {
        HeaderKind::Initial => "Initial",
        HeaderKind::ZeroRtt => "0-RTT",
        HeaderKind::Handshake => "Handshake",
        HeaderKind::Retry => "Retry",
        HeaderKind::Short => "1-RTT",
        HeaderKind::VersionNegotiate => "Version Negotiation",
    }
}

impl Packet {
    fn new(packet: &PacketRef<'_>) -> Packet {
        let kind = packet.header().kind();
        let has_version = !matches!(kind, HeaderKind::Short | HeaderKind::VersionNegotiate);
        let version = has_version.then(|| packet.header().version().into());
        Packet { kind: kind_name(kind), version, number: None, frames: None }
    }

    fn opened(opened: &Opened<'_>) -> Packet {
        Packet { number: Some(opened.number()), ..Packet::new(opened.packet()) }
    }
}

impl Found {
    fn add(&mut self, datagram: &Datagram<'_>, packet: Packet) {
        self.records.entry(datagram.record).or_default().push(packet);
    }

    fn frames(&mut self, datagram: &Datagram<'_>) -> &mut Vec<(u64, u64)> {
        let packet = self.records.get_mut(&datagram.record).unwrap().last_mut().unwrap();
        packet.frames.get_or_insert_default()
    }

    fn fault(&mut self, datagram: &Datagram<'_>, what: String) {
        self.faults.push(format!("record {}: {what}", datagram.record));
    }
}

impl Sink for Found {
    fn opened(&mut self, _: &Connection, datagram: &Datagram<'_>, _: u64, event: &Event<'_>) {
        match event {
            Event::Packet(opened) | Event::Again(opened, _) => self.add(datagram, Packet::opened(opened)),
            Event::Frame { opened, range, permitted, .. } => {
                let bytes = &opened.payload()[range.clone()];
                let (ty, _) = varint::read(bytes).unwrap();
                self.frames(datagram).push((ty, bytes.len() as u64));
                if let Err(forbidden) = permitted {
                    self.fault(datagram, forbidden.to_string());
                }
            }
            Event::Invalid { error, .. } => self.fault(datagram, error.to_string()),
            Event::Parameters { read: Err(refusal), .. } => self.fault(datagram, format!("{refusal:?}")),
            _ => {}
        }
    }

    fn unopened(
        &mut self,
        _: Option<(&Connection, Side)>,
        datagram: &Datagram<'_>,
        _: u64,
        packet: &PacketRef<'_>,
        why: Unopened,
    ) {
        let packet = Packet::new(packet);
        let kind = if why == Unopened::StatelessReset { "Stateless Reset" } else { packet.kind };
        self.add(datagram, Packet { kind, ..packet });
    }

    fn rest(&mut self, _: Option<(&Connection, Side)>, datagram: &Datagram<'_>, _: u64, _: usize, why: Rest) {
        match why {
            Rest::Zeros => {}
            Rest::Version(version) => {
                let version = Some(version.into());
                self.add(datagram, Packet { kind: "unknown version", version, number: None, frames: None });
            }
            _ => self.fault(datagram, why.to_string()),
        }
    }
}

fn find(capture: &Path, keys: Option<PathBuf>) -> Found {
    let (mut file, mut follower, mut found) = (Capture::default(), Follower::default(), Found::default());
    if let Some(keys) = keys {
        follower.keylog.add(&fs::read(keys).unwrap());
    }
    input::read(File::open(capture).unwrap(), &mut file, |item| match item {
        Item::Datagram(datagram) => follower.take(&datagram, &mut found),
        Item::Secrets(text) => follower.keylog.add(text),
    })
    .unwrap();
    follower.finish(&mut found);
    assert_eq!((file.is_cut(), file.others()), (false, 0), "{}", capture.display());
    found
}

fn described(packet: &Value) -> Packet {
    let kind = KINDS.into_iter().find(|name| packet["type"] == *name).unwrap();
    let frame = |frame: &Value| (frame["type"].as_u64().unwrap(), frame["length"].as_u64().unwrap());
    let frames = packet["frames"].as_array().map(|frames| frames.iter().map(frame).collect());
    Packet { kind, version: packet["version"].as_u64(), number: packet["number"].as_u64(), frames }
}

// What a description has of each record.
fn records(description: &Value) -> BTreeMap<u64, Vec<Packet>> {
    let mut records: BTreeMap<_, Vec<_>> = BTreeMap::new();
    for row in description["datagrams"].as_array().unwrap() {
        let packets = row["packets"].as_array().unwrap().iter().map(described);
        records.entry(row["record"].as_u64().unwrap()).or_default().extend(packets);
    }
    records
}

// Of a packet that was sent again, only its header and number are found.
fn without_repetitions(mut expected: Vec<Packet>, found: &[Packet]) -> Vec<Packet> {
    for (packet, other) in expected.iter_mut().zip(found) {
        if other.number.is_some() && other.frames.is_none() {
            packet.frames = None;
        }
    }
    expected
}

// The descriptions in the folder, by the captures' names. Other files there describe no single capture.
fn descriptions() -> BTreeMap<String, Value> {
    let files = fs::read_dir(FOLDER).unwrap().map(|file| file.unwrap().path());
    let files = files.filter(|path| path.extension().is_some_and(|end| end == "json"));
    let read = |path: PathBuf| -> Value { serde_json::from_slice(&fs::read(path).unwrap()).unwrap() };
    files.map(read).filter_map(|one| Some((one["capture"].as_str()?.to_string(), one))).collect()
}

#[test]
fn recorded_captures() {
    let descriptions = descriptions();
    assert!(descriptions.len() >= 35, "only {} captures are described", descriptions.len());
    for (name, description) in descriptions {
        let file = |name: &str| Path::new(FOLDER).join(name);
        let mut found = find(&file(&name), description["keys"].as_str().map(file));
        assert_eq!(found.faults, Vec::<String>::new(), "{name}");
        for (record, packets) in records(&description) {
            let found = found.records.remove(&record).unwrap_or_default();
            assert_eq!(found, without_repetitions(packets, &found), "{name}, record {record}: found, expected");
        }
        assert_eq!(found.records, BTreeMap::new(), "{name}: records that aren't described");
    }
}
