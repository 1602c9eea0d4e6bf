//! Connections in each of which one rule is broken, or nearly: what vectors/captures/broken has.
#![allow(dead_code, reason = "each test uses a part")]

#[path = "cases/datagrams.rs"]
mod datagrams;
#[path = "cases/frames.rs"]
mod frames;
#[path = "cases/handshake.rs"]
mod handshake;
#[path = "cases/ids.rs"]
mod ids;
#[path = "cases/keys.rs"]
mod keys;
#[path = "cases/packets.rs"]
mod packets;
#[path = "cases/parameters.rs"]
mod parameters;
#[path = "cases/retry.rs"]
mod retry;
#[path = "cases/streams.rs"]
mod streams;

use crate::files::{Order, interface, ip_datagram, packet, secrets, section};
use crate::made::{Handshake, Initial, Made, Short, ZeroRtt};
use crate::talk::Talk;
use quic_wire::Side;
use quic_wire::datagram::HeaderKind;
use std::ops::Range;

/// The link type of IP packets, as pcapng numbers them.
const RAW_IP: u16 = 101;

/// Where in its datagram something is.
#[derive(Clone, Debug)]
pub enum At {
    /// The frame in these bytes of the packet's payload.
    Payload(Range<usize>),
    /// A byte of the datagram.
    Datagram(usize),
    /// The packet as a whole.
    Packet,
}

/// Where in a connection something is.
#[derive(Clone, Debug)]
pub struct Spot {
    /// The index of its datagram.
    pub index: usize,
    pub sender: Side,
    pub kind: HeaderKind,
    /// The packet number, if it has one that can be read.
    pub number: Option<u64>,
    pub at: At,
}

/// A connection in which a rule is broken, or nearly.
pub struct Case {
    pub rule: &'static str,
    name: &'static str,
    pub rfc: u16,
    /// The section that says so.
    pub section: &'static str,
    pub is_lawful: bool,
    /// What is special in it.
    pub says: &'static str,
    build: fn(&mut Talk) -> Spot,
}

impl Case {
    fn of(self, rfc: u16) -> Case {
        Case { rfc, ..self }
    }

    /// The name of its file.
    pub fn file(&self) -> String {
        let lawful = if self.is_lawful { "lawful-" } else { "" };
        format!("{}.{lawful}{}.pcapng", self.rule, self.name)
    }

    /// The connection. Its secrets, ids and ports come from the file's name.
    pub fn talk(&self) -> (Talk, Spot) {
        let salt =
            self.file().bytes().fold(0x811c_9dc5, |hash: u32, byte| (hash ^ u32::from(byte)).wrapping_mul(16_777_619));
        let id = |kind: u8, len: usize| [&salt.to_be_bytes()[..], &[kind; 4]].concat()[..len].to_vec();
        let mut made = Made { salt, ids: [id(0xc1, 4), id(0x51, 5)], ..Made::new(1) };
        (made.original_id, made.initial_id, made.first_dcid) = (id(0xf1, 8), id(0xf1, 8), Some(id(0xf1, 8)));
        made.addresses[0].set_port(40_000 + (salt % 20_000) as u16);
        let mut talk = Talk::of(made);
        let spot = (self.build)(&mut talk);
        (talk, spot)
    }

    /// The capture, with its secrets.
    pub fn capture(&self) -> Vec<u8> {
        let (talk, order) = (self.talk().0, Order::Little);
        let head = [section(order), interface(order, RAW_IP, &[]), secrets(order, talk.made.key_log().as_bytes())];
        let records =
            talk.all.iter().map(|one| packet(order, 0, one.time / 1000, &ip_datagram(one.from, one.to, &one.bytes)));
        head.into_iter().chain(records).collect::<Vec<_>>().concat()
    }
}

/// All of them.
pub fn all() -> Vec<Case> {
    let packets = [datagrams::all(), packets::all(), keys::all(), retry::all(), handshake::all()];
    let frames = [frames::all(), streams::all(), ids::all(), parameters::all()];
    packets.into_iter().chain(frames).flatten().collect()
}

/// The manifest: JSON with a line for each.
pub fn manifest() -> String {
    let lines: Vec<_> = all().iter().map(line).collect();
    format!("{{\"captures\": [\n{}\n]}}\n", lines.join(",\n"))
}

fn line(case: &Case) -> String {
    let (_, spot) = case.talk();
    let Case { rule, rfc, section, is_lawful, says, .. } = case;
    let number = spot.number.map_or(String::new(), |number| format!(", \"number\": {number}"));
    let at = match &spot.at {
        At::Payload(range) => format!(", \"payload_bytes\": [{}, {}]", range.start, range.end),
        At::Datagram(at) => format!(", \"datagram_byte\": {at}"),
        At::Packet => String::new(),
    };
    format!(
        "{{\"file\": \"broken/{}\", \"lawful\": {is_lawful}, \"rule\": \"{rule}\", \"rfc\": {rfc}, \
         \"section\": \"{section}\", \"frame\": {}, \"sender\": \"{}\", \"packet\": \"{}\"{number}{at}, \
         \"comment\": \"{says}\"}}",
        case.file(),
        spot.index + 1,
        if spot.sender == Side::Client { "client" } else { "server" },
        kind_name(spot.kind),
    )
}

fn kind_name(kind: HeaderKind) -> &'static str {
    match kind {
        Initial => "Initial",
        ZeroRtt => "0-RTT",
        Handshake => "Handshake",
        Short => "1-RTT",
        HeaderKind::Retry => "Retry",
        HeaderKind::VersionNegotiate => "Version Negotiation",
    }
}

type Build = fn(&mut Talk) -> Spot;

fn case(
    is_lawful: bool,
    (rule, name, section): (&'static str, &'static str, &'static str),
    says: &'static str,
    build: Build,
) -> Case {
    Case { rule, name, rfc: 9000, section, is_lawful, says, build }
}

/// A rule, a name and the section, and how it is broken.
fn broken(what: (&'static str, &'static str, &'static str), says: &'static str, build: Build) -> Case {
    case(false, what, says, build)
}

/// The same of something that is permitted.
fn lawful(what: (&'static str, &'static str, &'static str), says: &'static str, build: Build) -> Case {
    case(true, what, says, build)
}

/// A spot in the last datagram.
fn last(talk: &Talk, sender: Side, kind: HeaderKind, number: u64, at: At) -> Spot {
    Spot { index: talk.next() - 1, sender, kind, number: Some(number), at }
}

/// Sends a datagram with a packet, and returns where in it something is.
fn send(talk: &mut Talk, sender: Side, kind: HeaderKind, payload: &[u8], at: At) -> Spot {
    let space = match kind {
        Initial => 0,
        Handshake => 1,
        _ => 2,
    };
    let number = talk.made.numbers[sender as usize][space];
    talk.send(sender, kind, payload);
    last(talk, sender, kind, number, at)
}

/// Exchanges the last two datagrams, and their times.
fn swap_last(talk: &mut Talk) {
    if let [.., one, two] = &mut talk.all[..] {
        std::mem::swap(one, two);
        std::mem::swap(&mut one.time, &mut two.time);
    }
}

/// Sends a 1-RTT packet with a frame in these bytes of its payload, after which both sides acknowledge all.
fn plant(talk: &mut Talk, sender: Side, payload: &[u8], frame: Range<usize>) -> Spot {
    let spot = send(talk, sender, Short, payload, At::Payload(frame));
    talk.later();
    spot
}
