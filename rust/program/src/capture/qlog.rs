//! Traces in qlog 0.3 (draft-ietf-quic-qlog-main-schema-02, draft-ietf-quic-qlog-quic-events-01), as JSON text
//! sequences (RFC 7464): a file for each connection, as someone between its sides sees it. What the client sends is
//! sent, what the server sends is received.
mod frames;

use super::object::Object;
use super::report::{Form, Packet, Part, Place, Sum, Whole, is_plain};
use super::screen::Screen;
use super::words::{self, Said};
use crate::datagram;
use crate::formats::PARAMETERS;
use crate::output::{Field, Value};
use crate::params;
use quic_wire::datagram::{HeaderKind, PacketRef};
use quic_wire::ids::SpaceId;
use quic_wire::transport_parameters::{PreferredAddress, TransportParameters};
use quic_wire::{ResetToken, Side};
use quic_wire_capture::connection::Connection;
use quic_wire_capture::recovery::Sent;
use quic_wire_capture::sink::{Rest, Unopened};
use std::collections::{HashMap, HashSet};
use std::ffi::{OsStr, OsString};
use std::fs::{self, File};
use std::io::Write;
use std::path::{Path, PathBuf};

// How much text waits to be written at most, of a trace and of all.
const MOST_OF_TRACE: usize = 1 << 16;
const MOST: usize = 1 << 24;

// RFC 7464, section 2.2.
const RECORD: char = '\x1e';

/// What takes traces.
pub trait Traces {
    /// Takes the next text of a connection's trace, which is new if it is the first one.
    fn write(&mut self, connection: usize, text: &str, is_new: bool);
}

/// Makes the traces of a capture.
pub struct Qlog<T> {
    to: T,
    /// What the traces call the capture.
    name: String,
    traces: HashMap<usize, Trace>,
    waiting: usize,
}

/// The end of a trace that isn't written yet.
struct Trace {
    is_there: bool,
    text: String,
}

/// A folder with a file for each trace.
pub struct Folder<'s> {
    screen: &'s Screen,
    folder: PathBuf,
    /// What the names of the capture's traces begin with.
    stem: OsString,
}

impl<'s> Folder<'s> {
    /// A folder that is made if it isn't there.
    pub fn new(screen: &'s Screen, folder: &OsStr, stem: &OsStr) -> Self {
        let folder = PathBuf::from(folder);
        if let Err(error) = fs::create_dir_all(&folder) {
            screen.fail(format!("{}: {error}", folder.display()));
        }
        Folder { screen, folder, stem: stem.to_os_string() }
    }
}

impl Traces for Folder<'_> {
    fn write(&mut self, connection: usize, text: &str, is_new: bool) {
        if self.screen.has_failed() {
            return;
        }
        let mut name = self.stem.clone();
        name.push(format!(".{connection}.sqlog"));
        let path = self.folder.join(name);
        let file = if is_new { File::create(&path) } else { File::options().append(true).open(&path) };
        if let Err(error) = file.and_then(|mut file| file.write_all(text.as_bytes())) {
            self.screen.fail(format!("{}: {error}", path.display()));
        }
    }
}

/// What the names of each capture's traces begin with: its name, and a number if that was there before.
pub fn stems(files: &[OsString]) -> Vec<OsString> {
    let mut all = HashSet::new();
    let stem = |file: &OsString| {
        let name = Path::new(file).file_name().filter(|_| file != "-").unwrap_or(OsStr::new("stdin"));
        let mut stem = name.to_os_string();
        for count in 2.. {
            if all.insert(stem.clone()) {
                break;
            }
            stem = name.to_os_string();
            stem.push(format!("-{count}"));
        }
        stem
    };
    files.iter().map(stem).collect()
}

impl<T: Traces> Qlog<T> {
    /// Writes the traces of a capture with a name.
    pub fn new(to: T, name: &str) -> Self {
        Qlog { to, name: name.into(), traces: HashMap::new(), waiting: 0 }
    }

    // Adds an event to a connection's trace, which begins with the first one.
    fn event(&mut self, connection: &Connection, time: u64, name: &str, fill: impl FnOnce(&mut Object<'_>)) {
        let number = connection.number();
        let begin = || Trace { is_there: false, text: header(connection, &self.name) };
        let trace = self.traces.entry(number).or_insert_with(begin);
        let before = trace.text.len();
        record(&mut trace.text, |object| {
            object.plain("time", format_args!("{}", Millis(words::after(connection.times().0, time))));
            object.word("name", name);
            object.inner("data", fill);
        });
        self.waiting += trace.text.len() - before;
        if trace.text.len() > MOST_OF_TRACE {
            self.write(number);
        }
        if self.waiting > MOST {
            let numbers: Vec<_> = self.traces.keys().copied().collect();
            numbers.into_iter().for_each(|number| self.write(number));
        }
    }

    fn write(&mut self, number: usize) {
        let Some(trace) = self.traces.get_mut(&number) else { return };
        self.waiting = self.waiting.saturating_sub(trace.text.len());
        self.to.write(number, &trace.text, !std::mem::replace(&mut trace.is_there, true));
        // Of many traces each would keep its room.
        trace.text = String::new();
    }

    fn closed(&mut self, connection: &Connection, time: u64, side: Side, said: &Said) {
        self.event(connection, time, "connectivity:connection_closed", |object| {
            object.word("owner", owner(side));
            match said.by_application {
                true => object.number("application_code", said.code),
                false => frames::error(object, "connection_code", said),
            }
            object.field(&("reason", Value::Text(&said.reason)));
        });
    }
}

// The first record.
fn header(connection: &Connection, name: &str) -> String {
    let mut text = String::new();
    let id = Value::bytes(connection.first_dcid());
    record(&mut text, |object| {
        object.word("qlog_format", "JSON-SEQ");
        object.word("qlog_version", "0.3");
        object.inner("trace", |object| {
            object.inner("common_fields", |object| {
                object.field(&("ODCID", id.clone()));
                object.field(&("group_id", id));
                object.plain("protocol_type", format_args!("[\"QUIC\"]"));
                object.plain("reference_time", format_args!("{}", Millis(words::after(0, connection.times().0))));
                object.word("time_format", "relative");
            });
            object.inner("vantage_point", |object| {
                object.word("name", name);
                object.word("type", "network");
                object.word("flow", "client");
            });
        });
    });
    text
}

fn record(text: &mut String, fill: impl FnOnce(&mut Object<'_>)) {
    text.push(RECORD);
    let mut object = Object::new(text);
    fill(&mut object);
    object.end();
    text.push('\n');
}

/// Nanoseconds as milliseconds.
struct Millis(i64);

impl std::fmt::Display for Millis {
    fn fmt(&self, f: &mut std::fmt::Formatter<'_>) -> std::fmt::Result {
        let (sign, nanos) = (if self.0 < 0 { "-" } else { "" }, self.0.unsigned_abs());
        write!(f, "{sign}{}.{:06}", nanos / 1_000_000, nanos % 1_000_000)
    }
}

fn owner(side: Side) -> &'static str {
    match side {
        Side::Client => "local",
        Side::Server => "remote",
    }
}

fn event_name(side: Side) -> &'static str {
    match side {
        Side::Client => "transport:packet_sent",
        Side::Server => "transport:packet_received",
    }
}

fn packet_type(kind: HeaderKind) -> &'static str {
    match kind {
        HeaderKind::Initial => "initial",
        HeaderKind::ZeroRtt => "0RTT",
        HeaderKind::Handshake => "handshake",
        HeaderKind::Retry => "retry",
        HeaderKind::Short => "1RTT",
        HeaderKind::VersionNegotiate => "version_negotiation",
    }
}

// A packet of the application data space may be a 0-RTT one, which isn't remembered.
fn lost(object: &mut Object<'_>, sent: &Sent) {
    object.inner("header", |object| {
        object.word(
            "packet_type",
            match sent.space {
                SpaceId::Initial => "initial",
                SpaceId::Handshake => "handshake",
                SpaceId::Data => "1RTT",
            },
        );
        object.number("packet_number", sent.number);
    });
    object.word(
        "trigger",
        match words::threshold_name(sent) {
            "time" => "time_threshold",
            _ => "reordering_threshold",
        },
    );
}

fn ids(object: &mut Object<'_>, packet: &PacketRef<'_>) {
    if !packet.header().is_short() {
        object.field(&("version", Value::Version(packet.header().version())));
        object.number("scil", packet.src_cid().len() as u64);
    }
    object.number("dcil", packet.dst_cid().len() as u64);
    if !packet.header().is_short() {
        object.field(&("scid", Value::bytes(packet.src_cid())));
    }
    object.field(&("dcid", Value::bytes(packet.dst_cid())));
}

// Bytes as qlog has tokens.
fn token(object: &mut Object<'_>, name: &str, bytes: &[u8]) {
    object.inner(name, |object| {
        object.inner("raw", |object| {
            object.number("length", bytes.len() as u64);
            object.field(&("data", Value::bytes(bytes)));
        });
    });
}

fn parameters(object: &mut Object<'_>, side: Side, list: &[u8], read: &TransportParameters) {
    object.word("owner", owner(side));
    for (name, value) in params::all(list, read) {
        match (name, &value) {
            ("stateless_reset_token", Value::Bytes(bytes)) => token(object, name, bytes),
            ("unknown" | "order", _) => {}
            _ if name.starts_with("preferred_address") => {}
            _ => {
                let named = PARAMETERS.iter().find(|known| known.quinn_proto == name);
                object.field(&(named.map_or(name, |known| known.name), value));
            }
        }
    }
    if let Some(address) = &read.preferred_address {
        object.inner("preferred_address", |object| preferred_address(object, address));
    }
}

fn preferred_address(object: &mut Object<'_>, address: &PreferredAddress) {
    if let Some(v4) = address.address_v4 {
        object.word("ip_v4", &v4.ip().to_string());
        object.number("port_v4", v4.port().into());
    }
    if let Some(v6) = address.address_v6 {
        object.word("ip_v6", &v6.ip().to_string());
        object.number("port_v6", v6.port().into());
    }
    object.field(&("connection_id", Value::bytes(&address.connection_id)));
    let bytes: &ResetToken = &address.stateless_reset_token;
    token(object, "stateless_reset_token", &bytes[..]);
}

impl<T: Traces> Form for Qlog<T> {
    fn begin(&mut self, _: &OsStr) {}

    fn opened(&mut self, place: &Place<'_>, packet: &Packet<'_>) {
        let Some((connection, side)) = place.owner.filter(|_| packet.again.is_none()) else { return };
        let (opened, time) = (packet.opened, place.datagram.time);
        let exponent = connection.end(side).parameters().map_or(3, |list| list.ack_delay_exponent.into_inner());
        self.event(connection, time, event_name(side), |object| {
            object.inner("header", |object| {
                object.word("packet_type", packet_type(opened.kind()));
                object.number("packet_number", opened.number());
                object.number("flags", opened.unprotected().first.into());
                ids(object, opened.packet());
                if !opened.packet().token().is_empty() {
                    token(object, "token", opened.packet().token());
                }
            });
            object.inner("raw", |object| {
                object.number("length", opened.packet().data().len() as u64);
                object.number("payload_length", opened.payload().len() as u64);
            });
            object.number("datagram_id", place.datagram.record);
            frames::list(object, opened.payload(), packet.parts, exponent);
        });
        for part in packet.parts {
            match part {
                Part::Parameters(list, read) => {
                    self.event(connection, time, "transport:parameters_set", |object| {
                        parameters(object, side, list, read);
                    });
                }
                Part::Lost(sent) => self.event(connection, time, "recovery:packet_lost", |object| lost(object, sent)),
                _ => {}
            }
        }
        if let Some(said) = packet.close_in(connection, side, place.index) {
            self.closed(connection, time, side, &said);
        }
    }

    fn unopened(&mut self, place: &Place<'_>, packet: &PacketRef<'_>, why: Unopened) {
        let Some((connection, side)) = place.owner.filter(|_| is_plain(why)) else { return };
        let (time, is_reset) = (place.datagram.time, why == Unopened::StatelessReset);
        self.event(connection, time, event_name(side), |object| {
            object.inner("header", |object| match is_reset {
                true => object.word("packet_type", "stateless_reset"),
                false => {
                    object.word("packet_type", packet_type(packet.header().kind()));
                    ids(object, packet);
                }
            });
            for (name, value) in datagram::shown(packet.header(), packet.data()) {
                unprotected(object, (name, value), why);
            }
            object.inner("raw", |object| object.number("length", packet.data().len() as u64));
            object.number("datagram_id", place.datagram.record);
        });
        if is_reset {
            self.event(connection, time, "connectivity:connection_closed", |object| {
                object.word("owner", owner(side));
                object.word("trigger", "stateless_reset");
            });
        }
    }

    fn rest(&mut self, _: &Place<'_>, _: usize, _: Rest) {}

    fn note(&mut self, connection: &Connection, time: u64, name: &str, fill: &dyn Fn(&mut Object<'_>)) {
        self.event(connection, time, name, fill);
    }

    fn connection(&mut self, sum: &Sum<'_>) {
        self.write(sum.connection.number());
        self.traces.remove(&sum.connection.number());
    }

    fn end(&mut self, _: &Whole<'_>) {
        let numbers: Vec<_> = self.traces.keys().copied().collect();
        numbers.into_iter().for_each(|number| self.write(number));
        self.traces.clear();
    }
}

// What a Retry or a version negotiation has beside its ids.
fn unprotected(object: &mut Object<'_>, field: Field<'_>, why: Unopened) {
    match (why, field) {
        (Unopened::Retry, ("token", Value::Bytes(bytes))) => token(object, "retry_token", &bytes),
        (Unopened::VersionNegotiation, ("versions", versions)) => object.field(&("supported_versions", versions)),
        _ => {}
    }
}

#[cfg(test)]
mod tests {
    use super::*;

    struct Nowhere;

    impl Traces for Nowhere {
        fn write(&mut self, _: usize, _: &str, _: bool) {}
    }

    #[test]
    fn traces_that_are_written_take_no_room() {
        let mut qlog = Qlog::new(Nowhere, "");
        qlog.traces.insert(7, Trace { is_there: false, text: "x".repeat(MOST_OF_TRACE) });
        qlog.write(7);
        assert_eq!(qlog.traces[&7].text.capacity(), 0);
    }

    #[test]
    fn milliseconds() {
        assert_eq!(Millis(-1_500_000).to_string(), "-1.500000");
        assert_eq!(Millis(1_000_000_001).to_string(), "1000.000001");
    }
}
