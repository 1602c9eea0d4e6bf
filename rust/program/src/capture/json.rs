//! Objects for programs, a line each: docs/capture.schema.json of the repository describes them.
use super::object::Object;
use super::report::{Fault, Form, Packet, Part, Place, Sum, Whole, is_plain};
use super::screen::Lines;
use super::words::{self, Date, Said, Seconds};
use crate::datagram;
use crate::frames;
use crate::output::{Field, Value};
use crate::params;
use quic_wire::Side;
use quic_wire::datagram::{HeaderKind, PacketRef};
use quic_wire_capture::opened::Opened;
use quic_wire_capture::sink::{Ended, Rest, Unopened};
use std::collections::BTreeMap;
use std::ffi::OsStr;

/// Writes an object for each packet, each connection and each capture.
pub struct Json<L> {
    to: L,
    has_packets: bool,
    has_names: bool,
    name: String,
    line: String,
}

impl<L: Lines> Json<L> {
    /// Packets, and the names of captures, can be left out.
    pub fn new(to: L, has_packets: bool, has_names: bool) -> Self {
        Json { to, has_packets, has_names, name: String::new(), line: String::new() }
    }

    // Writes an object of a kind.
    fn write(&mut self, kind: &str, fill: impl FnOnce(&mut Object<'_>)) {
        let mut object = Object::new(&mut self.line);
        object.word("kind", kind);
        if self.has_names {
            object.word("file", &self.name);
        }
        fill(&mut object);
        object.end();
        self.line.push('\n');
        self.to.write(&self.line);
        self.line.clear();
    }
}

// Where a packet is, and whose.
fn place(object: &mut Object<'_>, place: &Place<'_>) {
    let datagram = place.datagram;
    object.number("record", datagram.record);
    object.plain("time", format_args!("{:#}", Seconds(place.time)));
    object.word("from", &datagram.from.to_string());
    object.word("to", &datagram.to.to_string());
    object.number("index", place.index);
    if let Some((connection, side)) = place.owner {
        object.number("connection", connection.number() as u64);
        object.word("sender", words::side_name(side));
    }
    object.number("datagram_len", datagram.bytes.len() as u64);
    if datagram.missing > 0 {
        object.number("datagram_missing", datagram.missing as u64);
    }
}

// What is protected only as to its number, or not at all.
fn header(object: &mut Object<'_>, name: &str, packet: &PacketRef<'_>) {
    object.word("type", name);
    let range = packet.place().range();
    object.range("packet_in_datagram", range.start, range.end);
    for (name, value) in datagram::shown(packet.header(), packet.data()) {
        object.field(&(if name == "rest" { "token" } else { name }, value));
    }
}

fn opened(object: &mut Object<'_>, opened: &Opened<'_>) {
    header(object, words::kind_name(opened.kind()), opened.packet());
    let (number, begin) = (opened.unprotected(), opened.payload_offset());
    object.number("number", opened.number());
    object.range("number_in_datagram", begin - number.number_len, begin);
    if opened.kind() == HeaderKind::Short {
        object.number("key_phase", number.key_phase().into());
    }
    object.range("payload_in_datagram", begin, begin + opened.payload().len());
}

fn frame(object: &mut Object<'_>, opened: &Opened<'_>, part: &Part) {
    let Part::Frame { range, ty, forbidden } = part else { return };
    let bytes = &opened.payload()[range.clone()];
    let (name, _, fields) = frames::named(bytes);
    object.range("in_payload", range.start, range.end);
    object.word("frame", &name);
    object.number("raw_type", *ty);
    match words::close(bytes) {
        Some(said) => close(object, &said),
        None => fields.iter().for_each(|field| object.field(field)),
    }
    if let Some(forbidden) = forbidden {
        object.word("forbidden", &forbidden.to_string());
    }
}

fn close(object: &mut Object<'_>, said: &Said) {
    object.number("error_code", said.code);
    object.word("error_name", &said.error());
    if let (Some(ty), Some(name)) = (said.frame_type, &said.frame_name) {
        object.number("frame_type", ty);
        object.word("frame_name", name);
    }
    object.field(&("reason", Value::Text(&said.reason)));
    object.field(&("reason_bytes", Value::bytes(&said.reason)));
}

fn fault(object: &mut Object<'_>, fault: &Fault, offset: &'static str) {
    object.word("error", &fault.what);
    if let Some(at) = fault.at {
        object.number(offset, at as u64);
    }
    fault.fields.iter().for_each(|field: &Field<'_>| object.field(field));
}

fn parts(object: &mut Object<'_>, packet: &Packet<'_>) {
    let frames = packet.parts.iter().filter(|part| matches!(part, Part::Frame { .. }));
    object.list("frames", frames, |object, part| frame(object, packet.opened, part));
    for part in packet.parts {
        match part {
            Part::Frame { .. } | Part::Lost(_) => {}
            Part::Invalid(what) => object.inner("invalid", |object| fault(object, what, "offset_in_payload")),
            Part::Parameters(list, read) => object.inner("parameters", |object| {
                params::all(list, read).iter().for_each(|field| object.field(field));
            }),
            Part::InvalidParameters(what) => {
                object.inner("invalid_parameters", |object| fault(object, what, "offset_in_list"));
            }
        }
    }
}

// The packets that count as lost from here on.
fn lost(object: &mut Object<'_>, parts: &[Part]) {
    let lost = parts.iter().filter_map(|part| match part {
        Part::Lost(sent) => Some(sent),
        _ => None,
    });
    object.list("lost", lost, |object, sent| {
        object.word("sender", words::side_name(sent.sender));
        object.word("space", words::space_name(sent.space));
        object.number("number", sent.number);
        object.number("record", sent.record);
        object.word("threshold", words::threshold_name(sent));
    });
}

fn unopened(object: &mut Object<'_>, counts: &BTreeMap<Unopened, u64>) {
    object.list("unopened", counts, |object, (why, count)| {
        object.word("reason", &why.to_string());
        object.number("count", *count);
    });
}

fn half(object: &mut Object<'_>, sum: &Sum<'_>, side: Side) {
    let (connection, half) = (sum.connection, &sum.tally.sides[side as usize]);
    if let Some((first, last)) = half.addresses {
        object.word("first_address", &first.to_string());
        object.word("last_address", &last.to_string());
    }
    object.number("opened", half.opened);
    object.number("lost", half.lost);
    object.number("lost_but_acknowledged", half.lost_in_vain);
    unopened(object, &half.unopened);
    if let Some(said) = half.close.as_ref().filter(|_| connection.end(side).closed().is_some()) {
        object.inner("close", |object| {
            object.flag("by_application", said.by_application);
            close(object, said);
        });
    }
}

// How a connection ended, in a word.
fn how(sum: &Sum<'_>) -> &'static str {
    let is_closed = [Side::Client, Side::Server].iter().any(|side| sum.connection.end(*side).closed().is_some());
    match sum.how {
        _ if is_closed => "closed",
        _ if sum.tally.reset.is_some() => "reset",
        Some(Ended::Closed) => "closed",
        Some(Ended::Reset) => "reset",
        Some(Ended::Silent) | None if sum.ends_shut() => "unknown",
        Some(Ended::Silent) => "silent",
        Some(Ended::Crowded) => "crowded",
        None => "open",
    }
}

impl<L: Lines> Form for Json<L> {
    fn begin(&mut self, file: &OsStr) {
        self.name = file.to_string_lossy().into_owned();
    }

    fn opened(&mut self, at: &Place<'_>, packet: &Packet<'_>) {
        if !self.has_packets {
            return;
        }
        self.write("packet", |object| {
            place(object, at);
            opened(object, packet.opened);
            if let Some(record) = packet.again {
                object.flag("again", true);
                record.into_iter().for_each(|record| object.number("first_record", record));
            }
            parts(object, packet);
            if packet.parts.iter().any(|part| matches!(part, Part::Lost(_))) {
                lost(object, packet.parts);
            }
        });
    }

    fn unopened(&mut self, at: &Place<'_>, packet: &PacketRef<'_>, why: Unopened) {
        if !self.has_packets {
            return;
        }
        self.write(if is_plain(why) { "packet" } else { "unopened" }, |object| {
            place(object, at);
            if why == Unopened::StatelessReset {
                object.word("type", "stateless reset");
                object.range("packet_in_datagram", 0, at.datagram.bytes.len());
                return;
            }
            header(object, words::kind_name(packet.header().kind()), packet);
            if !is_plain(why) {
                object.word("reason", &why.to_string());
            }
        });
    }

    fn rest(&mut self, at: &Place<'_>, offset: usize, why: Rest) {
        if !self.has_packets {
            return;
        }
        self.write("rest", |object| {
            place(object, at);
            object.range("rest_in_datagram", offset, at.datagram.bytes.len());
            object.word("reason", &why.to_string());
        });
    }

    fn connection(&mut self, sum: &Sum<'_>) {
        let connection = sum.connection;
        self.write("connection", |object| {
            object.number("connection", connection.number() as u64);
            object.field(&("version", Value::Version(connection.version())));
            object.field(&("first_dst", Value::bytes(connection.first_dcid())));
            if let Some(id) = connection.retry_id() {
                object.field(&("retry_src", Value::bytes(id)));
            }
            if let Some(suite) = connection.suite() {
                object.word("suite", &words::suite_name(suite));
            }
            for (what, name) in [("server_name", connection.server_name()), ("protocol", connection.protocol())] {
                name.into_iter().for_each(|name| object.field(&(what, Value::Text(name))));
            }
            let (first, last) = sum.times();
            for (name, time) in [("begin", first), ("last", last)] {
                object.plain(name, format_args!("{:#}", Seconds(words::after(sum.begun, time))));
            }
            object.inner("client", |object| half(object, sum, Side::Client));
            object.inner("server", |object| half(object, sum, Side::Server));
            object.word("how", how(sum));
            object.word("end", &words::ended(sum));
        });
    }

    fn end(&mut self, whole: &Whole<'_>) {
        let Whole { begun, capture, counts, skipped_lines } = whole;
        self.write("capture", |object| {
            if let Some(begun) = begun {
                object.word("begin", &Date(*begun).to_string());
            }
            object.number("records", capture.records());
            object.number("datagrams", counts.datagrams);
            object.number("connections", counts.connections as u64);
            object.number("opened", counts.opened);
            unopened(object, &counts.unopened);
            object.list("rests", &counts.rests, |object, (what, count)| {
                object.word("reason", what);
                object.number("count", *count);
            });
            object.number("offloaded", counts.offloaded);
            object.number("segments", counts.segments);
            object.number("others", capture.others());
            object.number("fragments", capture.fragments());
            object.number("skipped_lines", *skipped_lines);
            object.flag("cut_off", capture.is_cut());
        });
    }
}
