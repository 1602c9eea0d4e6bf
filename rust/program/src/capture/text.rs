//! Lines for people.
use super::report::{Fault, Form, Packet, Part, Place, Sum, Tally, Whole, is_plain};
use super::screen::Screen;
use super::words::{self, Date, Seconds, count, unopened};
use crate::colour::{Painted, Part as Tone};
use crate::datagram;
use crate::frames;
use crate::output::{Field, Value};
use crate::params;
use quic_wire::Side;
use quic_wire::datagram::{HeaderKind, PacketRef};
use quic_wire_capture::opened::Opened;
use quic_wire_capture::sink::{Rest, Unopened};
use std::ffi::OsStr;
use std::fmt::{Display, Write};
use std::ops::Range;

// How many bytes of data are shown.
const MOST_BYTES: usize = 32;
const MARGIN: &str = "    ";

/// Writes a line for each packet, with its frames below it.
pub struct Text<'s> {
    screen: &'s Screen,
    has_colours: bool,
    has_packets: bool,
    has_names: bool,
    name: String,
    lines: String,
}

// Writing to a string doesn't fail.
macro_rules! put {
    ($to:expr, $($what:tt)*) => { let _ = write!($to, $($what)*); };
}

impl<'s> Text<'s> {
    /// Packets, and the names of captures, can be left out.
    pub fn new(screen: &'s Screen, has_colours: bool, has_packets: bool, has_names: bool) -> Self {
        Text { screen, has_colours, has_packets, has_names, name: String::new(), lines: String::new() }
    }

    fn paint<T: Display>(&self, tone: Tone, text: T) -> Painted<T> {
        tone.paint(self.has_colours, text)
    }

    // Where a packet is, and whose.
    fn head(&mut self, place: &Place<'_>) {
        let datagram = place.datagram;
        let name = if self.has_names { format!("{}:", self.name) } else { String::new() };
        let source = self.paint(Tone::Source, format!("{name}{}:", datagram.record));
        let time = self.paint(Tone::Place, Seconds(place.time));
        let name = self.paint(Tone::Name, "connection");
        let owner = match place.owner {
            Some((connection, side)) => format!("{} {}", connection.number(), words::side_name(side)),
            None => "-".into(),
        };
        put!(self.lines, "{source} {time} {} > {} {name}={owner}", datagram.from, datagram.to);
    }

    fn kind(&mut self, name: &str, len: usize) {
        let (kind, label) = (self.paint(Tone::Kind, name), self.paint(Tone::Name, "len"));
        put!(self.lines, " {kind} {label}={len}");
    }

    fn field(&mut self, (name, value): &Field<'_>) {
        let label = self.paint(Tone::Name, name);
        match value {
            Value::Bytes(bytes) if bytes.len() > MOST_BYTES => {
                put!(self.lines, " {label}={}..", Value::bytes(&bytes[..MOST_BYTES]));
            }
            value => {
                put!(self.lines, " {label}={value}");
            }
        }
    }

    fn fields(&mut self, fields: &[Field<'_>]) {
        fields.iter().for_each(|field| self.field(field));
    }

    fn line_end(&mut self) {
        self.lines.push('\n');
    }

    fn part(&mut self, opened: &Opened<'_>, part: &Part) {
        self.lines.push_str(MARGIN);
        match part {
            Part::Frame { range, forbidden, .. } => {
                self.frame(&opened.payload()[range.clone()], range);
                if let Some(forbidden) = forbidden {
                    let error = self.paint(Tone::Error, format!("forbidden=\"{forbidden}\""));
                    put!(self.lines, " {error}");
                }
            }
            Part::Invalid(fault) => self.fault("", fault),
            Part::Parameters(list, read) => {
                let kind = self.paint(Tone::Kind, "transport parameters");
                put!(self.lines, "{kind}");
                self.fields(&params::all(list, read));
            }
            Part::InvalidParameters(fault) => self.fault("transport parameters: ", fault),
            Part::Lost(sent) => {
                let error = self.paint(Tone::Error, "lost:");
                put!(self.lines, "{error} {}", words::lost(sent));
            }
        }
        self.line_end();
    }

    fn frame(&mut self, bytes: &[u8], range: &Range<usize>) {
        let (name, _, fields) = frames::named(bytes);
        let place = self.paint(Tone::Place, format!("{}..{}", range.start, range.end));
        let kind = self.paint(Tone::Kind, name);
        put!(self.lines, "{place} {kind}");
        match words::close(bytes) {
            None => self.fields(&fields),
            Some(said) => {
                let frame = said.frame_name.as_ref().map(|name| ("frame_name", Value::Word(name.into())));
                self.field(&("error_name", Value::Text(said.error().as_bytes())));
                self.fields(frame.as_slice());
                self.field(&("reason", Value::Text(&said.reason)));
            }
        }
    }

    fn fault(&mut self, of: &str, fault: &Fault) {
        let at = fault.at.map_or(String::new(), |at| format!("at {at}: "));
        let error = self.paint(Tone::Error, format!("{of}error {at}{}", fault.what));
        put!(self.lines, "{error}");
        self.fields(&fault.fields);
    }

    fn write(&mut self) {
        self.screen.write(&self.lines);
        self.lines.clear();
    }

    // What was opened of a side, and why the rest wasn't.
    fn side(&mut self, tally: &Tally, side: Side) {
        let half = &tally.sides[side as usize];
        put!(self.lines, "{MARGIN}{}", words::side_name(side));
        if let Some((first, last)) = half.addresses {
            put!(self.lines, " {first}");
            if first != last {
                put!(self.lines, ", later {last}");
            }
        }
        put!(self.lines, ": {}", count(half.opened, "packet", "opened"));
        if half.lost > 0 {
            put!(self.lines, ", {} lost", half.lost);
        }
        if half.lost_in_vain > 0 {
            put!(self.lines, ", {} of them acknowledged later", half.lost_in_vain);
        }
        for (why, count) in &half.unopened {
            put!(self.lines, "; {}", unopened(*why, *count));
        }
        self.line_end();
    }
}

impl Form for Text<'_> {
    fn begin(&mut self, file: &OsStr) {
        self.name = file.to_string_lossy().into_owned();
    }

    fn opened(&mut self, place: &Place<'_>, packet: &Packet<'_>) {
        if !self.has_packets {
            return;
        }
        let opened = packet.opened;
        self.head(place);
        self.kind(words::kind_name(opened.kind()), opened.packet().data().len());
        self.field(&("number", Value::Number(opened.number())));
        if opened.kind() == HeaderKind::Short && opened.unprotected().key_phase() {
            self.field(&("key_phase", Value::Number(1)));
        }
        match packet.again {
            Some(Some(record)) => {
                put!(self.lines, ", the same number as in record {record}");
            }
            Some(None) => self.lines.push_str(", an old number"),
            None => {}
        }
        self.line_end();
        packet.parts.iter().for_each(|part| self.part(opened, part));
        self.write();
    }

    fn unopened(&mut self, place: &Place<'_>, packet: &PacketRef<'_>, why: Unopened) {
        if !self.has_packets {
            return;
        }
        self.head(place);
        let name = match why {
            Unopened::StatelessReset => "stateless reset",
            _ => words::kind_name(packet.header().kind()),
        };
        self.kind(name, packet.data().len());
        if matches!(why, Unopened::Retry | Unopened::VersionNegotiation) {
            self.fields(&datagram::shown(packet.header(), packet.data()));
        } else if !is_plain(why) {
            let error = self.paint(Tone::Error, format!("not opened: {why}"));
            put!(self.lines, " {error}");
        }
        self.line_end();
        self.write();
    }

    fn rest(&mut self, place: &Place<'_>, offset: usize, why: Rest) {
        if !self.has_packets {
            return;
        }
        self.head(place);
        let bytes = self.paint(Tone::Place, format!("{offset}..{}", place.datagram.bytes.len()));
        put!(self.lines, " {bytes} no packet: {why}");
        self.line_end();
        self.write();
    }

    fn connection(&mut self, sum: &Sum<'_>) {
        let connection = sum.connection;
        let colon = if self.has_names { format!("{}: ", self.name) } else { String::new() };
        let source = self.paint(Tone::Source, format!("{colon}connection {}:", connection.number()));
        put!(self.lines, "{source} QUIC version {}", words::version_name(connection.version()));
        if let Some(suite) = connection.suite() {
            put!(self.lines, ", {}", words::suite_name(suite));
        }
        let names = [("server name", connection.server_name()), ("protocol", connection.protocol())];
        for (what, name) in names.iter().filter_map(|(what, name)| Some((what, name.as_ref()?))) {
            put!(self.lines, ", {what} {}", Value::Text(name));
        }
        let (first, last) = sum.times();
        let [first, last] = [first, last].map(|time| Seconds(words::after(sum.begun, time)));
        put!(self.lines, ", {first} to {last}");
        self.field(&("first_dst", Value::bytes(connection.first_dcid())));
        self.line_end();
        self.side(sum.tally, Side::Client);
        self.side(sum.tally, Side::Server);
        put!(self.lines, "{MARGIN}end: {}\n", words::ended(sum));
        self.write();
    }

    fn end(&mut self, whole: &Whole<'_>) {
        let Whole { begun, capture, counts, skipped_lines } = whole;
        let source = self.paint(Tone::Source, format!("{}:", self.name));
        let datagrams = count(counts.datagrams, "datagram", "");
        put!(
            self.lines,
            "{source} {} from {}",
            count(capture.records(), "record", ""),
            begun.map_or("-".into(), |begun| Date(begun).to_string())
        );
        put!(
            self.lines,
            ", {datagrams}, {}, {}\n",
            count(counts.connections as u64, "connection", ""),
            count(counts.opened, "packet", "opened")
        );
        let mut further: Vec<String> = counts.unopened.iter().map(|(why, count)| unopened(*why, *count)).collect();
        further.extend(
            counts
                .rests
                .iter()
                .map(|(what, n)| format!("{} with {what} after their packets", count(*n, "datagram", ""))),
        );
        let more = [
            (counts.offloaded, "datagram", "cut apart, as a network card does"),
            (capture.others(), "record", "without a UDP datagram"),
            (capture.fragments(), "record", "with a fragment before its datagram was whole"),
            (*skipped_lines, "line", "of key logs skipped"),
        ];
        further.extend(more.iter().filter(|(n, ..)| *n > 0).map(|(n, what, which)| count(*n, what, which)));
        for line in further {
            put!(self.lines, "{MARGIN}{line}\n");
        }
        self.write();
    }
}
