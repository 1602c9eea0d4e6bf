//! A capture that is read piece by piece, and what is found in it.

use crate::filter::Filter;
use crate::streams;
use crate::table::{Filled, Inside, MOST_KEPT, Row, Table};
use quic_wire::Side;
use quic_wire::datagram::PacketRef;
use quic_wire_capture::capture::{Capture, Datagram, Item};
use quic_wire_capture::connection::Connection;
use quic_wire_capture::follow::Follower;
use quic_wire_capture::input::InputError;
use quic_wire_capture::recovery::Threshold;
use quic_wire_capture::sink::{Ended, Event, Rest, Sink, Unopened};
use quic_wire_capture::streams::Streams;
use quic_wire_check::checker::Checker;
use quic_wire_check::finding::Finding;
use quic_wire_check::rule::{Level, Rule};
use quic_wire_check::rules;
use quic_wire_cli::objects::{
    CaptureJson, CheckForm, CheckJson, Checked, Filter as Shown, Form, Lines, Object, Qlog, Report, Taker, Traces,
    Value, error_text, words,
};
use std::borrow::Cow;
use std::cell::{Cell, RefCell};
use std::collections::{BTreeMap, HashMap};
use std::ffi::OsStr;
use std::rc::Rc;

/// How many bytes of lines about connections and findings are kept. Further lines are counted.
pub const MOST_LINES: usize = 1 << 25;
/// How many points a picture has at most. Of more packets it has every second one, every third one, or fewer.
pub const MOST_POINTS: usize = 1 << 17;

/// What is made of a capture.
#[derive(Clone, Debug, PartialEq, Eq)]
pub enum Purpose {
    /// A table of all packets, whose bytes are kept as long as there is room.
    Table,
    /// The same, with the bytes of one record, so that packets for which there was no room can be opened again.
    Record(u64),
    /// The objects that `quic-wire capture --json` prints.
    Objects,
    /// The traces that `quic-wire capture --qlog` writes: what they call the capture, and the connection that has one,
    /// or all of them.
    Traces(String, Option<usize>),
}

/// Lines that were written.
#[derive(Default)]
struct Text {
    lines: RefCell<String>,
    /// How many bytes are kept, or 0 for all.
    most: usize,
    further: Cell<u64>,
}

struct Written(Rc<Text>);

impl Lines for Written {
    fn write(&self, lines: &str) {
        let mut text = self.0.lines.borrow_mut();
        // The last line, which is about the capture as a whole, always has room.
        let is_needed = lines.starts_with("{\"kind\":\"capture\"");
        if self.0.most > 0 && text.len() + lines.len() > self.0.most && !is_needed {
            self.0.further.set(self.0.further.get() + 1);
        } else {
            text.push_str(lines);
        }
    }
}

/// Pieces of traces: of each the connection and how many bytes it has, as numbers of 4 bytes, the lowest byte first,
/// and then its bytes.
struct Pieces(Rc<RefCell<Vec<u8>>>);

impl Traces for Pieces {
    fn write(&mut self, connection: usize, text: &str, _: bool) {
        if !text.is_empty() {
            let mut pieces = self.0.borrow_mut();
            [connection, text.len()].iter().for_each(|number| pieces.extend((*number as u32).to_le_bytes()));
            pieces.extend_from_slice(text.as_bytes());
        }
    }
}

/// What was found at the end.
#[derive(Default)]
struct Found {
    /// The objects that `quic-wire check --json` prints.
    lines: String,
    /// For each row at which a rule is broken the sections, and for each finding its row.
    broken: BTreeMap<usize, Vec<String>>,
    rows: Vec<Option<usize>>,
}

/// A capture that is being read.
pub struct Engine {
    capture: Capture,
    follower: Follower,
    report: Report<'static>,
    checker: Checker,
    rules: usize,
    streams: Streams,
    table: Rc<RefCell<Table>>,
    lines: Rc<Text>,
    traces: Rc<RefCell<Vec<u8>>>,
    found: Found,
    filter: Filter,
    /// The rows that the filter lets through, unless it is empty.
    shown: Vec<u32>,
    /// The number of the first connection that isn't summed up yet.
    finished: usize,
    is_finished: bool,
}

// All that takes the events.
struct All<'a> {
    report: &'a mut Report<'static>,
    checker: &'a mut Checker,
    streams: &'a mut Streams,
    table: &'a RefCell<Table>,
}

impl Sink for All<'_> {
    fn opened(&mut self, connection: &Connection, datagram: &Datagram<'_>, index: u64, event: &Event<'_>) {
        self.report.opened(connection, datagram, index, event);
        self.checker.opened(connection, datagram, index, event);
        self.streams.opened(connection, datagram, index, event);
        match event {
            Event::Acknowledged { sent, .. } => self.table.borrow_mut().acknowledge(sent),
            Event::Lost(sent) => self.table.borrow_mut().lose(sent),
            _ => {}
        }
    }

    fn unopened(
        &mut self,
        owner: Option<(&Connection, Side)>,
        datagram: &Datagram<'_>,
        index: u64,
        packet: &PacketRef<'_>,
        why: Unopened,
    ) {
        self.report.unopened(owner, datagram, index, packet, why);
        self.checker.unopened(owner, datagram, index, packet, why);
    }

    fn rest(
        &mut self,
        owner: Option<(&Connection, Side)>,
        datagram: &Datagram<'_>,
        index: u64,
        offset: usize,
        why: Rest,
    ) {
        self.report.rest(owner, datagram, index, offset, why);
        self.checker.rest(owner, datagram, index, offset, why);
    }

    fn ended(&mut self, connection: &Connection, how: Ended) {
        self.report.ended(connection, how);
        self.checker.ended(connection, how);
    }
}

impl Engine {
    /// Begins to read a capture.
    pub fn new(purpose: Purpose) -> Engine {
        let (kept, most) = match purpose {
            Purpose::Table => (0..=u64::MAX, MOST_KEPT),
            Purpose::Record(record) => (record..=record, MOST_KEPT),
            Purpose::Objects | Purpose::Traces(..) => (0..=0, 0),
        };
        let table = Rc::new(RefCell::new(Table::new(kept, most)));
        let has_packets = purpose == Purpose::Objects;
        let lines = Rc::new(Text { most: if has_packets { 0 } else { MOST_LINES }, ..Text::default() });
        let traces = Rc::default();
        let mut shown = Shown::default();
        let json = CaptureJson::new(Written(Rc::clone(&lines)), has_packets, false);
        let mut forms: Vec<Box<dyn Form>> = vec![Box::new(json)];
        match purpose {
            Purpose::Objects => {}
            Purpose::Table | Purpose::Record(_) => forms.push(Box::new(Filled(Rc::clone(&table)))),
            Purpose::Traces(name, connection) => {
                shown.connections.extend(connection);
                forms.push(Box::new(Qlog::new(Pieces(Rc::clone(&traces)), &name)));
            }
        }
        let musts: Vec<&'static Rule> = rules::all().filter(|rule| rule.level == Level::Must).collect();
        Engine {
            capture: Capture::default(),
            follower: Follower::default(),
            report: Report::new(Cow::Owned(shown), forms),
            rules: musts.len(),
            checker: Checker::new(musts),
            streams: Streams::default(),
            table,
            lines,
            traces,
            found: Found::default(),
            filter: Filter::default(),
            shown: Vec::new(),
            finished: 0,
            is_finished: false,
        }
    }

    /// Adds lines of a key log. It opens packets that come after it.
    pub fn add_keylog(&mut self, text: &[u8]) {
        self.follower.keylog.add(text);
    }

    /// Takes the next bytes of the file, and all datagrams that are whole with them.
    ///
    /// # Errors
    ///
    /// If the file can't be read on: why, in words.
    pub fn feed(&mut self, piece: &[u8]) -> Result<(), String> {
        self.put(piece);
        while self.step(usize::MAX)? {}
        Ok(())
    }

    /// Takes the next bytes of the file. [`Engine::step`] takes the datagrams that are whole with them.
    pub fn put(&mut self, piece: &[u8]) {
        self.capture.feed(piece);
    }

    /// Takes so many of the datagrams that are whole, or all if there are fewer. Returns whether there may be more.
    ///
    /// # Errors
    ///
    /// As [`Engine::feed`].
    pub fn step(&mut self, most: usize) -> Result<bool, String> {
        let Engine { capture, follower, report, checker, streams, table, .. } = self;
        for _ in 0..most {
            match capture.next() {
                Ok(None) => return Ok(false),
                Ok(Some(Item::Secrets(text))) => follower.keylog.add(text),
                Ok(Some(Item::Datagram(datagram))) => {
                    report.begin_at(datagram.time);
                    checker.note(&datagram);
                    follower.take(&datagram, &mut All { report, checker, streams, table });
                }
                Err(error) => return Err(error_text(&InputError::File(error), capture.records())),
            }
        }
        Ok(true)
    }

    /// Ends the capture: sums up the connections, and decides what waited for their ends. Nothing comes after it.
    pub fn finish(&mut self) {
        while self.finish_some(usize::MAX) {}
    }

    /// Does so for so many connections, or for all that are left. Returns whether there may be more: otherwise the
    /// capture has ended.
    pub fn finish_some(&mut self, most: usize) -> bool {
        if self.is_finished {
            return false;
        }
        let Engine { follower, report, checker, streams, table, finished, .. } = self;
        // Packets wait only the first time.
        follower.finish(&mut All { report, checker, streams, table });
        for connection in follower.connections_from(*finished).take(most) {
            report.sum_up(connection);
            checker.decide(connection);
            *finished = connection.number() + 1;
        }
        let has_more = follower.connections_from(*finished).next().is_some();
        if !has_more {
            self.finish_all();
        }
        has_more
    }

    // Ends the capture, whose connections are summed up.
    fn finish_all(&mut self) {
        self.is_finished = true;
        let Engine { capture, follower, report, checker, table, .. } = self;
        report.end(follower, capture);
        let checked = std::mem::take(checker).finish(follower);
        let text = Rc::new(Text::default());
        CheckJson::new(Written(text.clone()), false).capture(
            OsStr::new(""),
            &Checked {
                begun: report.begun().unwrap_or_default(),
                report: &checked,
                capture,
                counts: follower.counts(),
                rules: self.rules,
                allowed: &[],
                skipped_lines: follower.keylog.skipped(),
                wanted: None,
                unread: None,
            },
        );
        let rows = rows_of(table.borrow().rows(), &checked.findings);
        let mut broken: BTreeMap<usize, Vec<String>> = BTreeMap::new();
        for (finding, row) in checked.findings.iter().zip(&rows) {
            row.iter().for_each(|row| broken.entry(*row).or_default().push(finding.section.to_string()));
        }
        self.found = Found { lines: text.lines.take(), broken, rows };
    }

    /// How many packets there are so far.
    pub fn count(&self) -> usize {
        self.table.borrow().rows().len()
    }

    /// The lines about packets, connections and the capture that were written since the last call.
    pub fn lines(&self) -> String {
        self.lines.lines.take()
    }

    /// The pieces of traces that were written since the last call: of each the connection and how many bytes it has, as
    /// numbers of 4 bytes, the lowest byte first, and then its bytes.
    pub fn traces(&self) -> Vec<u8> {
        self.traces.take()
    }

    /// What `quic-wire check --json` prints, after the end.
    pub fn check_lines(&self) -> &str {
        &self.found.lines
    }

    /// What a page shows of the capture as a whole: the numbers of connections of which it has no line and of packets
    /// without a row, the row of each finding, whether the file is cut off, how many secrets the key logs have, and how
    /// many packets there are.
    pub fn summary(&self) -> String {
        let (table, mut text) = (self.table.borrow(), String::new());
        let mut object = Object::new(&mut text);
        object.number("packets", table.rows().len() as u64);
        object.number("further_packets", table.further());
        object.number("further_connections", self.lines.further.get());
        object.number("further_stream_frames", self.streams.further());
        object.number("secrets", self.follower.keylog.len() as u64);
        object.number("records", self.capture.records());
        object.flag("cut_off", self.capture.is_cut());
        object.list("finding_rows", &self.found.rows, |object, row| {
            row.iter().for_each(|row| object.number("row", *row as u64));
        });
        object.end();
        text
    }

    /// The transport parameters of a side of a connection, as an object of JSON, if they were read.
    pub fn parameters(&self, connection: usize, side: Side) -> Option<String> {
        self.table.borrow().parameters(connection, side).map(str::to_owned)
    }

    /// How many streams a connection has; each side that sends on one counts.
    pub fn stream_count(&self, connection: usize) -> usize {
        self.streams.of(connection).count()
    }

    /// The streams of a connection between two positions of their list, an object of JSON for each, a line each.
    pub fn streams(&self, connection: usize, from: usize, to: usize) -> String {
        let mut text = String::new();
        let all = self.streams.of(connection).skip(from).take(to.saturating_sub(from));
        all.for_each(|one| streams::write(one, &mut text));
        text
    }

    /// Lists only the packets that have what the words of a text say. Returns what these are, in words.
    ///
    /// # Errors
    ///
    /// If a word can't be read: why, in words. The list stays as it is.
    pub fn filter(&mut self, text: &str) -> Result<String, String> {
        self.filter = Filter::parse(text)?;
        let table = self.table.borrow();
        let fits = |(index, row): &(usize, &Row)| self.filter.fits(&table, row, self.found.broken.contains_key(index));
        self.shown = match self.filter.is_empty() {
            true => Vec::new(),
            false => table.rows().iter().enumerate().filter(fits).map(|(index, _)| index as u32).collect(),
        };
        Ok(self.filter.explain())
    }

    /// How many packets are listed.
    pub fn shown(&self) -> usize {
        if self.filter.is_empty() { self.count() } else { self.shown.len() }
    }

    /// Where a packet is in the list, if it is there.
    pub fn position(&self, index: usize) -> Option<usize> {
        match self.filter.is_empty() {
            true => (index < self.count()).then_some(index),
            false => self.shown.binary_search(&u32::try_from(index).ok()?).ok(),
        }
    }

    /// The packets between two positions of the list, an object of JSON for each, a line each.
    pub fn rows(&self, from: usize, to: usize) -> String {
        let (table, mut text) = (self.table.borrow(), String::new());
        for position in from..to.min(self.shown()) {
            let index = if self.filter.is_empty() { position } else { self.shown[position] as usize };
            let mut object = Object::new(&mut text);
            self.row(&table, index, &mut object);
            object.end();
            text.push('\n');
        }
        text
    }

    fn row(&self, table: &Table, index: usize, object: &mut Object<'_>) {
        let row = &table.rows()[index];
        object.number("index", index as u64);
        object.number("record", row.record);
        object.plain("time", format_args!("{:#}", words::Seconds(row.time)));
        if let Some((connection, side)) = row.owner {
            object.number("connection", connection.into());
            object.word("sender", words::side_name(side));
        }
        object.word("type", row.kind);
        row.number.into_iter().for_each(|number| object.number("number", number));
        object.range("packet_in_datagram", row.range.start as usize, row.range.end as usize);
        object.word("text", table.text(row));
        object.flag("rejected", row.is_rejected);
        object.flag("opened", row.inside.is_some());
        if row.inside.as_ref().is_some_and(|inside| inside.is_again) {
            object.flag("again", true);
        }
        if let Some(time) = row.acknowledged {
            object.plain("acknowledged_after", format_args!("{:#}", words::Seconds(words::after(row.captured, time))));
        }
        if let Some(by) = row.lost {
            object.word("lost", if by == Threshold::Time { "time" } else { "packets" });
        }
        let sections = self.found.broken.get(&index);
        object.list("broken", sections.into_iter().flatten(), |object, section| object.word("section", section));
    }

    /// A packet with its datagram and the packets beside it there, for a page that shows their bytes. The datagram is
    /// missing if it wasn't kept: an engine of [`Purpose::Record`] has it. `None` if there is no such packet.
    pub fn detail(&self, index: usize) -> Option<String> {
        let table = self.table.borrow();
        let row = table.rows().get(index)?;
        let is_beside = |other: &Row| other.record == row.record && other.datagram == row.datagram;
        let first = table.rows()[..index].iter().rposition(|other| !is_beside(other)).map_or(0, |last| last + 1);
        let beside = table.rows()[first..].iter().take_while(|other| is_beside(other));
        let mut text = String::new();
        let mut object = Object::new(&mut text);
        object.number("index", index as u64);
        object.number("record", row.record);
        object.word("from", &table.address(row.from).to_string());
        object.word("to", &table.address(row.to).to_string());
        if let Some(kept) = row.datagram {
            object.field(&("datagram", Value::bytes(table.bytes(kept))));
        }
        object.list("packets", beside.enumerate(), |object, (place, other)| {
            self.row(&table, first + place, object);
            object.number("id_len", other.id_len.into());
            if let Some(inside) = &other.inside {
                opened(&table, other, inside, object);
            }
        });
        object.end();
        Some(text)
    }

    /// The packets of a connection that were opened, for a picture: of each the time in seconds after the capture's
    /// first datagram, the number, 0 for the client and 1 for the server, its state (0 not acknowledged,
    /// 1 acknowledged, 2 lost, 3 acknowledged though it counted as lost), its number space (0 to 2) and its index, as
    /// IEEE 754 numbers of 8 bytes, the lowest byte first.
    pub fn points(&self, connection: usize) -> Vec<u8> {
        let table = self.table.borrow();
        let of_it = |(_, row): &(usize, &Row)| {
            row.inside.is_some() && row.owner.is_some_and(|owner| owner.0 as usize == connection)
        };
        let count = table.rows().iter().enumerate().filter(of_it).count();
        let every = count.div_ceil(MOST_POINTS).max(1);
        let mut bytes = Vec::new();
        for (index, row) in table.rows().iter().enumerate().filter(of_it).step_by(every) {
            let side = row.owner.map_or(0.0, |owner| f64::from(owner.1 as u8));
            let state = match (row.acknowledged.is_some(), row.lost.is_some()) {
                (false, false) => 0.0,
                (true, false) => 1.0,
                (false, true) => 2.0,
                (true, true) => 3.0,
            };
            let space = match row.kind {
                "Initial" => 0.0,
                "Handshake" => 1.0,
                _ => 2.0,
            };
            let number = row.number.unwrap_or_default() as f64;
            let numbers = [row.time as f64 / 1e9, number, side, state, space, index as f64];
            bytes.extend(numbers.into_iter().flat_map(f64::to_le_bytes));
        }
        bytes
    }
}

// The rows of the packets at which something was found.
fn rows_of(rows: &[Row], findings: &[Finding]) -> Vec<Option<usize>> {
    let mut by_record: HashMap<u64, Vec<usize>> = findings.iter().map(|one| (one.record, Vec::new())).collect();
    for (index, row) in rows.iter().enumerate() {
        if let Some(indices) = by_record.get_mut(&row.record) {
            indices.push(index);
        }
    }
    let row_of = |finding: &Finding| {
        let owner = Some((finding.connection as u32, finding.sender));
        let of_side = || by_record[&finding.record].iter().copied().filter(|index| rows[*index].owner == owner);
        let is_it = |index: &usize| {
            let row = &rows[*index];
            let bytes = row.range.start as usize..row.range.end as usize;
            row.number == finding.number && bytes.contains(&finding.offset)
        };
        of_side().find(is_it).or_else(|| of_side().next())
    };
    findings.iter().map(row_of).collect()
}

// What an opened packet has, with the mask that removes its header's protection again (RFC 9001, section 5.4.1).
fn opened(table: &Table, row: &Row, inside: &Inside, object: &mut Object<'_>) {
    let (payload_at, number_len) = (inside.payload_at as usize, usize::from(inside.number_len));
    object.range("number_in_datagram", payload_at - number_len, payload_at);
    let datagram = row.datagram.map(|kept| table.bytes(kept));
    let front = datagram.and_then(|bytes| bytes.get(row.range.start as usize..payload_at));
    if let (Some(front), Some(number)) = (front, row.number) {
        let plain = &number.to_be_bytes()[8 - number_len..];
        let protected = &front[front.len() - number_len..];
        let bits = if front[0] & 0x80 == 0 { 0x1f } else { 0x0f };
        let mut mask = [0; 5];
        mask[0] = (front[0] ^ inside.first) & bits;
        mask[1..].iter_mut().zip(plain.iter().zip(protected)).for_each(|(mask, (a, b))| *mask = a ^ b);
        object.field(&("mask", Value::few(mask)));
    }
    if let Some(kept) = inside.payload {
        object.field(&("payload", Value::bytes(table.bytes(kept))));
    }
}
