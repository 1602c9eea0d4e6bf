//! Traces of what is checked: those of the mode `capture`, at whose ends are the rules that are broken.
use super::{json, reason};
use crate::args::Filter;
use crate::capture::qlog::{Folder, Qlog};
use crate::capture::reading::Taker;
use crate::capture::report::Report as Packets;
use crate::capture::screen::Screen;
use quic_wire::Side;
use quic_wire::datagram::PacketRef;
use quic_wire_capture::capture::{Capture, Datagram};
use quic_wire_capture::connection::Connection;
use quic_wire_capture::follow::Follower;
use quic_wire_capture::sink::{Ended, Event, Rest, Sink, Unopened};
use quic_wire_check::checker::Checker;
use quic_wire_check::finding::{Finding, Report};
use std::borrow::Cow;
use std::collections::HashMap;
use std::ffi::OsStr;

/// The name of a finding's event, whose data are a finding's members in docs/check.schema.json.
const NAME: &str = "quic_wire:rule_broken";

/// What writes the packets of a capture, and what is found in them.
pub struct Traces<'a> {
    packets: Packets<'a>,
    allowed: &'a [(String, String)],
}

// What a follower finds goes to a checker, then to the traces.
struct Both<'b, 'a> {
    checker: &'b mut Checker,
    traces: &'b mut Traces<'a>,
}

impl<'a> Traces<'a> {
    pub fn new(
        filter: &'a Filter,
        screen: &'a Screen,
        folder: &OsStr,
        stem: &OsStr,
        allowed: &'a [(String, String)],
    ) -> Self {
        let qlog = Qlog::new(Folder::new(screen, folder, stem), &stem.to_string_lossy());
        Traces { packets: Packets::new(Cow::Borrowed(filter), vec![Box::new(qlog)]), allowed }
    }

    pub fn begin(&mut self, file: &OsStr) {
        self.packets.begin(file);
    }

    /// Takes the next datagram for a checker, too.
    pub fn take(&mut self, datagram: &Datagram<'_>, follower: &mut Follower, checker: &mut Checker) {
        checker.note(datagram);
        self.packets.begin_at(datagram.time);
        follower.take(datagram, &mut Both { checker, traces: self });
    }

    /// Takes what still waits at the end of a capture for a checker, too.
    pub fn finish(&mut self, follower: &mut Follower, checker: &mut Checker) {
        follower.finish(&mut Both { checker, traces: self });
    }

    /// Ends the traces of the connections that weren't forgotten.
    pub fn end(&mut self, follower: &mut Follower, capture: &Capture, report: &Report) {
        let mut found: HashMap<usize, Vec<&Finding>> = HashMap::new();
        report.findings.iter().for_each(|finding| found.entry(finding.connection).or_default().push(finding));
        for connection in follower.connections() {
            self.add(connection, found.get(&connection.number()).map_or(&[][..], Vec::as_slice));
        }
        self.packets.end(follower, capture);
    }

    fn add(&mut self, connection: &Connection, findings: &[&Finding]) {
        for finding in findings {
            let reason = reason(self.allowed, finding);
            self.packets.note(connection, finding.time, NAME, &|object| json::members(object, finding, reason));
        }
    }
}

impl Sink for Both<'_, '_> {
    fn opened(&mut self, connection: &Connection, datagram: &Datagram<'_>, index: u64, event: &Event<'_>) {
        self.checker.opened(connection, datagram, index, event);
        self.traces.packets.opened(connection, datagram, index, event);
    }

    fn unopened(
        &mut self,
        owner: Option<(&Connection, Side)>,
        datagram: &Datagram<'_>,
        index: u64,
        packet: &PacketRef<'_>,
        why: Unopened,
    ) {
        self.checker.unopened(owner, datagram, index, packet, why);
        self.traces.packets.unopened(owner, datagram, index, packet, why);
    }

    fn rest(
        &mut self,
        owner: Option<(&Connection, Side)>,
        datagram: &Datagram<'_>,
        index: u64,
        offset: usize,
        why: Rest,
    ) {
        self.checker.rest(owner, datagram, index, offset, why);
        self.traces.packets.rest(owner, datagram, index, offset, why);
    }

    fn ended(&mut self, connection: &Connection, how: Ended) {
        self.checker.ended(connection, how);
        self.traces.add(connection, &self.checker.findings(connection.number()));
        self.traces.packets.ended(connection, how);
    }
}
