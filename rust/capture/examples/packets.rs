//! Prints the packets of a capture, one a line: its record, connection, sender, type, number and frames. Without a
//! capture it reads standard input.
//!
//! `packets [CAPTURE [KEYLOG ..]]`
use quic_wire::Side;
use quic_wire::datagram::PacketRef;
use quic_wire::frame::Frame;
use quic_wire_capture::capture::{Capture, Datagram, Item};
use quic_wire_capture::connection::Connection;
use quic_wire_capture::follow::Follower;
use quic_wire_capture::input;
use quic_wire_capture::sink::{Event, Rest, Sink, Unopened};
use std::error::Error;
use std::fs::{self, File};
use std::io::{self, BufWriter, Read, Write};

/// Lines that are ready, and the one of the packet that is being read.
struct Lines<W: Write> {
    out: W,
    line: String,
    result: io::Result<()>,
}

impl<W: Write> Lines<W> {
    fn end(&mut self) {
        let line = std::mem::take(&mut self.line);
        if self.result.is_ok() && !line.is_empty() {
            self.result = writeln!(self.out, "{line}");
        }
    }

    fn begin(&mut self, owner: Option<(&Connection, Side)>, datagram: &Datagram<'_>) {
        self.end();
        self.line = match owner {
            Some((connection, sender)) => format!("{} {} {sender:?}", datagram.record, connection.number()),
            None => format!("{} - -", datagram.record),
        };
    }
}

impl<W: Write> Sink for Lines<W> {
    fn opened(&mut self, connection: &Connection, datagram: &Datagram<'_>, _: u64, event: &Event<'_>) {
        match event {
            Event::Packet(opened) | Event::Again(opened, _) => {
                self.begin(Some((connection, opened.sender())), datagram);
                self.line += &format!(" {:?} {}", opened.kind(), opened.number());
                self.line += if matches!(event, Event::Again(..)) { " again" } else { "" };
            }
            Event::Frame { frame: Frame::Padding, .. } => self.line += " 0x0",
            Event::Frame { frame, .. } => self.line += &format!(" {:#x}", u64::from(frame.ty())),
            Event::Invalid { error, offset, .. } => self.line += &format!(" byte {offset}: {error}"),
            _ => {}
        }
    }

    fn unopened(
        &mut self,
        owner: Option<(&Connection, Side)>,
        datagram: &Datagram<'_>,
        _: u64,
        packet: &PacketRef<'_>,
        why: Unopened,
    ) {
        self.begin(owner, datagram);
        self.line += &format!(" {:?}: {why}", packet.header().kind());
    }

    fn rest(&mut self, owner: Option<(&Connection, Side)>, datagram: &Datagram<'_>, _: u64, offset: usize, why: Rest) {
        self.begin(owner, datagram);
        self.line += &format!(" byte {offset}: {why}");
    }
}

fn main() -> Result<(), Box<dyn Error>> {
    let mut files = std::env::args().skip(1);
    let source: Box<dyn Read> = match files.next() {
        Some(path) => Box::new(File::open(path)?),
        None => Box::new(io::stdin().lock()),
    };
    let (mut capture, mut follower) = (Capture::default(), Follower::default());
    for path in files {
        follower.keylog.add(&fs::read(path)?);
    }
    let mut lines = Lines { out: BufWriter::new(io::stdout().lock()), line: String::new(), result: Ok(()) };
    let read = input::read(source, &mut capture, |item| match item {
        Item::Datagram(datagram) => follower.take(&datagram, &mut lines),
        Item::Secrets(text) => follower.keylog.add(text),
    });
    follower.finish(&mut lines);
    lines.end();
    lines.result?;
    lines.out.flush()?;
    eprintln!("{:#?}", follower.counts());
    Ok(read?)
}
