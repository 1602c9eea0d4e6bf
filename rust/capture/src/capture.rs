//! The UDP datagrams of a capture file, and the key logs in it.

use crate::file::{File, FileError, Part};
use crate::fragments::Fragments;
use crate::net::{self, UDP, UDP_HEADER, UdpDatagram};
use std::net::SocketAddr;
use std::ops::Range;

/// A UDP datagram.
#[derive(Clone, Copy, Debug, PartialEq, Eq)]
pub struct Datagram<'a> {
    /// The number of its record in the file, from 1 on; of the last one if it came in fragments.
    pub record: u64,
    /// When that was captured, in nanoseconds since 1970.
    pub time: u64,
    /// Who sent it.
    pub from: SocketAddr,
    /// To whom.
    pub to: SocketAddr,
    /// Its bytes, as far as they were captured.
    pub bytes: &'a [u8],
    /// How many of its bytes weren't captured.
    pub missing: usize,
    /// Whether the capturing host sent it, and didn't receive it, if the file says so: pcapng may, and so do captures
    /// of all interfaces of a Linux host.
    pub outgoing: Option<bool>,
}

/// What a capture has.
#[derive(Clone, Copy, Debug, PartialEq, Eq)]
pub enum Item<'a> {
    /// A datagram of at least one byte.
    Datagram(Datagram<'a>),
    /// The text of a key log, from a block of secrets.
    Secrets(&'a [u8]),
}

/// A capture that is being read: pcap in both byte orders, with microseconds or nanoseconds, or pcapng. It keeps at
/// most a record or block, the last piece of the file and 64 packets of IP that came in fragments.
///
/// ```
/// use quic_wire_capture::capture::{Capture, Item};
/// let mut capture = Capture::default();
/// capture.feed(&[0xd4, 0xc3, 0xb2, 0xa1, 2, 0, 4, 0, 0, 0, 0, 0, 0, 0, 0, 0, 0, 0, 4, 0, 101, 0, 0, 0]);
/// capture.feed(&[0, 0, 0, 0, 0, 0, 0, 0, 30, 0, 0, 0, 30, 0, 0, 0]);
/// assert_eq!(capture.next(), Ok(None));
/// // IPv4, UDP and two bytes.
/// capture.feed(&[0x45, 0, 0, 30, 0, 0, 0, 0, 64, 17, 0, 0, 10, 0, 0, 1, 10, 0, 0, 2]);
/// capture.feed(&[0x11, 0x51, 0x01, 0xbb, 0, 10, 0, 0, b'h', b'i']);
/// let Ok(Some(Item::Datagram(datagram))) = capture.next() else { panic!() };
/// assert_eq!((datagram.from.to_string().as_str(), datagram.bytes), ("10.0.0.1:4433", &b"hi"[..]));
/// ```
#[derive(Default)]
pub struct Capture {
    file: File,
    fragments: Fragments,
    // The payload of a packet that came in fragments.
    whole: Vec<u8>,
    others: u64,
    pieces: u64,
    error: Option<FileError>,
}

// Where a datagram's bytes are.
enum Found {
    InFile(Range<usize>),
    InWhole(Range<usize>),
}

impl Capture {
    /// Takes the next bytes of the file, as many as there are.
    pub fn feed(&mut self, piece: &[u8]) {
        self.file.feed(piece);
    }

    /// What comes next; `None` if more bytes are needed for that.
    ///
    /// # Errors
    ///
    /// If the file can't be read on. The same error comes again then.
    #[expect(clippy::should_implement_trait, reason = "what it returns borrows from it")]
    pub fn next(&mut self) -> Result<Option<Item<'_>>, FileError> {
        let (found, mut datagram) = loop {
            match self.next_part()? {
                None => return Ok(None),
                Some(Part::Secrets(range)) => return Ok(Some(Item::Secrets(self.file.bytes(range)))),
                Some(Part::Record { link, time, bytes, outgoing }) => {
                    let outgoing = outgoing.or_else(|| net::is_outgoing(link, self.file.bytes(bytes.clone())));
                    if let Some((found, datagram)) = self.datagram(link, time, bytes) {
                        break (found, Datagram { outgoing, ..datagram });
                    }
                }
            }
        };
        datagram.bytes = match found {
            Found::InFile(range) => self.file.bytes(range),
            Found::InWhole(range) => &self.whole[range],
        };
        Ok(Some(Item::Datagram(datagram)))
    }

    // The next part of the file, or the error with which it ended.
    fn next_part(&mut self) -> Result<Option<Part>, FileError> {
        if let Some(error) = &self.error {
            return Err(error.clone());
        }
        self.file.next().inspect_err(|error| self.error = Some(error.clone()))
    }

    /// How many records were read.
    pub fn records(&self) -> u64 {
        self.file.records()
    }

    /// How many of them have no datagram: another protocol, another link, an empty one, or bytes that lie.
    pub fn others(&self) -> u64 {
        self.others
    }

    /// How many of them are fragments after which their datagram wasn't whole.
    pub fn fragments(&self) -> u64 {
        self.pieces
    }

    /// Whether bytes are left that are no whole record: at the file's end, it was cut off. Not after an error.
    pub fn is_cut(&self) -> bool {
        self.error.is_none() && self.file.is_cut()
    }

    // The datagram of a record, without its bytes.
    fn datagram(&mut self, link: u16, time: u64, range: Range<usize>) -> Option<(Found, Datagram<'static>)> {
        let record = self.file.records();
        let Some(packet) = net::ip_packet(link, self.file.bytes(range.clone())) else {
            self.others += 1;
            return None;
        };
        let (from, to) = (packet.from, packet.to);
        let found = match packet.fragment {
            None => udp(packet.protocol, packet.payload, packet.missing)
                .map(|udp| (Found::InFile(of(&udp, range.start + packet.at)), udp)),
            Some(fragment) => {
                let key = (from, to, packet.protocol, fragment.id);
                let is_there = packet.missing == 0;
                let whole = self.fragments.take(key, fragment, packet.payload).filter(|_| is_there);
                let Some(whole) = whole else {
                    self.pieces += 1;
                    return None;
                };
                self.whole = whole;
                in_whole(packet.protocol, &self.whole)
            }
        };
        let Some((place, udp)) = found else {
            self.others += 1;
            return None;
        };
        let (from, to) = (SocketAddr::new(from, udp.from_port), SocketAddr::new(to, udp.to_port));
        Some((place, Datagram { record, time, from, to, bytes: &[], missing: udp.missing, outgoing: None }))
    }
}

fn udp(protocol: u8, payload: &[u8], missing: usize) -> Option<UdpDatagram<'_>> {
    if protocol == UDP { net::udp_datagram(payload, missing) } else { None }
}

// Where a datagram's bytes are, if UDP's header begins at an offset.
fn of(udp: &UdpDatagram<'_>, begin: usize) -> Range<usize> {
    begin + UDP_HEADER..begin + UDP_HEADER + udp.bytes.len()
}

// The datagram of a packet that came in fragments.
fn in_whole(protocol: u8, whole: &[u8]) -> Option<(Found, UdpDatagram<'_>)> {
    let (protocol, payload, fragment) = net::after_extensions(protocol, whole)?;
    let udp = udp(protocol, payload, 0).filter(|_| fragment.is_none())?;
    Some((Found::InWhole(of(&udp, whole.len() - payload.len())), udp))
}
