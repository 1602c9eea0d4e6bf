//! The packets of a capture as rows, which a page lists, sorts out and opens again.

use crate::store::{Kept, Store};
use crate::summary;
use quic_wire::Side;
use quic_wire::datagram::PacketRef;
use quic_wire_capture::capture::Datagram;
use quic_wire_capture::recovery::{Sent, Threshold};
use quic_wire_capture::sink::{Rest, Unopened};
use quic_wire_cli::objects::{Form, Object, Packet, Part, Place, Sum, Whole, is_plain, parameter_fields, words};
use std::cell::RefCell;
use std::collections::{BTreeMap, HashMap};
use std::ffi::OsStr;
use std::net::SocketAddr;
use std::ops::{Range, RangeInclusive};
use std::rc::Rc;

/// How many packets have a row. Further ones are counted.
pub const MOST_ROWS: usize = 1 << 20;
/// How many bytes of datagrams and payloads are kept for packets that are opened again.
pub const MOST_KEPT: usize = 1 << 28;
// How many bytes the texts of all rows have, and the lists of transport parameters.
const MOST_TEXT: usize = 1 << 26;
const MOST_LISTS: usize = 1 << 24;

/// What an opened packet has besides.
#[derive(Clone, Debug)]
pub struct Inside {
    /// Where its payload begins in the datagram.
    pub payload_at: u32,
    /// The first byte without protection, and how many bytes the packet number has.
    pub first: u8,
    pub number_len: u8,
    /// Its payload, if that is kept.
    pub payload: Option<Kept>,
    /// Whether its number was used before.
    pub is_again: bool,
}

/// A packet, or the rest of a datagram that is none.
#[derive(Clone, Debug)]
pub struct Row {
    pub record: u64,
    /// In nanoseconds after the capture's first datagram.
    pub time: i64,
    pub owner: Option<(u32, Side)>,
    pub kind: &'static str,
    pub number: Option<u64>,
    /// Its bytes in the datagram.
    pub range: Range<u32>,
    /// How many bytes the destination id has.
    pub id_len: u8,
    /// Its text among all.
    text: Range<u32>,
    /// Whether RFC 9000 rejects something in it, or it isn't opened and isn't of a kind that never is.
    pub is_rejected: bool,
    /// When it was acknowledged first, in nanoseconds since 1970, and why it counted as lost.
    pub acknowledged: Option<u64>,
    pub lost: Option<Threshold>,
    pub inside: Option<Inside>,
    /// The datagram, if it is kept.
    pub datagram: Option<Kept>,
    pub from: u32,
    pub to: u32,
    /// When the datagram was captured, in nanoseconds since 1970.
    pub captured: u64,
}

/// The rows of a capture.
pub struct Table {
    rows: Vec<Row>,
    texts: String,
    store: Store,
    /// Whose bytes are kept, by the numbers of their records.
    kept: RangeInclusive<u64>,
    /// The last datagram that was kept: its record, and where its bytes were.
    last: Option<((u64, usize, usize), Kept)>,
    addresses: Vec<SocketAddr>,
    numbers: HashMap<SocketAddr, u32>,
    lists: BTreeMap<(usize, bool), String>,
    lists_len: usize,
    further: u64,
}

impl Table {
    /// One that keeps bytes of these records, at most so many.
    pub fn new(kept: RangeInclusive<u64>, most: usize) -> Table {
        Table {
            rows: Vec::new(),
            texts: String::new(),
            store: Store::new(most),
            kept,
            last: None,
            addresses: Vec::new(),
            numbers: HashMap::new(),
            lists: BTreeMap::new(),
            lists_len: 0,
            further: 0,
        }
    }

    pub fn rows(&self) -> &[Row] {
        &self.rows
    }

    /// How many packets have no row.
    pub fn further(&self) -> u64 {
        self.further
    }

    /// What is said of a row.
    pub fn text(&self, row: &Row) -> &str {
        &self.texts[row.text.start as usize..row.text.end as usize]
    }

    /// The bytes at a place.
    pub fn bytes(&self, kept: Kept) -> &[u8] {
        self.store.get(kept)
    }

    pub fn address(&self, number: u32) -> SocketAddr {
        self.addresses[number as usize]
    }

    /// The transport parameters of a side, as an object of JSON.
    pub fn parameters(&self, connection: usize, side: Side) -> Option<&str> {
        self.lists.get(&(connection, side == Side::Server)).map(|text| &text[..])
    }

    /// Notes that a packet was acknowledged for the first time.
    pub fn acknowledge(&mut self, sent: &Sent) {
        if let Some(row) = self.row_of(sent) {
            row.acknowledged = sent.acknowledged;
        }
    }

    /// Notes that a packet counts as lost.
    pub fn lose(&mut self, sent: &Sent) {
        if let Some(row) = self.row_of(sent) {
            row.lost = sent.lost.map(|loss| loss.by);
        }
    }

    fn row_of(&mut self, sent: &Sent) -> Option<&mut Row> {
        self.rows.get_mut(usize::try_from(sent.index).ok()?)
    }

    // The number of an address.
    fn number(&mut self, address: SocketAddr) -> u32 {
        let next = self.addresses.len() as u32;
        *self.numbers.entry(address).or_insert_with(|| {
            self.addresses.push(address);
            next
        })
    }

    // Keeps a datagram, once for all of its packets.
    fn keep(&mut self, datagram: &Datagram<'_>) -> Option<Kept> {
        if !self.kept.contains(&datagram.record) {
            return None;
        }
        let key = (datagram.record, datagram.bytes.as_ptr().addr(), datagram.bytes.len());
        match self.last {
            Some((last, kept)) if last == key => Some(kept),
            _ => {
                let kept = self.store.add(datagram.bytes)?;
                self.last = Some((key, kept));
                Some(kept)
            }
        }
    }

    fn say(&mut self, text: &str) -> Range<u32> {
        let begin = self.texts.len();
        if begin + text.len() <= MOST_TEXT {
            self.texts.push_str(text);
        }
        begin as u32..self.texts.len() as u32
    }

    // Adds a row. A packet's index is the number of rows before it, as long as there is room.
    fn add(&mut self, place: &Place<'_>, what: What<'_>) {
        if self.rows.len() >= MOST_ROWS {
            self.further += 1;
            return;
        }
        let What { kind, number, range, id_len, text, is_rejected, inside } = what;
        let datagram = place.datagram;
        let row = Row {
            record: datagram.record,
            time: place.time,
            owner: place.owner.map(|(connection, side)| (connection.number() as u32, side)),
            kind,
            number,
            range: range.start as u32..range.end as u32,
            id_len: id_len as u8,
            text: self.say(text),
            is_rejected,
            acknowledged: None,
            lost: None,
            inside,
            datagram: self.keep(datagram),
            from: self.number(datagram.from),
            to: self.number(datagram.to),
            captured: datagram.time,
        };
        self.rows.push(row);
    }

    fn add_list(&mut self, connection: usize, side: Side, part: &Part) {
        let Part::Parameters(list, read) = part else { return };
        let mut text = String::new();
        let mut object = Object::new(&mut text);
        parameter_fields(list, read).iter().for_each(|field| object.field(field));
        object.end();
        if self.lists_len + text.len() <= MOST_LISTS {
            self.lists_len += text.len();
            self.lists.insert((connection, side == Side::Server), text);
        }
    }
}

// What a row says besides its place.
struct What<'a> {
    kind: &'static str,
    number: Option<u64>,
    range: Range<usize>,
    id_len: usize,
    text: &'a str,
    is_rejected: bool,
    inside: Option<Inside>,
}

/// A table that a report fills.
pub struct Filled(pub Rc<RefCell<Table>>);

impl Form for Filled {
    fn begin(&mut self, _: &OsStr) {}

    fn opened(&mut self, place: &Place<'_>, packet: &Packet<'_>) {
        let mut table = self.0.borrow_mut();
        let (opened, table) = (packet.opened, &mut *table);
        let (payload, number) = (opened.payload(), opened.unprotected());
        let is_kept = table.kept.contains(&place.datagram.record);
        let inside = Inside {
            payload_at: opened.payload_offset() as u32,
            first: number.first,
            number_len: number.number_len as u8,
            payload: if is_kept { table.store.add(payload) } else { None },
            is_again: packet.again.is_some(),
        };
        if let Some((connection, side)) = place.owner {
            packet.parts.iter().for_each(|part| table.add_list(connection.number(), side, part));
        }
        let what = What {
            kind: words::kind_name(opened.kind()),
            number: Some(opened.number()),
            range: opened.packet().place().range(),
            id_len: opened.packet().dst_cid().len(),
            text: &summary::of_parts(payload, packet.parts),
            is_rejected: packet.is_rejected(),
            inside: Some(inside),
        };
        table.add(place, what);
    }

    fn unopened(&mut self, place: &Place<'_>, packet: &PacketRef<'_>, why: Unopened) {
        let is_reset = why == Unopened::StatelessReset;
        let what = What {
            kind: if is_reset { "stateless reset" } else { words::kind_name(packet.header().kind()) },
            number: None,
            range: if is_reset { 0..place.datagram.bytes.len() } else { packet.place().range() },
            id_len: packet.dst_cid().len(),
            text: &if is_plain(why) { String::new() } else { format!("not opened: {why}") },
            is_rejected: !is_plain(why),
            inside: None,
        };
        self.0.borrow_mut().add(place, what);
    }

    fn rest(&mut self, place: &Place<'_>, offset: usize, why: Rest) {
        let what = What {
            kind: "rest",
            number: None,
            range: offset..place.datagram.bytes.len(),
            id_len: 0,
            text: &why.to_string(),
            is_rejected: why != Rest::Zeros,
            inside: None,
        };
        self.0.borrow_mut().add(place, what);
    }

    fn connection(&mut self, _: &Sum<'_>) {}

    fn end(&mut self, _: &Whole<'_>) {}
}
