//! The records of a file, pcap or pcapng, which comes in pieces of any size.

use std::fmt;
use std::ops::Range;

/// The most bytes of a record, as in libpcap.
pub const MOST_RECORD: u32 = 262_144;

/// The most bytes of a pcapng block that is read: a block of secrets has a whole key log. Others are skipped as they
/// come, whatever their length.
pub const MOST_BLOCK: u32 = 16 << 20;

const MOST_INTERFACES: usize = 1 << 16;
const PCAP_HEADER: usize = 24;
const PCAP_RECORD: usize = 16;
const NANOS: u64 = 1_000_000_000;

/// Why a file can't be read on.
#[derive(Clone, Debug, PartialEq, Eq)]
#[non_exhaustive]
pub enum FileError {
    /// It is neither pcap nor pcapng.
    UnknownFormat,
    /// A record has more than [`MOST_RECORD`] bytes.
    LongRecord {
        /// Its number, from 1 on.
        record: u64,
        /// How many bytes it would have.
        len: u32,
    },
    /// A block's length isn't that of a block, its two lengths differ, or it is longer than [`MOST_BLOCK`] bytes.
    BlockLength(u32),
    /// What a block contains ends after it.
    CutBlock {
        /// How many records came before it.
        after: u64,
    },
    /// A record is of an interface that wasn't described.
    NoInterface(u32),
    /// A section describes more than 65,536 interfaces.
    ManyInterfaces,
}

impl fmt::Display for FileError {
    fn fmt(&self, f: &mut fmt::Formatter<'_>) -> fmt::Result {
        match self {
            FileError::UnknownFormat => f.write_str("the file is neither pcap nor pcapng"),
            FileError::LongRecord { record, len } => {
                write!(f, "record {record} has {len} bytes, and at most {MOST_RECORD} can be read")
            }
            FileError::BlockLength(len) => write!(f, "a block of {len} bytes can't be read"),
            FileError::CutBlock { after } => write!(f, "the block after record {after} is cut off"),
            FileError::NoInterface(number) => write!(f, "interface {number} isn't described"),
            FileError::ManyInterfaces => write!(f, "more than {MOST_INTERFACES} interfaces"),
        }
    }
}

impl std::error::Error for FileError {}

/// A part of the file, as a range of the buffer.
pub(crate) enum Part {
    /// A frame of a link, of the type that pcap gives it, and when it was captured, in nanoseconds since 1970; if that
    /// is known, whether the capturing host sent it.
    Record { link: u16, time: u64, bytes: Range<usize>, outgoing: Option<bool> },
    /// The text of a key log.
    Secrets(Range<usize>),
}

#[derive(Clone, Copy)]
struct Interface {
    link: u16,
    /// Nanoseconds are ticks * `numerator` / `denominator`, after `offset` seconds.
    numerator: u64,
    denominator: u64,
    offset: u64,
}

impl Interface {
    fn new(link: u16, numerator: u64) -> Interface {
        Interface { link, numerator, denominator: 1, offset: 0 }
    }

    fn time(&self, ticks: u64) -> u64 {
        let nanos = u128::from(ticks) * u128::from(self.numerator) / u128::from(self.denominator);
        let whole = nanos + u128::from(self.offset) * u128::from(NANOS);
        u64::try_from(whole).unwrap_or(u64::MAX)
    }
}

#[derive(Default)]
enum Format {
    #[default]
    Unknown,
    Pcap(Interface),
    Pcapng(Vec<Interface>),
}

/// What a block begins with.
struct Block {
    kind: u32,
    begin: usize,
    /// Where its second length begins.
    end: usize,
}

const SECTION: u32 = 0x0a0d_0d0a;
const INTERFACE: u32 = 1;
const OLD_PACKET: u32 = 2;
const SIMPLE_PACKET: u32 = 3;
const ENHANCED_PACKET: u32 = 6;
const SECRETS: u32 = 10;
const TLS_KEY_LOG: u32 = 0x544c_534b;

/// A file that is being read.
#[derive(Default)]
pub(crate) struct File {
    buffer: Vec<u8>,
    at: usize,
    /// How many of the next bytes are skipped.
    skip: u64,
    format: Format,
    is_big_endian: bool,
    records: u64,
    time: u64,
}

impl File {
    /// Takes the next bytes of the file.
    pub(crate) fn feed(&mut self, piece: &[u8]) {
        self.buffer.drain(..self.at);
        self.at = 0;
        self.buffer.extend_from_slice(piece);
    }

    pub(crate) fn records(&self) -> u64 {
        self.records
    }

    pub(crate) fn bytes(&self, range: Range<usize>) -> &[u8] {
        &self.buffer[range]
    }

    /// Whether bytes are left that are no whole record or block.
    pub(crate) fn is_cut(&self) -> bool {
        self.at < self.buffer.len() || self.skip > 0
    }

    /// What comes next; `None` if more bytes are needed for it.
    pub(crate) fn next(&mut self) -> Result<Option<Part>, FileError> {
        loop {
            self.pass_skipped();
            match self.format {
                Format::Unknown => {
                    if !self.begin()? {
                        return Ok(None);
                    }
                }
                Format::Pcap(interface) => return self.record(interface),
                Format::Pcapng(_) => match self.block()? {
                    None => return Ok(None),
                    Some(block) => {
                        if let Some(part) = self.part(&block)? {
                            return Ok(Some(part));
                        }
                    }
                },
            }
        }
    }

    fn pass_skipped(&mut self) {
        let left = self.buffer.len() - self.at;
        let passed = usize::try_from(self.skip).map_or(left, |skip| skip.min(left));
        self.at += passed;
        self.skip -= passed as u64;
    }

    fn has(&self, count: usize) -> bool {
        self.buffer.len() - self.at >= count
    }

    // Numbers of a section or file. The bytes are there.
    fn u32(&self, at: usize) -> u32 {
        let bytes = *self.buffer[at..].first_chunk().unwrap_or(&[0; 4]);
        if self.is_big_endian { u32::from_be_bytes(bytes) } else { u32::from_le_bytes(bytes) }
    }

    fn u16(&self, at: usize) -> u16 {
        let bytes = *self.buffer[at..].first_chunk().unwrap_or(&[0; 2]);
        if self.is_big_endian { u16::from_be_bytes(bytes) } else { u16::from_le_bytes(bytes) }
    }

    // Finds the file's format. False if more bytes are needed.
    fn begin(&mut self) -> Result<bool, FileError> {
        if !self.has(4) {
            return Ok(false);
        }
        let magic = self.u32(self.at);
        if magic == SECTION {
            self.format = Format::Pcapng(Vec::new());
            return Ok(true);
        }
        let numerator = match magic {
            0xa1b2_c3d4 | 0xd4c3_b2a1 => 1000,
            0xa1b2_3c4d | 0x4d3c_b2a1 => 1,
            _ => return Err(FileError::UnknownFormat),
        };
        if !self.has(PCAP_HEADER) {
            return Ok(false);
        }
        self.is_big_endian = matches!(magic, 0xd4c3_b2a1 | 0x4d3c_b2a1);
        // The upper bits tell of checksums at the frames' ends.
        let link = self.u32(self.at + 20) as u16;
        self.format = Format::Pcap(Interface::new(link, numerator));
        self.at += PCAP_HEADER;
        Ok(true)
    }

    fn record(&mut self, interface: Interface) -> Result<Option<Part>, FileError> {
        if !self.has(PCAP_RECORD) {
            return Ok(None);
        }
        let len = self.record_len(self.at + 8)?;
        if !self.has(PCAP_RECORD + len) {
            return Ok(None);
        }
        let (seconds, parts) = (self.u32(self.at), self.u32(self.at + 4));
        self.time = u64::from(seconds) * NANOS + interface.time(parts.into());
        let begin = self.at + PCAP_RECORD;
        self.at = begin + len;
        self.records += 1;
        Ok(Some(Part::Record { link: interface.link, time: self.time, bytes: begin..self.at, outgoing: None }))
    }

    // How many bytes a record has, by the number at an offset.
    fn record_len(&self, at: usize) -> Result<usize, FileError> {
        match self.u32(at) {
            len @ ..=MOST_RECORD => Ok(len as usize),
            len => Err(FileError::LongRecord { record: self.records + 1, len }),
        }
    }

    // Passes a block, whose bytes are all there if they are needed.
    fn block(&mut self) -> Result<Option<Block>, FileError> {
        if !self.has(12) {
            return Ok(None);
        }
        let begin = self.at;
        if self.u32(begin) == SECTION {
            self.is_big_endian = self.buffer[begin + 8] == 0x1a;
        }
        let (kind, len) = (self.u32(begin), self.u32(begin + 4));
        if len < 12 || len % 4 != 0 {
            return Err(FileError::BlockLength(len));
        }
        if !matches!(kind, SECTION | INTERFACE | OLD_PACKET | SIMPLE_PACKET | ENHANCED_PACKET | SECRETS) {
            self.skip = len.into();
            return Ok(Some(Block { kind, begin, end: begin }));
        }
        if len > MOST_BLOCK {
            return Err(FileError::BlockLength(len));
        }
        let end = begin + len as usize - 4;
        if !self.has(len as usize) {
            return Ok(None);
        }
        if self.u32(end) != len {
            return Err(FileError::BlockLength(self.u32(end)));
        }
        self.at = end + 4;
        Ok(Some(Block { kind, begin, end }))
    }

    // What a block is, if it is a record or secrets.
    fn part(&mut self, block: &Block) -> Result<Option<Part>, FileError> {
        let begin = block.begin + 8;
        match block.kind {
            SECTION => self.format = Format::Pcapng(Vec::new()),
            INTERFACE => self.add_interface(block)?,
            ENHANCED_PACKET => {
                self.within(block, 28)?;
                let number = self.u32(begin);
                return self.packet(block, number).map(Some);
            }
            OLD_PACKET => {
                self.within(block, 28)?;
                let number = self.u16(begin).into();
                return self.packet(block, number).map(Some);
            }
            SIMPLE_PACKET => {
                self.within(block, 12)?;
                let len = self.record_len(begin).map_or(block.end - begin - 4, |len| len.min(block.end - begin - 4));
                let link = self.interface(0)?.link;
                self.records += 1;
                let bytes = begin + 4..begin + 4 + len;
                return Ok(Some(Part::Record { link, time: self.time, bytes, outgoing: None }));
            }
            SECRETS => {
                self.within(block, 16)?;
                let len = self.u32(begin + 4) as usize;
                if len > block.end - begin - 8 {
                    return Err(FileError::CutBlock { after: self.records });
                }
                if self.u32(begin) == TLS_KEY_LOG {
                    return Ok(Some(Part::Secrets(begin + 8..begin + 8 + len)));
                }
            }
            _ => {}
        }
        Ok(None)
    }

    // Whether the first bytes of a block are in it, before its second length.
    fn within(&self, block: &Block, count: usize) -> Result<(), FileError> {
        if block.end - block.begin < count { Err(FileError::CutBlock { after: self.records }) } else { Ok(()) }
    }

    fn packet(&mut self, block: &Block, number: u32) -> Result<Part, FileError> {
        let begin = block.begin + 28;
        let len = self.record_len(block.begin + 20)?;
        self.within(block, 28 + len)?;
        let interface = self.interface(number)?;
        let ticks = u64::from(self.u32(block.begin + 12)) << 32 | u64::from(self.u32(block.begin + 16));
        self.time = interface.time(ticks);
        self.records += 1;
        let outgoing = self.outgoing(begin + len.next_multiple_of(4), block.end);
        Ok(Part::Record { link: interface.link, time: self.time, bytes: begin..begin + len, outgoing })
    }

    // Whether the capturing host sent a packet, by the flags among the options of its block.
    fn outgoing(&self, at: usize, end: usize) -> Option<bool> {
        let (_, flags) = self.options(at, end).find(|(code, value)| (*code, value.len()) == (2, 4))?;
        match self.u32(flags.start) & 3 {
            1 => Some(false),
            2 => Some(true),
            _ => None,
        }
    }

    // The options from an offset on: their codes, and where their values are.
    fn options(&self, mut at: usize, end: usize) -> impl Iterator<Item = (u16, Range<usize>)> {
        std::iter::from_fn(move || {
            if at + 4 > end {
                return None;
            }
            let (code, len) = (self.u16(at), usize::from(self.u16(at + 2)));
            let value = at + 4..at + 4 + len;
            at = value.start + len.next_multiple_of(4);
            (code != 0 && value.end <= end).then_some((code, value))
        })
    }

    fn interface(&self, number: u32) -> Result<Interface, FileError> {
        let Format::Pcapng(interfaces) = &self.format else { return Err(FileError::NoInterface(number)) };
        interfaces.get(number as usize).copied().ok_or(FileError::NoInterface(number))
    }

    fn add_interface(&mut self, block: &Block) -> Result<(), FileError> {
        self.within(block, 16)?;
        let mut interface = Interface::new(self.u16(block.begin + 8), 1000);
        for (code, value) in self.options(block.begin + 16, block.end) {
            match (code, value.len()) {
                (9, 1) => (interface.numerator, interface.denominator) = resolution(self.buffer[value.start]),
                (14, 8) if self.is_big_endian => interface.offset = self.u32(value.start + 4).into(),
                (14, 8) => interface.offset = self.u32(value.start).into(),
                _ => {}
            }
        }
        match &mut self.format {
            Format::Pcapng(interfaces) if interfaces.len() < MOST_INTERFACES => interfaces.push(interface),
            _ => return Err(FileError::ManyInterfaces),
        }
        Ok(())
    }
}

// How many nanoseconds a tick has, as a fraction, by the option if_tsresol.
fn resolution(value: u8) -> (u64, u64) {
    let power = u32::from(value & 0x7f);
    match power {
        _ if value & 0x80 != 0 => (NANOS, 1 << power.min(63)),
        ..=9 => (10u64.pow(9 - power), 1),
        _ => (1, 10u64.pow((power - 9).min(19))),
    }
}
