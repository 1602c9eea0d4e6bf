//! Dumps of bytes, as `xxd`, `hexdump -C`, `od -t x1`, Wireshark, `tshark -x` and `tcpdump -x` print them.
//!
//! The manual page has the rule. A line of a dump begins with an offset, whose form identifies the program that printed
//! it (`line::Form`). What may be plain hexadecimal too is a dump only if the next line goes on from it.
mod line;
mod order;

use crate::input::{self, Piece};
use line::{Alone, Form, Offsets};
pub use line::{Line, is_heading};
use order::Order;

// How many bytes a dump with lines of `*` may have.
const MOST: usize = 1 << 20;
// The greatest number of bytes in a column.
const UNIT: u64 = 8;

const SWAPPED: &str = "the bytes of each group are swapped, as xxd -e prints them; use xxd without -e";
const MAY_BE_SWAPPED: &str = "the bytes of each group may be swapped, as xxd -e prints them; use xxd -g1";
const AMBIGUOUS: &str =
    "ambiguous: an offset and bytes, or only bytes; add the next line of the dump, or remove spaces";
const BASES: &str = "ambiguous: with decimal offsets * stands for other rows; use od -v or xxd without -a";
const TORN: &str = "a dump that begins below a line that can't be read, and not at offset 0";

/// The relation of a line to the dump before it.
pub enum Step {
    GoesOn,
    /// The dump is whole, and the line belongs to it.
    Ends,
    /// The dump is whole, and the line isn't part of it.
    Another,
}

/// The lines of a dump that were read.
pub struct Dump {
    number: usize,
    // The first line, and what it is if nothing goes on from it.
    text: Vec<u8>,
    first: Line,
    bytes: Vec<u8>,
    // How many bytes its last row has.
    row: usize,
    // Whether a line went on from the first.
    is_confirmed: bool,
    // Whether `*` was read after the last row.
    repeats: bool,
    // Whether `*` stands for other rows if offsets are decimal.
    has_two_readings: bool,
    // The first line whose offset doesn't follow the lines before it.
    broken_at: Option<usize>,
}

impl Dump {
    /// The dump that begins with the line of this number. Below a line that can't be read it must begin at offset 0.
    pub fn new(number: usize, text: Vec<u8>, mut first: Line, is_below_fault: bool) -> Dump {
        if is_below_fault && first.alone == Alone::Dump && !first.is_front() {
            first.refusal.get_or_insert(TORN);
        }
        let (bytes, row) = (std::mem::take(&mut first.bytes), first.columns);
        let (is_confirmed, repeats, has_two_readings, broken_at) = (first.alone == Alone::Dump, false, false, None);
        Dump { number, text, first, bytes, row, is_confirmed, repeats, has_two_readings, broken_at }
    }

    /// Whether its lines are plain hexadecimal, as far as they were read.
    pub fn is_plain(&self) -> bool {
        !self.is_confirmed && self.first.alone == Alone::Plain
    }

    /// Adds the next line.
    pub fn take(&mut self, number: usize, text: &[u8]) -> Step {
        let is_indented = text.starts_with(b" ");
        let text = text.trim_ascii();
        match text {
            b"" if self.is_plain() => return Step::Another,
            b"" => return Step::Ends,
            b"*" => {
                (self.repeats, self.is_confirmed) = (true, true);
                return Step::GoesOn;
            }
            _ => {}
        }
        let closing = self.first.form.closing(text);
        match Line::read(text) {
            Some(row) if row.form == self.first.form => self.add(number, row),
            Some(row) if row.is_front() => Step::Another,
            _ => match closing {
                Some(end) => self.close(number, end),
                // od prints numbers of a second kind below those of the first, without an offset.
                None if self.is_confirmed && self.first.form == Form::Units && is_indented => Step::GoesOn,
                None if self.is_confirmed && self.first.refusal.is_none() && self.first.form.is_closed() => {
                    self.broken_at.get_or_insert(number);
                    Step::GoesOn
                }
                None => Step::Another,
            },
        }
    }

    fn add(&mut self, number: usize, row: Line) -> Step {
        let is_last = row.is_last;
        if self.first.refusal.is_some() {
            return match !row.is_front() && self.goes_on_unread(row.offsets) {
                true => Step::GoesOn,
                false => Step::Another,
            };
        }
        if row.refusal.is_none() && self.broken_at.is_none() && self.reach(row.offsets) {
            self.row = row.bytes.len();
            self.bytes.extend(row.bytes);
            self.first.order = self.first.order.max(row.order);
            return if is_last { Step::Ends } else { Step::GoesOn };
        }
        if row.is_front() || self.is_plain() {
            return Step::Another;
        }
        self.broken_at.get_or_insert(number);
        Step::GoesOn
    }

    // The end's offset closes a dump.
    fn close(&mut self, number: usize, end: Offsets) -> Step {
        if self.first.refusal.is_some() {
            return if self.goes_on_unread(end) { Step::Ends } else { Step::Another };
        }
        if self.broken_at.is_none() && !self.reach(end) {
            if self.is_plain() {
                return Step::Another;
            }
            self.broken_at = Some(number);
        }
        Step::Ends
    }

    // Whether a line belongs to a dump that isn't read: if its first line may be plain hexadecimal, by the next offset.
    fn goes_on_unread(&mut self, at: Offsets) -> bool {
        let distance = |(from, to): (u64, u64)| to.saturating_sub(from);
        let most = UNIT * self.first.columns as u64;
        self.is_confirmed |= self.first.offsets[0].zip(at[0]).is_some_and(|both| (1..=most).contains(&distance(both)));
        self.is_confirmed
    }

    // Whether the dump goes on at an offset, after rows are repeated for `*`.
    fn reach(&mut self, at: Offsets) -> bool {
        let gaps = [0, 1].map(|base| {
            let gap = at[base]?.checked_sub(self.first.offsets[base]?)?.checked_sub(self.bytes.len() as u64)?;
            usize::try_from(gap).ok().filter(|gap| self.fits(*gap))
        });
        let ([Some(gap), other] | [None, other @ Some(gap)]) = gaps else { return false };
        self.has_two_readings |= other.is_some_and(|other| other != gap);
        for base in [0, 1] {
            self.first.offsets[base] = self.first.offsets[base].filter(|_| gaps[base].is_some());
        }
        let last = self.bytes.len() - self.row..self.bytes.len();
        (0..gap).step_by(self.row).for_each(|_| self.bytes.extend_from_within(last.clone()));
        (self.repeats, self.is_confirmed) = (false, true);
        true
    }

    // Whether so many bytes may be missing: whole rows for `*`, which stands for one or more.
    fn fits(&self, gap: usize) -> bool {
        let is_filled = gap > 0 && gap % self.row == 0 && gap <= MOST.saturating_sub(self.bytes.len());
        if self.repeats { is_filled } else { gap == 0 }
    }

    /// The bytes that were dumped, or why they aren't known.
    pub fn finish(self) -> Piece {
        if self.is_plain() {
            return input::plain_line(self.number, &self.text);
        }
        let refusal = self.first.refusal.or(match self.first.order {
            Order::Swapped => Some(SWAPPED),
            Order::Unknown => Some(MAY_BE_SWAPPED),
            Order::AsDumped | Order::Untold if self.has_two_readings => Some(BASES),
            Order::AsDumped | Order::Untold => None,
        });
        let bytes = match (refusal, self.broken_at) {
            (Some(refusal), _) => Err(refusal.into()),
            (None, Some(line)) => Err(format!("the dump does not go on in line {line}")),
            (None, None) if !self.is_confirmed => Err(AMBIGUOUS.into()),
            (None, None) if self.repeats => Err("the dump ends with *, not with an offset".into()),
            (None, None) => Ok(self.bytes),
        };
        Piece { line: self.number, bytes }
    }
}
