//! A line of a dump.
use super::order::{self, Order};
use crate::plain::{pairs, unhex};

/// The program that prints such lines.
#[derive(Clone, Copy, Debug, PartialEq)]
pub enum Form {
    /// `xxd`, `tcpdump -x`, `tcpdump -X`.
    Colon,
    /// `hexdump -C`.
    Hexdump,
    /// Wireshark and `tshark -x`.
    Wireshark,
    OdHex,
    /// Offsets in octal or, with `-A d`, in decimal.
    Od,
    /// `hexdump` without `-C`, `od` without `-t x1`: what they print isn't read.
    Units,
}

/// What the digits of an offset mean in hexadecimal or octal, and in decimal: whichever the lines after it allow.
pub type Offsets = [Option<u64>; 2];

/// How many digits an offset has.
const DIGITS: std::ops::RangeInclusive<usize> = 4..=12;

impl Form {
    // The form of an offset with these digits, if blanks and no colon follow.
    fn of(digits: &[u8], blanks: usize) -> Option<Form> {
        match (digits.len(), blanks) {
            (8.., 2..) => Some(Form::Hexdump),
            (4..=6, 2..) => Some(Form::Wireshark),
            (6, 1) => Some(Form::OdHex),
            (7, 1) => Some(Form::Od),
            _ => None,
        }
    }

    // The offsets that digits may mean, if there is one. Those after 0x are hexadecimal.
    fn offsets(self, digits: &[u8], is_0x: bool) -> Option<Offsets> {
        let in_base = |base| u64::from_str_radix(std::str::from_utf8(digits).ok()?, base).ok();
        let is_hex = DIGITS.contains(&digits.len()) && digits.iter().all(u8::is_ascii_hexdigit);
        let offsets = match self {
            Form::Od => [in_base(8), in_base(10)],
            Form::Colon if !is_0x => [in_base(16), in_base(10)],
            _ => [in_base(16), None],
        };
        (is_hex && offsets != [None, None]).then_some(offsets)
    }

    /// The offset of a line that has only that, as the end's offset closes a dump.
    pub fn closing(self, text: &[u8]) -> Option<Offsets> {
        let is_one = match self {
            Form::Hexdump => text.len() >= 8,
            Form::OdHex => text.len() == 6,
            Form::Od => text.len() == 7,
            Form::Units => matches!(text.len(), 6 | 7),
            Form::Colon | Form::Wireshark => false,
        };
        self.offsets(text, true).filter(|_| is_one)
    }

    /// Whether its program prints a line that closes a dump.
    pub fn is_closed(self) -> bool {
        !matches!(self, Form::Colon | Form::Wireshark)
    }
}

/// What a line is if the one below it doesn't go on from it.
#[derive(Clone, Copy, Debug, PartialEq)]
pub enum Alone {
    Dump,
    /// A line of a dump or plain hexadecimal.
    Ambiguous,
    Plain,
}

/// A line of a dump.
#[derive(Debug)]
pub struct Line {
    pub form: Form,
    pub offsets: Offsets,
    pub bytes: Vec<u8>,
    /// How many columns it has: of bytes, or of the numbers that aren't read.
    pub columns: usize,
    pub order: Order,
    pub alone: Alone,
    /// Whether it has fewer bytes than a full line, so that no other follows.
    pub is_last: bool,
    /// Why its bytes aren't read.
    pub refusal: Option<&'static str>,
}

const BITS: &str = "these are bits, as xxd -b prints them; use xxd without -b";
const SWAPPED: &str = "the bytes of each group are swapped, as hexdump without -C and od -x print them; \
    use hexdump -C or od -t x1";
const UNITS: &str = "these are numbers, not bytes in hexadecimal, as hexdump without -C and od without -t x1 print \
    them; use hexdump -C or od -t x1";
const NO_BYTES: &str = "an offset without bytes after it as xxd or tcpdump print them";

impl Line {
    /// A line of a dump, if the text is one.
    pub fn read(text: &[u8]) -> Option<Line> {
        let text = text.trim_ascii();
        if let Some(at) = text.iter().position(|byte| *byte == b':') {
            if let (front, [b':', rest @ ..]) = text.split_at(at) {
                if let Some(line) = Line::with_colon(front, rest) {
                    return Some(line);
                }
            }
        }
        let (digits, rest) = text.split_at(text.iter().position(|byte| *byte == b' ')?);
        Line::of_units(digits, rest).or_else(|| Line::of_columns(digits, rest))
    }

    /// Whether it is the first of what was dumped.
    pub fn is_front(&self) -> bool {
        self.offsets[0] == Some(0)
    }

    fn refused(form: Form, offsets: Offsets, refusal: &'static str) -> Line {
        let (bytes, order) = (Vec::new(), Order::Untold);
        Line { form, offsets, bytes, columns: 0, order, alone: Alone::Dump, is_last: false, refusal: Some(refusal) }
    }

    // The digits of an offset, and what follows its colon, which begins with a blank.
    fn with_colon(front: &[u8], rest: &[u8]) -> Option<Line> {
        let digits = front.strip_prefix(b"0x").unwrap_or(front);
        let offsets = Form::Colon.offsets(digits, digits.len() < front.len())?;
        let aligned = rest.strip_prefix(b" ").or(rest.is_empty().then_some(rest))?;
        let rest = aligned.trim_ascii_start();
        let (groups, shown) = rest.split_at(find(rest, b"  ").unwrap_or(rest.len()));
        let shown = shown.get(2..).unwrap_or_default();
        if are_bits(groups, shown) {
            return Some(Line::refused(Form::Colon, offsets, BITS));
        }
        let refused = || Line::refused(Form::Colon, offsets, NO_BYTES);
        let Some(bytes) = unhex(groups).filter(|bytes| !bytes.is_empty()) else { return Some(refused()) };
        let order = match order::is_right_aligned(aligned) {
            true => Order::Swapped,
            false => order::of(groups, &bytes, shown),
        };
        if order != Order::Swapped && !is_text_of(shown, &bytes) {
            return Some(refused());
        }
        let (columns, is_last) = (bytes.len(), shown.len() > bytes.len() && order != Order::Swapped);
        Some(Line { form: Form::Colon, offsets, bytes, columns, order, alone: Alone::Dump, is_last, refusal: None })
    }

    // Six or seven digits and columns, wider than those of bytes, with numbers at their right ends.
    fn of_units(digits: &[u8], rest: &[u8]) -> Option<Line> {
        let blanks = rest.iter().take_while(|byte| **byte == b' ').count();
        let width = rest[blanks..].iter().position(|byte| *byte == b' ').map_or(rest.len(), |len| blanks + len);
        let is_number = |column: &[u8]| {
            let number = &column[column.iter().take_while(|byte| **byte == b' ').count()..];
            let digits = number.strip_prefix(b"-").unwrap_or(number);
            number.len() < column.len() && !digits.is_empty() && digits.iter().all(u8::is_ascii_hexdigit)
        };
        if width < 4 || rest.len() % width != 0 || !rest.chunks(width).all(is_number) {
            return None;
        }
        let alone = match digits.len() {
            6 if blanks == 1 => Alone::Plain,
            6 | 7 => Alone::Dump,
            _ => return None,
        };
        let refusal = if width == 5 && blanks == 1 { SWAPPED } else { UNITS };
        let columns = rest.len() / width;
        Some(Line { alone, columns, ..Line::refused(Form::Units, Form::Units.offsets(digits, true)?, refusal) })
    }

    fn of_columns(digits: &[u8], rest: &[u8]) -> Option<Line> {
        let blanks = rest.iter().take_while(|byte| **byte == b' ').count();
        let form = Form::of(digits, blanks)?;
        let rest = &rest[blanks..];
        let shown = match form {
            Form::Wireshark => find(rest, b"   "),
            Form::Hexdump => rest.iter().position(|byte| *byte == b'|').or_else(|| find(rest, b"   ")),
            _ => rest.iter().position(|byte| *byte == b'>'),
        };
        let (twos, text) = rest.split_at(shown.unwrap_or(rest.len()));
        let offsets = form.offsets(digits, false)?;
        let bytes = pairs(twos.trim_ascii_end(), blanks > 1)?;
        let is_zero = offsets[0] == Some(0);
        let alone = match form {
            _ if !text.is_empty() || digits.len() % 2 == 1 => Alone::Dump,
            Form::OdHex if digits.ends_with(b"0") => Alone::Ambiguous,
            Form::OdHex => Alone::Plain,
            _ if is_zero => Alone::Dump,
            _ => Alone::Ambiguous,
        };
        let (columns, is_last) = (bytes.len(), form == Form::Wireshark && text.len() > bytes.len() + 3);
        Some(Line { form, offsets, bytes, columns, order: Order::Untold, alone, is_last, refusal: None })
    }
}

/// Whether a line is one that `tshark` or `tcpdump` prints above a dump: its source, or a summary of the packet.
pub fn is_heading(text: &[u8]) -> bool {
    let text = text.trim_ascii();
    let is_data_source = (text.ends_with(b" bytes):") || text.ends_with(b"(1 byte):")) && text.contains(&b'(');
    let time = text.split(|byte| *byte == b' ').take(2).find(|word| word.contains(&b':')).unwrap_or_default();
    let is_time =
        time.len() == 15 && time[8] == b'.' && time.iter().all(|byte| byte.is_ascii_digit() || b":.".contains(byte));
    let is_packet = find(text, " \u{2192} ".as_bytes()).is_some();
    let from = find(text, b" > ").is_some_and(|at| find(&text[at..], b": ").is_some());
    is_data_source || is_time || is_packet || from
}

fn find(text: &[u8], what: &[u8]) -> Option<usize> {
    text.windows(what.len()).position(|part| part == what)
}

// Whether a text has a character for each byte, behind the blanks of missing digits. An editor may have removed spaces
// at its end.
fn is_text_of(shown: &[u8], bytes: &[u8]) -> bool {
    let missing = bytes.get(shown.len()..).unwrap_or_default();
    let blanks = shown.len().saturating_sub(bytes.len());
    shown.is_empty() || missing.iter().chain(&shown[..blanks]).all(|byte| *byte == b' ')
}

// Whether each group is a byte in binary: then it has at most a character of the text.
fn are_bits(groups: &[u8], shown: &[u8]) -> bool {
    let is_binary = |group: &[u8]| group.len() == 8 && group.iter().all(|digit| matches!(digit, b'0' | b'1'));
    let count = groups.split(|byte| *byte == b' ').count();
    groups.split(|byte| *byte == b' ').all(is_binary) && shown.trim_ascii_start().len() <= count
}
