//! Lines joined to the pieces that are read as one.
use crate::dump::{self, Dump, Line, Step};
use crate::plain::{self, Fault};
use std::io::{self, BufRead};
use std::mem;

const UTF_16: &str = "the text is UTF-16, not UTF-8";
const CAPTURE: &str = "a capture, not hexadecimal; use the mode capture or check";
const GZIP: &str = "gzip compressed this; only the modes capture and check read it";
const OPEN: &str = "a bracket is not closed";

/// A piece that is read as one, and the number of its first line.
#[derive(Debug, PartialEq)]
pub struct Piece {
    pub line: usize,
    /// Or the reason why there are no bytes.
    pub bytes: Result<Vec<u8>, String>,
}

/// How plain lines are read.
#[derive(Clone, Copy, Default, PartialEq)]
pub enum Plain {
    #[default]
    Hexadecimal,
    Base64,
    /// Numbers that a mode reads itself.
    Decimal,
}

// Lines of a list, the number of the first, how many of its brackets aren't closed, and whether a comma is the last of
// its characters.
struct List {
    line: usize,
    text: Vec<u8>,
    open: usize,
    has_comma: bool,
}

/// The pieces of a source, each as soon as it is whole.
pub struct Pieces<R> {
    source: R,
    plain: Plain,
    line: usize,
    dump: Option<Dump>,
    // Lines of a list that isn't whole.
    list: Option<List>,
    // Whether a dump ended with the line before, ignoring blank ones.
    is_behind_dump: bool,
    // Whether the line before couldn't be read.
    is_below_fault: bool,
    // What was read beyond a dump.
    next: Option<Piece>,
    is_ended: bool,
}

// Why what begins with such a line is no text, if it isn't.
fn not_text(line: usize, text: &[u8]) -> Option<&'static str> {
    match (line, text) {
        (1, [0xff, 0xfe, ..] | [0xfe, 0xff, ..]) => Some(UTF_16),
        (1, [0x1f, 0x8b, 0x08, ..]) => Some(GZIP),
        (1, [0xd4, 0xc3, 0xb2, 0xa1, ..] | [0xa1, 0xb2, 0xc3, 0xd4, ..]) => Some(CAPTURE),
        (1, [0x4d, 0x3c, 0xb2, 0xa1, ..] | [0xa1, 0xb2, 0x3c, 0x4d, ..]) => Some(CAPTURE),
        // A pcapng file begins with two ends of lines and a length.
        (3, [_, _, _, _, 0x4d, 0x3c, 0x2b, 0x1a, ..] | [_, _, _, _, 0x1a, 0x2b, 0x3c, 0x4d, ..]) => Some(CAPTURE),
        _ => None,
    }
}

impl<R: BufRead> Pieces<R> {
    pub fn new(source: R, plain: Plain) -> Self {
        let (dump, list, next, is_ended) = (None, None, None, false);
        Pieces { source, plain, line: 0, dump, list, is_behind_dump: false, is_below_fault: false, next, is_ended }
    }

    // The next line without its end. If it doesn't fit into memory, reading fails.
    fn read_line(&mut self) -> io::Result<Option<Vec<u8>>> {
        let mut line = Vec::new();
        loop {
            let read = match self.source.fill_buf() {
                Err(error) if error.kind() == io::ErrorKind::Interrupted => continue,
                read => read?,
            };
            let end = read.iter().position(|byte| *byte == b'\n');
            let part = &read[..end.unwrap_or(read.len())];
            line.try_reserve(part.len())?;
            line.extend_from_slice(part);
            let (len, is_end) = (part.len(), read.is_empty());
            self.source.consume(len + usize::from(end.is_some()));
            if is_end && line.is_empty() {
                return Ok(None);
            }
            if is_end || end.is_some() {
                break;
            }
        }
        self.line += 1;
        if line.ends_with(b"\r") {
            line.pop();
        }
        Ok(Some(line))
    }

    // What is whole once a line is read.
    fn take(&mut self, mut text: Vec<u8>) -> Option<Piece> {
        if self.line == 1 && text.starts_with(b"\xef\xbb\xbf") {
            text.drain(..3);
        }
        if let Some(why) = not_text(self.line, &text) {
            self.is_ended = true;
            return Some(Piece { line: self.line, bytes: Err(why.into()) });
        }
        if let Some(list) = self.list.take() {
            return self.go_on(list, text);
        }
        match self.dump.as_mut().map(|dump| dump.take(self.line, &text)) {
            Some(Step::GoesOn) => return None,
            Some(Step::Ends) => return self.finish_dump(),
            Some(Step::Another) | None => {}
        }
        let Some(before) = self.finish_dump() else { return self.begin(text) };
        self.next = self.begin(text);
        Some(before)
    }

    // A line after what is whole.
    fn begin(&mut self, mut text: Vec<u8>) -> Option<Piece> {
        let is_below_fault = mem::take(&mut self.is_below_fault);
        if self.is_behind_dump && text.trim_ascii().is_empty() {
            return None;
        }
        let was_behind_dump = mem::take(&mut self.is_behind_dump);
        if self.plain != Plain::Hexadecimal {
            return self.other_line(text);
        }
        if let Some(first) = Line::read(&text) {
            let is_whole = first.is_last;
            self.dump = Some(Dump::new(self.line, text, first, is_below_fault));
            return if is_whole { self.finish_dump() } else { None };
        }
        if plain::is_literal(&text) {
            return self.whole(plain_line(self.line, &text));
        }
        let has_comment = plain::blank_comments(&mut text);
        let is_left_out = has_comment && text.trim_ascii().is_empty();
        if is_left_out || plain::is_length(&text) {
            self.is_behind_dump = was_behind_dump || !has_comment;
            return None;
        }
        self.list_or_piece(List { line: self.line, text: Vec::new(), open: 0, has_comma: false }, text)
    }

    // A line that isn't hexadecimal.
    fn other_line(&mut self, mut text: Vec<u8>) -> Option<Piece> {
        if self.plain == Plain::Base64 {
            return Some(piece(self.line, &text, plain::base64(&text)));
        }
        let has_comment = plain::blank_comments(&mut text);
        let is_left_out = has_comment && text.trim_ascii().is_empty();
        (!is_left_out).then_some(Piece { line: self.line, bytes: Ok(text) })
    }

    // A line after those of a list.
    fn go_on(&mut self, mut list: List, mut text: Vec<u8>) -> Option<Piece> {
        if text.trim_ascii().is_empty() {
            return self.whole(list.end());
        }
        plain::blank_comments(&mut text);
        list.text.push(b'\n');
        self.list_or_piece(list, text)
    }

    // What a list or a line is with one more line, if it doesn't go on in the next.
    fn list_or_piece(&mut self, mut list: List, text: Vec<u8>) -> Option<Piece> {
        list.open = plain::open_brackets(list.open, &text);
        if let Some(last) = text.trim_ascii_end().last() {
            list.has_comma = *last == b',';
        }
        list.text.extend(text);
        if list.open > 0 || list.has_comma {
            self.list = Some(list);
            return None;
        }
        let read = plain_line(list.line, &list.text);
        if read.bytes.is_err() && dump::is_heading(&list.text) {
            self.is_behind_dump = true;
            return None;
        }
        self.whole(read)
    }

    fn whole(&mut self, read: Piece) -> Option<Piece> {
        self.is_below_fault = read.bytes.is_err();
        Some(read)
    }

    fn finish_dump(&mut self) -> Option<Piece> {
        let dump = self.dump.take()?;
        let is_plain = dump.is_plain();
        let piece = dump.finish();
        self.is_behind_dump = !is_plain;
        self.is_below_fault = is_plain && piece.bytes.is_err();
        Some(piece)
    }

    // What is whole at the end.
    fn finish(&mut self) -> Option<Piece> {
        self.list.take().map(List::end).or_else(|| self.finish_dump())
    }

    fn read_piece(&mut self) -> io::Result<Option<Piece>> {
        if let Some(piece) = self.next.take() {
            return Ok(Some(piece));
        }
        while !self.is_ended {
            let read = match self.read_line()? {
                Some(line) => self.take(line),
                None => return Ok(self.finish()),
            };
            if read.is_some() {
                return Ok(read);
            }
        }
        Ok(None)
    }
}

impl<R: BufRead> Iterator for Pieces<R> {
    type Item = io::Result<Piece>;

    fn next(&mut self) -> Option<Self::Item> {
        self.read_piece().transpose()
    }
}

impl List {
    // The list, if a blank line or the end of the input ends it.
    fn end(self) -> Piece {
        match self.open {
            0 => plain_line(self.line, &self.text),
            _ => Piece { line: self.line, bytes: Err(OPEN.into()) },
        }
    }
}

/// A line, or lines of a list, that aren't a dump.
pub fn plain_line(line: usize, text: &[u8]) -> Piece {
    piece(line, text, plain::read(text))
}

// With the position of the fault in the lines.
fn piece(line: usize, text: &[u8], read: plain::Read) -> Piece {
    let bytes = read.map_err(|Fault { what, at }| {
        let (before, hint) = (&text[..at], hint(text));
        let begin = before.iter().rposition(|byte| *byte == b'\n').map_or(0, |end| end + 1);
        // A character has one byte that isn't `10......`.
        let column = 1 + before[begin..].iter().filter(|byte| **byte & 0xc0 != 0x80).count();
        match before.iter().filter(|byte| **byte == b'\n').count() {
            0 => format!("{what} in column {column}{hint}"),
            below => format!("{what} in line {}, column {column}{hint}", line + below),
        }
    });
    Piece { line, bytes }
}

// What a line that isn't hexadecimal may be meant as.
fn hint(text: &[u8]) -> &'static str {
    let is_base64 = text.len() >= 8 && text.len() % 4 == 0 && !text.contains(&b' ');
    match is_base64 && plain::base64(text).is_ok() {
        true => "; base64 is read with --base64",
        false => "",
    }
}

#[cfg(test)]
mod tests;
