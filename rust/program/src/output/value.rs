//! The values of a line's fields. They borrow long data.
use quic_wire::frame::Ack;
use quic_wire::transport_parameters::{Entry, entries, known};
use std::borrow::Cow;
use std::fmt::{self, Display, Formatter, Write};

/// The value of a field.
#[derive(Clone)]
pub enum Value<'a> {
    Number(u64),
    Flag(bool),
    Word(Cow<'a, str>),
    Bytes(Cow<'a, [u8]>),
    /// Text that may not be UTF-8, in quotes.
    Text(&'a [u8]),
    Version(u32),
    /// Versions of four bytes each.
    Versions(&'a [u8]),
    /// The numbers that an ACK acknowledges, each range from its least to its greatest.
    Ranges(Ack<'a>),
    /// Ranges of numbers, the same way.
    Runs(Vec<(u64, u64)>),
    /// The ids of all transport parameters of a list.
    Ids(&'a [u8]),
    /// The transport parameters of a list that have no name.
    Unknown(&'a [u8]),
}

pub type Field<'a> = (&'static str, Value<'a>);

impl<'a> Value<'a> {
    /// Borrowed bytes.
    pub fn bytes(bytes: &'a [u8]) -> Self {
        Value::Bytes(Cow::Borrowed(bytes))
    }

    /// A few bytes.
    pub fn few(bytes: impl Into<Vec<u8>>) -> Self {
        Value::Bytes(Cow::Owned(bytes.into()))
    }

    /// A sentence, in quotes for people.
    pub fn sentence(text: &'a str) -> Self {
        Value::Text(text.as_bytes())
    }
}

/// The parameters without a name in a list.
pub fn unknown(list: &[u8]) -> impl Iterator<Item = Entry<'_>> {
    entries(list).flatten().filter(|entry| known(entry.id).is_none())
}

// Bytes in hexadecimal.
struct Hex<'a>(&'a [u8]);

impl Display for Hex<'_> {
    fn fmt(&self, f: &mut Formatter<'_>) -> fmt::Result {
        const DIGITS: &[u8; 16] = b"0123456789abcdef";
        let mut digits = [0; 128];
        for bytes in self.0.chunks(digits.len() / 2) {
            for (pair, byte) in digits.chunks_exact_mut(2).zip(bytes) {
                pair.copy_from_slice(&[byte >> 4, byte & 0x0f].map(|half| DIGITS[usize::from(half)]));
            }
            let text = std::str::from_utf8(&digits[..2 * bytes.len()]);
            f.write_str(text.map_err(|_| fmt::Error)?)?;
        }
        Ok(())
    }
}

// Items with commas between them, in JSON in brackets.
fn list<T>(
    f: &mut Formatter<'_>,
    is_json: bool,
    items: impl IntoIterator<Item = T>,
    show: impl Fn(&mut Formatter<'_>, T) -> fmt::Result,
) -> fmt::Result {
    let (begin, end) = if is_json { ("[", "]") } else { ("", "") };
    f.write_str(begin)?;
    for (i, item) in items.into_iter().enumerate() {
        if i > 0 {
            f.write_char(',')?;
        }
        show(f, item)?;
    }
    f.write_str(end)
}

fn ids(list: &[u8]) -> impl Iterator<Item = u64> + '_ {
    entries(list).flatten().map(|entry| entry.id)
}

fn ranges<'a>(ack: &Ack<'a>) -> impl Iterator<Item = (u64, u64)> + 'a {
    ack.iter().map(|range| (*range.start(), *range.end()))
}

impl Value<'_> {
    fn show(&self, f: &mut Formatter<'_>, is_json: bool) -> fmt::Result {
        let quote = if is_json { "\"" } else { "" };
        let range = |f: &mut Formatter<'_>, (least, greatest): (u64, u64)| match is_json {
            true => write!(f, "[{least},{greatest}]"),
            false => write!(f, "{least}-{greatest}"),
        };
        match self {
            Value::Number(number) => number.fmt(f),
            Value::Flag(flag) => flag.fmt(f),
            Value::Word(word) if is_json => Quoted(word.as_bytes()).fmt(f),
            Value::Word(word) => f.write_str(word),
            Value::Bytes(bytes) if bytes.is_empty() && !is_json => f.write_char('-'),
            Value::Bytes(bytes) => write!(f, "{quote}{}{quote}", Hex(bytes)),
            Value::Text(text) if is_json => Quoted(text).fmt(f),
            Value::Text(text) => spelled(f, text, |f, c| match c {
                '\'' => f.write_char(c),
                _ => c.escape_debug().fmt(f),
            }),
            Value::Version(version) => write!(f, "{quote}{version:08x}{quote}"),
            Value::Versions(bytes) => {
                list(f, is_json, bytes.chunks_exact(4), |f, version| write!(f, "{quote}{}{quote}", Hex(version)))
            }
            Value::Ranges(ack) => list(f, is_json, ranges(ack), range),
            Value::Runs(runs) => list(f, is_json, runs.iter().copied(), range),
            Value::Ids(entries) => list(f, is_json, ids(entries), |f, id| id.fmt(f)),
            Value::Unknown(entries) => list(f, is_json, unknown(entries), |f, entry| match is_json {
                true => write!(f, "{{\"id\":{},\"value\":\"{}\"}}", entry.id, Hex(entry.value)),
                false => write!(f, "{:#x}:{}", entry.id, Hex(entry.value)),
            }),
        }
    }
}

impl Display for Value<'_> {
    fn fmt(&self, f: &mut Formatter<'_>) -> fmt::Result {
        self.show(f, false)
    }
}

/// A value as JSON.
pub struct Json<'a>(pub &'a Value<'a>);

impl Display for Json<'_> {
    fn fmt(&self, f: &mut Formatter<'_>) -> fmt::Result {
        self.0.show(f, true)
    }
}

/// A string of JSON.
pub struct Quoted<'a>(pub &'a [u8]);

impl Display for Quoted<'_> {
    fn fmt(&self, f: &mut Formatter<'_>) -> fmt::Result {
        spelled(f, self.0, |f, c| match c {
            '"' | '\\' => write!(f, "\\{c}"),
            _ if c.is_control() => write!(f, "\\u{:04x}", u32::from(c)),
            _ => f.write_char(c),
        })
    }
}

// A text in quotes, with U+FFFD for what isn't UTF-8.
fn spelled(f: &mut Formatter<'_>, text: &[u8], spell: impl Fn(&mut Formatter<'_>, char) -> fmt::Result) -> fmt::Result {
    f.write_char('"')?;
    for chunk in text.utf8_chunks() {
        chunk.valid().chars().try_for_each(|c| spell(f, c))?;
        if !chunk.invalid().is_empty() {
            spell(f, char::REPLACEMENT_CHARACTER)?;
        }
    }
    f.write_char('"')
}
