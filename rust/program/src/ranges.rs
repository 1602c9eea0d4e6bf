//! Sets of packet numbers, in decimal.
use crate::output::{Output, Value};
use Value::Number;
use quic_wire::frame::Ack;
use quic_wire::range_set::RangeSet;
use quic_wire::varint;
use std::io::{self, Write};
use std::ops::Range;

/// Prints the set of the numbers and ranges in a line, and an ACK of it.
pub fn show(line: &[u8], output: &mut Output<impl Write>) -> io::Result<()> {
    let is_blank = |byte: &u8| b" \t,;[]{}()".contains(byte);
    let words = || line.split(is_blank).filter(|word| !word.is_empty());
    let mut set = RangeSet::new();
    for word in words() {
        if range(word).map(|range| set.insert(range)).is_none() {
            let what = format!("not a packet number or range below 2^62: {:?}", String::from_utf8_lossy(word));
            return output.error(&what, None, &[]);
        }
    }
    show_set(&set, output)
}

fn show_set(set: &RangeSet, output: &mut Output<impl Write>) -> io::Result<()> {
    let Some(largest) = set.max() else { return output.error("no packet numbers", None, &[]) };
    let mut ranges = Vec::new();
    ranges.try_reserve_exact(set.len())?;
    ranges.extend(set.iter().rev().map(|run| (run.start, run.end - 1)));
    let mut ack = Vec::new();
    // A type, four numbers, and two for each range.
    ack.try_reserve_exact(8 * (2 * set.len() + 4))?;
    if let Err(error) = Ack::encode_from(0, set, None, &mut ack) {
        return output.error(&error.to_string(), None, &[]);
    }
    let fields = [
        ("largest", Number(largest)),
        ("count", Number(set.iter().map(|run| run.end - run.start).sum())),
        ("ranges", Value::Runs(ranges)),
        ("ack", Value::bytes(&ack)),
    ];
    output.fields(&fields, &[])
}

// A number, both ends of a range, such as `1-3`, or a half-open range, such as `1..4`.
fn range(word: &[u8]) -> Option<Range<u64>> {
    let word = std::str::from_utf8(word).ok()?;
    let number = |text: &str| {
        let is_plain = text.bytes().all(|byte| byte.is_ascii_digit());
        text.parse().ok().filter(|number| is_plain && *number <= varint::MAX)
    };
    let range = if let Some((first, end)) = word.split_once("..") {
        number(first)?..number(end)?
    } else {
        let (first, last) = word.split_once('-').unwrap_or((word, word));
        number(first)?..number(last)? + 1
    };
    (range.start < range.end).then_some(range)
}
