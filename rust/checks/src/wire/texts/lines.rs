//! Lines of the mode `frames`, through `run`.
use crate::host::prelude::*;
use crate::tested::quic_bench::FailAt;
use crate::tested::quic_text::{Mode, run, status};

// A line, and what is printed for it.
const ROWS: &[(&str, &str)] = &[
    ("40000a000161", "0..2 PADDING\n2..6 STREAM\n"),
    ("80000001", "0..4 PING\n"),
    ("0600026869", "0..5 CRYPTO\n"),
    ("0c0440106162", "0..6 STREAM\n"),
    ("0600036869", "error unexpected end in CRYPTO\n"),
    ("010a0005616201", "0..1 PING\nerror unexpected end in STREAM\n"),
    ("02", "error unexpected end in ACK\n"),
    ("ffffffffffffffff", "error invalid frame ID in <unknown 3fffffffffffffff>\n"),
    ("0140", "0..1 PING\nerror unexpected end in PING\n"),
    ("40", "error unexpected end\n"),
    ("21", "error invalid frame ID in <unknown 21>\n"),
    ("0", "error not hexadecimal\n"),
    ("zz", "error not hexadecimal\n"),
    ("", "error packet payload is empty\n"),
    // Either case of a digit, and one carriage return at the end.
    ("0C0440106162", "0..6 STREAM\n"),
    ("0C04fF\r", "error unexpected end in STREAM\n"),
    ("01\r\r", "error not hexadecimal\n"),
    ("\r", "error packet payload is empty\n"),
    (" 01", "error not hexadecimal\n"),
    ("0d0000", "0..3 STREAM\n"),
    // One of every kind, and what breaks it.
    ("04000102", "0..4 RESET_STREAM\n"),
    ("0700", "0..2 NEW_TOKEN\n"),
    ("1a0102030405060708", "0..9 PATH_CHALLENGE\n"),
    ("3102686901", "0..4 DATAGRAM\n4..5 PING\n"),
    ("30686901", "0..4 DATAGRAM\n"),
    ("40af2a148000c35001", "0..9 ACK_FREQUENCY\n"),
    ("18050202aabb11111111111111111111111111111111", "0..22 NEW_CONNECTION_ID\n"),
    ("030e2a03000101030000022a180c", "0..14 ACK\n"),
    ("0300000000", "error unexpected end in ACK_ECN\n"),
    ("020000ffffffffffffffff00", "error unexpected end in ACK\n"),
    ("020000ffffffffffffffff0000", "error malformed in ACK\n"),
    ("020500010202", "error malformed in ACK\n"),
    ("020500010201", "error unexpected end in ACK\n"),
    ("0203000004", "error malformed in ACK\n"),
    ("180102", "error malformed in NEW_CONNECTION_ID\n"),
    ("18050200", "error malformed in NEW_CONNECTION_ID\n"),
    ("18050215", "error malformed in NEW_CONNECTION_ID\n"),
    ("180502", "error unexpected end in NEW_CONNECTION_ID\n"),
    ("18050202aa", "error unexpected end in NEW_CONNECTION_ID\n"),
];

// Whether a run with such a source prints this, with at most that many bytes per call.
fn is_printed(input: &[u8], most: usize, clean: bool, text: &[u8]) -> bool {
    let source = &mut FailAt::new(input, most, u64::MAX);
    let sink = &mut FailAt::new(b"", most, u64::MAX);
    let outcome = run(Mode::Frames, source, sink);
    let wanted_status = if clean { 0 } else { 1 };
    outcome == Ok(clean) && status(&outcome) == wanted_status && sink.output() == text
}

pub fn is_row(line: &str, text: &str) -> bool {
    let clean = !text.contains("error");
    is_printed(format!("{line}\n").as_bytes(), usize::MAX, clean, text.as_bytes())
}

#[test]
fn each_row_by_itself() {
    for &(line, text) in ROWS {
        assert!(is_row(line, text), "at {line}");
    }
}

// Joins all lines.
fn join_lines(input: &mut String) -> bool {
    for &(line, _) in ROWS {
        if writeln!(input, "{line}").is_err() {
            return false;
        }
    }
    true
}

fn join_texts(wanted: &mut String) -> bool {
    for &(_, text) in ROWS {
        wanted.push_str(text);
    }
    true
}

fn are_printed(input: &mut String, wanted: &mut String) -> bool {
    join_lines(input) && join_texts(wanted) && is_printed(input.as_bytes(), 1, false, wanted.as_bytes())
}

#[test]
fn all_rows_together() {
    let input = &mut String::new();
    let wanted = &mut String::new();
    assert!(are_printed(input, wanted));
}
