//! Every beginning of the worked payloads' bytes is read, through `run`.
use super::beginnings_answers::BEGINNINGS;
use super::lines::is_row;
use crate::host::prelude::*;

// Makes a line of each part.
fn join_parts(wanted: &mut String, parts: &str) -> bool {
    for part in parts.split("|") {
        if writeln!(wanted, "{part}").is_err() {
            return false;
        }
    }
    true
}

fn is_printed(wanted: &mut String, row: &str) -> bool {
    let Some((bytes, parts)) = row.split_once("|") else {
        return false;
    };
    join_parts(wanted, parts) && is_row(bytes, wanted.as_str())
}

// A frame that is cut off within its fields is an unexpected end, unless it extends to the end of the payload.
#[test]
fn every_beginning() {
    for row in BEGINNINGS.lines() {
        let wanted = &mut String::new();
        assert!(is_printed(wanted, row), "at {row}");
    }
}
