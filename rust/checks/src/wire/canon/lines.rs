//! Lines of the modes `canon` and `strict`, through `run`.
use crate::host::prelude::*;
use crate::host::test::Fail;
use crate::tested::quic_bench::FailAt;
use crate::tested::quic_text::{Mode, mode_of, run, status};

// A line, and what `canon` prints for it.
pub const CANON: &[(&str, &str)] = &[
    ("40000a000161", "00080061\n"),
    ("0a0000", "0800\n"),
    ("0c000061", "080061\n"),
    ("3100", "30\n"),
    ("0a000108", "080008\n"),
    // Not the last frame, so the length stays.
    ("0a00016101", "0a00016101\n"),
    ("02400500004005", "0205000005\n"),
    ("401c400a40004003626164", "1c0a0003626164\n"),
    ("0b00016131026869", "0b000161306869\n"),
    ("0e0000016101", "0a00016101\n"),
    ("0f40004000400161", "090061\n"),
    ("40030000000040010000", "0300000000010000\n"),
    ("4021", "error invalid frame ID in <unknown 21>\n"),
    ("", "error packet payload is empty\n"),
    ("0", "error not hexadecimal\n"),
];

// The same for `strict`.
pub const STRICT: &[(&str, &str)] = &[
    ("40000a000161", "error frame type not in shortest form in PADDING\n"),
    ("014000", "0..1 PING\nerror frame type not in shortest form in PADDING\n"),
    ("4021", "error frame type not in shortest form in <unknown 21>\n"),
    ("40", "error unexpected end\n"),
    ("0a4000400161", "0..6 STREAM\n"),
    ("40af2a148000c35001", "0..9 ACK_FREQUENCY\n"),
    ("", "error packet payload is empty\n"),
    ("0", "error not hexadecimal\n"),
];

#[test]
fn each_row_by_itself() {
    for (mode, rows) in [(Mode::Canon, CANON), (Mode::Strict, STRICT)] {
        for &(line, text) in rows {
            let input = format!("{line}\n");
            let mut source = FailAt::new(input.as_bytes(), usize::MAX, u64::MAX);
            let mut sink = FailAt::new(b"", usize::MAX, u64::MAX);
            let outcome = run(mode, &mut source, &mut sink);
            let clean = !text.contains("error");
            assert_eq!(outcome, Ok(clean), "at {line}");
            assert_eq!(status(&outcome), if clean { 0 } else { 1 });
            assert_eq!(sink.output(), text.as_bytes(), "at {line}");
        }
    }
}

#[test]
fn all_rows_together() -> Result<(), Fail> {
    for (mode, rows) in [(Mode::Canon, CANON), (Mode::Strict, STRICT)] {
        let mut input = String::new();
        let mut wanted = String::new();
        for &(line, text) in rows {
            writeln!(input, "{line}")?;
            wanted.push_str(text);
        }
        let mut source = FailAt::new(input.as_bytes(), 1, u64::MAX);
        let mut sink = FailAt::new(b"", 1, u64::MAX);
        let outcome = run(mode, &mut source, &mut sink);
        assert_eq!(outcome, Ok(false));
        assert_eq!(sink.output(), wanted.as_bytes());
    }
    Ok(())
}

#[test]
fn words_of_the_modes() {
    assert_eq!(mode_of(&["canon"]), Some(Mode::Canon));
    assert_eq!(mode_of(&["strict"]), Some(Mode::Strict));
    assert_eq!(mode_of(&["canonical"]), None);
    assert_eq!(mode_of(&["strict", "frames"]), None);
}
