//! Runs with a source and a sink in memory: text in several writes, ends of input, and failures at each call.
use crate::host::prelude::*;
use crate::tested::quic_bench::FailAt;
use crate::tested::quic_text::{FromRead, Mode, RunError, ToWrite, mode_of, run, status};
use std::io::{BufWriter, Cursor};

const NEVER: u64 = u64::MAX;

const LINES: &[u8] = b"0001\r\n\nzz\n40\n0100";

const TEXT: &[u8] =
    b"0..1 PADDING\n1..2 PING\nerror packet payload is empty\nerror not hexadecimal\nerror unexpected end\n\
    0..1 PING\n1..2 PADDING\n";

// The arguments of a mode, lines that it reads, and what it prints for them.
type ModeRow = (&'static [&'static str], &'static [u8], &'static [u8]);

const EACH_MODE: &[ModeRow] = &[
    (&["frames"], LINES, TEXT),
    (
        &["strict"],
        b"014000\n0a4000400161\n",
        b"0..1 PING\nerror frame type not in shortest form in PADDING\n0..6 STREAM\n",
    ),
    (&["canon"], b"401c400a40004003626164\n4021", b"1c0a0003626164\nerror invalid frame ID in <unknown 21>\n"),
    (
        &["datagram", "0"],
        b"e000000001000002aabb41\ne000000001000002aabb\n00",
        b"0..10 handshake dst - src - version 00000001\n10..11 short dst -\n\
        0..10 handshake dst - src - version 00000001\nerror fixed bit unset\n",
    ),
    (&["params", "server"], b"0b027fff\n0300", b"max_ack_delay 16383\nok\nerror malformed\n"),
];

// Helpers own their sources and sinks, and return whether every fact held.

// Whether a run with such a source and that sink ends so, and the sink then has this text.
fn prints(input: &[u8], most: usize, sink: &mut FailAt<'_>, clean: bool, text: &[u8]) -> bool {
    let source = &mut FailAt::new(input, most, NEVER);
    let outcome = run(Mode::Frames, source, sink);
    let wanted_status = if clean { 0 } else { 1 };
    outcome == Ok(clean) && status(&outcome) == wanted_status && sink.output() == text
}

#[test]
fn prints_each_line() {
    let sink = &mut FailAt::new(b"", usize::MAX, NEVER);
    assert!(prints(LINES, usize::MAX, sink, false, TEXT));
}

#[test]
fn no_byte_is_no_line_and_a_line_feed_is_one() {
    let sink = &mut FailAt::new(b"", 1, NEVER);
    assert!(prints(b"", 1, sink, true, b""));
    let text = b"error packet payload is empty\n";
    assert!(prints(b"\n", 1, sink, false, text));
}

fn prints_by_one_byte(row: &ModeRow) -> bool {
    let &(words, lines, text) = row;
    let Some(mode) = mode_of(words) else {
        return false;
    };
    let source = &mut FailAt::new(lines, 1, NEVER);
    let sink = &mut FailAt::new(b"", 1, NEVER);
    run(mode, source, sink).is_ok() && sink.output() == text
}

#[test]
fn one_byte_a_call_is_the_whole_text() {
    for row in EACH_MODE {
        assert!(prints_by_one_byte(row));
    }
}

fn moved_large_pieces(source: &FailAt<'_>, sink: &FailAt<'_>) -> bool {
    source.longest() >= 16384 && source.calls() <= 4 && sink.longest() >= 16384 && sink.calls() <= 9
}

fn prints_many_lines(input: &[u8]) -> bool {
    let source = &mut FailAt::new(input, usize::MAX, NEVER);
    let sink = &mut FailAt::new(b"", usize::MAX, NEVER);
    run(Mode::Frames, source, sink) == Ok(true) && sink.output().len() == 5000 * 23 && moved_large_pieces(source, sink)
}

fn repeats_a_line() -> bool {
    prints_many_lines("0001\n".repeat(5000).as_bytes())
}

// The source and the sink are given room for at least 16 KiB, and all that was read comes before all that is written.
#[test]
fn moves_large_pieces() {
    assert!(repeats_a_line());
}

fn is_failure(outcome: Result<bool, RunError>, error: RunError) -> bool {
    outcome == Err(error) && status(&outcome) == 3
}

// Whether a run ends at the read that fails, and nothing is written.
fn ends_at_the_read(mode: Mode, lines: &[u8], calls_before: u64) -> bool {
    let source = &mut FailAt::new(lines, 1, calls_before);
    let sink = &mut FailAt::new(b"", 1, NEVER);
    is_failure(run(mode, source, sink), RunError::Read)
        && sink.calls() == 0
        && source.calls() == calls_before.wrapping_add(1)
}

// Whether there are exactly that many reads.
fn ends_behind_reads(mode: Mode, lines: &[u8], text: &[u8], reads: u64) -> bool {
    let source = &mut FailAt::new(lines, 1, reads);
    let sink = &mut FailAt::new(b"", 1, NEVER);
    run(mode, source, sink).is_ok() && source.calls() == reads && sink.output() == text
}

fn fails_at_each_read(row: &ModeRow) -> bool {
    let &(words, lines, text) = row;
    let Some(mode) = mode_of(words) else {
        return false;
    };
    let reads = lines.len() as u64 + 1;
    for k in 0..reads {
        if !ends_at_the_read(mode, lines, k) {
            return false;
        }
    }
    ends_behind_reads(mode, lines, text, reads)
}

#[test]
fn each_read_fails_in_turn() {
    for row in EACH_MODE {
        assert!(fails_at_each_read(row));
    }
}

// Whether a run ends at the write that fails, and what was written is a beginning of the text.
fn ends_at_the_write(mode: Mode, lines: &[u8], text: &[u8], calls_before: usize) -> bool {
    let source = &mut FailAt::new(lines, 1, NEVER);
    let sink = &mut FailAt::new(b"", 10, calls_before as u64);
    is_failure(run(mode, source, sink), RunError::Write)
        && text.starts_with(sink.output())
        && sink.output().len() == text.len().min(calls_before.saturating_mul(10))
}

// Whether there are exactly that many writes and flushes.
fn ends_behind_calls(mode: Mode, lines: &[u8], calls: u64) -> bool {
    let source = &mut FailAt::new(lines, 1, NEVER);
    let sink = &mut FailAt::new(b"", 10, calls);
    run(mode, source, sink).is_ok() && sink.calls() == calls
}

fn fails_at_each_write(row: &ModeRow) -> bool {
    let &(words, lines, text) = row;
    let Some(mode) = mode_of(words) else {
        return false;
    };
    let writes = text.len().div_ceil(10);
    for k in 0..writes + 1 {
        if !ends_at_the_write(mode, lines, text, k) {
            return false;
        }
    }
    ends_behind_calls(mode, lines, writes as u64 + 1)
}

// Ten bytes a call: as many writes as needed, and one flush, which is the last call.
#[test]
fn each_write_and_the_flush_fail_in_turn() {
    for row in EACH_MODE {
        assert!(fails_at_each_write(row));
    }
}

fn is_printed_into(text: &mut Vec<u8>) -> bool {
    let mut source = FromRead::new(LINES);
    let mut sink = ToWrite::new(text);
    run(Mode::Frames, &mut source, &mut sink) == Ok(false)
}

fn is_the_text(text: &mut Vec<u8>) -> bool {
    is_printed_into(text) && text.as_slice() == TEXT
}

#[test]
fn over_what_std_reads_and_writes() {
    assert!(is_the_text(&mut Vec::new()));
}

fn is_too_little(place: &mut [u8]) -> bool {
    let mut source = FromRead::new(LINES);
    let mut sink = ToWrite::new(Cursor::new(place));
    run(Mode::Frames, &mut source, &mut sink) == Err(RunError::Write)
}

fn is_filled(room: usize) -> bool {
    let mut place = [0u8; 200];
    let Some(place) = place.get_mut(..room) else {
        return false;
    };
    is_too_little(place) && TEXT.starts_with(place)
}

// A writer that accepts nothing more has failed.
#[test]
fn a_full_writer_is_a_failed_write() {
    assert!(is_filled(0));
    assert!(is_filled(10));
    assert!(is_filled(TEXT.len() - 1));
}

// Arguments that select no mode.
const NO_MODES: &[&[&str]] =
    &[&[], &["frames", "frames"], &["Frames"], &["canonical"], &["datagram"], &["params", "peer"]];

#[test]
fn modes() {
    assert_eq!(mode_of(&["frames"]), Some(Mode::Frames));
    for words in NO_MODES {
        assert_eq!(mode_of(words), None);
    }
    assert!(mode_of(&["datagram", "8"]).is_some());
    assert!(mode_of(&["params", "client"]).is_some());
    assert_eq!(status(&Err(RunError::OutOfMemory)), 3);
}

fn fails_at_its_end(writer: BufWriter<Cursor<&mut [u8]>>) -> bool {
    let source = &mut FailAt::new(b"01\n", usize::MAX, NEVER);
    let mut sink = ToWrite::new(writer);
    is_failure(run(Mode::Frames, source, &mut sink), RunError::Write)
}

fn fails_behind_a_buffer(place: &mut [u8]) -> bool {
    fails_at_its_end(BufWriter::new(Cursor::new(place)))
}

// What is written waits in the buffer until it is passed on, and there is no room for it then.
#[test]
fn a_last_write_that_fails_is_seen() {
    assert!(fails_behind_a_buffer(&mut [0; 3]));
}

fn is_the_longest(text: &[u8]) -> bool {
    text.starts_with(b"0..1 PING\n1..2 PING\n") && text.ends_with(b"\n65526..65527 PING\n")
}

fn prints_the_longest(input: &[u8]) -> bool {
    let source = &mut FailAt::new(input, usize::MAX, NEVER);
    let sink = &mut FailAt::new(b"", usize::MAX, NEVER);
    run(Mode::Frames, source, sink) == Ok(true) && is_the_longest(sink.output()) && sink.longest() < 16384 + 20
}

fn repeats_a_ping() -> bool {
    prints_the_longest("01".repeat(65527).as_bytes())
}

// A line of the longest payload that a datagram can hold. Its text is passed to the sink before the line ends.
#[test]
fn the_longest_payload() {
    assert!(repeats_a_ping());
}

// As the documentation of each variant says.
const RUN_ERRORS: &[(RunError, &str)] =
    &[(RunError::Read, "read failed"), (RunError::Write, "write failed"), (RunError::OutOfMemory, "out of memory")];

#[test]
fn texts_of_errors_of_runs() {
    for (error, text) in RUN_ERRORS {
        assert_eq!(error.to_string(), *text);
    }
}
