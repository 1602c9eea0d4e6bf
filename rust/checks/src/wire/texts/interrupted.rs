//! Readers and writers of std whose calls are interrupted once. Every error is a failure, also that of an interrupted
//! call: the run ends there, and no call is repeated.
use crate::host::prelude::*;
use crate::tested::quic_bench::FailAt;
use crate::tested::quic_text::{FromRead, Mode, RunError, ToWrite, run};
use std::io::{self, ErrorKind, Read, Write};

const LINES: &[u8] = b"0001\n01\n";

const TEXT: &[u8] = b"0..1 PADDING\n1..2 PING\n0..1 PING\n";

// Reads or writes one byte with each call, and is interrupted once, after that many calls.
#[derive()]
struct Interrupted<T> {
    inner: T,
    calls_before: u64,
    calls: u64,
}

impl<T> Interrupted<T> {
    fn new(inner: T, calls_before: u64) -> Interrupted<T> {
        Interrupted { inner, calls_before, calls: 0 }
    }

    // Counts a call, and returns how many of `len` bytes it moves.
    fn turn(&mut self, len: usize) -> io::Result<usize> {
        let is_now = self.calls == self.calls_before;
        self.calls = self.calls.wrapping_add(1);
        if is_now {
            return Err(io::Error::from(ErrorKind::Interrupted));
        }
        Ok(len.min(1))
    }
}

impl<T: Read> Read for Interrupted<T> {
    fn read(&mut self, buf: &mut [u8]) -> io::Result<usize> {
        let len = self.turn(buf.len())?.min(buf.len());
        self.inner.read(&mut buf[..len])
    }
}

impl<T: Write> Write for Interrupted<T> {
    fn write(&mut self, buf: &[u8]) -> io::Result<usize> {
        let len = self.turn(buf.len())?.min(buf.len());
        self.inner.write(&buf[..len])
    }

    fn flush(&mut self) -> io::Result<()> {
        self.turn(0)?;
        self.inner.flush()
    }
}

// What a run with the reader returns.
fn read_by(reader: &mut Interrupted<&[u8]>, sink: &mut FailAt<'_>) -> Result<bool, RunError> {
    let mut source = FromRead::new(reader);
    run(Mode::Frames, &mut source, sink)
}

fn is_not_read_again(calls_before: u64) -> bool {
    let mut reader = Interrupted::new(LINES, calls_before);
    let mut sink = FailAt::new(b"", usize::MAX, u64::MAX);
    read_by(&mut reader, &mut sink) == Err(RunError::Read)
        && reader.calls == calls_before.wrapping_add(1)
        && sink.calls() == 0
}

fn is_read_whole(reads: u64) -> bool {
    let mut reader = Interrupted::new(LINES, reads);
    let mut sink = FailAt::new(b"", usize::MAX, u64::MAX);
    read_by(&mut reader, &mut sink) == Ok(true) && reader.calls == reads && sink.output() == TEXT
}

#[test]
fn an_interrupted_read_is_a_failure() {
    let reads = LINES.len() as u64 + 1;
    for k in 0..reads {
        assert!(is_not_read_again(k), "at {k}");
    }
    assert!(is_read_whole(reads));
}

// What a run with the writer returns.
fn written_by(writer: &mut Interrupted<&mut Vec<u8>>) -> Result<bool, RunError> {
    let mut source = FailAt::new(LINES, usize::MAX, u64::MAX);
    let mut sink = ToWrite::new(writer);
    run(Mode::Frames, &mut source, &mut sink)
}

// The bytes of the calls before it are still there.
fn is_not_written_again(out: &mut Vec<u8>, calls_before: usize) -> bool {
    let mut writer = Interrupted::new(out, calls_before as u64);
    let outcome = written_by(&mut writer);
    let is_last = writer.calls == (calls_before as u64).wrapping_add(1);
    outcome == Err(RunError::Write) && is_last && Some(writer.inner.as_slice()) == TEXT.get(..calls_before)
}

fn is_written_whole(out: &mut Vec<u8>, calls: u64) -> bool {
    let mut writer = Interrupted::new(out, calls);
    written_by(&mut writer) == Ok(true) && writer.calls == calls && writer.inner.as_slice() == TEXT
}

// One call for each byte, and a flush.
#[test]
fn an_interrupted_write_or_flush_is_a_failure() {
    for k in 0..=TEXT.len() {
        let out = &mut Vec::new();
        assert!(is_not_written_again(out, k), "at {k}");
    }
    let out = &mut Vec::new();
    assert!(is_written_whole(out, TEXT.len() as u64 + 1));
}
