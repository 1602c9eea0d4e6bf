//! Prints the frames of payloads, given as lines of hexadecimal, as `quic-show frames` does.
use quic_wire::frame::Iter;
use std::io::{self, BufRead, Write};

fn unhex(line: &str) -> Option<Vec<u8>> {
    let digits = line.chars().map(|c| c.to_digit(16)).collect::<Option<Vec<_>>>()?;
    let pairs = digits.chunks_exact(2);
    pairs.remainder().is_empty().then(|| pairs.map(|pair| (pair[0] * 16 + pair[1]) as u8).collect())
}

fn print(payload: &[u8], out: &mut impl Write) -> io::Result<()> {
    let mut frames = match Iter::new(payload) {
        Ok(frames) => frames,
        Err(empty) => return writeln!(out, "error {}", empty.reason),
    };
    let mut start = 0;
    while let Some(item) = frames.next() {
        match item {
            Ok(frame) => writeln!(out, "{start}..{} {}", frames.offset(), frame.ty())?,
            Err(error) => writeln!(out, "error {error}")?,
        }
        start = frames.offset();
    }
    Ok(())
}

fn main() -> io::Result<()> {
    let mut out = io::BufWriter::new(io::stdout().lock());
    for line in io::stdin().lock().lines() {
        match unhex(&line?) {
            Some(payload) => print(&payload, &mut out)?,
            None => writeln!(out, "error not hexadecimal")?,
        }
    }
    out.flush()
}
