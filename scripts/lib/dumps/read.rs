//! Reads texts from standard input, each behind its length in four bytes, by the modules of `quic-wire` next to this
//! file, and prints a line for each: its pieces.
#![allow(dead_code)]
mod dump;
mod input;
mod plain;

use std::io::{self, BufWriter, Read, Write};

fn main() -> io::Result<()> {
    let mut source = io::stdin().lock();
    let mut out = BufWriter::new(io::stdout().lock());
    let mut len = [0; 4];
    while source.read_exact(&mut len).is_ok() {
        let mut text = vec![0; u32::from_le_bytes(len) as usize];
        source.read_exact(&mut text)?;
        for piece in input::Pieces::new(&text[..], input::Plain::Hexadecimal) {
            let input::Piece { line, bytes } = piece?;
            write!(out, "{line} ")?;
            match bytes {
                Ok(bytes) => bytes.iter().try_for_each(|byte| write!(out, "{byte:02x}"))?,
                Err(what) => write!(out, "error {}", what.trim_end_matches("; base64 is read with --base64"))?,
            }
            out.write_all(b"\t")?;
        }
        out.write_all(b"\n")?;
    }
    out.flush()
}
