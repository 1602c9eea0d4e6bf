//! The bytes of a capture, with what happens between two pieces of them.
use super::screen::Screen;
use std::cell::Cell;
use std::ffi::OsStr;
use std::fs::File;
use std::io::{self, Read};

const MEGABYTE: u64 = 1_000_000;

/// A file or standard input. It ends if nothing more can be written.
pub struct Source<'s> {
    from: Box<dyn Read>,
    screen: &'s Screen,
    bytes: &'s Cell<u64>,
    name: String,
    /// How many bytes there are, if that is known.
    total: Option<u64>,
}

impl<'s> Source<'s> {
    /// Opens a file; `-` is standard input. How many bytes were read is counted.
    pub fn open(file: &OsStr, screen: &'s Screen, bytes: &'s Cell<u64>) -> io::Result<Source<'s>> {
        let name = file.to_string_lossy().into_owned();
        if file == "-" {
            return Ok(Source { from: Box::new(io::stdin().lock()), screen, bytes, name, total: None });
        }
        let file = File::open(file)?;
        let total = file.metadata().ok().filter(|what| what.is_file()).map(|what| what.len());
        Ok(Source { from: Box::new(file), screen, bytes, name, total })
    }

    /// Whether more bytes may come at any time.
    pub fn is_live(&self) -> bool {
        self.total.is_none()
    }

    fn progress(&self) -> String {
        let Source { bytes, name, total, .. } = self;
        let read = bytes.get() / MEGABYTE;
        match total {
            Some(total) => format!("{name}: {read} of {} MB", total / MEGABYTE),
            None => format!("{name}: {read} MB"),
        }
    }
}

impl Read for Source<'_> {
    fn read(&mut self, buffer: &mut [u8]) -> io::Result<usize> {
        if self.screen.has_failed() {
            return Ok(0);
        }
        if self.is_live() {
            self.screen.flush();
        }
        self.screen.tick(self.progress());
        let len = self.from.read(buffer)?;
        self.bytes.set(self.bytes.get() + len as u64);
        Ok(len)
    }
}
