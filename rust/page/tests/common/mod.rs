//! What the tests of the module share.
#![allow(dead_code, reason = "each test uses a part")]

use quic_wire_page::engine::{Engine, Purpose};
use serde_json::Value;
use std::fs;
use std::path::{Path, PathBuf};

pub const FOLDER: &str = concat!(env!("CARGO_MANIFEST_DIR"), "/../../vectors/captures");

/// A capture with its key log, which may be empty.
pub struct Recorded {
    pub name: String,
    pub file: Vec<u8>,
    pub keys: Vec<u8>,
}

impl Recorded {
    pub fn of(path: &Path) -> Recorded {
        let name = path.file_name().unwrap().to_string_lossy().into_owned();
        let keys = fs::read(path.with_extension("keys")).unwrap_or_default();
        Recorded { name, file: fs::read(path).unwrap(), keys }
    }

    /// Read in pieces of a size.
    pub fn read(&self, purpose: Purpose, size: usize) -> Engine {
        let mut engine = Engine::new(purpose);
        engine.add_keylog(&self.keys);
        for piece in self.file.chunks(size) {
            engine.feed(piece).unwrap_or_else(|what| panic!("{}: {what}", self.name));
        }
        engine.finish();
        engine
    }
}

/// All files of a folder that are captures.
pub fn captures(folder: &str) -> Vec<Recorded> {
    let is_capture = |path: &PathBuf| path.extension().is_some_and(|end| end == "pcap" || end == "pcapng");
    let mut paths: Vec<_> = fs::read_dir(folder).unwrap().map(|entry| entry.unwrap().path()).collect();
    paths.retain(is_capture);
    paths.sort();
    assert!(!paths.is_empty(), "{folder} has no captures");
    paths.iter().map(|path| Recorded::of(path)).collect()
}

/// The objects in the lines of a text.
pub fn objects(text: &str) -> Vec<Value> {
    text.lines().map(|line| serde_json::from_str(line).unwrap()).collect()
}

pub fn object(text: &str) -> Value {
    serde_json::from_str(text).unwrap()
}

/// Numbers that look random.
pub struct Random(pub u64);

impl Random {
    pub fn next(&mut self) -> u64 {
        self.0 ^= self.0 << 13;
        self.0 ^= self.0 >> 7;
        self.0 ^= self.0 << 17;
        self.0
    }

    pub fn below(&mut self, end: usize) -> usize {
        (self.next() % end.max(1) as u64) as usize
    }
}
