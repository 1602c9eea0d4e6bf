//! Files.
use super::rt::HostRuntime;
use std::io;
use std::path::Path;

/// A file that can be opened.
pub struct File;

impl File {
    /// Opens a file for reading.
    pub fn open<P: AsRef<Path>>(_: &HostRuntime, path: P) -> io::Result<std::fs::File> {
        std::fs::File::open(path)
    }
}

/// The text of a file.
pub fn read_to_string<P: AsRef<Path>>(_: &HostRuntime, path: P) -> io::Result<String> {
    std::fs::read_to_string(path)
}
