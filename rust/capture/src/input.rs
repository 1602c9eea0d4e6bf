//! Captures from files and standard input, also ones that gzip compressed.

use crate::capture::{Capture, Item};
use crate::file::FileError;
use crate::keylog::KeyLog;
use std::fmt;
use std::io::{self, Read};

const PIECE: usize = 1 << 16;
const GZIP: [u8; 2] = [0x1f, 0x8b];

/// Why a capture can't be read on.
#[derive(Debug)]
#[non_exhaustive]
pub enum InputError {
    /// Its bytes can't be read; also that compressed ones are damaged or end too early.
    Io(io::Error),
    /// It isn't a capture, or lies.
    File(FileError),
    /// It is compressed by gzip, and the feature `gzip` is off.
    Compressed,
}

impl fmt::Display for InputError {
    fn fmt(&self, f: &mut fmt::Formatter<'_>) -> fmt::Result {
        match self {
            InputError::Io(error) => error.fmt(f),
            InputError::File(error) => error.fmt(f),
            InputError::Compressed => f.write_str("the file is compressed by gzip"),
        }
    }
}

impl std::error::Error for InputError {}

impl From<io::Error> for InputError {
    fn from(error: io::Error) -> InputError {
        InputError::Io(error)
    }
}

impl From<FileError> for InputError {
    fn from(error: FileError) -> InputError {
        InputError::File(error)
    }
}

/// Reads a source to its end, and passes on what it has as soon as it is there.
///
/// ```
/// use quic_wire_capture::capture::Capture;
/// use quic_wire_capture::input::read;
/// let (mut capture, mut items) = (Capture::default(), 0);
/// let error = read(&b"no capture"[..], &mut capture, |_| items += 1).unwrap_err();
/// assert_eq!((error.to_string().as_str(), items), ("the file is neither pcap nor pcapng", 0));
/// ```
///
/// # Errors
///
/// If the source can't be read, or isn't a capture. What came before was passed on.
pub fn read(mut source: impl Read, capture: &mut Capture, each: impl FnMut(Item<'_>)) -> Result<(), InputError> {
    let mut front = Vec::new();
    source.by_ref().take(GZIP.len() as u64).read_to_end(&mut front)?;
    let is_compressed = front == GZIP;
    let source = io::Cursor::new(front).chain(source);
    if !is_compressed {
        return read_plain(source, capture, each);
    }
    #[cfg(feature = "gzip")]
    return read_plain(flate2::read::MultiGzDecoder::new(source), capture, each);
    #[cfg(not(feature = "gzip"))]
    Err(InputError::Compressed)
}

/// Reads the key logs of a source to its end, and nothing else. A key log opens only packets that come after it: who has
/// a file with key logs behind their packets reads it twice, first for the key logs.
///
/// # Errors
///
/// As [`read`]. The key logs before are in the log.
pub fn read_secrets(source: impl Read, log: &mut KeyLog) -> Result<(), InputError> {
    read(source, &mut Capture::default(), |item| {
        if let Item::Secrets(text) = item {
            log.add(text);
        }
    })
}

fn read_plain(mut source: impl Read, capture: &mut Capture, mut each: impl FnMut(Item<'_>)) -> Result<(), InputError> {
    let mut piece = vec![0; PIECE];
    loop {
        let len = match source.read(&mut piece) {
            Ok(0) => return Ok(()),
            Ok(len) => len,
            Err(error) if error.kind() == io::ErrorKind::Interrupted => continue,
            Err(error) => return Err(error.into()),
        };
        capture.feed(&piece[..len]);
        while let Some(item) = capture.next()? {
            each(item);
        }
    }
}
