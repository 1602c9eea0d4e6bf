//! Files that gzip compressed, which come in pieces.

use flate2::write::MultiGzDecoder;
use std::io::Write;

/// Inflates a file, which may have several compressed parts, as `gzip` allows.
#[derive(Debug)]
pub struct Inflater(MultiGzDecoder<Vec<u8>>);

impl Default for Inflater {
    fn default() -> Inflater {
        Inflater(MultiGzDecoder::new(Vec::new()))
    }
}

impl Inflater {
    /// Takes the next bytes of the file. Returns what is in them, some 1,000 times as many at most, and whether all of
    /// them could be read: otherwise nothing may be taken after them.
    pub fn take(&mut self, piece: &[u8]) -> (Vec<u8>, bool) {
        let is_read = self.0.write_all(piece).and_then(|()| self.0.flush()).is_ok();
        if !is_read {
            // What came before the damage.
            let _ = self.0.try_finish();
        }
        (std::mem::take(self.0.get_mut()), is_read)
    }

    /// Whether what was taken ends with a whole part. Nothing may be taken after that.
    pub fn finish(&mut self) -> bool {
        self.0.try_finish().is_ok()
    }
}
