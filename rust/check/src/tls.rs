//! Where the TLS messages of CRYPTO data begin (RFC 8446, section 4).

use quic_wire::frame::Crypto;

// A message begins with its type and its length, in one and three bytes.
const HEADER: usize = 4;

/// Where the next TLS message of a side begins in the CRYPTO data of a number space, as far as data came in order.
#[derive(Clone, Copy, Debug, Default)]
pub(crate) struct Messages {
    next: u64,
}

/// The messages that begin in a frame: their types, and where in its data they begin.
pub(crate) struct Begun<'a> {
    bytes: &'a [u8],
    offset: u64,
    messages: Messages,
}

impl Messages {
    /// Those that begin in a frame.
    pub(crate) fn begun_in<'a>(self, crypto: &Crypto<'a>) -> Begun<'a> {
        Begun { bytes: crypto.bytes, offset: crypto.offset, messages: self }
    }

    /// Takes a frame.
    pub(crate) fn take(&mut self, crypto: &Crypto<'_>) {
        let mut begun = self.begun_in(crypto);
        begun.by_ref().for_each(drop);
        *self = begun.messages;
    }
}

impl Iterator for Begun<'_> {
    type Item = (u8, usize);

    fn next(&mut self) -> Option<(u8, usize)> {
        let at = usize::try_from(self.messages.next.checked_sub(self.offset)?).ok()?;
        let [kind, a, b, c] = *self.bytes.get(at..at.checked_add(HEADER)?)?.first_chunk()?;
        self.messages.next += (HEADER as u64) + u64::from(u32::from_be_bytes([0, a, b, c]));
        Some((kind, at))
    }
}

#[cfg(test)]
mod tests {
    use super::*;

    fn types(messages: &mut Messages, offset: u64, bytes: &[u8]) -> Vec<(u8, usize)> {
        let crypto = Crypto { offset, bytes };
        let found = messages.begun_in(&crypto).collect();
        messages.take(&crypto);
        found
    }

    #[test]
    fn messages_of_several_frames() {
        let mut messages = Messages::default();
        // One of two bytes, and the front of one of three.
        assert_eq!(types(&mut messages, 0, &[4, 0, 0, 2, 9, 9, 24, 0, 0, 3, 9]), [(4, 0), (24, 6)]);
        // The same data again, what is left of them with another message, and one whose header is cut off.
        assert_eq!(types(&mut messages, 6, &[24, 0, 0, 3, 9]), []);
        assert_eq!(types(&mut messages, 11, &[9, 9, 13, 0, 0, 0, 5, 0, 0]), [(13, 2)]);
        assert_eq!(types(&mut messages, 17, &[5, 0, 0, 0]), [(5, 0)]);
        // Data behind a gap.
        assert_eq!(types(&mut messages, 30, &[24, 0, 0, 0]), []);
        assert_eq!(types(&mut messages, u64::MAX >> 2, &[24, 0, 0, 0]), []);
    }
}
