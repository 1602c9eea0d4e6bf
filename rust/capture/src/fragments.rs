//! IP packets that came in fragments (RFC 791, section 3.2; RFC 8200, section 4.5).

use crate::net::Fragment;
use std::collections::VecDeque;
use std::net::IpAddr;

/// How many packets wait for further fragments at most. The oldest is forgotten for a new one.
const MOST_WAITING: usize = 64;

/// The most bytes of an IP packet.
const MOST_BYTES: usize = 65_535;

/// Whose fragment it is: its addresses, protocol and id.
pub(crate) type Key = (IpAddr, IpAddr, u8, u32);

struct Waiting {
    key: Key,
    // Pieces by their offsets, without a common byte.
    pieces: Vec<(usize, Vec<u8>)>,
    end: Option<usize>,
}

impl Waiting {
    // Takes a fragment, and returns whether the packet can still become whole.
    fn take(&mut self, fragment: Fragment, bytes: &[u8]) -> bool {
        let (begin, end) = (fragment.offset, fragment.offset + bytes.len());
        let is_last = !fragment.has_more;
        let last_end = self.pieces.last().map_or(0, |(offset, piece)| offset + piece.len());
        let is_beyond = self.end.is_some_and(|whole| end > whole || (is_last && end != whole));
        if end > MOST_BYTES || is_beyond || (is_last && end < last_end) {
            return false;
        }
        if is_last {
            self.end = Some(end);
        }
        match self.pieces.binary_search_by_key(&begin, |(offset, _)| *offset) {
            // The same again.
            Ok(place) => self.pieces[place].1 == bytes,
            Err(place) => {
                let is_free = self.pieces.get(place).is_none_or(|(offset, _)| end <= *offset)
                    && (place == 0
                        || self.pieces.get(place - 1).is_none_or(|(from, piece)| from + piece.len() <= begin));
                if is_free && !bytes.is_empty() {
                    self.pieces.insert(place, (begin, bytes.to_vec()));
                }
                is_free
            }
        }
    }

    fn is_whole(&self) -> bool {
        let len: usize = self.pieces.iter().map(|(_, piece)| piece.len()).sum();
        self.end == Some(len)
    }
}

/// The packets whose fragments have come in part.
#[derive(Default)]
pub(crate) struct Fragments {
    waiting: VecDeque<Waiting>,
}

impl Fragments {
    /// Takes a fragment, and returns the packet's payload if it is whole now. A packet whose fragments overlap is
    /// forgotten (RFC 5722, section 4).
    pub(crate) fn take(&mut self, key: Key, fragment: Fragment, bytes: &[u8]) -> Option<Vec<u8>> {
        let place = self.waiting.iter().position(|one| one.key == key).unwrap_or_else(|| {
            if self.waiting.len() == MOST_WAITING {
                self.waiting.pop_front();
            }
            self.waiting.push_back(Waiting { key, pieces: Vec::new(), end: None });
            self.waiting.len() - 1
        });
        if !self.waiting[place].take(fragment, bytes) {
            self.waiting.remove(place);
            return None;
        }
        if !self.waiting[place].is_whole() {
            return None;
        }
        let pieces = self.waiting.remove(place)?.pieces;
        Some(pieces.into_iter().flat_map(|(_, piece)| piece).collect())
    }
}
