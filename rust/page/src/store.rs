//! Bytes that are kept, up to a bound.

const CHUNK: usize = 1 << 20;

/// Where bytes are in a [`Store`].
#[derive(Clone, Copy, Debug, PartialEq, Eq)]
pub struct Kept {
    chunk: u32,
    start: u32,
    len: u32,
}

/// Bytes in chunks, so that none moves when there are more.
pub struct Store {
    chunks: Vec<Vec<u8>>,
    /// How many bytes of memory it may have.
    most: usize,
    taken: usize,
}

impl Store {
    /// One that keeps at most so many bytes.
    pub fn new(most: usize) -> Store {
        Store { chunks: Vec::new(), most, taken: 0 }
    }

    /// Keeps bytes. `None` if there is no room for them.
    pub fn add(&mut self, bytes: &[u8]) -> Option<Kept> {
        let has_room = |chunk: &Vec<u8>| chunk.capacity() - chunk.len() >= bytes.len();
        if !self.chunks.last().is_some_and(has_room) {
            let size = bytes.len().max(CHUNK);
            self.taken = self.taken.checked_add(size).filter(|taken| *taken <= self.most)?;
            self.chunks.push(Vec::with_capacity(size));
        }
        let chunk = u32::try_from(self.chunks.len() - 1).ok()?;
        let last = self.chunks.last_mut()?;
        let (start, len) = (u32::try_from(last.len()).ok()?, u32::try_from(bytes.len()).ok()?);
        last.extend_from_slice(bytes);
        Some(Kept { chunk, start, len })
    }

    /// The bytes at a place of this store.
    pub fn get(&self, Kept { chunk, start, len }: Kept) -> &[u8] {
        &self.chunks[chunk as usize][start as usize..][..len as usize]
    }
}

#[cfg(test)]
mod tests {
    use super::*;

    #[test]
    fn bytes_are_kept_up_to_the_bound() {
        let mut store = Store::new(2 * CHUNK);
        let (one, two) = (vec![1; CHUNK - 1], vec![2; 3]);
        let places = [store.add(&one), store.add(&two), store.add(&[])].map(Option::unwrap);
        assert_eq!(places.map(|place| store.get(place)), [&one[..], &two[..], &[]]);
        assert_eq!(store.add(&vec![3; CHUNK]), None, "a third chunk");
        assert!(store.add(&[4]).is_some(), "what fits is kept afterwards too");
    }
}
