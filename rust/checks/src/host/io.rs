//! A cursor to which bytes can be written.
use crate::kit::alloc::AllocError;
use crate::kit::bytes::BufMut;

/// A cursor over a slice.
pub struct Cursor<'a> {
    room: &'a mut [u8],
    at: usize,
}

impl<'a> Cursor<'a> {
    /// A cursor at the slice's beginning.
    pub fn new(room: &'a mut [u8]) -> Cursor<'a> {
        Cursor { room, at: 0 }
    }

    /// How many bytes were written.
    pub fn position(&self) -> u64 {
        self.at as u64
    }
}

impl BufMut for Cursor<'_> {
    fn kit_make_room(&mut self, additional: usize) -> Result<(), AllocError> {
        if additional <= self.room.len() - self.at { Ok(()) } else { Err(AllocError) }
    }

    fn put_slice(&mut self, src: &[u8]) -> Result<(), AllocError> {
        self.kit_make_room(src.len())?;
        self.room[self.at..self.at + src.len()].copy_from_slice(src);
        self.at += src.len();
        Ok(())
    }
}
