//! The crate `smallvec`, with the number of inline items as a parameter, and growth that can fail.
use super::alloc::AllocError;
use std::fmt;
use std::ops::Range;

/// A vector whose first `N` items need no allocation.
pub struct SmallVec<T, const N: usize>(::smallvec::SmallVec<[T; N]>);

impl<T, const N: usize> SmallVec<T, N> {
    /// An empty vector.
    #[inline]
    pub fn new() -> Self {
        SmallVec(::smallvec::SmallVec::new())
    }

    /// An empty vector with room for `capacity` items.
    pub fn with_capacity(capacity: usize) -> Result<Self, AllocError> {
        let mut new = Self::new();
        new.kit_reserve(capacity)?;
        Ok(new)
    }

    /// `reserve`.
    #[inline]
    pub fn kit_reserve(&mut self, additional: usize) -> Result<(), AllocError> {
        self.0.try_reserve(additional).map_err(|_| AllocError)
    }

    /// `push`.
    #[inline]
    pub fn kit_push(&mut self, value: T) -> Result<(), AllocError> {
        self.kit_reserve(1)?;
        self.0.push(value);
        Ok(())
    }

    /// `push`, after room was reserved.
    #[inline]
    pub fn push_reserved(&mut self, value: T) {
        self.0.push(value);
    }

    /// `insert`.
    pub fn kit_insert(&mut self, index: usize, value: T) -> Result<(), AllocError> {
        self.kit_reserve(1)?;
        self.0.insert(index, value);
        Ok(())
    }

    /// Removes the item at `index`, and returns it.
    pub fn remove(&mut self, index: usize) -> T {
        self.0.remove(index)
    }

    /// Removes a range of items.
    pub fn drain(&mut self, range: Range<usize>) {
        self.0.drain(range);
    }

    /// How many items there are.
    #[inline]
    pub fn len(&self) -> usize {
        self.0.len()
    }

    /// Whether there is none.
    #[inline]
    pub fn is_empty(&self) -> bool {
        self.0.is_empty()
    }

    /// The items.
    #[inline]
    pub fn as_slice(&self) -> &[T] {
        &self.0
    }

    /// The items, to change them.
    #[inline]
    pub fn as_mut_slice(&mut self) -> &mut [T] {
        &mut self.0
    }
}

/// The items, as a slice prints them.
impl<T: fmt::Debug, const N: usize> fmt::Debug for SmallVec<T, N> {
    fn fmt(&self, f: &mut fmt::Formatter<'_>) -> fmt::Result {
        self.0.fmt(f)
    }
}
