//! Vectors whose growth can fail.
use super::alloc::AllocError;
use ::alloc::vec::Vec;

/// The methods of a vector that return an error if memory runs out. The vector then is as it was.
pub trait VecExt<T>: Sized {
    /// An empty vector with room.
    fn kit_with_capacity(capacity: usize) -> Result<Self, AllocError>;
    /// `reserve`.
    fn kit_reserve(&mut self, additional: usize) -> Result<(), AllocError>;
    /// `push`.
    fn kit_push(&mut self, value: T) -> Result<(), AllocError>;
    /// `insert`.
    fn kit_insert(&mut self, index: usize, value: T) -> Result<(), AllocError>;
    /// `extend_from_slice`.
    fn kit_extend_from_slice(&mut self, slice: &[T]) -> Result<(), AllocError>
    where
        T: Copy;
    /// `resize`.
    fn kit_resize(&mut self, len: usize, value: T) -> Result<(), AllocError>
    where
        T: Copy;
    /// `push`, after room was reserved.
    fn push_reserved(&mut self, value: T);
}

impl<T> VecExt<T> for Vec<T> {
    fn kit_with_capacity(capacity: usize) -> Result<Self, AllocError> {
        let mut vec = Vec::new();
        vec.try_reserve_exact(capacity)?;
        Ok(vec)
    }

    #[inline]
    fn kit_reserve(&mut self, additional: usize) -> Result<(), AllocError> {
        Ok(self.try_reserve(additional)?)
    }

    #[inline]
    fn kit_push(&mut self, value: T) -> Result<(), AllocError> {
        if self.len() == self.capacity() {
            self.try_reserve(1)?;
        }
        self.push(value);
        Ok(())
    }

    fn kit_insert(&mut self, index: usize, value: T) -> Result<(), AllocError> {
        self.try_reserve(1)?;
        self.insert(index, value);
        Ok(())
    }

    #[inline]
    fn kit_extend_from_slice(&mut self, slice: &[T]) -> Result<(), AllocError>
    where
        T: Copy,
    {
        self.try_reserve(slice.len())?;
        self.extend_from_slice(slice);
        Ok(())
    }

    fn kit_resize(&mut self, len: usize, value: T) -> Result<(), AllocError>
    where
        T: Copy,
    {
        self.try_reserve(len.saturating_sub(self.len()))?;
        self.resize(len, value);
        Ok(())
    }

    #[inline]
    fn push_reserved(&mut self, value: T) {
        self.push(value);
    }
}

/// A clone that returns an error if memory runs out.
pub trait CloneExt: Sized {
    /// `clone`.
    fn kit_clone(&self) -> Result<Self, AllocError>;
}
