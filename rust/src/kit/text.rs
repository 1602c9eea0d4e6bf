//! Strings whose growth can fail.
use super::alloc::AllocError;
use super::vec::CloneExt;
use ::alloc::string::String;

/// What strings lack.
pub trait StringExt: Sized {
    /// `String::from`.
    fn kit_from_str(text: &str) -> Result<Self, AllocError>;
}

impl StringExt for String {
    fn kit_from_str(text: &str) -> Result<String, AllocError> {
        let mut new = String::new();
        new.try_reserve_exact(text.len())?;
        new.push_str(text);
        Ok(new)
    }
}

impl CloneExt for String {
    fn kit_clone(&self) -> Result<String, AllocError> {
        String::kit_from_str(self)
    }
}
