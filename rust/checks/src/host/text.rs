//! Strings whose growth can fail, and what iterators and writers have in Rattle.
use crate::kit::alloc::AllocError;
use crate::kit::vec::VecExt;
use std::fmt;
use std::io::{BufWriter, Write};

/// The methods of a string that return an error if memory runs out.
pub trait TextExt {
    /// `push_str`.
    fn kit_push_str(&mut self, text: &str) -> Result<(), AllocError>;
    /// `push`.
    fn kit_push(&mut self, c: char) -> Result<(), AllocError>;
    /// `reserve`.
    fn kit_reserve(&mut self, additional: usize) -> Result<(), AllocError>;
    /// What `write!` calls.
    fn write_fmt(&mut self, what: fmt::Arguments<'_>) -> Result<(), AllocError>;
}

struct Growing<'a>(&'a mut String);

impl fmt::Write for Growing<'_> {
    fn write_str(&mut self, text: &str) -> fmt::Result {
        self.0.kit_push_str(text).map_err(|_| fmt::Error)
    }
}

impl TextExt for String {
    fn kit_push_str(&mut self, text: &str) -> Result<(), AllocError> {
        self.try_reserve(text.len())?;
        self.push_str(text);
        Ok(())
    }

    fn kit_push(&mut self, c: char) -> Result<(), AllocError> {
        self.try_reserve(c.len_utf8())?;
        self.push(c);
        Ok(())
    }

    fn kit_reserve(&mut self, additional: usize) -> Result<(), AllocError> {
        Ok(self.try_reserve(additional)?)
    }

    fn write_fmt(&mut self, what: fmt::Arguments<'_>) -> Result<(), AllocError> {
        fmt::Write::write_fmt(&mut Growing(self), what).map_err(|_| AllocError)
    }
}

/// `format!` that returns an error if memory runs out.
#[macro_export]
macro_rules! fallible_format {
    ($($arg:tt)*) => { $crate::host::text::formatted(format_args!($($arg)*)) };
}

/// The text of arguments.
pub fn formatted(what: fmt::Arguments<'_>) -> Result<String, AllocError> {
    let mut text = String::new();
    text.write_fmt(what)?;
    Ok(text)
}

/// `collect` into a vector, which can fail.
pub trait CollectExt<T>: Iterator<Item = T> + Sized {
    /// A vector with all items.
    fn kit_collect(self) -> Result<Vec<T>, AllocError> {
        let mut all = Vec::new();
        for item in self {
            all.kit_push(item)?;
        }
        Ok(all)
    }
}

impl<T, I: Iterator<Item = T>> CollectExt<T> for I {}

/// `repeat`, which can fail.
pub trait StrExt {
    /// The text, `count` times.
    fn kit_repeat(&self, count: usize) -> Result<String, AllocError>;
}

impl StrExt for str {
    fn kit_repeat(&self, count: usize) -> Result<String, AllocError> {
        Ok(self.repeat(count))
    }
}

/// `BufWriter::new`, which can fail.
pub trait BufWriterExt<W>: Sized {
    /// A writer with a buffer.
    fn kit_new(writer: W) -> Result<Self, AllocError>;
}

impl<W: Write> BufWriterExt<W> for BufWriter<W> {
    fn kit_new(writer: W) -> Result<Self, AllocError> {
        Ok(BufWriter::new(writer))
    }
}
