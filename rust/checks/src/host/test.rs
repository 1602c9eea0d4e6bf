//! Why a test failed.
use std::fmt::{self, Display};

/// The text of a failure.
pub struct Fail(String);

impl Fail {
    /// A failure with this text.
    pub fn new<D: Display>(why: D) -> Fail {
        Fail(why.to_string())
    }
}

impl fmt::Debug for Fail {
    fn fmt(&self, f: &mut fmt::Formatter<'_>) -> fmt::Result {
        f.write_str(&self.0)
    }
}

impl<E: Display> From<E> for Fail {
    fn from(error: E) -> Fail {
        Fail::new(error)
    }
}
