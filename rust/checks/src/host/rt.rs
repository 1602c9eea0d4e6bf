//! The handle of the runtime.
use std::fmt::Display;
use std::io::{self, Write};

/// The handle, by which programs reach what is outside.
pub struct HostRuntime;

impl HostRuntime {
    /// Standard input.
    pub fn stdin(&self) -> io::Stdin {
        io::stdin()
    }

    /// Standard output.
    pub fn stdout(&self) -> io::Stdout {
        io::stdout()
    }

    /// Prints a line on standard error.
    pub fn eprintln<D: Display>(&self, what: D) -> io::Result<()> {
        writeln!(io::stderr(), "{what}")
    }
}

/// `println!` that reports a failed write.
#[macro_export]
macro_rules! host_println {
    ($($arg:tt)*) => {{
        use std::io::Write;
        writeln!(std::io::stdout(), $($arg)*)
    }};
}
