//! The arguments of a program.
use super::rt::HostRuntime;
use std::io::{self, ErrorKind};

/// All arguments. An error if one isn't UTF-8.
pub fn args(_: &HostRuntime) -> io::Result<std::vec::IntoIter<String>> {
    let mut all = Vec::new();
    for arg in std::env::args_os() {
        all.push(arg.into_string().map_err(|_| ErrorKind::InvalidData)?);
    }
    Ok(all.into_iter())
}
