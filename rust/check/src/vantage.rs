//! Where a capture was taken.

use quic_wire::Side;
use std::fmt;

/// Where a capture of a connection was taken. At a side's host, the records of what it sent are in the order in which
/// it did so, and the others are there at about the time at which they came. On the path, the network may reorder both.
#[derive(Clone, Copy, Debug, PartialEq, Eq, PartialOrd, Ord, Hash)]
pub enum Vantage {
    /// At the client's host.
    Client,
    /// At the server's host.
    Server,
    /// Anywhere between them.
    Path,
}

impl Vantage {
    /// At a side's host.
    pub fn of(side: Side) -> Vantage {
        match side {
            Side::Client => Vantage::Client,
            Side::Server => Vantage::Server,
        }
    }

    /// A name for programs.
    pub fn name(self) -> &'static str {
        match self {
            Vantage::Client => "client",
            Vantage::Server => "server",
            Vantage::Path => "path",
        }
    }
}

impl fmt::Display for Vantage {
    fn fmt(&self, f: &mut fmt::Formatter<'_>) -> fmt::Result {
        f.write_str(match self {
            Vantage::Client => "at the client",
            Vantage::Server => "at the server",
            Vantage::Path => "on the path",
        })
    }
}
