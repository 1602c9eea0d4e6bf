//! The program `quic-wire`.
mod closed;

use std::process::ExitCode;

fn main() -> ExitCode {
    quic_wire_cli::run(closed::is_closed())
}
