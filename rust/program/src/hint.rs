//! What bytes that the chosen mode rejects are, if there is no doubt.
use crate::args::Mode;
use quic_wire::datagram::{HeaderChecks, HeaderError, HeaderPlaces};
use quic_wire::frame::{Iter, Rules};
use quic_wire::packet::DEFAULT_SUPPORTED_VERSIONS;

/// What the bytes are, and the mode for it.
pub fn other_mode(mode: &Mode, bytes: &[u8]) -> Option<(&'static str, &'static str)> {
    match mode {
        Mode::Frames(_) | Mode::Canon(_) | Mode::Params { .. } if is_datagram(bytes) => {
            Some(("a datagram", "datagram"))
        }
        Mode::Datagram(how) => is_payload(bytes, how.reading.rules()).then_some(("a payload", "frames")),
        _ => None,
    }
}

// A long header of a known version is neither a frame's type nor a parameter's id. Short headers and version
// negotiations may be both.
fn is_datagram(bytes: &[u8]) -> bool {
    match HeaderPlaces::read_with(bytes, 0, DEFAULT_SUPPORTED_VERSIONS, HeaderChecks::RFC) {
        Ok(header) | Err(HeaderError::CutOff(header)) => header.version() != 0,
        Err(_) => false,
    }
}

// Any bytes are one frame if they begin with the type of a STREAM or DATAGRAM without a length.
fn is_payload(bytes: &[u8], rules: Rules) -> bool {
    let is_any = matches!(bytes, [0x08 | 0x09 | 0x0c | 0x0d | 0x30, ..]);
    !is_any && Iter::with_rules(bytes, rules).is_ok_and(|mut frames| frames.all(|frame| frame.is_ok()))
}
