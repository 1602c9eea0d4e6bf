//! The shortest form of payloads.
use crate::fault;
use crate::output::{Output, Value};
use quic_wire::canonical::{CanonError, canonical_with};
use quic_wire::frame::{Iter, Rules};
use std::io::{self, Write};

/// Prints the shortest payload with the same frames.
pub fn show(payload: &[u8], rules: Rules, output: &mut Output<impl Write>) -> io::Result<()> {
    let mut shortest = Vec::new();
    match canonical_with(payload, rules, &mut shortest) {
        Ok(()) => {
            let fields = [("len", Value::Number(shortest.len() as u64)), ("data", Value::bytes(&shortest))];
            output.item(0..payload.len(), ("form", "SHORTEST"), &fields, &[])
        }
        Err(CanonError::Invalid(invalid)) => {
            let at = end_of_frames(payload, rules);
            output.error(&invalid.to_string(), Some(at), &fault::of_frame(payload, at, rules, &invalid))
        }
        Err(CanonError::OutOfMemory) => Err(io::ErrorKind::OutOfMemory.into()),
        Err(empty) => output.error(&empty.to_string(), Some(0), &fault::of_empty_payload()),
    }
}

// Where the last whole frame ends.
fn end_of_frames(payload: &[u8], rules: Rules) -> usize {
    Iter::with_rules(payload, rules).map_or(0, |mut frames| {
        frames.by_ref().take_while(Result::is_ok).count();
        frames.offset()
    })
}
