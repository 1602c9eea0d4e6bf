//! Frames as qlog has them.
use super::token;
use crate::capture::object::Object;
use crate::capture::report::{Part, frame_of};
use crate::capture::words::{self, Said};
use crate::fault;
use crate::output::Value;
use quic_wire::Dir;
use quic_wire::frame::{Ack, Frame};
use quic_wire::transport_error::Code;

/// The frames of a payload. The exponent is that of its sender's ACKs.
pub fn list(object: &mut Object<'_>, payload: &[u8], parts: &[Part], exponent: u64) {
    let frames = parts.iter().filter_map(|part| match part {
        Part::Frame { range, .. } => payload.get(range.clone()),
        _ => None,
    });
    object.list("frames", frames, |object, bytes| match frame_of(bytes) {
        Some(frame) => {
            object.word("frame_type", &name(&frame));
            fields(object, &frame, bytes, exponent);
        }
        None => object.word("frame_type", "unknown"),
    });
}

// Both closes, and both kinds of streams, have one name.
fn name(frame: &Frame<'_>) -> String {
    match frame {
        Frame::Close(_) => "connection_close".into(),
        Frame::MaxStreams { .. } => "max_streams".into(),
        Frame::StreamsBlocked { .. } => "streams_blocked".into(),
        other => other.ty().to_string().to_ascii_lowercase(),
    }
}

fn fields(object: &mut Object<'_>, frame: &Frame<'_>, bytes: &[u8], exponent: u64) {
    let mut number = |name: &str, value: u64| object.number(name, value);
    match *frame {
        Frame::Padding => ["length", "payload_length"].iter().for_each(|name| number(name, bytes.len() as u64)),
        Frame::Crypto(ref one) => {
            number("offset", one.offset);
            number("length", one.bytes.len() as u64);
        }
        Frame::Stream(ref one) => {
            number("stream_id", one.id.into());
            number("offset", one.offset);
            number("length", one.bytes.len() as u64);
            object.flag("fin", one.fin);
        }
        Frame::ResetStream(ref one) => {
            number("stream_id", one.id.into());
            number("error_code", one.error_code.into());
            number("final_size", one.final_offset.into());
        }
        Frame::StopSending(ref one) => {
            number("stream_id", one.id.into());
            number("error_code", one.error_code.into());
        }
        Frame::RetireConnectionId { sequence } => number("sequence_number", sequence),
        Frame::Datagram(ref one) => number("length", one.bytes.len() as u64),
        ref other => {
            limits(object, other);
            more_fields(object, other, bytes, exponent);
        }
    }
}

fn limits(object: &mut Object<'_>, frame: &Frame<'_>) {
    let direction = |dir: Dir| if dir == Dir::Bi { "bidirectional" } else { "unidirectional" };
    match *frame {
        Frame::MaxData(maximum) => object.number("maximum", maximum.into()),
        Frame::DataBlocked { offset } => object.number("limit", offset),
        Frame::MaxStreamData { id, offset } => {
            object.number("stream_id", id.into());
            object.number("maximum", offset);
        }
        Frame::StreamDataBlocked { id, offset } => {
            object.number("stream_id", id.into());
            object.number("limit", offset);
        }
        Frame::MaxStreams { dir, count } => {
            object.number("maximum", count);
            object.word("stream_type", direction(dir));
        }
        Frame::StreamsBlocked { dir, limit } => {
            object.number("limit", limit);
            object.word("stream_type", direction(dir));
        }
        _ => {}
    }
}

// Those of frames that have more than numbers.
fn more_fields(object: &mut Object<'_>, frame: &Frame<'_>, bytes: &[u8], exponent: u64) {
    match frame {
        Frame::Ack(ack) => acknowledgment(object, ack, exponent),
        Frame::NewConnectionId(one) => {
            object.number("sequence_number", one.sequence);
            object.number("retire_prior_to", one.retire_prior_to);
            object.number("connection_id_length", one.id.len() as u64);
            object.field(&("connection_id", Value::bytes(&one.id)));
            token(object, "stateless_reset_token", &one.reset_token[..]);
        }
        Frame::NewToken(one) => token(object, "token", one.token),
        Frame::PathChallenge(data) | Frame::PathResponse(data) => {
            object.field(&("data", Value::few(data.to_be_bytes())));
        }
        Frame::Close(_) => {
            if let Some(said) = words::close(bytes) {
                close(object, &said);
            }
        }
        _ => {}
    }
}

// The delay is in milliseconds, the ranges ascend.
fn acknowledgment(object: &mut Object<'_>, ack: &Ack<'_>, exponent: u64) {
    let micros = u128::from(ack.delay()) << exponent.min(20);
    object.plain("ack_delay", format_args!("{}.{:03}", micros / 1000, micros % 1000));
    let mut runs: Vec<_> = ack.iter().map(|range| (*range.start(), *range.end())).collect();
    runs.reverse();
    object.field(&("acked_ranges", Value::Runs(runs)));
    if let Some(ecn) = ack.ecn() {
        object.number("ect0", ecn.ect0);
        object.number("ect1", ecn.ect1);
        object.number("ce", ecn.ce);
    }
}

fn close(object: &mut Object<'_>, said: &Said) {
    match said.by_application {
        true => {
            object.word("error_space", "application");
            object.number("error_code", said.code);
        }
        false => {
            object.word("error_space", "transport");
            error(object, "error_code", said);
        }
    }
    object.number("raw_error_code", said.code);
    object.field(&("reason", Value::Text(&said.reason)));
    if let Some(name) = &said.frame_name {
        object.word("trigger_frame_type", &name.to_ascii_lowercase());
    }
}

/// A transport error, by its name in qlog or, if it has none, as a number.
pub fn error(object: &mut Object<'_>, name: &str, said: &Said) {
    let known = Code::new(said.code).map(fault::code_name).filter(|known| !known.starts_with('<'));
    match (said.code, known) {
        (code @ 0x100..=0x1ff, _) => object.word(name, &format!("crypto_error_{code:#x}")),
        (_, Some(known)) => object.word(name, &known.to_ascii_lowercase()),
        (code, None) => object.number(name, code),
    }
}
