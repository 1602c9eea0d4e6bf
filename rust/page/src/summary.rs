//! What is said of a packet in a line.

use quic_wire::frame::{Ack, Frame};
use quic_wire_cli::objects::{Part, Value, frame_of, words};
use std::fmt::{self, Write};

// How many ranges of an ACK, how many bytes of a reason, and how many bytes of all frames are said.
const MOST_RANGES: usize = 4;
const MOST_REASON: usize = 80;
const MOST: usize = 240;

/// The frames of a payload, each with the numbers that tell it from others of its type, and what is invalid.
pub fn of_parts(payload: &[u8], parts: &[Part]) -> String {
    let mut text = String::new();
    for part in parts {
        let end = text.len();
        text.push_str(if end == 0 { "" } else { ", " });
        let begin = text.len();
        // Writing to a string doesn't fail.
        let _ = match part {
            Part::Frame { range, .. } => of_frame(payload.get(range.clone()).unwrap_or_default(), &mut text),
            Part::Invalid(fault) => write!(text, "invalid: {}", fault.what),
            Part::InvalidParameters(fault) => write!(text, "invalid transport parameters: {}", fault.what),
            Part::Parameters(..) | Part::Lost(_) => {
                text.truncate(end);
                continue;
            }
        };
        if end + text.len() - begin > MOST {
            text.truncate(begin);
            text.push('…');
            break;
        }
    }
    text
}

fn of_frame(bytes: &[u8], text: &mut String) -> fmt::Result {
    let Some(frame) = frame_of(bytes) else { return text.write_str("?") };
    let (name, end_of) = (frame.ty(), |offset: u64, bytes: &[u8]| offset + bytes.len() as u64);
    match &frame {
        Frame::Padding => write!(text, "PADDING {}", bytes.len()),
        Frame::Ack(ack) => {
            write!(text, "{name} ")?;
            ranges(ack, text)
        }
        Frame::Crypto(one) => write!(text, "{name} {}..{}", one.offset, end_of(one.offset, one.bytes)),
        Frame::Stream(one) => {
            let (id, fin) = (u64::from(one.id), if one.fin { " FIN" } else { "" });
            write!(text, "STREAM {id} {}..{}{fin}", one.offset, end_of(one.offset, one.bytes))
        }
        Frame::Datagram(one) => write!(text, "DATAGRAM {}", one.bytes.len()),
        Frame::ResetStream(reset) => write!(text, "{name} {}", u64::from(reset.id)),
        Frame::StopSending(stop) => write!(text, "{name} {}", u64::from(stop.id)),
        Frame::MaxData(most) => write!(text, "{name} {most}"),
        Frame::DataBlocked { offset } => write!(text, "{name} {offset}"),
        Frame::MaxStreamData { id, offset } | Frame::StreamDataBlocked { id, offset } => {
            write!(text, "{name} {} {offset}", u64::from(*id))
        }
        Frame::MaxStreams { count, .. } => write!(text, "{name} {count}"),
        Frame::StreamsBlocked { limit, .. } => write!(text, "{name} {limit}"),
        Frame::NewConnectionId(new) => write!(text, "{name} {}", new.sequence),
        Frame::RetireConnectionId { sequence } => write!(text, "{name} {sequence}"),
        Frame::Close(_) => close(bytes, &name.to_string(), text),
        _ => write!(text, "{name}"),
    }
}

fn ranges(ack: &Ack<'_>, text: &mut String) -> fmt::Result {
    for (place, range) in ack.iter().enumerate() {
        let comma = if place == 0 { "" } else { "," };
        let (least, greatest) = (*range.start(), *range.end());
        if place == MOST_RANGES {
            return write!(text, "{comma}…");
        }
        write!(text, "{comma}{least}")?;
        if least < greatest {
            write!(text, "-{greatest}")?;
        }
    }
    Ok(())
}

fn close(bytes: &[u8], name: &str, text: &mut String) -> fmt::Result {
    let Some(said) = words::close(bytes) else { return text.write_str(name) };
    write!(text, "CONNECTION_CLOSE {}", said.error())?;
    match &said.reason[..] {
        [] => Ok(()),
        reason => write!(text, " {}", Value::Text(&reason[..reason.len().min(MOST_REASON)])),
    }
}
