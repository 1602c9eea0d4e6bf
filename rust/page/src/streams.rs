//! What is said of the streams of a connection.

use quic_wire::{Dir, Side, StreamId};
use quic_wire_capture::streams::Stream;
use quic_wire_cli::objects::{Object, words};
use std::fmt::Write;

/// How many gaps of a stream are named, the first ones.
const MOST_GAPS: usize = 8;

/// Writes what a side sent on a stream as an object of JSON, in a line.
pub fn write((id, sender, stream): (StreamId, Side, &Stream), text: &mut String) {
    let mut object = Object::new(text);
    object.number("stream", id.into());
    object.word("initiator", words::side_name(id.initiator()));
    object.word("direction", if id.dir() == Dir::Bi { "bidirectional" } else { "unidirectional" });
    object.word("sender", words::side_name(sender));
    object.number("frames", stream.frames());
    object.number("bytes", stream.bytes());
    object.number("again", stream.again());
    object.number("missing", stream.missing());
    object.number("gap_count", stream.gaps().count() as u64);
    object.plain("gaps", format_args!("[{}]", gaps(stream)));
    for (name, number) in
        [("final_size", stream.final_size()), ("reset", stream.reset()), ("stopped", stream.stopped())]
    {
        number.into_iter().for_each(|number| object.number(name, number));
    }
    if stream.is_rough() {
        object.flag("rough", true);
    }
    object.end();
    text.push('\n');
}

fn gaps(stream: &Stream) -> String {
    let mut text = String::new();
    for gap in stream.gaps().take(MOST_GAPS) {
        let comma = if text.is_empty() { "" } else { "," };
        // Writing to a string doesn't fail.
        let _ = write!(text, "{comma}[{},{}]", gap.start, gap.end);
    }
    text
}
