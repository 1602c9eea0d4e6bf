//! The frames of payloads.
use crate::fault;
use crate::formats::{self, Kind, Shown};
use crate::output::{Field, Output, Value};
use Value::{Flag, Number, Ranges, Text};
use quic_wire::fields::{self, Span};
use quic_wire::frame::{Frame, FrameType, Iter, Rules};
use quic_wire::transport_error::Code;
use quic_wire::{Dir, varint};
use std::io::{self, Write};
use std::ops::Range;

/// Prints the frames of a payload, a run of PADDING as one.
pub fn show(payload: &[u8], rules: Rules, output: &mut Output<impl Write>) -> io::Result<()> {
    let mut frames = match Iter::with_rules(payload, rules) {
        Ok(frames) => frames,
        Err(empty) => return output.error(empty.reason.as_str(), Some(0), &fault::of_empty_payload()),
    };
    let (mut begin, mut run) = (0, 0..0);
    while let Some(frame) = frames.next() {
        let place = begin..frames.offset();
        begin = place.end;
        if frame == Ok(Frame::Padding) {
            run.end = place.end;
            continue;
        }
        if !run.is_empty() {
            show_frame(payload, run, &Frame::Padding, output)?;
        }
        run = place.end..place.end;
        match frame {
            Ok(frame) => show_frame(payload, place, &frame, output)?,
            Err(invalid) => {
                let at = frames.offset();
                return output.error(&invalid.to_string(), Some(at), &fault::of_frame(payload, at, rules, &invalid));
            }
        }
    }
    if run.is_empty() { Ok(()) } else { show_frame(payload, run, &Frame::Padding, output) }
}

fn show_frame(
    payload: &[u8],
    place: Range<usize>,
    frame: &Frame<'_>,
    output: &mut Output<impl Write>,
) -> io::Result<()> {
    let bytes = &payload[place.clone()];
    let raw_type = varint::read(bytes).map_or(0, |(ty, _)| ty);
    // A run of PADDING has its number of frames.
    let count = ("count", Number(padding(bytes)));
    let fields = if *frame == Frame::Padding { vec![count] } else { fields(frame, bytes, raw_type) };
    output.item(place, ("type", &frame.ty().to_string()), &fields, &[("raw_type", Number(raw_type))])
}

// How many PADDING types there are, each in one byte or more.
fn padding(mut run: &[u8]) -> u64 {
    let mut count = 0;
    while let Some((_, len)) = varint::read(run) {
        run = &run[len..];
        count += 1;
    }
    count
}

/// The name of the frame in the bytes, its type, and what is shown of it; a run of PADDING is one. Nothing is shown of
/// bytes that aren't a frame.
#[cfg(feature = "capture")]
pub fn named(bytes: &[u8]) -> (String, u64, Vec<Field<'_>>) {
    let raw_type = varint::read(bytes).map_or(0, |(ty, _)| ty);
    match Iter::new(bytes).ok().and_then(|mut frames| frames.next()) {
        Some(Ok(Frame::Padding)) => ("PADDING".into(), 0, vec![("count", Number(padding(bytes)))]),
        Some(Ok(frame)) => (frame.ty().to_string(), raw_type, fields(&frame, bytes, raw_type)),
        _ => (String::new(), raw_type, vec![]),
    }
}

// What is shown of a frame, by its row.
fn fields<'a>(frame: &Frame<'a>, bytes: &'a [u8], ty: u64) -> Vec<Field<'a>> {
    let read = fields::of_frame(bytes, Rules::default());
    let shown = formats::Frame::of(ty).map_or(&[][..], |row| row.shown);
    shown.iter().flat_map(|one| field(one, &read.spans()[one.field], bytes, frame)).collect()
}

fn field<'a>(one: &Shown, span: &Span, bytes: &'a [u8], frame: &Frame<'a>) -> Vec<Field<'a>> {
    let (name, number) = (one.name, span.number);
    // They end where the field ends.
    let bytes = || &bytes[span.end - number as usize..span.end];
    match one.kind {
        Kind::Number => vec![(name, Number(number))],
        Kind::Flag => vec![(name, Flag(number != 0))],
        Kind::Direction => vec![(name, word(if number == 0 { Dir::Bi } else { Dir::Uni }))],
        Kind::Code => {
            let code = Code::new(number).map(fault::code_name).unwrap_or_default();
            vec![(name, Number(number)), ("error_name", word(code))]
        }
        Kind::Type if number == 0 => vec![],
        Kind::Type => {
            let ty = FrameType::new(number).map(|ty| ty.to_string()).unwrap_or_default();
            vec![(name, Number(number)), ("frame_name", word(ty))]
        }
        Kind::Eight => vec![(name, Value::few(number.to_be_bytes()))],
        Kind::Bytes => vec![(name, Value::bytes(bytes()))],
        Kind::Data => vec![("len", Number(number)), (name, Value::bytes(bytes()))],
        Kind::Text => vec![(name, Text(bytes())), ("reason_bytes", Value::bytes(bytes()))],
        // Only an ACK has ranges, and only a parameter an address.
        Kind::Ranges | Kind::Address => match *frame {
            Frame::Ack(ack) => vec![(name, Ranges(ack))],
            _ => vec![],
        },
    }
}

fn word(name: impl ToString) -> Value<'static> {
    Value::Word(name.to_string().into())
}
