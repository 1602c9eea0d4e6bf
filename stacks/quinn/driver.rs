//! A driver (vectors/README.md) for quinn-proto's readers, and for its packet numbers.
use std::io::{self, BufRead, Write};

use bytes::{Bytes, BytesMut};

use crate::{
    DEFAULT_SUPPORTED_VERSIONS, Dir, Side, VarInt,
    coding::Codec,
    frame::{self, Frame, Iter},
    packet::{
        FixedLengthConnectionIdParser, LongType, PacketDecodeError, PacketNumber, PartialDecode, ProtectedHeader,
    },
    transport_parameters::TransportParameters,
};

const KNOWN: &[&str] = &["datagram", "ack-frequency", "grease"];

fn unhex(digits: &str) -> Vec<u8> {
    let byte = |at| u8::from_str_radix(&digits[at..at + 2], 16).expect("hexadecimal");
    (0..digits.len() / 2 * 2).step_by(2).map(byte).collect()
}

fn hex(bytes: &[u8]) -> String {
    bytes.iter().map(|byte| format!("{byte:02x}")).collect()
}

/// An object of strings.
fn object(fields: &[(&str, String)]) -> String {
    let fields: Vec<String> = fields.iter().map(|(name, value)| format!("\"{name}\": \"{value}\"")).collect();
    format!("{{{}}}", fields.join(", "))
}

fn item(ty: &str, fields: &[(&str, String)]) -> String {
    object(&[&[("type", ty.into())], fields].concat())
}

fn direction(dir: Dir) -> (&'static str, String) {
    ("direction", if dir == Dir::Bi { "bidirectional" } else { "unidirectional" }.into())
}

fn ack(ack: &frame::Ack) -> String {
    let ranges: Vec<String> = ack.iter().map(|r| format!("[\"{}\", \"{}\"]", r.start(), r.end())).collect();
    let mut fields = vec![("largest_acknowledged", ack.largest.to_string()), ("ack_delay", ack.delay.to_string())];
    if let Some(ecn) = ack.ecn {
        let (ect0, ect1, ce) = (ecn.ect0.to_string(), ecn.ect1.to_string(), ecn.ce.to_string());
        fields.extend([("ect0_count", ect0), ("ect1_count", ect1), ("ecn_ce_count", ce)]);
    }
    let shown = item("ACK", &fields);
    format!("{}, \"ranges\": [{}]}}", shown.trim_end_matches('}'), ranges.join(", "))
}

fn close(close: &frame::Close) -> String {
    match close {
        frame::Close::Connection(x) => item(
            "CONNECTION_CLOSE",
            &[
                ("layer", "transport".into()),
                ("error_code", u64::from(x.error_code).to_string()),
                ("reason_phrase", hex(&x.reason)),
            ],
        ),
        frame::Close::Application(x) => item(
            "CONNECTION_CLOSE",
            &[
                ("layer", "application".into()),
                ("error_code", x.error_code.to_string()),
                ("reason_phrase", hex(&x.reason)),
            ],
        ),
    }
}

fn stream(id: &crate::StreamId) -> (&'static str, String) {
    ("stream_id", id.0.to_string())
}

/// Frames of only numbers that are a limit.
fn limit(frame: &Frame) -> Option<String> {
    let all = |ty: &str, most: u64| item(ty, &[("maximum_data", most.to_string())]);
    let one = |ty: &str, id, most: &u64| item(ty, &[stream(id), ("maximum_stream_data", most.to_string())]);
    let streams = |ty: &str, dir: &Dir, most: &u64| item(ty, &[direction(*dir), ("maximum_streams", most.to_string())]);
    Some(match frame {
        Frame::MaxData(most) => all("MAX_DATA", most.into_inner()),
        Frame::DataBlocked { offset } => all("DATA_BLOCKED", *offset),
        Frame::MaxStreamData { id, offset } => one("MAX_STREAM_DATA", id, offset),
        Frame::StreamDataBlocked { id, offset } => one("STREAM_DATA_BLOCKED", id, offset),
        Frame::MaxStreams { dir, count } => streams("MAX_STREAMS", dir, count),
        Frame::StreamsBlocked { dir, limit } => streams("STREAMS_BLOCKED", dir, limit),
        _ => return None,
    })
}

/// Frames that have data.
fn with_data(frame: &Frame) -> Option<String> {
    Some(match frame {
        Frame::Ack(x) => ack(x),
        Frame::Close(x) => close(x),
        Frame::Crypto(x) => item("CRYPTO", &[("offset", x.offset.to_string()), ("crypto_data", hex(&x.data))]),
        Frame::NewToken(x) => item("NEW_TOKEN", &[("token", hex(&x.token))]),
        Frame::Stream(x) => item(
            "STREAM",
            &[
                stream(&x.id),
                ("offset", x.offset.to_string()),
                ("fin", u8::from(x.fin).to_string()),
                ("stream_data", hex(&x.data)),
            ],
        ),
        Frame::NewConnectionId(x) => item(
            "NEW_CONNECTION_ID",
            &[
                ("sequence_number", x.sequence.to_string()),
                ("retire_prior_to", x.retire_prior_to.to_string()),
                ("connection_id", hex(&x.id)),
                ("stateless_reset_token", hex(&x.reset_token)),
            ],
        ),
        Frame::PathChallenge(x) => item("PATH_CHALLENGE", &[("data", format!("{x:016x}"))]),
        Frame::PathResponse(x) => item("PATH_RESPONSE", &[("data", format!("{x:016x}"))]),
        Frame::Datagram(x) => item("DATAGRAM", &[("datagram_data", hex(&x.data))]),
        _ => return None,
    })
}

fn shown(frame: &Frame) -> String {
    let code = |code: VarInt| ("application_protocol_error_code", code.to_string());
    match frame {
        Frame::Padding => item("PADDING", &[]),
        Frame::Ping => item("PING", &[]),
        Frame::HandshakeDone => item("HANDSHAKE_DONE", &[]),
        Frame::ImmediateAck => item("IMMEDIATE_ACK", &[]),
        Frame::ResetStream(x) => {
            item("RESET_STREAM", &[stream(&x.id), code(x.error_code), ("final_size", x.final_offset.to_string())])
        }
        Frame::StopSending(x) => item("STOP_SENDING", &[stream(&x.id), code(x.error_code)]),
        Frame::RetireConnectionId { sequence } => {
            item("RETIRE_CONNECTION_ID", &[("sequence_number", sequence.to_string())])
        }
        Frame::AckFrequency(x) => item(
            "ACK_FREQUENCY",
            &[
                ("sequence_number", x.sequence.to_string()),
                ("ack_eliciting_threshold", x.ack_eliciting_threshold.to_string()),
                ("requested_max_ack_delay", x.request_max_ack_delay.to_string()),
                ("reordering_threshold", x.reordering_threshold.to_string()),
            ],
        ),
        _ => limit(frame).or_else(|| with_data(frame)).expect("a kind of frame"),
    }
}

fn payload(payload: Vec<u8>) -> String {
    let payload = Bytes::from(payload);
    let Ok(frames) = Iter::new(payload) else { return "invalid PROTOCOL_VIOLATION".into() };
    let mut read = Vec::new();
    for frame in frames {
        match frame {
            Ok(frame) => read.push(shown(&frame)),
            Err(_) => return format!("invalid FRAME_ENCODING_ERROR {{\"before\": [{}]}}", read.join(", ")),
        }
    }
    format!("valid [{}]", read.join(", "))
}

fn parameters(list: &[u8], side: Side) -> String {
    match TransportParameters::read(side, &mut &list[..]) {
        Ok(_) => "valid".into(),
        Err(_) => "invalid TRANSPORT_PARAMETER_ERROR".into(),
    }
}

fn packet(header: &ProtectedHeader) -> String {
    let dcid = ("dcid", hex(header.dst_cid()));
    let long = |name: &str, src_cid: &[u8]| item(name, &[dcid.clone(), ("scid", hex(src_cid))]);
    match header {
        ProtectedHeader::Initial(x) => long("Initial", &x.src_cid),
        ProtectedHeader::Long { ty: LongType::Handshake, src_cid, .. } => long("Handshake", src_cid),
        ProtectedHeader::Long { src_cid, .. } => long("0-RTT", src_cid),
        ProtectedHeader::Retry { src_cid, .. } => long("Retry", src_cid),
        ProtectedHeader::VersionNegotiate { src_cid, .. } => long("Version Negotiation", src_cid),
        ProtectedHeader::Short { .. } => item("1-RTT", &[dcid]),
    }
}

fn datagram(datagram: &[u8], id_len: usize, grease: bool) -> String {
    let parser = FixedLengthConnectionIdParser::new(id_len);
    let (mut read, mut left) = (Vec::new(), Some(BytesMut::from(datagram)).filter(|bytes| !bytes.is_empty()));
    while let Some(bytes) = left {
        let mut front = io::Cursor::new(bytes.clone());
        let header = ProtectedHeader::decode(&mut front, &parser, DEFAULT_SUPPORTED_VERSIONS, grease);
        match (header, PartialDecode::new(bytes, &parser, DEFAULT_SUPPORTED_VERSIONS, grease)) {
            (Ok(header), Ok((_, rest))) => {
                read.push(packet(&header));
                left = rest;
            }
            (_, Err(PacketDecodeError::UnsupportedVersion { src_cid, dst_cid, .. })) => {
                read.push(item("unknown version", &[("dcid", hex(&dst_cid)), ("scid", hex(&src_cid))]));
                left = None;
            }
            _ => return format!("invalid DROP {{\"before\": [{}]}}", read.join(", ")),
        }
    }
    format!("valid [{}]", read.join(", "))
}

fn expanded(written: u64, bits: &str, expected: u64) -> String {
    let number = match bits {
        "8" => PacketNumber::U8(written as u8),
        "16" => PacketNumber::U16(written as u16),
        "24" => PacketNumber::U24(written as u32),
        _ => PacketNumber::U32(written as u32),
    };
    format!("valid \"{}\"", number.expand(expected))
}

fn varint_read(bytes: &[u8]) -> String {
    let mut rest = bytes;
    match VarInt::decode(&mut rest) {
        Ok(x) => format!("valid \"{x} {}\"", bytes.len() - rest.len()),
        Err(_) => "invalid".into(),
    }
}

fn varint_write(digits: &str) -> String {
    let Ok(x) = VarInt::from_u64(digits.parse().expect("a number")) else { return "invalid".into() };
    let mut out = Vec::new();
    x.encode(&mut out);
    format!("valid \"{}\"", hex(&out))
}

fn answer(form: &str, context: &str, input: &str) -> String {
    let word = |name: &str| context.split(',').find_map(|word| word.strip_prefix(name)?.strip_prefix('='));
    let is_known = word("extension").is_none_or(|name| KNOWN.contains(&name));
    // It knows version 1 and drafts, and reads frames alike in any packet.
    if !is_known || ["strict", "without", "packet", "versions"].iter().any(|name| word(name).is_some()) {
        return "skip".into();
    }
    let number = |name: &str| word(name).and_then(|digits| digits.parse::<u64>().ok());
    let digits = if input == "-" { "" } else { input };
    match form {
        "payload" => payload(unhex(digits)),
        "params" => parameters(&unhex(digits), if word("from").is_some() { Side::Server } else { Side::Client }),
        "datagram" => datagram(&unhex(digits), number("cid_len").unwrap_or(8) as usize, word("grease").is_some()),
        "varint-read" => varint_read(&unhex(digits)),
        "varint-write" => varint_write(digits),
        "number-expand" => {
            let expected = number("largest").map_or(0, |largest| largest + 1);
            expanded(number("written").expect("a number"), word("bits").expect("bits"), expected)
        }
        _ => "skip".into(),
    }
}

/// Answers the lines of standard input.
pub fn main() -> io::Result<()> {
    for line in io::stdin().lock().lines() {
        let line = line?;
        let words: Vec<&str> = line.split(' ').collect();
        writeln!(io::stdout(), "{}", answer(words[0], words[1], words[2]))?;
    }
    Ok(())
}
