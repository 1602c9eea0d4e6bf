//! The codes that close a connection, and the reasons why frames, packets and lists are rejected.
use crate::formats::Made;
use crate::formats::line::Line;
use crate::host::bytes::BytesMut;
use crate::proved::quic_errors::transport_error::Code;
use crate::proved::quic_frame_fields::frame::fault::Fault;
use crate::proved::quic_frames::frame::Breach;
use crate::proved::quic_header_decode::cut::PartialDecode;
use crate::proved::quic_header_decode::decode_error::PacketDecodeError;
use crate::proved::quic_header_decode::parser::FixedLengthConnectionIdParser;
use crate::proved::quic_params::transport_parameters::Error;
use crate::tested::quic_results::results::{Failure, close_code, frame_failure};

// A reason: its name in C after `QUIC_WIRE_ERR_`, the sections that require it, and what the library and the programs
// say of it.
#[derive(Clone, Copy)]
struct Reason(pub Failure, pub &'static str, pub &'static str, pub &'static str);

const REASONS: [Reason; 27] = [
    Reason(Failure::Argument, "ARGUMENT", "", "invalid argument"),
    Reason(Failure::Place, "PLACE", "", "place outside of the bytes"),
    Reason(Failure::Kind, "KIND", "", "no such kind"),
    Reason(Failure::Number, "NUMBER", "", "number out of range"),
    Reason(Failure::Length, "LENGTH", "", "length out of range"),
    Reason(Failure::Ranges, "RANGES", "", "ranges not sorted or touching"),
    Reason(Failure::Parameter, "PARAM", "", "parameters that the peer would refuse"),
    Reason(Failure::NoRoom, "NOBUF", "", "buffer too small"),
    Reason(Failure::PayloadEmpty, "PAYLOAD_EMPTY", "RFC 9000, section 12.4", "packet payload is empty"),
    Reason(Failure::FrameEnd, "FRAME_END", "RFC 9000, section 20.1", "unexpected end"),
    Reason(Failure::FrameType, "FRAME_TYPE", "RFC 9000, section 12.4", "invalid frame ID"),
    Reason(Failure::FrameMalformed, "FRAME_MALFORMED", "RFC 9000, sections 19.3.1, 19.7, 19.15", "malformed"),
    Reason(Failure::FrameLongType, "FRAME_LONG_TYPE", "RFC 9000, section 12.4", "frame type not in shortest form"),
    Reason(Failure::FrameLimit, "FRAME_LIMIT", "RFC 9000, sections 19.6, 19.8, 19.11, 19.14", "limit exceeded"),
    Reason(Failure::FramePacket, "FRAME_PACKET", "RFC 9000, section 12.4", "not permitted in this packet"),
    Reason(Failure::FrameSender, "FRAME_SENDER", "RFC 9000, sections 19.7, 19.20", "not permitted from this side"),
    Reason(
        Failure::FrameStream,
        "FRAME_STREAM",
        "RFC 9000, sections 19.4, 19.5, 19.8, 19.10, 19.13",
        "not permitted on this stream",
    ),
    Reason(Failure::PacketEnd, "PACKET_END", "RFC 9000, section 17", "unexpected end of packet"),
    Reason(Failure::PacketFixedBit, "PACKET_FIXED_BIT", "RFC 9000, sections 17.2, 17.3.1", "fixed bit unset"),
    Reason(Failure::PacketSmall, "PACKET_SMALL", "RFC 9001, section 5.4.2", "packet too small"),
    Reason(Failure::PacketId, "PACKET_CID", "RFC 9000, section 17.2", "malformed cid"),
    Reason(Failure::PacketToken, "PACKET_TOKEN", "RFC 9000, section 17.2.2", "token out of bounds"),
    Reason(Failure::PacketVersion, "PACKET_VERSION", "RFC 9000, section 6.1", "unsupported version"),
    Reason(Failure::PacketCut, "PACKET_CUT", "RFC 9000, section 12.2", "packet too short to contain payload length"),
    Reason(Failure::PacketRetry, "PACKET_RETRY", "RFC 9000, section 17.2.5", "Retry without a token or a tag"),
    Reason(Failure::ParametersMalformed, "PARAMS_MALFORMED", "RFC 9000, section 7.4", "malformed"),
    Reason(Failure::ParametersIllegal, "PARAMS_ILLEGAL", "RFC 9000, sections 7.4, 18.2", "illegal value"),
];

/// A line for each code, the last for those of TLS alerts.
pub(crate) fn code_lines() -> Made<Vec<Line>> {
    let mut lines = Vec::new();
    for number in 0..=u8::MAX {
        let number = u64::from(number);
        let code = Code::of(number);
        let name = format!("{code:?}");
        if !name.as_str().starts_with("Code") {
            let text = format!("{code}");
            lines.push(code_line(number, name.as_str(), text.as_str())?);
        }
    }
    let (first, last) = (Code::crypto(0), Code::crypto(u8::MAX));
    let mut line = Line::new();
    line.number("code", u64::from(first));
    line.number("last", u64::from(last));
    line.text("name", "CRYPTO_ERROR");
    line.text("section", "RFC 9001, section 4.8");
    line.close("}");
    lines.push(line);
    Ok(lines)
}

fn code_line(number: u64, name: &str, text: &str) -> Made<Line> {
    let mut line = Line::new();
    line.number("code", number);
    line.text("name", name);
    line.text("section", "RFC 9000, section 20.1");
    line.text("text", text);
    line.close("}");
    Ok(line)
}

/// A line for each reason.
pub(crate) fn lines() -> Made<Vec<Line>> {
    let mut lines = Vec::new();
    for reason in REASONS {
        lines.push(line(reason)?);
    }
    Ok(lines)
}

fn line(row: Reason) -> Made<Line> {
    let Reason(reason, name, section, text) = row;
    check_text(reason, text)?;
    let number = reason.number();
    let mut line = Line::new();
    line.signed("number", number);
    line.text("about", about(reason));
    line.text("name", name);
    line.number("close_code", u64::from(close_code(number)));
    line.text_if_any("section", section);
    line.text("text", text);
    line.close("}");
    Ok(line)
}

// What is rejected for a reason: a call's arguments, a frame, a packet's header or a list of transport parameters.
fn about(reason: Failure) -> &'static str {
    match reason {
        Failure::Argument
        | Failure::Place
        | Failure::Kind
        | Failure::Number
        | Failure::Length
        | Failure::Ranges
        | Failure::Parameter
        | Failure::NoRoom => "call",
        Failure::PayloadEmpty
        | Failure::FrameEnd
        | Failure::FrameType
        | Failure::FrameMalformed
        | Failure::FrameLongType
        | Failure::FrameLimit
        | Failure::FramePacket
        | Failure::FrameSender
        | Failure::FrameStream => "frame",
        Failure::PacketEnd
        | Failure::PacketFixedBit
        | Failure::PacketSmall
        | Failure::PacketId
        | Failure::PacketToken
        | Failure::PacketVersion
        | Failure::PacketCut
        | Failure::PacketRetry => "header",
        Failure::ParametersMalformed | Failure::ParametersIllegal => "list",
    }
}

// Fails if the proved code reports another text for a reason than the table has.
fn check_text(reason: Failure, text: &str) -> Made<()> {
    let frame = match reason {
        Failure::FrameEnd => Fault::UnexpectedEnd.reason(),
        Failure::FrameType => Fault::InvalidFrameId.reason(),
        Failure::FrameMalformed => Fault::Malformed.reason(),
        Failure::FrameLongType => Fault::LongType.reason(),
        Failure::FrameLimit => Breach::Limit.reason(),
        Failure::ParametersMalformed => return check_list(Error::Malformed, text),
        Failure::ParametersIllegal => return check_list(Error::IllegalValue, text),
        Failure::PacketEnd => return check_packet(&[], text),
        Failure::PacketFixedBit => return check_packet(&[0], text),
        Failure::PacketSmall => return check_packet(&[0x40], text),
        Failure::PacketId => return check_packet(&[0xc0, 0, 0, 0, 1, 21], text),
        Failure::PacketToken => return check_packet(&[0xc0, 0, 0, 0, 1, 0, 0, 1], text),
        Failure::PacketCut => return check_packet(&[0xc0, 0, 0, 0, 1, 0, 0, 0, 1], text),
        _ => return Ok(()),
    };
    if frame_failure(frame) != reason || frame != text {
        return Err("a reason has another text".into());
    }
    Ok(())
}

// Fails if what is said doesn't end with the text.
fn same(said: &str, text: &str) -> Made<()> {
    if !said.ends_with(text) {
        return Err("the error of a list or a packet has another text".into());
    }
    Ok(())
}

// A packet that is rejected for the reason with this text.
fn check_packet(packet: &[u8], text: &str) -> Made<()> {
    let mut bytes = Vec::new();
    bytes.extend_from_slice(packet);
    match PartialDecode::new(
        BytesMut::from(bytes.as_slice()),
        &FixedLengthConnectionIdParser::proved_new(1),
        &[1],
        false,
    ) {
        Err(PacketDecodeError::InvalidHeader(said)) => same(said, text),
        _ => Err("a packet isn't rejected as it should be".into()),
    }
}

fn check_list(error: Error, text: &str) -> Made<()> {
    let said = format!("{error}");
    same(said.as_str(), text)
}
