//! The transport parameters.
use crate::formats::Made;
use crate::formats::line::Line;
use crate::proved::quic_base::coding::BufMutExt;
use crate::proved::quic_base::ids::Side;
use crate::proved::quic_base::varint::VarInt;
use crate::proved::quic_params::transport_parameters::TransportParameterId::*;
use crate::proved::quic_params::transport_parameters::{
    ReadOptions, Refusal, TransportParameterId, TransportParameters, Value,
};
use crate::tested::quic_formats::parameter_names::{ADDRESS, Most, Names, PARAMETERS};

// The greatest number (RFC 9000, section 16).
const GREATEST: u64 = (1 << 62) - 1;

// More bytes than a value has.
const ONES: [u8; 64] = [1; 64];

/// A line for each parameter.
pub(crate) fn lines() -> Made<Vec<Line>> {
    let mut lines = Vec::new();
    for names in PARAMETERS {
        lines.push(line(names)?);
    }
    if lines.len() != TransportParameterId::SUPPORTED.len() {
        return Err("a transport parameter has no names".into());
    }
    Ok(lines)
}

fn line(names: &Names) -> Made<Line> {
    if TransportParameterId::try_from(names.number) != Ok(names.id) {
        return Err("a transport parameter has another number".into());
    }
    let mut line = Line::new();
    line.number("id", names.number);
    line.text("name", names.name);
    line.text_if_any("quinn_proto", names.alias);
    line.text("section", names.section);
    let Sample { entry, value } = accepted(names)?;
    match value {
        Some(value) => write_value(&mut line, names, value)?,
        None => line.text("kind", "skipped"),
    }
    write_rules(&mut line, entry.as_slice());
    line.number("order", order_of(names.id));
    line.close("}");
    Ok(line)
}

// How many parameters are written before one.
fn order_of(id: TransportParameterId) -> u64 {
    let mut order: u64 = 0;
    for other in TransportParameterId::SUPPORTED {
        if other == id {
            return order;
        }
        order += 1;
    }
    order
}

// An entry that is accepted from a server, and its value; `None` if it is skipped.
struct Sample {
    entry: Vec<u8>,
    value: Option<Value>,
}

// The first of several values that the reader accepts.
fn accepted(names: &Names) -> Made<Sample> {
    let (Some(token), Some(address)) = (ONES.get(..16), ONES.get(..address_size())) else {
        return Err("a preferred address is longer".into());
    };
    let values: [&[u8]; 5] = [&[], &[7], &[0x47, 0xff], token, address];
    for value in values {
        let entry = entry_of(names.number, value)?;
        if let Ok(read) = read(Side::Client, entry.as_slice()) {
            let value = read.written_value(names.id);
            return Ok(Sample { entry, value });
        }
    }
    Err("no value of a transport parameter is accepted".into())
}

// How many bytes a preferred address has if its id has the least: one of them is the id's length.
fn address_size() -> usize {
    let mut size: usize = 1;
    for (_, least, _) in ADDRESS {
        size += usize::from(least);
    }
    size
}

fn entry_of(number: u64, value: &[u8]) -> Made<Vec<u8>> {
    let mut entry = Vec::new();
    entry.write(VarInt::from_u64(number)?)?;
    entry.write(VarInt::from_u64(value.len() as u64)?)?;
    entry.extend_from_slice(value);
    Ok(entry)
}

fn read(side: Side, list: &[u8]) -> Result<TransportParameters, Refusal> {
    TransportParameters::read_list(side, ReadOptions::QUINN, list)
}

fn write_value(line: &mut Line, names: &Names, value: Value) -> Made<()> {
    match value {
        Value::Number(number) => {
            line.text("kind", "number");
            line.text_if_any("unit", names.unit);
            write_number(line, names, number)?;
        }
        Value::Flag => {
            line.text("kind", "flag");
            write_bytes(line, names, 0, 0)?;
        }
        Value::Token(_) => {
            line.text("kind", "bytes");
            write_bytes(line, names, 16, 16)?;
        }
        Value::Id(_) => {
            line.text("kind", "id");
            write_bytes(line, names, 0, 20)?;
        }
        Value::Address(_) => line.text("kind", "preferred_address"),
    }
    Ok(())
}

// The least and the most bytes of a value, which are compared with what is accepted.
fn write_bytes(line: &mut Line, names: &Names, least: usize, most: usize) -> Made<()> {
    for len in 0..=64usize {
        let value = ONES.get(..len).unwrap_or_default();
        let entry = entry_of(names.number, value)?;
        let is_accepted = read(Side::Client, entry.as_slice()).is_ok();
        if is_accepted != (least <= len && len <= most) {
            return Err("a transport parameter has other bounds".into());
        }
    }
    line.bytes(least as u64, most as u64);
    Ok(())
}

// The default and the bounds of a number, which are compared with what is accepted.
fn write_number(line: &mut Line, names: &Names, number: VarInt) -> Made<()> {
    if let Some(default) = default_of(names.id) {
        line.number("default", default.into_inner());
    }
    if names.least > 0 {
        line.number("min", names.least);
    }
    let most = match names.most {
        Most::Any => GREATEST,
        Most::Number(most) => {
            line.number("max", most);
            most
        }
        Most::Times(times) => {
            line.open("max_of", "{");
            line.number("times", times);
            line.text("parameter", "max_ack_delay");
            line.close("}");
            let delay = TransportParameters::default().max_ack_delay.into_inner();
            times.saturating_mul(delay)
        }
    };
    check_bounds(names, most)?;
    let wide = (3 << 62 | number.into_inner()).to_be_bytes();
    let entry = entry_of(names.number, &wide)?;
    write_readings(line, "any_width", entry.as_slice());
    Ok(())
}

fn check_bounds(names: &Names, most: u64) -> Made<()> {
    let is_lowest = names.least == 0 || !is_accepted(names, names.least - 1)?;
    let is_highest = most >= GREATEST || !is_accepted(names, most + 1)?;
    let are_accepted = is_accepted(names, names.least)? && is_accepted(names, most)?;
    if is_lowest && is_highest && are_accepted {
        return Ok(());
    }
    Err("a transport parameter has other bounds".into())
}

// Whether a number is accepted.
fn is_accepted(names: &Names, number: u64) -> Made<bool> {
    let mut value = Vec::new();
    value.write(VarInt::from_u64(number)?)?;
    let entry = entry_of(names.number, value.as_slice())?;
    Ok(read(Side::Client, entry.as_slice()).is_ok())
}

// The number that a parameter has if it is absent; `None` if it then has none.
fn default_of(id: TransportParameterId) -> Option<VarInt> {
    let record = TransportParameters::default();
    match id {
        MaxIdleTimeout => Some(record.max_idle_timeout),
        MaxUdpPayloadSize => Some(record.max_udp_payload_size),
        InitialMaxData => Some(record.initial_max_data),
        InitialMaxStreamDataBidiLocal => Some(record.initial_max_stream_data_bidi_local),
        InitialMaxStreamDataBidiRemote => Some(record.initial_max_stream_data_bidi_remote),
        InitialMaxStreamDataUni => Some(record.initial_max_stream_data_uni),
        InitialMaxStreamsBidi => Some(record.initial_max_streams_bidi),
        InitialMaxStreamsUni => Some(record.initial_max_streams_uni),
        AckDelayExponent => Some(record.ack_delay_exponent),
        MaxAckDelay => Some(record.max_ack_delay),
        ActiveConnectionIdLimit => Some(record.active_connection_id_limit),
        MaxDatagramFrameSize => record.max_datagram_frame_size,
        MinAckDelayDraft07 => record.min_ack_delay,
        ReservedTransportParameter | StatelessResetToken | DisableActiveMigration => None,
        PreferredAddress | OriginalDestinationConnectionId | InitialSourceConnectionId => None,
        RetrySourceConnectionId | GreaseQuicBit => None,
    }
}

// Who may send an entry, and whether a list may have it twice.
fn write_rules(line: &mut Line, entry: &[u8]) {
    line.open("senders", "[");
    if read(Side::Server, entry).is_ok() {
        line.word("client");
    }
    line.word("server");
    line.close("]");
    let mut twice = Vec::new();
    twice.extend_from_slice(entry);
    twice.extend_from_slice(entry);
    write_readings(line, "repeat", twice.as_slice());
}

// Whether a list is accepted as quinn-proto reads it, and as RFC 9000 says.
fn write_readings(line: &mut Line, name: &str, list: &[u8]) {
    let by_rfc = TransportParameters::read_list(Side::Client, ReadOptions::RFC, list);
    line.open(name, "{");
    line.flag("quinn_proto", read(Side::Client, list).is_ok());
    line.flag("rfc", by_rfc.is_ok());
    line.close("}");
}

/// A line for each field of a preferred address.
pub(crate) fn address_lines() -> Vec<Line> {
    let mut lines = Vec::new();
    for (name, least, most) in ADDRESS {
        let mut line = Line::new();
        line.named(name);
        if least < most {
            line.text("kind", "id");
            line.length_if_any("Connection ID Length");
        } else {
            line.text("kind", "bytes");
        }
        line.bytes(u64::from(least), u64::from(most));
        line.close("}");
        lines.push(line);
    }
    lines
}
