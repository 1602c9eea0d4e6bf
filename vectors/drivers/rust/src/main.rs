//! Answers the lines of test vectors that need a single call of the crate quic-wire; all others are `skip`.
use quic_wire::canonical::canonical;
use quic_wire::datagram::{Header, PacketPlace, VersionNegotiation};
use quic_wire::frame::{Iter, Rules};
use quic_wire::packet::{LongType, PacketNumber};
use quic_wire::reset::{self, is_reset};
use quic_wire::tls::{nonce, store_pseudo_packet};
use quic_wire::transport_parameters::TransportParameters;
use quic_wire::versions::{answer as answer_version, store};
use quic_wire::{Side, varint};
use std::collections::HashMap;
use std::io::{self, BufRead, Write};

const SAMPLE: usize = 16;
const RESERVED_LONG: u8 = 0x0c;
const RESERVED_SHORT: u8 = 0x18;

/// The fields of a line's context; `-` stands for none.
struct Context<'a>(HashMap<&'a str, &'a str>);

impl<'a> Context<'a> {
    fn new(words: &'a str) -> Self {
        Self(words.split(',').filter_map(|word| word.split_once('=')).collect())
    }

    fn text(&self, name: &str) -> Option<&'a str> {
        self.0.get(name).copied().filter(|text| *text != "-")
    }

    fn number(&self, name: &str) -> Option<u64> {
        self.text(name)?.parse().ok()
    }

    fn bytes(&self, name: &str) -> Option<Vec<u8>> {
        unhex(self.text(name).unwrap_or(""))
    }

    fn is_set(&self, name: &str) -> bool {
        self.number(name) == Some(1)
    }

    /// The packet number that is expected next.
    fn expected(&self) -> u64 {
        self.number("largest").map_or(0, |largest| largest + 1)
    }
}

fn unhex(digits: &str) -> Option<Vec<u8>> {
    (0..digits.len()).step_by(2).map(|i| u8::from_str_radix(digits.get(i..i + 2)?, 16).ok()).collect()
}

fn hex(bytes: &[u8]) -> String {
    bytes.iter().map(|byte| format!("{byte:02x}")).collect()
}

fn read_varint(bytes: &[u8]) -> Option<String> {
    let (value, len) = varint::read(bytes)?;
    Some(format!("{value} {len}"))
}

fn write_varint(number: &str) -> Option<String> {
    let mut out = Vec::new();
    varint::write(number.parse().ok()?, &mut out).ok()?;
    Some(hex(&out))
}

/// The low part of a packet number, in so many bytes.
fn low_part(number: u64, len: u64) -> Option<PacketNumber> {
    Some(match len {
        1 => PacketNumber::U8(number as u8),
        2 => PacketNumber::U16(number as u16),
        3 => PacketNumber::U24(number as u32 & 0xff_ffff),
        4 => PacketNumber::U32(number as u32),
        _ => return None,
    })
}

fn expand(context: &Context<'_>) -> Option<String> {
    let low = low_part(context.number("written")?, context.number("bits")? / 8)?;
    (context.expected() <= varint::MAX).then(|| low.expand(context.expected()).to_string())
}

fn number_length(context: &Context<'_>) -> Option<String> {
    let acked = context.number("acked").unwrap_or(0);
    PacketNumber::try_new(context.number("number")?, acked).map(|number| number.len().to_string())
}

/// The shortest payload, as a whole; written frame by frame it must be the same.
fn shortest(payload: &[u8]) -> Option<String> {
    let (mut out, mut by_frames) = (Vec::new(), Vec::new());
    canonical(payload, &mut out).ok()?;
    let mut frames = Iter::new(payload).ok()?;
    while let Some(frame) = frames.next() {
        frame.ok()?.encode(frames.offset() == payload.len(), &mut by_frames).ok()?;
    }
    Some(if by_frames == out { hex(&out) } else { format!("{} frame by frame {}", hex(&out), hex(&by_frames)) })
}

/// The list that was read, written by the side that sent it.
fn rewrite_parameters(list: &[u8], context: &Context<'_>) -> Option<String> {
    let reader = if context.text("from").is_some() { Side::Server } else { Side::Client };
    let (mut list, mut out) = (list, Vec::new());
    TransportParameters::read(reader, &mut list).ok()?.write(&mut out).ok()?;
    Some(hex(&out))
}

fn mask(context: &Context<'_>) -> Option<[u8; 5]> {
    context.bytes("mask")?.try_into().ok()
}

/// What is under the protection, or the code with which it is rejected.
fn unprotect(packet: &mut [u8], context: &Context<'_>) -> Result<String, &'static str> {
    let number = context.number("place").ok_or("?")? as usize;
    let place = PacketPlace::new(0..packet.len(), number);
    let sample = place.sample(packet, SAMPLE).map_err(|_| "DROP")?;
    if context.bytes("sample").as_deref() != Some(sample) {
        return Err("?");
    }
    let mask = mask(context).ok_or("?")?;
    let opened = place.unprotect(packet, &mask, context.expected()).map_err(|_| "DROP")?;
    let reserved = if packet[0] & 0x80 == 0 { RESERVED_SHORT } else { RESERVED_LONG };
    if opened.reserved_bits_valid() != (packet[0] & reserved == 0) {
        return Err("?");
    }
    if !opened.reserved_bits_valid() {
        return Err("PROTOCOL_VIOLATION");
    }
    let written = &packet[number..opened.payload];
    Ok(format!("{:02x} {} {}", opened.first, hex(written), opened.number))
}

fn protect(packet: &mut [u8], context: &Context<'_>) -> Option<String> {
    let place = PacketPlace::new(0..packet.len(), context.number("place")? as usize);
    place.protect(packet, &mask(context)?).ok()?;
    Some(hex(packet))
}

/// Whether a payload is read without the ACK frequency extension; the program `quic-wire` always has it.
fn read_basic(payload: &[u8]) -> String {
    let rules = Rules { no_ack_frequency: true, ..Rules::default() };
    match Iter::with_rules(payload, rules).map(|mut frames| frames.all(|frame| frame.is_ok())) {
        Err(_) => "invalid PROTOCOL_VIOLATION".into(),
        Ok(false) => "invalid FRAME_ENCODING_ERROR".into(),
        Ok(true) => "valid".into(),
    }
}

/// Versions in hexadecimal with `+` between them, or none.
fn versions(context: &Context<'_>, name: &str) -> Option<Vec<u32>> {
    let items = context.text(name).unwrap_or_default().split_terminator('+');
    items.map(|version| u32::from_str_radix(version, 16).ok()).collect()
}

fn write_negotiation(context: &Context<'_>, dst_cid: &[u8], src_cid: &[u8]) -> Option<String> {
    let random = u8::from_str_radix(context.text("unused")?, 16).ok()?;
    let versions = versions(context, "supported")?;
    let mut out = Vec::new();
    VersionNegotiation { random, dst_cid, src_cid, versions: &versions }.encode(&mut out).ok()?;
    Some(hex(&out))
}

/// What stands beside frames, headers and parameters.
fn layer(form: &str, input: &[u8], context: &Context<'_>) -> Option<String> {
    let mut out = [0; 256];
    let len = match form {
        "nonce" => return Some(hex(&nonce(context.bytes("iv")?.try_into().ok()?, context.number("number")?))),
        "reset-read" => {
            let token: [u8; 16] = context.bytes("token")?.try_into().ok()?;
            return Some(u8::from(is_reset(input, &token.into())).to_string());
        }
        "reset-write" => {
            let token: [u8; 16] = context.bytes("token")?.try_into().ok()?;
            reset::store(&context.bytes("unpredictable")?, &token.into(), &mut out)
        }
        "retry-pseudo" => store_pseudo_packet(&context.bytes("odcid")?, input, &mut out),
        "version-information-write" => {
            let chosen = u32::from_str_radix(context.text("chosen")?, 16).ok()?;
            store(chosen, &versions(context, "available")?, &mut out)
        }
        _ => {
            let unused = u8::from_str_radix(context.text("unused")?, 16).ok()?;
            answer_version(unused, input, &versions(context, "supported")?, &mut out)
        }
    };
    Some(hex(&out[..len?]))
}

fn write_header(context: &Context<'_>) -> Option<String> {
    let (dcid, scid, token) = (context.bytes("dcid")?, context.bytes("scid")?, context.bytes("token")?);
    let (dst_cid, src_cid, token) = (&dcid[..], &scid[..], &token[..]);
    if context.text("kind") == Some("vn") {
        return write_negotiation(context, dst_cid, src_cid);
    }
    let version = u32::from_str_radix(context.text("version").unwrap_or("0"), 16).ok()?;
    // A Retry has none.
    let len = context.number("number_length").unwrap_or(1);
    let number = low_part(context.number("number").unwrap_or(0), len)?;
    let header = match context.text("kind")? {
        "initial" => Header::Initial { dst_cid, src_cid, token, number, version },
        "0rtt" => Header::Long { ty: LongType::ZeroRtt, dst_cid, src_cid, number, version },
        "handshake" => Header::Long { ty: LongType::Handshake, dst_cid, src_cid, number, version },
        "retry" => Header::Retry { dst_cid, src_cid, version },
        _ => Header::Short { spin: context.is_set("spin"), key_phase: context.is_set("key_phase"), dst_cid, number },
    };
    let mut out = vec![0; header.encoded_len().ok()?];
    let written = header.encode_with(context.is_set("grease"), &mut out).ok()?;
    let end = out.len();
    if let Some(length) = context.number("length") {
        out.resize(written.number + length as usize, 0);
        written.set_len(&mut out).ok()?;
    }
    Some(hex(&out[..end]))
}

fn answer(line: &str) -> Option<String> {
    let mut words = line.split(' ');
    let (form, context, input) = (words.next()?, Context::new(words.next()?), words.next()?);
    let input = if input == "-" { "" } else { input };
    let mut bytes = if form == "varint-write" { Vec::new() } else { unhex(input)? };
    let found = match form {
        "varint-read" => read_varint(&bytes),
        "varint-write" => write_varint(input),
        "number-expand" => expand(&context),
        "number-length" => number_length(&context),
        "params-write" => rewrite_parameters(&bytes, &context),
        "shortest" => shortest(&bytes),
        "protect" => protect(&mut bytes, &context),
        // The crate's headers have only the low part of a number.
        "header-write" if context.number("number") > Some(varint::MAX) => return Some("skip".into()),
        "header-write" => write_header(&context),
        "nonce"
        | "retry-pseudo"
        | "version-information-write"
        | "reset-write"
        | "reset-read"
        | "negotiation-answer" => layer(form, &bytes, &context),
        "payload" if context.text("without").is_some() => return Some(read_basic(&bytes)),
        "unprotect" => match unprotect(&mut bytes, &context) {
            Ok(found) => Some(found),
            Err(code) => return Some(format!("invalid {code}")),
        },
        _ => return Some("skip".into()),
    };
    Some(found.map_or("invalid".into(), |text| format!("valid \"{text}\"")))
}

fn main() -> io::Result<()> {
    let mut out = io::stdout().lock();
    for line in io::stdin().lock().lines() {
        let line = line?;
        writeln!(out, "{}", answer(line.trim_end()).unwrap_or_else(|| format!("not a line: {line}")))?;
        out.flush()?;
    }
    Ok(())
}
