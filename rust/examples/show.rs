//! show MODE: prints what `quic-show` prints, with the same text and status, in all of its modes: `frames`, `strict`,
//! `canon`, `datagram LEN`, `params SIDE`.
use quic_wire::canonical::canonical;
use quic_wire::datagram::{HeaderError, HeaderKind, PacketRef, Packets};
use quic_wire::frame::Iter;
use quic_wire::packet::DEFAULT_SUPPORTED_VERSIONS;
use quic_wire::transport_error::Error;
use quic_wire::transport_parameters::{self, PreferredAddress, TransportParameters};
use quic_wire::{MAX_CID_SIZE, Side};
use std::env;
use std::io::{self, Read, Write};
use std::process::ExitCode;

fn unhex(line: &[u8]) -> Option<Vec<u8>> {
    let digits = line.iter().map(|byte| char::from(*byte).to_digit(16)).collect::<Option<Vec<_>>>()?;
    let pairs = digits.chunks_exact(2);
    pairs.remainder().is_empty().then(|| pairs.map(|pair| (pair[0] * 16 + pair[1]) as u8).collect())
}

fn print_frames(found: Result<Iter<'_>, Error>, out: &mut impl Write) -> io::Result<bool> {
    let mut frames = match found {
        Ok(frames) => frames,
        Err(empty) => {
            writeln!(out, "error {}", empty.reason)?;
            return Ok(false);
        }
    };
    let mut start = 0;
    while let Some(item) = frames.next() {
        match item {
            Ok(frame) => writeln!(out, "{start}..{} {}", frames.offset(), frame.ty())?,
            Err(error) => {
                writeln!(out, "error {error}")?;
                return Ok(false);
            }
        }
        start = frames.offset();
    }
    Ok(true)
}

fn print_canonical(payload: &[u8], out: &mut impl Write) -> io::Result<bool> {
    let mut bytes = Vec::with_capacity(payload.len());
    match canonical(payload, &mut bytes) {
        Ok(_) => writeln!(out, "{}", id(&bytes))?,
        Err(error) => {
            writeln!(out, "error {error}")?;
            return Ok(false);
        }
    }
    Ok(true)
}

fn id(bytes: &[u8]) -> String {
    if bytes.is_empty() { "-".into() } else { bytes.iter().map(|byte| format!("{byte:02x}")).collect() }
}

fn long(kind: &str, dst: &[u8], src: &[u8], version: u32) -> String {
    format!("{kind} dst {} src {} version {version:08x}", id(dst), id(src))
}

fn packet(packet: &PacketRef<'_>) -> String {
    let header = packet.header();
    let kind = match header.kind() {
        HeaderKind::Short => return format!("short dst {}", id(packet.dst_cid())),
        HeaderKind::Initial => "initial",
        HeaderKind::ZeroRtt => "0rtt",
        HeaderKind::Handshake => "handshake",
        HeaderKind::Retry => "retry",
        HeaderKind::VersionNegotiate => "version-negotiation",
    };
    let front = long(kind, packet.dst_cid(), packet.src_cid(), header.version());
    let token = header.token_pos();
    if kind == "initial" { format!("{front} token {}..{}", token.start, token.end) } else { front }
}

// In an unknown version an id may have up to 255 bytes, but `quic-show` rejects one of more than 20 there too.
fn refusal(error: &HeaderError, rest: &[u8]) -> String {
    match error {
        HeaderError::UnsupportedVersion(packet)
            if packet.src_cid(rest).len().max(packet.dst_cid(rest).len()) > MAX_CID_SIZE =>
        {
            "malformed cid".into()
        }
        _ => error.to_string(),
    }
}

fn print_packets(datagram: &[u8], cid_len: usize, out: &mut impl Write) -> io::Result<bool> {
    let mut packets = Packets::new(datagram, cid_len, DEFAULT_SUPPORTED_VERSIONS, false);
    while let Some(item) = packets.next() {
        match item {
            Ok(found) => {
                let place = found.place().range();
                writeln!(out, "{}..{} {}", place.start, place.end, packet(&found))?;
            }
            Err(error) => {
                writeln!(out, "error {}", refusal(&error, packets.rest()))?;
                return Ok(false);
            }
        }
    }
    Ok(true)
}

fn address(a: &PreferredAddress) -> String {
    let (v4, v6) =
        (a.address_v4.map_or([0; 4], |s| s.ip().octets()), a.address_v6.map_or([0; 16], |s| s.ip().octets()));
    let ports = (a.address_v4.map_or(0, |s| s.port()), a.address_v6.map_or(0, |s| s.port()));
    let front = [&v4[..], &ports.0.to_be_bytes(), &v6, &ports.1.to_be_bytes(), &[a.connection_id.len() as u8]].concat();
    id(&[&front[..], &a.connection_id[..], &a.stateless_reset_token[..]].concat())
}

fn print_params(side: Side, list: &[u8], out: &mut impl Write) -> io::Result<bool> {
    let p = match TransportParameters::read(side, &mut &list[..]) {
        Ok(p) => p,
        Err(error) => {
            let is_illegal = error == transport_parameters::Error::IllegalValue;
            writeln!(out, "error {}", if is_illegal { "illegal value" } else { "malformed" })?;
            return Ok(false);
        }
    };
    for ((name, number), (_, normal)) in numbers(&p).into_iter().zip(numbers(&TransportParameters::default())) {
        if number != normal {
            writeln!(out, "{name} {number}")?;
        }
    }
    let others = [
        ("stateless_reset_token", p.stateless_reset_token.map(|t| id(&t))),
        ("disable_active_migration", p.disable_active_migration.then(|| "true".into())),
        ("max_datagram_frame_size", p.max_datagram_frame_size.map(|n| n.to_string())),
        ("preferred_address", p.preferred_address.as_ref().map(address)),
        ("original_dst_cid", p.original_dst_cid.map(|cid| id(&cid))),
        ("initial_src_cid", p.initial_src_cid.map(|cid| id(&cid))),
        ("retry_src_cid", p.retry_src_cid.map(|cid| id(&cid))),
        ("grease_quic_bit", p.grease_quic_bit.then(|| "true".into())),
        ("min_ack_delay", p.min_ack_delay.map(|n| n.to_string())),
    ];
    for (name, text) in others {
        if let Some(text) = text {
            writeln!(out, "{name} {text}")?;
        }
    }
    writeln!(out, "ok")?;
    Ok(true)
}

fn numbers(p: &TransportParameters) -> [(&'static str, u64); 11] {
    [
        ("max_idle_timeout", p.max_idle_timeout.into_inner()),
        ("max_udp_payload_size", p.max_udp_payload_size.into_inner()),
        ("initial_max_data", p.initial_max_data.into_inner()),
        ("initial_max_stream_data_bidi_local", p.initial_max_stream_data_bidi_local.into_inner()),
        ("initial_max_stream_data_bidi_remote", p.initial_max_stream_data_bidi_remote.into_inner()),
        ("initial_max_stream_data_uni", p.initial_max_stream_data_uni.into_inner()),
        ("initial_max_streams_bidi", p.initial_max_streams_bidi.into_inner()),
        ("initial_max_streams_uni", p.initial_max_streams_uni.into_inner()),
        ("ack_delay_exponent", p.ack_delay_exponent.into_inner()),
        ("max_ack_delay", p.max_ack_delay.into_inner()),
        ("active_connection_id_limit", p.active_connection_id_limit.into_inner()),
    ]
}

enum Mode {
    Frames,
    Strict,
    Canon,
    Datagram(usize),
    Params(Side),
}

fn mode_of(words: &[&str]) -> Option<Mode> {
    Some(match words {
        ["frames"] => Mode::Frames,
        ["strict"] => Mode::Strict,
        ["canon"] => Mode::Canon,
        ["params", "client"] => Mode::Params(Side::Client),
        ["params", "server"] => Mode::Params(Side::Server),
        ["datagram", len] if len.len() <= 2 && len.bytes().all(|byte| byte.is_ascii_digit()) => {
            Mode::Datagram(len.parse().ok().filter(|len| *len <= MAX_CID_SIZE)?)
        }
        _ => return None,
    })
}

fn print(mode: &Mode, line: &[u8], out: &mut impl Write) -> io::Result<bool> {
    let Some(bytes) = unhex(line) else {
        writeln!(out, "error not hexadecimal")?;
        return Ok(false);
    };
    match mode {
        Mode::Frames => print_frames(Iter::new(&bytes), out),
        Mode::Strict => print_frames(Iter::strict(&bytes), out),
        Mode::Canon => print_canonical(&bytes, out),
        Mode::Datagram(len) => print_packets(&bytes, *len, out),
        Mode::Params(side) => print_params(*side, &bytes, out),
    }
}

// Reads all before it prints, as `quic-show` does.
fn main() -> ExitCode {
    let words: Vec<String> = env::args_os().skip(1).map(|word| word.into_string().unwrap_or_default()).collect();
    let Some(mode) = mode_of(&words.iter().map(String::as_str).collect::<Vec<_>>()) else {
        eprintln!("usage: show frames|strict|canon|datagram LEN|params client|server");
        return ExitCode::from(2);
    };
    let mut input = Vec::new();
    if io::stdin().lock().read_to_end(&mut input).is_err() {
        eprintln!("show: read failed");
        return ExitCode::from(3);
    }
    let mut lines: Vec<&[u8]> = input.split(|byte| *byte == b'\n').collect();
    if lines.last().is_some_and(|last| last.is_empty()) {
        lines.pop();
    }
    let mut out = io::BufWriter::new(io::stdout().lock());
    let all = lines.into_iter().map(|line| print(&mode, line.strip_suffix(b"\r").unwrap_or(line), &mut out));
    let clean = all.collect::<io::Result<Vec<bool>>>().and_then(|answers| {
        out.flush()?;
        Ok(answers.into_iter().all(|answer| answer))
    });
    match clean {
        Ok(clean) => ExitCode::from(u8::from(!clean)),
        Err(_) => {
            eprintln!("show: write failed");
            ExitCode::from(3)
        }
    }
}
