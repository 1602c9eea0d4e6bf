//! The handshake: its TLS messages, and when it is done.

use super::packets::{begin, is_to_retry};
use crate::about::{About, Held};
use crate::claim::{Claim, is_unconfirmed};
use crate::rule::{Broken, Check, Checked, History, Need, Rule, Section, Types};
use quic_wire::Side;
use quic_wire::datagram::HeaderKind;
use quic_wire::frame::{Crypto, Frame};
use quic_wire::ids::SpaceId;
use quic_wire_capture::opened::Opened;

// Types of TLS messages (RFC 8446, section 4).
const END_OF_EARLY_DATA: u8 = 5;
const CERTIFICATE_REQUEST: u8 = 13;
const KEY_UPDATE: u8 = 24;

// Where in a ClientHello the length of legacy_session_id is: after its type, length, version and random bytes.
const SESSION_ID: u64 = 1 + 3 + 2 + 32;

pub(super) static RULES: &[Rule] = &[
    Rule::must(
        "retry-hello",
        "17.2.5.3",
        "After a Retry a client sends the same handshake message as before.",
        Check::Frame(Types::CRYPTO, retry_hello),
    )
    .with(History::Before, &[Need::Begin]),
    Rule::must(
        "session-id",
        "8.4",
        "A ClientHello has an empty legacy_session_id: there is no middlebox compatibility mode.",
        Check::Frame(Types::CRYPTO, session_id),
    )
    .of(9001),
    Rule::must(
        "tls-message",
        "6",
        "No KeyUpdate, no EndOfEarlyData and, after the handshake, no CertificateRequest of TLS is sent.",
        Check::Frame(Types::CRYPTO, tls_message),
    )
    .of(9001)
    .with(History::Before, &[Need::Begin]),
    Rule::must(
        "crypto-version",
        "4.1",
        "A server sends all CRYPTO frames in packets of the version that is negotiated.",
        Check::Frame(Types::CRYPTO, crypto_version),
    )
    .of(9369)
    .with(History::Before, &[Need::Begin]),
    Rule::must(
        "early-version",
        "4.1",
        "A client sends 0-RTT packets in its first version, not in the one that the server negotiated.",
        Check::Packet(early_version),
    )
    .of(9369)
    .with(History::Before, &[Need::Begin]),
    Rule::must(
        "early-done",
        "19.20",
        "A server sends HANDSHAKE_DONE only once the client has sent a Handshake packet.",
        Check::Frame(Types::HANDSHAKE_DONE, early_done),
    )
    .with(History::Whole, &[Need::Begin, Need::PeerPackets, Need::OwnPackets, Need::Order, Need::Time, Need::End]),
];

fn retry_hello(about: &About<'_>, opened: &Opened<'_>, held: &Held<'_>) -> Checked {
    let Frame::Crypto(crypto) = held.frame else { return Ok(None) };
    if opened.kind() != HeaderKind::Initial || !is_to_retry(about, opened) {
        return Ok(None);
    }
    let same = |(offset, bytes): &(u64, Vec<u8>)| {
        let begin = crypto.offset.max(*offset);
        let [one, two] = [(crypto.offset, crypto.bytes), (*offset, &bytes[..])]
            .map(|(offset, bytes)| usize::try_from(begin - offset).ok().and_then(|at| bytes.get(at..)));
        let mut pairs = one.unwrap_or_default().iter().zip(two.unwrap_or_default());
        pairs.all(|(one, two)| one == two)
    };
    if about.history.hello.iter().all(same) {
        return Ok(None);
    }
    Broken::new("CRYPTO data that differ from those before the Retry", "the same data")
        .in_payload(held.range.start)
        .found()
}

// Where in the payload data of a CRYPTO frame begin.
fn data_at(held: &Held<'_>, crypto: &Crypto<'_>) -> usize {
    held.range.end - crypto.bytes.len()
}

fn session_id(about: &About<'_>, opened: &Opened<'_>, held: &Held<'_>) -> Checked {
    let Frame::Crypto(crypto) = held.frame else { return Ok(None) };
    let is_hello = about.sender == Side::Client && opened.kind() == HeaderKind::Initial;
    let at = SESSION_ID.checked_sub(crypto.offset).and_then(|at| usize::try_from(at).ok()).filter(|_| is_hello);
    match at.and_then(|at| Some((at, *crypto.bytes.get(at)?))) {
        None | Some((_, 0)) => Ok(None),
        Some((at, len)) => Broken::new(format!("a legacy_session_id of {len} bytes"), "none")
            .in_payload(data_at(held, crypto) + at)
            .found(),
    }
}

fn tls_message(about: &About<'_>, opened: &Opened<'_>, held: &Held<'_>) -> Checked {
    let Frame::Crypto(crypto) = held.frame else { return Ok(None) };
    let name_of = |kind| match kind {
        KEY_UPDATE => Some(("6", "KeyUpdate")),
        END_OF_EARLY_DATA => Some(("8.3", "EndOfEarlyData")),
        CERTIFICATE_REQUEST if opened.space() == SpaceId::Data => Some(("4.4", "CertificateRequest")),
        _ => None,
    };
    let mut begun = about.own_half().messages[opened.space() as usize].begun_in(crypto);
    let Some(((number, name), at)) = begun.find_map(|(kind, at)| Some((name_of(kind)?, at))) else {
        return Ok(None);
    };
    let place = if opened.space() == SpaceId::Data { " in a 1-RTT packet" } else { "" };
    Broken::new(format!("the TLS message {name}{place}"), "none")
        .by_section(Section { rfc: 9001, number })
        .in_payload(data_at(held, crypto) + at)
        .found()
}

// The last message of the client's handshake is in a Handshake packet.
fn early_done(about: &About<'_>, _: &Opened<'_>, held: &Held<'_>) -> Checked {
    if !is_unconfirmed(about.history, about.sender) {
        return Ok(None);
    }
    Broken::new("HANDSHAKE_DONE before any Handshake packet of the client", "none before the handshake is complete")
        .in_payload(held.range.start)
        .if_still(Claim::Unconfirmed)
        .found()
}

// A server that needs a Version Negotiation sends no CRYPTO in the version that it doesn't speak.
fn crypto_version(about: &About<'_>, opened: &Opened<'_>, held: &Held<'_>) -> Checked {
    let before = about.own_half().crypto_version;
    let is_bound = about.sender == Side::Server && opened.kind() != HeaderKind::Short;
    let version = opened.packet().header().version();
    let Some(before) = before.filter(|before| is_bound && *before != version) else { return Ok(None) };
    Broken::new(format!("CRYPTO in a packet of version {version:#x}, after one of {before:#x}"), "only one version")
        .in_payload(held.range.start)
        .found()
}

fn early_version(about: &About<'_>, opened: &Opened<'_>) -> Checked {
    let version = opened.packet().header().version();
    let is_negotiated = !about.peer_half().sources.is_empty() && version == about.connection.version();
    let first = about.history.original_version.filter(|first| is_negotiated && *first != version);
    let Some(first) = first.filter(|_| opened.kind() == HeaderKind::ZeroRtt) else { return Ok(None) };
    Broken::new(format!("a 0-RTT packet of version {version:#x}, which the server negotiated"), format!("{first:#x}"))
        .at(begin(opened) + 1)
        .found()
}
