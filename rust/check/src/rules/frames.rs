//! Frames by themselves, and those that name no stream and no id.

use crate::about::{About, Faulty, Held, name_of};
use crate::claim::Claim;
use crate::rule::{Broken, Check, Checked, History, Need, Rule, Section, Types};
use quic_wire::Side;
use quic_wire::datagram::HeaderKind;
use quic_wire::frame::{ApplicationClose, Close, ConnectionClose, Frame};
use quic_wire::ids::{MIN_INITIAL_SIZE, SpaceId};
use quic_wire::permitted::Forbidden;
use quic_wire_capture::opened::Opened;

// Why the library rejects a frame.
const UNKNOWN: &str = "invalid frame ID";
const LONG_TYPE: &str = "frame type not in shortest form";
const MALFORMED: &str = "malformed";

// The error code of a CONNECTION_CLOSE that stands for one of the application (RFC 9000, section 20.1).
const APPLICATION_ERROR: u64 = 0x0c;

pub(super) static RULES: &[Rule] = &[
    Rule::must("empty-payload", "12.4", "A packet has at least a frame.", Check::Empty(empty_payload)),
    Rule::must(
        "unknown-frame",
        "12.4",
        "A frame has a type that is defined, or one that the receiver permits by an extension.",
        Check::Invalid(unknown_frame),
    )
    .with(History::Before, &[Need::PeerParameters, Need::NoExtension]),
    Rule::must("long-frame-type", "12.4", "A frame's type is in its shortest encoding.", Check::Invalid(long_type)),
    Rule::must(
        "frame-fields",
        "19",
        "A frame has all of its fields, each in the range that its section gives.",
        Check::Invalid(fields),
    ),
    Rule::must(
        "frame-in-packet",
        "12.4",
        "A packet carries only frames that table 3 permits for its type.",
        Check::Forbidden(in_packet),
    ),
    Rule::must("frame-sender", "19", "Only servers send NEW_TOKEN and HANDSHAKE_DONE.", Check::Forbidden(frame_sender)),
    Rule::must(
        "ack-unsent",
        "13.1",
        "An ACK acknowledges only packet numbers that were sent.",
        Check::Frame(Types::ACK, ack_unsent),
    )
    .with(History::Whole, &[Need::Begin, Need::Proof]),
    Rule::must(
        "datagram-size",
        "3",
        "A DATAGRAM needs the receiver's max_datagram_frame_size, and has at most so many bytes.",
        Check::Frame(Types::DATAGRAM, datagram_size),
    )
    .of(9221)
    .with(History::Before, &[Need::PeerParameters, Need::OneRtt]),
    Rule::must(
        "path-response",
        "19.18",
        "A PATH_RESPONSE has the data of a PATH_CHALLENGE of the peer.",
        Check::Frame(Types::PATH_RESPONSE, path_response),
    )
    .with(History::Whole, &[Need::Begin, Need::PeerPackets, Need::OwnPackets, Need::End]),
    Rule::must(
        "response-twice",
        "8.2.2",
        "A PATH_CHALLENGE is answered by at most one PATH_RESPONSE.",
        Check::Frame(Types::PATH_RESPONSE, response_twice),
    )
    .with(History::Whole, &[Need::Begin, Need::PeerPackets, Need::OwnPackets, Need::End]),
    Rule::must(
        "response-path",
        "8.2.2",
        "A server sends PATH_RESPONSE to the address from which the PATH_CHALLENGE came.",
        Check::Frame(Types::PATH_RESPONSE, response_path),
    )
    .with(History::Whole, &[Need::End]),
    Rule::must(
        "challenge-data",
        "8.2.1",
        "Each PATH_CHALLENGE has data of its own.",
        Check::Frame(Types::PATH_CHALLENGE, challenge_data),
    )
    .with(History::Before, &[]),
    Rule::must(
        "close-reason",
        "10.2.3",
        "A CONNECTION_CLOSE with APPLICATION_ERROR in an Initial or Handshake packet has an empty reason phrase.",
        Check::Frame(Types::CLOSE, close_reason),
    ),
    Rule::must(
        "reason-text",
        "19.19",
        "The reason phrase of a CONNECTION_CLOSE is UTF-8.",
        Check::Frame(Types::CLOSE, reason_text),
    )
    .should(),
    Rule::must(
        "path-size",
        "8.2.1",
        "A datagram with a PATH_CHALLENGE or PATH_RESPONSE has at least 1200 bytes, if the address is validated.",
        Check::Frame(Types::PATHS, path_size),
    )
    .with(History::Before, &[Need::ValidAddress]),
];

/// The section of a type of frames.
pub(super) fn section_of(ty: u64) -> Section {
    Section::of_quic(match ty {
        0x00 => "19.1",
        0x01 => "19.2",
        0x02 | 0x03 => "19.3",
        0x04 => "19.4",
        0x05 => "19.5",
        0x06 => "19.6",
        0x07 => "19.7",
        0x08..=0x0f => "19.8",
        0x10 => "19.9",
        0x11 => "19.10",
        0x12 | 0x13 => "19.11",
        0x14 => "19.12",
        0x15 => "19.13",
        0x16 | 0x17 => "19.14",
        0x18 => "19.15",
        0x19 => "19.16",
        0x1a => "19.17",
        0x1b => "19.18",
        0x1c | 0x1d => "19.19",
        0x1e => "19.20",
        0x30 | 0x31 => return Section { rfc: 9221, number: "4" },
        _ => "12.4",
    })
}

fn empty_payload(_: &About<'_>, _: &Opened<'_>) -> Checked {
    Broken::new("a payload of 0 bytes", "a frame").in_payload(0).found()
}

fn unknown_frame(about: &About<'_>, opened: &Opened<'_>, faulty: &Faulty<'_>) -> Checked {
    if faulty.error.reason != UNKNOWN {
        return Ok(None);
    }
    // In Initial packets no extension is negotiated.
    if opened.kind() != HeaderKind::Initial {
        about.limits()?;
        if about.peer_half().has_extension || about.own_half().has_extension {
            return Err(Need::NoExtension);
        }
    }
    let ty = faulty.ty.map_or_else(String::new, |ty| format!(" {ty:#x}"));
    Broken::new(format!("a frame of the unknown type{ty}"), "a type that is defined").in_payload(faulty.offset).found()
}

fn long_type(_: &About<'_>, _: &Opened<'_>, faulty: &Faulty<'_>) -> Checked {
    if faulty.error.reason != LONG_TYPE {
        return Ok(None);
    }
    let name = faulty.ty.map_or_else(String::new, name_of);
    let seen = format!("the type of {name} in more bytes than it needs");
    Broken::new(seen, "the shortest encoding").in_payload(faulty.offset).found()
}

fn fields(_: &About<'_>, _: &Opened<'_>, faulty: &Faulty<'_>) -> Checked {
    if [UNKNOWN, LONG_TYPE].contains(&faulty.error.reason) {
        return Ok(None);
    }
    let at = faulty.offset + faulty.fault.map_or(0, |fault| fault.start + fault.inside);
    let section = match faulty.ty {
        Some(0x02 | 0x03) if faulty.error.reason == MALFORMED => Section::of_quic("19.3.1"),
        ty => ty.map_or(Section::of_quic("12.4"), section_of),
    };
    let seen = format!("{} in {}", faulty.error.reason, faulty.ty.map_or_else(|| "a frame's type".into(), name_of));
    Broken::new(seen, "a whole frame, with fields in range").by_section(section).in_payload(at).found()
}

fn in_packet(opened: &Opened<'_>, held: &Held<'_>, why: Forbidden) -> Checked {
    if why != Forbidden::Packet {
        return Ok(None);
    }
    let (section, name) = match opened.kind() {
        HeaderKind::Initial => ("17.2.2", "an Initial packet"),
        HeaderKind::ZeroRtt => ("17.2.3", "a 0-RTT packet"),
        HeaderKind::Handshake => ("17.2.4", "a Handshake packet"),
        _ => ("12.4", "a 1-RTT packet"),
    };
    let seen = format!("{} in {name}", name_of(held.ty));
    Broken::new(seen, "a frame that table 3 permits there").by(section).in_payload(held.range.start).found()
}

fn frame_sender(_: &Opened<'_>, held: &Held<'_>, why: Forbidden) -> Checked {
    if why != Forbidden::Sender {
        return Ok(None);
    }
    let seen = format!("{} from a client", name_of(held.ty));
    Broken::new(seen, "one from a server").by_section(section_of(held.ty)).in_payload(held.range.start).found()
}

// What the peer had sent by then shows only by a later packet of it.
fn ack_unsent(about: &About<'_>, opened: &Opened<'_>, held: &Held<'_>) -> Checked {
    let Frame::Ack(ack) = held.frame else { return Ok(None) };
    let (space, number) = (opened.space(), ack.largest());
    let largest = about.peer().largest(space);
    if largest.is_some_and(|largest| number <= largest) {
        return Ok(None);
    }
    let most =
        largest.map_or("none: nothing was sent".into(), |one| format!("at most {one}, the largest that was sent"));
    let claim = Claim::Unsent { space, number, by: opened.number() };
    Broken::new(format!("an ACK of packet number {number}"), most).in_payload(held.range.start).if_still(claim).found()
}

fn datagram_size(about: &About<'_>, opened: &Opened<'_>, held: &Held<'_>) -> Checked {
    let Frame::Datagram(_) = held.frame else { return Ok(None) };
    // RFC 9221, section 3: to 0-RTT packets the parameter of the connection before applies.
    if opened.kind() == HeaderKind::ZeroRtt {
        return Err(Need::OneRtt);
    }
    let most = about.limits()?.max_datagram_frame_size.map_or(0, |most| most.into_inner());
    let size = held.range.len();
    if size as u64 <= most {
        return Ok(None);
    }
    let expected = if most == 0 { "none: the peer permits none".into() } else { format!("at most {most} bytes") };
    Broken::new(format!("a DATAGRAM of {size} bytes"), expected).in_payload(held.range.start).found()
}

fn path_response(about: &About<'_>, _: &Opened<'_>, held: &Held<'_>) -> Checked {
    let Frame::PathResponse(data) = held.frame else { return Ok(None) };
    if about.peer_half().challenges.contains_key(data) {
        return Ok(None);
    }
    let seen = format!("a PATH_RESPONSE with the data {data:016x}");
    Broken::new(seen, "the data of a PATH_CHALLENGE")
        .in_payload(held.range.start)
        .if_still(Claim::Answer(*data))
        .found()
}

fn response_twice(about: &About<'_>, _: &Opened<'_>, held: &Held<'_>) -> Checked {
    let Frame::PathResponse(data) = held.frame else { return Ok(None) };
    if !about.own_half().responses.contains_key(data) {
        return Ok(None);
    }
    let seen = format!("a second PATH_RESPONSE with the data {data:016x}");
    Broken::new(seen, "only one").in_payload(held.range.start).if_still(Claim::AnswerAgain(*data)).found()
}

// A client may be behind a NAT that changes its port between both.
fn response_path(about: &About<'_>, _: &Opened<'_>, held: &Held<'_>) -> Checked {
    let Frame::PathResponse(data) = held.frame else { return Ok(None) };
    let (to, is_server) = (about.datagram.to, about.sender == Side::Server);
    let challenge = about.peer_half().challenges.get(data).filter(|path| is_server && path.from != to);
    let Some(path) = challenge else { return Ok(None) };
    Broken::new(format!("a PATH_RESPONSE to {to}"), format!("one to {}", path.from))
        .in_payload(held.range.start)
        .if_still(Claim::AnswerTo(*data, to))
        .found()
}

fn challenge_data(about: &About<'_>, _: &Opened<'_>, held: &Held<'_>) -> Checked {
    let Frame::PathChallenge(data) = held.frame else { return Ok(None) };
    if !about.own_half().challenges.contains_key(data) {
        return Ok(None);
    }
    Broken::new(format!("a second PATH_CHALLENGE with the data {data:016x}"), "other data")
        .in_payload(held.range.start)
        .found()
}

fn close_reason(_: &About<'_>, opened: &Opened<'_>, held: &Held<'_>) -> Checked {
    let Frame::Close(Close::Connection(close)) = held.frame else { return Ok(None) };
    let is_converted = opened.space() != SpaceId::Data && u64::from(close.error_code) == APPLICATION_ERROR;
    if !is_converted || close.reason.is_empty() {
        return Ok(None);
    }
    Broken::new(format!("APPLICATION_ERROR with a reason phrase of {} bytes", close.reason.len()), "an empty one")
        .in_payload(held.range.start)
        .found()
}

fn reason_text(_: &About<'_>, _: &Opened<'_>, held: &Held<'_>) -> Checked {
    let Frame::Close(
        Close::Connection(ConnectionClose { reason, .. }) | Close::Application(ApplicationClose { reason, .. }),
    ) = held.frame
    else {
        return Ok(None);
    };
    let Err(error) = std::str::from_utf8(reason) else { return Ok(None) };
    let seen = format!("a reason phrase that isn't UTF-8 from byte {} of {} on", error.valid_up_to(), reason.len());
    Broken::new(seen, "UTF-8").in_payload(held.range.end - reason.len() + error.valid_up_to()).found()
}

fn path_size(about: &About<'_>, _: &Opened<'_>, held: &Held<'_>) -> Checked {
    let (section, name) = match held.frame {
        Frame::PathChallenge(_) => ("8.2.1", "PATH_CHALLENGE"),
        Frame::PathResponse(_) => ("8.2.2", "PATH_RESPONSE"),
        _ => return Ok(None),
    };
    let size = about.size();
    if size >= usize::from(MIN_INITIAL_SIZE) {
        return Ok(None);
    }
    // A server may send so little to an address that isn't validated. A client needn't validate its server's.
    let is_valid = about.peer_half().address() == Some(about.datagram.to)
        && (about.sender == Side::Client || about.history.is_confirmed);
    if !is_valid {
        return Err(Need::ValidAddress);
    }
    Broken::new(format!("{name} in a datagram of {size} bytes"), "1200 bytes or more")
        .by(section)
        .in_payload(held.range.start)
        .found()
}
