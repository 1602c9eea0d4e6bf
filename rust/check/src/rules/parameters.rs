//! Transport parameters.

use crate::about::{About, id_text};
use crate::claim::Claim;
use crate::rule::{Broken, Check, Checked, History, Need, Rule};
use quic_wire::transport_parameters::{Error, Refusal, TransportParameterId, TransportParameters, entries, known};
use quic_wire::{ConnectionId, Side, versions};
use quic_wire_capture::opened::Opened;

// RFC 9368, section 3.
const VERSION_INFORMATION: u64 = 0x11;

pub(super) static RULES: &[Rule] = &[
    Rule::must(
        "parameter",
        "18.2",
        "Each transport parameter is whole, in range, there at most once, and one that its sender may send.",
        Check::Refusal(refused),
    ),
    Rule::must(
        "initial-source-id",
        "7.3",
        "initial_source_connection_id is the Source Connection ID of its sender's first Initial packet.",
        Check::Parameters(initial_source),
    )
    .with(History::Before, &[Need::Begin]),
    Rule::must(
        "original-destination-id",
        "7.3",
        "original_destination_connection_id is the id to which the client sent its first Initial packet.",
        Check::Parameters(original_destination),
    )
    .with(History::Whole, &[Need::Begin, Need::OwnPackets, Need::NoToken]),
    Rule::must(
        "retry-source-id",
        "7.3",
        "retry_source_connection_id is the Source Connection ID of the server's Retry, and there only after one.",
        Check::Parameters(retry_source),
    )
    .with(History::Whole, &[Need::Begin, Need::OwnPackets, Need::NoToken]),
    Rule::must(
        "version-information",
        "3",
        "version_information has a chosen version and available ones, none of them 0.",
        Check::List(version_information),
    )
    .of(9368),
    Rule::must(
        "chosen-version",
        "4",
        "The chosen version is that of the client's first packets, or the one that the server negotiated.",
        Check::List(chosen_version),
    )
    .of(9368)
    .with(History::Before, &[Need::Begin]),
    Rule::must(
        "chosen-available",
        "3",
        "A client's chosen version is one of its available versions.",
        Check::List(chosen_available),
    )
    .of(9368),
];

fn refused(_: &About<'_>, list: &[u8], refusal: &Refusal) -> Checked {
    let id = refusal.id.and_then(known);
    // That one is of a draft.
    if id == Some(TransportParameterId::MinAckDelayDraft07) {
        return Ok(None);
    }
    let name = match (id, refusal.id) {
        (Some(id), _) => snake(&format!("{id:?}")),
        (None, Some(number)) => format!("the parameter {number:#x}"),
        (None, None) => "a parameter".into(),
    };
    let section = if refusal.error == Error::Malformed { "7.4" } else { "18.2" };
    let seen = format!("{} in {name}, byte {} of the {} of the list", refusal.error, refusal.offset, list.len());
    Broken::new(seen, "what RFC 9000 permits").by(section).found()
}

// The RFC's name of a parameter, of its name in CamelCase.
fn snake(name: &str) -> String {
    name.char_indices().fold(String::new(), |mut snake, (at, c)| {
        if at > 0 && c.is_ascii_uppercase() {
            snake.push('_');
        }
        snake.push(c.to_ascii_lowercase());
        snake
    })
}

// The value of version_information, if it is there.
fn versions_of(list: &[u8]) -> Option<&[u8]> {
    entries(list).flatten().find(|entry| entry.id == VERSION_INFORMATION).map(|entry| entry.value)
}

fn version_information(_: &About<'_>, _: &Opened<'_>, list: &[u8]) -> Checked {
    match versions_of(list) {
        Some(value) if versions::read(value).is_none() => {
            let seen = format!("version_information of {} bytes", value.len());
            Broken::new(seen, "one or more versions of 4 bytes each, none of them 0").found()
        }
        _ => Ok(None),
    }
}

// A client's message may be whole only with a packet of the version that the server has chosen, and the server's answer
// be late in the file.
fn chosen_version(about: &About<'_>, opened: &Opened<'_>, list: &[u8]) -> Checked {
    let Some((chosen, _)) = versions_of(list).and_then(versions::read) else { return Ok(None) };
    let version = opened.packet().header().version();
    let firsts = [about.history.first_version, about.history.original_version];
    let is_first = about.sender == Side::Client && firsts.contains(&Some(chosen));
    if is_first || chosen == version || chosen == about.connection.version() {
        return Ok(None);
    }
    Broken::new(format!("the chosen version {chosen:#x}"), format!("{version:#x}, the version of the packet")).found()
}

fn chosen_available(about: &About<'_>, _: &Opened<'_>, list: &[u8]) -> Checked {
    let Some((chosen, available)) = versions_of(list).and_then(versions::read) else { return Ok(None) };
    let mut available = std::iter::successors(versions::split(available), |(_, others)| versions::split(others));
    if about.sender == Side::Server || available.any(|(version, _)| version == chosen) {
        return Ok(None);
    }
    Broken::new(format!("the chosen version {chosen:#x}, which isn't available"), "it among the available ones").found()
}

fn compared(name: &str, given: Option<&ConnectionId>, used: Option<&ConnectionId>) -> Option<Broken> {
    let text = |id: Option<&ConnectionId>| id.map_or("none".into(), id_text);
    (given != used).then(|| Broken::new(format!("{name}: {}", text(given)), text(used)))
}

fn initial_source(about: &About<'_>, given: &TransportParameters) -> Checked {
    Ok(compared("initial_source_connection_id", given.initial_src_cid.as_ref(), about.end().first_scid()))
}

// Without its Retry a connection seems to begin with the packet after that, which has a token.
fn unless_retried(broken: Option<Broken>) -> Checked {
    Ok(broken.map(|broken| broken.if_still(Claim::Retry)))
}

fn original_destination(about: &About<'_>, given: &TransportParameters) -> Checked {
    if about.sender == Side::Client {
        return Ok(None);
    }
    let used = about.connection.first_dcid();
    unless_retried(compared("original_destination_connection_id", given.original_dst_cid.as_ref(), Some(used)))
}

fn retry_source(about: &About<'_>, given: &TransportParameters) -> Checked {
    if about.sender == Side::Client {
        return Ok(None);
    }
    // Of several Retries the packet that shows which one the client took may come late.
    let (retry_ids, is_open) = (about.connection.retry_ids(), !about.history.is_retried);
    if given.retry_src_cid.is_some_and(|id| is_open && retry_ids.contains(&id)) {
        return Ok(None);
    }
    unless_retried(compared("retry_source_connection_id", given.retry_src_cid.as_ref(), about.connection.retry_id()))
}
