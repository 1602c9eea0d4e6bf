//! Streams: their directions, their states and their limits.

use super::frames::section_of;
use crate::about::{About, Held, name_of};
use crate::claim::{Claim, count_limit, data_limit, stream_limit};
use crate::half::Reset;
use crate::history::{data_of, stream_of, type_of};
use crate::rule::{Broken, Check, Checked, History, Need, Rule, Types};
use quic_wire::frame::Frame;
use quic_wire::permitted::Forbidden;
use quic_wire_capture::opened::Opened;

const LIMIT: &[Need] = &[
    Need::Begin,
    Need::PeerParameters,
    Need::PeerPackets,
    Need::OwnPackets,
    Need::NoEarlyData,
    Need::Order,
    Need::Time,
    Need::End,
];

pub(super) static RULES: &[Rule] = &[
    Rule::must(
        "stream-direction",
        "2.1",
        "On a unidirectional stream only the side that opened it sends data, and only the other receives them.",
        Check::Forbidden(direction),
    ),
    Rule::must(
        "unopened-stream",
        "19.8",
        "A side names no stream that its peer would have to open first.",
        Check::Frame(Types::OF_STREAMS, unopened_stream),
    )
    .with(History::Whole, &[Need::Begin, Need::PeerPackets, Need::OwnPackets, Need::NoEarlyData, Need::End]),
    Rule::must(
        "final-size",
        "4.5",
        "The final size of a stream doesn't change, and no data are beyond it.",
        Check::Frame(Types::DATA, final_size),
    )
    .with(History::Before, &[Need::NoEarlyData]),
    Rule::must(
        "after-reset",
        "3.3",
        "After RESET_STREAM its sender sends no STREAM and no STREAM_DATA_BLOCKED of the stream.",
        Check::Frame(Types::SENDING, after_reset),
    )
    .with(History::Before, &[Need::NoEarlyData]),
    Rule::must(
        "reset-changed",
        "13.3",
        "A RESET_STREAM that is sent again has the same error code.",
        Check::Frame(Types::RESET_STREAM, reset_changed),
    )
    .with(History::Before, &[Need::NoEarlyData]),
    Rule::must(
        "stream-count",
        "4.6",
        "A side opens at most as many streams as its peer permits.",
        Check::Frame(Types::OF_STREAMS, stream_count),
    )
    .with(History::Whole, LIMIT),
    Rule::must(
        "stream-data-limit",
        "4.1",
        "A side sends at most as many bytes on a stream as its peer permits.",
        Check::Frame(Types::DATA, stream_data_limit),
    )
    .with(History::Whole, LIMIT),
    Rule::must(
        "data-limit",
        "4.1",
        "A side sends at most as many bytes on all streams as its peer permits.",
        Check::Frame(Types::DATA, all_data_limit),
    )
    .with(History::Whole, LIMIT),
];

fn direction(_: &Opened<'_>, held: &Held<'_>, why: Forbidden) -> Checked {
    let Some(id) = stream_of(held.frame).filter(|_| why == Forbidden::Stream) else { return Ok(None) };
    let seen = format!("{} for stream {}", name_of(held.ty), u64::from(id));
    let expected = match held.frame {
        Frame::StopSending(_) | Frame::MaxStreamData { .. } => "a stream on which the peer sends",
        _ => "a stream on which its sender may send",
    };
    Broken::new(seen, expected).by_section(section_of(held.ty)).in_payload(held.range.start).found()
}

fn unopened_stream(about: &About<'_>, _: &Opened<'_>, held: &Held<'_>) -> Checked {
    let Some(id) = stream_of(held.frame).filter(|id| id.initiator() != about.sender) else {
        return Ok(None);
    };
    if about.peer_half().used[type_of(id)].is_some_and(|used| used >= id.index()) {
        return Ok(None);
    }
    let seen = format!("{} for stream {}, which the peer hasn't opened", name_of(held.ty), u64::from(id));
    Broken::new(seen, "a stream that the peer has opened")
        .by_section(section_of(held.ty))
        .in_payload(held.range.start)
        .if_still(Claim::Unused(id))
        .found()
}

fn final_size(about: &About<'_>, _: &Opened<'_>, held: &Held<'_>) -> Checked {
    let Some((id, until, is_final)) = data_of(held.frame) else { return Ok(None) };
    let (id, at) = (u64::from(id), held.range.start);
    let Some(stream) = about.own_half().streams.get(&id) else { return Ok(None) };
    match stream.size {
        Some(size) if is_final && until != size => {
            let seen = format!("a final size of {until} for stream {id}");
            Broken::new(seen, format!("{size}, as before")).in_payload(at).found()
        }
        Some(size) if until > size => {
            let seen = format!("data of stream {id} up to {until}, after its final size");
            Broken::new(seen, format!("at most {size}, its final size")).in_payload(at).found()
        }
        _ if is_final && until < stream.end => {
            let seen = format!("a final size of {until} for stream {id}");
            Broken::new(seen, format!("at least {}, which was sent", stream.end)).in_payload(at).found()
        }
        _ => Ok(None),
    }
}

fn after_reset(about: &About<'_>, opened: &Opened<'_>, held: &Held<'_>) -> Checked {
    let Some(id) = stream_of(held.frame) else { return Ok(None) };
    let reset = about.own_half().streams.get(&u64::from(id)).and_then(|stream| stream.reset);
    let Some(Reset { by, .. }) = reset.filter(|reset| reset.by < opened.number()) else { return Ok(None) };
    let seen = format!("{} for stream {}, after RESET_STREAM in packet {by}", name_of(held.ty), u64::from(id));
    Broken::new(seen, "none").in_payload(held.range.start).found()
}

fn reset_changed(about: &About<'_>, _: &Opened<'_>, held: &Held<'_>) -> Checked {
    let Frame::ResetStream(again) = held.frame else { return Ok(None) };
    let (id, code) = (u64::from(again.id), again.error_code.into_inner());
    let first = about.own_half().streams.get(&id).and_then(|stream| stream.reset);
    let Some(Reset { by, code: before }) = first.filter(|first| first.code != code) else {
        return Ok(None);
    };
    let seen = format!("RESET_STREAM for stream {id} with the error code {code:#x}");
    Broken::new(seen, format!("{before:#x}, as in packet {by}")).in_payload(held.range.start).found()
}

fn stream_count(about: &About<'_>, _: &Opened<'_>, held: &Held<'_>) -> Checked {
    let Some(id) = stream_of(held.frame).filter(|id| id.initiator() == about.sender) else {
        return Ok(None);
    };
    let most = count_limit(about.limits()?, about.history, about.sender, id);
    if id.index() < most {
        return Ok(None);
    }
    let seen = format!("stream {}, number {} of its type", u64::from(id), id.index() + 1);
    Broken::new(seen, format!("at most {most} streams of that type"))
        .in_payload(held.range.start)
        .if_still(Claim::Streams(id))
        .found()
}

fn stream_data_limit(about: &About<'_>, _: &Opened<'_>, held: &Held<'_>) -> Checked {
    let Some((id, until, _)) = data_of(held.frame) else { return Ok(None) };
    let most = stream_limit(about.limits()?, about.history, about.sender, id);
    let end = about.own_half().streams.get(&u64::from(id)).map_or(0, |stream| stream.end);
    if until <= most.max(end) {
        return Ok(None);
    }
    let seen = format!("data of stream {} up to {until}", u64::from(id));
    Broken::new(seen, format!("at most {most}, the stream's limit"))
        .in_payload(held.range.start)
        .if_still(Claim::StreamData { id, until })
        .found()
}

fn all_data_limit(about: &About<'_>, _: &Opened<'_>, held: &Held<'_>) -> Checked {
    let Some((id, until, _)) = data_of(held.frame) else { return Ok(None) };
    let most = data_limit(about.limits()?, about.history, about.sender);
    let end = about.own_half().streams.get(&u64::from(id)).map_or(0, |stream| stream.end);
    let total = about.own_half().total.saturating_add(until.saturating_sub(end));
    if total <= most || until <= end {
        return Ok(None);
    }
    Broken::new(format!("{total} bytes on all streams"), format!("at most {most}, the limit of all streams"))
        .in_payload(held.range.start)
        .if_still(Claim::Data(total))
        .found()
}
