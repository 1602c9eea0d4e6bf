//! Frames that just pass what RFC 9000 requires a receiver to check, and frames that don't.
use crate::proved::quic_frames::frame::{Checked, Frame, FrameType, InvalidFrame, Iter, Rules, first_error};

// 2^62 - 2, 2^62 - 1, 2^60 and 2^60 + 1 end these, each in 8 bytes (RFC 9000, section 16).
const KEPT: &[&[u8]] = &[
    // CRYPTO up to 2^62 - 1 (section 19.6).
    b"\x06\xff\xff\xff\xff\xff\xff\xff\xff\x00",
    b"\x06\xff\xff\xff\xff\xff\xff\xff\xfe\x01a",
    // STREAM up to 2^62 - 1, with a length and without (section 19.8).
    b"\x0e\x04\xff\xff\xff\xff\xff\xff\xff\xfe\x01a",
    b"\x0c\x04\xff\xff\xff\xff\xff\xff\xff\xfea",
    // 2^60 streams (sections 19.11 and 19.14).
    b"\x12\xd0\x00\x00\x00\x00\x00\x00\x00",
    b"\x13\xd0\x00\x00\x00\x00\x00\x00\x00",
    b"\x16\xd0\x00\x00\x00\x00\x00\x00\x00",
    b"\x17\xd0\x00\x00\x00\x00\x00\x00\x00",
    // A token of a byte (section 19.7), and the greatest limit of data (section 19.9).
    b"\x07\x01a",
    b"\x10\xff\xff\xff\xff\xff\xff\xff\xff",
];

const NONE: Rules =
    Rules { short_types: false, data_limit: false, stream_limit: false, tokens: false, no_ack_frequency: false };

const SHORT: Rules = Rules { short_types: true, ..NONE };

const DATA: Rules = Rules { data_limit: true, ..NONE };

const STREAMS: Rules = Rules { stream_limit: true, ..NONE };

const TOKENS: Rules = Rules { tokens: true, ..NONE };

const EXTENSION: Rules = Rules { no_ack_frequency: true, ..NONE };

// A frame, the rule that it breaks, its type and the reason.
const BROKEN: &[(&[u8], Rules, u8, &str)] = &[
    (b"\x06\xff\xff\xff\xff\xff\xff\xff\xff\x01a", DATA, 0x06, "limit exceeded"),
    (b"\x0c\x04\xff\xff\xff\xff\xff\xff\xff\xfeab", DATA, 0x0c, "limit exceeded"),
    (b"\x12\xd0\x00\x00\x00\x00\x00\x00\x01", STREAMS, 0x12, "limit exceeded"),
    (b"\x13\xd0\x00\x00\x00\x00\x00\x00\x01", STREAMS, 0x13, "limit exceeded"),
    (b"\x16\xd0\x00\x00\x00\x00\x00\x00\x01", STREAMS, 0x16, "limit exceeded"),
    (b"\x17\xd0\x00\x00\x00\x00\x00\x00\x01", STREAMS, 0x17, "limit exceeded"),
    (b"\x07\x00", TOKENS, 0x07, "malformed"),
    (b"\x1f", EXTENSION, 0x1f, "invalid frame ID"),
    (b"\x40\xaf\x01\x02\x03\x04", EXTENSION, 0xaf, "invalid frame ID"),
];

// Whether all of the payload is read with these rules.
fn is_read(payload: &[u8], rules: Rules) -> bool {
    let Some(mut frames) = Iter::with_rules(payload, rules).ok() else {
        return false;
    };
    matches!(frames.next(), Some(Ok(_)))
        && frames.offset() == payload.len()
        && frames.next().is_none()
        && first_error(payload, rules).is_none()
}

// Whether an error has this type and reason.
fn is_error(invalid: &InvalidFrame, ty: u8, reason: &str) -> bool {
    invalid.ty == Some(FrameType::of(u64::from(ty))) && invalid.reason == reason
}

// Whether the first error of the payload with these rules has this type and reason.
fn is_first_error(payload: &[u8], rules: Rules, ty: u8, reason: &str) -> bool {
    match first_error(payload, rules) {
        Some(invalid) => is_error(&invalid, ty, reason),
        None => false,
    }
}

// Whether the payload is rejected with these rules, with this type and reason, and nothing is returned after that.
fn is_refused(payload: &[u8], rules: Rules, ty: u8, reason: &str) -> bool {
    let Some(mut frames) = Iter::with_rules(payload, rules).ok() else {
        return false;
    };
    let Some(Err(invalid)) = frames.next() else {
        return false;
    };
    is_error(&invalid, ty, reason)
        && frames.offset() == 0
        && frames.next().is_none()
        && is_first_error(payload, rules, ty, reason)
}

#[test]
fn frames_that_keep_all_rules() {
    for payload in KEPT {
        assert!(is_read(payload, Rules::RFC), "at {payload:?}");
    }
}

#[test]
fn frames_that_break_a_rule() {
    for (payload, rule, ty, reason) in BROKEN {
        assert!(is_read(payload, Rules::default()), "at {payload:?}, no rules");
        assert!(is_refused(payload, *rule, *ty, reason), "at {payload:?}, its rule");
        assert!(is_refused(payload, Rules::RFC, *ty, reason), "at {payload:?}, all rules");
    }
}

// ACK_FREQUENCY cut off after its type, in two bytes and in four.
const CUT: &[(&[u8], Rules, &str)] = &[
    (b"\x40\xaf", NONE, "unexpected end"),
    (b"\x40\xaf", SHORT, "unexpected end"),
    (b"\x40\xaf", EXTENSION, "invalid frame ID"),
    (b"\x40\xaf", Rules::RFC, "invalid frame ID"),
    (b"\x80\x00\x00\xaf", NONE, "unexpected end"),
    (b"\x80\x00\x00\xaf", EXTENSION, "invalid frame ID"),
    (b"\x80\x00\x00\xaf", SHORT, "frame type not in shortest form"),
    (b"\x80\x00\x00\xaf", Rules::RFC, "frame type not in shortest form"),
];

#[test]
fn types_of_the_extension_without_fields() {
    for (payload, rules, reason) in CUT {
        assert!(is_refused(payload, *rules, 0xaf, reason), "at {payload:?}, {rules:?}");
    }
}

// PING, NEW_TOKEN with an empty token, PING, and a type that is cut off.
const FOUR: &[u8] = b"\x01\x07\x00\x01\x40";

// What is read first from an offset on, where PING was the last frame: no iterator, nothing, PING, or an error's type
// and reason.
#[derive(Debug)]
enum First {
    NoIterator,
    Nothing,
    Ping,
    Error(u8, &'static str),
}

const RESUMED: &[(usize, Rules, First)] = &[
    (0, Rules::RFC, First::Ping),
    (1, Rules::RFC, First::Error(0x07, "malformed")),
    (3, Rules::RFC, First::Ping),
    (4, Rules::RFC, First::Error(0x01, "unexpected end")),
    (5, Rules::RFC, First::Nothing),
    (6, Rules::RFC, First::NoIterator),
];

fn is_resumed(offset: usize, rules: Rules, first: &First) -> bool {
    let Some(mut frames) = Checked::resume(FOUR, offset, Some(FrameType::PING), rules) else {
        return matches!(first, First::NoIterator);
    };
    match (frames.next(), first) {
        (None, First::Nothing) => frames.offset() == offset,
        (Some(Ok(Frame::Ping)), First::Ping) => frames.offset() == offset + 1,
        (Some(Err(invalid)), First::Error(ty, reason)) => is_error(&invalid, *ty, reason),
        _ => false,
    }
}

#[test]
fn payloads_are_resumed_by_rules() {
    for (offset, rules, first) in RESUMED {
        assert!(is_resumed(*offset, *rules, first), "at {offset}, {rules:?}");
    }
}

// Whether the payload's first frame can be written, and these rules allow it.
fn is_in_range(payload: &[u8], rules: Rules) -> bool {
    let Some(mut frames) = Iter::new(payload).ok() else {
        return false;
    };
    let Some(Ok(frame)) = frames.next() else {
        return false;
    };
    frame.in_range_by(rules)
}

#[test]
fn frames_in_range_by_rules() {
    for payload in KEPT {
        assert!(is_in_range(payload, Rules::RFC), "at {payload:?}");
    }
    for (payload, rule, _, _) in BROKEN {
        assert!(is_in_range(payload, NONE), "at {payload:?}");
        assert!(!is_in_range(payload, *rule) && !is_in_range(payload, Rules::RFC), "at {payload:?}, its rule");
    }
}
