//! The calls that return shortest payloads.
use super::{ROWS, is_not_appended, is_refused, is_same};
use crate::host::prelude::*;
use crate::host::test::Fail;
use crate::proved::quic_canon::canonical::{CanonError, canonical, canonical_of, canonical_with};
use crate::proved::quic_canon::client::mean_the_same;
use crate::proved::quic_frames::frame::{FrameType, InvalidFrame, Rules};
use crate::tested::quic_checks::codes::type_of;

#[test]
fn the_same_or_another() -> Result<(), Fail> {
    for &(payload, least) in ROWS {
        let Ok(bytes) = canonical_of(payload) else {
            return Err("a payload".into());
        };
        assert_eq!(is_same(&bytes), payload == least);
        assert_eq!(bytes.bytes(), least);
    }
    Ok(())
}

#[test]
fn what_is_appended() {
    for &(payload, least) in ROWS {
        let mut out = Vec::new();
        out.push(7);
        assert!(canonical(payload, &mut out).is_ok());
        let mut wanted = Vec::new();
        wanted.push(7);
        wanted.extend_from_slice(least);
        assert_eq!(out.as_slice(), wanted.as_slice());
    }
}

// Whether both calls reject the payload with this error, and don't change the vector.
fn refuse(payload: &[u8], error: &CanonError) -> Result<bool, Fail> {
    let mut out = Vec::new();
    out.push(7);
    let is_kept = is_not_appended(&canonical(payload, &mut out), error) && out.as_slice() == b"\x07".as_slice();
    Ok(is_kept && is_refused(&canonical_of(payload), error))
}

#[test]
fn what_is_refused() -> Result<(), Fail> {
    let unknown = CanonError::Invalid(InvalidFrame { ty: Some(type_of(0x21)?), reason: "invalid frame ID" });
    assert!(refuse(b"\x21", &unknown)?);
    assert!(refuse(b"\x01\x40\x21", &unknown)?);
    let cut = CanonError::Invalid(InvalidFrame { ty: Some(FrameType::CRYPTO), reason: "unexpected end" });
    assert!(refuse(b"\x01\x06\x00\x03hi", &cut)?);
    assert!(refuse(b"", &CanonError::Empty)?);
    Ok(())
}

// A payload, the rules, and its shortest form, or the type of the frame that they reject and the reason.
type RulesRow = (&'static [u8], Rules, Result<&'static [u8], (u8, &'static str)>);

// All rules of RFC 9000, except the one on types.
const LONG_TYPES: Rules = Rules { short_types: false, ..Rules::RFC };

const BY_RULES: &[RulesRow] = &[
    (b"\x0a\x40\x00\x01a", Rules::RFC, Ok(b"\x08\x00a")),
    // A type in two bytes (RFC 9000, section 12.4).
    (b"\x40\x01", LONG_TYPES, Ok(b"\x01")),
    (b"\x40\x01", Rules::RFC, Err((0x01, "frame type not in shortest form"))),
    // A token may not be empty (section 19.7).
    (b"\x07\x40\x01a", LONG_TYPES, Ok(b"\x07\x01a")),
    (b"\x01\x07\x40\x00", LONG_TYPES, Err((0x07, "malformed"))),
    (b"\x06\x00\x03hi", LONG_TYPES, Err((0x06, "unexpected end"))),
];

fn invalid(ty: u8, reason: &'static str) -> CanonError {
    CanonError::Invalid(InvalidFrame { ty: Some(FrameType::of(u64::from(ty))), reason })
}

// Whether the row's bytes follow what the vector has, or it has nothing more.
fn is_kept_or_appended(row: &RulesRow) -> Result<bool, Fail> {
    let &(payload, rules, wanted) = row;
    let mut out = Vec::new();
    out.push(7);
    let answer = canonical_with(payload, rules, &mut out);
    let appended = out.as_slice().split_first();
    match wanted {
        Ok(least) => Ok(answer.is_ok() && appended == Some((&7, least))),
        Err((ty, reason)) => {
            let is_as_before = out.as_slice() == b"\x07".as_slice();
            Ok(is_not_appended(&answer, &invalid(ty, reason)) && is_as_before)
        }
    }
}

#[test]
fn what_rules_accept() -> Result<(), Fail> {
    for row in BY_RULES {
        let is_so = is_kept_or_appended(row)?;
        assert!(is_so, "at {row:?}");
    }
    let mut out = Vec::new();
    let answer = canonical_with(b"", Rules::default(), &mut out);
    assert!(is_not_appended(&answer, &CanonError::Empty) && out.is_empty());
    Ok(())
}

// Whether the result is `same`.
fn is_reported(answer: &Result<bool, CanonError>, same: bool) -> bool {
    match answer {
        Ok(reported) => *reported == same,
        Err(_) => false,
    }
}

// Whether the result is the error for a payload without a frame.
fn is_empty(answer: &Result<bool, CanonError>) -> bool {
    match answer {
        Ok(_) => false,
        Err(e) => *e == CanonError::Empty,
    }
}

#[test]
fn payloads_that_mean_the_same() {
    for (payload, other, same) in [
        (b"\x40\x00\x0a\x00\x01a".as_slice(), b"\x00\x08\x00a".as_slice(), true),
        (b"\x00\x01".as_slice(), b"\x01\x00".as_slice(), false),
        (b"\x02\x40\x05\x00\x00\x40\x05".as_slice(), b"\x02\x05\x00\x00\x05".as_slice(), true),
        (b"\x02\x05\x00\x00\x05".as_slice(), b"\x02\x05\x01\x00\x05".as_slice(), false),
    ] {
        assert!(is_reported(&mean_the_same(payload, other), same));
    }
    assert!(is_empty(&mean_the_same(b"\x00", b"")));
}
