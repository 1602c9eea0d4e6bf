//! Codes, errors and closes, and their texts.
use super::texts_answers::{CLOSES, CODES, ERRORS, TYPES};
use crate::host::prelude::*;
use crate::host::test::Fail;
use crate::proved::quic_base::coding::{BufMutExt, Codec};
use crate::proved::quic_base::varint::VarInt;
use crate::proved::quic_frames::frame::{ApplicationClose, Close, ConnectionClose, Frame, FrameType, Iter};
use crate::proved::quic_frames::transport_error::{Code, Error, Reason};
use crate::tested::quic_checks::codes::{code_of, type_of};
use std::fmt::Display;

pub fn displays<T: Display>(value: &T, text: &str) -> bool {
    value.to_string() == text
}

// The code and the type of a number in decimal.
fn code_in(number: &str) -> Result<Code, Fail> {
    code_of(number.parse()?)
}

fn type_in(number: &str) -> Result<FrameType, Fail> {
    type_of(number.parse()?)
}

// Whether a code has the Debug and the Display of its line.
fn code_shows(line: &str) -> Result<bool, Fail> {
    let Some((number, texts)) = line.split_once("|") else {
        return Ok(false);
    };
    let code = code_in(number)?;
    Ok(displays(&format_args!("{code:?}|{code}"), texts))
}

fn type_shows(line: &str) -> Result<bool, Fail> {
    let Some((number, texts)) = line.split_once("|") else {
        return Ok(false);
    };
    let ty = type_in(number)?;
    Ok(displays(&format_args!("{ty:?}|{ty}"), texts))
}

// The four parts of a line of an error.
fn parts(line: &str) -> Option<(&str, &str, &str, &str)> {
    let (number, rest) = line.split_once("|")?;
    let (ty, texts) = rest.split_once("|")?;
    let (text, display) = texts.split_once("|")?;
    Some((number, ty, text, display))
}

pub fn error_with_text_displays(code: Code, text: &str, display: &str) -> bool {
    match Error::with_text(code, text) {
        Ok(error) => displays(&error, display),
        Err(_) => false,
    }
}

fn error_of_a_frame_displays(code: Code, ty: FrameType, text: &str, display: &str) -> bool {
    match Error::with_text(code, text) {
        Ok(mut error) => {
            error.frame = Some(ty);
            displays(&error, display)
        }
        Err(_) => false,
    }
}

fn error_shows(line: &str) -> Result<bool, Fail> {
    let Some((number, ty, text, display)) = parts(line) else {
        return Ok(false);
    };
    let code = code_in(number)?;
    if ty.is_empty() {
        return Ok(error_with_text_displays(code, text, display));
    }
    let ty = type_in(ty)?;
    Ok(error_of_a_frame_displays(code, ty, text, display))
}

// Whether a payload is a close with this Display.
fn close_displays(payload: &[u8], display: &str) -> bool {
    let Some(mut iter) = Iter::new(payload).ok() else {
        return false;
    };
    match iter.next() {
        Some(Ok(Frame::Close(Close::Connection(close)))) => displays(&close, display),
        Some(Ok(Frame::Close(Close::Application(close)))) => displays(&close, display),
        _ => false,
    }
}

fn close_shows(line: &str) -> bool {
    let Some((payload, display)) = line.split_once("|") else {
        return false;
    };
    match crate::host::hex::decode(payload.as_bytes()) {
        Ok(payload) => close_displays(payload.as_slice(), display),
        Err(_) => false,
    }
}

#[test]
fn codes_as_of_the_rust_crate() -> Result<(), Fail> {
    for line in CODES.lines() {
        assert!(code_shows(line)?, "at {line}");
    }
    Ok(())
}

#[test]
fn types_as_of_the_rust_crate() -> Result<(), Fail> {
    for line in TYPES.lines() {
        assert!(type_shows(line)?, "at {line}");
    }
    Ok(())
}

#[test]
fn errors_as_of_the_rust_crate() -> Result<(), Fail> {
    for line in ERRORS.lines() {
        assert!(error_shows(line)?, "at {line}");
    }
    Ok(())
}

#[test]
fn closes_as_of_the_rust_crate() {
    for line in CLOSES.lines() {
        assert!(close_shows(line), "at {line}");
    }
}

fn is_written(out: &mut Vec<u8>, code: Code, bytes: &[u8]) -> bool {
    out.write(code).is_ok() && out.as_slice() == bytes
}

fn decoded_code_displays(bytes: &[u8], text: &str) -> bool {
    let mut left = bytes;
    let Some(code) = Code::decode(&mut left).ok() else {
        return false;
    };
    displays(&code, text)
}

#[test]
fn a_code_and_its_bytes() {
    let code = Code::crypto(42);
    assert!(is_written(&mut Vec::new(), code, b"\x41\x2a"));
    let text = "the cryptographic handshake failed: error 42";
    assert!(displays(&code, text));
    let is_unknown = decoded_code_displays(b"\x80\x00\x00\x11", "unknown error");
    assert!(is_unknown);
}

// Each constructor with its code and its number.
#[test]
fn types_and_codes_by_their_numbers() {
    assert_eq!(FrameType::of_stream(false, false).into_inner(), 0x08);
    assert_eq!(FrameType::of_stream(true, true).into_inner(), 0x0d);
    assert_eq!(FrameType::or_none(0), None);
    assert_eq!(FrameType::or_none(6), Some(FrameType::CRYPTO));
    assert_eq!(FrameType::DATAGRAM.into_inner(), 0x30);
    assert_eq!(u64::from(Code::of(0x10a)), 0x10a);
}

// Whether an error has this code, which has this number, no frame, and the text `x`.
fn has(error: Error, code: Code, number: u64) -> bool {
    error.code == code && u64::from(code) == number && error.frame.is_none() && error.reason.as_str() == "x"
}

fn the_first_six_have_their_codes() -> bool {
    has(Error::NO_ERROR("x"), Code::NO_ERROR, 0)
        && has(Error::INTERNAL_ERROR("x"), Code::INTERNAL_ERROR, 1)
        && has(Error::CONNECTION_REFUSED("x"), Code::CONNECTION_REFUSED, 2)
        && has(Error::FLOW_CONTROL_ERROR("x"), Code::FLOW_CONTROL_ERROR, 3)
        && has(Error::STREAM_LIMIT_ERROR("x"), Code::STREAM_LIMIT_ERROR, 4)
        && has(Error::STREAM_STATE_ERROR("x"), Code::STREAM_STATE_ERROR, 5)
}

fn the_next_six_have_their_codes() -> bool {
    let (parameter_code, id_code) = (Code::TRANSPORT_PARAMETER_ERROR, Code::CONNECTION_ID_LIMIT_ERROR);
    has(Error::FINAL_SIZE_ERROR("x"), Code::FINAL_SIZE_ERROR, 6)
        && has(Error::FRAME_ENCODING_ERROR("x"), Code::FRAME_ENCODING_ERROR, 7)
        && has(Error::TRANSPORT_PARAMETER_ERROR("x"), parameter_code, 8)
        && has(Error::CONNECTION_ID_LIMIT_ERROR("x"), id_code, 9)
        && has(Error::PROTOCOL_VIOLATION("x"), Code::PROTOCOL_VIOLATION, 10)
        && has(Error::INVALID_TOKEN("x"), Code::INVALID_TOKEN, 11)
}

fn the_last_five_have_their_codes() -> bool {
    let buffer_code = Code::CRYPTO_BUFFER_EXCEEDED;
    has(Error::APPLICATION_ERROR("x"), Code::APPLICATION_ERROR, 12)
        && has(Error::CRYPTO_BUFFER_EXCEEDED("x"), buffer_code, 13)
        && has(Error::KEY_UPDATE_ERROR("x"), Code::KEY_UPDATE_ERROR, 14)
        && has(Error::AEAD_LIMIT_REACHED("x"), Code::AEAD_LIMIT_REACHED, 15)
        && has(Error::NO_VIABLE_PATH("x"), Code::NO_VIABLE_PATH, 16)
}

#[test]
fn each_constructor_has_its_code() {
    assert!(the_first_six_have_their_codes());
    assert!(the_next_six_have_their_codes());
    assert!(the_last_five_have_their_codes());
}

fn displays_its_frame(ty: FrameType) -> bool {
    let mut error = Error::FLOW_CONTROL_ERROR("x");
    error.frame = Some(ty);
    let text = "received more data than permitted in advertised data limits in STREAM: x";
    displays(&error, text)
}

fn is_copied(error: &Error) -> bool {
    match error.try_clone() {
        Ok(copy) => copy == *error && copy.reason == Reason::Static("x"),
        Err(_) => false,
    }
}

// Whether an error of the same code and no text is another.
fn differs_from_a_bare_one(error: &Error) -> bool {
    let bare = Error::from(Code::NO_VIABLE_PATH);
    bare.reason.as_str().is_empty() && bare != *error && displays(&bare, "no viable network path exists")
}

fn has_its_text_and_copies() -> bool {
    match Error::with_text(Code::NO_VIABLE_PATH, "x") {
        Ok(error) => {
            displays(&error, "no viable network path exists: x") && is_copied(&error) && differs_from_a_bare_one(&error)
        }
        Err(_) => false,
    }
}

fn displays_phrase(phrase: &str) -> bool {
    error_with_text_displays(Code::NO_VIABLE_PATH, phrase, &format!("no viable network path exists: {phrase}"))
}

fn displays_a_long_phrase() -> bool {
    displays_phrase(&"a reason phrase of 30 bytes, x".repeat(10))
}

#[test]
fn an_error_and_its_copies() -> Result<(), Fail> {
    let ty = type_of(0x0a)?;
    assert!(displays_its_frame(ty));
    assert!(has_its_text_and_copies());
    assert!(displays_a_long_phrase());
    Ok(())
}

fn is_protocol_violation(close: &ConnectionClose<'_>) -> bool {
    close.error_code == Code::PROTOCOL_VIOLATION && close.frame_type.is_none() && close.reason == b"bad".as_slice()
}

fn reads_a_close_of_the_transport() -> bool {
    let Some(mut iter) = Iter::new(b"\x1c\x0a\x00\x03bad").ok() else {
        return false;
    };
    let Some(Ok(Frame::Close(Close::Connection(close)))) = iter.next() else {
        return false;
    };
    let text = "detected an error with protocol compliance that was not covered by more specific error codes: bad";
    is_protocol_violation(&close) && displays(&close, text) && Close::from(close).is_transport_layer()
}

fn reads_a_close_of_the_application() -> bool {
    let Some(mut iter) = Iter::new(b"\x1d\x05\x01\xff").ok() else {
        return false;
    };
    let Some(Ok(Frame::Close(Close::Application(close)))) = iter.next() else {
        return false;
    };
    close.error_code.into_inner() == 5
        && displays(&close, "\u{fffd} (code 5)")
        && !Close::from(close).is_transport_layer()
}

#[test]
fn closes() {
    assert!(reads_a_close_of_the_transport());
    assert!(reads_a_close_of_the_application());
    let bare = ApplicationClose { error_code: VarInt::from_u32(5), reason: b"" };
    assert!(displays(&bare, "5"));
}

fn says_too_much(close: &ConnectionClose<'_>) -> bool {
    close.error_code == Code::FLOW_CONTROL_ERROR
        && close.frame_type == Some(FrameType::CRYPTO)
        && close.reason == b"too much".as_slice()
}

fn lends_its_reason(error: &Error) -> bool {
    let close = ConnectionClose::from(error);
    let Close::Connection(by_close) = Close::from(error) else {
        return false;
    };
    says_too_much(&close) && by_close == close
}

fn an_error_of_a_frame_lends_its_reason() -> bool {
    match Error::with_text(Code::FLOW_CONTROL_ERROR, "too much") {
        Ok(mut error) => {
            error.frame = Some(FrameType::CRYPTO);
            lends_its_reason(&error)
        }
        Err(_) => false,
    }
}

#[test]
fn the_close_of_an_error_borrows_its_reason() {
    assert!(an_error_of_a_frame_lends_its_reason());
}
