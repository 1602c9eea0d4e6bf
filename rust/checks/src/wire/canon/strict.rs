//! Readers that reject a frame type longer than its shortest encoding.
use crate::host::test::Fail;
use crate::proved::quic_frames::frame::{Frame, FrameType, InvalidFrame, Iter};
use crate::proved::quic_frames::transport_error::Code;

#[test]
fn a_long_type_is_a_violation() -> Result<(), Fail> {
    let mut iter = Iter::strict(b"\x40\x00\x0a\x00\x01a")?;
    let Some(Err(invalid)) = iter.next() else {
        return Err("an error".into());
    };
    let wanted = InvalidFrame { ty: Some(FrameType::PADDING), reason: "frame type not in shortest form" };
    assert!(invalid == wanted);
    assert_eq!(iter.offset(), 0);
    assert!(iter.next().is_none());
    let error = invalid.to_error();
    assert_eq!(error.code, Code::PROTOCOL_VIOLATION);
    assert_eq!(
        error.to_string(),
        "detected an error with protocol compliance that was not covered by more specific error codes in PADDING: \
        frame type not in shortest form"
    );
    Ok(())
}

#[test]
fn other_reasons_are_bad_encodings() -> Result<(), Fail> {
    for payload in [b"\x21".as_slice(), b"\x06".as_slice(), b"\x02\x00\x00\x00\x01".as_slice()] {
        let Some(Err(invalid)) = Iter::strict(payload)?.next() else {
            return Err("an error".into());
        };
        let error = invalid.to_error();
        assert_eq!(error.code, Code::FRAME_ENCODING_ERROR);
    }
    Ok(())
}

#[test]
fn other_fields_have_any_width() -> Result<(), Fail> {
    let mut iter = Iter::strict(b"\x0a\x40\x00\x40\x01a")?;
    let Some(Ok(Frame::Stream(stream))) = iter.next() else {
        return Err("a STREAM".into());
    };
    assert_eq!(stream.bytes, b"a".as_slice());
    assert_eq!(iter.offset(), 6);
    assert!(iter.next().is_none());
    Ok(())
}

#[test]
fn an_empty_payload_is_a_protocol_violation() -> Result<(), Fail> {
    let Err(error) = Iter::strict(b"") else {
        return Err("an error".into());
    };
    assert_eq!(error.code, Code::PROTOCOL_VIOLATION);
    assert_eq!(error.frame, None);
    assert_eq!(error.reason.as_str(), "packet payload is empty");
    Ok(())
}
