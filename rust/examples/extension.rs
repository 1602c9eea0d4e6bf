//! extension: reads payloads with frames that the library doesn't know, and writes them. RESET_STREAM_AT has the type 0x24
//! and four numbers (draft-ietf-quic-reliable-stream-reset, section 4). PATH_ACK has the type 0x3e, a path's id, and then
//! what an ACK has behind its type (draft-ietf-quic-multipath).
use quic_wire::frame::{Ack, Checked, Frame, FrameType, InvalidFrame, Iter, Rules};
use quic_wire::{Error, varint};

const RESET_STREAM_AT: u64 = 0x24;
const PATH_ACK: u64 = 0x3e;

/// A stream ends early, but its first `reliable_size` bytes are delivered.
#[derive(Debug, PartialEq)]
struct ResetStreamAt {
    stream_id: u64,
    error_code: u64,
    final_size: u64,
    reliable_size: u64,
}

impl ResetStreamAt {
    /// The frame whose fields are at the front, and how many bytes they have.
    fn read(fields: &[u8]) -> Result<(Self, usize), &'static str> {
        let mut at = 0;
        let mut number = || {
            let (value, len) = varint::read(&fields[at..]).ok_or("unexpected end")?;
            at += len;
            Ok(value)
        };
        let reset = ResetStreamAt {
            stream_id: number()?,
            error_code: number()?,
            final_size: number()?,
            reliable_size: number()?,
        };
        if reset.reliable_size > reset.final_size {
            return Err("malformed");
        }
        Ok((reset, at))
    }

    fn write(&self, out: &mut Vec<u8>) -> Result<(), quic_wire::WriteError> {
        for number in [RESET_STREAM_AT, self.stream_id, self.error_code, self.final_size, self.reliable_size] {
            varint::write(number, out)?;
        }
        Ok(())
    }
}

/// What was received on a path.
#[derive(Debug, PartialEq)]
struct PathAck<'a> {
    path: u64,
    ack: Ack<'a>,
}

impl<'a> PathAck<'a> {
    /// The frame whose fields are at the front, and how many bytes they have.
    fn read(fields: &'a [u8]) -> Result<(Self, usize), &'static str> {
        let (path, len) = varint::read(fields).ok_or("unexpected end")?;
        match Frame::read_body(FrameType::ACK, &fields[len..]) {
            Ok((Frame::Ack(ack), rest)) => Ok((PathAck { path, ack }, fields.len() - rest.len())),
            Ok(_) => unreachable!("an ACK's body is an ACK's"),
            Err(invalid) => Err(invalid.reason),
        }
    }

    fn write(self, out: &mut Vec<u8>) -> Result<(), quic_wire::WriteError> {
        varint::write(PATH_ACK, out)?;
        varint::write(self.path, out)?;
        let (ack, begin) = (Frame::Ack(self.ack), out.len());
        out.resize(begin + ack.encoded_len(false)?, 0);
        let len = ack.encode_body_into(false, &mut out[begin..])?;
        out.truncate(begin + len);
        Ok(())
    }
}

/// The frames of a payload, in words.
fn read_payload(payload: &[u8]) -> Result<Vec<String>, Error> {
    let mut frames = Iter::with_rules(payload, Rules::RFC)?;
    let mut read = Vec::new();
    while let Some(frame) = frames.next() {
        match frame {
            Ok(frame) => read.push(frame.ty().to_string()),
            Err(InvalidFrame { ty: Some(ty), reason: "invalid frame ID" }) => {
                // The type has one byte: in a longer encoding it isn't accepted by these rules.
                let begin = frames.offset() + 1;
                let (words, len) = read_own(ty.into_inner(), payload.get(begin..).unwrap_or_default())
                    .map_err(|reason| InvalidFrame { ty: Some(ty), reason })?;
                read.push(words);
                frames = go_on(payload, begin + len, ty);
            }
            Err(invalid) => return Err(invalid.into()),
        }
    }
    Ok(read)
}

/// A frame whose type the library doesn't know, in words, and how many bytes its fields have.
fn read_own(ty: u64, fields: &[u8]) -> Result<(String, usize), &'static str> {
    match ty {
        RESET_STREAM_AT => ResetStreamAt::read(fields).map(|(reset, len)| (format!("{reset:?}"), len)),
        PATH_ACK => PathAck::read(fields).map(|(ack, len)| {
            let ranges: Vec<_> = ack.ack.iter().collect();
            (format!("PATH_ACK of path {}: {ranges:?}", ack.path), len)
        }),
        _ => Err("invalid frame ID"),
    }
}

/// Reads on behind a frame of this type.
fn go_on(payload: &[u8], end: usize, ty: FrameType) -> Checked<'_> {
    Checked::resume(payload, end, Some(ty), Rules::RFC).expect("the frame ends in the payload")
}

fn main() -> Result<(), Box<dyn std::error::Error>> {
    let reset = ResetStreamAt { stream_id: 4, error_code: 1, final_size: 1000, reliable_size: 70 };
    let mut payload = vec![0x01];
    reset.write(&mut payload)?;
    payload.extend([0x01, 0x08, 0x04, b'h', b'i']);
    println!("{:?}", read_payload(&payload)?);
    // Path 7: 9, 8 and 7, and 5 to 2.
    let path_ack = [0x3e, 7, 9, 0, 1, 2, 0, 3];
    println!("{:?}", read_payload(&[&path_ack[..], &payload].concat())?);
    let mut written = Vec::new();
    PathAck::read(&path_ack[1..])?.0.write(&mut written)?;
    assert_eq!(written, path_ack);
    for wrong in [&[0x24, 4, 1, 5, 8][..], &[0x01, 0x24, 4], &[0x40, 0x24, 4, 1, 8, 5], &[0x25], &[0x3e, 7, 2, 0, 0, 3]]
    {
        println!("{}", read_payload(wrong).expect_err("it isn't valid"));
    }
    Ok(())
}
