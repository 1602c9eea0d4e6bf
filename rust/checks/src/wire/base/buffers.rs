//! Errors of buffers, their room, and callers that use them.
use crate::host::bytes::{Buf, BytesMut};
use crate::host::io::Cursor;
use crate::host::prelude::*;
use crate::proved::quic_base::coding::{BufMutExt, NoRoom, UnexpectedEnd};
use crate::proved::quic_base::ids::{ConnectionId, Dir, EcnCodepoint, Side, SpaceId, StreamId};
use crate::proved::quic_base::varint::{VarInt, VarIntBoundsExceeded};
use crate::tested::quic_callers::client::{Reset, first_number, read_reset, read_two, write_reset};
use crate::wire::base::shared::{debugs, displays};

fn errors_have_their_texts() -> bool {
    let exceeded = "value too large for varint encoding";
    displays(&UnexpectedEnd, "unexpected end of buffer")
        && displays(&VarIntBoundsExceeded, exceeded)
        && displays(&NoRoom, "no room in buffer")
        && debugs(&UnexpectedEnd, "UnexpectedEnd")
        && debugs(&VarIntBoundsExceeded, "VarIntBoundsExceeded")
        && debugs(&NoRoom, "NoRoom")
}

fn others_have_their_texts() -> bool {
    displays(&VarInt::from_u32(42), "42")
        && debugs(&VarInt::from_u32(42), "42")
        && debugs(&EcnCodepoint::Ect0, "Ect0")
        && debugs(&SpaceId::Data, "Data")
}

#[test]
fn texts() {
    assert!(errors_have_their_texts());
    assert!(others_have_their_texts());
}

fn reset() -> Reset {
    Reset { id: StreamId::proved_new(Side::Client, Dir::Bi, 1), code: VarInt::from_u32(64), final_offset: 5 }
}

const RESET_BYTES: &[u8] = b"\x04\x40\x40\x00\x00\x00\x00\x00\x00\x00\x05";

fn is_too_little(room: &mut [u8]) -> bool {
    let mut out = Cursor::new(room);
    out.write(7u8) == Ok(())
        && out.write(0x01020304u32) == Err(NoRoom)
        && out.write_var(16384) == Err(NoRoom)
        && ConnectionId::proved_new(b"\xaa\xbb").encode_long(&mut out) == Err(NoRoom)
        && out.position() == 2
}

fn is_filled(room: &mut [u8]) -> bool {
    is_too_little(room) && room.starts_with(b"\x07\x02\x09")
}

fn is_cut_at_its_limit() -> bool {
    let mut limited = Vec::new().limit(8);
    let answer = write_reset(&reset(), &mut limited);
    let out = limited.into_inner();
    answer == Err(NoRoom) && out.as_slice() == b"\x04\x40\x40".as_slice()
}

// After `NoRoom` a prefix of the encoding is after the buffer's contents.
#[test]
fn refusals_by_room() {
    assert!(is_filled(&mut [9; 3]));
    assert!(is_cut_at_its_limit());
}

fn is_written_and_read(out: &mut BytesMut) -> bool {
    write_reset(&reset(), out).is_ok() && out.as_slice() == RESET_BYTES && read_reset(out) == Ok(reset())
}

// A number that is in two chunks.
fn is_read_apart() -> bool {
    let Some((front, back)) = RESET_BYTES.split_at_checked(6) else {
        return false;
    };
    read_reset(&mut front.chain(back)) == Ok(reset())
}

fn is_cut_short() -> bool {
    let Some(mut cut) = RESET_BYTES.get(..10) else {
        return false;
    };
    read_reset(&mut cut) == Err(UnexpectedEnd)
}

fn is_first_number() -> bool {
    let Some(bytes) = RESET_BYTES.get(1..4) else {
        return false;
    };
    first_number(bytes) == Ok((64, b"\x00".as_slice()))
}

fn are_two(bytes: &[u8]) -> bool {
    let mut left = bytes;
    read_two::<u16, &[u8]>(&mut left) == Ok((0x0102, 0x0304))
}

// Each kind of buffer that the codecs are used on, and the callers.
#[test]
fn buffers_and_clients() {
    assert!(is_written_and_read(&mut BytesMut::new()));
    assert!(is_read_apart());
    assert!(is_cut_short());
    assert!(is_first_number());
    assert!(are_two(b"\x01\x02\x03\x04"));
}
