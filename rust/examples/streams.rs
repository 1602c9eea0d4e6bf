//! The program of the repository's README: the data of the STREAMs of a payload.
use quic_wire::frame::{Frame, Iter, Rules};

fn main() -> Result<(), quic_wire::Error> {
    let payload = [0x02, 0x03, 0x00, 0x00, 0x01, 0x0a, 0x00, 0x01, 0x61];
    for frame in Iter::with_rules(&payload, Rules::RFC)? {
        if let Frame::Stream(stream) = frame? {
            println!("stream {}, from {}: {:?}", u64::from(stream.id), stream.offset, stream.bytes);
        }
    }
    Ok(())
}
