//! The program of the repository's docs/CALLING.md: packet numbers are put in a set, an ACK of them is written, and its
//! ranges are read.
use quic_wire::frame::{Ack, Frame, Iter, Rules};
use quic_wire::range_set::RangeSet;

fn main() -> Result<(), quic_wire::Error> {
    let mut set = RangeSet::new();
    for number in [0, 1, 2, 5, 6, 9] {
        set.insert_one(number);
    }
    let mut payload = Vec::new();
    Ack::encode_from(0, &set, None, &mut payload)?;
    for frame in Iter::with_rules(&payload, Rules::RFC)? {
        if let Frame::Ack(ack) = frame? {
            for range in ack.iter() {
                println!("{} to {}", range.start(), range.end());
            }
        }
    }
    Ok(())
}
