//! A datagram from end to end: two packets are written, sealed and opened again, what they hold is acknowledged, and
//! one that was changed on its way is dropped. In place of ciphers it has [`NoProtection`], which hides nothing. `std`
//! is needed only for printing.
use quic_wire::datagram::{Header, PacketsMut};
use quic_wire::frame::{Ack, Crypto, Frame, Iter, StreamMeta};
use quic_wire::packet::PacketNumber;
use quic_wire::range_set::BoundedRangeSet;
use quic_wire::{Error, StreamId};

const TAG: usize = 16;
const SAMPLE: usize = 16;
const VERSION: u32 = 1;
const ID: &[u8] = &[7; 8];

/// NO PROTECTION: the payload stays readable, anybody can make its tag, and the mask is the sample itself. A stack
/// needs an AEAD and the header protection cipher here (RFC 9001, section 5).
struct NoProtection;

impl NoProtection {
    // The XOR of blocks. An AEAD would make the tag from its key, the packet number, the header and the payload.
    fn tag(header: &[u8], payload: &[u8]) -> [u8; TAG] {
        let mut tag = [0x5a; TAG];
        header.iter().chain(payload).enumerate().for_each(|(i, byte)| tag[i % TAG] ^= byte);
        tag
    }

    fn open<'p>(header: &[u8], payload: &'p [u8]) -> Option<&'p [u8]> {
        let (payload, tag) = payload.split_at(payload.len().checked_sub(TAG)?);
        (tag == Self::tag(header, payload)).then_some(payload)
    }

    fn mask(sample: &[u8]) -> [u8; 5] {
        [sample[0], sample[1], sample[2], sample[3], sample[4]]
    }
}

// The payload follows the header, then room for the tag. Then the length is known, which the tag covers, and with the
// tag the sample.
fn seal(
    datagram: &mut Vec<u8>,
    header: Header<'_>,
    payload: impl Fn(&mut Vec<u8>) -> Result<(), Error>,
) -> Result<(), Error> {
    let begin = datagram.len();
    let written = header.encode(datagram)?;
    payload(datagram)?;
    datagram.extend([0; TAG]);
    let packet = &mut datagram[begin..];
    written.set_len(packet)?;
    let (header_data, sealed) = packet.split_at_mut(written.header_len);
    let (payload, tag) = sealed.split_at_mut(sealed.len() - TAG);
    tag.copy_from_slice(&NoProtection::tag(header_data, payload));
    let place = written.place(packet);
    let mask = NoProtection::mask(place.sample(packet, SAMPLE)?);
    Ok(place.protect(packet, &mask)?)
}

fn write() -> Result<Vec<u8>, Error> {
    let number = |number| PacketNumber::new(number, 0);
    let mut datagram = Vec::with_capacity(1200);
    let long = Header::Initial { dst_cid: ID, src_cid: &[], token: &[], number: number(2), version: VERSION };
    seal(&mut datagram, long, |out| {
        Frame::Crypto(Crypto { offset: 0, bytes: b"hello" }).encode(true, out)?;
        Ok(())
    })?;
    let short = Header::Short { spin: false, key_phase: true, dst_cid: ID, number: number(3) };
    seal(&mut datagram, short, |out| {
        // Data in two buffers is put after the frame's header.
        StreamMeta { id: StreamId::from(4), offsets: 100..106, fin: true }.encode(false, out)?;
        out.extend(b"abc");
        out.extend(b"def");
        Ok(())
    })?;
    Ok(datagram)
}

// The packet numbers of the packets that were opened, in order.
fn read(datagram: &mut [u8]) -> Result<BoundedRangeSet<32>, Error> {
    let mut received = BoundedRangeSet::new();
    for packet in PacketsMut::new(datagram, ID.len(), &[VERSION], false) {
        let packet = packet?.open_with(SAMPLE, NoProtection::mask, 0)?;
        let Some(payload) = NoProtection::open(packet.header_data, packet.payload) else {
            println!("{} is dropped", packet.number());
            continue;
        };
        for frame in Iter::new(payload)? {
            println!("{} {:?}", packet.number(), frame?);
        }
        received.insert_or_drop_min(packet.number()..packet.number() + 1);
    }
    Ok(received)
}

fn main() -> Result<(), Error> {
    let datagram = write()?;
    println!("{} bytes", datagram.len());
    let received = read(&mut datagram.clone())?;
    let mut out = Vec::new();
    Ack::encode(0, &received, None, &mut out)?;
    println!("{out:02x?}");
    Ok(())
}

#[test]
fn what_is_sealed_is_opened_unless_it_was_changed() -> Result<(), Error> {
    let datagram = write()?;
    assert_eq!(read(&mut datagram.clone())?.elts().collect::<Vec<_>>(), [2, 3]);
    // The last byte is one of the second packet's tag.
    let mut changed = datagram.clone();
    *changed.last_mut().expect("it has bytes") ^= 1;
    assert_eq!(read(&mut changed)?.elts().collect::<Vec<_>>(), [2]);
    main()
}
