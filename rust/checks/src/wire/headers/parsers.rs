//! Parsers of ids of several kinds, and the flag that allows a clear fixed bit.
use crate::host::bytes::BytesMut;
use crate::proved::quic_packets::packet::{ConnectionIdParser, FixedLengthConnectionIdParser, PartialDecode};
use crate::tested::quic_bench::parsers::{LongIds, NoIds, SelfSized};

// The datagram begins with a packet for this id.
fn is_for<P: ConnectionIdParser>(datagram: &[u8], parser: &P, grease: bool, id: &[u8]) {
    let bytes = BytesMut::from(datagram);
    match PartialDecode::new(bytes, parser, &[1], grease) {
        Ok((packet, _rest)) => assert_eq!(packet.dst_cid().as_slice(), id),
        Err(error) => panic!("{datagram:02x?}: {error}"),
    }
}

// The datagram is rejected for this reason.
fn is_refused<P: ConnectionIdParser>(datagram: &[u8], parser: &P, grease: bool, text: &str) {
    let bytes = BytesMut::from(datagram);
    match PartialDecode::new(bytes, parser, &[1], grease) {
        Ok(_) => panic!("{datagram:02x?} is read"),
        Err(error) => assert_eq!(error.to_string(), text),
    }
}

const TWENTY: &[u8] = b"\x40\x14\x01\x02\x03\x04\x05\x06\x07\x08\x09\x0a\x0b\x0c\x0d\x0e\x0f\x10\x11\x12\x13\xff";

#[test]
fn ids_that_say_their_length() {
    let cases: [(&[u8], &[u8]); 3] =
        [(b"\x40\x03\xaa\xbb\xff", b"\x03\xaa\xbb"), (b"\x40\x01", b"\x01"), (TWENTY, &TWENTY[1..21])];
    for (datagram, id) in cases {
        is_for(datagram, &SelfSized, false, id);
    }
    let bad: [&[u8]; 4] = [
        b"\x40\x00",
        b"\x40",
        b"\x40\x03\xaa",
        b"\x40\x15\x01\x02\x03\x04\x05\x06\x07\x08\x09\x0a\x0b\x0c\x0d\x0e\x0f\x10\x11\x12\x13\x14",
    ];
    for datagram in bad {
        is_refused(datagram, &SelfSized, false, "invalid header: bad id");
    }
}

#[test]
fn ids_of_no_and_of_twenty_bytes() {
    let twenty = FixedLengthConnectionIdParser::proved_new(20);
    let none = FixedLengthConnectionIdParser::proved_new(0);
    is_for(TWENTY, &LongIds, false, &TWENTY[1..21]);
    is_for(TWENTY, &twenty, false, &TWENTY[1..21]);
    is_for(TWENTY, &NoIds, false, &[]);
    is_for(TWENTY, &none, false, &[]);
    let text = "invalid header: packet too small";
    is_refused(&TWENTY[..20], &LongIds, false, text);
    is_refused(&TWENTY[..20], &twenty, false, text);
}

#[test]
fn the_fixed_bit() {
    let negotiation = b"\x80\x00\x00\x00\x00\x00\x00";
    let text = "invalid header: fixed bit unset";
    is_refused(negotiation, &NoIds, false, text);
    is_for(negotiation, &NoIds, true, &[]);
    is_refused(b"\x00", &NoIds, false, text);
    is_for(b"\x00", &NoIds, true, &[]);
}
