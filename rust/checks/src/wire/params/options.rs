//! Lists that quinn-proto and RFC 9000 read differently.
use crate::proved::quic_base::ids::Side;
use crate::proved::quic_params::transport_parameters::{ReadOptions, TransportParameters};

// An initial_max_data of 9 in two bytes (RFC 9000, section 16), after another parameter.
const WIDE: &[u8] = b"\x05\x01\x00\x04\x02\x40\x09";

// Twice a grease_quic_bit (section 7.4).
const TWICE: &[u8] = b"\x6a\xb2\x00\x6a\xb2\x00";

#[test]
fn ways_of_reading() {
    for (list, by_quinn, by_rfc) in [(WIDE, false, true), (TWICE, true, false)] {
        let mut rest = list;
        let read = TransportParameters::read_with(Side::Client, ReadOptions::default(), &mut rest);
        assert_eq!(read.is_ok(), by_quinn);
        let mut rest = list;
        let read = TransportParameters::read_with(Side::Client, ReadOptions::RFC, &mut rest);
        assert_eq!(read.is_ok(), by_rfc);
    }
}
