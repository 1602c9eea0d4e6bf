//! The texts of errors, which no clause fixes: as the documentation of each variant says.
use crate::proved::quic_crypto::crypto::CryptoError;
use crate::proved::quic_header_decode::decode_error::PacketDecodeError;
use crate::proved::quic_packets::packet::{OpenError, SealError};

const SEAL_ERRORS: &[(SealError, &str)] = &[
    (SealError::TooShort, "packet too short for header protection sample"),
    (SealError::TooLong, "packet too long for its length field"),
    (SealError::NoRoom, "no room in buffer"),
];

#[test]
fn texts_of_errors_of_packets() {
    for (error, text) in SEAL_ERRORS {
        assert_eq!(error.to_string(), *text);
    }
    let open_errors = [
        (OpenError::Unsealed, "packet not sealed by these keys"),
        (OpenError::OutOfMemory, "out of memory"),
        (OpenError::Decode(PacketDecodeError::InvalidHeader("malformed cid")), "invalid header: malformed cid"),
    ];
    for (error, text) in &open_errors {
        assert_eq!(error.to_string(), *text);
    }
    let text = "payload does not belong to the packet's number, header and key";
    assert_eq!(CryptoError.to_string(), text);
}
