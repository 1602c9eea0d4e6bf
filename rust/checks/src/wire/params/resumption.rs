//! What a client that remembers parameters requires of new ones, and how many ids are issued.
use super::whole;
use crate::proved::quic_base::varint::VarInt;
use crate::proved::quic_errors::transport_error::Code;
use crate::proved::quic_params::transport_parameters::TransportParameters;

#[test]
fn limits() {
    let mut cached = TransportParameters::default();
    cached.initial_max_streams_uni = VarInt::from_u32(16);
    let mut new = cached;
    new.initial_max_streams_uni = VarInt::from_u32(32);
    assert!(new.validate_resumption_from(&cached).is_ok());
    assert!(cached.validate_resumption_from(&new).is_err());
    let none = TransportParameters::default();
    let mut zero = none;
    zero.max_datagram_frame_size = Some(VarInt::from_u32(0));
    assert!(none.validate_resumption_from(&zero).is_err());
    assert!(zero.validate_resumption_from(&none).is_ok());
    assert!(whole().validate_resumption_from(&whole()).is_ok());
    match none.validate_resumption_from(&whole()) {
        Ok(()) => panic!("no limits are as good as some"),
        Err(error) => {
            assert_eq!(error.code, Code::PROTOCOL_VIOLATION);
            assert_eq!(error.reason.as_str(), "0-RTT accepted with incompatible transport parameters");
        }
    }
}

#[test]
fn ids_to_issue() {
    for (limit, wanted) in [(2, 2), (8, 8), (1000, 8)] {
        let mut params = TransportParameters::default();
        params.active_connection_id_limit = VarInt::from_u32(limit);
        assert_eq!(params.issue_cids_limit(), wanted, "at {limit}");
    }
}
