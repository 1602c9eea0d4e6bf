//! Texts and conversions of errors, and what Debug prints.
use super::{DOWNWARD, preferred, two_limits};
use crate::proved::quic_base::coding::UnexpectedEnd;
use crate::proved::quic_base::varint::VarInt;
use crate::proved::quic_errors::transport_error;
use crate::proved::quic_errors::transport_error::Code;
use crate::proved::quic_params::transport_parameters::{
    Error, ReservedTransportParameter, TransportParameterId, Value, WriteOrder,
};

#[test]
fn errors() {
    assert_eq!(Error::IllegalValue.to_string(), "parameter had illegal value");
    assert_eq!(Error::Malformed.to_string(), "parameters were malformed");
    assert_eq!(format!("{:?}", Error::IllegalValue), "IllegalValue");
    assert_eq!(format!("{:?}", Error::Malformed), "Malformed");
    assert_eq!(Error::from(UnexpectedEnd), Error::Malformed);
    for (error, text) in [(Error::IllegalValue, "illegal value"), (Error::Malformed, "malformed")] {
        let closing = transport_error::Error::from(error);
        assert_eq!(closing.code, Code::TRANSPORT_PARAMETER_ERROR);
        assert_eq!(closing.reason.as_str(), text);
    }
}

#[test]
fn debug() {
    assert_eq!(format!("{:?}", TransportParameterId::MinAckDelayDraft07), "MinAckDelayDraft07");
    assert_eq!(format!("{:?}", Value::Number(VarInt::from_u32(7))), "Number(7)");
    assert_eq!(
        format!("{:?}", WriteOrder::new(DOWNWARD)),
        "Some(WriteOrder([20, 19, 18, 17, 16, 15, 14, 13, 12, 11, 10, 9, 8, 7, 6, 5, 4, 3, 2, 1, 0]))"
    );
    let shown = format!("{:?}", preferred());
    assert!(shown.starts_with(
        "PreferredAddress { address_v4: Some(127.0.0.1:42), address_v6: Some([::1]:24), connection_id: [66], stateless_reset_token: ",
    ));
    let shown = format!("{:?}", two_limits());
    assert!(
        shown.starts_with(
            "TransportParameters { max_idle_timeout: 0, max_udp_payload_size: 1200, initial_max_data: 0, ",
        )
    );
    assert!(shown.ends_with("min_ack_delay: None, write_order: None }"));
    let grease = ReservedTransportParameter::proved_new(0, b"a");
    let shown = format!("{grease:?}");
    assert!(shown.starts_with("ReservedTransportParameter { number: 27, "));
}
