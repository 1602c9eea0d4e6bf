//! Lists of parameters, whole and cut off.
use super::lines::{CLIENT, SERVER};
use super::{WHOLE, preferred, two_limits, whole};
use crate::host::prelude::*;
use crate::host::test::Fail;
use crate::proved::quic_base::ids::{ConnectionId, Side};
use crate::proved::quic_base::varint::VarInt;
use crate::proved::quic_params::transport_parameters::{Error, TransportParameterId, TransportParameters, Value};

#[test]
fn a_record_of_most_kinds() -> Result<(), Fail> {
    let bytes = crate::host::hex::decode(WHOLE)?;
    let mut rest = bytes.as_slice();
    assert_eq!(TransportParameters::read(Side::Client, &mut rest), Ok(whole()));
    assert!(rest.is_empty());
    let mut rest = bytes.as_slice();
    assert_eq!(TransportParameters::read(Side::Server, &mut rest), Err(Error::IllegalValue));
    Ok(())
}

#[test]
fn beginnings_of_two_limits() {
    let bytes = b"\x03\x02\x44\xb0\x08\x01\x10".as_slice();
    for k in 0..=bytes.len() {
        let mut rest = &bytes[..k];
        let answer = TransportParameters::read(Side::Server, &mut rest);
        let wanted = matches!(k, 0 | 4 | 7);
        assert_eq!(answer.is_ok(), wanted, "at {k}");
        if !wanted {
            assert_eq!(answer, Err(Error::Malformed), "at {k}");
        }
    }
    let mut rest = bytes;
    assert_eq!(TransportParameters::read(Side::Server, &mut rest), Ok(two_limits()));
}

// What is read from each beginning of each row is written, and read back unchanged.
#[test]
fn each_beginning_of_each_row() -> Result<(), Fail> {
    for (side, rows) in [(Side::Server, SERVER), (Side::Client, CLIENT)] {
        for &(line, _) in rows {
            if let Ok(bytes) = crate::host::hex::decode(line) {
                for k in 0..=bytes.len() {
                    let mut rest = &bytes[..k];
                    if let Ok(params) = TransportParameters::read(side, &mut rest) {
                        let mut out = Vec::new();
                        params.write(&mut out)?;
                        let mut again = out.as_slice();
                        assert!(out.len() <= k, "at {line}");
                        assert_eq!(TransportParameters::read(side, &mut again), Ok(params), "at {line}");
                    }
                }
            }
        }
    }
    Ok(())
}

#[test]
fn numbers_and_values() {
    for id in TransportParameterId::SUPPORTED {
        assert!(!id.is(0x11));
    }
    assert!(TransportParameterId::MinAckDelayDraft07.is(0xff04de1b));
    assert_eq!(TransportParameterId::try_from(0x2ab2), Ok(TransportParameterId::GreaseQuicBit));
    assert_eq!(TransportParameterId::try_from(0x11), Err(()));
    let params = whole();
    assert_eq!(params.written_value(TransportParameterId::AckDelayExponent), Some(Value::Number(VarInt::from_u32(2))));
    assert_eq!(params.written_value(TransportParameterId::MaxAckDelay), None);
    assert_eq!(
        params.written_value(TransportParameterId::InitialSourceConnectionId),
        Some(Value::Id(ConnectionId::proved_new(&[])))
    );
    assert_eq!(params.written_value(TransportParameterId::GreaseQuicBit), Some(Value::Flag));
    assert_eq!(params.written_value(TransportParameterId::PreferredAddress), Some(Value::Address(preferred())));
}

#[test]
fn records_in_range() {
    let mut params = whole();
    assert!(params.in_range(Side::Client));
    assert!(!params.in_range(Side::Server));
    assert!(two_limits().in_range(Side::Server));
    params.type_bounds();
    let mut address = preferred();
    address.address_v4 = None;
    address.address_v6 = None;
    params.preferred_address = Some(address);
    assert!(!params.in_range(Side::Client));
    let mut address = preferred();
    address.connection_id = ConnectionId::proved_new(&[]);
    params.preferred_address = Some(address);
    assert!(!params.in_range(Side::Client));
}
