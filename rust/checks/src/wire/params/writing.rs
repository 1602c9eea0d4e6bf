//! What is written for records.
use super::{DOWNWARD, WHOLE, preferred, two_limits, whole};
use crate::host::prelude::*;
use crate::host::test::Fail;
use crate::proved::quic_base::ids::Side;
use crate::proved::quic_params::transport_parameters::{ReservedTransportParameter, TransportParameters, WriteOrder};

fn digits(params: &TransportParameters) -> Result<String, Fail> {
    let mut out = Vec::new();
    params.write(&mut out)?;
    Ok(crate::host::hex::encode(out.as_slice())?)
}

#[test]
fn orders() -> Result<(), Fail> {
    let mut params = two_limits();
    assert_eq!(digits(&params)?.as_str(), "030244b0080110");
    params.write_order = WriteOrder::new(DOWNWARD);
    assert!(params.write_order.is_some());
    assert_eq!(digits(&params)?.as_str(), "080110030244b0");
    assert_eq!(digits(&whole())?.as_str(), WHOLE);
    let mut twice = DOWNWARD;
    twice[0] = 0;
    assert!(WriteOrder::new(twice).is_none());
    twice[0] = 21;
    assert!(WriteOrder::new(twice).is_none());
    Ok(())
}

#[test]
fn grease() -> Result<(), Fail> {
    let reserved = [
        (ReservedTransportParameter::proved_new(0, b"\xaa\xbb"), "1b02aabb"),
        (ReservedTransportParameter::proved_new(1, b""), "3a00"),
        (ReservedTransportParameter::proved_new(2, b""), "405900"),
        (ReservedTransportParameter::proved_new(148764065110560899, b""), "fffffffffffffff800"),
        (ReservedTransportParameter::proved_new(0, b"0123456789abcdef"), "1b1030313233343536373839616263646566"),
    ];
    for (grease, wanted) in reserved {
        let mut params = TransportParameters::default();
        params.grease_transport_parameter = Some(grease);
        let text = digits(&params)?;
        assert_eq!(text.as_str(), wanted, "at {wanted}");
        let bytes = crate::host::hex::decode(wanted)?;
        let mut rest = bytes.as_slice();
        assert_eq!(TransportParameters::read(Side::Server, &mut rest), Ok(TransportParameters::default()));
    }
    Ok(())
}

#[test]
fn read_and_written() -> Result<(), Fail> {
    let rows = [("20024005", "200105"), ("40040105", "040105"), ("040100", ""), ("6ab2006ab200", "6ab200")];
    for (line, wanted) in rows {
        let bytes = crate::host::hex::decode(line)?;
        let mut rest = bytes.as_slice();
        match TransportParameters::read(Side::Server, &mut rest) {
            Ok(params) => assert_eq!(digits(&params)?.as_str(), wanted, "at {line}"),
            Err(error) => panic!("at {line}: {error}"),
        }
    }
    Ok(())
}

#[test]
fn a_preferred_address() -> Result<(), Fail> {
    let mut out = Vec::new();
    let mut address = preferred();
    address.encode(&mut out)?;
    address.address_v4 = None;
    address.encode(&mut out)?;
    address.address_v6 = None;
    address.encode(&mut out)?;
    let text = crate::host::hex::encode(out.as_slice())?;
    assert_eq!(
        text.as_str(),
        "7f000001002a0000000000000000000000000000000100180142abababababababababababababababab0000000000000000000000000000000000000000000100180142abababababababababababababababab0000000000000000000000000000000000000000000000000142abababababababababababababababab"
    );
    Ok(())
}

fn is_untouched(room: &[u8]) -> bool {
    for &byte in room {
        if byte != 0xff {
            return false;
        }
    }
    true
}

fn is_front(room: &[u8], bytes: &[u8]) -> bool {
    let Some((front, rest)) = room.split_at_checked(bytes.len()) else {
        return false;
    };
    front == bytes && is_untouched(rest)
}

// Whether these bytes are written at the front, and those after them don't change.
fn is_stored(params: &TransportParameters, bytes: &[u8]) -> bool {
    let mut room = [0xff; 90];
    params.write_into(&mut room) == Ok(bytes.len()) && is_front(&room, bytes)
}

// The same if there is room for exactly them.
fn is_stored_in_its_room(params: &TransportParameters, bytes: &[u8]) -> bool {
    let mut room = [0xff; 90];
    let Some(just) = room.get_mut(..bytes.len()) else {
        return false;
    };
    params.write_into(just) == Ok(bytes.len()) && is_front(&room, bytes)
}

// Whether nothing is written if there is room for one byte less, and the needed room is reported.
fn is_refused(params: &TransportParameters, bytes: &[u8]) -> bool {
    let mut room = [0xff; 90];
    let Some(little) = room.get_mut(..bytes.len().saturating_sub(1)) else {
        return false;
    };
    params.write_into(little) == Err(bytes.len()) && is_untouched(&room)
}

fn is_stored_whole_or_not(params: &TransportParameters, bytes: &[u8]) -> bool {
    is_stored(params, bytes) && is_stored_in_its_room(params, bytes) && is_refused(params, bytes)
}

#[test]
fn lists_are_stored_at_the_front() -> Result<(), Fail> {
    let bytes = crate::host::hex::decode(WHOLE)?;
    assert!(is_stored_whole_or_not(&whole(), bytes.as_slice()), "most kinds");
    let two = b"\x03\x02\x44\xb0\x08\x01\x10";
    assert!(is_stored_whole_or_not(&two_limits(), two), "two limits");
    let none = TransportParameters::default();
    assert!(is_stored(&none, b""), "no entry");
    assert!(none.write_into(&mut []) == Ok(0), "no entry and no room");
    Ok(())
}
