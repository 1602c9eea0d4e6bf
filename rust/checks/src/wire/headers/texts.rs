//! Texts of errors, and the Debug of headers.
use crate::proved::quic_base::coding::UnexpectedEnd;
use crate::proved::quic_base::ids::ConnectionId;
use crate::proved::quic_packets::packet::{LongHeaderType, LongType, PacketDecodeError, ProtectedHeader};

#[test]
fn errors() {
    let unsupported = PacketDecodeError::UnsupportedVersion {
        src_cid: ConnectionId::proved_new(&[1]),
        dst_cid: ConnectionId::proved_new(&[]),
        version: 0xff00_0012,
    };
    assert_eq!(unsupported.to_string(), "unsupported version ff000012");
    let text = "UnsupportedVersion { src_cid: [1], dst_cid: [], version: 4278190098 }";
    assert_eq!(format!("{unsupported:?}"), text);
    let ended = PacketDecodeError::from(UnexpectedEnd);
    assert!(ended == PacketDecodeError::InvalidHeader("unexpected end of packet"));
    assert_eq!(ended.to_string(), "invalid header: unexpected end of packet");
    assert_eq!(PacketDecodeError::OutOfMemory.to_string(), "out of memory");
    assert_eq!(format!("{:?}", PacketDecodeError::OutOfMemory), "OutOfMemory");
    assert!(unsupported < ended);
}

#[test]
fn headers() {
    let head = ProtectedHeader::Long {
        ty: LongType::ZeroRtt,
        dst_cid: ConnectionId::proved_new(&[7]),
        src_cid: ConnectionId::proved_new(&[]),
        len: 5,
        version: 1,
    };
    let text = "Long { ty: ZeroRtt, dst_cid: [7], src_cid: [], len: 5, version: 1 }";
    assert_eq!(format!("{head:?}"), text);
    assert_eq!(format!("{:?}", head.clone()), text);
    let kind = LongHeaderType::Standard(LongType::Handshake);
    assert_eq!(format!("{kind:?}"), "Standard(Handshake)");
}
