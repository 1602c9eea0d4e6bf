//! Worked rows, and what no clause says.

mod lines;
mod options;
mod reading;
mod resumption;
mod texts;
mod writing;

use crate::proved::quic_base::ids::{ConnectionId, ResetToken};
use crate::proved::quic_base::varint::VarInt;
use crate::proved::quic_params::transport_parameters::{PreferredAddress, TransportParameters};
use std::net::{Ipv4Addr, Ipv6Addr, SocketAddrV4, SocketAddrV6};

// A record with most kinds of values, and its bytes.
const WHOLE: &str = "030244b00801100901100a01020d2a7f000001002a0000000000000000000000000000000100180142abababababababababababababababab00000f006ab200c0000000ff04de1b0247d0";

fn preferred() -> PreferredAddress {
    PreferredAddress {
        address_v4: Some(SocketAddrV4::new(Ipv4Addr::LOCALHOST, 42)),
        address_v6: Some(SocketAddrV6::new(Ipv6Addr::LOCALHOST, 24, 0, 0)),
        connection_id: ConnectionId::proved_new(&[0x42]),
        stateless_reset_token: ResetToken::from([0xab; 16]),
    }
}

fn whole() -> TransportParameters {
    let mut params = TransportParameters::default();
    params.initial_src_cid = Some(ConnectionId::proved_new(&[]));
    params.original_dst_cid = Some(ConnectionId::proved_new(&[]));
    params.initial_max_streams_bidi = VarInt::from_u32(16);
    params.initial_max_streams_uni = VarInt::from_u32(16);
    params.ack_delay_exponent = VarInt::from_u32(2);
    params.max_udp_payload_size = VarInt::from_u32(1200);
    params.preferred_address = Some(preferred());
    params.grease_quic_bit = true;
    params.min_ack_delay = Some(VarInt::from_u32(2000));
    params
}

// 1,200 bytes of payload, 16 bidirectional streams.
fn two_limits() -> TransportParameters {
    let mut params = TransportParameters::default();
    params.max_udp_payload_size = VarInt::from_u32(1200);
    params.initial_max_streams_bidi = VarInt::from_u32(16);
    params
}

// The order of the table, backwards.
const DOWNWARD: [u8; 21] = [20, 19, 18, 17, 16, 15, 14, 13, 12, 11, 10, 9, 8, 7, 6, 5, 4, 3, 2, 1, 0];
