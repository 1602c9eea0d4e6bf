//! The functions that the crate renames, under their names in the sources.
use crate::kit::bytes::BufMut;
use crate::proved::quic_base::coding::NoRoom;
use crate::proved::quic_crypto::crypto::{HeaderKey, PacketKey};
use crate::proved::quic_crypto::packet_number::PacketNumber;
use crate::proved::quic_frame_fields::frame::{
    ApplicationClose, Close, ConnectionClose, Crypto, Datagram, EcnCounts, NewConnectionId, NewToken, StreamMeta,
};
use crate::proved::quic_frames::frame::Frame;
use crate::proved::quic_header_decode::cut::PartialDecode;
use crate::proved::quic_header_decode::decode_error::PacketDecodeError;
use crate::proved::quic_header_decode::packet::Packet;
use crate::proved::quic_header_decode::parser::{ConnectionIdParser, DecodeOptions};
use crate::proved::quic_header_encode::encode::PartialEncode;
use crate::proved::quic_header_encode::header::Header;
use crate::proved::quic_packets::keys::{Expected, SpaceKeys};
use crate::proved::quic_packets::opening::{OpenError, Opened, Packets};

type Written = Result<(), NoRoom>;

macro_rules! signature {
    ({ $($sig:tt)* }) => { $($sig)*; };
    ({ $($sig:tt)* } $body:tt) => { $($sig)* $body };
}

/// A trait for one function of one type, which calls the one that was renamed.
macro_rules! named {
    ($($trait:ident for $of:ty { $($sig:tt => $body:tt)* })*) => {
        $(pub trait $trait {
            $(signature!($sig);)*
        }
        impl $trait for $of {
            $(signature!($sig $body);)*
        })*
    };
}

named! {
    OfCrypto for Crypto<'_> {
        { fn encode<B: BufMut>(&self, out: &mut B) -> Written } => { self.proved_encode(out) }
    }
    OfNewToken for NewToken<'_> {
        { fn encode<B: BufMut>(&self, out: &mut B) -> Written } => { self.proved_encode(out) }
        { fn size(&self) -> usize } => { self.proved_size() }
    }
    OfEcnCounts for EcnCounts {
        { fn encode<B: BufMut>(&self, out: &mut B) -> Written } => { self.proved_encode(out) }
    }
    OfNewConnectionId for NewConnectionId {
        { fn encode<B: BufMut>(&self, out: &mut B) -> Written } => { self.proved_encode(out) }
    }
    OfPacketNumber for PacketNumber {
        { fn encode<B: BufMut>(self, out: &mut B) -> Written } => { self.proved_encode(out) }
        { fn expand(self, expected: u64) -> u64 } => { self.proved_expand(expected) }
    }
    OfFrame for Frame<'_> {
        { fn encode<B: BufMut>(&self, last: bool, out: &mut B) -> Written } => { self.proved_encode(last, out) }
        { fn encode_into(&self, last: bool, dest: &mut [u8]) -> Result<usize, usize> } =>
            { self.proved_encode_into(last, dest) }
        { fn encode_body_into(&self, last: bool, dest: &mut [u8]) -> Result<usize, usize> } =>
            { self.proved_encode_body_into(last, dest) }
        { fn encoded_len(&self, last: bool) -> u128 } => { self.proved_encoded_len(last) }
    }
    OfStreamMeta for StreamMeta {
        { fn encode<B: BufMut>(&self, with_length: bool, out: &mut B) -> Written } =>
            { self.proved_encode(with_length, out) }
    }
    OfDatagram for Datagram<'_> {
        { fn encode(&self, with_length: bool, out: &mut Vec<u8>) -> Written } =>
            { self.proved_encode(with_length, out) }
        { fn size(&self, with_length: bool) -> usize } => { self.proved_size(with_length) }
    }
    OfConnectionClose for ConnectionClose<'_> {
        { fn encode<B: BufMut>(&self, out: &mut B, max_len: usize) -> Written } => { self.proved_encode(out, max_len) }
        { fn min_len(&self) -> usize } => { self.proved_min_len() }
    }
    OfApplicationClose for ApplicationClose<'_> {
        { fn encode<B: BufMut>(&self, out: &mut B, max_len: usize) -> Written } => { self.proved_encode(out, max_len) }
        { fn min_len(&self) -> usize } => { self.proved_min_len() }
    }
    OfClose for Close<'_> {
        { fn encode<B: BufMut>(&self, out: &mut B, max_len: usize) -> Written } => { self.proved_encode(out, max_len) }
        { fn min_len(&self) -> usize } => { self.proved_min_len() }
    }
    OfHeader for Header {
        { fn encode(&self, out: &mut Vec<u8>) -> Result<PartialEncode, NoRoom> } => { self.proved_encode(out) }
        { fn encoded_len(&self) -> usize } => { self.proved_encoded_len() }
    }
    OfPartialDecode for PartialDecode {
        { fn finish<H: HeaderKey>(self, key: Option<&H>) -> Result<Packet, PacketDecodeError> } =>
            { self.proved_finish(key) }
    }
    OfPartialEncode for PartialEncode {
        { fn finish<H: HeaderKey, P: PacketKey>(self, buf: &mut [u8], key: &H, crypto: Option<(u64, &P)>) } =>
            { self.proved_finish(buf, key, crypto) }
    }
    OfPackets for Packets {
        { fn open_next<C: ConnectionIdParser, H: HeaderKey, P: PacketKey>(
            &mut self, options: &DecodeOptions<'_, C>, keys: &SpaceKeys<H, P>, expected: &Expected,
        ) -> Option<Result<Opened, OpenError>> } => { self.proved_open_next(options, keys, expected) }
    }
}
