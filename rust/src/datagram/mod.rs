//! The packets of a datagram in borrowed bytes: cut, opened and protected in place, and their headers as byte ranges
//! (RFC 9000, sections 12.2 and 17; RFC 9001, section 5.4). Nothing is copied, and nothing allocates. You bring the
//! cipher, which makes a mask from a sample, or masks by itself.
//!
//! ```
//! use quic_wire::datagram::{Header, PacketsMut};
//! use quic_wire::packet::{LongType, PacketNumber};
//! # fn mask(_sample: &[u8]) -> [u8; 5] { [0x1f, 1, 2, 3, 4] }
//! // A packet is written: its header, its payload, and then its length; it is sealed and protected.
//! let number = PacketNumber::new(7, 0);
//! let header = Header::Long { ty: LongType::Handshake, dst_cid: &[1, 2], src_cid: &[3], number, version: 1 };
//! let mut datagram = vec![0; 60];
//! let written = header.encode_into(&mut datagram)?;
//! written.set_len(&mut datagram)?;
//! let place = written.place(&datagram);
//! let mask_of = mask(place.sample(&datagram, 16)?);
//! place.protect(&mut datagram, &mask_of)?;
//!
//! // And opened.
//! for packet in PacketsMut::new(&mut datagram, 0, &[1], false) {
//!     // A stack goes on with the next packet if this one can't be opened; here `?` ends the loop.
//!     let packet = packet?.open_with(16, mask, 7)?;
//!     assert_eq!((packet.number(), packet.dst_cid()), (7, &[1, 2][..]));
//!     assert!(packet.reserved_bits_valid());
//!     // packet.header_data and packet.payload go to the AEAD.
//! }
//! # Ok::<(), quic_wire::Error>(())
//! ```
//!
//! Headers are read by a proved function, and so are packet numbers. This module adds in Rust, which no proof covers:
//! which fixed bits and which Retry packets [`HeaderChecks`] accept, cutting one packet after the other, masks, and
//! version negotiations.
mod encode;
mod header;
mod negotiation;
mod opening;
mod packets;
mod protection;

pub use crate::proved::quic_header_encode::long_type::HeaderKind;
pub use encode::{Header, PartialEncode};
pub(crate) use header::reason_of;
pub use header::{HeaderChecks, HeaderError, HeaderPlaces, UnsupportedVersion, receiver_id};
pub use negotiation::{VersionNegotiation, Versions};
pub use opening::{OpenedPacket, PacketMut};
pub use packets::{PacketRef, Packets, PacketsMut};
pub use protection::{Opened, PacketPlace, UnprotectError};
