//! Keys of packets, as traits with laws (RFC 9001, sections 5.3 and 5.4). You implement them by your ciphers. The laws
//! stand in the contracts of the traits; no compiler checks them, and [`crate::packet`] opens what it sealed only if
//! they hold.
//!
//! A cipher that works in place and doesn't reveal its mask, like that of `rustls`, becomes such keys by
//! [`mask_in_place`], [`seal_in_place`] and [`open_in_place`]:
//!
//! ```
//! # mod rustls { pub mod quic {
//! #     #[derive(Debug)]
//! #     pub struct Error;
//! #     pub struct Tag([u8; 16]);
//! #     impl AsRef<[u8]> for Tag { fn as_ref(&self) -> &[u8] { &self.0 } }
//! #     pub trait HeaderProtectionKey {
//! #         fn encrypt_in_place(&self, sample: &[u8], first: &mut u8, number: &mut [u8]) -> Result<(), Error>;
//! #         fn decrypt_in_place(&self, sample: &[u8], first: &mut u8, number: &mut [u8]) -> Result<(), Error>;
//! #         fn sample_len(&self) -> usize;
//! #     }
//! #     pub trait PacketKey {
//! #         fn encrypt_in_place(&self, number: u64, header: &[u8], payload: &mut [u8]) -> Result<Tag, Error>;
//! #         fn decrypt_in_place<'a>(&self, number: u64, header: &[u8], payload: &'a mut [u8])
//! #             -> Result<&'a [u8], Error>;
//! #         fn tag_len(&self) -> usize;
//! #     }
//! # } }
//! # fn main() {}
//! use bytes::BytesMut;
//! use quic_wire::crypto::{CryptoError, HeaderKey, PacketKey, mask_in_place, open_in_place, seal_in_place};
//! use rustls::quic;
//!
//! struct Header(Box<dyn quic::HeaderProtectionKey>);
//!
//! impl HeaderKey for Header {
//!     fn sample_size(&self) -> usize {
//!         self.0.sample_len()
//!     }
//!
//!     fn encrypt(&self, pn_offset: usize, packet: &mut [u8]) {
//!         mask_in_place(pn_offset, packet, self.sample_size(), |sample, first, number| {
//!             self.0.encrypt_in_place(sample, first, number).expect("the sample has its length")
//!         });
//!     }
//!
//!     fn decrypt(&self, pn_offset: usize, packet: &mut [u8]) {
//!         mask_in_place(pn_offset, packet, self.sample_size(), |sample, first, number| {
//!             self.0.decrypt_in_place(sample, first, number).expect("the sample has its length")
//!         });
//!     }
//! }
//!
//! struct Packet(Box<dyn quic::PacketKey>);
//!
//! impl PacketKey for Packet {
//!     fn tag_len(&self) -> usize {
//!         self.0.tag_len()
//!     }
//!
//!     fn encrypt(&self, number: u64, packet: &mut [u8], header_len: usize) {
//!         seal_in_place(packet, header_len, self.tag_len(), |header, payload| {
//!             self.0.encrypt_in_place(number, header, payload).expect("the payload isn't too long")
//!         });
//!     }
//!
//!     fn decrypt(&self, number: u64, header: &[u8], payload: &mut BytesMut) -> Result<(), CryptoError> {
//!         open_in_place(payload, |sealed| self.0.decrypt_in_place(number, header, sealed))
//!     }
//! }
//! ```
use crate::datagram::PacketPlace;
use alloc::boxed::Box;
use bytes::BytesMut;

pub use crate::proved::quic_crypto::crypto::{CryptoError, HeaderKey, PacketKey};
/// A pair of keys that protects nothing: for tests, and to read packets by eye.
pub use crate::proved::quic_crypto::toy::{TAG_LEN, ToyHeaderKey, ToyPacketKey};

/// Keys that are called through a pointer, also those whose type isn't known, as `dyn HeaderKey`.
macro_rules! pointed_to {
    ($($(#[$doc:meta])* $pointer:ty;)*) => {
        $(
            $(#[$doc])*
            impl<K: HeaderKey + ?Sized> HeaderKey for $pointer {
                fn sample_size(&self) -> usize {
                    (**self).sample_size()
                }

                fn encrypt(&self, pn_offset: usize, packet: &mut [u8]) {
                    (**self).encrypt(pn_offset, packet);
                }

                fn decrypt(&self, pn_offset: usize, packet: &mut [u8]) {
                    (**self).decrypt(pn_offset, packet);
                }
            }

            $(#[$doc])*
            impl<K: PacketKey + ?Sized> PacketKey for $pointer {
                fn tag_len(&self) -> usize {
                    (**self).tag_len()
                }

                fn encrypt(&self, number: u64, packet: &mut [u8], header_len: usize) {
                    (**self).encrypt(number, packet, header_len);
                }

                fn decrypt(&self, number: u64, header: &[u8], payload: &mut BytesMut) -> Result<(), CryptoError> {
                    (**self).decrypt(number, header, payload)
                }
            }
        )*
    };
}

pointed_to! {
    /// A key that is borrowed, also one whose type isn't known, as `&dyn`.
    &K;
    /// A key in a box, also one whose type isn't known, as `Box<dyn>`.
    Box<K>;
}

/// For [`HeaderKey::encrypt`] and [`HeaderKey::decrypt`] by a cipher that applies or removes its mask itself (RFC 9001,
/// section 5.4.1). It gets the sample of `sample_size` bytes, the first byte, and four bytes from the packet number on,
/// of which it changes the number's.
///
/// # Panics
///
/// If the packet number doesn't begin after a first byte, or the packet has fewer than four bytes and the sample from
/// there on. This crate calls no key with such a packet.
pub fn mask_in_place(
    pn_offset: usize,
    packet: &mut [u8],
    sample_size: usize,
    mask: impl FnOnce(&[u8], &mut u8, &mut [u8; 4]),
) {
    let masked = PacketPlace::new(0..packet.len(), pn_offset).protect_by(packet, sample_size, mask);
    assert!(masked.is_ok(), "a packet has a first byte, a number and a sample");
}

/// For [`PacketKey::encrypt`] by a cipher that seals in place and returns the tag (RFC 9001, section 5.3). It gets the
/// header's `header_len` bytes, and the payload without the packet's last `tag_len` bytes, where its tag is stored.
///
/// # Panics
///
/// If the packet is shorter than the header and the tag together, or the tag doesn't have `tag_len` bytes.
pub fn seal_in_place<T: AsRef<[u8]>>(
    packet: &mut [u8],
    header_len: usize,
    tag_len: usize,
    seal: impl FnOnce(&[u8], &mut [u8]) -> T,
) {
    let (header, behind) = packet.split_at_mut(header_len);
    let payload_len = behind.len().checked_sub(tag_len).expect("a packet has room for its tag");
    let (payload, room) = behind.split_at_mut(payload_len);
    room.copy_from_slice(seal(header, payload).as_ref());
}

/// For [`PacketKey::decrypt`] by a cipher that opens in place and returns the plaintext, with which the bytes that it
/// got begin (RFC 9001, section 5.3). `payload` is cut to that.
///
/// # Errors
///
/// If the cipher returns one. What `payload` holds then is up to the cipher.
pub fn open_in_place<E>(
    payload: &mut BytesMut,
    open: impl FnOnce(&mut [u8]) -> Result<&[u8], E>,
) -> Result<(), CryptoError> {
    let plain_len = open(payload).map_err(|_| CryptoError)?.len();
    payload.truncate(plain_len);
    Ok(())
}
