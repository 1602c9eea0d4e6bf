//! What RFC 9001 says of bytes up to the cipher: nonces of packets, what a Retry's tag protects, and the constants of
//! versions 1 and 2. You derive keys and call ciphers.
//!
//! ```
//! use quic_wire::tls::{Constants, nonce, store_pseudo_packet};
//! let iv = [0xfa, 0x04, 0x4b, 0x2f, 0x42, 0xa3, 0xfd, 0x3b, 0x46, 0xfb, 0x25, 0x5c];
//! // The client's Initial packet of RFC 9001, appendix A.2, has number 2.
//! assert_eq!(nonce(iv, 2)[11], 0x5e);
//! let (mut pseudo, mut retry) = ([0; 64], vec![0xff; 20]);
//! retry.extend([0; 16]);
//! assert_eq!(store_pseudo_packet(&[1, 2, 3], &retry, &mut pseudo), Some(1 + 3 + 20));
//! assert_eq!(Constants::of(1).map(|constants| constants.key_label), Some("quic key"));
//! ```
pub use crate::proved::quic_tls::constants::Constants;
pub use crate::proved::quic_tls::nonce::nonce;
pub use crate::proved::quic_tls::retry::{TAG_LEN, store_pseudo_packet};
