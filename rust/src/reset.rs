//! Stateless resets (RFC 9000, section 10.3).
//!
//! ```
//! use quic_wire::ResetToken;
//! use quic_wire::reset::{is_reset, store};
//! let (token, mut datagram) = (ResetToken::from([7; 16]), [0; 30]);
//! // The caller makes these bytes at random.
//! assert_eq!(store(&[0xff; 14], &token, &mut datagram), Some(30));
//! assert_eq!(datagram[0], 0x7f);
//! assert!(is_reset(&datagram, &token));
//! assert!(!is_reset(&datagram, &ResetToken::from([8; 16])));
//! ```
pub use crate::proved::quic_resets::reset::{MIN_LEN, is_reset, store};
