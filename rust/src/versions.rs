//! Versions: the value of the transport parameter version_information (RFC 9368), and the answer to a packet of a version
//! that isn't supported (RFC 8999, section 6; RFC 9000, section 6.1).
//!
//! ```
//! use quic_wire::versions::{answer, read, split, store};
//! let mut value = [0; 12];
//! assert_eq!(store(1, &[0x6b33_43cf, 1], &mut value), Some(12));
//! let (chosen, available) = read(&value).ok_or("no version_information")?;
//! let (preferred, _others) = split(available).ok_or("no version is available")?;
//! assert_eq!((chosen, preferred), (1, 0x6b33_43cf));
//!
//! // A packet of version 5 from the id 09, to the id 07.
//! let (received, mut packet) = ([0xc0, 0, 0, 0, 5, 1, 7, 1, 9], [0; 13]);
//! assert_eq!(answer(0x40, &received, &[1], &mut packet), Some(13));
//! assert_eq!(packet, [0xc0, 0, 0, 0, 0, 1, 9, 1, 7, 0, 0, 0, 1]);
//! # Ok::<(), &str>(())
//! ```
pub use crate::proved::quic_negotiation::answer::answer;
pub use crate::proved::quic_versions::information::{read, split};
pub use crate::proved::quic_versions::store::store;
