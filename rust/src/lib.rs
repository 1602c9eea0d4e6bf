//! The wire layer of QUIC, versions 1 and 2, for stacks and for tools that inspect bytes: frames ([`frame`]; RFC 9000,
//! section 19, with DATAGRAM of RFC 9221 and the ACK frequency extension) and their shortest form ([`canonical`]);
//! packet headers and their protection ([`packet`], and [`datagram`] for borrowed bytes; RFC 9000, sections 12.2 and
//! 17; RFC 9001, section 5); packets opened by level and key phase ([`levels`]; RFC 9001, sections 4 to 6); transport
//! parameters ([`transport_parameters`]; RFC 9000, section 18); sets of packet numbers ([`range_set`]); which packets
//! may carry a frame ([`permitted`]); version_information and the answer to packets of other versions ([`versions`];
//! RFC 9368; RFC 8999, section 6); nonces and what a Retry's tag protects ([`tls`]; RFC 9001); stateless resets
//! ([`reset`]). The names are those of `quinn-proto`, which keeps these parts private.
//!
//! Reading and writing is proved: each function with a section "Contract" was written in Rattle and proved to fulfil
//! the clauses that stand there, and a tool made Rust of it. What is written in Rust instead says so. You bring the
//! ciphers.
//!
//! ```
//! use quic_wire::frame::{Frame, Iter};
//! for frame in Iter::new(&[0x01, 0x08, 0x04, b'h', b'i'])? {
//!     match frame? {
//!         Frame::Stream(s) => assert_eq!((u64::from(s.id), s.bytes), (4, &b"hi"[..])),
//!         frame => assert_eq!(frame, Frame::Ping),
//!     }
//! }
//! # Ok::<(), quic_wire::Error>(())
//! ```
//!
//! # Panics
//!
//! No bytes that a peer sends make a call panic. Some calls panic on arguments of their own caller; each says so in a
//! section "Panics". If memory runs out while a vector grows, the program ends, as elsewhere in Rust.
//!
//! # Features
//!
//! The crate is `no_std` and needs `alloc`. `std`, the default, turns on `std` of the crates that it depends on.
//!
//! # Where it departs from RFC 9000
//!
//! By default it reads as quinn-proto does. [`frame::Rules::RFC`], [`transport_parameters::ReadOptions::RFC`] and
//! [`datagram::HeaderChecks::RFC`] read as RFC 9000 asks.
#![no_std]
#![forbid(unsafe_code)]

extern crate alloc;
// The sources say `std` for what is in `core`.
extern crate core as std;

pub mod canonical;
pub mod coding;
pub mod crypto;
pub mod datagram;
mod error;
pub mod fields;
pub mod frame;
pub mod ids;
mod kit;
pub mod levels;
pub mod packet;
pub mod permitted;
#[rustfmt::skip]
mod proved;
pub mod range_set;
pub mod reset;
pub mod tls;
pub mod transport_error;
pub mod transport_parameters;
pub mod varint;
pub mod versions;

pub use error::{Error, WriteError};
pub use ids::{ConnectionId, Dir, EcnCodepoint, MAX_CID_SIZE, ResetToken, Side, StreamId};
pub use varint::{VarInt, VarIntBoundsExceeded};

/// The examples of the README.
#[cfg(doctest)]
#[doc = include_str!("../README.md")]
struct Readme;
