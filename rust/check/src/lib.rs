//! Finds the packets of a capture that break a rule of RFC 9000 or of its companions. [`rules::all`] is the table of
//! rules; a [`checker::Checker`] takes the datagrams of a capture and returns a [`finding::Report`].
//!
//! What a capture doesn't show is never found: a rule is silent about packets that weren't opened, connections that
//! began before the capture, and what a lost or reordered packet may explain. How often it was, and why, is counted.
//!
//! ```
//! use quic_wire_capture::capture::{Capture, Item};
//! use quic_wire_capture::follow::Follower;
//! use quic_wire_capture::input;
//! use quic_wire_check::checker::Checker;
//!
//! let file = &include_bytes!("../../capture/tests/data/small.pcap")[..];
//! let (mut capture, mut follower, mut checker) = (Capture::default(), Follower::default(), Checker::default());
//! follower.keylog.add(include_bytes!("../../capture/tests/data/small.keys"));
//! input::read(file, &mut capture, |item| match item {
//!     Item::Datagram(datagram) => checker.take(&datagram, &mut follower),
//!     Item::Secrets(text) => follower.keylog.add(text),
//! })?;
//! let report = checker.finish(&mut follower);
//! assert!(report.findings.is_empty());
//! # Ok::<(), input::InputError>(())
//! ```
#![forbid(unsafe_code)]

mod about;
pub mod checker;
mod claim;
pub mod finding;
mod half;
mod histories;
mod history;
pub mod rule;
pub mod rules;
mod table;
mod tls;
pub mod vantage;
