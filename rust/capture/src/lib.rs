//! Reads captures of QUIC, versions 1 and 2 (RFC 9000, RFC 9001, RFC 9369): the datagrams of a file ([`capture`],
//! [`input`]), key logs ([`keylog`]), and the connections of the datagrams, whose packets are opened ([`follow`]) and
//! acknowledged or lost ([`recovery`]). What it finds goes to a [`sink::Sink`].
//!
//! Only what was authenticated changes what is known of a connection: an [`opened::Opened`] packet, an
//! [`opened::Retried`] or an [`opened::Reset`], each of which only its own module makes, after a tag or token was found
//! right. What anyone may have sent is counted, with a reason.
//!
//! ```
//! use quic_wire_capture::capture::{Capture, Datagram, Item};
//! use quic_wire_capture::connection::Connection;
//! use quic_wire_capture::follow::Follower;
//! use quic_wire_capture::input;
//! use quic_wire_capture::sink::{Event, Sink};
//!
//! /// Prints the frames of the packets that are opened.
//! struct Printer;
//!
//! impl Sink for Printer {
//!     fn opened(&mut self, connection: &Connection, datagram: &Datagram<'_>, _: u64, event: &Event<'_>) {
//!         if let Event::Frame { opened, frame, .. } = event {
//!             let (number, connection) = (opened.number(), connection.number());
//!             println!("record {}, connection {connection}, packet {number}: {frame:?}", datagram.record);
//!         }
//!     }
//! }
//!
//! let file = &include_bytes!("../tests/data/small.pcap")[..];
//! let (mut capture, mut follower) = (Capture::default(), Follower::default());
//! follower.keylog.add(include_bytes!("../tests/data/small.keys"));
//! input::read(file, &mut capture, |item| match item {
//!     Item::Datagram(datagram) => follower.take(&datagram, &mut Printer),
//!     Item::Secrets(text) => follower.keylog.add(text),
//! })?;
//! follower.finish(&mut Printer);
//! assert_eq!((follower.counts().opened, follower.counts().connections), (16, 1));
//! # Ok::<(), input::InputError>(())
//! ```
//!
//! # Features
//!
//! `ring` and `rustcrypto` name the crates that have the ciphers; `rustcrypto` is on by default, and if both are,
//! `ring` is called. `gzip`, also on by default, reads files that gzip compressed.
#![forbid(unsafe_code)]

pub mod capture;
pub mod ciphers;
pub mod connection;
pub mod end;
pub mod file;
pub mod follow;
mod fragments;
mod held;
mod index;
pub mod input;
pub mod keylog;
mod keyring;
pub mod keys;
mod net;
pub mod opened;
pub mod recovery;
mod search;
pub mod sink;
pub mod streams;
pub mod tls;
