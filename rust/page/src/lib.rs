//! The module of the page for WebAssembly: captures and what is found in them ([`engine`]), and the fields of bytes
//! ([`bytes`]). It joins `quic-wire-capture`, `quic-wire-check` and `quic-wire`, and writes objects as the program
//! `quic-wire` does. [`exports`] has the functions that a page calls.
//!
//! ```
//! use quic_wire_page::engine::{Engine, Purpose};
//! let mut engine = Engine::new(Purpose::Table);
//! engine.add_keylog(include_bytes!("../../capture/tests/data/small.keys"));
//! engine.feed(include_bytes!("../../capture/tests/data/small.pcap"))?;
//! engine.finish();
//! assert_eq!(engine.count(), 16);
//! assert!(engine.rows(0, 1).contains(r#""type":"Initial","number":0"#));
//! # Ok::<(), String>(())
//! ```

pub mod bytes;
pub mod engine;
pub mod exports;
mod filter;
pub mod packed;
mod store;
mod streams;
mod summary;
mod table;
