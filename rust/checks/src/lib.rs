//! The tests and programs of the proved sources, beside the same files as in the crate. The build script erases what
//! isn't in the crate and is a crate of Rattle.

extern crate alloc;

pub mod formats;
pub mod host;
#[path = "../../src/kit/mod.rs"]
mod kit;
#[path = "../../src/proved/mod.rs"]
#[rustfmt::skip]
pub mod proved;

#[cfg(test)]
#[allow(clippy::field_reassign_with_default, clippy::type_complexity)]
mod wire;

/// The libraries and tests that aren't in the Rust crate.
#[allow(dead_code, non_snake_case, unused_imports, unused_labels, unused_variables)]
#[allow(clippy::complexity, clippy::style)]
pub mod tested {
    include!(concat!(env!("OUT_DIR"), "/tested/mod.rs"));
}

/// The programs.
#[allow(dead_code, unused_variables, clippy::complexity, clippy::style)]
pub mod programs {
    include!(concat!(env!("OUT_DIR"), "/programs/mod.rs"));
}
