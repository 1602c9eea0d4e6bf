//! Worked rows, results of quinn-proto, and what no clause says.

mod calls;
mod replaced;
mod shared;
