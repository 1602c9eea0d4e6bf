//! Worked rows, results of quinn-proto, and what no clause says.

mod buffers;
mod ids;
mod numbers;
mod shared;
