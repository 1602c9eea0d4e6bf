//! Worked rows, results of quinn-proto, and what no clause says.

mod read;
mod written;
