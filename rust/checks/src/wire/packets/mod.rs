//! Worked rows and unusual keys.

mod client;
mod error_texts;
mod headers;
mod numbers;
mod odd_keys;
mod queries;
mod row;
mod sealed;
