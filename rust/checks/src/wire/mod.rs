//! Tests of the proved sources as Rust: worked rows, what quinn-proto returns, and what no clause says.
mod acks;
mod base;
mod canon;
mod encoders;
mod frames;
mod front;
mod header_fields;
mod headers;
mod opening;
mod packets;
mod param_fields;
mod params;
mod ranges;
mod texts;
