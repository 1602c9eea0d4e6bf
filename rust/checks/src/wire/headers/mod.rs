//! Worked rows, every beginning of their bytes, and what no clause says.

mod beginnings;
mod beginnings_answers;
mod calls;
mod negotiation;
mod packets;
mod parsers;
mod places;
mod rows;
mod texts;
