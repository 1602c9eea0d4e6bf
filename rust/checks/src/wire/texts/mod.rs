//! Worked rows, results of quinn-proto, and what no clause says.

mod beginnings;
mod beginnings_answers;
mod engine;
mod interrupted;
mod lines;
mod long_texts;
mod modes;
mod texts_answers;
