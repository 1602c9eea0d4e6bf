//! Makes Rust of Rattle's sources. What only the prover reads becomes a comment, and the clauses of a public function
//! become a section of its documentation; the rest is changed by fixed rules, where Rattle's libraries differ from
//! Rust's. Each line stays where it was. What no rule knows is refused, with its line.
mod alike;
mod contract;
mod erase;
mod ghost;
mod guard;
mod kit;
mod lex;
mod plan;
mod source;

#[cfg(test)]
mod tests;

pub use erase::{Counts, Erased, Paths, erase};
pub use lex::Refusal;
pub use plan::{Tree, checks, library};
