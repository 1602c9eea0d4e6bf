//! Worked rows, and what no clause says.

mod bodies;
mod frames_by_rules;
mod frames_in_range;
mod frames_stored;
mod kinds;
