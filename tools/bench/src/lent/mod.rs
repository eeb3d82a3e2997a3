//! The second yardstick: document 01's tick in plain safe Rust over a table of the lent shape, an array for each field, changed in
//! place. It shares the readings of a sample with the first, and nothing with the proved code.

pub mod cells;
mod quick;
mod share;
pub mod tick;
mod well;
mod whole;
