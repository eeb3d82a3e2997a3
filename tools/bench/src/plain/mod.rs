//! The yardstick: document 01's tick, search and reader in plain safe Rust, as fast as we know to write them with every check made.

pub mod cells;
pub mod form;
mod moves;
pub mod reading;
mod share;
pub mod tick;
pub mod tlv;
