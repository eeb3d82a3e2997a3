//! The port controller once more, written from document 01 and the console's
//! line language alone; a library, so that other tools can ask it too.

mod alone;
pub mod cells;
mod corners;
pub mod count;
pub mod image;
mod lent;
pub mod lines;
pub mod port;
pub mod random;
pub mod reading;
mod reasons;
pub mod scripts;
pub mod table;
#[cfg(test)]
mod tests;
pub mod tlv;
