//! The lent table, as include/ipaqsuni.h has it: 16-bit cells, eight of head, then 48 of each field.

use crate::plain::form::PLACES;

pub const HEAD: usize = 8;
pub const FIELDS: usize = 12;
/// Fields that are nobody's yet, after those.
pub const RESERVED: usize = 3;
pub const CELLS: usize = HEAD + (FIELDS + RESERVED) * PLACES;

// In the head; its other cells are reserved too. What is reserved never changes.
pub const COUNT: usize = 0;
pub const SUPPLY: usize = 1;

// The fields.
pub const STATE: usize = 0;
pub const CONTROL: usize = 1;
pub const DEMAND: usize = 2;
pub const CLASS: usize = 3;
pub const LATCHES: usize = 4;
pub const DETECTION: usize = 5;
pub const BACKOFF: usize = 6;
pub const ERROR_DELAY: usize = 7;
pub const POWER_ON: usize = 8;
pub const LIMITED: usize = 9;
pub const OVER: usize = 10;
pub const NO_LOAD: usize = 11;

/// A field of every port.
pub type Column = [u16; PLACES];
pub type Fields = [Column; FIELDS];

// The states' codes.
pub const DISABLED: u16 = 0;
pub const IDLE: u16 = 1;
pub const DETECTING: u16 = 2;
pub const IN_BACKOFF: u16 = 3;
pub const CLASSIFYING: u16 = 4;
pub const POWER_UP: u16 = 5;
pub const POWERED: u16 = 6;
pub const IN_ERROR_DELAY: u16 = 7;
pub const TEST_MODE: u16 = 8;
pub const TEST_ERROR: u16 = 9;

/// The head and the fields. None for cells of another length.
#[inline(always)]
pub fn parted(cells: &mut [u16]) -> Option<(&mut [u16; HEAD], &mut Fields)> {
    if cells.len() != CELLS {
        return None;
    }
    let (head, rest) = cells.split_first_chunk_mut()?;
    let (fields, _) = rest.as_chunks_mut();
    Some((head, fields.first_chunk_mut()?))
}

/// Where a field of a port stands.
pub fn cell(field: usize, port: usize) -> usize {
    HEAD + field * PLACES + port
}
