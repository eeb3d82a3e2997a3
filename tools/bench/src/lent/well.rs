//! The well-made test. Ports are looked at eight at a time: what stands past the count in the last eight is masked out.

use super::cells::{Column, Fields, CLASS, CONTROL, DEMAND, DETECTION, LATCHES, NO_LOAD, STATE};
use crate::plain::form::PLACES;

pub const EIGHT: usize = 8;

/// How many eights hold the ports below the count.
#[inline(always)]
pub fn eights(count: usize) -> usize {
    count.div_ceil(EIGHT).min(PLACES / EIGHT)
}

/// All ones for yes. Choices are made of these: with `bool` the compiler puts branches in, and no longer looks at ports together.
pub type Mask = u16;

#[inline(always)]
pub fn mask(yes: bool) -> Mask {
    0u16.wrapping_sub(u16::from(yes))
}

/// Each port's own number. Numbers of 64 bits, compared with the count, would take four vectors.
pub const NUMBERS: Column = numbers();

const fn numbers() -> Column {
    let mut numbers = [0; PLACES];
    let mut p = 0;
    while p < PLACES {
        numbers[p] = p as u16;
        p += 1;
    }
    numbers
}

/// Bits of a control word that a write refuses with 3: over bit 5, or in bit 0 for both enable bits or no one alternative.
#[inline(always)]
fn refused(word: u16) -> u16 {
    (word & !63) | ((word & (word >> 1)) | !((word >> 2) ^ (word >> 3))) & 1
}

#[inline(always)]
fn known(demand: u16) -> Mask {
    mask(demand == 0)
        | mask(demand == 40)
        | mask(demand == 70)
        | mask(demand == 154)
        | mask(demand == 300)
}

/// Whether a port below the count is ill-made, has a state over 9 or a latch that does not exist. All faults are joined and looked at
/// once: in nearly every tick there is none.
#[inline(always)]
pub fn ill_made(fields: &Fields, count: usize) -> bool {
    let mut faults = 0;
    for p in 0..EIGHT * eights(count) {
        let mut top = 0;
        for counter in &fields[DETECTION..=NO_LOAD] {
            top = top.max(counter[p]);
        }
        let over = mask(top > 2_000) | mask(fields[CLASS][p] > 4) | mask(fields[STATE][p] > 9);
        let bits = (fields[LATCHES][p] & !255) | refused(fields[CONTROL][p]);
        faults |= (over | bits | !known(fields[DEMAND][p])) & mask(NUMBERS[p] < count as u16);
    }
    faults != 0
}
