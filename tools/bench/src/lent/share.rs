//! The sharing of the supply, in place and without a sort: a claim's place in the ranking follows from the sums of the groups before
//! its own.

use super::cells::{
    Fields, CONTROL, DEMAND, IDLE, LATCHES, LIMITED, OVER, POWER_UP, STATE, TEST_ERROR, TEST_MODE,
};
use crate::plain::form::{DENIED, PLACES};

/// The ports of a mask, from the lowest on.
pub fn ports(mut mask: u64) -> impl Iterator<Item = usize> {
    std::iter::from_fn(move || {
        let p = mask.trailing_zeros() as usize;
        mask &= mask.wrapping_sub(1);
        (p < PLACES).then_some(p)
    })
}

/// "An asker kept enters its state".
fn enter(fields: &mut Fields, p: usize) {
    fields[STATE][p] = if fields[STATE][p] == IDLE { TEST_MODE } else { POWER_UP };
    fields[LIMITED][p] = 0;
    fields[OVER][p] = 0;
}

/// "A closed port shed goes to IDLE, or from TEST_MODE to TEST_ERROR. Each shed port latches 12."
fn shed(fields: &mut Fields, p: usize) {
    fields[LATCHES][p] |= u16::from(DENIED);
    if fields[STATE][p] == TEST_MODE {
        fields[STATE][p] = TEST_ERROR;
    } else {
        fields[STATE][p] = IDLE;
        fields[DEMAND][p] = 0;
    }
}

/// Every claim fits.
pub fn admit(fields: &mut Fields, asking: u64) {
    ports(asking).for_each(|p| enter(fields, p));
}

/// The claims' groups: closed ports, then those asking; in each critical, high, then low and unknown alike.
fn group(control: u16, asks: bool) -> usize {
    let priority = match control >> 4 & 3 {
        1 => 0,
        2 => 1,
        _ => 2,
    };
    priority + if asks { 3 } else { 0 }
}

/// Some claim does not fit. Answers the claims that are kept.
#[inline(never)]
pub fn share(fields: &mut Fields, closed: u64, asking: u64, figure: u32) -> u64 {
    let asks = |p: usize| asking >> p & 1 == 1;
    let mut sums = [0; 6];
    for p in ports(closed | asking) {
        sums[group(fields[CONTROL][p], asks(p))] += u32::from(fields[DEMAND][p]);
    }
    // What a group's first claim comes after.
    let mut before = 0;
    for sum in &mut sums {
        before += std::mem::replace(sum, before);
    }
    let mut kept = 0;
    for p in ports(closed | asking) {
        let sum = &mut sums[group(fields[CONTROL][p], asks(p))];
        *sum += u32::from(fields[DEMAND][p]);
        if *sum > figure {
            shed(fields, p);
        } else {
            kept |= 1 << p;
            if asks(p) {
                enter(fields, p);
            }
        }
    }
    kept
}
