//! What a sample reads: its signature and its class.

use super::form::{word, DISAGREE, OVER_CURRENT, SAMPLE_BYTES};

pub type Sample = [u8; SAMPLE_BYTES];

/// Of the classes 0 to 4.
pub const BUDGETS: [u16; 5] = [154, 40, 70, 154, 300];

pub enum Signature {
    Valid,
    Invalid,
    Open,
}

pub fn signature(sample: &Sample) -> Signature {
    let (v1, v2) = (i32::from(word(sample, 0)), i32::from(word(sample, 2)));
    let dv = v2 - v1;
    let di = i32::from(word(sample, 6)) - i32::from(word(sample, 4));
    let usual = 2_800..=10_000;
    if !usual.contains(&v1) || !usual.contains(&v2) || dv < 1_000 {
        Signature::Invalid
    } else if di <= 0 || dv >= 500 * di {
        Signature::Open
    } else if 19 * di <= dv && 2 * dv <= 53 * di {
        Signature::Valid
    } else {
        Signature::Invalid
    }
}

/// 5 is a failure.
fn class_of(current: u16) -> u8 {
    match current {
        0..=5_000 => 0,
        5_001..=13_000 => 1,
        13_001..=21_000 => 2,
        21_001..=31_000 => 3,
        31_001..=45_000 => 4,
        _ => 5,
    }
}

/// A failure is the latch that it sets: "If C1 reads class 4, C2 must too".
pub fn class(sample: &Sample) -> Result<u8, u8> {
    match class_of(word(sample, 8)) {
        5 => Err(OVER_CURRENT),
        4 if class_of(word(sample, 10)) != 4 => Err(DISAGREE),
        class => Ok(class),
    }
}
