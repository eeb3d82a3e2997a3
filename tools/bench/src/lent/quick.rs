//! The moves of which counters alone change: most ports' in most ticks. Every counter is a choice and nothing branches, so that the
//! compiler moves eight ports at once.

use super::cells::{
    Column, Fields, BACKOFF, CLASSIFYING, CONTROL, DEMAND, DETECTING, DETECTION, DISABLED,
    ERROR_DELAY, IN_BACKOFF, IN_ERROR_DELAY, LIMITED, NO_LOAD, OVER, POWERED, POWER_ON, POWER_UP,
    STATE, TEST_ERROR, TEST_MODE,
};
use super::well::{eights, mask, Mask, EIGHT, NUMBERS};
use crate::plain::form::{CLASS_DONE, DETECTION_DONE, LIMITING, LOAD, OVERLOAD, SETTLED};

/// A state's code beside the enable bits: one comparison tests both.
const fn key(enable: u16, state: u16) -> u16 {
    enable << 4 | state
}

const ENABLED: u16 = 1;
const FORCED: u16 = 2;
const ALTERNATIVE_A: u16 = 4;

/// What the moves leave. A mask has a bit for each port.
#[derive(Default)]
pub struct Moved {
    /// Closed before and still.
    pub closed: u64,
    /// Those on alternative A, of all that claim.
    pub on_a: u64,
    /// The ports that were not moved: they take the whole step.
    pub rest: u64,
    /// The demands of the closed ports.
    pub claimed: u32,
}

#[inline(always)]
fn pick(which: Mask, yes: u16, no: u16) -> u16 {
    (yes & which) | (no & !which)
}

/// The counts of consecutive ticks, as this tick makes them. Calm: limiting and overload stay below their limit.
struct Runs {
    limited: u16,
    over: u16,
    no_load: u16,
    calm: Mask,
}

/// A count of consecutive ticks, which a tick without sets to 0.
#[inline(always)]
fn runs(fields: &Fields, p: usize, flags: u16) -> Runs {
    let run = |counter: usize, seen: Mask| fields[counter][p].wrapping_add(1) & seen;
    let limited = run(LIMITED, mask(flags & LIMITING != 0));
    let over = run(OVER, mask(flags & OVERLOAD != 0));
    let no_load = run(NO_LOAD, mask(flags & LOAD == 0));
    Runs { limited, over, no_load, calm: mask(limited < 60) & mask(over < 60) }
}

/// Which move a port makes; none for one that takes the whole step.
struct Moves {
    detects: Mask,
    waits: Mask,
    delays: Mask,
    classes: Mask,
    starts: Mask,
    is_on: Mask,
    tests: Mask,
    stands: Mask,
}

#[inline(always)]
fn moves(fields: &Fields, p: usize, flags: u16, live: Mask, runs: &Runs) -> Moves {
    let (state, enable) = (fields[STATE][p] | !live, fields[CONTROL][p] & 3);
    let at = key(enable, state);
    let is = |enable: u16, state: u16| mask(at == key(enable, state));
    let undone = |flag: u16| mask(flags & flag == 0);
    let below = |counter: usize, limit: u16| mask(fields[counter][p] < limit);
    let on = mask(enable != 0);
    Moves {
        detects: is(ENABLED, DETECTING) & undone(DETECTION_DONE) & below(DETECTION, 499),
        waits: mask(state == IN_BACKOFF) & on & below(BACKOFF, 1_999),
        delays: mask(state == IN_ERROR_DELAY) & on & below(ERROR_DELAY, 749),
        classes: is(ENABLED, CLASSIFYING) & undone(CLASS_DONE) & below(POWER_ON, 399),
        starts: is(ENABLED, POWER_UP) & undone(SETTLED) & below(POWER_ON, 399) & runs.calm,
        is_on: is(ENABLED, POWERED) & mask(runs.no_load < 320) & runs.calm,
        tests: is(FORCED, TEST_MODE) & runs.calm,
        stands: is(FORCED, TEST_ERROR) | (is(0, DISABLED) & mask(fields[DEMAND][p] == 0)),
    }
}

/// What a port's bit weighs among its eight.
const WEIGHTS: [u16; EIGHT] = [1, 2, 4, 8, 16, 32, 64, 128];

/// Of eight ports: their closed ones in the low byte and those of them on alternative A in the high one, the rest, and what the closed
/// ones claim.
#[inline(always)]
fn eight(fields: &mut Fields, flags: &Column, ports: usize, first: usize) -> (u16, u16, u16) {
    let (mut sides, mut rest, mut claimed) = (0u16, 0u16, 0u16);
    for (k, weight) in WEIGHTS.into_iter().enumerate() {
        let p = first + k;
        let live = mask(NUMBERS[p] < ports as u16);
        let flags = u16::from_be(flags[p]);
        let runs = runs(fields, p, flags);
        let m = moves(fields, p, flags, live, &runs);
        let closed = m.starts | m.is_on | m.tests;
        let quick = closed | m.detects | m.classes | m.waits | m.delays | m.stands;
        // A mask is minus one.
        let mut count = |counter: usize, goes: Mask| {
            fields[counter][p] = fields[counter][p].wrapping_sub(goes);
        };
        count(DETECTION, m.detects);
        count(BACKOFF, m.waits);
        count(ERROR_DELAY, m.delays);
        count(POWER_ON, m.classes | m.starts);
        fields[LIMITED][p] = pick(closed, runs.limited, fields[LIMITED][p]);
        fields[OVER][p] = pick(closed, runs.over, fields[OVER][p]);
        fields[NO_LOAD][p] = pick(m.is_on, runs.no_load, fields[NO_LOAD][p]);
        let on_a = mask(fields[CONTROL][p] & ALTERNATIVE_A != 0);
        sides = sides.wrapping_add(pick(on_a, weight * 0x101, weight) & closed);
        rest = rest.wrapping_add(weight & live & !quick);
        claimed = claimed.wrapping_add(fields[DEMAND][p] & closed);
    }
    (sides, rest, claimed)
}

/// Lanes past the count may hold anything: they count as open and keep what they hold. The flags are as the block has them, big-endian.
#[inline(always)]
pub fn all(fields: &mut Fields, flags: &Column, ports: usize) -> Moved {
    let mut moved = Moved::default();
    for k in 0..eights(ports) {
        let (sides, rest, claimed) = eight(fields, flags, ports, EIGHT * k);
        moved.closed |= u64::from(sides & 0xFF) << (EIGHT * k);
        moved.on_a |= u64::from(sides >> 8) << (EIGHT * k);
        moved.rest |= u64::from(rest) << (EIGHT * k);
        moved.claimed += u32::from(claimed);
    }
    moved
}
