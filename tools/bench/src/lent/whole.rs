//! Every move of one port, in place: for the ports whose move is more than a count.

use super::cells::{
    Fields, BACKOFF, CLASS, CLASSIFYING, CONTROL, DEMAND, DETECTING, DETECTION, DISABLED,
    ERROR_DELAY, IDLE, IN_BACKOFF, IN_ERROR_DELAY, LATCHES, LIMITED, NO_LOAD, OVER, POWERED,
    POWER_ON, POWER_UP, STATE, TEST_ERROR, TEST_MODE,
};
use crate::plain::form::{
    word, ABSENT, CLASS_DONE, DETECTION_DONE, INVALID, LIMITING, LOAD, OVERLOAD, OVERLOADED,
    SETTLED, SHORT, VALID,
};
use crate::plain::reading::{class, signature, Sample, Signature, BUDGETS};

const MOST: u16 = 2_000;
const FORCED: u16 = 2;
const FORCED_DEMAND: u16 = 154;

/// What a port claims after its own move.
#[derive(Clone, Copy, PartialEq, Eq)]
pub enum Claim {
    Nothing,
    Closed,
    Asks,
}

fn enters(fields: &mut Fields, p: usize, state: u16) -> Claim {
    fields[STATE][p] = state;
    if state == IDLE || state == DISABLED {
        fields[DEMAND][p] = 0;
    }
    Claim::Nothing
}

/// "adds one each tick but stops at 2,000".
fn count(counter: &mut u16) -> u16 {
    *counter = (*counter + 1).min(MOST);
    *counter
}

/// Consecutive ticks: one without sets 0.
fn run(counter: &mut u16, seen: bool) -> u16 {
    *counter = if seen { (*counter + 1).min(MOST) } else { 0 };
    *counter
}

fn latch(fields: &mut Fields, p: usize, latch: u8) {
    fields[LATCHES][p] |= u16::from(latch);
}

#[inline(never)]
pub fn step(fields: &mut Fields, p: usize, sample: &Sample) -> Claim {
    let flags = word(sample, 12);
    let (enable, state) = (fields[CONTROL][p] & 3, fields[STATE][p]);
    let forced = enable == FORCED;
    match state {
        _ if enable == 0 => enters(fields, p, DISABLED),
        DETECTING | CLASSIFYING | POWER_UP | POWERED if forced => enters(fields, p, IDLE),
        IDLE if forced => {
            fields[DEMAND][p] = FORCED_DEMAND;
            Claim::Asks
        }
        IDLE => {
            fields[CLASS][p] = 0;
            fields[DETECTION][p] = 0;
            enters(fields, p, DETECTING)
        }
        DETECTING => detecting(fields, p, sample, flags),
        IN_BACKOFF if count(&mut fields[BACKOFF][p]) < 2_000 => Claim::Nothing,
        IN_ERROR_DELAY if count(&mut fields[ERROR_DELAY][p]) < 750 => Claim::Nothing,
        CLASSIFYING => classifying(fields, p, sample, flags),
        POWER_UP => starting(fields, p, flags),
        POWERED => powered(fields, p, flags),
        TEST_MODE => testing(fields, p, flags, forced),
        TEST_ERROR if forced => Claim::Nothing,
        // DISABLED, TEST_ERROR, and a wait that is over.
        _ => enters(fields, p, IDLE),
    }
}

fn detecting(fields: &mut Fields, p: usize, sample: &Sample, flags: u16) -> Claim {
    if count(&mut fields[DETECTION][p]) >= 500 {
        return enters(fields, p, IDLE);
    }
    if flags & DETECTION_DONE == 0 {
        return Claim::Nothing;
    }
    let on_b = fields[CONTROL][p] & 8 != 0;
    match signature(sample) {
        Signature::Valid => {
            latch(fields, p, VALID);
            fields[POWER_ON][p] = 0;
            enters(fields, p, CLASSIFYING)
        }
        Signature::Invalid if on_b => {
            latch(fields, p, INVALID);
            fields[BACKOFF][p] = 0;
            enters(fields, p, IN_BACKOFF)
        }
        _ => {
            latch(fields, p, INVALID);
            enters(fields, p, IDLE)
        }
    }
}

fn classifying(fields: &mut Fields, p: usize, sample: &Sample, flags: u16) -> Claim {
    if count(&mut fields[POWER_ON][p]) >= 400 {
        return enters(fields, p, IDLE);
    }
    if flags & CLASS_DONE == 0 {
        return Claim::Nothing;
    }
    let class = match class(sample) {
        Ok(class) => class,
        Err(failure) => {
            latch(fields, p, failure);
            return enters(fields, p, IDLE);
        }
    };
    fields[CLASS][p] = u16::from(class);
    fields[DEMAND][p] = BUDGETS[usize::from(class)];
    Claim::Asks
}

/// "60 of limiting latches 9, else 60 of overload latches 8"; true if one did.
fn tripped(fields: &mut Fields, p: usize, flags: u16) -> bool {
    let limited = run(&mut fields[LIMITED][p], flags & LIMITING != 0);
    let over = run(&mut fields[OVER][p], flags & OVERLOAD != 0);
    if limited >= 60 {
        latch(fields, p, SHORT);
    } else if over >= 60 {
        latch(fields, p, OVERLOADED);
    }
    limited >= 60 || over >= 60
}

fn fails(fields: &mut Fields, p: usize) -> Claim {
    fields[ERROR_DELAY][p] = 0;
    enters(fields, p, IN_ERROR_DELAY)
}

/// "All counters of a state advance before any is compared".
fn starting(fields: &mut Fields, p: usize, flags: u16) -> Claim {
    let power_on = count(&mut fields[POWER_ON][p]);
    if tripped(fields, p, flags) {
        return fails(fields, p);
    }
    if power_on >= 400 {
        return enters(fields, p, IDLE);
    }
    if flags & SETTLED != 0 {
        fields[NO_LOAD][p] = 0;
        fields[STATE][p] = POWERED;
    }
    Claim::Closed
}

fn powered(fields: &mut Fields, p: usize, flags: u16) -> Claim {
    let no_load = run(&mut fields[NO_LOAD][p], flags & LOAD == 0);
    if tripped(fields, p, flags) {
        return fails(fields, p);
    }
    if no_load >= 320 {
        latch(fields, p, ABSENT);
        return enters(fields, p, IDLE);
    }
    Claim::Closed
}

/// The counts run in the tick that leaves for IDLE too, and latch nothing there.
fn testing(fields: &mut Fields, p: usize, flags: u16, forced: bool) -> Claim {
    if !forced {
        run(&mut fields[LIMITED][p], flags & LIMITING != 0);
        run(&mut fields[OVER][p], flags & OVERLOAD != 0);
        return enters(fields, p, IDLE);
    }
    if tripped(fields, p, flags) {
        return enters(fields, p, TEST_ERROR);
    }
    Claim::Closed
}
