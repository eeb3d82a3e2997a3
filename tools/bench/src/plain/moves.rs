//! The ports' moves, in place. Most ticks only move counters: those have an arm each, and everything else one function.

use super::form::{
    Port, State, ABSENT, BACKOFF, CLASS, CLASS_DONE, DETECTION, DETECTION_DONE, ERROR_DELAY,
    INVALID, LIMITED, LIMITING, LOAD, NO_LOAD, OVER, OVERLOAD, OVERLOADED, POWER_ON, SAMPLE_BYTES,
    SETTLED, SHORT, VALID,
};
use super::reading::{class, signature, Sample, Signature, BUDGETS};

const MOST: u16 = 2_000;
const ENABLED: u16 = 1;
const FORCED: u16 = 2;
const ALTERNATIVE_A: u16 = 4;
const FORCED_DEMAND: u16 = 154;

/// What the moves leave to be shared. A mask has a bit for each port.
pub struct Moved {
    pub closed: u64,
    pub asking: u64,
    pub on_a: u64,
    /// The demands of all claims.
    pub claimed: u32,
}

pub fn all(ports: &mut [Port], block: &[u8]) -> Moved {
    let mut moved = Moved { closed: 0, asking: 0, on_a: 0, claimed: 0 };
    let mut bit = 1u64;
    for (port, sample) in ports.iter_mut().zip(block.chunks_exact(SAMPLE_BYTES)) {
        let Ok(sample) = sample.try_into() else { continue };
        match one(port, sample) {
            Claim::Nothing => {}
            Claim::Closed => {
                moved.closed |= bit;
                moved.on_a |= if port.control & ALTERNATIVE_A != 0 { bit } else { 0 };
                moved.claimed += u32::from(port.demand);
            }
            Claim::Asks => {
                moved.asking |= bit;
                moved.on_a |= if port.control & ALTERNATIVE_A != 0 { bit } else { 0 };
                moved.claimed += u32::from(port.demand);
            }
        }
        bit <<= 1;
    }
    moved
}

/// What a port claims after its own move: it was closed and still is, or it asks to be.
#[derive(Clone, Copy, PartialEq, Eq)]
enum Claim {
    Nothing,
    Closed,
    Asks,
}

/// A count of consecutive ticks, which a tick without sets to 0.
#[inline(always)]
fn run(count: u16, seen: bool) -> u16 {
    if seen {
        count + 1
    } else {
        0
    }
}

/// The move in one tick. A counter that goes on below its limit here cannot pass 2,000.
#[inline(always)]
fn one(port: &mut Port, sample: &Sample) -> Claim {
    let flags = u16::from(sample[13]);
    let enable = port.control & 3;
    if enable == 0 {
        port.state = State::Disabled;
        port.demand = 0;
        return Claim::Nothing;
    }
    let (enabled, forced) = (enable == ENABLED, enable == FORCED);
    let undone = |flag: u16| enabled && flags & flag == 0;
    let state = port.state;
    match state {
        State::PowerOn if enabled && stays_on(port, flags) => Claim::Closed,
        State::PowerUp if undone(SETTLED) && stays_up(port, flags) => Claim::Closed,
        State::TestMode if forced && stays_in_test(port, flags) => Claim::Closed,
        State::Detecting if undone(DETECTION_DONE) && goes_on(port, DETECTION, 500) => {
            Claim::Nothing
        }
        State::Classifying if undone(CLASS_DONE) && goes_on(port, POWER_ON, 400) => Claim::Nothing,
        State::Backoff if goes_on(port, BACKOFF, 2_000) => Claim::Nothing,
        State::ErrorDelay if goes_on(port, ERROR_DELAY, 750) => Claim::Nothing,
        State::TestError if forced => Claim::Nothing,
        _ => other(port, enable, sample, flags),
    }
}

/// Counts, unless that reaches the limit: then nothing is changed, as in all three below.
#[inline(always)]
fn goes_on(port: &mut Port, counter: usize, limit: u16) -> bool {
    let goes = port.lanes[counter] + 1 < limit;
    if goes {
        port.lanes[counter] += 1;
    }
    goes
}

#[inline(always)]
fn stays_on(port: &mut Port, flags: u16) -> bool {
    // Nearly every port that is on: nothing to count.
    if flags & (LIMITING | OVERLOAD | LOAD) == LOAD {
        port.lanes[LIMITED] = 0;
        port.lanes[OVER] = 0;
        port.lanes[NO_LOAD] = 0;
        return true;
    }
    let limited = run(port.lanes[LIMITED], flags & LIMITING != 0);
    let over = run(port.lanes[OVER], flags & OVERLOAD != 0);
    let no_load = run(port.lanes[NO_LOAD], flags & LOAD == 0);
    let stays = (limited < 60) & (over < 60) & (no_load < 320);
    if stays {
        port.lanes[LIMITED] = limited;
        port.lanes[OVER] = over;
        port.lanes[NO_LOAD] = no_load;
    }
    stays
}

#[inline(always)]
fn stays_up(port: &mut Port, flags: u16) -> bool {
    let limited = run(port.lanes[LIMITED], flags & LIMITING != 0);
    let over = run(port.lanes[OVER], flags & OVERLOAD != 0);
    let stays = (limited < 60) & (over < 60) & (port.lanes[POWER_ON] < 399);
    if stays {
        port.lanes[LIMITED] = limited;
        port.lanes[OVER] = over;
        port.lanes[POWER_ON] += 1;
    }
    stays
}

#[inline(always)]
fn stays_in_test(port: &mut Port, flags: u16) -> bool {
    let limited = run(port.lanes[LIMITED], flags & LIMITING != 0);
    let over = run(port.lanes[OVER], flags & OVERLOAD != 0);
    let stays = (limited < 60) & (over < 60);
    if stays {
        port.lanes[LIMITED] = limited;
        port.lanes[OVER] = over;
    }
    stays
}

/// "adds one each tick but stops at 2,000".
fn count(counter: &mut u16) -> u16 {
    *counter = (*counter + 1).min(MOST);
    *counter
}

fn count_if(counter: &mut u16, seen: bool) -> u16 {
    *counter = if seen { (*counter + 1).min(MOST) } else { 0 };
    *counter
}

/// "Entering IDLE or DISABLED sets demand 0".
fn to_idle(port: &mut Port) -> Claim {
    port.state = State::Idle;
    port.demand = 0;
    Claim::Nothing
}

/// Every move of an enabled port, the common ones too.
#[cold]
#[inline(never)]
fn other(port: &mut Port, enable: u16, sample: &Sample, flags: u16) -> Claim {
    let forced = enable == FORCED;
    match port.state {
        State::Detecting | State::Classifying | State::PowerUp | State::PowerOn if forced => {
            to_idle(port)
        }
        State::Disabled => to_idle(port),
        State::Idle if forced => {
            port.demand = FORCED_DEMAND;
            Claim::Asks
        }
        State::Idle => {
            port.state = State::Detecting;
            port.lanes[CLASS] = 0;
            port.lanes[DETECTION] = 0;
            Claim::Nothing
        }
        State::Detecting => detecting(port, sample, flags),
        State::Backoff if count(&mut port.lanes[BACKOFF]) >= 2_000 => to_idle(port),
        State::ErrorDelay if count(&mut port.lanes[ERROR_DELAY]) >= 750 => to_idle(port),
        State::Backoff | State::ErrorDelay => Claim::Nothing,
        State::Classifying => classifying(port, sample, flags),
        State::PowerUp | State::PowerOn => powered(port, flags),
        State::TestMode => testing(port, flags, forced),
        State::TestError if forced => Claim::Nothing,
        State::TestError => to_idle(port),
    }
}

fn detecting(port: &mut Port, sample: &Sample, flags: u16) -> Claim {
    if count(&mut port.lanes[DETECTION]) >= 500 {
        return to_idle(port);
    }
    if flags & DETECTION_DONE == 0 {
        return Claim::Nothing;
    }
    match signature(sample) {
        Signature::Valid => {
            port.latches |= VALID;
            port.state = State::Classifying;
            port.lanes[POWER_ON] = 0;
        }
        Signature::Invalid if port.control & ALTERNATIVE_A == 0 => {
            port.latches |= INVALID;
            port.state = State::Backoff;
            port.lanes[BACKOFF] = 0;
        }
        _ => {
            port.latches |= INVALID;
            to_idle(port);
        }
    }
    Claim::Nothing
}

fn classifying(port: &mut Port, sample: &Sample, flags: u16) -> Claim {
    if count(&mut port.lanes[POWER_ON]) >= 400 {
        return to_idle(port);
    }
    if flags & CLASS_DONE == 0 {
        return Claim::Nothing;
    }
    let class = match class(sample) {
        Ok(class) => class,
        Err(latch) => {
            port.latches |= latch;
            return to_idle(port);
        }
    };
    port.lanes[CLASS] = u16::from(class);
    port.demand = BUDGETS[usize::from(class)];
    Claim::Asks
}

/// "60 of limiting latches 9, else 60 of overload latches 8"; true if one did.
fn tripped(port: &mut Port, limiting: u16, overload: u16) -> bool {
    if limiting >= 60 {
        port.latches |= SHORT;
    } else if overload >= 60 {
        port.latches |= OVERLOADED;
    }
    limiting >= 60 || overload >= 60
}

/// "All counters of a state advance before any is compared".
fn powered(port: &mut Port, flags: u16) -> Claim {
    let limiting = count_if(&mut port.lanes[LIMITED], flags & LIMITING != 0);
    let overload = count_if(&mut port.lanes[OVER], flags & OVERLOAD != 0);
    let starting = port.state == State::PowerUp;
    let power_on = if starting { count(&mut port.lanes[POWER_ON]) } else { 0 };
    let no_load = if starting { 0 } else { count_if(&mut port.lanes[NO_LOAD], flags & LOAD == 0) };
    if tripped(port, limiting, overload) {
        port.state = State::ErrorDelay;
        port.lanes[ERROR_DELAY] = 0;
        return Claim::Nothing;
    }
    if power_on >= 400 {
        return to_idle(port);
    }
    if no_load >= 320 {
        port.latches |= ABSENT;
        return to_idle(port);
    }
    if starting && flags & SETTLED != 0 {
        port.state = State::PowerOn;
        port.lanes[NO_LOAD] = 0;
    }
    Claim::Closed
}

/// The counts run in the tick that leaves for IDLE too.
fn testing(port: &mut Port, flags: u16, forced: bool) -> Claim {
    let limiting = count_if(&mut port.lanes[LIMITED], flags & LIMITING != 0);
    let overload = count_if(&mut port.lanes[OVER], flags & OVERLOAD != 0);
    if !forced {
        return to_idle(port);
    }
    if tripped(port, limiting, overload) {
        port.state = State::TestError;
        return Claim::Nothing;
    }
    Claim::Closed
}
