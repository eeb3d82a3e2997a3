//! The sharing of the supply, without a sort: a claim's place in the ranking follows from the sums of the groups before its own.

use super::form::{Port, State, DENIED, LIMITED, OVER};
use super::moves::Moved;

/// "An asker kept enters its state".
fn enter(port: &mut Port) {
    port.state = if port.state == State::Idle { State::TestMode } else { State::PowerUp };
    port.lanes[LIMITED] = 0;
    port.lanes[OVER] = 0;
}

/// Every claim fits. Answers the closed ports.
#[inline(always)]
pub fn admit(ports: &mut [Port], moved: &Moved) -> u64 {
    let mut asking = moved.asking;
    while asking != 0 {
        enter(&mut ports[asking.trailing_zeros() as usize]);
        asking &= asking - 1;
    }
    moved.closed | moved.asking
}

/// The claims' groups: closed ports, then those asking; in each critical, high, then low and unknown alike.
#[inline(always)]
fn group(port: &Port, asks: bool) -> usize {
    let priority = match port.control >> 4 & 3 {
        1 => 0,
        2 => 1,
        _ => 2,
    };
    priority + if asks { 3 } else { 0 }
}

/// "A closed port shed goes to IDLE, or from TEST_MODE to TEST_ERROR. Each shed port latches 12."
fn shed(port: &mut Port) {
    port.latches |= DENIED;
    if port.state == State::TestMode {
        port.state = State::TestError;
    } else {
        port.state = State::Idle;
        port.demand = 0;
    }
}

/// Some claim does not fit. Answers the closed ports.
#[inline(never)]
pub fn share(ports: &mut [Port], moved: &Moved, figure: u64) -> u64 {
    let mut sums = [0u64; 6];
    let mut claims = moved.closed | moved.asking;
    while claims != 0 {
        let p = claims.trailing_zeros() as usize;
        sums[group(&ports[p], moved.asking >> p & 1 == 1)] += u64::from(ports[p].demand);
        claims &= claims - 1;
    }
    // What a group's first claim comes after.
    let mut before = 0;
    for sum in &mut sums {
        before += std::mem::replace(sum, before);
    }
    settle(ports, moved, figure, sums)
}

fn settle(ports: &mut [Port], moved: &Moved, figure: u64, mut sums: [u64; 6]) -> u64 {
    let mut closed = 0;
    let mut claims = moved.closed | moved.asking;
    while claims != 0 {
        let p = claims.trailing_zeros() as usize;
        let asks = moved.asking >> p & 1 == 1;
        let port = &mut ports[p];
        let sum = &mut sums[group(port, asks)];
        *sum += u64::from(port.demand);
        if *sum > figure {
            shed(port);
        } else {
            closed |= 1 << p;
            if asks {
                enter(port);
            }
        }
        claims &= claims - 1;
    }
    closed
}
