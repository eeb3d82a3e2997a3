//! The tick: one look for every fault, one pass of moves in place, and the sharing only where the supply is short.

use super::form::{Closed, Port, Table, HIGHEST_SUPPLY, PLACES, SAMPLE_BYTES};
use super::{moves, share};

/// Bit w is set if a write refuses the control word w with 3.
const REFUSED_WORDS: u64 = refused_words();

const fn refused_words() -> u64 {
    let mut refused = 0;
    let mut word = 0;
    while word < 64 {
        let pair = (word >> 2) & 3;
        if word & 3 == 3 || pair == 0 || pair == 3 {
            refused |= 1 << word;
        }
        word += 1;
    }
    refused
}

/// The demand that half of it, modulo 8, leaves possible.
const DEMANDS: [u16; 8] = [0, 0, 0, 70, 40, 154, 300, 0];

/// What a port's lanes may reach: a counter 2,000, a class 4.
const HIGHEST: [u16; 8] = [2_000, 2_000, 2_000, 2_000, 2_000, 2_000, 2_000, 4];

/// Refusal 13, of a port below the count.
fn ill_made(port: &Port) -> bool {
    let lanes = port.lanes.iter().zip(HIGHEST).any(|(&lane, highest)| lane > highest);
    let control = port.control > 63 || REFUSED_WORDS >> port.control & 1 == 1;
    lanes || control || DEMANDS[usize::from(port.demand >> 1 & 7)] != port.demand
}

/// Whether any port is ill-made or any sample has reserved flags. All faults are joined and looked at once, after the last port: in
/// nearly every tick there is none.
#[inline(always)]
fn faulty(ports: &[Port], block: &[u8]) -> bool {
    let mut top = [0u16; 8];
    let (mut flags, mut controls, mut refused, mut demands) = (0u16, 0u16, 0u64, 0u16);
    for (port, sample) in ports.iter().zip(block.chunks_exact(SAMPLE_BYTES)) {
        let [a, b, c, d, e, f, g, h] = port.lanes;
        // Written out, the eight become one vector; as a loop they did not.
        top = [
            top[0].max(a),
            top[1].max(b),
            top[2].max(c),
            top[3].max(d),
            top[4].max(e),
            top[5].max(f),
            top[6].max(g),
            top[7].max(h),
        ];
        flags |= u16::from_ne_bytes(sample[12..14].try_into().expect("two bytes"));
        controls |= port.control;
        refused |= REFUSED_WORDS >> (port.control & 63);
        demands |= DEMANDS[usize::from(port.demand >> 1 & 7)] ^ port.demand;
    }
    let mut over = 0;
    for k in 0..8 {
        over |= u16::from(top[k] > HIGHEST[k]);
    }
    (over != 0) | (u16::from_be(flags) > 63) | (controls > 63) | (refused & 1 == 1) | (demands != 0)
}

/// "Order of checks: 13 first [..]. Tick: 1, 4, 3." Asked only where something is refused.
#[cold]
fn refusal(table: &Table, block: &[u8], figure: u64) -> u8 {
    let count = usize::from(table.count);
    if count == 0
        || count > PLACES
        || table.supply > HIGHEST_SUPPLY
        || table.ports[..count].iter().any(ill_made)
    {
        13
    } else if block.len() != SAMPLE_BYTES * count {
        1
    } else if figure > u64::from(HIGHEST_SUPPLY) {
        4
    } else {
        3
    }
}

/// A refusal leaves the table as it is.
pub fn tick(table: &mut Table, block: &[u8], figure: u64) -> Closed {
    let count = usize::from(table.count);
    let mut wrong =
        (count == 0) | (table.supply > HIGHEST_SUPPLY) | (figure > u64::from(HIGHEST_SUPPLY));
    wrong |= block.len() != SAMPLE_BYTES * count;
    if wrong || count > PLACES || faulty(&table.ports[..count], block) {
        return Closed::Refused(refusal(table, block, figure));
    }
    let ports = &mut table.ports[..count];
    let moved = moves::all(ports, block);
    let closed = if u64::from(moved.claimed) <= figure {
        share::admit(ports, &moved)
    } else {
        share::share(ports, &moved, figure)
    };
    table.supply = figure as u16;
    let (a, b) = (closed & moved.on_a, closed & !moved.on_a);
    Closed::Ports(a, b, a.count_ones() + b.count_ones())
}
