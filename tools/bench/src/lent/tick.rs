//! The tick over lent cells: the tests, one pass that moves counters, whole steps for the ports that need them, and the sharing only
//! where a port asks or the supply is short.

use super::cells::{parted, Column, Fields, CONTROL, COUNT, DEMAND, SUPPLY};
use super::quick::{self, Moved};
use super::share::{self, ports};
use super::well::ill_made;
use super::whole::{self, Claim};
use crate::plain::form::{Closed, HIGHEST_SUPPLY, PLACES, SAMPLE_BYTES};

const ALTERNATIVE_A: u16 = 4;

/// So many whole steps take no longer than a look at eight ports at once.
const FEW: usize = 3;

/// The flags as the block has them, big-endian; answers all of them joined.
#[inline(always)]
fn flags_of(block: &[u8], flags: &mut Column) -> u16 {
    let mut joined = 0;
    for (flag, sample) in flags.iter_mut().zip(block.chunks_exact(SAMPLE_BYTES)) {
        *flag = u16::from_ne_bytes(sample[12..14].try_into().expect("two bytes"));
        joined |= *flag;
    }
    u16::from_be(joined)
}

/// The whole steps. Answers the ports that ask.
fn steps(fields: &mut Fields, block: &[u8], moved: &mut Moved) -> u64 {
    let (samples, _) = block.as_chunks();
    let mut asking = 0;
    for p in ports(moved.rest) {
        let claim = whole::step(fields, p, &samples[p]);
        if claim == Claim::Nothing {
            continue;
        }
        let bit = 1 << p;
        moved.claimed += u32::from(fields[DEMAND][p]);
        moved.on_a |= if fields[CONTROL][p] & ALTERNATIVE_A != 0 { bit } else { 0 };
        if claim == Claim::Asks {
            asking |= bit;
        } else {
            moved.closed |= bit;
        }
    }
    asking
}

/// "Order of checks: 13 first [..]. Tick: 1, 4, 3." A refusal leaves the cells as they are.
pub fn tick(cells: &mut [u16], block: &[u8], figure: u64) -> Closed {
    let Some((head, fields)) = parted(cells) else { return Closed::Refused(13) };
    let count = usize::from(head[COUNT]);
    if count == 0 || count > PLACES || head[SUPPLY] > HIGHEST_SUPPLY {
        return Closed::Refused(13);
    }
    // The flags are read first, though looked at last: what was just written would have to be waited for.
    let mut flags = [0; PLACES];
    let sized = block.len() == SAMPLE_BYTES * count;
    let joined = if sized { flags_of(block, &mut flags) } else { 0 };
    if ill_made(fields, count) {
        return Closed::Refused(13);
    }
    if !sized {
        return Closed::Refused(1);
    }
    if figure > u64::from(HIGHEST_SUPPLY) {
        return Closed::Refused(4);
    }
    if joined > 63 {
        return Closed::Refused(3);
    }
    head[SUPPLY] = figure as u16;
    moved(fields, block, &flags, count, figure as u32)
}

#[inline(always)]
fn moved(fields: &mut Fields, block: &[u8], flags: &Column, count: usize, figure: u32) -> Closed {
    let mut moved = if count > FEW {
        quick::all(fields, flags, count)
    } else {
        Moved { rest: (1 << count) - 1, ..Moved::default() }
    };
    let asking = if moved.rest == 0 { 0 } else { steps(fields, block, &mut moved) };
    let mut kept = moved.closed | asking;
    if moved.claimed > figure {
        kept = share::share(fields, moved.closed, asking, figure);
    } else if asking != 0 {
        share::admit(fields, asking);
    }
    Closed::Ports(kept & moved.on_a, kept & !moved.on_a, kept.count_ones())
}
