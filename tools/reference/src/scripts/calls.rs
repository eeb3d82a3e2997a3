//! Single calls with numbers around their limits, and the choice of a supply.

use super::readings::{walking, Plan};
use super::{too_wide, Maker};
use crate::port::{Port, State};
use crate::random::Random;
use crate::reading::{BUDGETS, SAMPLE_BYTES};
use crate::table::{requested_demand, Table};

/// A port below the count, now and then one that is not.
pub fn port_number(maker: &mut Maker) -> u64 {
    let ports = maker.ports();
    match maker.r.below(16) {
        0 => ports,
        1 => maker.r.pick(&[ports + 1, 47, 48, 255, 256]),
        2 => too_wide(&mut maker.r, 0),
        _ => maker.r.below(ports),
    }
}

pub fn status_line(maker: &mut Maker) {
    let port = port_number(maker);
    maker.say(&format!("status {port}"));
}

/// "reserved bits or codes in a control word", or a word past 16 bits.
pub fn odd_word(r: &mut Random, word: u64) -> u64 {
    match r.below(6) {
        0 => word | 3,
        1 => word | 0xC,
        2 => word & !0xC,
        3 => word | 1 << r.pick(&[6, 6, 7, 8, 9, 10, 11, 12, 13, 14, 15]),
        4 => word | 1 << r.pick(&[16, 16, 17, 31, 32, 32, 48, 62, 63, 63]),
        _ => r.pick(&[0, 65_535, u64::MAX, 65_536, 1 << 32]),
    }
}

/// Values on both sides of every limit, for a port in POWER_ON if there is one.
pub fn request_line(maker: &mut Maker) {
    let on: Vec<u64> = (0..maker.ports())
        .filter(|&p| maker.table().ports[p as usize].state == State::PowerOn)
        .collect();
    let port =
        if on.is_empty() || maker.r.chance(12) { port_number(maker) } else { maker.r.pick(&on) };
    let held = maker.table().ports[port.min(47) as usize];
    let budget = BUDGETS.get(usize::from(held.class)).copied().unwrap_or(0);
    let unfit = unfit_value(maker.table(), &held, budget);
    let r = &mut maker.r;
    let value = match r.below(16) {
        5..=9 if unfit.is_some() => unfit.unwrap_or(0),
        0 => r.pick(&[0, 1_000, 256, 999]),
        1 => too_wide(r, 38),
        2 => r.between(1, 255),
        3 => same_value(held.demand),
        4 => r.pick(&[129, 130, 255, 256, 999]),
        // Down from the budget, or up towards it.
        5..=11 if held.demand >= budget => r.pick(&[1, 38, 39, 64]),
        5..=12 if budget > 154 => r.pick(&[65, 129, 130, 255]),
        5..=12 if budget > 70 => r.pick(&[39, 64, 65, 129]),
        _ => r.pick(&[38, 39, 64, 65, 129, 130, 255]),
    };
    maker.say(&format!("request {port} {value}"));
}

/// A value that the budget allows and the stored supply does not, if there is one.
fn unfit_value(table: &Table, held: &Port, budget: u16) -> Option<u64> {
    if table.ill_made() {
        return None;
    }
    let unfit = |value: &u64| {
        let demand = requested_demand(*value).unwrap_or(0);
        let all = table.closed_demands() + u32::from(demand);
        demand > held.demand
            && demand <= budget
            && all > u32::from(table.supply) + u32::from(held.demand)
    };
    [64, 65, 129, 130].into_iter().find(unfit)
}

/// A value that means the present demand.
fn same_value(demand: u16) -> u64 {
    match demand {
        40 => 38,
        70 => 39,
        154 => 129,
        300 => 130,
        _ => 1,
    }
}

/// A supply for this tick: roomy, tight, or at a place of the ranking.
pub fn supply_at(maker: &mut Maker, block: &[u8], stress: u64) -> u64 {
    let moves = maker.table().moves(block);
    let ranking = maker.table().ranking(&moves);
    let total: u64 = ranking.iter().map(|c| u64::from(c.demand)).sum();
    let r = &mut maker.r;
    if r.chance(stress) && !ranking.is_empty() {
        let place = r.below(ranking.len() as u64) as usize;
        let sum: u64 = ranking[..=place].iter().map(|c| u64::from(c.demand)).sum();
        return match r.below(8) {
            0 => r.below(total + 1),
            1 => 0,
            2 => sum,
            3 => sum + 1,
            _ => sum.saturating_sub(1),
        };
    }
    let spare = r.pick(&[0, 30, 84, 114, 146, 230, 260]);
    match r.below(12) {
        0 => 60_000,
        1 => r.between(total, 60_000),
        2..=5 => total,
        _ => (total + r.around(spare)).max(total),
    }
}

/// A tick that is refused with 1, 4 or 3, or would be with more than one.
pub fn faulty_tick(maker: &mut Maker) {
    let ports = maker.ports() as usize;
    let mut block = Vec::new();
    for _ in 0..ports {
        block.extend(walking(&mut maker.r, &Plan::default(), 5).bytes());
    }
    let r = &mut maker.r;
    let faults = r.between(1, 7);
    let mut figure = r.pick(&[0, 60_000, 300]);
    if faults & 2 != 0 {
        let wide = too_wide(r, 300).max(60_001);
        figure = r.pick(&[60_001, 60_001, 65_535, 65_536, wide]);
    }
    if faults & 1 != 0 && ports > 0 {
        let flags = SAMPLE_BYTES * r.below(ports as u64) as usize + 12;
        let bit = r.between(6, 15);
        block[flags + usize::from(bit < 8)] |= 1 << (bit % 8);
    }
    if faults & 4 != 0 {
        match r.below(5) {
            0 => block.clear(),
            1 => block.extend([0; SAMPLE_BYTES]),
            2 => block.truncate(block.len().saturating_sub(SAMPLE_BYTES)),
            3 => block.push(0),
            _ => block.truncate(block.len().saturating_sub(1)),
        }
    }
    let block = maker.hex(&block);
    maker.say(&format!("tick {figure} {block}"));
}
