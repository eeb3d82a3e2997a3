//! Walks through reachable tables: enable, climb to power, stress, shed.

use super::calls::{faulty_tick, odd_word, port_number, request_line, status_line, supply_at};
use super::readings::{walking, Plan};
use super::{too_wide, Maker};
use crate::lines::Answer;
use crate::port::State;
use crate::random::Random;

/// What a walk is made of, in hundredths of its steps.
#[derive(Clone, Copy)]
struct Theme {
    ports: (u64, u64),
    steps: (u64, u64),
    /// Ticks whose supply stands at a place of the ranking.
    stress: u64,
    /// Ticks, of the others, whose supply leaves room for one step of a request
    /// or just not.
    tight: u64,
    /// Control words that force power.
    force: u64,
    controls: u64,
    requests: u64,
    careless: u64,
    /// Ports that begin a run of faults.
    runs: u64,
}

const SHARE: Theme = Theme {
    ports: (2, 6),
    steps: (20, 45),
    stress: 32,
    tight: 10,
    force: 8,
    controls: 8,
    requests: 4,
    careless: 8,
    runs: 0,
};
const REQUEST: Theme = Theme {
    ports: (1, 4),
    steps: (25, 45),
    stress: 3,
    tight: 85,
    requests: 50,
    controls: 3,
    careless: 2,
    ..SHARE
};
const FORCE: Theme =
    Theme { ports: (1, 4), stress: 44, force: 65, controls: 24, requests: 1, ..SHARE };
const FAULT: Theme = Theme {
    ports: (1, 2),
    steps: (70, 140),
    stress: 1,
    tight: 0,
    force: 30,
    controls: 1,
    requests: 1,
    careless: 0,
    runs: 60,
};
const BIG: Theme = Theme { ports: (40, 48), steps: (8, 12), stress: 40, ..SHARE };

pub fn walk(maker: &mut Maker) {
    let before = maker.lines();
    let long = maker.long_lines * 5 < maker.walk_lines;
    if long {
        long_walk(maker);
        maker.long_lines += maker.lines() - before;
    } else {
        let theme = match maker.turn(0) % 24 {
            0 => BIG,
            1..=3 => FAULT,
            4..=11 => FORCE,
            12..=18 => REQUEST,
            _ => SHARE,
        };
        short_walk(maker, &theme);
    }
    maker.walk_lines += maker.lines() - before;
}

fn short_walk(maker: &mut Maker, theme: &Theme) {
    let most = theme.ports.1;
    let ports = if maker.r.chance(30) { most } else { maker.r.between(theme.ports.0, most) };
    start(maker, ports, theme);
    let mut plans = vec![Plan::default(); ports as usize];
    for _ in 0..maker.r.between(theme.steps.0, theme.steps.1) {
        if maker.full() {
            return;
        }
        step(maker, theme, &mut plans);
    }
    for port in 0..ports.min(3) {
        maker.say(&format!("status {port}"));
    }
}

/// Cold start, then a control word for every port, with few left disabled.
fn start(maker: &mut Maker, ports: u64, theme: &Theme) {
    if maker.r.chance(20) {
        let wide = too_wide(&mut maker.r, 1);
        let count = maker.r.pick(&[0, 0, 48, 48, 49, 49, 50, wide, wide]);
        maker.say(&format!("cold {count}"));
    }
    maker.say(&format!("cold {ports}"));
    for port in 0..ports {
        let word = control_word(&mut maker.r, theme.force);
        if maker.r.chance(95) {
            maker.say(&format!("control {port} {word}"));
        }
    }
}

fn control_word(r: &mut Random, force: u64) -> u64 {
    let enable = if r.chance(force) { 2 } else { 1 };
    let pair = r.between(1, 2);
    r.below(4) << 4 | pair << 2 | enable
}

fn step(maker: &mut Maker, theme: &Theme, plans: &mut [Plan]) {
    let mut roll = maker.r.below(100);
    let mut within = |part: u64| {
        let hit = roll < part;
        roll = if hit { 1_000 } else { roll.saturating_sub(part) };
        hit
    };
    let on = maker.table().ports.iter().any(|port| port.state == State::PowerOn);
    let requests = if on { theme.requests } else { theme.requests.min(4) };
    let (control, request) = (within(theme.controls), within(requests));
    let (status, fault, dump) = (within(5), within(3), within(1));
    if control {
        control_line(maker, theme);
    } else if request {
        request_line(maker);
    } else if status {
        status_line(maker);
    } else if fault {
        faulty_tick(maker);
    } else if dump {
        maker.dump();
    } else {
        tick(maker, theme, plans);
    }
}

/// A new word: mostly another enable or priority with the same alternative.
fn control_line(maker: &mut Maker, theme: &Theme) {
    let port = port_number(maker);
    let place = port.min(47) as usize;
    let (old, state) = (maker.table().ports[place].control, maker.table().ports[place].state);
    let r = &mut maker.r;
    let enable = match (state, r.below(10)) {
        (State::TestError, 0..=7) => 1,
        (State::TestMode, 0..=5) => 2,
        (_, 0) => 0,
        _ => 1 + u64::from(r.chance(theme.force)),
    };
    let mut word = u64::from(old) & 0xC | enable | r.below(4) << 4;
    if r.chance(10) {
        word ^= 0xC;
    }
    if r.chance(8) {
        word = odd_word(r, word);
    }
    maker.say(&format!("control {port} {word}"));
}

/// A tick, and what the plans say of its samples.
fn tick(maker: &mut Maker, theme: &Theme, plans: &mut [Plan]) {
    let mut block = Vec::new();
    for (p, plan) in plans.iter_mut().enumerate() {
        let state = maker.table().ports[p].state;
        if plan.idle() && maker.r.chance(theme.runs) {
            *plan = fault_run(&mut maker.r, state);
        }
        let mut careless = theme.careless;
        if theme.runs > 0 && !state.closed() {
            careless = 3;
        }
        block.extend(walking(&mut maker.r, plan, careless).bytes());
        plan.pass();
    }
    let figure = supply(maker, &block, theme);
    let block = maker.hex(&block);
    if let Answer::Ticked(ticked) = maker.say(&format!("tick {figure} {block}")) {
        maker.dump_after(&ticked);
    }
}

/// A run of limiting or overload that ends around 60, in one of the three states
/// that count them.
fn fault_run(r: &mut Random, state: State) -> Plan {
    let mut plan = Plan::default();
    if !state.closed() {
        return plan;
    }
    let length = r.between(58, 61);
    match r.below(3) {
        0 => plan.limiting = length,
        1 => plan.overload = length,
        _ => {
            plan.limiting = length;
            plan.overload = r.around(length);
        }
    }
    if r.chance(70) {
        plan.stall = 62;
    }
    plan
}

fn supply(maker: &mut Maker, block: &[u8], theme: &Theme) -> u64 {
    if !maker.r.chance(theme.tight) {
        return supply_at(maker, block, theme.stress);
    }
    let ranking = maker.table().ranking(&maker.table().moves(block));
    let total: u64 = ranking.iter().map(|c| u64::from(c.demand)).sum();
    // The steps between 40, 70, 154 and 300, and one short of them.
    total + maker.r.pick(&[0, 0, 1, 29, 30, 83, 84, 113, 114, 145, 146, 229, 230, 259, 260])
}

/// The long counters, one after the other, each with one port from its start.
fn long_walk(maker: &mut Maker) {
    let (state, limit, word) = match maker.turn(1) % 6 {
        0 => (State::Detecting, 500, 5),
        1 => (State::Classifying, 400, 9),
        2 => (State::PowerUp, 398, 5),
        3 => (State::PowerOn, 320, 0x19),
        4 => (State::ErrorDelay, 750, 5),
        _ => (State::Backoff, 2_000, 9),
    };
    maker.say("cold 1");
    maker.say(&format!("control 0 {word}"));
    let theme = Theme { stress: 0, careless: 0, runs: 0, ..SHARE };
    let mut plans = [Plan::default()];
    let (mut entered, mut left) = (false, 0);
    for _ in 0..limit + 100 {
        let now = maker.table().ports[0].state;
        if now == state && !entered {
            entered = true;
            plans[0] = long_plan(&mut maker.r, state, limit);
        }
        if state == State::ErrorDelay && now == State::PowerUp && plans[0].idle() {
            plans[0] = Plan { limiting: 60, overload: 60, ..Plan::default() };
        }
        left += u64::from(entered && now != state);
        if left > 2 || maker.full() {
            break;
        }
        let astray = Theme { careless: 100, ..theme };
        let aside = state == State::Backoff && !entered;
        tick(maker, if aside { &astray } else { &theme }, &mut plans);
    }
    maker.say("status 0");
    maker.dump();
}

/// Holds a port in its state until about the limit.
fn long_plan(r: &mut Random, state: State, limit: u64) -> Plan {
    let ticks = limit - 2 + r.below(4);
    match state {
        State::PowerOn => Plan { no_load: ticks, ..Plan::default() },
        _ => Plan { stall: ticks, ..Plan::default() },
    }
}
