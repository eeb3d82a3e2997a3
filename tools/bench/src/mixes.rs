//! The tables and sample blocks that all programs are timed on. The same seed gives the same mix.

use crate::lent::cells::CELLS;
use crate::plain::cells::with_table;
use crate::plain::form::{
    Closed, Port, State, Table, DENIED, HIGHEST_SUPPLY, PLACES, SAMPLE_BYTES, STATES,
};
use crate::plain::tick::tick;
use crate::turns::Turns;
use reference::random::Random;
use reference::reading::BUDGETS;

/// Blocks and figures that come in turn.
pub const BLOCKS: usize = 64;

/// So often the start table of a mix of all states comes back: left alone, a table settles in few of them.
pub const RESTORE: u64 = 256;

/// How many of 48 ports start in each state.
const SHARES: [(State, usize); 10] = [
    (State::PowerOn, 16),
    (State::Detecting, 8),
    (State::PowerUp, 4),
    (State::TestMode, 4),
    (State::Disabled, 4),
    (State::Classifying, 3),
    (State::Backoff, 3),
    (State::ErrorDelay, 3),
    (State::TestError, 2),
    (State::Idle, 1),
];

pub struct Mix {
    pub name: &'static str,
    pub table: Table,
    pub blocks: Vec<u8>,
    pub size: usize,
    pub figures: Vec<u8>,
    /// So often the start table comes back.
    pub restore: u64,
}

impl Mix {
    pub fn turns(&self, ticks: u64) -> Turns<'_> {
        let (blocks, figures) = (&self.blocks, &self.figures);
        Turns { blocks, size: self.size, figures, ticks, restore: self.restore }
    }

    pub fn cells(&self) -> Vec<u16> {
        with_table(&[0; CELLS], &self.table)
    }
}

fn port_in(r: &mut Random, state: State) -> Port {
    let enable = match state {
        State::Disabled => 0,
        State::TestMode | State::TestError => 2,
        _ => 1,
    };
    let class = r.below(5) as u8;
    let demand = match state {
        State::PowerUp | State::PowerOn | State::ErrorDelay => BUDGETS[usize::from(class)],
        State::TestMode | State::TestError => 154,
        _ => 0,
    };
    // Below the limits of the counters, and the class.
    let lanes = [400, 1_900, 700, 300, 5, 5, 100].map(|limit| r.below(limit) as u16);
    let lanes =
        [lanes[0], lanes[1], lanes[2], lanes[3], lanes[4], lanes[5], lanes[6], u16::from(class)];
    Port {
        state,
        control: enable | (1 + r.below(2) as u16) << 2 | (r.below(4) as u16) << 4,
        demand,
        latches: 0,
        lanes,
    }
}

/// Every state is there, in no order; the first ports of it are mixed too.
fn table(r: &mut Random, count: usize) -> Table {
    let states = SHARES.iter().flat_map(|&(state, times)| vec![state; times]);
    let mut all: Vec<Port> = states.map(|state| port_in(r, state)).collect();
    for place in (1..all.len()).rev() {
        all.swap(place, r.below(place as u64 + 1) as usize);
    }
    let mut ports = [all[0]; PLACES];
    ports.copy_from_slice(&all);
    Table { ports, count: count as u16, supply: HIGHEST_SUPPLY }
}

/// Voltages and currents: mostly a valid signature, else one that is too steep, too flat or open.
fn signature(r: &mut Random) -> [u16; 4] {
    let (v1, dv) = (r.between(2_800, 5_000), r.between(1_000, 4_000));
    let di = match r.below(10) {
        0 => dv / 10,
        1 => dv / 60,
        2 => 0,
        _ => dv / 22,
    };
    let i1 = r.between(50, 500);
    [v1 as u16, (v1 + dv) as u16, i1 as u16, (i1 + di) as u16]
}

/// A quiet port with a load; now and then something is done, or a fault shows. Three ports in sixteen have a fault that stays.
fn flags(r: &mut Random, port: usize) -> u16 {
    let mut now = |bit: u16, percent: u64, lasting: bool| {
        if lasting || r.chance(percent) {
            1 << bit
        } else {
            0
        }
    };
    let done = now(0, 2, false) | now(1, 4, false) | now(2, 5, false);
    let faults = now(3, 2, port % 16 == 3) | now(4, 2, port % 16 == 7);
    done | faults | (now(5, 6, port % 16 == 11) ^ 1 << 5)
}

fn sample(r: &mut Random, flags: impl FnOnce(&mut Random) -> u16) -> Vec<u8> {
    let [v1, v2, i1, i2] = signature(r);
    let class = r.between(0, 46_000) as u16;
    let words = [v1, v2, i1, i2, class, class, flags(r)];
    words.iter().flat_map(|word| word.to_be_bytes()).collect()
}

/// Short of supply: one figure in twenty is a tenth below what the start table claims. Else all that 48 ports can claim fits.
fn figure(r: &mut Random, block: usize, short: bool, claims: u64) -> u16 {
    if short && block % 20 == 9 {
        (claims - claims / 10) as u16
    } else {
        r.between(14_400, 60_000) as u16
    }
}

/// The first `count` ports of the mix of 48, on the first samples of its blocks.
pub fn mix(name: &'static str, count: usize, short: bool) -> Mix {
    let mut r = Random::new(48);
    let table = table(&mut r, count);
    let claims =
        table.ports[..count].iter().filter(|p| closed(p.state)).map(|p| u64::from(p.demand)).sum();
    let (mut blocks, mut figures) = (Vec::new(), Vec::new());
    for block in 0..BLOCKS {
        let samples: Vec<u8> =
            (0..PLACES).flat_map(|port| sample(&mut r, |r| flags(r, port))).collect();
        blocks.extend_from_slice(&samples[..count * SAMPLE_BYTES]);
        figures.extend(figure(&mut r, block, short, claims).to_be_bytes());
    }
    Mix { name, table, blocks, size: count * SAMPLE_BYTES, figures, restore: RESTORE }
}

/// Bits 1 and 5 of a sample's flags: class done, load present.
const CLASS_DONE: u16 = 1 << 1 | 1 << 5;

/// Of the mix in which every port is classified. A processor that foresees branches can learn the currents of 64 blocks by heart, and a
/// board's never repeat.
const CLASSIFIED_BLOCKS: usize = 1024;

/// In every tick every port reads its class, from any current, and asks; all claims fit. The other mixes read a class in 8 and in 16 of ten
/// thousand port-ticks, so that they hardly show what the reading takes.
pub fn classified() -> Mix {
    let mut r = Random::new(5);
    let ports = [(); PLACES].map(|()| port_in(&mut r, State::Classifying));
    let table = Table { ports, count: PLACES as u16, supply: HIGHEST_SUPPLY };
    let samples = (0..CLASSIFIED_BLOCKS * PLACES).flat_map(|_| sample(&mut r, |_| CLASS_DONE));
    let blocks = samples.collect();
    let figures = HIGHEST_SUPPLY.to_be_bytes().to_vec();
    let size = PLACES * SAMPLE_BYTES;
    Mix { name: "every port is classified", table, blocks, size, figures, restore: 1 }
}

fn closed(state: State) -> bool {
    matches!(state, State::PowerUp | State::PowerOn | State::TestMode)
}

/// What a mix is made of, so that a reader sees that it is mixed.
#[derive(Default)]
pub struct Made {
    port_ticks: [u64; 10],
    changes: u64,
    shedding: u64,
    shed: u64,
    ticks: u64,
}

pub fn made(mix: &Mix) -> Made {
    let mut made = Made::default();
    let mut table = mix.table.clone();
    for k in 0..BLOCKS * 64 {
        if k as u64 % mix.restore == 0 {
            table.clone_from(&mix.table);
        }
        table.ports.iter_mut().for_each(|port| port.latches = 0);
        let block = &mix.blocks[k * mix.size % mix.blocks.len()..][..mix.size];
        let at = k * 2 % mix.figures.len();
        let figure = u16::from_be_bytes([mix.figures[at], mix.figures[at + 1]]);
        let mut after = table.clone();
        let answer = tick(&mut after, block, u64::from(figure));
        assert!(matches!(answer, Closed::Ports(..)), "a mix is never refused");
        made.take(&table, &after);
        table = after;
    }
    made
}

impl Made {
    fn take(&mut self, before: &Table, after: &Table) {
        let count = usize::from(before.count);
        let mut shed = 0;
        for (was, is) in before.ports[..count].iter().zip(&after.ports) {
            self.port_ticks[was.state as usize] += 1;
            self.changes += u64::from(was.state != is.state);
            shed += u64::from(is.latches & DENIED != 0);
        }
        self.shed += shed;
        self.shedding += u64::from(shed > 0);
        self.ticks += 1;
    }

    pub fn print(&self) {
        let all: u64 = self.port_ticks.iter().sum();
        let share = |n: u64, of: u64| 100.0 * n as f64 / of as f64;
        for (state, &n) in STATES.iter().zip(&self.port_ticks) {
            println!("  {:<12} {n:>8} port-ticks  {:>5.1} %", format!("{state:?}"), share(n, all));
        }
        println!("  {:.1} % of the port-ticks change the state", share(self.changes, all));
        println!(
            "  {:.1} % of the ticks shed ports, {} in all",
            share(self.shedding, self.ticks),
            self.shed
        );
    }
}
