//! The loops in which ticks are timed: each shape's on the same cells, with a checksum of all answers and the cells that are left.

use crate::plain::cells::{load, with_table};
use crate::plain::form::Closed;
use crate::{door, lent, plain};

pub fn with(sum: u64, n: u64) -> u64 {
    sum.rotate_left(1).wrapping_add(n)
}

pub fn closed(sum: u64, answer: Closed) -> u64 {
    match answer {
        Closed::Ports(a, b, n) => with(with(with(sum, a), b), u64::from(n)),
        Closed::Refused(k) => with(sum, u64::from(k)),
    }
}

/// Where the next record starts: at the front again, after the last.
pub fn next(records: &[u8], at: usize, size: usize) -> usize {
    if at < records.len() && size < records.len() - at {
        at + size
    } else {
        0
    }
}

pub fn part(bytes: &[u8], start: usize, size: usize) -> &[u8] {
    let rest = bytes.get(start..).unwrap_or(&[]);
    rest.get(..size).unwrap_or(rest)
}

pub fn number(bytes: &[u8], at: usize) -> u64 {
    match bytes.get(at..) {
        Some([high, low, ..]) => u64::from(*high) << 8 | u64::from(*low),
        _ => 0,
    }
}

/// What is ticked on: blocks of `size` bytes and figures of two, each in turn and from the front again. The start table comes back
/// after `restore` ticks, or never if that is 0.
pub struct Turns<'a> {
    pub blocks: &'a [u8],
    pub size: usize,
    pub figures: &'a [u8],
    pub ticks: u64,
    pub restore: u64,
}

impl Turns<'_> {
    /// The checksum of all answers of a tick of any shape; the table is left as the last one has it.
    #[inline(always)]
    fn run<T: ?Sized>(
        &self,
        table: &mut T,
        begin: impl Fn(&mut T),
        tick: impl Fn(&mut T, &[u8], u64) -> Closed,
    ) -> u64 {
        let (mut sum, mut block, mut figure, mut left) = (0, 0, 0, self.ticks);
        while left > 0 {
            let lap = if self.restore == 0 { left } else { left.min(self.restore) };
            begin(table);
            for _ in 0..lap {
                let samples = part(self.blocks, block, self.size);
                sum = closed(sum, tick(table, samples, number(self.figures, figure)));
                block = next(self.blocks, block, self.size);
                figure = next(self.figures, figure, 2);
            }
            left -= lap;
        }
        sum
    }

    #[inline(always)]
    fn on_cells(&self, start: &[u16], tick: impl Fn(&mut [u16], &[u8], u64) -> Closed) -> Ran {
        let mut now = start.to_vec();
        let sum = self.run(&mut now[..], |now| now.copy_from_slice(start), tick);
        (sum, now)
    }
}

/// The checksum of all answers, and the cells that are left.
pub type Ran = (u64, Vec<u16>);

pub fn plain(start: &[u16], turns: &Turns) -> Ran {
    let first = load(start).expect("a mix is a table");
    let mut table = first.clone();
    let sum = turns.run(&mut table, |table| table.clone_from(&first), plain::tick::tick);
    (sum, with_table(start, &table))
}

pub fn lent(start: &[u16], turns: &Turns) -> Ran {
    turns.on_cells(start, lent::tick::tick)
}

/// The figures have two bytes.
pub fn door(start: &[u16], turns: &Turns) -> Ran {
    turns.on_cells(start, |cells, block, figure| door::tick(cells, block, figure as u32))
}
