//! The script maker: lines for the console from a seed. It runs its own console
//! beside, so that it knows the table each line will meet.

mod alone;
mod bad;
mod calls;
mod cells;
mod frames;
mod readings;
mod tables;
mod walks;
mod words;

use crate::cells::seen;
use crate::lines::{hex_text, Answer, Console};
use crate::port::State;
use crate::random::Random;
use crate::table::{Table, Ticked};
use std::collections::BTreeMap;

pub use words::words;

#[derive(Clone, Copy, PartialEq, Eq, Debug)]
pub enum Kind {
    Mixed,
    Walks,
    Limits,
    IllMade,
    Frames,
    Readings,
    Bad,
    Alone,
    Cells,
}

/// The kinds of a mixed script, with their share of its lines but the last part.
const SHARES: [(Kind, u64); 7] = [
    (Kind::Walks, 55),
    (Kind::Limits, 8),
    (Kind::IllMade, 7),
    (Kind::Frames, 13),
    (Kind::Readings, 6),
    (Kind::Bad, 3),
    (Kind::Alone, 8),
];

/// The last of so many parts of a mixed script is of tables as cells.
const CELLS_PART: u64 = 17;

/// In a mixed script at most one line in so many is an image; those that show one
/// thing alone, and the first dumps of each exit, come on top.
const LINES_PER_IMAGE: u64 = 40;

/// So often a walk dumps the table that an exit has left.
const DUMPS_PER_EXIT: u64 = 4;

impl Kind {
    pub fn named(name: &str) -> Option<Kind> {
        Some(match name {
            "mixed" => Kind::Mixed,
            "walks" => Kind::Walks,
            "limits" => Kind::Limits,
            "illmade" => Kind::IllMade,
            "frames" => Kind::Frames,
            "readings" => Kind::Readings,
            "bad" => Kind::Bad,
            "alone" => Kind::Alone,
            "cells" => Kind::Cells,
            _ => return None,
        })
    }
}

pub struct Maker {
    pub r: Random,
    pub console: Console,
    held: Table,
    out: Vec<u8>,
    lines: u64,
    wanted: u64,
    images: u64,
    scarce: bool,
    turns: [u64; 12],
    cell_turns: [u64; 10],
    /// How often a dump came right after each exit of a walk.
    dumped: BTreeMap<(State, State, &'static str), u64>,
    pub long_lines: u64,
    pub walk_lines: u64,
}

/// A script of `wanted` lines.
pub fn made(seed: u64, wanted: u64, kind: Kind) -> Vec<u8> {
    let mut maker = Maker {
        r: Random::new(seed),
        console: Console::new(),
        held: Table::zero(),
        out: Vec::new(),
        lines: 0,
        wanted: if kind == Kind::Mixed { wanted - wanted / CELLS_PART } else { wanted },
        images: 0,
        scarce: kind == Kind::Mixed,
        turns: [0; 12],
        cell_turns: [0; 10],
        dumped: BTreeMap::new(),
        long_lines: 0,
        walk_lines: 0,
    };
    // Rotations start anywhere, so that short scripts of many seeds meet all.
    for turn in 0..maker.turns.len() {
        maker.turns[turn] = maker.r.below(1_000);
    }
    let mut cell_lot = Random::new(!seed);
    maker.cell_turns = maker.cell_turns.map(|_| cell_lot.below(1_000));
    let mut written = [0; SHARES.len()];
    while !maker.full() {
        let mut next = if kind == Kind::Mixed { most_behind(&written, maker.lines) } else { kind };
        if matches!(next, Kind::Limits | Kind::IllMade) && !maker.image_allowed() {
            next = Kind::Walks;
        }
        let before = maker.lines;
        maker.episode(next);
        if let Some(k) = SHARES.iter().position(|(kind, _)| *kind == next) {
            written[k] += maker.lines - before;
        }
    }
    maker.wanted = wanted;
    while !maker.full() {
        maker.episode(Kind::Cells);
    }
    maker.out
}

/// The kind that has the fewest lines for its share.
fn most_behind(written: &[u64; SHARES.len()], lines: u64) -> Kind {
    let behind = |k: usize| (SHARES[k].1 * (lines + 1)) as i64 - (100 * written[k]) as i64;
    let k = (0..SHARES.len()).max_by_key(|&k| behind(k)).unwrap_or(0);
    SHARES[k].0
}

impl Maker {
    fn episode(&mut self, kind: Kind) {
        match kind {
            Kind::Walks | Kind::Mixed => walks::walk(self),
            Kind::Limits => tables::limits(self),
            Kind::IllMade => tables::ill_made(self),
            Kind::Frames => frames::frames(self),
            Kind::Readings => readings::readings(self),
            Kind::Bad => bad::bad(self),
            Kind::Alone => self.unrationed(alone::alone),
            Kind::Cells => self.unrationed(cells::cells),
        }
    }

    pub fn full(&self) -> bool {
        self.lines >= self.wanted
    }

    /// Whether a line with an image (in it or in its answer) may come now.
    pub fn image_allowed(&self) -> bool {
        !self.scarce || self.images * LINES_PER_IMAGE <= self.lines
    }

    /// Counts up one of the rotations.
    pub fn turn(&mut self, which: usize) -> u64 {
        self.turns[which] += 1;
        self.turns[which]
    }

    /// The same for tables as cells.
    pub fn cell_turn(&mut self, which: usize) -> usize {
        self.cell_turns[which] += 1;
        self.cell_turns[which] as usize
    }

    /// Writes a line and runs it; a full script takes none.
    pub fn bytes(&mut self, line: &[u8]) -> Answer {
        if self.full() {
            return Answer::BadLine;
        }
        self.lines += 1;
        self.out.extend_from_slice(line);
        self.out.push(b'\n');
        let answer = self.console.answer(line);
        self.held = seen(&self.console.cells);
        if matches!(answer, Answer::Image(_)) || line.starts_with(b"table") && line.len() > 1_000 {
            self.images += 1;
        }
        answer
    }

    pub fn say(&mut self, line: &str) -> Answer {
        self.bytes(line.as_bytes())
    }

    pub fn table(&self) -> &Table {
        &self.held
    }

    /// The held table's count, at most 48.
    pub fn ports(&self) -> u64 {
        u64::from(self.held.count).min(48)
    }

    pub fn lines(&self) -> u64 {
        self.lines
    }

    /// Images said here are no part of the ration.
    fn unrationed(&mut self, say: impl FnOnce(&mut Maker)) {
        let images = self.images;
        say(self);
        self.images = images;
    }

    /// A dump after a tick in which a port left in a way that few dumps show.
    pub fn dump_after(&mut self, ticked: &Ticked) {
        let exits = ticked.exits.iter().map(|exit| (exit.from, exit.to, exit.rule));
        let few = |exit| self.dumped.get(&exit).copied().unwrap_or(0) < DUMPS_PER_EXIT;
        if !self.full() && exits.clone().any(few) {
            for exit in exits {
                *self.dumped.entry(exit).or_default() += 1;
            }
            self.unrationed(|maker| {
                maker.say("dump");
            });
        }
    }

    pub fn dump(&mut self) {
        if self.image_allowed() {
            self.say("dump");
        }
    }

    /// HEX, now and then in upper or mixed case.
    pub fn hex(&mut self, bytes: &[u8]) -> String {
        let text = hex_text(bytes);
        match self.r.below(40) {
            0 => text.to_uppercase(),
            1 => {
                let mixed = |c: char| if self.r.chance(50) { c.to_ascii_uppercase() } else { c };
                text.chars().map(mixed).collect()
            }
            _ => text,
        }
    }
}

/// Numbers that a narrow type would cut to a small one, or that are just large.
pub fn too_wide(r: &mut Random, small: u64) -> u64 {
    match r.below(7) {
        0 => (1 << 8) + small,
        1 => (1 << 16) + small,
        2 => (1 << 31) + small,
        3 => (1 << 32) + small,
        4 => (1 << 63) + small,
        5 => u64::MAX,
        _ => 65_535,
    }
}
