//! Tables near their limits and ill-made tables.

use super::calls::{faulty_tick, odd_word, port_number, request_line, status_line, supply_at};
use super::readings::pressing;
use super::Maker;
use crate::image::{written, HEAD_BYTES, IMAGE_BYTES, PORT_BYTES};
use crate::port::{self, Port, STATES};
use crate::random::Random;
use crate::table::{Table, PLACES};

/// The limits of detection, backoff, error delay, power-on, limiting, overload
/// and no load.
const LIMITS: [u64; 7] = [500, 2_000, 750, 400, 60, 60, 320];

const DEMANDS: [u16; 5] = [0, 40, 70, 154, 300];

fn near_counter(r: &mut Random, limit: u64) -> u16 {
    let value = match r.below(12) {
        0..=3 => limit - 1,
        4 | 5 => limit - 2,
        6 => limit,
        7 => 2_000,
        8 => 1_999,
        9 => r.between(0, 2_000),
        _ => 0,
    };
    value as u16
}

/// A well-made port in the given state, its counters near their limits.
pub fn near_port(r: &mut Random, state: port::State) -> Port {
    let enable = match (state, r.below(20)) {
        (_, 0) | (port::State::Disabled, 1..=7) => 0,
        (port::State::Idle | port::State::TestMode | port::State::TestError, 1..=13) => 2,
        (_, 1 | 2) => 2,
        _ => 1,
    };
    let control = (r.below(4) << 4 | r.between(1, 2) << 2 | enable) as u16;
    let demand = if state.closed() || r.chance(40) { r.pick(&DEMANDS) } else { 0 };
    let latches = if r.chance(50) { 0 } else { r.below(256) as u8 };
    let class = r.below(5) as u8;
    let mut counters = LIMITS.map(|limit| near_counter(r, limit));
    // Leave some of the rules below limiting and overload in reach.
    if r.chance(60) {
        counters[4] = r.pick(&[0, 1, 57, 58]);
        counters[5] = r.pick(&[0, 1, 57, 58]);
    }
    Port { state, control, class, demand, latches, counters }
}

/// A place at or past the count: anything an image can hold.
fn any_place(r: &mut Random) -> Port {
    Port {
        state: r.pick(&STATES),
        control: r.next() as u16,
        class: r.next() as u8,
        demand: r.next() as u16,
        latches: r.next() as u8,
        counters: [0; 7].map(|_: u16| r.next() as u16),
    }
}

pub fn near_table(maker: &mut Maker, count: u64) -> Table {
    let mut table = Table::zero();
    table.count = count as u16;
    let r = &mut maker.r;
    table.supply = r.pick(&[0, 60_000, 300, 154, 59_999, 1_000]);
    let filled = r.chance(85);
    for place in 0..PLACES as u64 {
        let turn = maker.turn(2);
        let state = STATES[(turn % 10) as usize];
        let r = &mut maker.r;
        table.ports[place as usize] = match (place < count, filled) {
            (true, _) => near_port(r, state),
            (false, true) => any_place(r),
            (false, false) => Port::COLD,
        };
    }
    table
}

pub fn image_line(maker: &mut Maker, image: &[u8]) {
    let image = maker.hex(image);
    maker.say(&format!("table {image}"));
}

/// A table near its limits, a tick, its dump, and more calls.
pub fn limits(maker: &mut Maker) {
    let count = match maker.r.below(10) {
        0..=4 => 48,
        5 => maker.r.between(7, 47),
        _ => maker.r.between(1, 6),
    };
    let mut table = near_table(maker, count);
    if count < 48 && maker.r.chance(50) {
        // A port that can ask for more.
        let port = near_port(&mut maker.r, port::State::PowerOn);
        table.ports[maker.r.below(count) as usize] = Port { class: 4, demand: 40, ..port };
    }
    image_line(maker, &written(&table));
    for _ in 0..maker.r.below(4) {
        some_call(maker);
    }
    // What stands past the count is no part of a request's sum.
    for _ in 0..if count < 48 { maker.r.below(4) } else { 0 } {
        request_line(maker);
    }
    pressing_tick(maker, 35);
    maker.say("dump");
    let ticks = if count > 6 { 1 } else { 4 };
    for _ in 0..maker.r.between(0, ticks) {
        pressing_tick(maker, 15);
    }
    for _ in 0..maker.r.between(4, 10) {
        some_call(maker);
    }
    if maker.r.chance(25) {
        maker.dump();
    }
}

pub fn pressing_tick(maker: &mut Maker, stress: u64) {
    let mut block = Vec::new();
    for _ in 0..maker.ports() {
        block.extend(pressing(&mut maker.r).bytes());
    }
    let figure = supply_at(maker, &block, stress);
    let block = maker.hex(&block);
    maker.say(&format!("tick {figure} {block}"));
}

/// A control word, a status read or a request, wrong ones too.
pub fn some_call(maker: &mut Maker) {
    match maker.r.below(10) {
        0..=3 => status_line(maker),
        4 | 5 => control_line(maker),
        _ => request_line(maker),
    }
}

fn control_line(maker: &mut Maker) {
    let port = port_number(maker);
    let r = &mut maker.r;
    let mut word = r.below(4) << 4 | r.between(1, 2) << 2 | r.below(3);
    if r.chance(30) {
        word = odd_word(r, word);
    }
    maker.say(&format!("control {port} {word}"));
}

/// The calls after an ill-made table; each has other faults now and then.
pub fn ill_made(maker: &mut Maker) {
    let count = if maker.r.chance(15) { 48 } else { maker.r.between(1, 5) };
    let table = near_table(maker, count);
    let mut image = written(&table);
    break_image(maker, &mut image, count);
    image_line(maker, &image);
    match maker.ports() {
        1..=6 if maker.table().count < 48 => pressing_tick_of_any(maker),
        _ => {
            let figure = maker.r.pick(&[300, 60_001]);
            maker.say(&format!("tick {figure} -"));
        }
    }
    for _ in 0..maker.r.between(3, 8) {
        some_call(maker);
    }
    if maker.ports() <= 6 && maker.r.chance(40) {
        faulty_tick(maker);
    }
    if maker.r.chance(8) {
        maker.dump();
    }
}

/// A tick for a table that may be ill-made: the model shares nothing then.
fn pressing_tick_of_any(maker: &mut Maker) {
    if !maker.table().ill_made() {
        return pressing_tick(maker, 20);
    }
    let mut block = Vec::new();
    for _ in 0..maker.ports() {
        block.extend(pressing(&mut maker.r).bytes());
    }
    let figure = maker.r.pick(&[0, 300, 60_000, 60_001]);
    let block = maker.hex(&block);
    maker.say(&format!("tick {figure} {block}"));
}

fn put(image: &mut [u8], at: usize, word: u16) {
    image[at..at + 2].copy_from_slice(&word.to_be_bytes());
}

/// One fault of an image. `at` counts from the port's first byte.
#[derive(Clone, Copy)]
enum Fault {
    Count(u16),
    Supply(u32),
    Word { at: usize, is: u16 },
    Or { at: usize, bits: u16 },
    Class(u8),
    State(u8),
    Latch(u8),
    Length(usize),
    Two,
}

use Fault::*;

/// Each kind in turn; a few stand just inside and are none.
const FAULTS: [Fault; 66] = [
    Count(0),
    Count(49),
    Count(50),
    Count(256),
    Count(304),
    Count(65_535),
    Supply(60_001),
    Supply(60_000),
    Supply(65_535),
    Supply(65_536),
    Supply(0x8000_0000),
    Supply(60_001),
    Word { at: 7, is: 2_001 },
    Word { at: 9, is: 2_001 },
    Word { at: 11, is: 2_001 },
    Word { at: 13, is: 2_001 },
    Word { at: 15, is: 2_001 },
    Word { at: 17, is: 2_001 },
    Word { at: 19, is: 2_001 },
    Word { at: 7, is: 65_535 },
    Word { at: 9, is: 2_256 },
    Word { at: 11, is: 65_535 },
    Word { at: 13, is: 32_768 },
    Word { at: 15, is: 2_002 },
    Word { at: 17, is: 65_535 },
    Word { at: 19, is: 2_048 },
    Class(5),
    Class(4),
    Class(6),
    Class(128),
    Class(255),
    Or { at: 1, bits: 0x0003 },
    Or { at: 1, bits: 0x000C },
    Word { at: 1, is: 0x0001 },
    Word { at: 1, is: 0x0000 },
    Or { at: 1, bits: 0x0040 },
    Or { at: 1, bits: 0x0080 },
    Or { at: 1, bits: 0x0100 },
    Or { at: 1, bits: 0x0200 },
    Or { at: 1, bits: 0x0400 },
    Or { at: 1, bits: 0x0800 },
    Or { at: 1, bits: 0x1000 },
    Or { at: 1, bits: 0x2000 },
    Or { at: 1, bits: 0x4000 },
    Or { at: 1, bits: 0x8000 },
    Word { at: 4, is: 1 },
    Word { at: 4, is: 39 },
    Word { at: 4, is: 41 },
    Word { at: 4, is: 69 },
    Word { at: 4, is: 71 },
    Word { at: 4, is: 153 },
    Word { at: 4, is: 155 },
    Word { at: 4, is: 299 },
    Word { at: 4, is: 301 },
    Word { at: 4, is: 296 },
    Word { at: 4, is: 65_535 },
    State(10),
    State(255),
    Latch(0x40),
    Latch(0x80),
    Length(IMAGE_BYTES - 1),
    Length(IMAGE_BYTES + 1),
    Length(IMAGE_BYTES - PORT_BYTES),
    Length(IMAGE_BYTES + PORT_BYTES),
    Length(6),
    Two,
];

/// Puts the next fault in, mostly in a port below the count, often the last one,
/// now and then in the place just past it, where it is none.
fn break_image(maker: &mut Maker, image: &mut Vec<u8>, count: u64) {
    let fault = FAULTS[maker.turn(3) as usize % FAULTS.len()];
    let r = &mut maker.r;
    let place = match r.below(20) {
        0 => count.min(47),
        1..=7 => count - 1,
        _ => r.below(count),
    } as usize;
    let port = HEAD_BYTES + PORT_BYTES * place;
    let any_port = HEAD_BYTES + PORT_BYTES * r.pick(&[0, 47, place]);
    match fault {
        Count(count) => put(image, 0, count),
        Supply(supply) => image[2..6].copy_from_slice(&supply.to_be_bytes()),
        Word { at, is } => put(image, port + at, is),
        Or { at, bits } => {
            let word = u16::from_be_bytes([image[port + at], image[port + at + 1]]);
            put(image, port + at, word | bits);
        }
        Class(class) => image[port + 3] = class,
        State(state) => image[any_port] = state,
        Latch(bits) => image[any_port + 6] |= bits,
        Length(length) => image.resize(length, 0),
        Two => {
            put(image, port + 7 + 2 * r.below(7) as usize, 2_001);
            put(image, 4, 60_001);
            image[port + 3] = 7;
        }
    }
}
