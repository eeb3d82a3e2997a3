//! Tables as cells: well-made ones, one cell that breaks them, the same where no
//! call looks, other numbers of cells, and noise in what is reserved.

use super::calls::{faulty_tick, request_line, supply_at};
use super::readings::{pressing, walking, Plan};
use super::tables::{image_line, near_port, near_table, pressing_tick, some_call};
use super::{too_wide, Maker};
use crate::cells::{self, at, CELLS, CONTROL, COUNT, FIELDS, HEAD, MOST_CELLS, RESERVED, SUPPLY};
use crate::image::written;
use crate::lent::{port_faults, FAULTS, HEAD_FAULTS, NUMBERS};
use crate::lines::{bytes_of, Answer};
use crate::port::{Port, State};
use crate::random::Random;
use crate::table::PLACES;

/// Lines about cells that are bad as they stand.
const BAD: [&str; 24] = [
    "cells",
    "cells ",
    "cells  -",
    "cells --",
    "cells - ",
    "cells -0",
    "cells 0",
    "cells 00",
    "cells 000",
    "cells 000000",
    "cells 00000",
    "cells 0000 0000",
    "cells 000g",
    "cells 0x00",
    "cells 0001\r",
    "Cells -",
    "CELLS 0000",
    "cell 0000",
    "show ",
    " show",
    "show -",
    "show 0",
    "Show",
    "shows",
];

/// Most turns go to the one cell that breaks a table: three rounds have all values
/// of it, on both sides.
pub fn cells(maker: &mut Maker) {
    // Where lines are not scarce, more ticks and tables that chance makes.
    if !maker.scarce {
        match maker.r.below(8) {
            0 | 1 => return ticks(maker),
            2 => return by_chance(maker),
            _ => {}
        }
    }
    match maker.cell_turn(0) % 52 {
        0 | 26 => other_number(maker),
        5 | 15 | 25 | 35 | 45 => past_the_count(maker),
        3 => cold_over(maker),
        10 | 36 => ticks(maker),
        20 => images(maker),
        8 | 33 => head(maker),
        13 | 40 => refusals(maker),
        30 => odd_lines(maker),
        k => one_fault(maker, k % 2 == 0),
    }
}

fn cells_line(maker: &mut Maker, cells: &[u16]) {
    let cells = maker.hex(&bytes_of(cells));
    maker.say(&format!("cells {cells}"));
}

fn show(maker: &mut Maker) {
    maker.say("show");
}

/// A call and what it left; where shows are scarce, those of refusals are left to
/// the end of their row.
fn shown(maker: &mut Maker, call: &str) {
    let answer = maker.say(call);
    if !maker.scarce || !matches!(answer, Answer::Refused(_)) {
        show(maker);
    }
}

fn any_cell(r: &mut Random) -> u16 {
    match r.below(6) {
        0 => 0,
        1 => 65_535,
        2 => r.below(10) as u16,
        _ => r.next() as u16,
    }
}

/// What no call looks at: reserved cells, and places at or past the count. Many of
/// these are ports that would be closed and claim much.
fn noise(r: &mut Random, cells: &mut [u16], count: usize) {
    for k in (2..HEAD).chain(at(RESERVED, 0)..CELLS) {
        cells[k] = any_cell(r);
    }
    let bare = r.chance(10);
    for place in count..PLACES {
        match r.below(10) {
            _ if bare => {}
            0..=3 => {
                for field in 0..RESERVED {
                    cells[at(field, place)] = any_cell(r);
                }
            }
            4..=7 => {
                let state = r.pick(&[State::PowerOn, State::PowerUp, State::TestMode]);
                let port = Port { demand: 300, class: 4, ..near_port(r, state) };
                put(cells, place, &port);
            }
            _ => {}
        }
    }
}

fn put(cells: &mut [u16], place: usize, port: &Port) {
    cells[at(0, place)] = port.state as u16;
    let rest = [port.control, port.demand, u16::from(port.class), u16::from(port.latches)];
    for (k, word) in rest.iter().chain(&port.counters).enumerate() {
        cells[at(1 + k, place)] = *word;
    }
}

/// A well-made port with some of its fields at their limits.
fn limit_port(r: &mut Random, port: Port) -> Port {
    let mut port = port;
    for counter in &mut port.counters {
        *counter = if r.chance(25) { 2_000 } else { *counter };
    }
    if r.chance(30) {
        port.latches = r.pick(&[255, 128, 64, 32, 1, 0]);
    }
    Port { class: if r.chance(30) { 4 } else { port.class }, ..port }
}

/// A well-made table of so many ports, amid noise. The one port that is given back
/// is in POWER_ON and may ask for more.
fn well_made(maker: &mut Maker, count: usize) -> (Vec<u16>, usize) {
    let mut table = near_table(maker, count as u64);
    let r = &mut maker.r;
    for place in 0..count {
        table.ports[place] = limit_port(r, table.ports[place]);
    }
    let on = r.below(count as u64) as usize;
    let control = (r.below(4) << 4 | r.between(1, 2) << 2 | 1) as u16;
    let counters = [0; 7].map(|_: u16| r.between(1, 50) as u16);
    table.ports[on] =
        Port { state: State::PowerOn, control, class: 4, demand: 40, counters, ..table.ports[on] };
    // What stands past the count would not fit beside this.
    let room = table.closed_demands() + 260;
    table.supply = r.pick(&[room as u16, 60_000, room as u16 + 1]).min(60_000);
    let mut cells = cells::all(&table);
    noise(r, &mut cells, count);
    (cells, on)
}

fn few(r: &mut Random, least: u64) -> usize {
    let count = match r.below(16) {
        0 => r.between(7, 46),
        1 => 46,
        _ => r.between(least, 5),
    };
    count.max(least) as usize
}

/// The four calls that look at the ports, right for the cells if nothing is broken;
/// control and status of that place. Each of them is the first for one `first`.
fn calls(maker: &mut Maker, cells: &[u16], place: usize, on: usize, first: usize) -> Vec<String> {
    let pair = if cells[at(CONTROL, place)] & 0xC == 8 { 8 } else { 4 };
    let mut block = Vec::new();
    for _ in 0..cells[COUNT].min(48) {
        block.extend(pressing(&mut maker.r).bytes());
    }
    let figure = maker.r.pick(&[0, 300, 1_000, 60_000]);
    let block = maker.hex(&block);
    let r = &mut maker.r;
    let word = r.below(4) << 4 | pair | r.below(3);
    let value = r.pick(&[1, 39, 64, 65, 129, 130, 255]);
    let mut calls = vec![
        format!("tick {figure} {block}"),
        format!("control {place} {word}"),
        format!("status {place}"),
        format!("request {on} {value}"),
    ];
    calls.rotate_left(first % 4);
    calls
}

/// One cell of one port below the count breaks the table: each value of each field
/// in turn, in the last port or in one below it.
fn one_fault(maker: &mut Maker, last: bool) {
    let faults = port_faults();
    let turn = maker.cell_turn(1 + usize::from(last));
    let k = turn % faults.len();
    let (field, value) = faults[k];
    let count =
        if maker.r.chance(6) { PLACES } else { few(&mut maker.r, if last { 1 } else { 2 }) };
    let (mut cells, on) = well_made(maker, count);
    let place = if last { count - 1 } else { maker.r.below(count as u64 - 1) as usize };
    cells[at(field, place)] = value;
    cells_line(maker, &cells);
    let first = k + if last { 2 } else { 0 };
    for call in calls(maker, &cells, place, on, first) {
        shown(maker, &call);
    }
    if maker.r.chance(10) {
        // Whatever else a call could be refused with.
        let port = maker.r.pick(&[count as u64, 48, u64::MAX]);
        let tick = format!("tick {} -", too_wide(&mut maker.r, 60_001));
        for call in [
            format!("control {port} 3"),
            format!("status {port}"),
            format!("request {port} 0"),
            tick,
        ] {
            shown(maker, &call);
        }
    }
    let coded = matches!(field, cells::STATE | cells::LATCHES | cells::CLASS);
    if maker.scarce && (coded || turn % 2 == 0) {
        show(maker);
    }
}

/// The same values at the count and past it, as many at once as there are fields:
/// every call takes the table.
fn past_the_count(maker: &mut Maker) {
    let count = few(&mut maker.r, 1);
    let (mut cells, on) = well_made(maker, count);
    let turn = maker.cell_turn(3);
    let places = [count, maker.r.between(count as u64 + 1, 47) as usize, 47];
    for (k, place) in places.into_iter().enumerate().take(if count < 47 { 3 } else { 1 }) {
        for (field, values) in FAULTS {
            cells[at(field, place)] = values[(turn + k) % values.len()];
        }
    }
    cells_line(maker, &cells);
    for call in calls(maker, &cells, on, on, turn) {
        // The tick may have led the port out of POWER_ON, stored too little for it, or
        // closed others that leave it too little.
        let held = maker.table();
        let room = held.closed_demands() + 260;
        let led_away = held.ports[on].state != State::PowerOn || room > u32::from(held.supply);
        if call.starts_with("request") && led_away {
            cells_line(maker, &cells);
        }
        shown(maker, &call);
    }
    if !maker.scarce {
        for _ in 0..maker.r.below(6) {
            some_call(maker);
            show(maker);
        }
    }
}

/// The count and the supply at their limits, one over and far over.
fn head(maker: &mut Maker) {
    for _ in 0..2 {
        let turn = maker.cell_turn(4);
        let count = few(&mut maker.r, 1);
        let whole = turn % 8 > 4;
        let (mut cells, on) = well_made(maker, if whole { PLACES } else { count });
        let (cell, value) = match turn % 8 {
            5 => (COUNT, PLACES as u16),
            6 => (SUPPLY, 60_000),
            7 => (SUPPLY, 0),
            k => HEAD_FAULTS[k],
        };
        if cell == COUNT && value > PLACES as u16 {
            // All places are well-made: nothing but the count is wrong.
            let (full, _) = well_made(maker, PLACES);
            cells[HEAD..].copy_from_slice(&full[HEAD..]);
        }
        cells[cell] = value;
        cells_line(maker, &cells);
        for call in calls(maker, &cells, on, on, turn / 2) {
            shown(maker, &call);
        }
        if maker.scarce {
            show(maker);
        }
    }
}

/// Another number of cells than a table has: 13 in every call, a cold start too.
/// The next table, whatever its form, is none the worse for it.
fn other_number(maker: &mut Maker) {
    let turn = maker.cell_turn(5);
    let number = NUMBERS[turn % NUMBERS.len()];
    let any = maker.r.below(MOST_CELLS as u64) as usize;
    let number = if !maker.scarce && maker.r.chance(20) { any } else { number };
    let count = few(&mut maker.r, 1);
    let (whole, on) = well_made(maker, count);
    let mut cells = whole.clone();
    if maker.r.chance(50) {
        cells.resize(MOST_CELLS, 0xA5A5);
    } else {
        cells.resize(MOST_CELLS, 0);
    }
    cells.truncate(number);
    cells_line(maker, &cells);
    for call in calls(maker, &whole, on, on, turn) {
        shown(maker, &call);
    }
    show(maker);
    let count = maker.r.pick(&[1, 7, 48]);
    let wide = too_wide(&mut maker.r, 1);
    let wrong = maker.r.pick(&[0, 49, wide]);
    maker.say(&format!("cold {wrong}"));
    maker.say(&format!("cold {count}"));
    show(maker);
    maker.say("dump");
    match turn % 3 {
        0 => {
            let table = near_table(maker, count);
            image_line(maker, &written(&table));
        }
        1 => cells_line(maker, &whole),
        _ => {
            image_line(maker, &[0; 6]);
            cells_line(maker, &vec![0; CELLS]);
            maker.say(&format!("cold {count}"));
        }
    }
    show(maker);
    maker.say("dump");
}

/// A cold start on anything: all cells are written.
fn cold_over(maker: &mut Maker) {
    for _ in 0..if maker.scarce { 1 } else { 3 } {
        let count = few(&mut maker.r, 1);
        let (mut cells, _) = well_made(maker, count);
        let r = &mut maker.r;
        for _ in 0..r.pick(&[0, 5, 500]) {
            cells[r.below(CELLS as u64) as usize] = any_cell(r);
        }
        let place = r.below(count as u64) as usize;
        cells[at(0, place)] = r.pick(&[10, 65_535]);
        cells[at(0, 47)] = 255;
        cells_line(maker, &cells);
        let wide = too_wide(&mut maker.r, 3);
        let wrong = maker.r.pick(&[0, 49, wide]);
        maker.say(&format!("cold {wrong}"));
        show(maker);
        let count = maker.r.pick(&[1, 2, 47, 48]);
        maker.say(&format!("cold {count}"));
        show(maker);
    }
}

/// Cells that chance makes, most of them near what is allowed: often one or two are
/// wrong, somewhere, and seldom it is known before which.
fn by_chance(maker: &mut Maker) {
    let count = if maker.r.chance(20) { PLACES } else { few(&mut maker.r, 1) };
    let (mut cells, on) = well_made(maker, count);
    let r = &mut maker.r;
    let faults = port_faults();
    for _ in 0..r.below(4) {
        let (field, value) = r.pick(&faults);
        let places = [r.below(48), count as u64, count as u64 - 1, r.below(count as u64)];
        let place = r.pick(&places);
        let value = if r.chance(50) { value } else { r.pick(&[0, 4, 9, 40, 63, 300, 2_000]) };
        cells[at(field, place.min(47) as usize)] = value;
    }
    if r.chance(15) {
        cells[COUNT] = r.between(1, 48) as u16;
    }
    if r.chance(10) {
        cells[SUPPLY] = r.between(59_999, 60_002) as u16;
    }
    cells_line(maker, &cells);
    for call in calls(maker, &cells, on, on, 0) {
        shown(maker, &call);
    }
    for _ in 0..maker.r.below(8) {
        some_call(maker);
        show(maker);
    }
    maker.say("dump");
}

/// Ticks in numbers, amid noise.
fn ticks(maker: &mut Maker) {
    let count = if maker.r.chance(10) { PLACES } else { few(&mut maker.r, 1).min(6) };
    let (cells, _) = well_made(maker, count);
    cells_line(maker, &cells);
    let number = match (maker.scarce, count) {
        (_, PLACES) => 6,
        (true, _) => 36,
        _ => maker.r.between(5, 40),
    };
    for k in 0..number {
        if maker.r.chance(40) {
            pressing_tick(maker, 20);
        } else {
            let mut block = Vec::new();
            for _ in 0..maker.ports() {
                block.extend(walking(&mut maker.r, &Plan::default(), 10).bytes());
            }
            let figure = supply_at(maker, &block, 15);
            let block = maker.hex(&block);
            maker.say(&format!("tick {figure} {block}"));
        }
        if !maker.scarce || k % 10 == 0 {
            show(maker);
        }
        match maker.r.below(12) {
            0 => some_call(maker),
            1 => request_line(maker),
            _ => {}
        }
    }
    show(maker);
    maker.say("dump");
}

/// Refusals other than 13 on a well-made table amid noise: of ticks, with the fault
/// in the last port's flags too, when the ports before it are seen to be right.
fn refusals(maker: &mut Maker) {
    let count = few(&mut maker.r, 2).min(5);
    let (mut cells, on) = well_made(maker, count);
    let other = (on + 1) % count;
    let idle = near_port(&mut maker.r, State::Idle);
    put(&mut cells, other, &idle);
    cells[SUPPLY] = 0;
    cells_line(maker, &cells);
    let samples = "00".repeat(14 * count);
    let calls = [
        format!("tick 60000 {}0040", &samples[4..]),
        format!("tick 60000 {}", &samples[2..]),
        format!("tick 60001 {samples}"),
        format!("control {count} 5"),
        format!("control {on} 69"),
        format!("control {other} {}", idle.control ^ 0xC),
        format!("status {count}"),
        format!("request {count} 1"),
        format!("request {on} 0"),
        format!("request {other} 1"),
        format!("request {on} 255"),
        "cold 49".to_string(),
    ];
    let often = maker.cell_turn(6);
    for (k, call) in calls.iter().enumerate() {
        maker.say(call);
        if !maker.scarce || (k + often) % 3 == 0 {
            show(maker);
        }
    }
    faulty_tick(maker);
    // A class that the request is over.
    cells[at(cells::CLASS, on)] = 1;
    cells[at(cells::DEMAND, on)] = 0;
    cells_line(maker, &cells);
    maker.say(&format!("request {on} 39"));
    show(maker);
}

/// Cells as an image and back: what an image does not hold, and what it does not
/// show.
fn images(maker: &mut Maker) {
    let count = few(&mut maker.r, 1);
    let table = near_table(maker, count as u64);
    let mut whole = cells::all(&table);
    for k in (2..HEAD).chain(at(RESERVED, 0)..CELLS) {
        whole[k] = any_cell(&mut maker.r);
    }
    cells_line(maker, &whole);
    maker.say("dump");
    let odd = [(cells::STATE, 10), (cells::LATCHES, 64), (cells::CLASS, 256)];
    let turn = maker.cell_turn(9);
    for (k, (field, value)) in odd.into_iter().enumerate() {
        for past in [false, true] {
            // Where lines are scarce, one side of the count at a time.
            if maker.scarce && ((k + turn) % 2 == 0) != past {
                continue;
            }
            let below = maker.r.below(count as u64);
            let place = if past { maker.r.pick(&[count as u64, 47]) } else { below };
            let mut cells = whole.clone();
            cells[at(field, place as usize)] = value;
            cells_line(maker, &cells);
            maker.say("dump");
        }
    }
    let mut image = written(&table);
    image[6 + 21 * 47] = 10;
    image_line(maker, &image);
    show(maker);
    let table = near_table(maker, 3);
    image_line(maker, &written(&table));
    show(maker);
}

/// Bad lines about cells, which leave those that are held, and cells of any number.
fn odd_lines(maker: &mut Maker) {
    let (cells, _) = well_made(maker, 2);
    cells_line(maker, &cells);
    let turn = maker.cell_turn(8);
    for k in 0..8 {
        maker.say(BAD[(8 * turn + k) % BAD.len()]);
    }
    // One cell too many, and half a cell too many or too few.
    let half = maker.r.pick(&[4 * MOST_CELLS + 2, 4 * CELLS - 2]);
    for digits in [4 * MOST_CELLS + 4, half] {
        maker.say(&format!("cells {}", "0".repeat(digits)));
    }
    show(maker);
    let number = maker.r.pick(&[1, 2, 7, 8, 56, FIELDS]);
    let few: Vec<u16> = (0..number).map(|_| any_cell(&mut maker.r)).collect();
    cells_line(maker, &few);
    show(maker);
    maker.say("dump");
    maker.say("cells -");
    show(maker);
    maker.say("status 0");
}
