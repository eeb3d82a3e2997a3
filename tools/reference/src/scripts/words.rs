//! Words of the management side and small demands, all of them one by one: there
//! is no chance in it.

use crate::alone::CLASS_EDGES;
use crate::cells::{at, CELLS, CONTROL, COUNT, LATCHES};
use crate::image::written;
use crate::lines::{bytes_of, hex_text};
use crate::port::{control_reserved, Port, State, POWER_ON, STATES};
use crate::reading::{Sample, CLASS_DONE, SAMPLE_BYTES};
use crate::table::{Table, PLACES};

/// Words past the fields: with bit 6, 7, 8 or 15, and with all.
const WIDE: [u16; 7] = [64, 68, 132, 154, 300, 32_772, 65_535];

/// What four forced ports draw, and eight, twelve and sixteen.
const FORCED_FIGURES: [u64; 4] = [616, 1_232, 1_848, 2_464];

pub fn words() -> Vec<u8> {
    let mut lines = Vec::new();
    control_words(&mut lines);
    status_words(&mut lines);
    demands(&mut lines);
    class_pairs(&mut lines);
    latch_cells(&mut lines);
    lines.iter().flat_map(|line| format!("{line}\n").into_bytes()).collect()
}

fn numbers() -> impl Iterator<Item = u16> {
    (0..64).chain(WIDE)
}

fn image_line(ports: &[Port]) -> String {
    let mut table = Table::zero();
    table.count = ports.len() as u16;
    table.ports = [Port::COLD; PLACES];
    table.ports[..ports.len()].copy_from_slice(ports);
    format!("table {}", hex_text(&written(&table)))
}

/// Each control word, those that a write takes in two ports. Then ticks: the
/// enable shows in where the ports go, the priority in which of the forced are
/// kept, the alternative in the masks.
fn control_words(lines: &mut Vec<String>) {
    let (wrong, right): (Vec<u16>, Vec<u16>) =
        numbers().partition(|&word| control_reserved(u64::from(word)));
    lines.push("cold 48".to_string());
    for (place, word) in right.iter().chain(&right).enumerate() {
        lines.push(format!("control {place} {word}"));
    }
    lines.extend(wrong.iter().map(|word| format!("control 0 {word}")));
    let quiet = "00".repeat(PLACES * SAMPLE_BYTES);
    lines.push("dump".to_string());
    for figure in [0].into_iter().chain(FORCED_FIGURES) {
        lines.push(format!("tick {figure} {quiet}"));
        lines.push("dump".to_string());
    }
}

/// Each set of latches, with a quarter of the classes and conditions that a word
/// can have: each of these with each latch set and clear. The states of a condition
/// come in turn.
fn status_words(lines: &mut Vec<String>) {
    let mut ports = Vec::new();
    for condition in 0..5 {
        let states: Vec<State> =
            STATES.into_iter().filter(|state| state.condition() == condition).collect();
        for (class, latches) in (0..5u8).flat_map(|class| (0..=255).map(move |set| (class, set))) {
            let turn = u32::from(5 * class) + u32::from(condition) + digits(latches);
            if turn % 4 == 0 {
                let state = states[ports.len() % states.len()];
                ports.push(Port { state, class, latches, ..Port::COLD });
            }
        }
    }
    for chunk in ports.chunks(PLACES) {
        lines.push(image_line(chunk));
        lines.extend((0..chunk.len()).map(|place| format!("status {place}")));
    }
}

/// The sum of a byte's four digits of two bits.
fn digits(byte: u8) -> u32 {
    (0..4).map(|k| u32::from(byte >> (2 * k) & 3)).sum()
}

/// The first and second class currents about the limits of a failure, each with each:
/// read alone; in the last tick that takes a class, with the latches that it left; and
/// in the tick that is at 400, which takes none.
fn class_pairs(lines: &mut Vec<String>) {
    let pairs: Vec<[u16; 2]> =
        CLASS_EDGES.iter().flat_map(|c1| CLASS_EDGES.map(|c2| [*c1, c2])).collect();
    lines.extend(pairs.iter().map(|[c1, c2]| format!("class {c1} {c2}")));
    let sample = |pair: &[u16; 2]| Sample {
        voltages: [0; 2],
        currents: [0; 2],
        class_currents: *pair,
        flags: CLASS_DONE,
    };
    let block: Vec<u8> = pairs.iter().flat_map(|pair| sample(pair).bytes()).collect();
    for ticks in [398, 399] {
        let mut port = Port { state: State::Classifying, control: 0x0005, ..Port::COLD };
        port.counters[POWER_ON] = ticks;
        lines.push(image_line(&vec![port; pairs.len()]));
        lines.push(format!("tick 60000 {}", hex_text(&block)));
        lines.push("dump".to_string());
        lines.extend((0..pairs.len()).map(|place| format!("status {place}")));
        lines.push("dump".to_string());
    }
}

/// All eight latches and one bit more, in the only port's cell; and that in a cell
/// past the count, which no call looks at and no image holds.
fn latch_cells(lines: &mut Vec<String>) {
    for (place, latches) in [(0, 255), (0, 256), (1, 256)] {
        let mut cells = vec![0; CELLS];
        cells[COUNT] = 1;
        cells[at(CONTROL, 0)..at(CONTROL, PLACES)].fill(4);
        cells[at(LATCHES, place)] = latches;
        lines.push(format!("cells {}", hex_text(&bytes_of(&cells))));
        lines.extend(["dump", "status 0"].map(String::from));
    }
}

/// Each number as the demand of the only port: none, a class's budget, or 13.
fn demands(lines: &mut Vec<String>) {
    for demand in numbers() {
        lines.push(image_line(&[Port { demand, ..Port::COLD }]));
        lines.push("status 0".to_string());
    }
}
