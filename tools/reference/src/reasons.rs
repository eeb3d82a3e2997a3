//! Which refusals of a call hold each by itself, whatever the order of checks:
//! `reference count` shows with it that the scripts try every order.

use crate::cells::{lent, seen, CELLS};
use crate::lines::Line;
use crate::port::{control_reserved, State};
use crate::reading::{Sample, BUDGETS, RESERVED_FLAGS, SAMPLE_BYTES};
use crate::table::{requested_demand, Table, HIGHEST_SUPPLY};
use crate::tlv::{Fields, HIGHEST_VALUE, LONGEST_PDU, MARK};

/// Two refusals of one call that can hold at once, the one checked first in
/// front.
pub const ORDERS: [(&str, u8, u8); 32] = [
    ("cold", 13, 2),
    ("control", 13, 2),
    ("control", 13, 3),
    ("control", 13, 5),
    ("control", 2, 3),
    ("control", 3, 5),
    ("status", 13, 2),
    ("request", 13, 2),
    ("request", 13, 10),
    ("request", 13, 5),
    ("request", 13, 11),
    ("request", 13, 12),
    ("request", 2, 10),
    ("request", 10, 5),
    ("request", 5, 11),
    ("request", 11, 12),
    ("tick", 13, 1),
    ("tick", 13, 4),
    ("tick", 13, 3),
    ("tick", 1, 4),
    ("tick", 1, 3),
    ("tick", 4, 3),
    ("search", 1, 6),
    ("search", 1, 8),
    ("search", 1, 7),
    ("search", 6, 8),
    ("search", 6, 7),
    ("read", 6, 9),
    ("read", 9, 10),
    ("write12", 3, 10),
    ("write12", 3, 1),
    ("write12", 10, 1),
];

/// Of cells of another number than a table has, no call but a cold start says more
/// than 13.
pub fn reasons(cells: &[u16], line: &Line) -> Vec<u8> {
    let stray = cells.len() != CELLS;
    let table = &seen(cells);
    let ill = (13, lent(cells).map_or(true, |table| table.ill_made()));
    let stranger = |port: u64| (2, port >= u64::from(table.count));
    let all: Vec<(u8, bool)> = match line {
        Line::Cold(count) => vec![(13, stray), (2, *count == 0 || *count > 48)],
        Line::Control(..) | Line::Status(_) | Line::Request(..) | Line::Tick(..) if stray => {
            vec![ill]
        }
        Line::Control(port, word) => {
            let port_state = of_control(table, *port, *word);
            vec![ill, stranger(*port), (3, control_reserved(*word)), (5, port_state)]
        }
        Line::Status(port) => vec![ill, stranger(*port)],
        Line::Request(port, value) => {
            let mut all = vec![ill, stranger(*port), (10, *value == 0 || *value > HIGHEST_VALUE)];
            all.extend(of_request(table, *port, *value));
            all
        }
        Line::Tick(figure, block) => {
            let length = block.len() != usize::from(table.count) * SAMPLE_BYTES;
            vec![ill, (1, length), (4, *figure > HIGHEST_SUPPLY), (3, reserved(table, block))]
        }
        Line::Search(bytes) => of_search(bytes),
        Line::Read(bytes) => of_read(bytes),
        Line::Write(room, fields) => of_write(*room, fields),
        _ => Vec::new(),
    };
    all.into_iter().filter(|(_, holds)| *holds).map(|(number, _)| number).collect()
}

fn of_control(table: &Table, port: u64, word: u64) -> bool {
    if port >= u64::from(table.count).min(48) {
        return false;
    }
    let port = &table.ports[port as usize];
    port.state != State::Disabled && u64::from(port.alternative()) != (word >> 2) & 3
}

fn of_request(table: &Table, port: u64, value: u64) -> Vec<(u8, bool)> {
    if port >= u64::from(table.count) || table.count > 48 {
        return Vec::new();
    }
    let port = &table.ports[port as usize];
    let demand = requested_demand(value).unwrap_or(0);
    let budget = BUDGETS.get(usize::from(port.class));
    // Request [4]: "11 for 256 to 999".
    let over =
        (256..=HIGHEST_VALUE).contains(&value) || budget.is_some_and(|budget| demand > *budget);
    let on = port.state == State::PowerOn;
    let sum = i64::from(table.closed_demands()) - i64::from(port.demand) + i64::from(demand);
    let unfit = on && demand > port.demand && sum > i64::from(table.supply);
    vec![(5, !on), (11, over), (12, unfit)]
}

fn reserved(table: &Table, block: &[u8]) -> bool {
    let samples = usize::from(table.count).min(block.len() / SAMPLE_BYTES);
    (0..samples).any(|p| Sample::of_port(block, p).flags & RESERVED_FLAGS != 0)
}

fn of_search(bytes: &[u8]) -> Vec<(u8, bool)> {
    let (mut at, mut powers, mut cut) = (0, 0, false);
    while at < bytes.len() && !cut {
        let word =
            bytes.get(at..at + 2).map_or(0xFFFF, |h| usize::from(h[0]) << 8 | usize::from(h[1]));
        if word >> 9 == 0 {
            break;
        }
        let body = bytes.get(at + 2..at + 2 + (word & 0x1FF));
        cut = body.is_none();
        powers += usize::from(word >> 9 == 127 && body.is_some_and(|b| b.starts_with(&MARK)));
        at += 2 + (word & 0x1FF);
    }
    vec![(1, bytes.len() > LONGEST_PDU), (6, cut), (8, powers > 1), (7, powers == 0)]
}

fn of_read(bytes: &[u8]) -> Vec<(u8, bool)> {
    if bytes.len() < 2 {
        return vec![(6, true)];
    }
    let said = 2 + (usize::from(bytes[0] & 1) << 8 | usize::from(bytes[1]));
    let known = bytes[0] >> 1 == 127 && (said == 9 || said == 14);
    let marked = bytes.len() < 6 || bytes[2..6] == MARK;
    let value =
        |at: usize| bytes.get(at..at + 2).map_or(0, |v| 256 * u64::from(v[0]) + u64::from(v[1]));
    let values = said == 14 && (value(10) > HIGHEST_VALUE || value(12) > HIGHEST_VALUE);
    vec![(6, bytes.len() < said), (9, !known || !marked || bytes.len() > said), (10, values)]
}

fn of_write(room: usize, fields: &Fields) -> Vec<(u8, bool)> {
    let Some(e) = &fields.extension else {
        return vec![(1, room < 9)];
    };
    let codes = [e.kind, e.source, e.priority].iter().any(|&code| code > 3);
    let values = [e.requested, e.allocated].iter().any(|&value| value > HIGHEST_VALUE);
    vec![(3, codes), (10, values), (1, room < 14)]
}
