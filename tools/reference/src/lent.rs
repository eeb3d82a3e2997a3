//! What a script should have tried of the lent cells: another number of them, one
//! cell that breaks the table, the same where no call looks, and what is reserved.

use std::collections::{BTreeMap, BTreeSet};
use std::fmt::Write;

use crate::cells::{
    at, reserved, seen, CELLS, CLASS, CONTROL, COUNT, COUNTERS, DEMAND, FIELDS, HEAD, LATCHES,
    STATE, SUPPLY,
};
use crate::count::call_name;
use crate::lines::{Answer, Line};
use crate::port::control_reserved;
use crate::table::PLACES;

/// Numbers of cells that are not a table's.
pub const NUMBERS: [usize; 5] = [0, 1, 727, 729, 1_024];

/// What breaks a port, by its field: values beside those that are allowed, and those
/// whose low byte or low bits alone would be.
pub const FAULTS: [(usize, &[u16]); 12] = [
    (STATE, &[10, 255, 262, 65_535]),
    (
        CONTROL,
        &[
            0, 1, 0x7, 0xD, 0x45, 0x85, 0x105, 0x205, 0x405, 0x805, 0x1005, 0x2005, 0x4005, 0x8005,
            0xFFFF,
        ],
    ),
    (DEMAND, &[1, 39, 41, 69, 71, 153, 155, 296, 299, 301, 410, 65_535]),
    (CLASS, &[5, 255, 256, 260]),
    (LATCHES, &[256, 319, 512, 65_535]),
    (COUNTERS, &[2_001, 65_535]),
    (COUNTERS + 1, &[2_001, 65_535]),
    (COUNTERS + 2, &[2_001, 65_535]),
    (COUNTERS + 3, &[2_001, 65_535]),
    (COUNTERS + 4, &[2_001, 65_535]),
    (COUNTERS + 5, &[2_001, 65_535]),
    (COUNTERS + 6, &[2_001, 65_535]),
];

/// What breaks the head: the cell and its value.
pub const HEAD_FAULTS: [(usize, u16); 5] =
    [(COUNT, 0), (COUNT, 49), (COUNT, 65_535), (SUPPLY, 60_001), (SUPPLY, 65_535)];

/// Every fault of a port.
pub fn port_faults() -> Vec<(usize, u16)> {
    FAULTS.iter().flat_map(|(field, values)| values.iter().map(|value| (*field, *value))).collect()
}

/// The calls that look at the ports.
const CALLS: [&str; 4] = ["control", "status", "request", "tick"];
const ALL: [&str; 5] = ["cold", "control", "status", "request", "tick"];

const STRAY: &str = "another number of cells than 728";
const STATE_BELOW: &str = "a state over 9 below the count, and no other fault";
const LATCHES_BELOW: &str = "latches over 255 below the count, and no other fault";
const CLASS_BELOW: &str = "a class over 255 below the count, and no other fault";
const STATE_PAST: &str = "a state over 9 at or past the count";
const LATCHES_PAST: &str = "latches over 255 at or past the count";
const CLASS_PAST: &str = "a class over 255 at or past the count";
const CLOSED_PAST: &str = "a closed port at or past the count";
const RESERVED_HEAD: &str = "reserved cells of the head not 0";
const RESERVED_FIELDS: &str = "reserved fields not 0";
const BROKEN: &str = "an ill-made table";

const REFUSED: &str = "refused 13";
const KEPT: &str = "taken, and they are kept";
const REFUSED_KEPT: &str = "refused, not with 13, and nothing changed";
const CLEARED: &str = "taken, and they are 0";
const WRITTEN: &str = "taken, and all is written";

/// What is held, the calls that must meet it, and what they answer.
const ROWS: [(&str, &[&str], &str); 17] = [
    (STRAY, &ALL, REFUSED),
    (STATE_BELOW, &CALLS, REFUSED),
    (LATCHES_BELOW, &CALLS, REFUSED),
    (CLASS_BELOW, &CALLS, REFUSED),
    (STATE_PAST, &CALLS, KEPT),
    (LATCHES_PAST, &CALLS, KEPT),
    (CLASS_PAST, &CALLS, KEPT),
    (CLOSED_PAST, &CALLS, KEPT),
    (RESERVED_HEAD, &CALLS, KEPT),
    (RESERVED_FIELDS, &CALLS, KEPT),
    (RESERVED_HEAD, &ALL, REFUSED_KEPT),
    (RESERVED_FIELDS, &ALL, REFUSED_KEPT),
    (RESERVED_HEAD, &["cold", "table"], CLEARED),
    (RESERVED_FIELDS, &["cold", "table"], CLEARED),
    (BROKEN, &["cold"], WRITTEN),
    (STATE_PAST, &["cold"], WRITTEN),
    (STRAY, &["table"], WRITTEN),
];

/// What a dump of the cells answers.
const NO_IMAGE: [&str; 7] = [
    STRAY,
    "a state over 9 below the count",
    STATE_PAST,
    "latches over 255 below the count",
    LATCHES_PAST,
    "a class over 255 below the count",
    CLASS_PAST,
];

type Fact = (&'static str, &'static str, &'static str);

#[derive(Default)]
pub struct Lent {
    facts: BTreeMap<Fact, u64>,
    shown: BTreeMap<Fact, u64>,
    /// The last line's, which count as shown if all cells are shown next.
    last: Vec<Fact>,
    dumps: BTreeMap<&'static str, u64>,
    numbers: BTreeSet<(usize, &'static str)>,
    head: BTreeSet<(usize, u16, &'static str)>,
    /// By where the port is: below the last one, the last below the count, the
    /// place at the count, one past it.
    ports: [BTreeSet<(usize, u16, &'static str)>; 4],
}

/// A cell's value breaks a port below the count.
fn broken(field: usize, value: u16) -> bool {
    match field {
        STATE => value > 9,
        CONTROL => control_reserved(u64::from(value)),
        DEMAND => ![0, 40, 70, 154, 300].contains(&value),
        CLASS => value > 4,
        LATCHES => value > 255,
        field if field < COUNTERS + 7 => value > 2_000,
        _ => false,
    }
}

/// No port of an image has it.
fn odd(field: usize, value: u16) -> bool {
    match field {
        STATE => value > 9,
        LATCHES => value > 255,
        CLASS => value > 255,
        _ => false,
    }
}

fn any_odd(cells: &[u16], field: usize, mut places: std::ops::Range<usize>) -> bool {
    places.any(|place| odd(field, cells[at(field, place)]))
}

fn faults_below(cells: &[u16], count: usize) -> Vec<(usize, usize)> {
    let all = (0..count).flat_map(|place| (0..FIELDS).map(move |field| (field, place)));
    all.filter(|&(field, place)| broken(field, cells[at(field, place)])).collect()
}

impl Lent {
    pub fn line(&mut self, cells: &[u16], line: Option<&Line>, answer: &Answer, after: &[u16]) {
        for fact in std::mem::take(&mut self.last) {
            *self.shown.entry(fact).or_default() += u64::from(matches!(answer, Answer::Cells(_)));
        }
        let Some(line) = line else { return };
        let call = call_name(line);
        match answer {
            _ if call == "dump" => self.dump(cells, answer),
            Answer::Refused(13) if ALL.contains(&call) => self.refused(cells, call),
            Answer::Refused(_) if ALL.contains(&call) && cells == after => {
                self.reserved(cells, call, REFUSED_KEPT)
            }
            Answer::BadImage | Answer::Refused(_) => {}
            _ if CALLS.contains(&call) => self.taken(cells, call, after),
            _ if call == "cold" || call == "table" => self.written(cells, call, after),
            _ => {}
        }
        for fact in &self.last {
            *self.facts.entry(*fact).or_default() += 1;
        }
    }

    fn reserved(&mut self, cells: &[u16], call: &'static str, answer: &'static str) {
        if cells.len() != CELLS {
            return;
        }
        let some = |mut part: std::ops::Range<usize>| part.any(|k| reserved(k) && cells[k] != 0);
        if some(0..HEAD) {
            self.last.push((RESERVED_HEAD, call, answer));
        }
        if some(HEAD..CELLS) {
            self.last.push((RESERVED_FIELDS, call, answer));
        }
    }

    fn refused(&mut self, cells: &[u16], call: &'static str) {
        if cells.len() != CELLS {
            self.numbers.insert((cells.len(), call));
            return self.last.push((STRAY, call, REFUSED));
        }
        let count = usize::from(cells[COUNT]);
        let head = [COUNT, SUPPLY].map(|cell| (cell, cells[cell]));
        let bad_head: Vec<_> = head.into_iter().filter(|f| HEAD_FAULTS.contains(f)).collect();
        let below = faults_below(cells, count.min(PLACES));
        match (&bad_head[..], &below[..]) {
            ([(cell, value)], []) => {
                self.head.insert((*cell, *value, call));
            }
            ([], [(field, place)]) => {
                let kind = usize::from(*place + 1 == count);
                let value = cells[at(*field, *place)];
                self.ports[kind].insert((*field, value, call));
                match *field {
                    STATE => self.last.push((STATE_BELOW, call, REFUSED)),
                    LATCHES => self.last.push((LATCHES_BELOW, call, REFUSED)),
                    CLASS if value > 255 => self.last.push((CLASS_BELOW, call, REFUSED)),
                    _ => {}
                }
            }
            _ => {}
        }
    }

    fn taken(&mut self, cells: &[u16], call: &'static str, after: &[u16]) {
        let count = usize::from(cells[COUNT]);
        let past = |cell: usize| cell >= HEAD && (cell - HEAD) % PLACES >= count;
        let kept = |cell: usize| cells[cell] == after[cell];
        if !(0..CELLS).all(|cell| kept(cell) || !(past(cell) || reserved(cell) || cell == COUNT)) {
            return;
        }
        self.reserved(cells, call, KEPT);
        for (name, field) in [(STATE_PAST, STATE), (LATCHES_PAST, LATCHES), (CLASS_PAST, CLASS)] {
            if any_odd(cells, field, count..PLACES) {
                self.last.push((name, call, KEPT));
            }
        }
        if seen(cells).ports[count..].iter().any(|port| port.state.closed() && port.demand > 0) {
            self.last.push((CLOSED_PAST, call, KEPT));
        }
        for place in count..PLACES {
            for (field, values) in FAULTS {
                let value = cells[at(field, place)];
                if values.contains(&value) {
                    self.ports[if place == count { 2 } else { 3 }].insert((field, value, call));
                }
            }
        }
    }

    fn written(&mut self, cells: &[u16], call: &'static str, after: &[u16]) {
        if after.len() != CELLS || (0..CELLS).any(|cell| reserved(cell) && after[cell] != 0) {
            return;
        }
        if cells.len() != CELLS {
            return self.last.push((STRAY, call, WRITTEN));
        }
        self.reserved(cells, call, CLEARED);
        let count = usize::from(cells[COUNT]).min(PLACES);
        if !faults_below(cells, count).is_empty() {
            self.last.push((BROKEN, call, WRITTEN));
        }
        if any_odd(cells, STATE, count..PLACES) {
            self.last.push((STATE_PAST, call, WRITTEN));
        }
    }

    fn dump(&mut self, cells: &[u16], answer: &Answer) {
        let mut names = Vec::new();
        if cells.len() != CELLS {
            names.push(NO_IMAGE[0]);
        } else {
            let count = usize::from(cells[COUNT]).min(PLACES);
            for (k, field) in [STATE, LATCHES, CLASS].into_iter().enumerate() {
                for (past, places) in [(0, 0..count), (1, count..PLACES)] {
                    if any_odd(cells, field, places) {
                        names.push(NO_IMAGE[1 + 2 * k + past]);
                    }
                }
            }
        }
        let image = matches!(answer, Answer::Image(_));
        match (&names[..], image) {
            ([name], false) => *self.dumps.entry(*name).or_default() += 1,
            ([], true) if (0..CELLS).any(|cell| reserved(cell) && cells[cell] != 0) => {
                *self.dumps.entry("image").or_default() += 1;
            }
            _ => {}
        }
    }

    /// Sets of which every member has to be met.
    pub fn sets(&self) -> Vec<(String, usize, usize)> {
        let listed = port_faults();
        let met = |kind: usize| {
            let of = |f: &&(usize, u16, &str)| listed.contains(&(f.0, f.1));
            self.ports[kind].iter().filter(of).count()
        };
        let ports = CALLS.len() * listed.len();
        let numbers = self.numbers.iter().filter(|f| NUMBERS.contains(&f.0)).count();
        vec![
            (
                "0, 1, 727, 729 and 1,024 cells, by call: 13".to_string(),
                ALL.len() * NUMBERS.len(),
                numbers,
            ),
            (
                "one fault, in the count or the supply, by call: 13".to_string(),
                CALLS.len() * HEAD_FAULTS.len(),
                self.head.len(),
            ),
            ("one fault, in a port below the last, by call: 13".to_string(), ports, met(0)),
            ("one fault, in the last port, by call: 13".to_string(), ports, met(1)),
            ("faults in the place at the count, by call: taken".to_string(), ports, met(2)),
            ("faults past the place at the count, by call: taken".to_string(), ports, met(3)),
        ]
    }

    pub fn table(&self, text: &mut String) {
        let _ = write!(text, "\n| Held cells | Call | Answer | Lines | Shown next |\n");
        let _ = writeln!(text, "|---|---|---|---|---|");
        for (name, calls, answer) in ROWS {
            for &call in calls {
                let count = |of: &BTreeMap<Fact, u64>| {
                    of.get(&(name, call, answer)).copied().unwrap_or_default()
                };
                let (lines, shown) = (count(&self.facts), count(&self.shown));
                let _ = writeln!(text, "| {name} | {call} | {answer} | {lines} | {shown} |");
            }
        }
        let _ = write!(text, "\n| A dump of, alone | Answer | Lines |\n|---|---|---|\n");
        for name in NO_IMAGE {
            let count = self.dumps.get(name).unwrap_or(&0);
            let _ = writeln!(text, "| {name} | bad image | {count} |");
        }
        let count = self.dumps.get("image").unwrap_or(&0);
        let _ = writeln!(text, "| reserved cells not 0 | image | {count} |");
    }
}
