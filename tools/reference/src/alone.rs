//! What a script should have tried one by one: each flag alone, each word of the
//! six flags in each state, each bit of a control word, each set of latches in a
//! status, each pair of class currents at a limit, a count of 49, bytes that an earlier line left. A move counts here only if a dump shows what it left.

use std::collections::{BTreeMap, BTreeSet};
use std::fmt::Write;

use crate::count::state_name;
use crate::lines::{bytes_of, Answer, Line};
use crate::port::{control_reserved, Port, State, STATES};
use crate::reading::{Sample, CLASS_DONE, LOAD_PRESENT, RESERVED_FLAGS, SAMPLE_BYTES};
use crate::table::Table;
use crate::tlv::HIGHEST_VALUE;

const FLAGS: [&str; 6] =
    ["detection done", "class done", "settled", "limiting", "overload", "load present"];

/// A count of 49 with every place well-made, and a supply that is a control word.
const CALLS_AT_49: [&str; 5] =
    ["tick, 48 samples", "tick, 49 samples", "status", "control", "request"];

/// On both sides of each limit of a power value: of document 01's 255, and of
/// request [4]'s 999.
pub const LIMIT_VALUES: [u64; 7] = [0, 1, 255, 256, 999, 1_000, 65_535];

/// On both sides of the limits that a class failure hangs on, and the ends.
pub const CLASS_EDGES: [u16; 6] = [0, 31_000, 31_001, 45_000, 45_001, 65_535];

/// Where a value is tried alone: nothing else of the line could be refused.
const VALUE_PLACES: [&str; 6] = [
    "requested, of a TLV that is read",
    "allocated, of a TLV that is read",
    "requested, of a TLV that is written",
    "allocated, of a TLV that is written",
    "asked for by a port in POWER_ON",
    "asked for by a port in another state",
];

const LEFT_IMAGE: &str = "table accepted, the bytes that an earlier line left past it no port";
const LEFT_FLAGS: &str = "tick accepted, the bytes that an earlier line left past it reserved";

#[derive(Default)]
pub struct Alone {
    /// The flag's bit, whether in another port than 0.
    flags: BTreeMap<(u32, bool), u64>,
    /// Moves of the last tick: kept if a dump comes next.
    open: Vec<(State, Sample)>,
    words: BTreeMap<(State, u16), u64>,
    control_words: BTreeSet<u64>,
    control_bits: BTreeSet<u32>,
    requests: BTreeSet<(u8, u64)>,
    /// Where a value stood alone, and the value.
    values: BTreeSet<(&'static str, u64)>,
    status_words: BTreeSet<u16>,
    /// Pairs of class currents: of a class line, and of a tick in CLASSIFYING.
    class_lines: BTreeSet<[u16; 2]>,
    class_moves: BTreeSet<[u16; 2]>,
    /// Of the only port, where nothing else of it could be refused.
    demands: BTreeSet<u16>,
    at_49: BTreeMap<&'static str, u64>,
    left_over: BTreeMap<&'static str, u64>,
    /// What the HEX of all lines so far would leave in one long buffer.
    left: Vec<u8>,
}

fn at_edges(pairs: &BTreeSet<[u16; 2]>) -> usize {
    pairs.iter().filter(|pair| pair.iter().all(|c| CLASS_EDGES.contains(c))).count()
}

impl Alone {
    fn latch_sets(&self) -> usize {
        self.status_words.iter().map(|word| word >> 7).collect::<BTreeSet<_>>().len()
    }

    fn latches_by_rest(&self) -> usize {
        let parts = |word: u16| (7..15).map(move |bit| (bit, word >> bit & 1, word & 0x7F));
        self.status_words.iter().flat_map(|&word| parts(word)).collect::<BTreeSet<_>>().len()
    }

    pub fn line(&mut self, before: &Table, line: &Line, answer: &Answer) {
        let open = std::mem::take(&mut self.open);
        match (line, answer) {
            (Line::Dump, Answer::Image(_)) => {
                for (state, sample) in open {
                    *self.words.entry((state, sample.flags)).or_default() += 1;
                    if state == State::Classifying && sample.has(CLASS_DONE) {
                        self.class_moves.insert(sample.class_currents);
                    }
                }
            }
            (Line::Tick(_, block), Answer::Ticked(_)) => self.accepted(before, block),
            (Line::Tick(_, block), Answer::Refused(3)) => self.refused(block),
            (Line::Control(port, word), Answer::Ok | Answer::Refused(3)) => {
                self.control(&before.ports[*port as usize], *word);
            }
            (Line::Request(port, value), Answer::Ok | Answer::Refused(11 | 12)) => {
                self.requests.insert((before.ports[*port as usize].class, *value));
                self.values.insert((VALUE_PLACES[4], *value));
            }
            (Line::Request(port, value), Answer::Refused(10 | 5)) => {
                let on = before.ports[*port as usize].state == State::PowerOn;
                self.values.insert((VALUE_PLACES[if on { 4 } else { 5 }], *value));
            }
            (Line::Read(bytes), Answer::Fields(_) | Answer::Refused(10)) if bytes.len() == 14 => {
                let value = |at| u64::from(u16::from_be_bytes([bytes[at], bytes[at + 1]]));
                self.values(0, value(10), value(12));
            }
            (Line::Write(_, fields), Answer::Wrote(_) | Answer::Refused(10)) => {
                if let Some(e) = fields.extension {
                    self.values(2, e.requested, e.allocated);
                }
            }
            (Line::Class(c1, c2), _) => {
                self.class_lines.insert([*c1, *c2]);
            }
            (Line::Status(0), Answer::Refused(13)) => self.demand(before),
            (Line::Status(_), Answer::Status(word)) => {
                self.status_words.insert(*word);
                self.demand(before);
            }
            _ => {}
        }
        self.count_of_49(before, line);
        self.leftovers(line, answer);
    }

    /// A value counts where the other one would not be refused.
    fn values(&mut self, place: usize, requested: u64, allocated: u64) {
        if allocated <= HIGHEST_VALUE {
            self.values.insert((VALUE_PLACES[place], requested));
        }
        if requested <= HIGHEST_VALUE {
            self.values.insert((VALUE_PLACES[place + 1], allocated));
        }
    }

    fn accepted(&mut self, before: &Table, block: &[u8]) {
        for p in 0..usize::from(before.count) {
            let sample = Sample::of_port(block, p);
            let flags = sample.flags;
            self.open.push((before.ports[p].state, sample));
            if flags.is_power_of_two() {
                *self.flags.entry((flags.trailing_zeros(), p > 0)).or_default() += 1;
            }
        }
    }

    /// The only reserved flag of the block, and the only flag of its port.
    fn refused(&mut self, block: &[u8]) {
        let words = (0..block.len() / SAMPLE_BYTES).map(|p| (p, Sample::of_port(block, p).flags));
        let bad: Vec<_> = words.filter(|(_, flags)| flags & RESERVED_FLAGS != 0).collect();
        if let [(p, flags)] = bad[..] {
            if flags.is_power_of_two() {
                *self.flags.entry((flags.trailing_zeros(), p > 0)).or_default() += 1;
            }
        }
    }

    fn control(&mut self, port: &Port, word: u64) {
        if word < 64 && port.state == State::Disabled {
            self.control_words.insert(word);
        }
        let above = word >> 6;
        if above.is_power_of_two() && !control_reserved(word % 64) {
            self.control_bits.insert(6 + above.trailing_zeros());
        }
    }

    fn demand(&mut self, before: &Table) {
        let port = before.ports[0];
        let fine = before.supply <= 60_000 && !Port { demand: 0, ..port }.ill_made();
        if before.count == 1 && fine {
            self.demands.insert(port.demand);
        }
    }

    fn count_of_49(&mut self, before: &Table, line: &Line) {
        let fooled = before.count == 49
            && !control_reserved(u64::from(before.supply))
            && !before.ports.iter().any(Port::ill_made);
        let call = match line {
            Line::Tick(_, block) if block.len() == 48 * SAMPLE_BYTES => CALLS_AT_49[0],
            Line::Tick(_, block) if block.len() == 49 * SAMPLE_BYTES => CALLS_AT_49[1],
            Line::Status(_) => CALLS_AT_49[2],
            Line::Control(..) => CALLS_AT_49[3],
            Line::Request(..) => CALLS_AT_49[4],
            _ => return,
        };
        *self.at_49.entry(call).or_default() += u64::from(fooled);
    }

    fn leftovers(&mut self, line: &Line, answer: &Answer) {
        let bytes = match line {
            Line::Table(bytes) | Line::Tick(_, bytes) | Line::Search(bytes) | Line::Read(bytes) => {
                bytes
            }
            Line::Cells(cells) => &bytes_of(cells),
            _ => return,
        };
        let past = |k: usize| self.left.get(bytes.len() + k).copied().unwrap_or(0);
        let name = match answer {
            Answer::Ok if matches!(line, Line::Table(_)) && past(0) > 9 => LEFT_IMAGE,
            Answer::Ticked(_) if past(12) > 0 || past(13) > 63 => LEFT_FLAGS,
            _ => "",
        };
        *self.left_over.entry(name).or_default() += 1;
        let kept = self.left.len().max(bytes.len());
        self.left.resize(kept, 0);
        self.left[..bytes.len()].copy_from_slice(bytes);
    }

    /// The tables; `sets` come beside those of this file.
    pub fn tables(&self, text: &mut String, sets: &[(String, usize, usize)]) {
        self.flag_table(text);
        let _ = write!(text, "\n| Alone in POWER_ON, then a dump | Moves |\n|---|---|\n");
        for (bit, name) in FLAGS.iter().enumerate() {
            let count = self.words.get(&(State::PowerOn, 1 << bit)).unwrap_or(&0);
            let _ = writeln!(text, "| {name} | {count} |");
        }
        let _ = write!(text, "\n| One by one | Of | Met |\n|---|---|---|\n");
        for (name, all, met) in self.sets().iter().chain(sets) {
            let _ = writeln!(text, "| {name} | {all} | {met} |");
        }
        let _ = write!(text, "\n| A count of 49, the supply a control word | Lines |\n|---|---|\n");
        for call in CALLS_AT_49 {
            let _ = writeln!(text, "| {call} | {} |", self.at_49.get(call).unwrap_or(&0));
        }
        let _ = write!(text, "\n| Left over | Lines |\n|---|---|\n");
        for name in [LEFT_IMAGE, LEFT_FLAGS] {
            let _ = writeln!(text, "| {name} | {} |", self.left_over.get(name).unwrap_or(&0));
        }
    }

    fn flag_table(&self, text: &mut String) {
        let _ = write!(text, "\n| A port's only flag | In | Answer | Lines |\n|---|---|---|---|\n");
        for bit in 0..16 {
            for (other, place) in [(false, "port 0"), (true, "another port")] {
                let accepted = 1u16 << bit & RESERVED_FLAGS == 0;
                let answer = if accepted { "ticked" } else { "refused 3, no other reserved" };
                let count = self.flags.get(&(bit, other)).unwrap_or(&0);
                let _ = writeln!(text, "| {bit} | {place} | {answer} | {count} |");
            }
        }
    }

    /// Sets of which every member has to be met: their name, how many there are
    /// and how many were met.
    fn sets(&self) -> Vec<(String, usize, usize)> {
        let mut sets = Vec::new();
        for state in STATES {
            let met = self.words.keys().filter(|word| word.0 == state).count();
            let name = format!("words of the six flags in {}, then a dump", state_name(state));
            sets.push((name, 2 * usize::from(LOAD_PRESENT), met));
        }
        for place in VALUE_PLACES {
            let met = LIMIT_VALUES.iter().filter(|&&v| self.values.contains(&(place, v))).count();
            sets.push((format!("values at a limit, {place}"), LIMIT_VALUES.len(), met));
        }
        let edges = [1, 38, 39, 64, 65, 129, 130, 255, 256, 999];
        let near = self.requests.iter().filter(|request| edges.contains(&request.1)).count();
        let low = self.demands.range(..64).count();
        let bits = "bits 6 to 63 alone beside a right control word";
        sets.extend([
            ("control words below 64 in DISABLED".into(), 64, self.control_words.len()),
            (bits.into(), 58, self.control_bits.len()),
            ("sets of latches in a status".into(), 256, self.latch_sets()),
            (
                "each latch set and clear in a status, by class by condition".into(),
                2 * 8 * 5 * 5,
                self.latches_by_rest(),
            ),
            (
                "pairs of class currents at a limit, of a class line".into(),
                CLASS_EDGES.len().pow(2),
                at_edges(&self.class_lines),
            ),
            (
                "pairs of class currents at a limit, of a tick in CLASSIFYING, then a dump".into(),
                CLASS_EDGES.len().pow(2),
                at_edges(&self.class_moves),
            ),
            ("demands below 64, the only port's".into(), 64, low),
            ("values at a step of the request, by class".into(), 5 * edges.len(), near),
        ]);
        sets
    }
}
