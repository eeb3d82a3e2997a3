//! `reference count`: how often a script meets each state, exit, latch, refusal
//! and corner, as tables of Markdown. An exit or a corner counts as shown if a dump
//! or a show comes next.

use std::collections::BTreeMap;
use std::fmt::Write;

use crate::alone::Alone;
use crate::cells::seen;
use crate::corners::{sharing_corners, CORNERS, SHARING_CORNERS};
use crate::lent::Lent;
use crate::lines::{parsed, Answer, Console, Line};
use crate::port::{Port, State, State::*, STATES};
use crate::reading::Sample;
use crate::reasons::{reasons, ORDERS};
use crate::table::Exit;

/// Every way a port can leave a tick.
pub const EXITS: [(State, State, &str); 53] = [
    (Disabled, Disabled, "enable 00"),
    (Disabled, Idle, "enabled"),
    (Idle, Disabled, "enable 00"),
    (Idle, Detecting, "enable 01"),
    (Idle, TestMode, "asks and is kept"),
    (Idle, Idle, "asks and is shed"),
    (Detecting, Disabled, "enable 00"),
    (Detecting, Idle, "enable 10"),
    (Detecting, Idle, "at 500"),
    (Detecting, Classifying, "valid"),
    (Detecting, Idle, "invalid on A"),
    (Detecting, Backoff, "invalid on B"),
    (Detecting, Idle, "open on A"),
    (Detecting, Idle, "open on B"),
    (Detecting, Detecting, "stays"),
    (Backoff, Disabled, "enable 00"),
    (Backoff, Idle, "at 2,000"),
    (Backoff, Backoff, "stays"),
    (ErrorDelay, Disabled, "enable 00"),
    (ErrorDelay, Idle, "at 750"),
    (ErrorDelay, ErrorDelay, "stays"),
    (Classifying, Disabled, "enable 00"),
    (Classifying, Idle, "enable 10"),
    (Classifying, Idle, "at 400"),
    (Classifying, Idle, "over current"),
    (Classifying, Idle, "events disagree"),
    (Classifying, PowerUp, "asks and is kept"),
    (Classifying, Idle, "asks and is shed"),
    (Classifying, Classifying, "stays"),
    (PowerUp, Disabled, "enable 00"),
    (PowerUp, Idle, "enable 10"),
    (PowerUp, ErrorDelay, "60 of limiting"),
    (PowerUp, ErrorDelay, "60 of overload"),
    (PowerUp, Idle, "at 400"),
    (PowerUp, PowerOn, "settled"),
    (PowerUp, Idle, "shed"),
    (PowerUp, PowerUp, "stays"),
    (PowerOn, Disabled, "enable 00"),
    (PowerOn, Idle, "enable 10"),
    (PowerOn, ErrorDelay, "60 of limiting"),
    (PowerOn, ErrorDelay, "60 of overload"),
    (PowerOn, Idle, "320 without load"),
    (PowerOn, Idle, "shed"),
    (PowerOn, PowerOn, "stays"),
    (TestMode, Disabled, "enable 00"),
    (TestMode, Idle, "enable not 10"),
    (TestMode, TestError, "60 of limiting"),
    (TestMode, TestError, "60 of overload"),
    (TestMode, TestError, "shed"),
    (TestMode, TestMode, "stays"),
    (TestError, Disabled, "enable 00"),
    (TestError, Idle, "enable not 10"),
    (TestError, TestError, "stays"),
];

/// Latches by their bit in the image, then in the status word.
const LATCHES: [&str; 8] = [
    "7 load absent",
    "8 overload",
    "9 short circuit",
    "10 invalid signature",
    "11 valid signature",
    "12 denied",
    "13 class over current",
    "14 events disagree",
];

/// "Order of checks".
const REFUSALS: [(&str, &[u8]); 9] = [
    ("cold", &[13, 2]),
    ("control", &[13, 2, 3, 5]),
    ("status", &[13, 2]),
    ("request", &[13, 2, 10, 5, 11, 12]),
    ("tick", &[13, 1, 4, 3]),
    ("search", &[1, 6, 8, 7]),
    ("read", &[6, 9, 10]),
    ("write7", &[1]),
    ("write12", &[3, 10, 1]),
];

const TABLE_CALLS: [&str; 5] = ["cold", "control", "status", "request", "tick"];

pub fn state_name(state: State) -> &'static str {
    match state {
        Disabled => "DISABLED",
        Idle => "IDLE",
        Detecting => "DETECTING",
        Backoff => "BACKOFF",
        Classifying => "CLASSIFYING",
        PowerUp => "POWER_UP",
        PowerOn => "POWER_ON",
        ErrorDelay => "ERROR_DELAY",
        TestMode => "TEST_MODE",
        TestError => "TEST_ERROR",
    }
}

pub fn call_name(line: &Line) -> &'static str {
    match line {
        Line::Cold(_) => "cold",
        Line::Table(_) => "table",
        Line::Dump => "dump",
        Line::Cells(_) => "cells",
        Line::Show => "show",
        Line::Control(..) => "control",
        Line::Request(..) => "request",
        Line::Status(_) => "status",
        Line::Tick(..) => "tick",
        Line::Search(_) => "search",
        Line::Read(_) => "read",
        Line::Write(_, fields) if fields.extension.is_none() => "write7",
        Line::Write(..) => "write12",
        Line::Signature(_) => "signature",
        Line::Class(..) => "class",
    }
}

#[derive(Default)]
struct Counts {
    lines: u64,
    states: BTreeMap<State, u64>,
    exits: BTreeMap<(State, State, &'static str), u64>,
    /// The exits and corners of the last line, if that was a tick.
    last_exits: Vec<(State, State, &'static str)>,
    last_corners: Vec<&'static str>,
    shown_exits: BTreeMap<(State, State, &'static str), u64>,
    shown_corners: BTreeMap<&'static str, u64>,
    /// The last line's call and answer, and those that are shown.
    last_call: Option<(&'static str, String)>,
    shown_calls: BTreeMap<(&'static str, String), u64>,
    latches: [u64; 8],
    refusals: BTreeMap<(&'static str, u8), u64>,
    answers: BTreeMap<(&'static str, String), u64>,
    orders: BTreeMap<(&'static str, u8, u8), u64>,
    corners: BTreeMap<&'static str, u64>,
    alone: Alone,
    lent: Lent,
}

/// The tables for a script.
pub fn counted(script: &[u8]) -> String {
    let mut counts = Counts::default();
    let mut console = Console::new();
    for line in script.split_inclusive(|&byte| byte == b'\n') {
        counts.line(&mut console, line.strip_suffix(b"\n").unwrap_or(line));
    }
    counts.tables()
}

impl Counts {
    fn line(&mut self, console: &mut Console, line: &[u8]) {
        self.lines += 1;
        let cells = console.cells.clone();
        let before = seen(&cells);
        let answer = console.answer(line);
        let parsed = parsed(line);
        let call = parsed.as_ref().map_or("(no call)", call_name);
        match &answer {
            Answer::Refused(number) => *self.refusals.entry((call, *number)).or_default() += 1,
            other => *self.answers.entry((call, answer_kind(other))).or_default() += 1,
        }
        self.shown(matches!(answer, Answer::Image(_) | Answer::Cells(_)));
        if let Some(line) = &parsed {
            self.order(call, &reasons(&cells, line));
            self.alone.line(&before, line, &answer);
        }
        self.lent.line(&cells, parsed.as_ref(), &answer, &console.cells);
        self.last_call = Some((call, answer_kind(&answer)));
        if let (Some(Line::Tick(figure, block)), Answer::Ticked(ticked)) = (&parsed, &answer) {
            for (p, exit) in ticked.exits.iter().enumerate() {
                self.exit(exit, &before.ports[p], &Sample::of_port(block, p));
            }
            for name in sharing_corners(&before, *figure, block, &ticked.exits) {
                self.corner(name);
            }
        }
    }

    fn corner(&mut self, name: &'static str) {
        *self.corners.entry(name).or_default() += 1;
        self.last_corners.push(name);
    }

    /// What the last tick met is shown by a dump or a show, or past.
    fn shown(&mut self, shown: bool) {
        let (exits, corners) =
            (std::mem::take(&mut self.last_exits), std::mem::take(&mut self.last_corners));
        for exit in exits.into_iter().filter(|_| shown) {
            *self.shown_exits.entry(exit).or_default() += 1;
        }
        for name in corners.into_iter().filter(|_| shown) {
            *self.shown_corners.entry(name).or_default() += 1;
        }
        for call in self.last_call.take().into_iter().filter(|_| shown) {
            *self.shown_calls.entry(call).or_default() += 1;
        }
    }

    /// Every two refusals that hold at once.
    fn order(&mut self, call: &'static str, numbers: &[u8]) {
        for (k, first) in numbers.iter().enumerate() {
            for second in &numbers[k + 1..] {
                *self.orders.entry((call, *first, *second)).or_default() += 1;
            }
        }
    }

    fn exit(&mut self, exit: &Exit, before: &Port, sample: &Sample) {
        *self.states.entry(exit.to).or_default() += 1;
        *self.exits.entry((exit.from, exit.to, exit.rule)).or_default() += 1;
        self.last_exits.push((exit.from, exit.to, exit.rule));
        for (bit, count) in self.latches.iter_mut().enumerate() {
            *count += u64::from(exit.latched >> bit & 1);
        }
        for (name, meets) in CORNERS {
            if meets(exit, before, sample) {
                self.corner(name);
            }
        }
    }

    fn tables(&self) -> String {
        let mut text = format!("{} lines.\n", self.lines);
        self.states_and_latches(&mut text);
        self.exit_table(&mut text);
        self.shed_table(&mut text);
        let _ = write!(text, "\n| Call | Refusal | Lines |\n|---|---|---|\n");
        for (call, numbers) in REFUSALS {
            for number in numbers {
                let count = self.refusals.get(&(call, *number)).unwrap_or(&0);
                let _ = writeln!(text, "| {call} | {number} | {count} |");
            }
        }
        self.shown_table(&mut text);
        let _ = write!(text, "\n| Call | Other answer | Lines |\n|---|---|---|\n");
        for ((call, answer), count) in &self.answers {
            let _ = writeln!(text, "| {call} | {answer} | {count} |");
        }
        let _ = write!(text, "\n| Call | Refusal | Holds too | Lines |\n|---|---|---|---|\n");
        for order in ORDERS {
            let count = self.orders.get(&order).unwrap_or(&0);
            let _ = writeln!(text, "| {} | {} | {} | {count} |", order.0, order.1, order.2);
        }
        let _ = write!(text, "\n| Corner | Moves | Shown next |\n|---|---|---|\n");
        let names = CORNERS.iter().map(|(name, _)| *name).chain(SHARING_CORNERS);
        for name in names {
            let count = self.corners.get(name).unwrap_or(&0);
            let shown = self.shown_corners.get(name).unwrap_or(&0);
            let _ = writeln!(text, "| {name} | {count} | {shown} |");
        }
        self.alone.tables(&mut text, &self.lent.sets());
        self.lent.table(&mut text);
        text
    }

    /// The calls on a table: what each answer left, as the next line shows it.
    fn shown_table(&self, text: &mut String) {
        let _ = write!(text, "\n| Call | Answer | Shown next |\n|---|---|---|\n");
        let calls = REFUSALS.iter().filter(|(call, _)| TABLE_CALLS.contains(call));
        for (call, numbers) in calls {
            let refused = numbers.iter().map(|number| format!("refused {number}"));
            let accepted = match *call {
                "status" => "status",
                "tick" => "ticked",
                _ => "ok",
            };
            for answer in refused.chain([accepted.to_string()]) {
                let count = self.shown_calls.get(&(*call, answer.clone())).unwrap_or(&0);
                let _ = writeln!(text, "| {call} | {answer} | {count} |");
            }
        }
    }

    fn states_and_latches(&self, text: &mut String) {
        let _ = write!(text, "\n| State after a tick | Ports |\n|---|---|\n");
        for state in STATES {
            let count = self.states.get(&state).unwrap_or(&0);
            let _ = writeln!(text, "| {} | {count} |", state_name(state));
        }
        let _ = write!(text, "\n| Latch | Latched |\n|---|---|\n");
        for (bit, name) in LATCHES.iter().enumerate().rev() {
            let _ = writeln!(text, "| {name} | {} |", self.latches[bit]);
        }
    }

    fn exit_table(&self, text: &mut String) {
        let _ =
            write!(text, "\n| From | To | Rule | Moves | Shown next |\n|---|---|---|---|---|\n");
        for exit in &EXITS {
            let count = self.exits.get(exit).unwrap_or(&0);
            let shown = self.shown_exits.get(exit).unwrap_or(&0);
            let (from, to) = (state_name(exit.0), state_name(exit.1));
            let _ = writeln!(text, "| {from} | {to} | {} | {count} | {shown} |", exit.2);
        }
        for (exit, count) in &self.exits {
            if !EXITS.contains(exit) {
                let _ = writeln!(text, "| NOT LISTED: {exit:?} | | | {count} | 0 |");
            }
        }
    }

    fn shed_table(&self, text: &mut String) {
        let count = |exit| self.exits.get(&exit).copied().unwrap_or(0);
        let cases = [
            ("closed, shed from POWER_UP", count((PowerUp, Idle, "shed"))),
            ("closed, shed from POWER_ON", count((PowerOn, Idle, "shed"))),
            ("closed, shed from TEST_MODE", count((TestMode, TestError, "shed"))),
            ("asking, shed from CLASSIFYING", count((Classifying, Idle, "asks and is shed"))),
            ("asking, shed from IDLE", count((Idle, Idle, "asks and is shed"))),
        ];
        let _ = write!(text, "\n| Shed case | Ports |\n|---|---|\n");
        for (name, count) in cases {
            let _ = writeln!(text, "| {name} | {count} |");
        }
    }
}

fn answer_kind(answer: &Answer) -> String {
    match answer {
        Answer::Image(_) => "image".to_string(),
        Answer::Cells(_) => "cells".to_string(),
        Answer::Status(_) => "status".to_string(),
        Answer::Ticked(_) => "ticked".to_string(),
        Answer::Found(..) => "found".to_string(),
        Answer::Fields(_) => "fields".to_string(),
        Answer::Wrote(_) => "wrote".to_string(),
        other => other.to_string(),
    }
}
