//! Corners that a script should meet: two rules at once, one short of a limit, a
//! counter that stands at 2,000, and what the ranking sheds.

use crate::port::{Port, State, State::*, LIMITED, NO_LOAD, OVER, POWER_ON};
use crate::reading::{Failure, Sample, Signature};
use crate::table::{Exit, Table};

const SMALLER: &str = "a smaller claim below the first that does not fit";
const CLOSED_BEFORE_ASKING: &str = "a closed port that does not fit, askers below it";
const LOWER_NUMBER_SHED: &str = "the first that does not fit, a lower port number below it";
const EQUAL_RANK: &str = "the first that does not fit, its equal in priority below it";
const FIRST_SHED: &str = "48 ports, the supply one short of all claims, port 0 shed alone";
const LAST_SHED: &str = "48 ports, the supply one short of all claims, port 47 shed alone";
pub const SHARING_CORNERS: [&str; 6] =
    [SMALLER, CLOSED_BEFORE_ASKING, LOWER_NUMBER_SHED, EQUAL_RANK, FIRST_SHED, LAST_SHED];

/// Corners of the sharing, which need more than one port.
pub fn sharing_corners(
    before: &Table,
    figure: u64,
    block: &[u8],
    exits: &[Exit],
) -> Vec<&'static str> {
    let ranking = before.ranking(&before.moves(block));
    let shed = |port: usize| exits[port].rule.ends_with("shed");
    // "The first that doesn't fit".
    let Some(k) = ranking.iter().position(|claim| shed(claim.port)) else {
        return Vec::new();
    };
    let (first, below) = (&ranking[k], &ranking[k + 1..]);
    let all: u64 = ranking.iter().map(|claim| u64::from(claim.demand)).sum();
    let one_short = before.count == 48 && all == figure + 1 && below.is_empty();
    let meets = [
        (FIRST_SHED, one_short && first.port == 0),
        (LAST_SHED, one_short && first.port == 47),
        (SMALLER, below.iter().any(|c| c.demand < first.demand)),
        (CLOSED_BEFORE_ASKING, first.group == 0 && below.iter().any(|c| c.group == 1)),
        (LOWER_NUMBER_SHED, below.iter().any(|c| c.port < first.port)),
        (EQUAL_RANK, below.first().is_some_and(|c| c.priority == first.priority)),
    ];
    meets.into_iter().filter(|(_, holds)| *holds).map(|(name, _)| name).collect()
}

type Meets = fn(&Exit, &Port, &Sample) -> bool;

fn next(port: &Port, counter: usize) -> u16 {
    port.counters[counter] + 1
}

fn by(exit: &Exit, from: State, rule: &str) -> bool {
    exit.from == from && exit.rule == rule
}

/// Two rules at once, one short of a limit, and the stop at 2,000.
pub const CORNERS: [(&str, Meets); 34] = [
    ("DETECTING at 500 with a valid signature", |e, _, s| {
        by(e, Detecting, "at 500") && s.has(1) && s.signature() == Signature::Valid
    }),
    ("DETECTING at 499 with a valid signature", |e, b, _| {
        by(e, Detecting, "valid") && next(b, 0) == 499
    }),
    ("DETECTING at 499, detection not done", |e, b, _| {
        by(e, Detecting, "stays") && next(b, 0) == 499
    }),
    ("BACKOFF at 1,999", |e, b, _| by(e, Backoff, "stays") && next(b, 1) == 1_999),
    ("ERROR_DELAY at 749", |e, b, _| by(e, ErrorDelay, "stays") && next(b, 2) == 749),
    ("BACKOFF, ERROR_DELAY or TEST_ERROR with enable 10", |e, b, _| {
        matches!(e.from, Backoff | ErrorDelay | TestError) && b.enable() == 2
    }),
    ("CLASSIFYING at 400 with a class", |e, _, s| {
        by(e, Classifying, "at 400") && s.has(2) && s.class().is_ok()
    }),
    ("CLASSIFYING at 400 with a first current above 45,000", |e, _, s| {
        by(e, Classifying, "at 400") && s.has(2) && s.class() == Err(Failure::OverCurrent)
    }),
    ("CLASSIFYING at 400 with events that disagree", |e, _, s| {
        by(e, Classifying, "at 400") && s.has(2) && s.class() == Err(Failure::Disagree)
    }),
    ("CLASSIFYING at 399, over current", |e, b, _| {
        by(e, Classifying, "over current") && next(b, POWER_ON) == 399
    }),
    ("CLASSIFYING at 399, events disagree", |e, b, _| {
        by(e, Classifying, "events disagree") && next(b, POWER_ON) == 399
    }),
    ("CLASSIFYING, 45,001 and then class 4", |e, _, s| {
        by(e, Classifying, "over current")
            && s.class_currents[0] == 45_001
            && (31_001..=45_000).contains(&s.class_currents[1])
    }),
    ("CLASSIFYING, class 4 and then 45,001", |e, _, s| {
        by(e, Classifying, "events disagree") && s.class_currents[1] == 45_001
    }),
    ("CLASSIFYING, class 4 and then 31,000", |e, _, s| {
        by(e, Classifying, "events disagree") && s.class_currents[1] == 31_000
    }),
    ("CLASSIFYING, 31,000 and then 45,001, asking", |e, _, s| {
        e.from == Classifying && e.rule.starts_with("asks") && s.class_currents == [31_000, 45_001]
    }),
    ("CLASSIFYING at 399, asking", |e, b, _| {
        e.from == Classifying && e.rule.starts_with("asks") && next(b, POWER_ON) == 399
    }),
    ("POWER_UP at 400, settled", |e, _, s| by(e, PowerUp, "at 400") && s.has(4)),
    ("POWER_UP at 399, settled", |e, b, _| by(e, PowerUp, "settled") && next(b, POWER_ON) == 399),
    ("POWER_UP at 400 with 60 of limiting", |e, b, _| {
        by(e, PowerUp, "60 of limiting") && next(b, POWER_ON) >= 400
    }),
    ("POWER_UP at 400 with 60 of overload", |e, b, _| {
        by(e, PowerUp, "60 of overload") && next(b, POWER_ON) >= 400
    }),
    ("POWER_UP with both at 60", |e, b, s| {
        by(e, PowerUp, "60 of limiting") && s.has(16) && next(b, OVER) >= 60
    }),
    ("POWER_ON with both at 60", |e, b, s| {
        by(e, PowerOn, "60 of limiting") && s.has(16) && next(b, OVER) >= 60
    }),
    ("TEST_MODE with both at 60", |e, b, s| {
        by(e, TestMode, "60 of limiting") && s.has(16) && next(b, OVER) >= 60
    }),
    ("POWER_ON at 320 without load with 60 of limiting or overload", |e, b, s| {
        e.from == PowerOn && e.to == ErrorDelay && !s.has(32) && next(b, NO_LOAD) >= 320
    }),
    ("POWER_UP or POWER_ON with limiting at 59", |e, b, s| {
        matches!(e.from, PowerUp | PowerOn) && at_59(e, b, s, LIMITED, 8)
    }),
    ("POWER_UP or POWER_ON with overload at 59", |e, b, s| {
        matches!(e.from, PowerUp | PowerOn) && at_59(e, b, s, OVER, 16)
    }),
    ("TEST_MODE with limiting at 59", |e, b, s| e.from == TestMode && at_59(e, b, s, LIMITED, 8)),
    ("TEST_MODE with overload at 59", |e, b, s| e.from == TestMode && at_59(e, b, s, OVER, 16)),
    ("POWER_ON with no load at 319", |e, b, s| {
        by(e, PowerOn, "stays") && !s.has(32) && next(b, NO_LOAD) == 319
    }),
    ("TEST_MODE left by enable 01 with 60 of limiting", |e, b, s| {
        by(e, TestMode, "enable not 10") && s.has(8) && next(b, LIMITED) >= 60
    }),
    ("POWER_UP settled and shed in one tick", |e, _, s| by(e, PowerUp, "shed") && s.has(4)),
    ("a counter that runs stands at 2,000", |e, b, _| {
        let running: &[usize] = match e.from {
            Detecting => &[0],
            Backoff => &[1],
            ErrorDelay => &[2],
            Classifying | PowerUp => &[3],
            _ => &[],
        };
        b.enable() == 1 && running.iter().any(|&k| b.counters[k] == 2_000)
    }),
    ("limiting or overload runs and stands at 2,000", |e, b, s| {
        e.from.closed()
            && (s.has(8) && b.counters[4] == 2_000 || s.has(16) && b.counters[5] == 2_000)
    }),
    ("no load runs and stands at 2,000", |e, b, s| {
        e.from == PowerOn && !s.has(32) && b.counters[NO_LOAD] == 2_000
    }),
];

fn at_59(exit: &Exit, before: &Port, sample: &Sample, counter: usize, flag: u16) -> bool {
    exit.to.closed() && sample.has(flag) && next(before, counter) == 59
}
