//! One port: its words and its move in one tick (document 01, "Words on the
//! management side" and "The port's move in one tick").

use crate::reading::{
    Failure, Sample, Signature, BUDGETS, CLASS_DONE, DETECTION_DONE, LIMITING, LOAD_PRESENT,
    OVERLOAD, SETTLED,
};

#[derive(Clone, Copy, PartialEq, Eq, PartialOrd, Ord, Debug)]
pub enum State {
    Disabled,
    Idle,
    Detecting,
    Backoff,
    Classifying,
    PowerUp,
    PowerOn,
    ErrorDelay,
    TestMode,
    TestError,
}

use State::*;

/// In the order of the codes of the table image.
pub const STATES: [State; 10] = [
    Disabled,
    Idle,
    Detecting,
    Backoff,
    Classifying,
    PowerUp,
    PowerOn,
    ErrorDelay,
    TestMode,
    TestError,
];

impl State {
    /// "A port is closed exactly in POWER_UP, POWER_ON and TEST_MODE."
    pub fn closed(self) -> bool {
        matches!(self, PowerUp | PowerOn | TestMode)
    }

    /// "Condition: 0 in DISABLED, 1 in IDLE, DETECTING, BACKOFF, CLASSIFYING,
    /// 2 in POWER_UP, POWER_ON, 3 in TEST_MODE, 4 in ERROR_DELAY, TEST_ERROR."
    pub fn condition(self) -> u16 {
        match self {
            Disabled => 0,
            Idle | Detecting | Backoff | Classifying => 1,
            PowerUp | PowerOn => 2,
            TestMode => 3,
            ErrorDelay | TestError => 4,
        }
    }
}

// Latches, placed as in the table image; the status word has them 7 places
// higher ("latches 12 denied, 11 valid signature, 10 invalid signature,
// 9 short circuit, 8 overload, 7 load absent"; request [7]: "Status bit 13
// latches "class over current" and bit 14 "events disagree"").
pub const DISAGREE: u8 = 1 << 7;
pub const OVER_CURRENT: u8 = 1 << 6;
pub const DENIED: u8 = 1 << 5;
pub const VALID: u8 = 1 << 4;
pub const INVALID: u8 = 1 << 3;
pub const SHORT: u8 = 1 << 2;
pub const OVERLOADED: u8 = 1 << 1;
pub const ABSENT: u8 = 1;

/// Alternative A is pair control 01, alternative B is 10.
pub const ALTERNATIVE_A: u16 = 1;
pub const ALTERNATIVE_B: u16 = 2;

/// "enable 10 asks for TEST_MODE, demand 154".
pub const FORCED_DEMAND: u16 = 154;

/// A port. The counters stand in the image's order: detection, backoff, error
/// delay, power-on, limiting, overload, no load.
#[derive(Clone, Copy, PartialEq, Eq, Debug)]
pub struct Port {
    pub state: State,
    pub control: u16,
    pub class: u8,
    pub demand: u16,
    pub latches: u8,
    pub counters: [u16; 7],
}

pub const DETECTION: usize = 0;
pub const BACKOFF: usize = 1;
pub const ERROR_DELAY: usize = 2;
pub const POWER_ON: usize = 3;
pub const LIMITED: usize = 4;
pub const OVER: usize = 5;
pub const NO_LOAD: usize = 6;

/// "adds one each tick but stops at 2,000".
pub const COUNTER_STOP: u16 = 2_000;

/// The words a control write refuses with 3: "00 disabled, 01 enabled, 10
/// force power, 11 reserved. 3:2 pair control: 01 alternative A, 10
/// alternative B, others reserved here. [..] 15:6 zero."
pub fn control_reserved(word: u64) -> bool {
    let pair = (word >> 2) & 3;
    word & 3 == 3 || pair == 0 || pair == 3 || word >> 6 != 0
}

impl Port {
    /// "A cold start gives every port DISABLED, control 0x0004, no latch, zero
    /// counters, class and demand 0".
    pub const COLD: Port = Port {
        state: Disabled,
        control: 0x0004,
        class: 0,
        demand: 0,
        latches: 0,
        counters: [0; 7],
    };

    /// What the console holds before the first `cold`, `table` or `cells`.
    pub const ZERO: Port = Port { control: 0, ..Port::COLD };

    /// "1:0 enable".
    pub fn enable(&self) -> u16 {
        self.control & 3
    }

    /// "3:2 pair control".
    pub fn alternative(&self) -> u16 {
        (self.control >> 2) & 3
    }

    /// "critical, high, then low and unknown alike": 01, 10, then 11 and 00.
    pub fn priority_rank(&self) -> u8 {
        match (self.control >> 4) & 3 {
            1 => 0,
            2 => 1,
            _ => 2,
        }
    }

    /// Bit 15 zero; the eight latches; "6:4 class; 3:1 condition; bit 0 is 1."
    pub fn status_word(&self) -> u16 {
        u16::from(self.latches) << 7 | u16::from(self.class) << 4 | self.state.condition() << 1 | 1
    }

    /// Refusal 13, the part about one port: "a counter over 2,000, a class
    /// over 4, a control word that a write refuses with 3, or a demand not 0,
    /// 40, 70, 154 or 300".
    pub fn ill_made(&self) -> bool {
        self.counters.iter().any(|&c| c > COUNTER_STOP)
            || self.class > 4
            || control_reserved(u64::from(self.control))
            || ![0, 40, 70, 154, 300].contains(&self.demand)
    }

    fn count(&mut self, counter: usize) -> u16 {
        let now = (self.counters[counter] + 1).min(COUNTER_STOP);
        self.counters[counter] = now;
        now
    }

    /// "consecutive ticks [..] are counted (a tick without sets 0)".
    fn count_if(&mut self, counter: usize, seen: bool) -> u16 {
        if seen {
            self.count(counter)
        } else {
            self.counters[counter] = 0;
            0
        }
    }

    /// The port in its new state, with what that entry sets.
    pub fn entering(mut self, state: State) -> Port {
        self.state = state;
        match state {
            // "Entering IDLE or DISABLED sets demand 0".
            Idle | Disabled => self.demand = 0,
            // "to DETECTING, class set to 0"; "counter from entry".
            Detecting => {
                self.class = 0;
                self.counters[DETECTION] = 0;
            }
            Backoff => self.counters[BACKOFF] = 0,
            ErrorDelay => self.counters[ERROR_DELAY] = 0,
            // "CLASSIFYING (power-on counter from entry)".
            Classifying => self.counters[POWER_ON] = 0,
            // "counted from POWER_UP's entry"; TEST_MODE: "the same two
            // counts, from its own entry".
            PowerUp | TestMode => {
                self.counters[LIMITED] = 0;
                self.counters[OVER] = 0;
            }
            // "ticks without load, counted from its entry".
            PowerOn => self.counters[NO_LOAD] = 0,
            TestError => {}
        }
        self
    }
}

/// What a port's own move says, before the supply is shared.
#[derive(Clone, Copy, PartialEq, Eq, Debug)]
pub struct Move {
    pub port: Port,
    /// The state it asks for, which the sharing grants or not.
    pub asks: Option<State>,
    /// The latches that this move latched.
    pub latched: u8,
    /// The rule that decided, for `reference count`.
    pub rule: &'static str,
}

impl Move {
    fn to(port: Port, state: State, rule: &'static str) -> Move {
        Move::latching(port, state, 0, rule)
    }

    fn latching(port: Port, state: State, latch: u8, rule: &'static str) -> Move {
        let mut port = port.entering(state);
        port.latches |= latch;
        Move { port, asks: None, latched: latch, rule }
    }

    fn stay(port: Port) -> Move {
        Move { port, asks: None, latched: 0, rule: "stays" }
    }

    fn asking(port: Port, state: State) -> Move {
        Move { port, asks: Some(state), latched: 0, rule: "asks" }
    }
}

/// The port's move in one tick.
pub fn moved(port: Port, sample: &Sample) -> Move {
    // "First, in every state: enable 00 goes to DISABLED." This keeps a port
    // in DISABLED too, with demand 0.
    if port.enable() == 0 {
        return Move::to(port, Disabled, "enable 00");
    }
    // "Next, enable 10 sends DETECTING, CLASSIFYING, POWER_UP and POWER_ON to
    // IDLE."
    if port.enable() == 2 && matches!(port.state, Detecting | Classifying | PowerUp | PowerOn) {
        return Move::to(port, Idle, "enable 10");
    }
    match port.state {
        // "DISABLED goes to IDLE."
        Disabled => Move::to(port, Idle, "enabled"),
        Idle => from_idle(port),
        Detecting => from_detecting(port, sample),
        // "BACKOFF (counter from entry): at 2,000 to IDLE."
        Backoff => waiting(port, BACKOFF, 2_000, "at 2,000"),
        // "ERROR_DELAY (counter from entry): at 750 to IDLE."
        ErrorDelay => waiting(port, ERROR_DELAY, 750, "at 750"),
        Classifying => from_classifying(port, sample),
        PowerUp | PowerOn => from_power(port, sample),
        TestMode => from_test_mode(port, sample),
        // "TEST_ERROR: enable not 10 to IDLE."
        TestError if port.enable() != 2 => Move::to(port, Idle, "enable not 10"),
        TestError => Move::stay(port),
    }
}

/// "IDLE: enable 01 to DETECTING, class set to 0; enable 10 asks for
/// TEST_MODE, demand 154."
fn from_idle(port: Port) -> Move {
    if port.enable() == 1 {
        return Move::to(port, Detecting, "enable 01");
    }
    Move::asking(Port { demand: FORCED_DEMAND, ..port }, TestMode)
}

/// "DETECTING (counter from entry): at 500 to IDLE. Else if detection is done:
/// valid latches 11 and goes to CLASSIFYING; invalid or open latches 10, and
/// goes to BACKOFF if the port is on alternative B and the reading is invalid,
/// else to IDLE."
fn from_detecting(mut port: Port, sample: &Sample) -> Move {
    if port.count(DETECTION) >= 500 {
        return Move::to(port, Idle, "at 500");
    }
    if !sample.has(DETECTION_DONE) {
        return Move::stay(port);
    }
    let on_b = port.alternative() == ALTERNATIVE_B;
    match (sample.signature(), on_b) {
        (Signature::Valid, _) => Move::latching(port, Classifying, VALID, "valid"),
        (Signature::Invalid, true) => Move::latching(port, Backoff, INVALID, "invalid on B"),
        (Signature::Invalid, false) => Move::latching(port, Idle, INVALID, "invalid on A"),
        (Signature::Open, true) => Move::latching(port, Idle, INVALID, "open on B"),
        (Signature::Open, false) => Move::latching(port, Idle, INVALID, "open on A"),
    }
}

fn waiting(mut port: Port, counter: usize, limit: u16, rule: &'static str) -> Move {
    if port.count(counter) >= limit {
        return Move::to(port, Idle, rule);
    }
    Move::stay(port)
}

/// "CLASSIFYING (power-on counter from entry): at 400 to IDLE. Else if class is
/// done: failure to IDLE; a class sets class and demand, and asks for
/// POWER_UP." A failure that is taken latches 13 or 14 (request [7]).
fn from_classifying(mut port: Port, sample: &Sample) -> Move {
    if port.count(POWER_ON) >= 400 {
        return Move::to(port, Idle, "at 400");
    }
    if !sample.has(CLASS_DONE) {
        return Move::stay(port);
    }
    match sample.class() {
        Err(Failure::OverCurrent) => Move::latching(port, Idle, OVER_CURRENT, "over current"),
        Err(Failure::Disagree) => Move::latching(port, Idle, DISAGREE, "events disagree"),
        Ok(class) => {
            let demand = BUDGETS[usize::from(class)];
            Move::asking(Port { class, demand, ..port }, PowerUp)
        }
    }
}

/// "All counters of a state advance before any is compared". "60 of limiting
/// latches 9, else 60 of overload latches 8; both go to ERROR_DELAY and end
/// the move."
fn from_power(mut port: Port, sample: &Sample) -> Move {
    let limited = port.count_if(LIMITED, sample.has(LIMITING));
    let over = port.count_if(OVER, sample.has(OVERLOAD));
    let (power_on, no_load) = if port.state == PowerUp {
        (port.count(POWER_ON), 0)
    } else {
        (0, port.count_if(NO_LOAD, !sample.has(LOAD_PRESENT)))
    };
    if limited >= 60 {
        return Move::latching(port, ErrorDelay, SHORT, "60 of limiting");
    }
    if over >= 60 {
        return Move::latching(port, ErrorDelay, OVERLOADED, "60 of overload");
    }
    // "Otherwise, in POWER_UP, the power-on counter runs on: at 400 to IDLE;
    // else settled goes to POWER_ON."
    if port.state == PowerUp && power_on >= 400 {
        return Move::to(port, Idle, "at 400");
    }
    if port.state == PowerUp && sample.has(SETTLED) {
        return Move::to(port, PowerOn, "settled");
    }
    // "In POWER_ON 320 consecutive ticks without load [..] latch 7 and go to
    // IDLE."
    if port.state == PowerOn && no_load >= 320 {
        return Move::latching(port, Idle, ABSENT, "320 without load");
    }
    Move::stay(port)
}

/// "TEST_MODE: enable not 10 to IDLE; else the same two counts, from its own
/// entry, at 60 latch as above (limiting looked at first) and go to
/// TEST_ERROR." The counts run in the tick that leaves for IDLE too.
fn from_test_mode(mut port: Port, sample: &Sample) -> Move {
    let limited = port.count_if(LIMITED, sample.has(LIMITING));
    let over = port.count_if(OVER, sample.has(OVERLOAD));
    if port.enable() != 2 {
        return Move::to(port, Idle, "enable not 10");
    }
    if limited >= 60 {
        return Move::latching(port, TestError, SHORT, "60 of limiting");
    }
    if over >= 60 {
        return Move::latching(port, TestError, OVERLOADED, "60 of overload");
    }
    Move::stay(port)
}
