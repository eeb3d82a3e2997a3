//! The table. A port is 22 bytes without a hole in it, so that all 48 stay in a few lines of the cache.

#[derive(Clone, Copy, PartialEq, Eq, Debug)]
#[repr(u8)]
pub enum State {
    Disabled,
    Idle,
    Detecting,
    Backoff,
    Classifying,
    PowerUp,
    PowerOn,
    ErrorDelay,
    TestMode,
    TestError,
}

pub const STATES: [State; 10] = [
    State::Disabled,
    State::Idle,
    State::Detecting,
    State::Backoff,
    State::Classifying,
    State::PowerUp,
    State::PowerOn,
    State::ErrorDelay,
    State::TestMode,
    State::TestError,
];

/// Latches, placed as in the image.
pub const DISAGREE: u8 = 1 << 7;
pub const OVER_CURRENT: u8 = 1 << 6;
pub const DENIED: u8 = 1 << 5;
pub const VALID: u8 = 1 << 4;
pub const INVALID: u8 = 1 << 3;
pub const SHORT: u8 = 1 << 2;
pub const OVERLOADED: u8 = 1 << 1;
pub const ABSENT: u8 = 1;

// The lanes of a port, in the image's order.
pub const DETECTION: usize = 0;
pub const BACKOFF: usize = 1;
pub const ERROR_DELAY: usize = 2;
pub const POWER_ON: usize = 3;
pub const LIMITED: usize = 4;
pub const OVER: usize = 5;
pub const NO_LOAD: usize = 6;
pub const CLASS: usize = 7;

#[derive(Clone, Copy, PartialEq, Eq, Debug)]
pub struct Port {
    /// The seven counters and the class, side by side: one comparison of eight lanes tests them all.
    pub lanes: [u16; 8],
    pub control: u16,
    pub demand: u16,
    pub latches: u8,
    pub state: State,
}

pub const PLACES: usize = 48;
pub const HIGHEST_SUPPLY: u16 = 60_000;
pub const SAMPLE_BYTES: usize = 14;

#[derive(Clone, PartialEq, Eq, Debug)]
pub struct Table {
    pub ports: [Port; PLACES],
    pub count: u16,
    pub supply: u16,
}

#[derive(Clone, Copy, PartialEq, Eq, Debug)]
pub enum Closed {
    /// The closed ports on alternative A, those on alternative B, and how many they are.
    Ports(u64, u64, u32),
    Refused(u8),
}

// A sample's flags.
pub const DETECTION_DONE: u16 = 1;
pub const CLASS_DONE: u16 = 1 << 1;
pub const SETTLED: u16 = 1 << 2;
pub const LIMITING: u16 = 1 << 3;
pub const OVERLOAD: u16 = 1 << 4;
pub const LOAD: u16 = 1 << 5;

/// A number of two bytes in a sample.
#[inline(always)]
pub fn word(sample: &[u8; SAMPLE_BYTES], at: usize) -> u16 {
    u16::from_be_bytes([sample[at], sample[at + 1]])
}
