//! Samples: the signature, the class and the budgets (document 01, "Samples").

/// What the signature reading says.
#[derive(Clone, Copy, PartialEq, Eq, Debug)]
pub enum Signature {
    Valid,
    Invalid,
    Open,
}

/// "dV = V2 - V1 and dI = I2 - I1 are signed."
pub fn signature(v1: u16, v2: u16, i1: u16, i2: u16) -> Signature {
    let dv = i64::from(v2) - i64::from(v1);
    let di = i64::from(i2) - i64::from(i1);
    let in_range = |v: u16| (2_800..=10_000).contains(&v);
    // "Invalid if V1 or V2 is outside 2,800..10,000 or dV < 1,000."
    if !in_range(v1) || !in_range(v2) || dv < 1_000 {
        return Signature::Invalid;
    }
    // "Otherwise open if dI <= 0 or dV >= 500 dI."
    if di <= 0 || dv >= 500 * di {
        return Signature::Open;
    }
    // "Otherwise valid if 19 dI <= dV and 2 dV <= 53 dI; else invalid."
    if 19 * di <= dv && 2 * dv <= 53 * di {
        Signature::Valid
    } else {
        Signature::Invalid
    }
}

/// "up to 5,000 class 0; to 13,000 class 1; to 21,000 class 2; to 31,000
/// class 3; to 45,000 class 4; above, failure." None is failure.
pub fn class_of_current(current: u16) -> Option<u8> {
    match current {
        0..=5_000 => Some(0),
        5_001..=13_000 => Some(1),
        13_001..=21_000 => Some(2),
        21_001..=31_000 => Some(3),
        31_001..=45_000 => Some(4),
        _ => None,
    }
}

/// Request [7]: "Support can't tell a current above 45,000 from a second event
/// that disagrees."
#[derive(Clone, Copy, PartialEq, Eq, Debug)]
pub enum Failure {
    OverCurrent,
    Disagree,
}

/// Request [7]: "The class reading must say which, and how many of the two currents
/// it used".
#[derive(Clone, Copy, PartialEq, Eq, Debug)]
pub struct ClassReading {
    pub class: Result<u8, Failure>,
    pub used: u8,
}

/// "If C1 reads class 4, C2 must too, else failure [..]. With any other class
/// C2 isn't looked at." Request [7]: "a second current above 45,000 after a class 4
/// counts as disagreeing".
pub fn class(c1: u16, c2: u16) -> ClassReading {
    let (class, used) = match (class_of_current(c1), class_of_current(c2)) {
        (None, _) => (Err(Failure::OverCurrent), 1),
        (Some(4), Some(4)) => (Ok(4), 2),
        (Some(4), _) => (Err(Failure::Disagree), 2),
        (Some(first), _) => (Ok(first), 1),
    };
    ClassReading { class, used }
}

/// "Budgets for classes 0 to 4: 154, 40, 70, 154, 300".
pub const BUDGETS: [u16; 5] = [154, 40, 70, 154, 300];

/// "14 bytes a port, in port order".
pub const SAMPLE_BYTES: usize = 14;

// "Flags: 0 detection done, 1 class done, 2 settled, 3 limiting, 4 overload,
// 5 load present; 15:6 zero."
pub const DETECTION_DONE: u16 = 1;
pub const CLASS_DONE: u16 = 1 << 1;
pub const SETTLED: u16 = 1 << 2;
pub const LIMITING: u16 = 1 << 3;
pub const OVERLOAD: u16 = 1 << 4;
pub const LOAD_PRESENT: u16 = 1 << 5;
pub const RESERVED_FLAGS: u16 = !0x3F;

/// "big-endian 16-bit: V1, V2 (mV), I1, I2 (µA), C1, C2 (class currents, µA),
/// flags."
#[derive(Clone, Copy, PartialEq, Eq, Debug)]
pub struct Sample {
    pub voltages: [u16; 2],
    pub currents: [u16; 2],
    pub class_currents: [u16; 2],
    pub flags: u16,
}

impl Sample {
    /// The sample of port `p` in a block that is long enough.
    pub fn of_port(block: &[u8], p: usize) -> Sample {
        let word = |k: usize| {
            let at = p * SAMPLE_BYTES + 2 * k;
            u16::from_be_bytes([block[at], block[at + 1]])
        };
        Sample {
            voltages: [word(0), word(1)],
            currents: [word(2), word(3)],
            class_currents: [word(4), word(5)],
            flags: word(6),
        }
    }

    /// The bytes again (for the script maker).
    pub fn bytes(&self) -> Vec<u8> {
        let words = [
            self.voltages[0],
            self.voltages[1],
            self.currents[0],
            self.currents[1],
            self.class_currents[0],
            self.class_currents[1],
            self.flags,
        ];
        words.iter().flat_map(|w| w.to_be_bytes()).collect()
    }

    pub fn has(&self, flag: u16) -> bool {
        self.flags & flag != 0
    }

    pub fn signature(&self) -> Signature {
        signature(self.voltages[0], self.voltages[1], self.currents[0], self.currents[1])
    }

    pub fn class(&self) -> Result<u8, Failure> {
        class(self.class_currents[0], self.class_currents[1]).class
    }
}
