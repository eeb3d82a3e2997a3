//! Numbers around every limit of the signature and the class, `signature` and
//! `class` lines, and samples for the ticks.

use super::Maker;
use crate::random::Random;
use crate::reading::{
    Sample, CLASS_DONE, DETECTION_DONE, LIMITING, LOAD_PRESENT, OVERLOAD, SETTLED,
};

/// [V1, V2, I1, I2] with the voltages in range if dV lets them.
fn placed(r: &mut Random, dv: u64, di: u64) -> [u16; 4] {
    let room = 7_200u64.saturating_sub(dv);
    let v1 = match r.below(4) {
        0 => 2_800,
        1 => 2_800 + room,
        _ => 2_800 + r.below(room + 1),
    };
    let i1 = match r.below(4) {
        0 => 0,
        1 => 65_535 - di,
        _ => r.below(2_000),
    };
    [v1 as u16, (v1 + dv) as u16, i1 as u16, (i1 + di) as u16]
}

/// dV and dI of a reading well inside.
fn well_inside(r: &mut Random) -> (u64, u64) {
    let di = r.between(60, 250);
    (di * r.between(20, 26), di)
}

pub fn valid_signature(r: &mut Random) -> [u16; 4] {
    let (dv, di) = well_inside(r);
    placed(r, dv, di)
}

fn open_signature(r: &mut Random) -> [u16; 4] {
    let di = r.between(0, 6);
    let dv = r.between((500 * di).max(1_000), 7_200);
    placed(r, dv, di)
}

/// Around each limit of the signature.
pub fn edge_signature(r: &mut Random) -> [u16; 4] {
    let di = r.between(53, 378);
    let (dv, di) = match r.below(10) {
        0 => (r.around(19 * di), di),
        1 => {
            let di = r.between(38, 271);
            (53 * di / 2 + r.below(3), di)
        }
        2 => {
            let di = r.between(2, 14);
            (r.around(500 * di), di)
        }
        3 => (r.around(1_000), r.between(36, 54)),
        4 => return edge_voltage(r),
        5 => return falling(r),
        6 => (r.between(1_000, 7_200), r.below(3)),
        7 => return [0; 4].map(|_| r.next() as u16),
        8 => return far_currents(r),
        _ => return [0; 4].map(|_| r.pick(&[0, 1, 2_800, 3_800, 10_000, 32_768, 65_535])),
    };
    placed(r, dv, di)
}

/// V1 around 2,800 or V2 around 10,000.
fn edge_voltage(r: &mut Random) -> [u16; 4] {
    let (dv, di) = well_inside(r);
    let v1 = if r.chance(50) { r.around(2_800) } else { r.around(10_000 - dv) };
    let i1 = r.below(60_000);
    [v1 as u16, (v1 + dv) as u16, i1 as u16, (i1 + di) as u16]
}

/// A falling current or a falling voltage: "dV and dI are signed".
fn falling(r: &mut Random) -> [u16; 4] {
    let [v1, v2, i1, i2] = valid_signature(r);
    match r.below(3) {
        0 => [v1, v2, i2, i1],
        1 => [v2, v1, i1, i2],
        _ => [v2, v1, i2, i1],
    }
}

/// Voltages that could read valid, currents so far apart that 16 bits with a sign
/// do not hold their difference.
fn far_currents(r: &mut Random) -> [u16; 4] {
    let [v1, v2, ..] = valid_signature(r);
    let (low, high) = (r.below(300), r.between(33_000, 65_535));
    let (i1, i2) = if r.chance(50) { (low, high) } else { (high, low) };
    [v1, v2, i1 as u16, i2 as u16]
}

/// Around each limit of the class.
pub fn edge_class(r: &mut Random) -> u16 {
    match r.below(8) {
        0 => r.next() as u16,
        1 => r.pick(&[0, 1, 65_535, 45_002]),
        _ => r.pick(&[5_000, 13_000, 21_000, 31_000, 45_000]) + r.below(2) as u16,
    }
}

/// Two class currents that read a class; class 4 comes often.
fn good_classes(r: &mut Random) -> [u16; 2] {
    let class = r.pick(&[0usize, 1, 2, 3, 3, 4, 4, 4]);
    let (low, high) =
        [(0, 5_000), (5_001, 13_000), (13_001, 21_000), (21_001, 31_000), (31_001, 45_000)][class];
    let in_band = |r: &mut Random| match r.below(3) {
        0 => low as u16,
        1 => high as u16,
        _ => r.between(low, high) as u16,
    };
    let first = in_band(r);
    let second = if class == 4 { in_band(r) } else { edge_class(r) };
    [first, second]
}

/// Class currents at the limits; class 4 with a second of any kind.
fn edge_classes(r: &mut Random) -> [u16; 2] {
    let first = if r.chance(35) { r.between(31_001, 45_000) as u16 } else { edge_class(r) };
    [first, edge_class(r)]
}

/// `signature` and `class` lines.
pub fn readings(maker: &mut Maker) {
    for _ in 0..20 {
        let r = &mut maker.r;
        let line = match r.below(12) {
            0..=6 => signature_line(edge_signature(r)),
            7 => signature_line(open_signature(r)),
            8 => signature_line(valid_signature(r)),
            9 => class_line(good_classes(r)),
            _ => class_line(edge_classes(r)),
        };
        maker.say(&line);
    }
}

fn signature_line(n: [u16; 4]) -> String {
    format!("signature {} {} {} {}", n[0], n[1], n[2], n[3])
}

fn class_line(n: [u16; 2]) -> String {
    format!("class {} {}", n[0], n[1])
}

/// What a port is made to see for some ticks; numbers are ticks left.
#[derive(Clone, Copy, Default)]
pub struct Plan {
    pub limiting: u64,
    pub overload: u64,
    pub no_load: u64,
    pub stall: u64,
}

impl Plan {
    pub fn idle(&self) -> bool {
        self.limiting + self.overload + self.no_load + self.stall == 0
    }

    pub fn pass(&mut self) {
        for left in [&mut self.limiting, &mut self.overload, &mut self.no_load, &mut self.stall] {
            *left = left.saturating_sub(1);
        }
    }
}

fn flags_when(pairs: &[(u16, bool)]) -> u16 {
    pairs.iter().filter(|(_, set)| *set).map(|(flag, _)| flag).sum()
}

/// A sample that leads on, `careless` times in a hundred one that does not.
pub fn walking(r: &mut Random, plan: &Plan, careless: u64) -> Sample {
    let astray = r.chance(careless);
    let reading = if !astray {
        valid_signature(r)
    } else if r.chance(40) {
        open_signature(r)
    } else {
        edge_signature(r)
    };
    let class_currents = if r.chance(careless) { edge_classes(r) } else { good_classes(r) };
    let free = plan.stall == 0;
    let fault = (careless + 1) / 2;
    let flags = flags_when(&[
        (DETECTION_DONE, free && r.chance(90)),
        (CLASS_DONE, free && r.chance(90)),
        (SETTLED, free && r.chance(80)),
        (LIMITING, plan.limiting > 0 || r.chance(fault)),
        (OVERLOAD, plan.overload > 0 || r.chance(fault)),
        (LOAD_PRESENT, plan.no_load == 0 && !r.chance(careless)),
    ]);
    let [v1, v2, i1, i2] = reading;
    Sample { voltages: [v1, v2], currents: [i1, i2], class_currents, flags }
}

/// A sample for a port near its limits.
pub fn pressing(r: &mut Random) -> Sample {
    let [v1, v2, i1, i2] = match r.below(5) {
        0 => edge_signature(r),
        1 => open_signature(r),
        _ => valid_signature(r),
    };
    let class_currents = if r.chance(70) { good_classes(r) } else { edge_classes(r) };
    let flags = flags_when(&[
        (DETECTION_DONE, r.chance(65)),
        (CLASS_DONE, r.chance(65)),
        (SETTLED, r.chance(50)),
        (LIMITING, r.chance(55)),
        (OVERLOAD, r.chance(55)),
        (LOAD_PRESENT, r.chance(35)),
    ]);
    Sample { voltages: [v1, v2], currents: [i1, i2], class_currents, flags }
}
