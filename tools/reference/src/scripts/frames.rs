//! Frames whole and damaged, for `search`, `read` and the two writers.

use super::{too_wide, Maker};
use crate::random::Random;
use crate::tlv::{made, Extension, Fields, MARK};

/// A power TLV that reads.
fn power(r: &mut Random) -> Vec<u8> {
    let octets = [r.next() as u8, r.next() as u8, r.next() as u8];
    if r.chance(35) {
        return made(&Fields { octets, extension: None });
    }
    let value = |r: &mut Random| match r.below(8) {
        0 => r.pick(&[0, 1]),
        1 => r.pick(&[255, 256]),
        2 => 999,
        3 => r.between(0, 255),
        _ => r.between(0, 999),
    };
    let extension = Extension {
        kind: r.below(4),
        source: r.below(4),
        priority: r.below(4),
        requested: value(r),
        allocated: value(r),
    };
    made(&Fields { octets, extension: Some(extension) })
}

fn headed(kind: u16, body: &[u8]) -> Vec<u8> {
    let mut tlv = (kind << 9 | body.len() as u16 & 0x1FF).to_be_bytes().to_vec();
    tlv.extend_from_slice(body);
    tlv
}

/// A TLV of type 127 that begins like a power TLV, of any short length.
fn marked(r: &mut Random) -> Vec<u8> {
    let mut body = MARK.to_vec();
    let more = r.below(12);
    body.extend(r.bytes(more));
    if r.chance(30) {
        body.truncate(r.below(5) as usize);
    }
    headed(127, &body)
}

/// A TLV that the search steps over: another type, another OUI or subtype.
fn other(r: &mut Random) -> Vec<u8> {
    match r.below(5) {
        0 => {
            let mut tlv = power(r);
            flip_mark(r, &mut tlv);
            tlv
        }
        1 => {
            let mut body = MARK.to_vec();
            body.extend(r.bytes(3));
            headed(r.pick(&[126, 1, 63, 125, 64]), &body)
        }
        2 => headed(127, &[0x00, 0x12, 0x0F, r.pick(&[0, 1, 3, 4])]),
        3 => {
            let length = r.below(4);
            headed(127, &r.bytes(length))
        }
        _ => {
            let length = r.below(9);
            headed(r.between(1, 126) as u16, &r.bytes(length))
        }
    }
}

/// "OUI off by one bit", or the subtype.
fn flip_mark(r: &mut Random, tlv: &mut [u8]) {
    if tlv.len() >= 6 {
        tlv[2 + r.below(4) as usize] ^= 1 << r.below(8);
    }
}

fn end(r: &mut Random) -> Vec<u8> {
    match r.below(6) {
        0 => vec![0x00, r.between(1, 255) as u8],
        1 => vec![0x01, r.next() as u8],
        2 => vec![],
        _ => vec![0, 0],
    }
}

fn frame(r: &mut Random) -> Vec<u8> {
    let mut bytes = Vec::new();
    let powers = r.pick(&[0, 1, 1, 1, 1, 2, 2, 3]);
    for _ in 0..powers {
        for _ in 0..r.below(3) {
            bytes.extend(other(r));
        }
        bytes.extend(if r.chance(75) { power(r) } else { marked(r) });
    }
    for _ in 0..r.below(2) {
        bytes.extend(other(r));
    }
    bytes.extend(end(r));
    if r.chance(30) {
        bytes.extend(match r.below(4) {
            0 => r.bytes(1),
            1 => power(r),
            2 => vec![r.pick(&[0, 0xFE])],
            _ => r.bytes(3),
        });
    }
    bytes
}

/// One damage, or none.
fn damage(r: &mut Random, bytes: &mut Vec<u8>) {
    let length = bytes.len() as u64;
    match r.below(10) {
        0 | 1 => bytes.truncate(r.below(length + 1) as usize),
        2 if length > 1 => bytes[1] = bytes[1].wrapping_add(1),
        3 if length > 1 => bytes[1] = bytes[1].wrapping_sub(1),
        4 if length > 0 => bytes[r.below(length) as usize] ^= 1 << r.below(8),
        5 => flip_mark(r, bytes),
        6 => bytes.push(r.pick(&[0, 0xFE, 1])),
        _ => {}
    }
}

/// About 1,500 bytes: in turn no more or one more, with 0, 1 or 2 power TLVs,
/// whole or with the last TLV cut.
fn long_frame(r: &mut Random, turn: u64) -> Vec<u8> {
    let length = match r.below(8) {
        0 => 1_499,
        1 => 1_502,
        _ => 1_500 + (turn % 2) as usize,
    };
    let mut bytes = Vec::new();
    for _ in 0..turn / 2 % 3 {
        bytes.extend(power(r));
    }
    let whole = length + (turn / 6 % 2) as usize;
    while bytes.len() + 2 <= whole {
        let body = (whole - bytes.len() - 2).min(511);
        bytes.extend(headed(r.between(1, 126) as u16, &vec![0; body]));
    }
    bytes.resize(length, 0);
    if r.chance(10) {
        // The end comes first; what stands after it counts only for 1,500.
        bytes[0] = 0;
    }
    bytes
}

/// Bytes for the reader: one TLV, whole or damaged.
fn lone(r: &mut Random) -> Vec<u8> {
    let mut bytes = match r.below(8) {
        0 => marked(r),
        1 => other(r),
        _ => power(r),
    };
    match r.below(8) {
        0 if bytes.len() == 14 => {
            let at = r.pick(&[10, 12]);
            let value: u16 =
                r.pick(&[0, 1, 255, 256, 999, 1_000, 1_000, 1_023, 1_024, 0x8001, 65_535, 0xFF00]);
            bytes[at..at + 2].copy_from_slice(&value.to_be_bytes());
        }
        1 if bytes.len() == 14 => bytes[9] |= (r.between(1, 3) as u8) << 2,
        2 => bytes.truncate(r.below(bytes.len() as u64) as usize),
        3 => relength(r, &mut bytes),
        4 => bytes[0] ^= 1 << r.below(8),
        5 | 6 => damage(r, &mut bytes),
        _ => {}
    }
    if r.chance(15) && bytes.len() == 14 {
        // 9 and 10, or 6 and 10, at once.
        bytes[10..12].copy_from_slice(&1_000u16.to_be_bytes());
        damage(r, &mut bytes);
    }
    bytes
}

/// Another length, with as many bytes as it says.
fn relength(r: &mut Random, bytes: &mut Vec<u8>) {
    let length = r.pick(&[3, 4, 6, 7, 8, 11, 12, 13]);
    bytes.resize(2 + length, 1);
    bytes[1] = length as u8;
}

fn write_line(r: &mut Random) -> String {
    let wide = r.chance(60);
    let exact = if wide { 14 } else { 9 };
    let room = match r.below(12) {
        0..=2 => r.below(21),
        3 | 4 => r.pick(&[8, 13]),
        5 => r.pick(&[0, 1, 20, 40]),
        _ => exact,
    };
    let octets = [r.next() as u8, r.pick(&[0, 1, 255]), r.next() as u8];
    let head = format!("{room} {} {} {}", octets[0], octets[1], octets[2]);
    if !wide {
        return format!("write7 {head}");
    }
    let code = |r: &mut Random| match r.below(24) {
        0 => 4,
        1 => too_wide(r, 1),
        _ => r.below(4),
    };
    let (kind, source, priority) = (code(r), code(r), code(r));
    let value = |r: &mut Random| match r.below(20) {
        0 => 0,
        1 => 1_000,
        2 => too_wide(r, 1),
        3 => 999,
        4 => 256,
        5 => 255,
        6 | 7 => 1,
        8..=12 => r.between(0, 255),
        _ => r.between(0, 999),
    };
    let (requested, allocated) = (value(r), value(r));
    format!("write12 {head} {kind} {source} {priority} {requested} {allocated}")
}

/// A frame cut at every byte in turn.
fn cuts(maker: &mut Maker) {
    let bytes = power(&mut maker.r);
    let call = maker.r.pick(&["search", "read"]);
    for length in 0..=bytes.len() {
        let hex = maker.hex(&bytes[..length]);
        maker.say(&format!("{call} {hex}"));
    }
}

/// `search`, `read`, `write7` and `write12` lines.
pub fn frames(maker: &mut Maker) {
    if maker.turn(4) % 10 == 0 {
        return cuts(maker);
    }
    if maker.turn(5) % 4 == 0 {
        let turn = maker.turn(8);
        let bytes = long_frame(&mut maker.r, turn);
        let call = if turn % 9 == 0 { "read" } else { "search" };
        let hex = maker.hex(&bytes);
        maker.say(&format!("{call} {hex}"));
    }
    for _ in 0..20 {
        let r = &mut maker.r;
        let (call, bytes) = match r.below(20) {
            0..=7 => {
                let mut bytes = frame(r);
                damage(r, &mut bytes);
                ("search", bytes)
            }
            8..=13 => ("read", lone(r)),
            _ => {
                let line = write_line(r);
                maker.say(&line);
                continue;
            }
        };
        let hex = maker.hex(&bytes);
        maker.say(&format!("{call} {hex}"));
    }
}
