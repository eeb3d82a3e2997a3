//! Bad lines of every kind, and good ones of an unusual look.

use super::Maker;
use crate::random::Random;

/// Lines that are bad as they stand.
const BAD: [&str; 62] = [
    "",
    " ",
    "-",
    "0",
    "dump ",
    " dump",
    "dump  ",
    "Dump",
    "DUMP",
    "dump 0",
    "dumps",
    "dum",
    "dump\r",
    "dump\t",
    "cold",
    "cold ",
    "cold  1",
    "cold 1 ",
    "cold 1 1",
    "cold\t1",
    "cold 1\r",
    "cold +1",
    "cold -1",
    "cold 0x1",
    "cold 1.0",
    "cold 1,0",
    "cold one",
    "cold -",
    "Cold 1",
    "control",
    "control 0",
    "control 0 5 0",
    "control 0 -5",
    "control  0 5",
    "control 0  5",
    "request 0",
    "request 0 1 1",
    "request 0 1a",
    "status",
    "status 0 0",
    "status a",
    "status -",
    "tick",
    "tick 300",
    "tick -",
    "tick - -",
    "tick 300  -",
    "tick 300 --",
    "tick 300 - -",
    "search",
    "search ",
    "search  -",
    "search --",
    "search 0",
    "read 000",
    "read 0g",
    "read 00 00",
    "read 0x00",
    "table",
    "table ",
    "# dump",
    "cold 1;dump",
];

/// Lines whose numbers are just too large.
const LARGE: [&str; 28] = [
    "cold 18446744073709551616",
    "cold 18446744073709551617",
    "cold 99999999999999999999",
    "cold 100000000000000000000",
    "status 18446744073709551616",
    "control 18446744073709551616 5",
    "control 0 18446744073709551621",
    "request 0 18446744073709551617",
    "request 36893488147419103232 1",
    "tick 18446744073709551616 -",
    "write7 2049 0 0 0",
    "write7 18446744073709551625 0 0 0",
    "write7 9 256 0 0",
    "write7 9 0 256 0",
    "write7 9 0 0 256",
    "write7 9 0 0 65536",
    "write12 2049 0 0 0 1 1 1 1 1",
    "write12 14 256 0 0 1 1 1 1 1",
    "write12 14 0 4294967296 0 1 1 1 1 1",
    "write12 14 0 0 0 18446744073709551617 1 1 1 1",
    "write12 14 0 0 0 1 1 1 1 18446744073709551617",
    "signature 65536 4000 1 1",
    "signature 4000 65536 1 1",
    "signature 4000 6000 65536 1",
    "signature 4000 6000 1 65536",
    "class 65536 0",
    "class 0 65536",
    "class 4294967296 0",
];

/// Lines with too few or too many words.
const WORDS: [&str; 14] = [
    "write7 9 0 0",
    "write7 9 0 0 0 0",
    "write7",
    "write7 - 0 0 0",
    "write7 9 0 0 -",
    "write12 14 0 0 0 1 1 1 1",
    "write12 14 0 0 0 1 1 1 1 1 1",
    "write12 14 0 0 0",
    "write 9 0 0 0",
    "signature 4000 6000 100",
    "signature 4000 6000 100 200 300",
    "signature 4000 6000 100 -200",
    "class 5000",
    "class 5000 5000 5000",
];

/// Good lines that a careless reader takes for bad ones, or the other way round.
const UNUSUAL: [&str; 22] = [
    "cold 00000000000000000003",
    "cold 000000000000000000001",
    "status 000000000000000000000",
    "request 0 00000000000000000000000000000000000000000000000000000000000000000255",
    "cold 18446744073709551615",
    "cold 09223372036854775809",
    "status 00000000000000000000",
    "status 18446744073709551615",
    "control 00 05",
    "control 18446744073709551615 18446744073709551615",
    "request 000 0038",
    "tick 0 -",
    "tick 18446744073709551615 -",
    "search Fe0C00120f020001055200Ff0082",
    "search -",
    "read -",
    "read FE0700120F02aAbBcC",
    "write7 0009 000 00255 0",
    "write12 14 255 255 255 3 3 3 255 255",
    "class 65535 65535",
    "table -",
    "write7 2048 0 1 5",
];

/// Some twenty lines, in turn from every list.
pub fn bad(maker: &mut Maker) {
    let turn = maker.turn(6);
    if turn % 5 == 0 {
        return too_long(maker, turn / 5);
    }
    for _ in 0..8 {
        let k = maker.turn(7) as usize;
        maker.say(BAD[k % BAD.len()]);
        maker.say(LARGE[k % LARGE.len()]);
        if k % 2 == 0 {
            maker.say(WORDS[(k / 2) % WORDS.len()]);
        } else {
            maker.say(UNUSUAL[(k / 2) % UNUSUAL.len()]);
        }
    }
    for _ in 0..3 {
        let raw = !maker.scarce;
        let line = spoilt(&mut maker.r, raw);
        maker.bytes(&line);
    }
    let port = maker.r.below(3);
    maker.say(&format!("status {port}"));
}

/// A good line with one byte changed, put in or taken out. (It may still be
/// good.) Never a newline. Only `raw` lines have NUL and bytes past 7F, so that
/// mixed scripts, which are stored, stay text.
fn spoilt(r: &mut Random, raw: bool) -> Vec<u8> {
    let good = r.pick(&[
        "cold 3",
        "control 0 5",
        "request 0 38",
        "status 1",
        "search fe0700120f02000105",
        "read fe0c00120f020001055200ff0082",
        "write7 9 1 2 3",
        "write12 14 1 2 3 1 1 2 255 130",
        "signature 4000 6000 100 200",
        "class 40000 40000",
    ]);
    let mut line = good.as_bytes().to_vec();
    let at = r.below(line.len() as u64) as usize;
    let byte = match r.below(3) {
        0 => r.pick(b" -+0aGg/:@`\t\r"),
        1 if raw => r.pick(&[0, 0x0B, 0x7F, 0x80, 0xA0, 0xC3, 0xE9, 0xFF]),
        _ => r.between(0x20, 0x7E) as u8,
    };
    match r.below(3) {
        0 => line[at] = byte,
        1 => line.insert(at, byte),
        _ => {
            line.remove(at);
        }
    }
    line
}

/// Lines of 8,191 to 8,194 bytes that are good but for their length.
fn too_long(maker: &mut Maker, turn: u64) {
    let even = maker.r.pick(&["table ", "tick 10 "]);
    let odd = maker.r.pick(&["search ", "tick 1 "]);
    let (head, length) = match turn % 4 {
        0 => (even, 8_192),
        1 => (odd, 8_193),
        2 => (even, 8_194),
        _ => (odd, 8_191),
    };
    let mut line = head.as_bytes().to_vec();
    line.resize(length, b'0');
    maker.bytes(&line);
}
