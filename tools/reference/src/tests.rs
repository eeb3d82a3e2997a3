//! The cases of document 01, and the line language.

use crate::count;
use crate::lines::Console;
use crate::port::{Port, State};
use crate::reading::{class_of_current, signature, Signature, BUDGETS};
use crate::scripts;
use crate::table::Table;
use crate::tlv;

/// A dialogue: each line with its answer.
fn dialogue(console: &mut Console, lines: &[(&str, &str)]) {
    for (line, answer) in lines {
        assert_eq!(console.answer(line.as_bytes()).to_string(), *answer, "{line}");
    }
}

fn said(line: &str) -> String {
    Console::new().answer(line.as_bytes()).to_string()
}

fn sample(flags: u16) -> String {
    format!("0fa01f4000a001400bb80bb8{flags:04x}")
}

/// "dV/dI, V1 = 4,000": the first eight of the sixteen cases.
#[test]
fn sixteen_cases_signature() {
    let cases = [
        (1_900, 100, Signature::Valid),
        (1_899, 100, Signature::Invalid),
        (2_650, 100, Signature::Valid),
        (2_651, 100, Signature::Invalid),
        (4_999, 10, Signature::Invalid),
        (5_000, 10, Signature::Open),
        (5_000, 0, Signature::Open),
        (999, 40, Signature::Invalid),
    ];
    for (dv, di, reading) in cases {
        assert_eq!(signature(4_000, 4_000 + dv, 100, 100 + di), reading, "{dv}/{di}");
    }
}

/// "Class at 5,000: 0; 5,001: 1; 45,000: 4; 45,001: failure."
#[test]
fn sixteen_cases_class() {
    assert_eq!(class_of_current(5_000), Some(0));
    assert_eq!(class_of_current(5_001), Some(1));
    assert_eq!(class_of_current(45_000), Some(4));
    assert_eq!(class_of_current(45_001), None);
    assert_eq!(BUDGETS, [154, 40, 70, 154, 300]);
}

/// Request [7]: which failure it is, and how many of the two currents were used.
#[test]
fn class_readings() {
    for (line, answer) in [
        ("class 31000 45001", "class 3 used 1"),
        ("class 31001 45000", "class 4 used 2"),
        ("class 45000 45001", "disagree used 2"),
        ("class 45000 31000", "disagree used 2"),
        ("class 45001 45000", "overcurrent used 1"),
        ("class 45001 45001", "overcurrent used 1"),
    ] {
        assert_eq!(said(line), answer, "{line}");
    }
}

/// Request [7]: a failure that is taken latches 13 or 14, one at 400 nothing, and a
/// status read clears both.
#[test]
fn class_failures_latch() {
    for (ticks, c1, c2, latches) in [
        (398, 45_001, 45_000, 0x40),
        (398, 45_000, 45_001, 0x80),
        (399, 45_001, 45_000, 0),
        (399, 45_000, 45_001, 0),
    ] {
        let mut console = Console::new();
        let mut cells = vec![0; 728];
        cells[0] = 1;
        cells[8] = 4;
        cells[56] = 5;
        cells[8 + 48 * 8] = ticks;
        dialogue(&mut console, &[(&cells_said(&cells), "ok")]);
        let tick = format!("tick 0 0000000000000000{c1:04x}{c2:04x}0002");
        let word = format!("status {}", (latches << 7) + 3);
        dialogue(&mut console, &[(&tick, "ticked 0 0 0"), ("status 0", &word)]);
        dialogue(&mut console, &[("status 0", "status 3")]);
    }
}

/// "Supply 300, closed ports 0, 1, 2 of equal priority with 154, 154, 40: port
/// 0 stays, 1 and 2 go; at 348 all stay; at 0 none."
#[test]
fn sixteen_cases_supply() {
    for (supply, mask) in [(300, 0b001), (348, 0b111), (0, 0b000)] {
        let mut table = Table::cold(3).unwrap();
        for (p, demand) in [154, 154, 40].into_iter().enumerate() {
            let state = State::PowerOn;
            table.ports[p] = Port { state, control: 5, demand, ..Port::COLD };
        }
        let block: Vec<u8> = (0..42).map(|k| if k % 14 == 13 { 0x20 } else { 0 }).collect();
        let ticked = table.tick(supply, &block).unwrap();
        assert_eq!((ticked.mask_a, ticked.mask_b), (mask, 0), "supply {supply}");
        assert_eq!(ticked.closed, mask.count_ones());
        for p in 0..3 {
            let denied = table.status(p).unwrap() >> 12 & 1;
            assert_eq!(u64::from(denied), 1 - (mask >> p & 1));
        }
    }
}

/// "Empty PDU: 7."
#[test]
fn sixteen_cases_empty_pdu() {
    assert_eq!(tlv::search(&[]), Err(7));
    assert_eq!(said("search -"), "refused 7");
}

/// "Whole case": type 01, source 01, priority 10, requested 255, allocated 130.
#[test]
fn whole_tlv_case() {
    let bytes = "fe0c00120f0200010552".to_owned() + "00ff0082";
    assert_eq!(said(&format!("read {bytes}")), "fields 0 1 5 1 1 2 255 130");
    assert_eq!(said("write12 14 0 1 5 1 1 2 255 130"), format!("wrote {bytes}"));
    assert_eq!(said("write12 16 0 1 5 1 1 2 255 130"), format!("wrote {bytes}a5a5"));
    assert_eq!(said("write7 9 0 1 5"), "wrote fe0700120f02000105");
    assert_eq!(said(&format!("search 0200{bytes}0000ff")), "found 2 14");
    assert_eq!(said(&format!("search {bytes}{bytes}")), "refused 8");
    assert_eq!(said(&format!("search {bytes}{bytes}00")), "refused 6");
    assert_eq!(said(&format!("search {bytes}{bytes}01ff00")), "refused 8");
    assert_eq!(said(&format!("read {bytes}00")), "refused 9");
    assert_eq!(said("read fe"), "refused 6");
}

/// One port, control 5, supply 200: closed exactly from the 4th tick on.
#[test]
fn walk_to_power() {
    let mut console = Console::new();
    dialogue(&mut console, &[("cold 1", "ok"), ("control 0 5", "ok")]);
    let line = format!("tick 200 {}", sample(0b100111));
    for tick in 1..=50 {
        let answer = if tick >= 4 { "ticked 1 0 1" } else { "ticked 0 0 0" };
        dialogue(&mut console, &[(&line, answer)]);
    }
    assert_eq!(console.cells[8], State::PowerOn as u16);
    dialogue(
        &mut console,
        &[
            ("status 0", "status 2053"),
            ("status 0", "status 5"),
            ("request 0 38", "ok"),
            ("request 0 129", "ok"),
            ("request 0 130", "refused 11"),
            ("request 0 255", "refused 11"),
            ("request 0 256", "refused 11"),
            ("request 0 999", "refused 11"),
            ("request 0 0", "refused 10"),
            ("request 0 1000", "refused 10"),
            ("control 0 9", "refused 5"),
            (&format!("tick 153 {}", sample(0b100111)), "ticked 0 0 0"),
            ("status 0", "status 4099"),
        ],
    );
}

/// Request [4]: what reader, writer and request say at each limit of a value, the
/// request of a port of class 4 in POWER_ON and of one in IDLE.
#[test]
fn values_at_their_limits() {
    let mut console = Console::new();
    dialogue(&mut console, &[("cold 2", "ok"), ("control 0 5", "ok")]);
    let up = "0fa01f4000a001409c409c400027".to_owned();
    for _ in 0..5 {
        console.answer(format!("tick 300 {up}{}", "00".repeat(14)).as_bytes());
    }
    let rows: [(u64, bool, &str, &str); 7] = [
        (0, true, "refused 10", "refused 10"),
        (1, true, "ok", "refused 5"),
        (255, true, "ok", "refused 5"),
        (256, true, "refused 11", "refused 5"),
        (999, true, "refused 11", "refused 5"),
        (1_000, false, "refused 10", "refused 10"),
        (65_535, false, "refused 10", "refused 10"),
    ];
    for (value, taken, on, idle) in rows {
        for (requested, allocated) in [(value, 7), (7, value)] {
            let bytes = format!("fe0c00120f0201020393{requested:04x}{allocated:04x}");
            let fields = format!("fields 1 2 3 2 1 3 {requested} {allocated}");
            let read = if taken { fields.as_str() } else { "refused 10" };
            assert_eq!(said(&format!("read {bytes}")), read);
            let written = format!("wrote {bytes}");
            let wrote = if taken { written.as_str() } else { "refused 10" };
            assert_eq!(said(&format!("write12 14 1 2 3 2 1 3 {requested} {allocated}")), wrote);
        }
        let asked = [format!("request 0 {value}"), format!("request 1 {value}")];
        dialogue(&mut console, &[(&asked[0], on), (&asked[1], idle)]);
    }
}

/// Refusal 12 compares with the stored supply, for a higher demand only.
#[test]
fn request_against_the_supply() {
    let mut console = Console::new();
    dialogue(&mut console, &[("cold 1", "ok"), ("control 0 5", "ok")]);
    for _ in 0..5 {
        console.answer(format!("tick 154 {}", sample(0b100111)).as_bytes());
    }
    dialogue(
        &mut console,
        &[
            ("request 0 38", "ok"),
            (&format!("tick 153 {}", sample(0b100000)), "ticked 1 0 1"),
            ("request 0 129", "refused 12"),
            ("request 0 64", "ok"),
            (&format!("tick 154 {}", sample(0b100000)), "ticked 1 0 1"),
            ("request 0 129", "ok"),
        ],
    );
}

/// Document 01's order of checks, and the numbers that are too large.
#[test]
fn refusals() {
    let mut console = Console::new();
    dialogue(
        &mut console,
        &[
            ("status 0", "refused 13"),
            ("tick 60001 00", "refused 13"),
            ("cold 0", "refused 2"),
            ("cold 49", "refused 2"),
            ("cold 18446744073709551615", "refused 2"),
            ("cold 1", "ok"),
            ("control 1 3", "refused 2"),
            ("control 0 65541", "refused 3"),
            ("control 0 5", "ok"),
            ("request 4294967296 0", "refused 2"),
            ("request 0 4294967297", "refused 10"),
            ("request 0 1", "refused 5"),
            ("request 0 999", "refused 5"),
            ("request 0 1000", "refused 10"),
            ("tick 60001 00", "refused 1"),
            ("tick 60001 000000000000000000000000ffff", "refused 4"),
            ("tick 60000 0000000000000000000000000040", "refused 3"),
            ("tick 60000 0000000000000000000000000000", "ticked 0 0 0"),
            ("write12 0 1 1 1 4 0 0 0 0", "refused 3"),
            ("write12 0 1 1 1 3 0 0 1000 1", "refused 10"),
            ("write12 13 1 1 1 3 0 0 999 0", "refused 1"),
            ("write7 8 1 1 1", "refused 1"),
        ],
    );
}

/// One for each way to break a rule.
const BAD_LINES: [&str; 31] = [
    "",
    " ",
    "dump ",
    " dump",
    "dump  ",
    "Dump",
    "dump 1",
    "cold",
    "cold ",
    "cold  1",
    "cold 1\r",
    "cold +1",
    "cold -1",
    "cold 0x1",
    "cold 1.0",
    "cold 18446744073709551616",
    "search",
    "search 0",
    "search 0g",
    "search --",
    "tick 1",
    "tick - -",
    "write7 2049 0 0 0",
    "write7 9 256 0 0",
    "write7 9 0 0",
    "class 65536 0",
    "signature 1 2 3 65536",
    "class 1",
    "write12 14 0 0 0 1 1 1 1",
    "status 0 0",
    "\u{e9}",
];

/// The rules at the top of `lines.rs`.
#[test]
fn bad_lines() {
    let long = |digits: usize| format!("table {}", "0".repeat(digits));
    for line in BAD_LINES {
        assert_eq!(said(line), "bad line", "{line:?}");
    }
    assert_eq!(said(&long(8_188)), "bad line");
    assert_eq!(said(&long(8_186)), "bad image");
    assert_eq!(said("table -"), "bad image");
    assert_eq!(said("cold 000000000000000000001"), "ok");
    assert_eq!(said("search FE"), "refused 6");
}

/// `dump` after `table` gives the same image; what is no image changes nothing.
#[test]
fn images() {
    let mut console = Console::new();
    let zero = "00".repeat(1_014);
    dialogue(&mut console, &[("dump", &zero)]);
    let mut image = String::from("00010000ffff");
    for _ in 0..48 {
        image += "09ffffffffffffffffffffffffffffffffffffffff";
    }
    dialogue(
        &mut console,
        &[
            (&format!("table {}", image.to_uppercase()), "ok"),
            ("dump", &image),
            ("status 0", "refused 13"),
            (&format!("table {}", image.replace("0000ffff", "00010000")), "bad image"),
            (&format!("table {}", image.replace("09ff", "0aff")), "bad image"),
            (&format!("table {image}00"), "bad image"),
            ("dump", &image),
        ],
    );
}

/// The cells that `show` says, and so many of them.
fn cells_said(cells: &[u16]) -> String {
    let digits: String = cells.iter().map(|cell| format!("{cell:04x}")).collect();
    format!("cells {}", if digits.is_empty() { "-" } else { &digits })
}

fn shows(console: &mut Console, cells: &[u16]) {
    dialogue(console, &[("show", &cells_said(cells))]);
}

/// The layout, by hand: port 1 of 2 alone in POWER_ON, everything else noise or cold.
fn two_ports() -> Vec<u16> {
    let mut cells = vec![0xBEEF; 728];
    cells[0] = 2;
    cells[1] = 500;
    for field in 0..12 {
        cells[8 + 48 * field] = if field == 1 { 4 } else { 0 };
    }
    let port = [6, 0x19, 40, 4, 255, 1, 2, 3, 4, 5, 6, 7];
    for (field, value) in port.into_iter().enumerate() {
        cells[8 + 48 * field + 1] = value;
    }
    cells
}

/// Accepted calls change what they name; the noise stays.
#[test]
fn lent_cells() {
    let mut console = Console::new();
    shows(&mut console, &[0; 728]);
    let mut cells = two_ports();
    dialogue(&mut console, &[(&cells_said(&cells), "ok"), ("dump", "bad image")]);
    dialogue(&mut console, &[("status 1", "status 32709")]);
    cells[8 + 48 * 4 + 1] = 0;
    shows(&mut console, &cells);
    dialogue(&mut console, &[("control 1 25", "ok"), ("request 1 130", "ok")]);
    cells[8 + 48 * 2 + 1] = 300;
    shows(&mut console, &cells);
    let block = sample(0) + &sample(0b011000);
    dialogue(&mut console, &[(&format!("tick 300 {block}"), "ticked 0 2 1")]);
    cells[1] = 300;
    cells[8 + 48 * 9 + 1] = 6;
    cells[8 + 48 * 10 + 1] = 7;
    cells[8 + 48 * 11 + 1] = 8;
    shows(&mut console, &cells);
    dialogue(&mut console, &[("cold 49", "refused 2")]);
    shows(&mut console, &cells);
    dialogue(&mut console, &[("cold 48", "ok")]);
    let mut cold = vec![0; 728];
    cold[0] = 48;
    cold[56..104].fill(4);
    shows(&mut console, &cold);
}

/// One cell more or less, or one that breaks a port: 13, and nothing changes. Past
/// the count it breaks nothing.
#[test]
fn broken_cells() {
    let calls = [
        "status 1".to_string(),
        "control 1 25".to_string(),
        "request 1 1".to_string(),
        format!("tick 0 {}{}", sample(0), sample(0)),
        "control 9 3".to_string(),
    ];
    let refused = |cells: &[u16]| {
        let mut console = Console::new();
        dialogue(&mut console, &[(&cells_said(cells), "ok")]);
        for call in &calls {
            dialogue(&mut console, &[(call, "refused 13")]);
        }
        shows(&mut console, cells);
        console
    };
    for number in [0, 1, 727, 729, 1_024] {
        let mut cells = two_ports();
        cells.resize(number, 0);
        let mut console = refused(&cells);
        dialogue(&mut console, &[("cold 0", "refused 13"), ("cold 1", "refused 13")]);
        shows(&mut console, &cells);
        let zero = "00".repeat(1_014);
        dialogue(&mut console, &[("dump", "bad image"), ("table 00", "bad image")]);
        dialogue(&mut console, &[(&format!("table {zero}"), "ok"), ("dump", &zero)]);
        shows(&mut console, &[0; 728]);
    }
    for (field, least) in [(0, 10), (3, 5), (4, 256), (5, 2_001), (11, 2_001)] {
        for value in [least, 65_535] {
            for place in [0, 1] {
                let mut cells = two_ports();
                cells[8 + 48 * field + place] = value;
                refused(&cells);
            }
        }
        let mut cells = two_ports();
        cells[8 + 48 * field + 2] = least;
        let mut console = Console::new();
        dialogue(&mut console, &[(&cells_said(&cells), "ok"), ("status 0", "status 1")]);
        shows(&mut console, &cells);
    }
    let most = "0".repeat(4 * 1_024);
    assert_eq!(said(&format!("cells {most}")), "ok");
    assert_eq!(said(&format!("cells {most}0000")), "bad line");
    assert_eq!(said("cells 00"), "bad line");
    assert_eq!(said("cells 000000"), "bad line");
    assert_eq!(said("cells -"), "ok");
}

/// Same seed, same script; and a script of the size that is stored, with each word
/// once, meets every state, exit, latch, refusal, order of checks and corner.
#[test]
fn a_script_meets_everything() {
    let script = scripts::made(1, 25_500, scripts::Kind::Mixed);
    assert_eq!(script, scripts::made(1, 25_500, scripts::Kind::Mixed));
    assert_eq!(script.iter().filter(|&&byte| byte == b'\n').count(), 25_500);
    let counts = count::counted(&[script, scripts::words()].concat());
    for row in counts.lines() {
        assert!(!row.ends_with("| 0 |") && !row.contains("NOT LISTED"), "{row}");
    }
    let often = |row: &&str| row.contains("shed from") || row.starts_with("| request | 12 | ");
    for row in counts.lines().filter(often) {
        let met = row.trim_end_matches(" |").rsplit(' ').next().unwrap_or("0");
        assert!(met.parse::<u64>().unwrap() >= 100, "{row}");
    }
    let one_by_one = counts.lines().skip_while(|row| !row.starts_with("| One by one"));
    let rows: Vec<&str> = one_by_one.skip(2).take_while(|row| !row.is_empty()).collect();
    assert_eq!(rows.len(), 30);
    for row in rows {
        let cells: Vec<&str> = row.split(" | ").collect();
        assert_eq!(cells[1], cells[2].trim_end_matches(" |"), "{row}");
    }
}
