//! One thing alone: a flag, a bit of a word, a count of 49, bytes left of an
//! earlier line. Chance seldom makes these, and a wrong comparison often shows in
//! one of them only, so they come in turn.

use super::readings::pressing;
use super::tables::{image_line, near_port, near_table};
use super::Maker;
use crate::alone::LIMIT_VALUES;
use crate::image::{written, IMAGE_BYTES, PORT_BYTES};
use crate::lines::hex_text;
use crate::port::{control_reserved, Port, State, STATES};
use crate::random::Random;
use crate::reading::{Sample, LOAD_PRESENT, RESERVED_FLAGS, SAMPLE_BYTES};
use crate::table::{Table, PLACES};
use crate::tlv::{made, Extension, Fields};

/// Half of the turns go to the flag words, of which there are 640.
pub fn alone(maker: &mut Maker) {
    match maker.turn(9) % 14 {
        0 => each_flag(maker),
        1 => each_bit_of_control(maker),
        2 => each_request(maker),
        3 => {
            for _ in 0..2 {
                one_place_too_many(maker);
            }
        }
        4 => left_over(maker),
        5 => {
            for place in [0, 47, maker.r.below(48) as usize] {
                one_short(maker, place);
            }
        }
        6 => each_answer(maker),
        7 => each_value(maker),
        _ => {
            for _ in 0..3 {
                flag_words(maker);
            }
        }
    }
}

/// A block in which one port has these flags, and every other none that is
/// reserved.
fn block_with(maker: &mut Maker, port: u64, flags: u16) -> String {
    let mut block = Vec::new();
    for p in 0..maker.ports() {
        let sample = pressing(&mut maker.r);
        let sample = if p == port { Sample { flags, ..sample } } else { sample };
        block.extend(sample.bytes());
    }
    maker.hex(&block)
}

/// Each of the 16 flags as the only one of a port, and of 15:6 as the only fault
/// of a tick: in port 0, in the last one and in one between.
fn each_flag(maker: &mut Maker) {
    maker.say("cold 3");
    for port in 0..3 {
        let word = 0x5 + 0x4 * maker.r.below(2) + 0x10 * maker.r.below(4);
        maker.say(&format!("control {port} {word}"));
    }
    for bit in 0..16 {
        for port in 0..3 {
            let block = block_with(maker, port, 1 << bit);
            maker.say(&format!("tick 60000 {block}"));
        }
    }
    // The last of 48: no place of a full table is forgotten.
    maker.say("cold 48");
    let bit = maker.r.between(6, 15);
    let port = maker.r.pick(&[0, 47]);
    let block = block_with(maker, port, 1 << bit);
    maker.say(&format!("tick 60000 {block}"));
}

/// Every word of six bits for a port in DISABLED, which may take each; then every
/// higher bit alone beside a word that would do.
fn each_bit_of_control(maker: &mut Maker) {
    maker.say("cold 2");
    let port = maker.r.below(2);
    for word in 0..64 {
        maker.say(&format!("control {port} {word}"));
    }
    let fine = maker.r.pick(&[5, 0x26]);
    for bit in 6..64 {
        maker.say(&format!("control {port} {}", fine + (1u64 << bit)));
    }
}

/// On both sides of each step of a request, upwards or downwards, for every class
/// and from every demand. The supply has room for all, or not for one step more.
fn each_request(maker: &mut Maker) {
    let demands = [0, 40, 70, 154, 300];
    let mut table = Table::cold(25).unwrap_or_else(|_| Table::zero());
    for place in 0..25 {
        let port = calm_port(&mut maker.r, State::PowerOn);
        let (class, demand) = (place as u8 / 5, demands[place % 5]);
        table.ports[place] = Port { class, demand, ..port };
    }
    let drawn = table.closed_demands() as u16;
    table.supply = maker.r.pick(&[60_000, drawn + 29, drawn + 83, drawn + 145]);
    image_line(maker, &written(&table));
    let mut values = [1, 38, 39, 64, 65, 129, 130, 255, 256, 999];
    for place in 0..25 {
        if maker.r.chance(50) {
            values.reverse();
        }
        for value in values {
            maker.say(&format!("request {place} {value}"));
        }
    }
    maker.say("dump");
}

/// On both sides of each limit of a power value: of a TLV that is read and of one
/// that is written, the one value and the other alone; and asked for by a port in
/// POWER_ON whose class and supply allow all that can be had, and by one that is not.
fn each_value(maker: &mut Maker) {
    let octets = [0; 3].map(|_: u8| maker.r.next() as u8);
    for value in LIMIT_VALUES {
        for first in [true, false] {
            let other = maker.r.between(0, 999);
            let (requested, allocated) = if first { (value, other) } else { (other, value) };
            let [kind, source, priority] = [0; 3].map(|_: u64| maker.r.below(4));
            let fields = Extension { kind, source, priority, requested, allocated };
            let bytes = hex_text(&made(&Fields { octets, extension: Some(fields) }));
            maker.say(&format!("read {bytes}"));
            let head = format!("{} {} {}", octets[0], octets[1], octets[2]);
            let codes = format!("{kind} {source} {priority}");
            maker.say(&format!("write12 14 {head} {codes} {requested} {allocated}"));
        }
    }
    let mut table = Table::cold(2).unwrap_or_else(|_| Table::zero());
    table.ports[0] = Port { class: 4, demand: 40, ..calm_port(&mut maker.r, State::PowerOn) };
    let other = maker.r.pick(&[State::PowerUp, State::Idle, State::TestMode]);
    table.ports[1] = Port { class: 4, demand: 40, ..calm_port(&mut maker.r, other) };
    table.supply = 60_000;
    image_line(maker, &written(&table));
    for value in LIMIT_VALUES {
        for port in 0..2 {
            maker.say(&format!("request {port} {value}"));
        }
    }
    maker.say("dump");
}

/// A port in the state, far from the limits of its counters, all of which stand
/// at something: a counter that runs or stops wrongly is then seen.
fn calm_port(r: &mut Random, state: State) -> Port {
    let port = near_port(r, state);
    let enable = if matches!(state, State::TestMode | State::TestError) { 2 } else { 1 };
    let control = port.control & !3 | enable;
    Port { control, counters: [0; 7].map(|_: u16| r.between(1, 50) as u16), ..port }
}

/// A full table in which each place has the next pair of a state and a word of
/// the six flags, a tick, and what it left.
fn flag_words(maker: &mut Maker) {
    let mut table = Table::zero();
    table.count = PLACES as u16;
    table.supply = maker.r.pick(&[0, 300, 60_000]);
    let mut block = Vec::new();
    for place in &mut table.ports {
        let turn = maker.turn(10);
        let (state, flags) = (STATES[turn as usize % 10], (turn / 10 % 64) as u16);
        let r = &mut maker.r;
        *place = if r.chance(85) { calm_port(r, state) } else { near_port(r, state) };
        block.extend(Sample { flags, ..pressing(r) }.bytes());
    }
    image_line(maker, &written(&table));
    // All fits: what is shed would not show its counters' rule.
    let block = maker.hex(&block);
    maker.say(&format!("tick 60000 {block}"));
    maker.say("dump");
}

/// A full table in which all claim, one of them last in the ranking, and a supply
/// that is one short of all: that one alone is shed, whichever place it has.
fn one_short(maker: &mut Maker, last: usize) {
    let mut table = Table::zero();
    table.count = PLACES as u16;
    for (p, place) in table.ports.iter_mut().enumerate() {
        let r = &mut maker.r;
        let asks = p == last && r.chance(50);
        let state = if asks { State::Idle } else { State::PowerOn };
        let priority = if p == last { 3 } else { r.between(1, 2) as u16 };
        let control = priority << 4 | (r.between(1, 2) as u16) << 2 | if asks { 2 } else { 1 };
        let demand = r.pick(&[40, 70, 154, 300]);
        *place = Port { control, demand, ..calm_port(r, state) };
    }
    image_line(maker, &written(&table));
    let mut block = Vec::new();
    for _ in 0..PLACES {
        block.extend(Sample { flags: LOAD_PRESENT, ..pressing(&mut maker.r) }.bytes());
    }
    let ranking = table.ranking(&table.moves(&block));
    let all: u64 = ranking.iter().map(|claim| u64::from(claim.demand)).sum();
    let block = maker.hex(&block);
    maker.say(&format!("tick {} {block}", all - 1));
    maker.say("dump");
}

/// Every call with every answer, on a table where much is set, and after each a
/// dump: an accepted call changes what it names, and a refused one nothing.
fn each_answer(maker: &mut Maker) {
    let mut table = near_table(maker, 6);
    let r = &mut maker.r;
    let states = [State::PowerOn, State::PowerOn, State::Classifying, State::Disabled];
    for (place, state) in states.into_iter().enumerate() {
        table.ports[place] = Port { demand: 40, latches: 255, ..calm_port(r, state) };
    }
    table.ports[0].class = 4;
    table.ports[1].class = 1;
    table.supply = table.closed_demands() as u16;
    image_line(maker, &written(&table));
    let samples = hex_text(&[0; 6 * SAMPLE_BYTES]);
    each_with_a_dump(maker, &calls_and_refusals(&table, &samples));
    // Ill-made by one class: 13, whatever the call.
    table.ports[5].class = 5;
    image_line(maker, &written(&table));
    // A cold start forgets all of it, in the places past its count too.
    let (tick, cold) =
        (format!("tick 1 {samples}"), maker.r.pick(&["cold 1", "cold 7", "cold 48"]));
    let calls = ["control 3 21", "status 1", "request 0 1", &tick, cold];
    each_with_a_dump(maker, &calls.map(str::to_string));
}

/// For that table: each call accepted, and refused with each number but 13.
fn calls_and_refusals(table: &Table, samples: &str) -> Vec<String> {
    let other = table.ports[2].control ^ 0xC;
    let reserved = format!("{}0040", &samples[4..]);
    vec![
        "control 3 21".to_string(),
        "control 6 5".to_string(),
        "control 0 69".to_string(),
        format!("control 2 {other}"),
        "status 1".to_string(),
        "status 6".to_string(),
        "request 0 1".to_string(),
        "request 6 1".to_string(),
        "request 0 0".to_string(),
        "request 2 1".to_string(),
        "request 1 130".to_string(),
        "request 0 256".to_string(),
        "request 0 255".to_string(),
        format!("tick 1 {}", &samples[2..]),
        format!("tick 60001 {samples}"),
        format!("tick 1 {reserved}"),
        "cold 49".to_string(),
    ]
}

fn each_with_a_dump(maker: &mut Maker, calls: &[String]) {
    for call in calls {
        maker.say(call);
        maker.say("dump");
    }
}

/// A count of 49, and everything else well-made. Whoever takes it for one finds
/// the count and the supply where the next port would stand: so the supply is a
/// control word that a port may have.
fn one_place_too_many(maker: &mut Maker) {
    let words: Vec<u16> = (0..64).filter(|&word| !control_reserved(u64::from(word))).collect();
    let mut table = Table::zero();
    table.count = 49;
    table.supply = words[maker.turn(11) as usize % words.len()];
    for place in &mut table.ports {
        let state = maker.r.pick(&STATES);
        *place = calm_port(&mut maker.r, state);
    }
    image_line(maker, &written(&table));
    for ports in [48, 49] {
        let block = "00".repeat(ports * SAMPLE_BYTES);
        maker.say(&format!("tick 60000 {block}"));
    }
    let port = maker.r.below(48);
    for line in ["status 48", "control 48 5", "request 48 1"] {
        maker.say(line);
    }
    for call in ["status {}", "control {} 4", "request {} 1"] {
        maker.say(&call.replace("{}", &port.to_string()));
    }
}

/// A long line first, whose bytes would go on where a shorter one ends: with a
/// state over 9 or a reserved flag. The shorter line is none the
/// worse for it.
fn left_over(maker: &mut Maker) {
    let state = maker.r.pick(&STATES);
    let mut table = Table::zero();
    table.count = maker.r.between(1, 3) as u16;
    for place in &mut table.ports {
        *place = calm_port(&mut maker.r, state);
    }
    let image = written(&table);
    let mut long = image.clone();
    long.resize(IMAGE_BYTES + PORT_BYTES, 0);
    let (at, byte) = maker.r.pick(&[(0, 10), (0, 255)]);
    long[IMAGE_BYTES + at] = byte;
    image_line(maker, &long);
    image_line(maker, &image);
    let ports = usize::from(table.count);
    let mut block = vec![0; ports * SAMPLE_BYTES];
    let short = hex_text(&block);
    block.extend([0; SAMPLE_BYTES - 2]);
    block.extend(RESERVED_FLAGS.to_be_bytes());
    maker.say(&format!("tick 60000 {}", hex_text(&block)));
    maker.say(&format!("tick 60000 {short}"));
    maker.say("dump");
}
