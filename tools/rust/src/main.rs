//! A port from a cold start to power and shed again, another on alternative B whose requests are answered, a table saved and
//! restored, a power TLV read and written, and two class failures, through the C interface. Every answer is compared with the
//! one that document 01 and the requests after it give; a difference is an exit status of 1.
//!
//!     interface            the demonstration
//!     interface lines      answers the console's lines

mod core;
mod lines;

use crate::core::{header, Fields, Refusal, Ticked};
use crate::core::{CELLS, FORM, IMAGE, LONGEST_PDU, LONGEST_TLV, REQUESTED, SAMPLE};
use std::process::ExitCode;

struct Shown {
    differs: bool,
}

impl Shown {
    fn is(&mut self, what: &str, got: u64, wanted: u64) {
        println!("{what}: {got}");
        if got != wanted {
            eprintln!("{what}: {got}, and it must be {wanted}");
            self.differs = true;
        }
    }

    fn answers<T>(&mut self, what: &str, got: Result<T, Refusal>, wanted: Refusal) -> Option<T> {
        let number = got.as_ref().err().copied().unwrap_or(header::OK);
        self.is(what, number.into(), wanted.into());
        got.ok()
    }

    /// A tick's masks, the number closed, and the figure that it leaves in the table; a refused one differs already.
    fn tick(&mut self, what: &str, table: &mut [u16], samples: &[u8], supply: u32, wanted: Ticked) {
        println!("{what}");
        if let Some(t) = self.answers("  tick", core::tick(table, samples, supply), header::OK) {
            self.is("  mask a", t.mask_a, wanted.mask_a);
            self.is("  mask b", t.mask_b, wanted.mask_b);
            self.is("  closed", t.closed.into(), wanted.closed.into());
        }
        self.is("  stored supply", table[header::CELL_SUPPLY].into(), supply.into());
    }
}

/// One port is closed or none: port 0 on alternative A.
fn on_a(closed: u32) -> Ticked {
    Ticked { mask_a: closed.into(), mask_b: 0, closed }
}

/// Port 2, on alternative B.
fn on_b(closed: u32) -> Ticked {
    Ticked { mask_a: 0, mask_b: u64::from(closed) << 2, closed }
}

/// The block of three ports, the last of which has the sample.
fn last(sample: [u8; SAMPLE]) -> [u8; 3 * SAMPLE] {
    let mut samples = [0; 3 * SAMPLE];
    samples[2 * SAMPLE..].copy_from_slice(&sample);
    samples
}

/// V1 4,000 mV, V2 5,900 mV, I1 0, I2 100 uA, detection done: 1,900/100 is valid.
const DETECTED: [u8; SAMPLE] = [0x0f, 0xa0, 0x17, 0x0c, 0, 0, 0, 100, 0, 0, 0, 0, 0, 1];

fn shed(shown: &mut Shown, table: &mut [u16]) {
    let still = [0; SAMPLE];
    // C1 10,000 uA, class done: class 1, of 4.0 W.
    let classified = [0, 0, 0, 0, 0, 0, 0, 0, 0x27, 0x10, 0, 0, 0, 2];
    let settled = [0, 0, 0, 0, 0, 0, 0, 0, 0, 0, 0, 0, 0, 0x24];

    shown.answers("cold start of 1 port", core::cold_start(table, 1), header::OK);
    let control = core::write_control(table, 0, 0x0005);
    shown.answers("control: enabled, alternative A", control, header::OK);
    shown.tick("DISABLED goes to IDLE", table, &still, 154, on_a(0));
    shown.tick("IDLE goes to DETECTING", table, &still, 154, on_a(0));
    shown.tick("a valid signature goes to CLASSIFYING", table, &DETECTED, 154, on_a(0));
    shown.tick("class 1 goes to POWER_UP: the port is closed", table, &classified, 154, on_a(1));
    shown.tick("settled goes to POWER_ON", table, &settled, 154, on_a(1));
    shown.answers("request of 39: 7.0 W", core::request(table, 0, 39), header::OVER_CLASS);
    shown.tick("a supply of 3.9 W sheds 4.0 W", table, &settled, 39, on_a(0));
    shown.is("state", table[header::CELL_STATE].into(), header::STATE_IDLE.into());
    let latches = header::LATCH_DENIED | header::LATCH_VALID;
    shown.is("latches", table[header::CELL_LATCHES].into(), latches.into());
    // Latches 12 denied and 11 valid signature, class 1, condition 1, bit 0.
    if let Some(word) = shown.answers("status", core::read_status(table, 0), header::OK) {
        shown.is("  word", word.into(), 0x1813);
    }
    if let Some(word) = shown.answers("status again", core::read_status(table, 0), header::OK) {
        shown.is("  word without latches", word.into(), 0x0013);
    }
    shown.is("latches", table[header::CELL_LATCHES].into(), 0);
}

/// Which failure of the class it was, by the latches: each is cleared by a status read.
fn class_failures(shown: &mut Shown, table: &mut [u16]) {
    let still = [0; 2 * SAMPLE];
    shown.answers("cold start of 2 ports", core::cold_start(table, 2), header::OK);
    shown.answers("control of port 0", core::write_control(table, 0, 0x0005), header::OK);
    shown.answers("control of port 1", core::write_control(table, 1, 0x0005), header::OK);
    shown.tick("both go to IDLE", table, &still, 600, on_a(0));
    shown.tick("both go to DETECTING", table, &still, 600, on_a(0));
    shown.tick("both go to CLASSIFYING", table, &[DETECTED, DETECTED].concat(), 600, on_a(0));
    // 45,001 uA and then 45,000 uA; 45,000 uA and then 45,001 uA. Class done.
    let over = [0, 0, 0, 0, 0, 0, 0, 0, 0xaf, 0xc9, 0xaf, 0xc8, 0, 2];
    let apart = [0, 0, 0, 0, 0, 0, 0, 0, 0xaf, 0xc8, 0xaf, 0xc9, 0, 2];
    shown.tick("a class failure goes to IDLE", table, &[over, apart].concat(), 600, on_a(0));
    let (first, second) = (header::CELL_LATCHES, header::CELL_LATCHES + 1);
    let over_current = header::LATCH_CLASS_OVER_CURRENT | header::LATCH_VALID;
    let disagree = header::LATCH_EVENTS_DISAGREE | header::LATCH_VALID;
    shown.is("latches of port 0", table[first].into(), over_current.into());
    shown.is("latches of port 1", table[second].into(), disagree.into());
    // Latch 13 class over current or 14 events disagree, 11 valid signature, condition 1, bit 0.
    if let Some(word) = shown.answers("status of port 0", core::read_status(table, 0), header::OK) {
        shown.is("  word", word.into(), 0x2803);
    }
    if let Some(word) = shown.answers("status of port 1", core::read_status(table, 1), header::OK) {
        shown.is("  word", word.into(), 0x4803);
    }
    shown.is("latches of port 0", table[first].into(), 0);
    shown.is("latches of port 1", table[second].into(), 0);
}

/// Each refusal leaves the table and the places for answers as they were; `core` has seen the latter at every call.
fn refusals(shown: &mut Shown, table: &mut [u16]) {
    let mut before = table.to_vec();
    let mut samples = [0; SAMPLE];
    shown.answers(
        "cold start of 49 ports",
        core::cold_start(table, header::PORTS + 1),
        header::NO_SUCH_PORT,
    );
    shown.answers(
        "cold start in 727 cells",
        core::cold_start(&mut table[..CELLS - 1], 1),
        header::ILL_MADE,
    );
    shown.answers("control of port 1", core::write_control(table, 1, 0x0005), header::NO_SUCH_PORT);
    shown.answers(
        "control with enable 11",
        core::write_control(table, 0, 0x0007),
        header::RESERVED,
    );
    shown.answers(
        "control to alternative B",
        core::write_control(table, 0, 0x0009),
        header::WRONG_STATE,
    );
    shown.answers("status of port 1", core::read_status(table, 1), header::NO_SUCH_PORT);
    shown.answers("request of 0", core::request(table, 0, 0), header::BAD_VALUE);
    let too_high = core::request(table, 0, header::HIGHEST_VALUE + 1);
    shown.answers("request of 1,000", too_high, header::BAD_VALUE);
    shown.answers("request in IDLE", core::request(table, 0, 1), header::WRONG_STATE);
    shown.answers("request of 999 in IDLE", core::request(table, 0, 999), header::WRONG_STATE);
    shown.answers(
        "tick on 13 bytes",
        core::tick(table, &samples[..SAMPLE - 1], 154),
        header::BAD_LENGTH,
    );
    shown.answers("tick at 60,001", core::tick(table, &samples, 60_001), header::SUPPLY_TOO_LARGE);
    samples[SAMPLE - 1] = 0x40;
    shown.answers("tick with flag 6", core::tick(table, &samples, 154), header::RESERVED);
    let cut = core::tick(&mut table[..CELLS - 1], &samples, 154);
    shown.answers("tick on 727 cells", cut, header::ILL_MADE);
    shown.is("the table is as it was", u64::from(before == table), 1);
    table[header::CELL_STATE] = 10;
    before[header::CELL_STATE] = 10;
    shown.answers("tick of a state 10", core::tick(table, &samples, 154), header::ILL_MADE);
    shown.answers("status in a state 10", core::read_status(table, 0), header::ILL_MADE);
    shown.is("the table is as it was", u64::from(before == table), 1);
    shown.is("the places for answers are as they were", 1, 1);
}

fn requests(shown: &mut Shown, table: &mut [u16]) {
    let still = [0; SAMPLE];
    // C1 and C2 40,000 uA, class done: class 4, of 30.0 W.
    let classified = [0, 0, 0, 0, 0, 0, 0, 0, 0x9c, 0x40, 0x9c, 0x40, 0, 2];
    let settled = [0, 0, 0, 0, 0, 0, 0, 0, 0, 0, 0, 0, 0, 0x24];

    shown.answers("cold start of 3 ports", core::cold_start(table, 3), header::OK);
    let control = core::write_control(table, 2, 0x0009);
    shown.answers("control of port 2: enabled, alternative B", control, header::OK);
    shown.tick("port 2 goes to IDLE", table, &last(still), 300, on_b(0));
    shown.tick("port 2 goes to DETECTING", table, &last(still), 300, on_b(0));
    shown.tick("port 2 goes to CLASSIFYING", table, &last(DETECTED), 300, on_b(0));
    shown.tick("class 4 goes to POWER_UP", table, &last(classified), 300, on_b(1));
    shown.answers("request in POWER_UP", core::request(table, 2, 38), header::WRONG_STATE);
    shown.tick("settled goes to POWER_ON", table, &last(settled), 300, on_b(1));
    let past_the_last_level = core::request(table, 2, 256);
    shown.answers("request of 256: over every class", past_the_last_level, header::OVER_CLASS);
    let highest = core::request(table, 2, header::HIGHEST_VALUE);
    shown.answers("request of 999: over every class", highest, header::OVER_CLASS);
    shown.answers("request of 38: 4.0 W", core::request(table, 2, 38), header::OK);
    shown.tick("a supply of 4.0 W keeps it", table, &last(settled), 40, on_b(1));
    shown.tick("a supply of 29.9 W keeps it", table, &last(settled), 299, on_b(1));
    shown.answers("request of 130: 30.0 W", core::request(table, 2, 130), header::OVER_SUPPLY);
    shown.answers("request of 129: 15.4 W", core::request(table, 2, 129), header::OK);
    // Latch 11 valid signature, class 4, condition 2, bit 0.
    if let Some(word) = shown.answers("status of port 2", core::read_status(table, 2), header::OK) {
        shown.is("  word", word.into(), 0x0845);
    }
    shown.tick("a supply of 15.3 W sheds it", table, &last(settled), 153, on_b(0));
    // Latch 12 denied, class 4, condition 1, bit 0.
    if let Some(word) = shown.answers("status of port 2", core::read_status(table, 2), header::OK) {
        shown.is("  word", word.into(), 0x1043);
    }
}

/// The table that was left, through its image, and past the count whatever stands there.
fn images(shown: &mut Shown, table: &mut [u16]) {
    let before = table.to_vec();
    let blank = [0xa5; IMAGE];
    let mut image = blank;
    let cut = core::save(table, &mut image[..IMAGE - 1]);
    shown.answers("save in 1,013 bytes", cut, header::BAD_LENGTH);
    let cut = core::save(&table[..CELLS - 1], &mut image);
    shown.answers("save of 727 cells", cut, header::ILL_MADE);
    let past = header::CELL_STATE + 47;
    table[past] = 10;
    let saved = core::save(table, &mut image);
    shown.answers("save of a state 10 past the count", saved, header::ILL_MADE);
    shown.is("the image is as it was", u64::from(image == blank), 1);
    let status = core::read_status(table, 2);
    if let Some(word) = shown.answers("status, beside that state", status, header::OK) {
        shown.is("  word", word.into(), 0x0043);
    }
    shown.is("the state past the count", table[past].into(), 10);
    table[past] = before[past];
    shown.is("the table is as it was", u64::from(before == table), 1);
    shown.answers("save", core::save(table, &mut image), header::OK);
    shown.is("  count", image[1].into(), 3);
    // 6 bytes of head and 21 a port; the control word is a port's bytes 1 and 2.
    shown.is("  control of port 2", image[6 + 2 * 21 + 2].into(), 0x0009);
    restored(shown, table, image);
}

fn restored(shown: &mut Shown, table: &[u16], mut image: [u8; IMAGE]) {
    let mut restored = [0xa5a5; CELLS];
    let cut = core::restore(&mut restored[..CELLS - 1], &image);
    shown.answers("restore in 727 cells", cut, header::ILL_MADE);
    let cut = core::restore(&mut restored, &image[..IMAGE - 1]);
    shown.answers("restore of 1,013 bytes", cut, header::ILL_MADE);
    image[6] = 10;
    let ill = core::restore(&mut restored, &image);
    shown.answers("restore of a state 10", ill, header::ILL_MADE);
    shown.is("the cells are as they were", u64::from(restored == [0xa5a5; CELLS]), 1);
    image[6] = header::STATE_DISABLED as u8;
    shown.answers("restore", core::restore(&mut restored, &image), header::OK);
    shown.is("  the same table", u64::from(restored == table), 1);
}

fn frames(shown: &mut Shown) {
    let pdu = [
        0x02, 0x07, 0x04, 0x00, 0x11, 0x22, 0x33, 0x44, 0x55, 0xfe, 0x0c, 0x00, 0x12, 0x0f, 0x02,
        0x00, 0x01, 0x05, 0x52, 0x00, 0xff, 0x00, 0x82, 0x00, 0x00,
    ];
    let wanted: Fields = [12, 0, 1, 5, 1, 1, 2, 255, 130];
    let names = [
        "form",
        "support",
        "pair",
        "class",
        "type",
        "source",
        "priority",
        "requested",
        "allocated",
    ];
    let tlv = &pdu[9..9 + LONGEST_TLV];
    let found = shown.answers("find the power TLV", core::find_power_tlv(&pdu), header::OK);
    if let Some((offset, length)) = found {
        shown.is("  offset", offset, 9);
        shown.is("  length", length, LONGEST_TLV as u64);
    }
    if let Some(fields) = shown.answers("read it", core::read_power_tlv(tlv), header::OK) {
        for (i, name) in names.iter().enumerate() {
            shown.is(&format!("  {name}"), fields[i].into(), wanted[i].into());
        }
    }
    written(shown, wanted, tlv);
    let twice = [tlv, tlv].concat();
    shown.answers("read it twice", core::read_power_tlv(&twice), header::NOT_ONE_TLV);
    shown.answers("find it twice", core::find_power_tlv(&twice), header::SEVERAL_TLVS);
    shown.answers("find in an empty PDU", core::find_power_tlv(&[]), header::NO_TLV);
    let blank = [0; LONGEST_PDU + 1];
    let longest = core::find_power_tlv(&blank[..LONGEST_PDU]);
    shown.answers("find in 1,500 bytes", longest, header::NO_TLV);
    shown.answers("find in 1,501 bytes", core::find_power_tlv(&blank), header::BAD_LENGTH);
}

fn written(shown: &mut Shown, mut fields: Fields, tlv: &[u8]) {
    let mut room = [0xa5; LONGEST_TLV + 2];
    let cut = core::write_power_tlv(&fields, &mut room[..LONGEST_TLV - 1]);
    shown.answers("write it in 13 bytes", cut, header::BAD_LENGTH);
    shown.is("  the room is as it was", room[0].into(), 0xa5);
    if let Some(n) =
        shown.answers("write it", core::write_power_tlv(&fields, &mut room), header::OK)
    {
        shown.is("  written", n, LONGEST_TLV as u64);
    }
    shown.is("  the same bytes", u64::from(&room[..LONGEST_TLV] == tlv), 1);
    shown.is("  the room past it", room[LONGEST_TLV].into(), 0xa5);
    fields[FORM] = 8;
    shown.answers("write form 8", core::write_power_tlv(&fields, &mut room), header::RESERVED);
    fields[FORM] = 7;
    if let Some(n) =
        shown.answers("write form 7", core::write_power_tlv(&fields, &mut room), header::OK)
    {
        shown.is("  written", n, 9);
    }
    if let Some(fields) = shown.answers("read form 7", core::read_power_tlv(&room[..9]), header::OK)
    {
        shown.is("  form", fields[FORM].into(), 7);
        shown.is("  requested", fields[REQUESTED].into(), 0);
    }
    shown.answers("read it cut", core::read_power_tlv(&room[..8]), header::CUT);
}

/// Both ends of a TLV's values are written and read back; one past the end is refused, and nothing is written or read.
fn values(shown: &mut Shown) {
    let mut fields: Fields = [12, 7, 1, 5, 1, 1, 2, 0, header::HIGHEST_VALUE];
    let mut room = [0; LONGEST_TLV];
    let wrote = core::write_power_tlv(&fields, &mut room);
    shown.answers("write requested 0, allocated 999", wrote, header::OK);
    if let Some(back) = shown.answers("read it back", core::read_power_tlv(&room), header::OK) {
        shown.is("  the same fields", u64::from(back == fields), 1);
    }
    let before = room;
    fields[REQUESTED] = header::HIGHEST_VALUE + 1;
    let refused = core::write_power_tlv(&fields, &mut room);
    shown.answers("write requested 1,000", refused, header::BAD_VALUE);
    shown.is("  the room is as it was", u64::from(room == before), 1);
    room[13] += 1;
    let read = core::read_power_tlv(&room);
    shown.answers("read allocated 1,000", read, header::BAD_VALUE);
    // A refused read hands no fields back.
    shown.is("  the fields are as they were", u64::from(read.is_err()), 1);
}

fn main() -> ExitCode {
    if std::env::args().nth(1).as_deref() == Some("lines") {
        return lines::answer_all();
    }
    let mut shown = Shown { differs: false };
    let mut table = [0; CELLS];
    shed(&mut shown, &mut table);
    refusals(&mut shown, &mut table);
    requests(&mut shown, &mut table);
    images(&mut shown, &mut table);
    frames(&mut shown);
    values(&mut shown);
    class_failures(&mut shown, &mut table);
    ExitCode::from(u8::from(shown.differs))
}
