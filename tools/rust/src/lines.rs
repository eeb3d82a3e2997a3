//! The console's line language over the C interface. The rules are those at the top of tools/reference/src/lines.rs, with
//! any number of digits in a number (rule 5). `signature` and `class` have no function in C and are answered by `-`.
//!
//! A number past 32 bits goes into a call as 4294967295: as a port, a port count, a control word, a request, a supply figure, a
//! code or a power value it is then refused as the number itself is.
//!
//! The held table is so many cells at the front of a room for 1,024. A refusal that wrote, a call that wrote past the cells that it
//! was lent, and a written TLV of another length than its form's, end the program with status 1.

use crate::core::{self, Fields, Refusal, CELLS, FORM, IMAGE};
use std::io::{self, BufRead, Write};
use std::process::ExitCode;

const LONGEST_LINE: usize = 8_192;
const LONGEST_ROOM: u64 = 2_048;
const MOST_CELLS: usize = 1_024;

/// Rule 5, with any number of digits.
fn number(word: &[u8]) -> Option<u64> {
    if word.is_empty() {
        return None;
    }
    word.iter().try_fold(0u64, |value, &byte| {
        let digit = byte.is_ascii_digit().then(|| u64::from(byte - b'0'))?;
        value.checked_mul(10)?.checked_add(digit)
    })
}

fn narrow(value: u64) -> u32 {
    u32::try_from(value).unwrap_or(u32::MAX)
}

fn digit(byte: u8) -> Option<u8> {
    char::from(byte).to_digit(16).map(|value| value as u8)
}

/// Rule 6.
fn hex(word: &[u8]) -> Option<Vec<u8>> {
    if word == b"-" {
        return Some(Vec::new());
    }
    if word.is_empty() || word.len() % 2 != 0 {
        return None;
    }
    word.chunks(2).map(|pair| Some(16 * digit(pair[0])? + digit(pair[1])?)).collect()
}

fn text(bytes: &[u8]) -> String {
    if bytes.is_empty() {
        return "-".to_string();
    }
    bytes.iter().map(|byte| format!("{byte:02x}")).collect()
}

const BAD_IMAGE: &str = "bad image";

fn ok(_: ()) -> String {
    "ok".to_string()
}

fn said(answer: Result<String, Refusal>) -> Option<String> {
    Some(answer.unwrap_or_else(|number| format!("refused {number}")))
}

fn fields_text(fields: Fields) -> String {
    let shown = if fields[FORM] == 7 { &fields[1..4] } else { &fields[1..] };
    shown.iter().fold("fields".to_string(), |line, field| format!("{line} {field}"))
}

/// What no answer shows is wrong.
fn wrong(what: &str) -> ! {
    eprintln!("{what}");
    std::process::exit(1)
}

/// "the room is ROOM bytes (at most 2,048) of A5"
fn written(form: u32, words: &[&[u8]]) -> Option<String> {
    let values: Vec<u64> = words.iter().map(|word| number(word)).collect::<Option<_>>()?;
    if values[0] > LONGEST_ROOM || values[1..4].iter().any(|&octet| octet > 255) {
        return None;
    }
    let mut fields = Fields::default();
    fields[FORM] = form;
    for (place, &value) in values.iter().enumerate().skip(1) {
        fields[place] = narrow(value);
    }
    let mut room = vec![0xa5; values[0] as usize];
    let answer = core::write_power_tlv(&fields, &mut room);
    if answer.is_err() && room.iter().any(|&byte| byte != 0xa5) {
        wrong("a refusal wrote the room");
    }
    // The header's two bytes, and as many as the form says.
    if matches!(answer, Ok(length) if length != u64::from(form) + 2) {
        wrong(&format!("a TLV of form {form} was written in another number of bytes"));
    }
    said(answer.map(|_| format!("wrote {}", text(&room))))
}

/// The held table: its cells are the first of the room's.
#[derive(Clone, PartialEq)]
struct Held {
    room: [u16; MOST_CELLS],
    number: usize,
}

impl Held {
    fn cells(&mut self) -> &mut [u16] {
        &mut self.room[..self.number]
    }

    /// "the held table becomes its 728 cells", however many were held
    fn restore(&mut self, image: &[u8]) -> String {
        match core::restore(&mut self.room[..CELLS], image) {
            Ok(()) => {
                self.number = CELLS;
                ok(())
            }
            Err(_) => BAD_IMAGE.to_string(),
        }
    }

    fn dump(&mut self) -> String {
        let blank = [0x5a; IMAGE];
        let mut image = blank;
        match core::save(self.cells(), &mut image) {
            Ok(()) => text(&image),
            Err(_) if image == blank => BAD_IMAGE.to_string(),
            Err(_) => wrong("a refusal wrote the image"),
        }
    }

    /// Two bytes a cell.
    fn hold(&mut self, bytes: &[u8]) -> Option<String> {
        if bytes.len() % 2 != 0 || bytes.len() / 2 > MOST_CELLS {
            return None;
        }
        self.number = bytes.len() / 2;
        for (cell, pair) in self.room.iter_mut().zip(bytes.chunks(2)) {
            *cell = u16::from_be_bytes([pair[0], pair[1]]);
        }
        Some(ok(()))
    }

    fn show(&mut self) -> String {
        let bytes: Vec<u8> = self.cells().iter().flat_map(|cell| cell.to_be_bytes()).collect();
        format!("cells {}", text(&bytes))
    }
}

/// None: the line breaks a rule.
fn call(held: &mut Held, line: &[u8]) -> Option<String> {
    if line.len() > LONGEST_LINE {
        return None;
    }
    let words: Vec<&[u8]> = line.split(|&byte| byte == b' ').collect();
    match (words[0], &words[1..]) {
        (b"cold", [n]) => said(core::cold_start(held.cells(), narrow(number(n)?)).map(ok)),
        (b"control", [p, w]) => {
            let (port, word) = (narrow(number(p)?), narrow(number(w)?));
            said(core::write_control(held.cells(), port, word).map(ok))
        }
        (b"request", [p, v]) => {
            let (port, value) = (narrow(number(p)?), narrow(number(v)?));
            said(core::request(held.cells(), port, value).map(ok))
        }
        (b"status", [p]) => {
            let status = core::read_status(held.cells(), narrow(number(p)?));
            said(status.map(|word| format!("status {word}")))
        }
        (b"tick", [f, bytes]) => {
            let ticked = core::tick(held.cells(), &hex(bytes)?, narrow(number(f)?));
            said(ticked.map(|t| format!("ticked {} {} {}", t.mask_a, t.mask_b, t.closed)))
        }
        (b"table", [bytes]) => Some(held.restore(&hex(bytes)?)),
        (b"dump", []) => Some(held.dump()),
        (b"cells", [bytes]) => held.hold(&hex(bytes)?),
        (b"show", []) => Some(held.show()),
        (b"search", [bytes]) => {
            let found = core::find_power_tlv(&hex(bytes)?);
            said(found.map(|(offset, length)| format!("found {offset} {length}")))
        }
        (b"read", [bytes]) => said(core::read_power_tlv(&hex(bytes)?).map(fields_text)),
        (b"write7", numbers) if numbers.len() == 4 => written(7, numbers),
        (b"write12", numbers) if numbers.len() == 9 => written(12, numbers),
        (b"signature" | b"class", _) => Some("-".to_string()),
        _ => None,
    }
}

fn answers(mut input: impl BufRead, mut output: impl Write) -> io::Result<()> {
    let mut held = Held { room: [0; MOST_CELLS], number: CELLS };
    let mut line = Vec::new();
    loop {
        line.clear();
        if input.read_until(b'\n', &mut line)? == 0 {
            return output.flush();
        }
        if line.last() == Some(&b'\n') {
            line.pop();
        }
        let before = held.clone();
        let answer = call(&mut held, &line).unwrap_or_else(|| "bad line".to_string());
        if (answer.starts_with("refused") || answer == BAD_IMAGE) && held != before {
            wrong("a refusal wrote the table");
        }
        let past = held.number.max(before.number);
        if held.room[past..] != before.room[past..] {
            wrong("a call wrote past the table");
        }
        writeln!(output, "{answer}")?;
    }
}

pub fn answer_all() -> ExitCode {
    match answers(io::stdin().lock(), io::BufWriter::new(io::stdout().lock())) {
        Ok(()) => ExitCode::SUCCESS,
        Err(error) => {
            eprintln!("{error}");
            ExitCode::FAILURE
        }
    }
}
