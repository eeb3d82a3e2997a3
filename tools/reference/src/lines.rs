//! The console's line language (docs/CONSOLE.md), as rules that another program can
//! follow to the letter. Everything is bytes; no character set is assumed.
//!
//! 1.  The input is cut at each newline (byte 0A), which belongs to no line.
//!     Bytes after the last newline are a line if there is at least one of
//!     them; nothing after the last newline is no line. Every line, the empty
//!     one too, gets exactly one answer line.
//! 2.  A line of more than 8,192 bytes (its newline not counted) is a bad line,
//!     whatever it says. One of 8,192 is not.
//! 3.  A line is cut into words at each single space (byte 20). Two spaces in a
//!     row, a leading or a trailing space make an empty word; an empty word is
//!     never a command, a number or a HEX, so the line is bad. No other byte
//!     separates: tab, carriage return and NUL are bytes of a word like any
//!     other, and make it bad as no command, number or HEX has them.
//! 4.  The first word is the command, in lower case to the letter. The number of
//!     words is exactly the one of the form; more or fewer is a bad line. An
//!     empty line is a bad line.
//! 5.  A NUMBER is one or more bytes, each 0 to 9, of value at most
//!     18,446,744,073,709,551,615. Leading zeros are allowed, however many. No
//!     sign, no separator. Anything else is a bad line.
//! 6.  A HEX is `-` alone (no bytes), or an even number, at least two, of the
//!     bytes 0-9, a-f, A-F (cases may mix), high digit first. Anything else is a
//!     bad line.
//! 7.  Narrow numbers: S, P and C of `write7` and `write12` are at most 255; the
//!     numbers of `signature` and `class` are at most 65,535; ROOM is at most
//!     2,048. A greater one is a bad line. All other numbers go to the call as
//!     they are, with document 01's order of checks (so `control 18446744073709551615 3`
//!     on a well-made table is 2, and 13 on an ill-made one).
//! 8.  The forms: `cold N`, `table HEX`, `dump`, `cells HEX`, `show`,
//!     `control P W`, `request P V`, `status P`, `tick F HEX`, `search HEX`,
//!     `read HEX`, `write7 ROOM S P C`,
//!     `write12 ROOM S P C TYPE SOURCE PRIORITY REQUESTED ALLOCATED`,
//!     `signature V1 V2 I1 I2`, `class C1 C2`. The bytes of `cells` are cells of
//!     two, big-endian: an odd number of bytes, or over 1,024 cells, is a bad line.
//! 9.  A line that keeps these rules is never `bad line`; one that breaks any of
//!     them is answered `bad line` before any call is made. `table` with a HEX
//!     that is no image is `bad image`. Both, and every refusal, leave the held
//!     table as it was. `dump` is `bad image` if no image shows the held cells.
//! 10. Answers: words separated by one space, numbers in decimal without leading
//!     zeros, HEX in lower case, a newline after each.

use std::fmt;

use crate::cells;
use crate::image;
use crate::reading::{class, signature, ClassReading, Failure, Signature};
use crate::table::{Table, Ticked};
use crate::tlv::{self, Extension, Fields};

pub const LONGEST_LINE: usize = 8_192;
pub const LONGEST_ROOM: u64 = 2_048;

/// A line that keeps the rules.
#[derive(Clone, PartialEq, Eq, Debug)]
pub enum Line {
    Cold(u64),
    Table(Vec<u8>),
    Dump,
    Cells(Vec<u16>),
    Show,
    Control(u64, u64),
    Request(u64, u64),
    Status(u64),
    Tick(u64, Vec<u8>),
    Search(Vec<u8>),
    Read(Vec<u8>),
    Write(usize, Fields),
    Signature([u16; 4]),
    Class(u16, u16),
}

/// What a line is answered.
#[derive(Clone, PartialEq, Eq, Debug)]
pub enum Answer {
    Ok,
    Refused(u8),
    BadImage,
    BadLine,
    Image(Vec<u8>),
    Cells(Vec<u16>),
    Status(u16),
    Ticked(Ticked),
    Found(usize, usize),
    Fields(Fields),
    Wrote(Vec<u8>),
    Signature(Signature),
    Class(ClassReading),
}

/// Rule 5.
fn number(word: &[u8]) -> Option<u64> {
    if word.is_empty() {
        return None;
    }
    let mut value = 0u64;
    for &byte in word {
        if !byte.is_ascii_digit() {
            return None;
        }
        value = value.checked_mul(10)?.checked_add(u64::from(byte - b'0'))?;
    }
    Some(value)
}

/// Rule 7.
fn number_up_to(word: &[u8], most: u64) -> Option<u64> {
    number(word).filter(|&value| value <= most)
}

fn octet(word: &[u8]) -> Option<u8> {
    number_up_to(word, 255).map(|value| value as u8)
}

fn narrow(word: &[u8]) -> Option<u16> {
    number_up_to(word, 65_535).map(|value| value as u16)
}

fn digit(byte: u8) -> Option<u8> {
    match byte {
        b'0'..=b'9' => Some(byte - b'0'),
        b'a'..=b'f' => Some(byte - b'a' + 10),
        b'A'..=b'F' => Some(byte - b'A' + 10),
        _ => None,
    }
}

/// Rule 6.
fn hex(word: &[u8]) -> Option<Vec<u8>> {
    if word == b"-" {
        return Some(Vec::new());
    }
    if word.is_empty() || word.len() % 2 != 0 {
        return None;
    }
    word.chunks(2).map(|pair| Some(digit(pair[0])? << 4 | digit(pair[1])?)).collect()
}

/// Rule 8, the bytes of `cells`.
fn words_of(bytes: &[u8]) -> Option<Vec<u16>> {
    if bytes.len() % 2 != 0 || bytes.len() / 2 > cells::MOST_CELLS {
        return None;
    }
    Some(bytes.chunks(2).map(|pair| u16::from(pair[0]) << 8 | u16::from(pair[1])).collect())
}

/// Cells as bytes, high byte first.
pub fn bytes_of(cells: &[u16]) -> Vec<u8> {
    cells.iter().flat_map(|cell| [(cell >> 8) as u8, *cell as u8]).collect()
}

/// Lower-case hex; `-` for no bytes.
pub fn hex_text(bytes: &[u8]) -> String {
    if bytes.is_empty() {
        return "-".to_string();
    }
    let digits = b"0123456789abcdef";
    let mut text = String::with_capacity(2 * bytes.len());
    for &byte in bytes {
        text.push(char::from(digits[usize::from(byte >> 4)]));
        text.push(char::from(digits[usize::from(byte & 15)]));
    }
    text
}

/// None is a bad line.
pub fn parsed(line: &[u8]) -> Option<Line> {
    if line.len() > LONGEST_LINE {
        return None;
    }
    let words: Vec<&[u8]> = line.split(|&byte| byte == b' ').collect();
    Some(match (words[0], &words[1..]) {
        (b"cold", [n]) => Line::Cold(number(n)?),
        (b"table", [bytes]) => Line::Table(hex(bytes)?),
        (b"dump", []) => Line::Dump,
        (b"cells", [bytes]) => Line::Cells(words_of(&hex(bytes)?)?),
        (b"show", []) => Line::Show,
        (b"control", [p, w]) => Line::Control(number(p)?, number(w)?),
        (b"request", [p, v]) => Line::Request(number(p)?, number(v)?),
        (b"status", [p]) => Line::Status(number(p)?),
        (b"tick", [f, bytes]) => Line::Tick(number(f)?, hex(bytes)?),
        (b"search", [bytes]) => Line::Search(hex(bytes)?),
        (b"read", [bytes]) => Line::Read(hex(bytes)?),
        (b"write7", [room, octets @ ..]) if octets.len() == 3 => written(room, octets, &[])?,
        (b"write12", [room, rest @ ..]) if rest.len() == 8 => {
            written(room, &rest[..3], &rest[3..])?
        }
        (b"signature", [v1, v2, i1, i2]) => {
            Line::Signature([narrow(v1)?, narrow(v2)?, narrow(i1)?, narrow(i2)?])
        }
        (b"class", [c1, c2]) => Line::Class(narrow(c1)?, narrow(c2)?),
        _ => return None,
    })
}

fn written(room: &[u8], octets: &[&[u8]], rest: &[&[u8]]) -> Option<Line> {
    let room = number_up_to(room, LONGEST_ROOM)? as usize;
    let octets = [octet(octets[0])?, octet(octets[1])?, octet(octets[2])?];
    let extension = match rest {
        [kind, source, priority, requested, allocated] => Some(Extension {
            kind: number(kind)?,
            source: number(source)?,
            priority: number(priority)?,
            requested: number(requested)?,
            allocated: number(allocated)?,
        }),
        _ => None,
    };
    Some(Line::Write(room, Fields { octets, extension }))
}

/// The console: it holds the cells of one table, all zeros before the first
/// `cold`, `table` or `cells`.
pub struct Console {
    pub cells: Vec<u16>,
}

impl Console {
    pub fn new() -> Console {
        Console { cells: vec![0; cells::CELLS] }
    }

    pub fn answer(&mut self, line: &[u8]) -> Answer {
        match parsed(line) {
            None => Answer::BadLine,
            Some(line) => self.run(&line).unwrap_or_else(Answer::Refused),
        }
    }

    /// A call on the table that is lent; only an accepted one gives it back.
    fn call<T>(&mut self, call: impl FnOnce(&mut Table) -> Result<T, u8>) -> Result<T, u8> {
        let mut table = cells::lent(&self.cells)?;
        let answer = call(&mut table)?;
        cells::give_back(&mut self.cells, &table);
        Ok(answer)
    }

    pub fn tick(&mut self, figure: u64, block: &[u8]) -> Result<Ticked, u8> {
        self.call(|table| table.tick(figure, block))
    }

    /// A cold start asks nothing of the cells but their number, and writes all.
    fn cold(&mut self, count: u64) -> Result<(), u8> {
        if self.cells.len() != cells::CELLS {
            return Err(13);
        }
        self.cells = cells::all(&Table::cold(count)?);
        Ok(())
    }

    fn run(&mut self, line: &Line) -> Result<Answer, u8> {
        Ok(match line {
            Line::Cold(count) => {
                self.cold(*count)?;
                Answer::Ok
            }
            Line::Table(bytes) => match image::read(bytes) {
                None => Answer::BadImage,
                Some(table) => {
                    self.cells = cells::all(&table);
                    Answer::Ok
                }
            },
            Line::Dump => match cells::pictured(&self.cells) {
                None => Answer::BadImage,
                Some(table) => Answer::Image(image::written(&table)),
            },
            Line::Cells(cells) => {
                self.cells.clone_from(cells);
                Answer::Ok
            }
            Line::Show => Answer::Cells(self.cells.clone()),
            Line::Control(port, word) => {
                self.call(|table| table.control(*port, *word))?;
                Answer::Ok
            }
            Line::Request(port, value) => {
                self.call(|table| table.request(*port, *value))?;
                Answer::Ok
            }
            Line::Status(port) => Answer::Status(self.call(|table| table.status(*port))?),
            Line::Tick(figure, block) => Answer::Ticked(self.tick(*figure, block)?),
            other => outside_the_table(other)?,
        })
    }
}

/// The calls that take no table.
fn outside_the_table(line: &Line) -> Result<Answer, u8> {
    Ok(match line {
        Line::Search(bytes) => {
            let (offset, length) = tlv::search(bytes)?;
            Answer::Found(offset, length)
        }
        Line::Read(bytes) => Answer::Fields(tlv::read(bytes)?),
        Line::Write(room, fields) => {
            // "the room is ROOM bytes (at most 2,048) of A5".
            let mut bytes = vec![0xA5; *room];
            tlv::write(&mut bytes, fields)?;
            Answer::Wrote(bytes)
        }
        Line::Signature([v1, v2, i1, i2]) => Answer::Signature(signature(*v1, *v2, *i1, *i2)),
        Line::Class(c1, c2) => Answer::Class(class(*c1, *c2)),
        _ => Answer::BadLine,
    })
}

impl fmt::Display for Answer {
    fn fmt(&self, f: &mut fmt::Formatter) -> fmt::Result {
        match self {
            Answer::Ok => write!(f, "ok"),
            Answer::Refused(number) => write!(f, "refused {number}"),
            Answer::BadImage => write!(f, "bad image"),
            Answer::BadLine => write!(f, "bad line"),
            Answer::Image(bytes) => write!(f, "{}", hex_text(bytes)),
            Answer::Cells(cells) => write!(f, "cells {}", hex_text(&bytes_of(cells))),
            Answer::Status(word) => write!(f, "status {word}"),
            Answer::Ticked(t) => write!(f, "ticked {} {} {}", t.mask_a, t.mask_b, t.closed),
            Answer::Found(offset, length) => write!(f, "found {offset} {length}"),
            Answer::Fields(fields) => fields_text(f, fields),
            Answer::Wrote(bytes) => write!(f, "wrote {}", hex_text(bytes)),
            Answer::Signature(Signature::Valid) => write!(f, "valid"),
            Answer::Signature(Signature::Invalid) => write!(f, "invalid"),
            Answer::Signature(Signature::Open) => write!(f, "open"),
            Answer::Class(reading) => class_text(f, reading),
        }
    }
}

fn class_text(f: &mut fmt::Formatter, reading: &ClassReading) -> fmt::Result {
    match reading.class {
        Ok(class) => write!(f, "class {class}")?,
        Err(Failure::OverCurrent) => write!(f, "overcurrent")?,
        Err(Failure::Disagree) => write!(f, "disagree")?,
    }
    write!(f, " used {}", reading.used)
}

fn fields_text(f: &mut fmt::Formatter, fields: &Fields) -> fmt::Result {
    let [support, pair, class] = fields.octets;
    write!(f, "fields {support} {pair} {class}")?;
    if let Some(e) = &fields.extension {
        write!(f, " {} {} {}", e.kind, e.source, e.priority)?;
        write!(f, " {} {}", e.requested, e.allocated)?;
    }
    Ok(())
}
