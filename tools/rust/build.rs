//! Makes a constant of each number that include/ipaqsuni.h names, and of each member's first cell in its table, so that they stand
//! there alone.

use std::fmt::Write;
use std::path::Path;
use std::{env, fs};

fn main() {
    let header =
        Path::new(&env::var("CARGO_MANIFEST_DIR").unwrap()).join("../../include/ipaqsuni.h");
    println!("cargo:rerun-if-changed={}", header.display());
    let text = fs::read_to_string(&header).unwrap();
    let numbers: Vec<(&str, usize)> = text.lines().filter_map(constant).collect();
    let mut made = String::new();
    for (name, number) in &numbers {
        writeln!(made, "pub const {name}: u32 = {number};").unwrap();
    }
    let (_, rest) = text.split_once("struct ipaqsuni_table {").unwrap();
    let (members, _) = rest.split_once("};").unwrap();
    let mut cell = 0;
    for (name, cells) in members.lines().filter_map(|line| member(line, &numbers)) {
        writeln!(made, "pub const CELL_{}: usize = {cell};", name.to_uppercase()).unwrap();
        cell += cells;
    }
    fs::write(Path::new(&env::var("OUT_DIR").unwrap()).join("numbers.rs"), made).unwrap();
}

/// Of `#define IPAQSUNI_NAME 7`, with or without a comment after it.
fn constant(line: &str) -> Option<(&str, usize)> {
    let mut words = line.strip_prefix("#define IPAQSUNI_")?.split(' ');
    let name = words.next()?;
    Some((name, words.next()?.parse().ok()?))
}

/// Of `uint16_t name[2][IPAQSUNI_NAME];`: the name, and how many cells it has.
fn member<'a>(line: &'a str, numbers: &[(&str, usize)]) -> Option<(&'a str, usize)> {
    let (declared, _) = line.trim_start().strip_prefix("uint16_t ")?.split_once(';')?;
    let mut parts = declared.split('[');
    let name = parts.next()?;
    let number = |size: &str| match size.strip_prefix("IPAQSUNI_") {
        Some(wanted) => numbers.iter().find(|(name, _)| *name == wanted).map(|(_, n)| *n),
        None => size.parse().ok(),
    };
    let sizes = parts.map(|size| number(size.strip_suffix(']').unwrap()).unwrap());
    Some((name, sizes.product()))
}
