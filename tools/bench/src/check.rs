//! That the two plain ticks, the C functions and the reference compute the same; no time is taken.

use crate::calls::{self, on_reference};
use crate::plain::cells::{load, with_table};
use crate::plain::form::{Closed, HIGHEST_SUPPLY, PLACES};
use crate::strange::Strange;
use crate::{door, frames, lent, looks, mixes, plain, ticked};
use reference::cells::all as cells_of;
use reference::lines::{parsed, Console, Line};
use reference::random::Random;
use reference::scripts::{self, Kind};
use std::path::Path;

const MIX_TICKS: u64 = 20_000;
const CALLS: u64 = 5_000;
const RANDOM_TABLES: u64 = 20_000;
const SCRIPT_LINES: u64 = 50_000;

/// What a tick answers, and the cells that it leaves.
type Outcome = (Closed, Vec<u16>);

/// None for cells that this shape has no place for.
fn by_plain(before: &[u16], block: &[u8], figure: u64) -> Option<Outcome> {
    let mut table = load(before)?;
    let answer = plain::tick::tick(&mut table, block, figure);
    Some((answer, with_table(before, &table)))
}

fn by_lent(before: &[u16], block: &[u8], figure: u64) -> Outcome {
    let mut after = before.to_vec();
    (lent::tick::tick(&mut after, block, figure), after)
}

/// None for a figure that C's number does not hold.
fn by_door(before: &[u16], block: &[u8], figure: u64) -> Option<Outcome> {
    let figure = u32::try_from(figure).ok()?;
    let mut after = before.to_vec();
    Some((door::tick(&mut after, block, figure), after))
}

fn by_reference(before: &[u16], block: &[u8], figure: u64) -> Outcome {
    let mut after = before.to_vec();
    let answer = match on_reference(&mut after, |table| table.tick(figure, block)) {
        Ok(t) => Closed::Ports(t.mask_a, t.mask_b, t.closed),
        Err(k) => Closed::Refused(k),
    };
    (answer, after)
}

/// One tick by all, of whatever cells; those that it leaves stand in their place.
pub fn compared(cells: &mut Vec<u16>, block: &[u8], figure: u64) -> Result<Closed, String> {
    let wanted = by_reference(cells, block, figure);
    let differing = [
        ("the plain tick", by_plain(cells, block, figure).is_some_and(|plain| plain != wanted)),
        ("the plain tick of the lent shape", by_lent(cells, block, figure) != wanted),
        ("ipaqsuni_tick", by_door(cells, block, figure).is_some_and(|door| door != wanted)),
    ];
    if let Some((name, _)) = differing.iter().find(|(_, differs)| *differs) {
        return Err(format!(
            "{name} differs from the reference: cells {cells:04x?} block {block:02x?} figure {figure}"
        ));
    }
    *cells = wanted.1;
    Ok(wanted.0)
}

fn kind(of: &str) -> Kind {
    Kind::named(of).unwrap_or(Kind::Mixed)
}

/// The ticks of a script, on the table that each of them meets.
fn script(seed: u64, name: &str) -> Result<(), String> {
    let script = scripts::made(seed, SCRIPT_LINES, kind(name));
    let mut console = Console::new();
    let (mut lines, mut ticks) = (0u64, 0u64);
    for line in script.split(|&byte| byte == b'\n') {
        if let Some(Line::Tick(figure, block)) = parsed(line) {
            compared(&mut console.cells, &block, figure)?;
            ticks += 1;
        } else {
            console.answer(line);
        }
        lines += 1;
    }
    println!("  script {name}, seed {seed}: {lines} lines, {ticks} ticks, no difference");
    Ok(())
}

fn near(r: &mut Random, limits: &[u64]) -> u16 {
    let limit = r.pick(limits);
    r.around(limit) as u16
}

/// A port at the limits of the rules, that no call need have led to; seldom an ill-made one.
fn port(r: &mut Random, ill: bool) -> Vec<u8> {
    let counts = [0, 5, 59, 60, 319, 320, 399, 400, 499, 500, 749, 750, 1_999];
    let mut words: Vec<u16> = (0..7).map(|_| near(r, &counts)).collect();
    let mut control = r.below(3) | r.pick(&[1, 2]) << 2 | r.below(4) << 4;
    let mut class = r.below(5);
    let mut demand = r.pick(&[0, 40, 70, 154, 300]);
    if ill {
        let any = r.below(65_536);
        match r.below(4) {
            0 => words[r.below(7) as usize] = r.pick(&[2_001, 2_002, 0x7FFF, 0x8000, 0xFFFF]),
            1 => control = r.pick(&[3, 7, 0, 1, 12, 13, 0x44, 0x8005, any]),
            2 => class = r.between(5, 255),
            _ => demand = r.pick(&[1, 2, 39, 41, 69, 153, 155, 299, 301, 65_535, any]),
        }
    }
    let mut bytes = vec![r.below(10) as u8, (control >> 8) as u8, control as u8, class as u8];
    bytes.extend([(demand >> 8) as u8, demand as u8, r.next() as u8]);
    bytes.extend(words.iter().flat_map(|word| word.to_be_bytes()));
    bytes
}

fn table(r: &mut Random, count: u16, ill: bool) -> Vec<u8> {
    let supply: u16 =
        if ill && r.chance(10) { r.between(60_001, 65_535) as u16 } else { r.below(60_001) as u16 };
    let mut image = count.to_be_bytes().to_vec();
    image.extend(u32::from(supply).to_be_bytes());
    let bad = if ill { r.below(PLACES as u64) } else { PLACES as u64 };
    for place in 0..PLACES as u64 {
        // Past the count anything may stand.
        let past = place >= u64::from(count) && r.chance(50);
        image.extend(port(r, place == bad || past));
    }
    image
}

fn block(r: &mut Random, count: u16, reserved: bool) -> Vec<u8> {
    let mut block = Vec::new();
    let bad = if reserved { r.below(u64::from(count) + 1) } else { u64::MAX };
    for place in 0..u64::from(count) {
        let (v1, dv) = (near(r, &[2_800, 4_000, 10_000]), near(r, &[1_000, 1_900, 2_650, 5_000]));
        let (i1, di) = (near(r, &[0, 100, 65_000]), near(r, &[0, 10, 100, 200]));
        let mut flags = r.below(64) as u16;
        if place == bad {
            flags |= 1 << r.between(6, 15);
        }
        let classes = [0, 5_000, 5_001, 13_001, 21_001, 31_001, 45_000, 45_001, 65_535];
        let words = [
            v1,
            v1.wrapping_add(dv),
            i1,
            i1.wrapping_add(di),
            near(r, &classes),
            near(r, &classes),
            flags,
        ];
        block.extend(words.iter().flat_map(|word| word.to_be_bytes()));
    }
    block
}

/// A length that is not 14 bytes a port.
fn cut(r: &mut Random, block: &mut Vec<u8>) {
    let length = r.pick(&[
        0,
        1,
        13,
        14,
        block.len().saturating_sub(1),
        block.len() + 1,
        14 * PLACES,
        14 * PLACES + 14,
    ]);
    block.resize(length, 0);
}

fn figure(r: &mut Random) -> u64 {
    match r.below(20) {
        0 => r.between(u64::from(HIGHEST_SUPPLY) - 1, 65_535),
        1 => r.pick(&[65_536, 1 << 32, u64::MAX]),
        2..=9 => r.between(14_400, 60_000),
        _ => r.below(5_000),
    }
}

fn cells(image: &[u8]) -> Result<Vec<u16>, String> {
    let table = reference::image::read(image).ok_or("a table from nowhere is no image")?;
    Ok(cells_of(&table))
}

/// Tables from nowhere, ticked a few times each.
fn random_tables() -> Result<(), String> {
    let mut r = Random::new(13);
    let mut refused = [0u64; 14];
    let mut accepted = 0u64;
    for _ in 0..RANDOM_TABLES {
        let count = if r.chance(4) {
            r.pick(&[0, 49, 256, 65_535])
        } else {
            r.between(1, PLACES as u64) as u16
        };
        let ill = r.chance(10);
        let mut cells = cells(&table(&mut r, count, ill))?;
        for _ in 0..4 {
            let reserved = r.chance(8);
            let mut block = block(&mut r, count.min(49), reserved);
            if r.chance(5) {
                cut(&mut r, &mut block);
            }
            match compared(&mut cells, &block, figure(&mut r))? {
                Closed::Refused(k) => refused[usize::from(k)] += 1,
                Closed::Ports(..) => accepted += 1,
            }
        }
    }
    println!("  tables from nowhere: {accepted} ticks accepted, refused with 13, 1, 4, 3: {} {} {} {}, no difference", refused[13], refused[1], refused[4], refused[3]);
    if [13, 1, 4, 3].iter().any(|&k| refused[k] == 0) {
        return Err("a refusal that no table from nowhere met".to_string());
    }
    Ok(())
}

/// Tables from nowhere once more, with what no image holds.
fn strange_cells() -> Result<(), String> {
    let mut r = Random::new(14);
    let mut strange = Strange::default();
    for _ in 0..RANDOM_TABLES {
        let count = r.between(1, PLACES as u64) as u16;
        let ill = r.chance(10);
        let image = table(&mut r, count, ill);
        let block = block(&mut r, count, false);
        strange.take(&mut r, &image, &cells(&image)?, &block)?;
    }
    strange.print()
}

fn looks(root: &Path) -> Result<(), String> {
    let stored = frames::stored(root);
    for (name, records) in
        [("sound PDUs", &stored.sound), ("refused PDUs", &stored.refused), ("TLVs", &stored.tlvs)]
    {
        let number = records.number;
        if looks::plain_search(records, number) != looks::door_search(records, number) {
            return Err(format!("{name}: the two searches differ"));
        }
        if looks::plain_read(records, number) != looks::door_read(records, number) {
            return Err(format!("{name}: the two readers differ"));
        }
        println!("  {name}: {number} searched and read, no difference");
    }
    Ok(())
}

pub fn all(root: &Path) -> Result<(), String> {
    println!("check: the plain programs, the C functions and the reference");
    let fitting = mixes::mix("every claim fits", 48, false);
    let short = mixes::mix("short of supply", 48, true);
    for mix in [&fitting, &short, &mixes::classified()] {
        ticked(mix, MIX_TICKS, 1)?;
        println!("  {}: {MIX_TICKS} ticks, no difference", mix.name);
    }
    for mix in [&fitting, &short] {
        let calls = calls::timed(mix, CALLS, 1)?;
        let names: Vec<&str> = calls.iter().map(|(name, _)| *name).collect();
        println!("  {}: {}: {CALLS} calls of each, no difference", mix.name, names.join(", "));
    }
    random_tables()?;
    strange_cells()?;
    for (seed, name) in (1..).zip(["walks", "limits", "illmade", "cells", "mixed"]) {
        script(seed, name)?;
    }
    looks(root)?;
    println!("check: no difference");
    Ok(())
}
