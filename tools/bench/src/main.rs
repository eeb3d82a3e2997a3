//! Times the C functions that ship beside plain Rust that does the same, and sees that all compute the same.
//!
//!     bench ROOT            times; ends with 1 at a difference
//!     bench ROOT --check    compares alone: few ticks of the mixes, random tables, strange cells, and the reference's scripts

mod calls;
mod check;
mod clock;
mod door;
mod frames;
mod lent;
mod looks;
mod mixes;
mod plain;
mod strange;
mod turns;

use clock::{alternate, print_ratio, Times};
use frames::Records;
use looks::Look;
use mixes::Mix;
use std::path::Path;
use std::process::ExitCode;

const ROUNDS: usize = 7;
const TICKS: u64 = 1_000_000;
const CLASSIFIED_TICKS: u64 = 200_000;
const GROWTH: [usize; 9] = [1, 2, 4, 8, 16, 24, 32, 40, 48];
const GROWTH_TICKS: u64 = 200_000;
/// Of status, control, request, save and restore, beside which the reference makes as many.
const CALLS: u64 = 200_000;
/// Of the search and of the reader.
const LOOKS: u64 = 2_000_000;

/// A tick of each shape, on the same mix.
struct Ticked {
    plain: Times,
    lent: Times,
    door: Times,
}

fn ticked(mix: &Mix, ticks: u64, rounds: usize) -> Result<Ticked, String> {
    let (cells, turns) = (mix.cells(), mix.turns(ticks));
    let [plain, lent, door] = alternate(
        rounds,
        ticks,
        [&mut || turns::plain(&cells, &turns), &mut || turns::lent(&cells, &turns), &mut || {
            turns::door(&cells, &turns)
        }],
    )
    .ok_or(format!("{}: the ticks differ", mix.name))?;
    Ok(Ticked { plain, lent, door })
}

fn looked(name: &str, records: &Records, plain: Look, door: Look) -> Result<(), String> {
    let calls = LOOKS - LOOKS % records.number;
    let [plain, door] =
        alternate(ROUNDS, calls, [&mut || plain(records, calls), &mut || door(records, calls)])
            .ok_or(format!("{name}: the two differ"))?;
    println!("{name}: {} stored records in turn, {calls} calls a round", records.number);
    plain.print("plain", "call");
    door.print("C", "call");
    print_ratio("ratio", door.to(&plain));
    Ok(())
}

fn mixed(mix: &Mix, ticks: u64) -> Result<Ticked, String> {
    println!("{}: {ticks} ticks of 48 ports a round, {ROUNDS} rounds of each in turn", mix.name);
    mixes::made(mix).print();
    let ticked = ticked(mix, ticks, ROUNDS)?;
    ticked.plain.print("plain", "tick");
    ticked.lent.print("plain, lent", "tick");
    ticked.door.print("C", "tick");
    print_ratio("to plain", ticked.door.to(&ticked.plain));
    print_ratio("to lent", ticked.door.to(&ticked.lent));
    Ok(ticked)
}

fn growth() -> Result<(), String> {
    println!("growth with the ports, all claims fit: {GROWTH_TICKS} ticks a round; ns a tick, best / median, and C's ratios, of medians");
    println!("  ports           plain     plain, lent               C  to plain  to lent");
    for count in GROWTH {
        let t = ticked(&mixes::mix("growth", count, false), GROWTH_TICKS, ROUNDS)?;
        print!("  {count:>5}");
        for times in [&t.plain, &t.lent, &t.door] {
            print!(" {:>7.1} /{:>6.1}", times.best, times.median);
        }
        println!("  {:>8.2} {:>8.2}", t.door.to(&t.plain)[1], t.door.to(&t.lent)[1]);
    }
    Ok(())
}

/// Beside the plain tick of 48 ports.
fn other_calls(mix: &Mix, plain: &Times) -> Result<(), String> {
    println!("other calls, and a status refused with 2, on 48 ports: {CALLS} a round, and their ratio to the plain tick");
    for (name, times) in calls::timed(mix, CALLS, ROUNDS)? {
        times.print(name, "call");
        print_ratio("ratio", times.to(plain));
    }
    Ok(())
}

/// Whoever reads the times sees how busy the machine was. Nothing where the system does not say.
fn load(when: &str) {
    if let Ok(load) = std::fs::read_to_string("/proc/loadavg") {
        println!("load of the machine {when}: {}", load.split(' ').next().unwrap_or(""));
    }
}

fn times(root: &Path) -> Result<(), String> {
    load("before");
    let mix = mixes::mix("every claim fits", 48, false);
    let fitting = mixed(&mix, TICKS)?;
    let short = mixed(&mixes::mix("short of supply", 48, true), TICKS)?;
    mixed(&mixes::classified(), CLASSIFIED_TICKS)?;
    growth()?;
    other_calls(&mix, &fitting.plain)?;
    let stored = frames::stored(root);
    let (plain, door) = (looks::plain_search, looks::door_search);
    looked("search, PDUs with one power TLV", &stored.sound, plain, door)?;
    looked("search, PDUs that are refused", &stored.refused, plain, door)?;
    looked("reader", &stored.tlvs, looks::plain_read, looks::door_read)?;
    load("after");
    println!("tick ratio, short of supply: {:.2}", short.door.to(&short.plain)[1]);
    println!("tick ratio {:.2}", fitting.door.to(&fitting.plain)[1]);
    Ok(())
}

fn main() -> ExitCode {
    let words: Vec<String> = std::env::args().skip(1).collect();
    let words: Vec<&str> = words.iter().map(String::as_str).collect();
    let done = match words[..] {
        [root] => times(Path::new(root)),
        [root, "--check"] => check::all(Path::new(root)),
        _ => Err("usage: bench ROOT [--check]".to_string()),
    };
    match done {
        Ok(()) => ExitCode::SUCCESS,
        Err(why) => {
            eprintln!("bench: {why}");
            ExitCode::FAILURE
        }
    }
}
