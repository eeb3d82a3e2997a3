//! The calls beside the tick, through the C interface: status, control and request on a table amid its ticks, accepted; a status that is
//! refused, which shows what a call takes that changes nothing; and a whole table saved and restored. All are compared with the
//! reference's.

use crate::clock::{alternate, Times};
use crate::door;
use crate::lent::cells::CELLS;
use crate::mixes::{Mix, RESTORE};
use crate::plain::cells::with_table;
use crate::plain::form::{State, Table, CLASS};
use crate::plain::tick::tick;
use crate::turns::with;
use reference::cells::{all, give_back, lent, pictured};
use reference::image;
use reference::table::Table as Reference;

/// After so many ticks the table has latches to clear.
const AMID: usize = 200;

type Call = fn(&mut [u16], u32, u32) -> Result<u32, u8>;
type Wanted = fn(&mut Reference, u64, u64) -> Result<u32, u8>;

/// A call of the reference, lent cells as a C function is.
pub fn on_reference<T>(
    cells: &mut [u16],
    call: impl FnOnce(&mut Reference) -> Result<T, u8>,
) -> Result<T, u8> {
    let mut table = lent(cells)?;
    let answer = call(&mut table)?;
    give_back(cells, &table);
    Ok(answer)
}

pub const STATUS: Wanted = |table, port, _| table.status(port).map(u32::from);
pub const CONTROL: Wanted = |table, port, word| table.control(port, word).map(|()| 0);
pub const REQUEST: Wanted = |table, port, value| table.request(port, value).map(|()| 0);

struct Kind {
    name: &'static str,
    call: Call,
    wanted: Wanted,
    /// Port and word or value, in turn and from the front again.
    arguments: Vec<(u32, u32)>,
    accepted: bool,
}

fn amid(mix: &Mix) -> Table {
    let mut table = mix.table.clone();
    let figure = u64::from(table.supply);
    for block in mix.blocks.chunks_exact(mix.size).cycle().take(AMID) {
        tick(&mut table, block, figure);
    }
    table
}

/// Each class's highest request, and one that every class takes.
const HIGHEST: [u32; 5] = [129, 38, 64, 129, 255];
const LOWEST: u32 = 38;

fn kinds(table: &Table) -> [Kind; 4] {
    let ports = || (0..).zip(&table.ports[..usize::from(table.count)]);
    let on = || ports().filter(|(_, port)| port.state == State::PowerOn);
    let statuses = ports().map(|(p, _)| (p, 0)).collect();
    // Another priority, and the one it had.
    let controls = ports().map(|(p, port)| (p, u32::from(port.control ^ 0x30)));
    let controls = controls.chain(ports().map(|(p, port)| (p, u32::from(port.control)))).collect();
    let requests = on().map(|(p, _)| (p, LOWEST));
    let highest = on().map(|(p, port)| (p, HIGHEST[usize::from(port.lanes[CLASS])]));
    let requests = requests.chain(highest).collect();
    let past = vec![(u32::from(table.count), 0)];
    let kind = |name, call: Call, wanted, arguments, accepted| Kind {
        name,
        call,
        wanted,
        arguments,
        accepted,
    };
    [
        kind("status", door::status, STATUS, statuses, true),
        kind("control", door::control, CONTROL, controls, true),
        kind("request", door::request, REQUEST, requests, true),
        kind("refusal", door::status, STATUS, past, false),
    ]
}

impl Kind {
    fn by_reference(&self, cells: &mut [u16], port: u32, argument: u32) -> Result<u32, u8> {
        on_reference(cells, |table| (self.wanted)(table, port.into(), argument.into()))
    }

    /// Whether the reference accepts, or refuses, all of them: what is timed is what is said.
    fn as_said(&self, start: &[u16]) -> bool {
        let mut cells = start.to_vec();
        let mut told = |&(port, argument): &(u32, u32)| {
            self.by_reference(&mut cells, port, argument).is_ok() == self.accepted
        };
        !self.arguments.is_empty() && self.arguments.iter().all(&mut told)
    }

    /// The checksum of so many calls' answers, and the cells that are left; the start table comes back as it does for the ticks.
    fn ran(
        &self,
        start: &[u16],
        calls: u64,
        call: impl Fn(&mut [u16], u32, u32) -> Result<u32, u8>,
    ) -> (u64, Vec<u16>) {
        let (mut now, mut sum) = (start.to_vec(), 0);
        for (k, &(port, argument)) in (0..calls).zip(self.arguments.iter().cycle()) {
            if k % RESTORE == 0 {
                now.copy_from_slice(start);
            }
            sum = match call(&mut now, port, argument) {
                Ok(word) => with(sum, u64::from(word)),
                Err(refusal) => with(sum, 1 << 32 | u64::from(refusal)),
            };
        }
        (sum, now)
    }

    fn timed(&self, start: &[u16], calls: u64, rounds: usize) -> Result<Times, String> {
        if !self.as_said(start) {
            return Err(format!("{}: accepted or refused otherwise", self.name));
        }
        let mut wanted =
            || self.ran(start, calls, |cells, port, n| self.by_reference(cells, port, n));
        let mut by_door = || self.ran(start, calls, self.call);
        let [_, times] = alternate(rounds, calls, [&mut wanted, &mut by_door])
            .ok_or(format!("{}: C and the reference differ", self.name))?;
        Ok(times)
    }
}

/// So many saves of the cells into one room.
fn saved(cells: &[u16], calls: u64) -> (Vec<Result<u32, u8>>, Vec<u8>) {
    let mut image = vec![0xa5; image::IMAGE_BYTES];
    let mut odd = Vec::new();
    for _ in 0..calls {
        let answer = door::save(cells, &mut image);
        if answer != Ok(0) {
            odd.push(answer);
        }
    }
    (odd, image)
}

/// So many restores of the image into the same cells.
fn restored(image: &[u8], calls: u64) -> (Vec<Result<u32, u8>>, Vec<u16>) {
    let mut cells = vec![0xa5a5; CELLS];
    let mut odd = Vec::new();
    for _ in 0..calls {
        let answer = door::restore(&mut cells, image);
        if answer != Ok(0) {
            odd.push(answer);
        }
    }
    (odd, cells)
}

fn images(cells: &[u16], calls: u64, rounds: usize) -> Result<[(&'static str, Times); 2], String> {
    let table = pictured(cells).ok_or("a table that no image holds")?;
    let image = image::written(&table);
    let mut wanted = || (Vec::new(), image.clone());
    let [_, save] = alternate(rounds, calls, [&mut wanted, &mut || saved(cells, calls)])
        .ok_or("save: C and the reference differ")?;
    let mut wanted = || (Vec::new(), all(&table));
    let [_, restore] = alternate(rounds, calls, [&mut wanted, &mut || restored(&image, calls)])
        .ok_or("restore: C and the reference differ")?;
    Ok([("save", save), ("restore", restore)])
}

/// Every kind's times on the table of a mix, amid its ticks.
pub fn timed(mix: &Mix, calls: u64, rounds: usize) -> Result<Vec<(&'static str, Times)>, String> {
    let table = amid(mix);
    let start = with_table(&mix.cells(), &table);
    let mut times = Vec::new();
    for kind in kinds(&table) {
        times.push((kind.name, kind.timed(&start, calls, rounds)?));
    }
    times.extend(images(&start, calls, rounds)?);
    Ok(times)
}
