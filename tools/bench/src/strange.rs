//! Cells that no image holds: anything past the count and in what is reserved, codes that do not exist, other lengths. Every C function
//! and the plain tick of the lent shape are given them, and do what the reference does.

use crate::calls::{on_reference, CONTROL, REQUEST, STATUS};
use crate::check::compared;
use crate::door;
use crate::lent::cells::{
    cell, CELLS, CLASS, CONTROL as WORD, COUNT, DEMAND, DETECTION, FIELDS, HEAD, LATCHES, NO_LOAD,
    RESERVED, STATE, SUPPLY,
};
use crate::plain::form::{Closed, PLACES};
use reference::cells::{all, pictured};
use reference::image;
use reference::random::Random;
use reference::table::Table;

/// How many ticks each of them were given, and how many other calls; of the latter, how many were accepted.
#[derive(Default)]
pub struct Strange {
    noisy: u64,
    moved: u64,
    ill: u64,
    lengths: u64,
    calls: u64,
    accepted: u64,
}

/// Noise wherever nothing is looked at: past the count, and in what is reserved.
fn noise(r: &mut Random, cells: &[u16]) -> Vec<u16> {
    let mut noisy = cells.to_vec();
    let count = usize::from(cells[COUNT]).min(PLACES);
    noisy[SUPPLY + 1..HEAD].fill_with(|| r.next() as u16);
    for field in 0..FIELDS {
        noisy[cell(field, count)..cell(field + 1, 0)].fill_with(|| r.next() as u16);
    }
    noisy[cell(FIELDS, 0)..cell(FIELDS + RESERVED, 0)].fill_with(|| r.next() as u16);
    noisy
}

/// In one port below the count a code that does not exist, of some only the low byte does.
fn ill(r: &mut Random, cells: &[u16]) -> Vec<u16> {
    let mut ill = cells.to_vec();
    let count = u64::from(cells[COUNT]).clamp(1, PLACES as u64);
    let field = r.pick(&[STATE, STATE, LATCHES, LATCHES, WORD, DEMAND, CLASS, DETECTION, NO_LOAD]);
    let most = match field {
        STATE => 9,
        WORD => 63,
        LATCHES => 255,
        DEMAND => 300,
        CLASS => 4,
        _ => 2_000,
    };
    let low_byte = 256 + r.below(most + 1);
    let code = r.pick(&[most + 1, low_byte, 0x8000, 65_535]).max(most + 1);
    ill[cell(field, r.below(count) as usize)] = code as u16;
    ill
}

/// As the header says: a cold start looks at the number of cells alone.
fn cold(cells: &mut Vec<u16>, ports: u32) -> Result<u32, u8> {
    if cells.len() != CELLS {
        return Err(13);
    }
    *cells = all(&Table::cold(ports.into())?);
    Ok(0)
}

fn restored(cells: &mut Vec<u16>, image: &[u8]) -> Result<u32, u8> {
    let table = image::read(image).filter(|_| cells.len() == CELLS).ok_or(13)?;
    *cells = all(&table);
    Ok(0)
}

fn saved(cells: &[u16], room: &mut [u8]) -> Result<u32, u8> {
    let image = image::written(&pictured(cells).ok_or(13)?);
    if room.len() != image.len() {
        return Err(1);
    }
    room.copy_from_slice(&image);
    Ok(0)
}

/// An image, or bytes that are none: another length, a state over 9, a supply over 16 bits; or with a latch bit that is
/// none of document 01's six.
fn perhaps_image(r: &mut Random, image: &[u8]) -> Vec<u8> {
    let mut bytes = image.to_vec();
    let port = 6 + 21 * r.below(PLACES as u64) as usize;
    match r.below(8) {
        0 => bytes.resize(r.pick(&[0, 1, bytes.len() - 1, bytes.len() + 1]), 0),
        1 => bytes[port] = r.pick(&[10, 255]),
        2 => bytes[port + 6] |= r.pick(&[64, 128]),
        3 => bytes[r.between(2, 3) as usize] = 1,
        _ => {}
    }
    bytes
}

impl Strange {
    /// A call by C and by the reference: the answer, and what each leaves.
    fn same<T: Clone + PartialEq>(
        &mut self,
        name: &str,
        lent: &T,
        by_door: impl FnOnce(&mut T) -> Result<u32, u8>,
        wanted: impl FnOnce(&mut T) -> Result<u32, u8>,
    ) -> Result<(), String> {
        let (mut left, mut right) = (lent.clone(), lent.clone());
        let (told, answer) = (by_door(&mut left), wanted(&mut right));
        self.calls += 1;
        self.accepted += u64::from(answer.is_ok());
        match told == answer && left == right {
            true => Ok(()),
            false => Err(format!("{name}: C answers {told:?} and the reference {answer:?}")),
        }
    }

    /// Every call but the tick.
    fn calls(&mut self, r: &mut Random, image: &[u8], cells: &Vec<u16>) -> Result<(), String> {
        let port = r.below(u64::from(cells.first().copied().unwrap_or(1)).min(48) + 1) as u32;
        let word = r.pick(&[4, 5, 6, 7, 8, 9, 10, 0x14, 0x45, 0x1_0005, u32::MAX]);
        let value = r.pick(&[0, 1, 38, 39, 64, 129, 130, 255, 256, 999, 1_000, 65_535, u32::MAX]);
        let ports = r.pick(&[0, 1, 7, 48, 49, 256, 65_537, u32::MAX]);
        let image = perhaps_image(r, image);
        let room = vec![0xa5; r.pick(&[image::IMAGE_BYTES; 4]) - usize::from(r.chance(20))];
        self.same(
            "status",
            cells,
            |c| door::status(c, port, 0),
            |c| on_reference(c, |table| STATUS(table, port.into(), 0)),
        )?;
        self.same(
            "control",
            cells,
            |c| door::control(c, port, word),
            |c| on_reference(c, |table| CONTROL(table, port.into(), word.into())),
        )?;
        self.same(
            "request",
            cells,
            |c| door::request(c, port, value),
            |c| on_reference(c, |table| REQUEST(table, port.into(), value.into())),
        )?;
        self.same("cold start", cells, |c| door::cold(c, ports), |c| cold(c, ports))?;
        self.same("restore", cells, |c| door::restore(c, &image), |c| restored(c, &image))?;
        self.same("save", &room, |room| door::save(cells, room), |room| saved(cells, room))
    }

    fn tick(&self, cells: &[u16], block: &[u8], figure: u64) -> Result<Closed, String> {
        compared(&mut cells.to_vec(), block, figure)
    }

    /// An image's cells, as they are and made strange.
    pub fn take(
        &mut self,
        r: &mut Random,
        image: &[u8],
        cells: &[u16],
        block: &[u8],
    ) -> Result<(), String> {
        let figure = r.below(5_000);
        let noisy = noise(r, cells);
        let (clean, told) = (self.tick(cells, block, figure)?, self.tick(&noisy, block, figure)?);
        if clean != told {
            return Err("noise past the count is looked at".to_string());
        }
        self.noisy += 1;
        self.moved += u64::from(matches!(told, Closed::Ports(..)));
        let ill = ill(r, &noisy);
        if self.tick(&ill, block, figure)? != Closed::Refused(13) {
            return Err("a code that does not exist is not refused".to_string());
        }
        self.ill += 1;
        let mut other = noisy.clone();
        other.resize(r.pick(&[0, 1, HEAD, 584, CELLS - 1, CELLS + 1, CELLS + PLACES]), 0);
        if self.tick(&other, block, figure)? != Closed::Refused(13) {
            return Err("another length is not refused".to_string());
        }
        self.lengths += 1;
        for cells in [cells, &noisy, &ill, &other] {
            self.calls(r, image, &cells.to_vec())
                .map_err(|why| format!("{why}: cells {cells:04x?}"))?;
        }
        Ok(())
    }

    pub fn print(&self) -> Result<(), String> {
        let Strange { noisy, moved, ill, lengths, calls, accepted } = self;
        println!("  strange cells: noise past the count in {noisy} ticks ({moved} accepted), codes that do not exist in {ill}, another length in {lengths}, and {calls} other calls ({accepted} accepted), no difference");
        if *moved == 0 || *accepted == 0 || accepted == calls {
            return Err("strange cells that were all accepted, or all refused".to_string());
        }
        Ok(())
    }
}
