//! The table as cells of 16 bits that the caller lends, an array for each field.
//! A call takes from them what document 01's rules ask for, and gives back what
//! they changed: nothing at or past the count, and nothing that is reserved.

use crate::port::{Port, STATES};
use crate::table::{Table, PLACES};

pub const CELLS: usize = 728;
/// The longest that the console holds.
pub const MOST_CELLS: usize = 1_024;

/// Cells of the head; 2 to 7 are reserved.
pub const COUNT: usize = 0;
pub const SUPPLY: usize = 1;
pub const HEAD: usize = 8;

/// Fields, 48 cells each; the seven counters in the image's order; the last three
/// are reserved.
pub const STATE: usize = 0;
pub const CONTROL: usize = 1;
pub const DEMAND: usize = 2;
pub const CLASS: usize = 3;
pub const LATCHES: usize = 4;
pub const COUNTERS: usize = 5;
pub const RESERVED: usize = 12;
pub const FIELDS: usize = 15;

/// The cell of a field of the port at a place.
pub fn at(field: usize, place: usize) -> usize {
    HEAD + PLACES * field + place
}

/// Whether a call never looks at the cell.
pub fn reserved(cell: usize) -> bool {
    (2..HEAD).contains(&cell) || cell >= at(RESERVED, 0)
}

/// None if no port has them: a state over 9, latches or a class over 255.
fn port(cells: &[u16], place: usize) -> Option<Port> {
    let of = |field| cells[at(field, place)];
    let mut counters = [0; 7];
    for (k, counter) in counters.iter_mut().enumerate() {
        *counter = of(COUNTERS + k);
    }
    Some(Port {
        state: *STATES.get(usize::from(of(STATE)))?,
        control: of(CONTROL),
        class: u8::try_from(of(CLASS)).ok()?,
        demand: of(DEMAND),
        latches: u8::try_from(of(LATCHES)).ok()?,
        counters,
    })
}

fn put_port(cells: &mut [u16], place: usize, port: &Port) {
    cells[at(STATE, place)] = port.state as u16;
    cells[at(CONTROL, place)] = port.control;
    cells[at(DEMAND, place)] = port.demand;
    cells[at(CLASS, place)] = u16::from(port.class);
    cells[at(LATCHES, place)] = u16::from(port.latches);
    for (k, counter) in port.counters.iter().enumerate() {
        cells[at(COUNTERS + k, place)] = *counter;
    }
}

/// The table that a call is lent. 13: another number of cells, or a port below the
/// count that no port is; a count over 48 has no ports to read, and is refused by
/// document 01's own rule.
pub fn lent(cells: &[u16]) -> Result<Table, u8> {
    if cells.len() != CELLS {
        return Err(13);
    }
    let mut table = Table { count: cells[COUNT], supply: cells[SUPPLY], ..Table::zero() };
    let count = usize::from(table.count);
    if count <= PLACES {
        for place in 0..count {
            table.ports[place] = port(cells, place).ok_or(13)?;
        }
    }
    Ok(table)
}

/// What an accepted call leaves: the supply and the ports below the count.
pub fn give_back(cells: &mut [u16], table: &Table) {
    cells[SUPPLY] = table.supply;
    for place in 0..usize::from(table.count) {
        put_port(cells, place, &table.ports[place]);
    }
}

/// All 728 cells of a table, the reserved ones 0.
pub fn all(table: &Table) -> Vec<u16> {
    let mut cells = vec![0; CELLS];
    cells[COUNT] = table.count;
    cells[SUPPLY] = table.supply;
    for (place, port) in table.ports.iter().enumerate() {
        put_port(&mut cells, place, port);
    }
    cells
}

/// The table whose image shows the cells; None if no image does. All 48 places are
/// looked at, past the count too.
pub fn pictured(cells: &[u16]) -> Option<Table> {
    if cells.len() != CELLS {
        return None;
    }
    let mut table = Table { count: cells[COUNT], supply: cells[SUPPLY], ..Table::zero() };
    for (place, there) in table.ports.iter_mut().enumerate() {
        *there = port(cells, place)?;
    }
    Some(table)
}

/// What can be seen of any cells, for choosing and counting lines: a place that is
/// no port is seen as one of zeros, and so are cells of another number.
pub fn seen(cells: &[u16]) -> Table {
    if cells.len() != CELLS {
        return Table::zero();
    }
    let mut table = Table { count: cells[COUNT], supply: cells[SUPPLY], ..Table::zero() };
    for (place, there) in table.ports.iter_mut().enumerate() {
        *there = port(cells, place).unwrap_or(Port::ZERO);
    }
    table
}
