//! The table out of lent cells, and into them again: so that all shapes tick on the same.

use super::form::{Port, Table, CLASS, PLACES, STATES};
use crate::lent::cells::{
    cell, CELLS, CLASS as CLASSES, CONTROL, COUNT, DEMAND, DETECTION, LATCHES, STATE, SUPPLY,
};

fn port(cells: &[u16], p: usize) -> Option<Port> {
    let of = |field: usize| cells[cell(field, p)];
    let mut lanes = [of(CLASSES); 8];
    for (k, lane) in lanes[..CLASS].iter_mut().enumerate() {
        *lane = of(DETECTION + k);
    }
    Some(Port {
        state: *STATES.get(usize::from(of(STATE)))?,
        control: of(CONTROL),
        demand: of(DEMAND),
        latches: u8::try_from(of(LATCHES)).ok()?,
        lanes,
    })
}

/// None for another number of cells, or codes that this shape has no place for, past the count too.
pub fn load(cells: &[u16]) -> Option<Table> {
    if cells.len() != CELLS {
        return None;
    }
    let mut ports = [port(cells, 0)?; PLACES];
    for (p, place) in ports.iter_mut().enumerate() {
        *place = port(cells, p)?;
    }
    Some(Table { ports, count: cells[COUNT], supply: cells[SUPPLY] })
}

/// The cells with the table in them; reserved ones stay.
pub fn with_table(cells: &[u16], table: &Table) -> Vec<u16> {
    let mut cells = cells.to_vec();
    (cells[COUNT], cells[SUPPLY]) = (table.count, table.supply);
    for (p, port) in table.ports.iter().enumerate() {
        cells[cell(STATE, p)] = port.state as u16;
        cells[cell(CONTROL, p)] = port.control;
        cells[cell(DEMAND, p)] = port.demand;
        cells[cell(CLASSES, p)] = port.lanes[CLASS];
        cells[cell(LATCHES, p)] = u16::from(port.latches);
        for (k, &lane) in port.lanes[..CLASS].iter().enumerate() {
            cells[cell(DETECTION + k, p)] = lane;
        }
    }
    cells
}
