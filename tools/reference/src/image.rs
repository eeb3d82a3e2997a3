//! The table image, big-endian: "count (2), supply (4), then 48 ports of 21
//! bytes: state (1), control (2), class (1), demand (2), latches (1), then seven
//! counters of 2 bytes" (docs/CONSOLE.md).

use crate::port::{Port, STATES};
use crate::table::{Table, PLACES};

pub const HEAD_BYTES: usize = 6;
pub const PORT_BYTES: usize = 21;
pub const IMAGE_BYTES: usize = HEAD_BYTES + PLACES * PORT_BYTES;

pub fn written(table: &Table) -> Vec<u8> {
    let mut image = Vec::with_capacity(IMAGE_BYTES);
    image.extend_from_slice(&table.count.to_be_bytes());
    image.extend_from_slice(&u32::from(table.supply).to_be_bytes());
    for port in &table.ports {
        image.push(port.state as u8);
        image.extend_from_slice(&port.control.to_be_bytes());
        image.push(port.class);
        image.extend_from_slice(&port.demand.to_be_bytes());
        image.push(port.latches);
        for counter in port.counters {
            image.extend_from_slice(&counter.to_be_bytes());
        }
    }
    image
}

/// None is "`bad image` if the length is not 1,014, a state is over 9, or the
/// supply figure does not fit the table's type", which has 16 bits. All 48 places
/// are looked at, past the count too.
pub fn read(image: &[u8]) -> Option<Table> {
    if image.len() != IMAGE_BYTES {
        return None;
    }
    let mut table = Table::zero();
    table.count = word(image, 0);
    if word(image, 2) != 0 {
        return None;
    }
    table.supply = word(image, 4);
    for (place, port) in table.ports.iter_mut().enumerate() {
        let at = HEAD_BYTES + place * PORT_BYTES;
        *port = read_port(&image[at..at + PORT_BYTES])?;
    }
    Some(table)
}

fn word(bytes: &[u8], at: usize) -> u16 {
    u16::from_be_bytes([bytes[at], bytes[at + 1]])
}

fn read_port(bytes: &[u8]) -> Option<Port> {
    let state = *STATES.get(usize::from(bytes[0]))?;
    let mut counters = [0; 7];
    for (k, counter) in counters.iter_mut().enumerate() {
        *counter = word(bytes, 7 + 2 * k);
    }
    Some(Port {
        state,
        control: word(bytes, 1),
        class: bytes[3],
        demand: word(bytes, 4),
        latches: bytes[6],
        counters,
    })
}
