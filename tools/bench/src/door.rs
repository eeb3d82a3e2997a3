//! The functions of include/ipaqsuni.h, called as a program in C calls them: the archive is the one that tools/install puts on a board.
//! Here stands the only unsafe code of this program. A refusal that wrote a place for an answer ends it.

use crate::plain::form::Closed;
use crate::plain::tlv::{Added, Fields};

extern "C" {
    fn ipaqsuni_cold_start(cells: *mut u16, cells_length: usize, ports: u32) -> u32;
    fn ipaqsuni_write_control(cells: *mut u16, cells_length: usize, port: u32, word: u32) -> u32;
    fn ipaqsuni_read_status(
        cells: *mut u16,
        cells_length: usize,
        port: u32,
        status: *mut u32,
    ) -> u32;
    fn ipaqsuni_request(cells: *mut u16, cells_length: usize, port: u32, value: u32) -> u32;
    fn ipaqsuni_tick(
        cells: *mut u16,
        cells_length: usize,
        samples: *const u8,
        samples_length: usize,
        supply: u32,
        mask_a: *mut u64,
        mask_b: *mut u64,
        closed: *mut u32,
    ) -> u32;
    fn ipaqsuni_save(
        cells: *const u16,
        cells_length: usize,
        image: *mut u8,
        image_length: usize,
    ) -> u32;
    fn ipaqsuni_restore(
        cells: *mut u16,
        cells_length: usize,
        image: *const u8,
        image_length: usize,
    ) -> u32;
    fn ipaqsuni_find_power_tlv(
        pdu: *const u8,
        pdu_length: usize,
        offset: *mut u64,
        length: *mut u64,
    ) -> u32;
    fn ipaqsuni_read_power_tlv(tlv: *const u8, tlv_length: usize, fields: *mut u32) -> u32;
}

/// What stands in a place for an answer before the call.
const MARK: u32 = 0x5a5a_5a5a;
const WIDE_MARK: u64 = 0x5a5a_5a5a_5a5a_5a5a;

#[cold]
fn refused(refusal: u32, untouched: bool) -> u8 {
    assert!(untouched, "refusal {refusal} wrote a place for an answer");
    u8::try_from(refusal).expect("refusals have small numbers")
}

/// What is told is made only of an accepted call's places.
#[inline(always)]
fn told<T>(refusal: u32, untouched: bool, accepted: impl FnOnce() -> T) -> Result<T, u8> {
    match refusal {
        0 => Ok(accepted()),
        _ => Err(refused(refusal, untouched)),
    }
}

pub fn tick(cells: &mut [u16], block: &[u8], supply: u32) -> Closed {
    let (mut mask_a, mut mask_b, mut closed) = (WIDE_MARK, WIDE_MARK, MARK);
    // SAFETY: each pointer goes with the length of its own slice, or is to a number of its own; what is written through is lent alone.
    let refusal = unsafe {
        ipaqsuni_tick(
            cells.as_mut_ptr(),
            cells.len(),
            block.as_ptr(),
            block.len(),
            supply,
            &mut mask_a,
            &mut mask_b,
            &mut closed,
        )
    };
    match refusal {
        0 => Closed::Ports(mask_a, mask_b, closed),
        _ => {
            let untouched = (mask_a, mask_b, closed) == (WIDE_MARK, WIDE_MARK, MARK);
            Closed::Refused(refused(refusal, untouched))
        }
    }
}

pub fn status(cells: &mut [u16], port: u32, _: u32) -> Result<u32, u8> {
    let mut word = MARK;
    // SAFETY: as for the tick.
    let refusal = unsafe { ipaqsuni_read_status(cells.as_mut_ptr(), cells.len(), port, &mut word) };
    told(refusal, word == MARK, || word)
}

pub fn control(cells: &mut [u16], port: u32, word: u32) -> Result<u32, u8> {
    // SAFETY: as for the tick.
    let refusal = unsafe { ipaqsuni_write_control(cells.as_mut_ptr(), cells.len(), port, word) };
    told(refusal, true, || 0)
}

pub fn request(cells: &mut [u16], port: u32, value: u32) -> Result<u32, u8> {
    // SAFETY: as for the tick.
    told(unsafe { ipaqsuni_request(cells.as_mut_ptr(), cells.len(), port, value) }, true, || 0)
}

pub fn cold(cells: &mut [u16], ports: u32) -> Result<u32, u8> {
    // SAFETY: as for the tick.
    told(unsafe { ipaqsuni_cold_start(cells.as_mut_ptr(), cells.len(), ports) }, true, || 0)
}

pub fn save(cells: &[u16], image: &mut [u8]) -> Result<u32, u8> {
    // SAFETY: as for the tick.
    let refusal =
        unsafe { ipaqsuni_save(cells.as_ptr(), cells.len(), image.as_mut_ptr(), image.len()) };
    told(refusal, true, || 0)
}

pub fn restore(cells: &mut [u16], image: &[u8]) -> Result<u32, u8> {
    // SAFETY: as for the tick.
    let refusal =
        unsafe { ipaqsuni_restore(cells.as_mut_ptr(), cells.len(), image.as_ptr(), image.len()) };
    told(refusal, true, || 0)
}

pub fn search(pdu: &[u8]) -> Result<(usize, usize), u8> {
    let (mut offset, mut length) = (WIDE_MARK, WIDE_MARK);
    // SAFETY: as for the tick.
    let refusal =
        unsafe { ipaqsuni_find_power_tlv(pdu.as_ptr(), pdu.len(), &mut offset, &mut length) };
    let untouched = (offset, length) == (WIDE_MARK, WIDE_MARK);
    told(refusal, untouched, || (offset as usize, length as usize))
}

pub fn read(tlv: &[u8]) -> Result<Fields, u8> {
    let mut fields = [MARK; 9];
    // SAFETY: as for the tick; the fields are nine numbers.
    let refusal = unsafe { ipaqsuni_read_power_tlv(tlv.as_ptr(), tlv.len(), fields.as_mut_ptr()) };
    told(refusal, fields == [MARK; 9], || fields_of(fields))
}

/// As the plain reader answers them: no field is wider than its type there.
fn fields_of(fields: [u32; 9]) -> Fields {
    let [form, support, pair, class, kind, source, priority, requested, allocated] = fields;
    let added = Added {
        kind: kind as u8,
        source: source as u8,
        priority: priority as u8,
        requested: requested as u16,
        allocated: allocated as u16,
    };
    Fields {
        octets: [support as u8, pair as u8, class as u8],
        added: (form == 12).then_some(added),
    }
}
