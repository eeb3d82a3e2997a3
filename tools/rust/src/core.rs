//! The C interface of include/ipaqsuni.h, with a safe function for each of its own. What each does is said there.

use std::ffi::c_uint;

/// The numbers that the header names, and the first cells of its table's members, made from it by build.rs.
#[allow(dead_code)]
pub mod header {
    include!(concat!(env!("OUT_DIR"), "/numbers.rs"));
}

pub const CELLS: usize = header::CELLS as usize;
pub const IMAGE: usize = header::IMAGE as usize;
pub const SAMPLE: usize = header::SAMPLE as usize;
pub const LONGEST_PDU: usize = header::LONGEST_PDU as usize;
pub const LONGEST_TLV: usize = header::LONGEST_TLV as usize;

/// The number of a refusal.
pub type Refusal = u32;

/// A power TLV's fields, and the places of two of them.
pub type Fields = [u32; header::FIELDS as usize];
pub const FORM: usize = header::FORM as usize;
pub const REQUESTED: usize = header::REQUESTED as usize;

#[derive(Clone, Copy, PartialEq, Eq, Debug)]
pub struct Ticked {
    pub mask_a: u64,
    pub mask_b: u64,
    pub closed: u32,
}

#[link(name = "ipaqsuni", kind = "static")]
extern "C" {
    fn ipaqsuni_cold_start(cells: *mut u16, cells_len: usize, ports: u32) -> c_uint;
    fn ipaqsuni_write_control(cells: *mut u16, cells_len: usize, port: u32, word: u32) -> c_uint;
    fn ipaqsuni_read_status(
        cells: *mut u16,
        cells_len: usize,
        port: u32,
        status: *mut u32,
    ) -> c_uint;
    fn ipaqsuni_request(cells: *mut u16, cells_len: usize, port: u32, value: u32) -> c_uint;
    fn ipaqsuni_tick(
        cells: *mut u16,
        cells_len: usize,
        samples: *const u8,
        samples_len: usize,
        supply: u32,
        mask_a: *mut u64,
        mask_b: *mut u64,
        closed: *mut u32,
    ) -> c_uint;
    fn ipaqsuni_save(
        cells: *const u16,
        cells_len: usize,
        image: *mut u8,
        image_len: usize,
    ) -> c_uint;
    fn ipaqsuni_restore(
        cells: *mut u16,
        cells_len: usize,
        image: *const u8,
        image_len: usize,
    ) -> c_uint;
    fn ipaqsuni_find_power_tlv(
        pdu: *const u8,
        pdu_len: usize,
        offset: *mut u64,
        length: *mut u64,
    ) -> c_uint;
    fn ipaqsuni_read_power_tlv(tlv: *const u8, tlv_len: usize, fields: *mut u32) -> c_uint;
    fn ipaqsuni_write_power_tlv(
        fields: *const u32,
        room: *mut u8,
        room_len: usize,
        written: *mut u64,
    ) -> c_uint;
}

/// What stands in every place for an answer before a call; a refusal must leave it there.
const MARK: u64 = 0x5a5a_5a5a_5a5a_5a5a;

fn answer<T>(number: Refusal, accepted: T, untouched: bool) -> Result<T, Refusal> {
    match number {
        header::OK => Ok(accepted),
        _ if untouched => Err(number),
        _ => panic!("refusal {number} wrote a place for an answer"),
    }
}

pub fn cold_start(cells: &mut [u16], ports: u32) -> Result<(), Refusal> {
    // SAFETY: the pointer is to as many cells as are said; the borrow is the only one.
    let number = unsafe { ipaqsuni_cold_start(cells.as_mut_ptr(), cells.len(), ports) };
    answer(number, (), true)
}

pub fn write_control(cells: &mut [u16], port: u32, word: u32) -> Result<(), Refusal> {
    // SAFETY: as for cold_start.
    let number = unsafe { ipaqsuni_write_control(cells.as_mut_ptr(), cells.len(), port, word) };
    answer(number, (), true)
}

pub fn read_status(cells: &mut [u16], port: u32) -> Result<u32, Refusal> {
    let mut status = MARK as u32;
    // SAFETY: as for cold_start; the word is a local of its own.
    let number =
        unsafe { ipaqsuni_read_status(cells.as_mut_ptr(), cells.len(), port, &mut status) };
    answer(number, status, status == MARK as u32)
}

pub fn request(cells: &mut [u16], port: u32, value: u32) -> Result<(), Refusal> {
    // SAFETY: as for cold_start.
    let number = unsafe { ipaqsuni_request(cells.as_mut_ptr(), cells.len(), port, value) };
    answer(number, (), true)
}

pub fn tick(cells: &mut [u16], samples: &[u8], supply: u32) -> Result<Ticked, Refusal> {
    let blank = Ticked { mask_a: MARK, mask_b: MARK, closed: MARK as u32 };
    let mut t = blank;
    // SAFETY: as for cold_start; the three places are fields of a local of its own.
    let number = unsafe {
        ipaqsuni_tick(
            cells.as_mut_ptr(),
            cells.len(),
            samples.as_ptr(),
            samples.len(),
            supply,
            &mut t.mask_a,
            &mut t.mask_b,
            &mut t.closed,
        )
    };
    answer(number, t, t == blank)
}

pub fn save(cells: &[u16], image: &mut [u8]) -> Result<(), Refusal> {
    // SAFETY: each pointer is to as many cells or bytes as are said; what is written is borrowed alone.
    let number =
        unsafe { ipaqsuni_save(cells.as_ptr(), cells.len(), image.as_mut_ptr(), image.len()) };
    answer(number, (), true)
}

pub fn restore(cells: &mut [u16], image: &[u8]) -> Result<(), Refusal> {
    // SAFETY: as for save.
    let number =
        unsafe { ipaqsuni_restore(cells.as_mut_ptr(), cells.len(), image.as_ptr(), image.len()) };
    answer(number, (), true)
}

/// Where the power TLV starts, and how long it is.
pub fn find_power_tlv(pdu: &[u8]) -> Result<(u64, u64), Refusal> {
    let (mut offset, mut length) = (MARK, MARK);
    // SAFETY: the pointer is to as many bytes as are said; the two places are locals.
    let number =
        unsafe { ipaqsuni_find_power_tlv(pdu.as_ptr(), pdu.len(), &mut offset, &mut length) };
    answer(number, (offset, length), (offset, length) == (MARK, MARK))
}

pub fn read_power_tlv(tlv: &[u8]) -> Result<Fields, Refusal> {
    let blank = [MARK as u32; header::FIELDS as usize];
    let mut fields = blank;
    // SAFETY: the pointer is to as many bytes as are said; the nine places are a local's.
    let number = unsafe { ipaqsuni_read_power_tlv(tlv.as_ptr(), tlv.len(), fields.as_mut_ptr()) };
    answer(number, fields, fields == blank)
}

pub fn write_power_tlv(fields: &Fields, room: &mut [u8]) -> Result<u64, Refusal> {
    let mut written = MARK;
    // SAFETY: the fields are nine, and the room as many bytes as are said.
    let number = unsafe {
        ipaqsuni_write_power_tlv(fields.as_ptr(), room.as_mut_ptr(), room.len(), &mut written)
    };
    answer(number, written, written == MARK)
}
