//! The loops in which the search and the reader are timed, over stored records in turn.

use crate::door;
use crate::frames::Records;
use crate::plain::tlv::{self, Fields};
use crate::turns::{next, number, part, with};

/// The checksum of all answers.
pub type Look = fn(&Records, u64) -> u64;

#[inline(always)]
fn each(records: &Records, calls: u64, look: impl Fn(u64, &[u8]) -> u64) -> u64 {
    let (mut sum, mut at) = (0, 0);
    for _ in 0..calls {
        let record = part(&records.bytes, at, records.size);
        sum = look(sum, part(record, 2, number(record, 0) as usize));
        at = next(&records.bytes, at, records.size);
    }
    sum
}

#[inline(always)]
fn found(sum: u64, answer: Result<(usize, usize), u8>) -> u64 {
    match answer {
        Ok((start, length)) => with(with(sum, start as u64), length as u64),
        Err(k) => with(sum, u64::from(k)),
    }
}

#[inline(always)]
fn taken(mut sum: u64, answer: Result<Fields, u8>) -> u64 {
    let fields = match answer {
        Ok(fields) => fields,
        Err(k) => return with(sum, u64::from(k)),
    };
    for octet in fields.octets {
        sum = with(sum, u64::from(octet));
    }
    if let Some(a) = fields.added {
        for n in [a.requested, a.allocated, a.kind.into(), a.source.into(), a.priority.into()] {
            sum = with(sum, u64::from(n));
        }
    }
    sum
}

pub fn plain_search(records: &Records, calls: u64) -> u64 {
    each(records, calls, |sum, pdu| found(sum, tlv::search(pdu)))
}

pub fn door_search(records: &Records, calls: u64) -> u64 {
    each(records, calls, |sum, pdu| found(sum, door::search(pdu)))
}

pub fn plain_read(records: &Records, calls: u64) -> u64 {
    each(records, calls, |sum, bytes| taken(sum, tlv::read(bytes)))
}

pub fn door_read(records: &Records, calls: u64) -> u64 {
    each(records, calls, |sum, bytes| taken(sum, door::read(bytes)))
}
