//! The stored frames: crates/frames/stdin holds those that lldpd sent (tools/frames) and what tools/frames/expected made of
//! them, each record a kind, a length of two bytes and the content. Kind 0 is a PDU, kind 2 a part for the reader.

use crate::plain::tlv;
use std::path::Path;

/// Records of one size, each a length of two bytes and as many bytes.
pub struct Records {
    pub bytes: Vec<u8>,
    pub size: usize,
    pub number: u64,
}

fn of_kind(stored: &[u8], kind: u8) -> Vec<&[u8]> {
    let mut found = Vec::new();
    let mut rest = stored;
    while let [this, high, low, after @ ..] = rest {
        let (content, next) = after.split_at(usize::from(*high) << 8 | usize::from(*low));
        if *this == kind {
            found.push(content);
        }
        rest = next;
    }
    found
}

fn records(contents: &[&[u8]]) -> Records {
    let size = 2 + contents.iter().map(|content| content.len()).max().unwrap_or(0);
    let mut bytes = vec![0; size * contents.len()];
    for (record, content) in bytes.chunks_exact_mut(size).zip(contents) {
        record[..2].copy_from_slice(&(content.len() as u16).to_be_bytes());
        record[2..2 + content.len()].copy_from_slice(content);
    }
    Records { bytes, size, number: contents.len() as u64 }
}

pub struct Frames {
    /// PDUs from which a power TLV is found, and all others: no or more than one power TLV, a cut one, over 1,500 bytes.
    pub sound: Records,
    pub refused: Records,
    /// TLVs: the stored parts, and what the search finds in the PDUs.
    pub tlvs: Records,
}

pub fn stored(root: &Path) -> Frames {
    let path = root.join("crates/frames/stdin");
    let stored = std::fs::read(&path).unwrap_or_else(|error| panic!("{}: {error}", path.display()));
    let (sound, refused): (Vec<&[u8]>, Vec<&[u8]>) =
        of_kind(&stored, 0).into_iter().partition(|pdu| tlv::search(pdu).is_ok());
    let mut tlvs = of_kind(&stored, 2);
    tlvs.extend(
        sound.iter().filter_map(|pdu| tlv::search(pdu).ok().map(|(at, size)| &pdu[at..at + size])),
    );
    Frames { sound: records(&sound), refused: records(&refused), tlvs: records(&tlvs) }
}
