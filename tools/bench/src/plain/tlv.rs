//! The search and the reader of the power TLV.

const MARK: [u8; 4] = [0x00, 0x12, 0x0F, 0x02];

pub struct Added {
    pub kind: u8,
    pub source: u8,
    pub priority: u8,
    pub requested: u16,
    pub allocated: u16,
}

pub struct Fields {
    pub octets: [u8; 3],
    pub added: Option<Added>,
}

/// "PDU search: 1, 6, 8, 7." Start and size of the part, or the refusal.
pub fn search(pdu: &[u8]) -> Result<(usize, usize), u8> {
    if pdu.len() > 1_500 {
        return Err(1);
    }
    let mut found = (0, 0);
    let mut number = 0;
    let mut at = 0;
    while let [high, low, body @ ..] = &pdu[at..] {
        if *high < 2 {
            break;
        }
        let length = usize::from(high & 1) << 8 | usize::from(*low);
        if length > body.len() {
            return Err(6);
        }
        if *high >= 254 && length >= 4 && body[..4] == MARK {
            found = (at, 2 + length);
            number += 1;
        }
        at += 2 + length;
    }
    match number {
        _ if at + 1 == pdu.len() => Err(6),
        0 => Err(7),
        1 => Ok(found),
        _ => Err(8),
    }
}

/// Request [4]: "refusal 10 only above 999".
fn too_high(value: u16) -> bool {
    value > 999
}

/// "Reading a TLV: 6, 9, 10."
pub fn read(bytes: &[u8]) -> Result<Fields, u8> {
    let [high, low, body @ ..] = bytes else { return Err(6) };
    let length = usize::from(high & 1) << 8 | usize::from(*low);
    if body.len() < length {
        return Err(6);
    }
    if body.len() != length || *high < 254 || length < 4 || body[..4] != MARK {
        return Err(9);
    }
    match body[4..] {
        [s, p, c] => Ok(Fields { octets: [s, p, c], added: None }),
        [s, p, c, codes, r1, r0, a1, a0] => {
            let requested = u16::from_be_bytes([r1, r0]);
            let allocated = u16::from_be_bytes([a1, a0]);
            if too_high(requested) || too_high(allocated) {
                return Err(10);
            }
            let added = Added {
                kind: codes >> 6,
                source: codes >> 4 & 3,
                priority: codes & 3,
                requested,
                allocated,
            };
            Ok(Fields { octets: [s, p, c], added: Some(added) })
        }
        _ => Err(9),
    }
}
