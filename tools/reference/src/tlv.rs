//! The power TLV: search, reader and writer (document 01, "The power TLV").

/// "a PDU is over 1,500 bytes": 1.
pub const LONGEST_PDU: usize = 1_500;

/// "OUI 00-12-0F, subtype 2".
pub const MARK: [u8; 4] = [0x00, 0x12, 0x0F, 0x02];

/// "Type 127 (7 bits)".
pub const POWER_TYPE: u16 = 127;

/// Request [4]: "Table 79-5, allows 0 through 999", where document 01 has
/// "1..255".
pub const HIGHEST_VALUE: u64 = 999;

/// "type 01, source 01, priority 10, requested 255, allocated 130": what
/// length 12 adds. As wide as the console's numbers, so that the writer refuses
/// what is too large.
#[derive(Clone, Copy, PartialEq, Eq, Debug)]
pub struct Extension {
    pub kind: u64,
    pub source: u64,
    pub priority: u64,
    pub requested: u64,
    pub allocated: u64,
}

/// "three octets kept as they are (support, pair, class)", and the rest.
#[derive(Clone, Copy, PartialEq, Eq, Debug)]
pub struct Fields {
    pub octets: [u8; 3],
    pub extension: Option<Extension>,
}

/// "Type [..] (7 bits), length (9 bits)".
fn header(bytes: &[u8]) -> (u16, usize) {
    let word = u16::from_be_bytes([bytes[0], bytes[1]]);
    (word >> 9, usize::from(word & 0x1FF))
}

/// "A TLV of type 127, length 4 or more, with that OUI and subtype is a power
/// TLV."
fn is_power(tlv: &[u8]) -> bool {
    let (kind, length) = header(tlv);
    kind == POWER_TYPE && length >= 4 && tlv[2..6] == MARK
}

/// "PDU search: 1, 6, 8, 7." Answers offset and length of the part, header
/// included.
pub fn search(pdu: &[u8]) -> Result<(usize, usize), u8> {
    if pdu.len() > LONGEST_PDU {
        return Err(1);
    }
    let mut found = Vec::new();
    let mut at = 0;
    // "or where the bytes end on a boundary".
    while at < pdu.len() {
        // "A lone last byte is cut (6)."
        if pdu.len() - at < 2 {
            return Err(6);
        }
        let (kind, length) = header(&pdu[at..]);
        // "It ends at a type 0 header, whatever its length".
        if kind == 0 {
            break;
        }
        let end = at + 2 + length;
        // "a TLV runs past the end of the bytes": 6.
        if end > pdu.len() {
            return Err(6);
        }
        if is_power(&pdu[at..end]) {
            found.push((at, end - at));
        }
        at = end;
    }
    match found.len() {
        0 => Err(7),
        1 => Ok(found[0]),
        _ => Err(8),
    }
}

/// "Reading a TLV: 6, 9, 10."
pub fn read(bytes: &[u8]) -> Result<Fields, u8> {
    // "fewer than two bytes, or fewer than the header says, are 6; bytes left
    // over are 9."
    if bytes.len() < 2 {
        return Err(6);
    }
    let (_, length) = header(bytes);
    if bytes.len() < 2 + length {
        return Err(6);
    }
    let whole = bytes.len() == 2 + length;
    if !whole || !is_power(bytes) || (length != 7 && length != 12) {
        return Err(9);
    }
    let octets = [bytes[6], bytes[7], bytes[8]];
    if length == 7 {
        return Ok(Fields { octets, extension: None });
    }
    // "7:6 type, 5:4 source, 3:2 sent as zero and ignored when read, 1:0
    // priority".
    let codes = u64::from(bytes[9]);
    let value = |at: usize| u64::from(u16::from_be_bytes([bytes[at], bytes[at + 1]]));
    let extension = Extension {
        kind: codes >> 6,
        source: (codes >> 4) & 3,
        priority: codes & 3,
        requested: value(10),
        allocated: value(12),
    };
    // "the requested and allocated values, 16 bits each".
    if too_high(extension.requested) || too_high(extension.allocated) {
        return Err(10);
    }
    Ok(Fields { octets, extension: Some(extension) })
}

/// Request [4]: "Reading and writing a TLV now give refusal 10 only above 999."
fn too_high(value: u64) -> bool {
    value > HIGHEST_VALUE
}

/// "Writing: 3, 10, 1." "Room past a written TLV keeps its bytes."
pub fn write(room: &mut [u8], fields: &Fields) -> Result<(), u8> {
    if let Some(e) = &fields.extension {
        if e.kind > 3 || e.source > 3 || e.priority > 3 {
            return Err(3);
        }
        if too_high(e.requested) || too_high(e.allocated) {
            return Err(10);
        }
    }
    let tlv = made(fields);
    if room.len() < tlv.len() {
        return Err(1);
    }
    room[..tlv.len()].copy_from_slice(&tlv);
    Ok(())
}

/// The TLV of fields that are in range.
pub fn made(fields: &Fields) -> Vec<u8> {
    let length: u16 = if fields.extension.is_some() { 12 } else { 7 };
    let mut tlv = (POWER_TYPE << 9 | length).to_be_bytes().to_vec();
    tlv.extend_from_slice(&MARK);
    tlv.extend_from_slice(&fields.octets);
    if let Some(e) = &fields.extension {
        tlv.push((e.kind << 6 | e.source << 4 | e.priority) as u8);
        tlv.extend_from_slice(&(e.requested as u16).to_be_bytes());
        tlv.extend_from_slice(&(e.allocated as u16).to_be_bytes());
    }
    tlv
}
