//! A parts set that succeeds.

use plain_card::bytes::{HEADER, MODE, QUEUES, RECORD, VALUES};
use plain_card::frame::{u16_at, u32_at, u64_at, LONGEST};
use plain_card::opcode::Opcode;
use plain_card::part::{self, OPTIONAL, RESERVED_TYPES};

use super::named;
use super::sound::{is_ring, sound};

/// The parts of a member with four queues.
const PARTS: usize = 15;
/// Where the list starts in a request.
const LIST: usize = 32;

/// A parts set, unless it is refused.
#[inline(never)] // so that a capture is compiled as if it were alone
pub fn set(card: &mut [u8], request: &[u8], reply: &mut [u8]) -> Option<usize> {
    let (header, records) = card.split_first_chunk_mut::<HEADER>()?;
    let list = request.get(LIST..).filter(|_| request.len() <= LONGEST)?;
    let head = reply.first_chunk_mut::<8>()?;
    if !sound::<{ Opcode::PartsSet as u16 }>(header, records) {
        return None;
    }
    let (start, object) = named(header, request, Opcode::PartsSet)?;
    let record = records[start..].first_chunk_mut::<RECORD>()?;
    if record[object] != 2 || record[MODE] != 1 {
        return None;
    }
    let found = find(list, record)?;
    for (part, value) in found.iter().enumerate().skip(1) {
        if let Some(value) = value {
            let (offset, length) = place(part);
            record[VALUES + offset..][..length].copy_from_slice(value);
        }
    }
    *head = [0; 8];
    Some(8)
}

/// The values of the list, each at the place of its part in the table, unless the
/// list is bad.
fn find<'a>(list: &'a [u8], record: &[u8; RECORD]) -> Option<[Option<&'a [u8]>; PARTS]> {
    let mut found = [None; PARTS];
    let mut rest = list;
    while !rest.is_empty() {
        let (header, behind) = rest.split_first_chunk::<{ part::HEADER }>()?;
        let (value, behind) = behind.split_at_checked(u32_at(header, 12) as usize)?;
        rest = behind;
        match index(u16_at(header, 0), u32_at(header, 4), record[QUEUES]) {
            Some(part) if found[part].is_none() && allowed(part, value, record) => {
                found[part] = Some(value);
            }
            None if header[2] & OPTIONAL != 0 && u16_at(header, 0) < RESERVED_TYPES => {}
            _ => return None,
        }
    }
    Some(found)
}

/// The place in the table of the part that type and selector name.
fn index(part_type: u16, selector: u32, queues: u8) -> Option<usize> {
    let queue = usize::from(selector as u16);
    let has = queue < usize::from(queues);
    match (part_type, selector) {
        (0x100, _) => Some(0),
        (0x101, _) => Some(1),
        (0x102, 0) => Some(2),
        (0x102, 8) => Some(3),
        (0x102, 16) => Some(4),
        (0x102, 22) => Some(5),
        (0x103, _) => Some(6),
        (0x104, _) if has => Some(7 + queue),
        (0x105, _) if has => Some(11 + queue),
        _ => None,
    }
}

/// Where the value of a part stands, and its length.
fn place(part: usize) -> (usize, usize) {
    match part {
        0 => (0, 16),
        1 => (16, 16),
        2 => (32, 4),
        3 => (36, 4),
        4 => (40, 2),
        5 => (42, 2),
        6 => (44, 1),
        7..11 => (45 + 32 * (part - 7), 32),
        _ => (173 + 8 * (part - 11), 8),
    }
}

/// Whether a part may have this value.
fn allowed(part: usize, value: &[u8], record: &[u8; RECORD]) -> bool {
    let (_, length) = place(part);
    value.len() == length
        && match part {
            0 => *value == record[VALUES..VALUES + 16],
            7..11 => is_ring(u64_at(value, 0)),
            _ => true,
        }
}
