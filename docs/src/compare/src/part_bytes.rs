//! Parts as bytes, to be sent and to be spoiled.

use plain_card::part::{Part, HEADER};

/// A part as the card writes it.
pub fn part(part: Part, value: &[u8]) -> Vec<u8> {
    [&part.header(), value].concat()
}

/// A part of any type, flags and selector.
pub fn any_part(part_type: u16, flags: u8, selector: u64, value: &[u8]) -> Vec<u8> {
    let mut bytes = Vec::with_capacity(HEADER + value.len());
    bytes.extend(part_type.to_le_bytes());
    bytes.extend([flags, 0]);
    bytes.extend(selector.to_le_bytes());
    bytes.extend((value.len() as u32).to_le_bytes());
    bytes.extend(value);
    bytes
}

/// Puts more bytes in a list, ahead of the byte at `at`.
pub fn put_in(list: &mut Vec<u8>, at: usize, more: &[u8]) {
    let rest = list.split_off(at);
    list.extend_from_slice(more);
    list.extend_from_slice(&rest);
}

/// The selector bytes that the type does not use.
pub fn unread_selector(part_type: u16) -> std::ops::Range<usize> {
    match part_type {
        0x102 => 4..8,
        0x104 | 0x105 => 2..8,
        _ => 0..8,
    }
}
