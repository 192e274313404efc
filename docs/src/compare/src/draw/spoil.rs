//! Changes of one field of a request.

use plain_card::Card;

use super::{any_member, length, Favoured};
use crate::random::Random;

/// Changes one thing about a request.
pub fn spoil(random: &mut Random, card: &Card, favoured: Favoured, request: &mut Vec<u8>) {
    match random.below(9) {
        0 => {
            let opcode = opcode(random, request);
            put(request, 0, &opcode.to_le_bytes());
        }
        1 => {
            let group: u16 = random.pick(&[0, 2, 3, 0x100, 0x101, 0xffff]);
            put(request, 2, &group.to_le_bytes());
        }
        2 => put(request, 4, &random.bytes(12)),
        3 => put(request, 16, &any_member(random, card, favoured).to_le_bytes()),
        4 => put(request, 28, &id(random, card).to_le_bytes()),
        5 | 6 => change_length(random, request),
        _ => {
            // A byte of the data, more often one of its fixed fields.
            let data = request.len().saturating_sub(24);
            let among = if random.chance(80) { data.min(24) } else { data };
            if among > 0 {
                let at = 24 + random.below(among);
                let any = random.byte();
                request[at] = random.pick(&[0, 1, 2, 3, 0x80, 0xff, any]);
            }
        }
    }
}

/// Writes bytes if they lie in the request.
fn put(request: &mut [u8], at: usize, bytes: &[u8]) {
    if let Some(field) = request.get_mut(at..at + bytes.len()) {
        field.copy_from_slice(bytes);
    }
}

/// Another opcode; half of them differ from a supported one in a high bit.
fn opcode(random: &mut Random, request: &[u8]) -> u16 {
    let now = request.first().copied().unwrap_or(0) as u16;
    match random.below(6) {
        0 => now.wrapping_add(1),
        1 => now.wrapping_sub(1),
        2 => now | 0x40,
        3 => now | 1 << (6 + random.below(10)),
        4 => random.below(0x14) as u16,
        _ => random.bits() as u16,
    }
}

/// An id at the edges of validity.
pub fn id(random: &mut Random, card: &Card) -> u32 {
    let valid = u32::from(card.setup.gets) + u32::from(card.setup.sets);
    let low = random.below(17) as u32;
    random.pick(&[valid, valid + 1, 15, 16, 255, 256, low | 1 << 8, low | 1 << 16, u32::MAX, low])
}

fn change_length(random: &mut Random, request: &mut Vec<u8>) {
    let length = request.len();
    let lengths = [length + 1, length + 8, length + 16, length.saturating_sub(1)];
    let shorter = [length.saturating_sub(8), length.saturating_sub(16), 0, 23, 24, 4097];
    let wanted = match random.weighted(&[31, 31, 31, 7]) {
        0 => random.pick(&shorter),
        1 => random.below(length + 1),
        2 => random.pick(&lengths),
        _ => length::wrong(random, length.min(4096)),
    };
    request.resize(wanted, 0);
}
